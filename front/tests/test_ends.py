"""How an execution of `actrun try` ends from outside, and what is kept of executions."""
from __future__ import annotations

import os
import re
import signal
import subprocess
import sys
import time
import unittest
from pathlib import Path

from actrun_front import keeping
from actrun_front.tree import clean, make_room

from .try_case import NEEDS_PROGRAM, PROGRAM, TryCase, sandbox_works

SECONDS = 60


def wait_until(holds, message: str) -> None:
    """Waits for something; fails where that takes longer than a minute."""
    end = time.monotonic() + SECONDS
    while not holds():
        if time.monotonic() > end:
            raise AssertionError(message)
        time.sleep(0.02)


def sleeping() -> list[int]:
    """The processes that steps of these tests left asleep."""
    found = subprocess.run(["pgrep", "-f", rf"^sleep 8[0-9]\.{os.getpid()}$"], capture_output=True, text=True,
                           check=False)
    return [int(number) for number in found.stdout.split()]


class Ending(TryCase):
    """A front that is ended from outside, and work folders."""

    def setUp(self) -> None:
        super().setUp()
        # (also where the tests are started in the background or by `nohup`)
        for number, handler in ((signal.SIGINT, signal.default_int_handler), (signal.SIGQUIT, signal.SIG_DFL),
                                (signal.SIGHUP, signal.SIG_DFL)):
            self.addCleanup(signal.signal, number, signal.signal(number, handler))
        self.addCleanup(lambda: [os.kill(number, signal.SIGKILL) for number in sleeping()])
        self.works = self.home / ".cache" / "actrun" / "work"

    def start(self, *words: str) -> subprocess.Popen[str]:
        """Starts an execution, and gives it when its second step is going on."""
        self.workflow(f"- run: echo first\n- name: long\n  run: touch here; (sleep 81.{os.getpid()} &); sleep 82.{os.getpid()}\n"
                      "- if: always()\n  run: touch after")
        child = subprocess.Popen(self.command(*words), cwd=self.project, env=self.environment, text=True,
                                 stdin=subprocess.DEVNULL,
                                 stdout=subprocess.PIPE, stderr=subprocess.PIPE, start_new_session=True)
        self.addCleanup(child.kill)
        wait_until(lambda: list(self.works.glob("*/play/tree/project/here")) and len(sleeping()) == 2,
                   "the step does not begin")
        return child

    def check_killed(self, *words: str) -> None:
        """The front is killed: the steps end, and the next execution gives the record what it had."""
        child = self.start(*words)
        room = self.work()
        part = room / "private" / "record.part"
        self.assertEqual(part.stat().st_mode & 0o777, 0o200 if "--no-sandbox" in words else 0o600)
        (os.killpg if words else os.kill)(child.pid, signal.SIGKILL)  # (the front's group, or the front alone)
        child.communicate(timeout=SECONDS)
        wait_until(lambda: not sleeping(), "the steps go on")
        wait_until(lambda: part.stat().st_mode & 0o777 == 0o600, "the part cannot be read")
        self.assertFalse(list(room.glob("play/tree/*/after")))
        events = part.read_bytes()
        self.workflow("- run: 'true'")
        self.assert_status(self.attempt("-n"), 0)
        self.assertFalse(part.exists())
        record = room / "private" / "record"
        self.assertEqual((record.read_bytes(), record.stat().st_mode & 0o777), (events, 0o600))
        why = subprocess.run([PROGRAM, "why", record], capture_output=True, text=True, check=False)
        self.assertRegex(why.stdout, r"step 1 \(long\) runs since line \d+")

    @NEEDS_PROGRAM
    def test_a_killed_front_ends_the_steps(self) -> None:
        self.check_killed("--no-sandbox")

    @NEEDS_PROGRAM
    @unittest.skipUnless(sandbox_works(), "bwrap is not installed or does not work here")
    def test_a_killed_front_ends_the_sandbox(self) -> None:
        self.check_killed()

    @NEEDS_PROGRAM
    def test_the_quit_key_is_like_ctrl_c(self) -> None:
        child = self.start("--no-sandbox")
        os.killpg(child.pid, signal.SIGQUIT)
        out, err = child.communicate(timeout=SECONDS)
        self.assertEqual(child.returncode, 128 + signal.SIGQUIT, out + err)
        self.assertIn("Ctrl-\\: the steps are being ended", err)
        self.assertIn("; stopped by Ctrl-\\  [", out)
        self.assertEqual(sleeping(), [])

    @NEEDS_PROGRAM
    def test_a_signal_before_the_execution_leaves_nothing(self) -> None:
        self.workflow("- run: 'true'")
        slow = self.room / "slow"
        slow.write_text(f"#!/bin/sh\n[ \"$1\" != plan ] || {{ touch {self.room}/planning; exec sleep 83.{os.getpid()}; }}\nexec {PROGRAM} \"$@\"\n", encoding="utf-8")
        slow.chmod(0o755)
        for number, name in ((signal.SIGINT, "Ctrl-C"), (signal.SIGQUIT, "Ctrl-\\"),
                             (signal.SIGTERM, "SIGTERM"), (signal.SIGHUP, "SIGHUP")):
            (self.room / "planning").unlink(missing_ok=True)
            child = subprocess.Popen(self.command(), cwd=self.project,
                                     env={**self.environment, "ACTRUN_PROGRAM": str(slow)}, text=True,
                                     stdin=subprocess.DEVNULL, stdout=subprocess.PIPE, stderr=subprocess.PIPE,
                                     start_new_session=True)
            self.addCleanup(child.kill)
            wait_until(lambda: (self.room / "planning").exists(), "nothing is planned")
            os.killpg(child.pid, number)
            out, err = child.communicate(timeout=SECONDS)
            self.assertEqual((child.returncode, out, err), (128 + number, "", f"actrun: stopped by {name}\n"))
            self.assertEqual(list(self.works.iterdir()), [])

    def end_long_ago(self, folder: Path, hours: float = 2) -> None:
        """Lets the execution of a work folder have ended hours ago."""
        since = time.clock_gettime(time.CLOCK_BOOTTIME) - 3600 * hours
        (folder / "ended").write_text(f"{keeping.boot()} {since} {time.time() - 3600 * hours}\n",
                                      encoding="ascii")

    @NEEDS_PROGRAM
    def test_an_execution_keeps_what_it_names(self) -> None:
        """Others begin and end meanwhile, and the clock may be set back."""
        self.workflow(f"- run: touch here; until [ -e {self.home}/go-on ]; do sleep 0.05; done")
        long = subprocess.Popen(self.command("--no-sandbox"), cwd=self.project, env=self.environment,
                                text=True, stdin=subprocess.DEVNULL,
                                stdout=subprocess.PIPE, stderr=subprocess.PIPE)
        self.addCleanup(long.kill)
        wait_until(lambda: list(self.works.glob("*/play/tree/project/here")), "the step does not begin")
        own = self.work()
        self.workflow("- run: 'true'")
        for _ in range(2):
            self.assert_status(self.attempt("--no-sandbox"), 0)
        short = [folder for folder in self.works.iterdir() if folder != own]
        newer = [make_room(self.works, "more") for _ in range(4)]
        for room in newer:
            keeping.note_end(room.folder)
            room.lock.close()
        for folder in short:
            self.end_long_ago(folder)
        os.utime(own, (0, 0))
        (self.home / "go-on").touch()
        out, err = long.communicate(timeout=SECONDS)
        self.assertEqual(long.returncode, 0, out + err)
        named = [Path(name) for name in re.findall(r"(?m)^(?:record|report|tree) +(/.+)$",
                                                   out)]
        self.assertEqual([name for name in named if not name.exists()], [])
        self.assertEqual(len(named), 3)
        # (the newest five are kept: the four newer ones, and the last of the short ones)
        self.assertEqual(sorted(self.works.iterdir()), sorted([own, *(room.folder for room in newer),
                                                               keeping_last(short)]))

    def test_folders_that_ended_within_the_hour_are_kept(self) -> None:
        made = [make_room(self.works, f"n{number}") for number in range(9)]
        for hours, room in zip((3, 0.9, 2, -5, 1.1, 3, 3, 3, 3), made):
            self.end_long_ago(room.folder, hours)
            room.lock.close()
        other = made[3].folder / "ended"
        other.write_text(f"another-start 5.0 {time.time() + 18000}\n",
                         encoding="ascii")  # (the clock was ahead then)
        clean(self.works, self.home)
        self.assertEqual(sorted(folder.name[:2] for folder in self.works.iterdir()),
                         ["n1", "n3", "n4", "n5", "n6", "n7", "n8"])

    def test_numbers_and_not_times_say_what_is_old(self) -> None:
        made = [make_room(self.works, "zyxwvutsrq"[number]) for number in range(7)]
        for number, room in enumerate(made):
            self.end_long_ago(room.folder, number + 2)
            room.lock.close()
            os.utime(room.folder, (-number, -number))
        self.assertEqual([keeping.number_of(room.folder) for room in made], [1, 2, 3, 4, 5, 6, 7])
        clean(self.works, self.home)
        self.assertEqual([folder.name[0] for folder in keeping.folders_of(self.works)], list("xwvut"))

    def test_many_begin_and_end_at_once(self) -> None:
        """Each has a number of its own, and nobody's folder is removed."""
        code = ("import sys; from pathlib import Path; from actrun_front import keeping; from actrun_front.tree import clean, make_room\n"
                "for _ in range(5):\n"
                "    room = make_room(Path(sys.argv[1]), 'n'); keeping.note_end(room.folder); clean(Path(sys.argv[1]), room.folder)\n"
                "    assert (room.folder / 'private').is_dir(); room.lock.close()\n")
        front = Path(__file__).resolve().parent.parent
        children = [subprocess.Popen([sys.executable, "-c", code, str(self.works)], cwd=front,
                                     env=self.environment,
                                     stderr=subprocess.PIPE) for _ in range(8)]
        for child in children:
            self.assertEqual((child.communicate(timeout=SECONDS)[1], child.returncode), (b"", 0))
        numbers = [keeping.number_of(folder) for folder in self.works.iterdir()]
        self.assertEqual(sorted(numbers), list(range(1, 41)))

    def test_a_room_that_cannot_be_made_leaves_nothing(self) -> None:
        small = self.room / "small"
        small.mkdir()
        if os.geteuid() or subprocess.run(["mount", "-t", "tmpfs", "-o", "nr_inodes=8", "tmpfs", small],
                                          capture_output=True, check=False).returncode:
            self.skipTest("a file system cannot be mounted here")
        self.addCleanup(subprocess.run, ["umount", "-l", str(small)], check=False)
        with self.assertRaises(OSError):
            make_room(small / "work", "n")
        self.assertEqual(list((small / "work").iterdir()), [])


def keeping_last(folders: list[Path]) -> Path:
    """The folder with the greatest number."""
    return max(folders, key=keeping.number_of)
