"""Faults of the system during `actrun try`, by real limits: full disks, no descriptors, endless output."""
from __future__ import annotations

import contextlib
import os
import re
import shutil
import subprocess
import time
import unittest
from pathlib import Path

from actrun_front.step_log import size, spelled

from .try_case import NEEDS_PROGRAM, WORKFLOW, TryCase

FULL = "No space left on device"
ROOM = "make room there, or name another place by the variable XDG_CACHE_HOME"
TWO_LEGS = WORKFLOW.replace("    steps:\n", "    strategy: {matrix: {v: [1, 2]}}\n    steps:\n")


class SystemCase(TryCase):
    """An execution whose cache is small."""

    def mount(self, size: str) -> Path:
        """A file system of a size."""
        small = self.room / f"small-{size}"
        small.mkdir()
        if os.geteuid() or subprocess.run(["mount", "-t", "tmpfs", "-o", f"size={size}", "tmpfs", small],
                                          capture_output=True, check=False).returncode:
            self.skipTest("a file system cannot be mounted here")
        self.addCleanup(subprocess.run, ["umount", "-l", str(small)], check=False, capture_output=True)
        return small

    def limited(self, limit: str, *words: str) -> subprocess.CompletedProcess[str]:
        """Calls `actrun try` below a limit of `ulimit`."""
        done = subprocess.run(["bash", "-c", f'ulimit {limit} && exec "$@"', "bash",
                               *self.command("--no-sandbox", *words)], cwd=self.project,
                              env=self.environment, stdin=subprocess.DEVNULL, capture_output=True,
                              check=False, timeout=120)
        return subprocess.CompletedProcess(done.args, done.returncode, done.stdout.decode("utf-8", "replace"),
                                           done.stderr.decode("utf-8", "replace"))

    def links(self, folder: Path) -> list[str]:
        """What the descriptors of a process are."""
        found = []
        for path in folder.iterdir():
            with contextlib.suppress(OSError):
                found.append(os.readlink(path))
        return found

    def assert_told(self, done: subprocess.CompletedProcess[str], place: Path, *texts: str) -> None:
        """The status is that of the system, whose fault is named with its place and the remedy."""
        self.assert_status(done, 3)
        for text in (str(place), *texts):
            self.assertIn(text, done.stderr)
        self.assertNotIn("Traceback", done.stdout + done.stderr)
        self.assertNotIn("unforeseen", done.stderr)


@NEEDS_PROGRAM
class Disks(SystemCase):
    """Full disks."""

    def test_a_tree_that_does_not_fit(self) -> None:
        """Whatever else is written before it, and wherever the copy fails."""
        self.workflow("- run: 'true'")
        (self.project / "big").write_bytes(os.urandom(1 << 20))
        for commit in (False, True):
            self.commit() if commit else None
            for most in ("64k", "512k", "1m") if commit else ("64k", "256k", "512k"):
                small = self.mount(most)
                self.assert_told(self.attempt(XDG_CACHE_HOME=str(small)), small, FULL, ROOM)
                subprocess.run(["umount", "-l", str(small)], check=False)
                shutil.rmtree(small)
        self.assert_status(self.attempt(XDG_CACHE_HOME=str(self.mount("4m"))), 0)

    def test_places_that_are_nearly_full(self) -> None:
        """Each execution succeeds, or says that the system ended it."""
        self.workflow("- run: 'true'")
        self.commit()
        for number in (3, 9, 15, 21, 27):
            small = self.mount("256k")
            (small / "filler").write_bytes(bytes(256 * 1024 - number * 4096))
            done = self.attempt(XDG_CACHE_HOME=str(small))
            self.assertNotIn("Traceback", done.stdout + done.stderr)
            if done.returncode:
                self.assert_told(done, small, FULL, ROOM)
            elif "\nreport " not in done.stdout:
                self.assertIn("note: the page cannot be written: ", done.stderr)
            subprocess.run(["umount", "-l", str(small)], check=False)
            shutil.rmtree(small)

    def test_a_step_that_fills_the_disk(self) -> None:
        self.workflow("- run: echo before\n- name: fills\n  run: echo begun; head -c 4000000 /dev/zero > big; echo never\n- run: echo after\n  if: always()")
        small = self.mount("2m")
        done = self.attempt(XDG_CACHE_HOME=str(small))
        self.assert_told(done, small, f"\nended by the system: {small}", FULL, ROOM)
        self.assertEqual(done.stderr.count("ended by the system"), 1)
        self.assertRegex(done.stdout, rf"\(the log is (cut here|lost): {small}/.*: {FULL}\)\n")
        self.assertIn("before\n", done.stdout)

    def test_what_a_step_printed_is_shown_where_its_log_is_lost(self) -> None:
        """With its secrets hidden, those of earlier steps of the leg among them."""
        self.workflow("""
- name: masks
  run: echo ::add-mask::hidden-word; echo before
- name: fills
  run: |
    echo begun with ${{ secrets.KEY }} and hidden-word; seq 400 >&2
    until [ -e ../../files/go-on ]; do sleep 0.05; done
    head -c 4000000 /dev/zero > big; echo never
""")
        small = self.mount("2m")
        child = subprocess.Popen(self.command("--no-sandbox", "-s", "KEY=sesame-open"), cwd=self.project,
                                 env={**self.environment, "XDG_CACHE_HOME": str(small)},
                                 stdin=subprocess.DEVNULL, stdout=subprocess.PIPE, stderr=subprocess.PIPE,
                                 text=True)
        self.addCleanup(child.kill)
        end, held = time.monotonic() + 60, Path(f"/proc/{child.pid}/fd")
        while not any("step-0-1.stdout" in link for link in self.links(held)) and time.monotonic() < end:
            time.sleep(0.05)
        for folder in small.glob("actrun/work/*/play/files"):
            (folder / "go-on").touch()
        out, err = child.communicate(timeout=60)
        self.assertEqual(child.returncode, 3, out + err)
        self.assertIn("\n--- one: fills\nbegun with *** and ***\n1\n2\n", out)
        self.assertRegex(out, rf"\n399\n400\n(.*\n)?\(the log is cut here: {small}/.*: {FULL}\)\n")
        for secret in ("sesame-open", "hidden-word"):
            self.assertNotIn(secret, out + err)

    def test_a_leg_whose_tree_does_not_fit(self) -> None:
        (self.project / "big").write_bytes(os.urandom(600_000))
        self.workflow("- run: echo through", TWO_LEGS)
        small = self.mount("1m")
        self.assert_told(self.attempt(XDG_CACHE_HOME=str(small)), small, f"ended by the system: {small}",
                         FULL)

    def test_a_cache_and_a_full_disk(self) -> None:
        self.workflow("- uses: actions/cache@v4\n  with: {path: data, key: k}\n- run: mkdir -p data; echo x > data/y\n- run: head -c 4000000 /dev/zero > big")
        small = self.mount("1m")
        done = self.attempt(XDG_CACHE_HOME=str(small))
        self.assert_told(done, small, FULL)
        self.workflow("- uses: actions/cache@v4\n  with: {path: data, key: k}\n- run: mkdir -p data; head -c 300000 /dev/urandom > data/y")
        for number in range(3):
            small = self.mount(f"{512 + 128 * number}k")
            done = self.attempt(XDG_CACHE_HOME=str(small))
            self.assertNotIn("Traceback", done.stdout + done.stderr)

    def test_a_cut_entry_of_the_cache_is_no_cache(self) -> None:
        self.workflow("- uses: actions/cache@v4\n  with: {path: data, key: k}\n- run: mkdir -p data; echo x > data/y")
        self.assert_status(self.attempt("--no-sandbox"), 0)
        entry, = self.home.glob(".cache/actrun/caches/*/*/entry.json")
        entry.write_bytes(entry.read_bytes()[:9])
        done = self.attempt("--no-sandbox")
        self.assert_status(done, 0)
        self.assertIn("no cache has the key k", done.stdout)


@NEEDS_PROGRAM
class Limits(SystemCase):
    """Limits of descriptors, processes and files."""

    def test_no_more_descriptors(self) -> None:
        self.workflow("- run: echo shown; sleep 0.3", TWO_LEGS.replace("[1, 2]", "[1, 2, 3, 4, 5, 6]"))
        found = []
        for most in range(12, 26, 2):
            done = self.limited(f"-n {most}", "--workers", "6")
            self.assertNotRegex(done.stdout + done.stderr, "Traceback|unforeseen")
            self.assertIn(done.returncode, (0, 3), f"{most}: {done.stderr}")
            if done.returncode:
                self.assertIn("Too many open files", done.stderr)
            found += re.findall("ended by the system: (.*)", done.stderr)
        self.assertEqual(set(found), {"Too many open files: `ulimit -n 1024` lets a shell open more"})

    @unittest.skipUnless(os.geteuid() == 0 and shutil.which("setpriv") and shutil.which("prlimit"),
                         "only root can be somebody else")
    def test_no_more_processes(self) -> None:
        """As somebody without other processes."""
        self.workflow("- run: echo shown; sleep 0.3", TWO_LEGS.replace("[1, 2]", "[1, 2, 3, 4, 5, 6]"))
        user, told = 60000 + os.getpid() % 5000, 0
        other = ["setpriv", f"--reuid={user}", f"--regid={user}", "--clear-groups"]
        if any(subprocess.run(words, capture_output=True, check=False).returncode
               for words in ([*other, "true"], ["chown", "-R", str(user), str(self.room)])):
            self.skipTest("nobody else can be had here")
        for most in range(2, 18, 2):
            words = [*other, "prlimit", f"--nproc={most}", *self.command("--no-sandbox", "--workers", "6")]
            done = subprocess.run(words, cwd=self.project, env=self.environment, stdin=subprocess.DEVNULL,
                                  capture_output=True, text=True, check=False, timeout=120)
            if done.returncode == 127 or "Permission denied" in done.stderr:
                self.skipTest("the folders of this test are closed to others")
            self.assertNotRegex(done.stdout + done.stderr, "Traceback|unforeseen")
            self.assertIn(done.returncode, (0, 3), done.stderr)
            told += "Resource temporarily unavailable" in done.stderr
        self.assertGreater(told, 0)

    def test_a_limit_of_the_size_of_files(self) -> None:
        self.workflow("- run: head -c 200000 /dev/zero | tr '\\0' x; echo")
        done = self.limited("-f 60")
        self.assertNotIn("Traceback", done.stdout + done.stderr)
        self.assertIn(done.returncode, (1, 3))


@NEEDS_PROGRAM
class Output(SystemCase):
    """Output beyond --log-limit."""

    def log(self, step: int = 0) -> bytes:
        """The log of a step."""
        return (self.work() / "play" / f"step-0-{step}.log").read_bytes()

    def test_the_log_ends_and_the_step_goes_on(self) -> None:
        self.workflow("""
- run: |
    echo first; echo err >&2
    for i in 1 2 3 4 5 6 7 8 9; do head -c 3000000 /dev/zero | tr '\\0' 'x' | fold -w 99; sleep 0.1; done
    echo gone; touch done; (while :; do echo background; sleep 0.01; done) &
- run: "[ -e done ]; echo second"
""")
        done = self.attempt("--no-sandbox", "--log-limit", "2M")
        self.assert_status(done, 0)
        note = "(the log is cut here: the step printed more than 2 MiB; --log-limit names another limit)"
        log = self.log()
        self.assertEqual(log.count(note.encode()), 1)
        self.assertLess(len(log), (2 << 20) + 200)
        self.assertGreater(len(log), (2 << 20) - 300)
        self.assertRegex(log[-len(note) - 120:].decode(), rf"x\n{re.escape(note)}\n$")
        self.assertEqual(done.stdout.count(note), 1)
        self.assertIn("\nsecond\n", done.stdout)
        self.assertNotIn("\ngone\n", done.stdout)
        self.assertTrue(log.split(b"\n", 2)[1].startswith((b"first", b"x")))

    def test_standard_error_has_its_half(self) -> None:
        self.workflow("- run: |\n    head -c 900000 /dev/zero | tr '\\0' 'x' | fold -w 99\n    sleep 0.5; for i in $(seq 30); do seq -f 'é%.0f' 9000 >&2; sleep 0.05; done; sleep 0.5; exit 3")
        done = self.attempt("--no-sandbox", "--log-limit", "1M")
        self.assert_status(done, 1)
        log = self.log().decode("utf-8")
        self.assertEqual(log.count("the log is cut here"), 1)
        self.assertIn("\né1\n", log)
        self.assertLess(len(log.encode()), (1 << 20) + 200)
        self.assertIn("exit 3", done.stderr)

    def test_a_burst_between_two_looks_is_cut_too(self) -> None:
        self.workflow("- run: head -c 3000000 /dev/zero | tr '\\0' 'x' | fold -w 99\n- run: echo second")
        self.assert_status(self.attempt("--no-sandbox", "--log-limit", "300k"), 0)
        log = self.log()
        self.assertLess(len(log), 300 * 1024 + 200)
        self.assertTrue(log.endswith(b"x\n(the log is cut here: the step printed more than 300 KiB; --log-limit names another limit)\n"))

    def test_what_fits_is_not_touched(self) -> None:
        self.workflow("- run: seq 50000; seq 9 >&2; exec sleep 0.5")
        self.assert_status(self.attempt("--no-sandbox", "--log-limit", "1M"), 0)
        log = self.log().split(b"\n", 1)[1]
        self.assertEqual(log, b"".join(b"%d\n" % number for number in (*range(1, 50001), *range(1, 10))))

    def test_a_limit_is_refused_in_the_repository(self) -> None:
        self.workflow("- run: 'true'")
        self.write(".actrunrc", "--log-limit 0\n")
        done = self.attempt()
        self.assert_status(done, 2)
        self.assertRegex(done.stderr, r"\.actrunrc:(1:)? --log-limit cannot be in a file of the repository")
        (self.project / ".actrunrc").unlink()
        done = self.attempt("--log-limit", "much")
        self.assert_status(done, 2)
        self.assertIn("--log-limit much: a number of bytes was expected, as 500M or 1G; 0 is no limit",
                      done.stderr)

    def test_sizes(self) -> None:
        self.assertEqual([size(text) for text in ("0", "7", "3k", "500M", "1G", "2GiB", "1gb")],
                         [0, 7, 3072, 500 << 20, 1 << 30, 2 << 30, 1 << 30])
        self.assertEqual([spelled(count) for count in (7, 3072, 500 << 20, 1 << 30)],
                         ["7 bytes", "3 KiB", "500 MiB", "1 GiB"])
        for text in ("", "x", "-1", "1.5G", "1T", "9" * 13):
            self.assertRaises(ValueError, size, text)


if __name__ == "__main__":
    unittest.main()
