"""Tests of the record of `run`: what signals, full disks, missing folders, many legs and great files make of it.

The environment variable ACTRUN_PROGRAM names a built program; `tools/unit_tests.py` is started with it by `tools/test`. What takes
long is tested where ACTRUN_ALL_TESTS is set.
"""
from __future__ import annotations

import collections
import concurrent.futures
import contextlib
import json
import os
import pty
import random
import re
import shutil
import signal
import subprocess
import sys
import tempfile
import threading
import time
import unittest
from collections.abc import Callable, Iterator
from pathlib import Path

TOP = Path(__file__).resolve().parent.parent
ALL = bool(os.environ.get("ACTRUN_ALL_TESTS"))
# starts the words after it with 2 GB of addresses
LIMITED = ["sh", "-c", 'ulimit -v 2000000 && exec "$@"', "sh"]
# (a server that a step starts has its number in its command line, so that it is found again)
UNIQUE = f"{os.getpid()}"
STARTER = 'set -u; top=$1 program=$2; shift 2; . "$top/tools/dispatch.sh"; answer "$@"'
# gives an output of some 60 kB
GREAT = "printf 'great=%060000d\\n' 1 >> $GITHUB_OUTPUT"
LONG = [{"name": "first", "run": f"echo shown; sleep 71.{UNIQUE} & (set -m; sleep 72.{UNIQUE} &); env -i sleep 73.{UNIQUE} &"},
        {"name": "long", "run": f"sleep 74.{UNIQUE} & (set -m; timeout 99 sleep 75.{UNIQUE} & wait) & touch here; sleep 76.{UNIQUE}"},
        {"run": "echo never"}]


def program() -> str:
    """The program that the tests use."""
    named = os.environ.get("ACTRUN_PROGRAM")
    if not named:
        raise RuntimeError("ACTRUN_PROGRAM has to name a built program: start these tests by tools/test python")
    return str(Path(named).resolve())


def sleeps() -> dict[str, int]:
    """The sleeping processes that these tests started, by their seconds."""
    found = {}
    for place in Path("/proc").glob("[0-9]*/cmdline"):
        try:
            words = place.read_bytes().split(b"\0")
        except OSError:
            continue
        if words[0] == b"sleep" and words[1].endswith(UNIQUE.encode()):
            found[words[1].decode()] = int(place.parent.name)
    return found


class Case(unittest.TestCase):
    """A folder with a plan, and the ways to execute it."""

    def setUp(self) -> None:
        self.room = Path(tempfile.mkdtemp(prefix="actrun-record-")).resolve()
        self.addCleanup(shutil.rmtree, self.room, ignore_errors=True)
        self.addCleanup(lambda: [os.kill(it, signal.SIGKILL) for it in sleeps().values()])
        self.work, self.record = self.room / "work", self.room / "r"
        self.part = self.room / "r.part"
        self.work.mkdir()

    def plan(self, steps: list[dict], legs: int = 1, jobs: int = 1, secrets: dict[str, str] | None = None) -> Path:
        """The plan of jobs with these steps, each with that many legs, over these secrets."""
        matrix = {"strategy": {"fail-fast": False, "matrix": {"leg": list(range(legs))}}}
        job = {"runs-on": "x", "steps": steps, **(matrix if legs > 1 else {})}
        flow = {"on": "push", "jobs": {f"job-{number}": job for number in range(jobs)}}
        flows, contexts, plan = (self.room / name for name in ("flow.json", "contexts.json", "plan"))
        flows.write_text(json.dumps(flow), encoding="utf-8")
        contexts.write_text(json.dumps({"secrets": secrets or {}}), encoding="utf-8")
        plan.write_bytes(subprocess.run([program(), "plan", "--contexts", contexts, flows], check=True, stdout=subprocess.PIPE).stdout)
        return plan

    def words(self, plan: Path, *more: str) -> list[str]:
        """The words of `run` by the program itself."""
        return [program(), "run", "--work", str(self.work), *(more or ("--record", str(self.record))), str(plan)]

    def script(self, *words: str) -> list[str]:
        """The same words by what the script `actrun` does with them."""
        return ["bash", "-c", STARTER, "actrun", str(TOP), *words]

    def run_words(self, words: list[str], **more) -> subprocess.CompletedProcess[str]:
        """What a command answers."""
        more.setdefault("stdin", None if "input" in more else subprocess.DEVNULL)
        more.setdefault("timeout", 60)
        if "input" in more:
            del more["stdin"]
        return subprocess.run(words, text=True, capture_output=True, check=False, **more)

    def lines(self, file: Path, cut: bool = False) -> list[bytes]:
        """The lines of a record that `table` accepts. All of them are whole; or the last may be cut, and is left out then."""
        text = file.read_bytes()
        if cut:
            text = text[:text.rfind(b"\n") + 1]
        answer = subprocess.run([program(), "table"], input=text, capture_output=True, check=False)
        self.assertEqual((answer.returncode, answer.stderr, text[-1:]), (0, b"", b"\n"), text[-300:])
        return text.splitlines(keepends=True)

    def entries(self, stopped: bool = False) -> list[dict]:
        """The entries of the record that a run left. Where it was stopped, it also left the part, which may have more."""
        self.assertEqual(self.part.exists(), stopped)
        if stopped:
            self.assertTrue(self.part.read_bytes().startswith(self.record.read_bytes()))
        return [json.loads(line) for line in self.lines(self.record)[1:]]

    def answers(self) -> list[list]:
        """How the steps of each leg ended: the code, or else the kind."""
        found = collections.defaultdict(list)
        for it in self.entries():
            if it["event"] == "end":
                found[it["leg"]].append(it["answer"].get("code", it["answer"]["kind"]))
        return [found[leg] for leg in sorted(found)]

    def mount(self, folder: Path) -> None:
        """Makes a folder a file system of 64 KiB."""
        folder.mkdir(exist_ok=True)
        if subprocess.run(["mount", "-t", "tmpfs", "-o", "size=64k", "tmpfs", str(folder)], capture_output=True, check=False).returncode:
            self.skipTest("a file system cannot be mounted here")
        self.addCleanup(subprocess.run, ["umount", "-l", str(folder)], check=False)


class Growing(Case):
    """What a run leaves that nobody stops, or that is killed."""

    def test_a_kill_at_any_moment_leaves_a_beginning_of_a_legal_record(self) -> None:
        """A kill may cut the last line, where that is longer than a page. FILE is whole, or what it was."""
        plan = self.plan([{"run": "echo one=1 >> $GITHUB_OUTPUT"}, {"run": GREAT}, {"run": "exit 1"}], 4)
        began = time.monotonic()
        self.run_words(self.words(plan))
        whole, longest = self.lines(self.record), time.monotonic() - began

        def kill(number: int) -> int:
            """How many lines there are after a kill; -1 where the run had ended."""
            room = self.room / str(number)
            room.mkdir()
            part, record = room / "r.part", room / "r"
            before = b"old" * (number % 2)
            if before:
                record.write_bytes(before)
            words = [program(), "run", "--workers", "2", "--work", str(room), "--record", str(record), str(plan)]
            with subprocess.Popen(words, stdout=subprocess.DEVNULL, stderr=subprocess.DEVNULL) as child:
                time.sleep(random.uniform(0, longest))
                child.kill()
            after = record.read_bytes() if record.exists() else b""
            if after != before:
                self.assertEqual(len(self.lines(record)), len(whole))
                self.assertEqual(after, part.read_bytes() if part.exists() else after)
            if not part.exists():
                return 0 if after == before else -1
            lines = self.lines(part, cut=True) if b"\n" in part.read_bytes() else []
            self.assertEqual(lines[:1], whole[:1] if lines else [])
            return len(lines)
        with concurrent.futures.ThreadPoolExecutor(4) as pool:
            counts = list(pool.map(kill, range(int(os.environ.get("ACTRUN_KILLS", "1000" if ALL else "40")))))
        if "ACTRUN_KILLS" in os.environ:
            print(sorted(counts), file=sys.stderr)
        self.assertTrue(any(1 < count < len(whole) for count in counts), counts)

    def test_the_part_is_a_record_from_the_first_step_on(self) -> None:
        """Every command takes it, also after a kill."""
        plan = self.plan([{"run": f"cp {self.part} seen"}, {"run": "kill -KILL $PPID; sleep 0.1"}])
        self.assertEqual(self.run_words(self.words(plan)).returncode, -signal.SIGKILL)
        seen, left = self.lines(self.work / "seen"), self.lines(self.part)
        self.assertEqual((seen[0], [json.loads(line)["event"] for line in seen[1:]]), (plan.read_bytes(), ["open", "judge", "ask", "take", "begin"]))
        self.assertEqual((left[:6], [json.loads(line)["event"] for line in left[6:]]), (seen, ["end", "begin"]))
        for command, status, text in (("replay", 4, "run 0 going\n"), ("graph", 4, "digraph "), ("timeline", 4, "<svg "), ("why", 0, "run 0 ")):
            answer = self.run_words([program(), command, str(self.part)])
            self.assertEqual((answer.returncode, answer.stderr, answer.stdout[:len(text)]), (status, "", text))
        answer = self.run_words([program(), "debug", str(self.part)], input="goto 7\nback\nshow\n")
        self.assertEqual((answer.returncode, answer.stderr), (0, ""))
        self.assertEqual(answer.stdout.splitlines()[:5], ["place 7 of 7", "place 6 of 7", "run 0 going", "job 0 open", "leg 0 running 0 idle"])

    def test_times_has_a_number_for_each_line(self) -> None:
        now = time.time() * 1000
        answer = self.run_words(self.words(self.plan([{"run": "sleep 0.2"}, {"run": "true"}]), "--record", str(self.record), "--times",
                                           str(self.room / "times")))
        self.assertEqual((answer.returncode, answer.stderr), (0, ""))
        first, *later = map(int, (self.room / "times").read_text(encoding="utf-8").splitlines())
        self.assertEqual(len(later) + 1, len(self.lines(self.record)))
        self.assertEqual(later, sorted(later))
        self.assertTrue(now - 1000 < first < now + 60000 and later[-1] >= 200, (now, first, later))
        self.assertFalse(self.part.exists())

    def test_a_file_that_cannot_be_written_to_is_named_at_once(self) -> None:
        """It is named before the next step starts; the record is whole."""
        error = self.room / "error"
        plan = self.plan([{"run": f"cp {error} first"}, {"run": f"cp {error} second"}])
        words = self.words(plan, "--record", str(self.record), "--times", "/dev/full")
        answer = self.run_words(["sh", "-c", f'exec "$@" 2>{error}', "sh", *words])
        told = "actrun: /dev/full cannot be written (no storage space); the plan is executed all the same\n"
        self.assertEqual((answer.returncode, answer.stdout), (0, "run 0 success\n"))
        self.assertEqual([it.read_text(encoding="utf-8") for it in (self.work / "first", self.work / "second", error)], [told] * 3)
        self.assertIn(b'"close"', self.lines(self.record)[-1])

    def test_a_folder_that_is_missing_is_named_and_the_plan_executed(self) -> None:
        plan = self.plan([{"run": "echo shown"}])
        for folder, why in ((self.room / "none", "entity not found"), (Path("/sys"), "permission denied")):
            answer = self.run_words(self.words(plan, "--record", f"{folder}/r"))
            self.assertEqual((answer.returncode, answer.stdout), (3, "shown\nrun 0 success\n"))
            self.assertEqual(answer.stderr, f"actrun: {folder}/r.part cannot be written ({why}); the plan is executed all the same\nactrun: io\n")

    def test_an_empty_name_is_refused_before_anything_is_executed(self) -> None:
        plan = self.plan([{"run": "touch here; echo shown"}])
        for option in ("--record", "--times"):
            for words in ([option, ""], [f"{option}="], ["--progress", option, ""]):
                answer = self.run_words(self.script(*self.words(plan, *words)), cwd=self.room)
                self.assertEqual((answer.returncode, answer.stdout, (self.work / "here").exists()), (2, "", False), words)
                self.assertRegex(answer.stderr, rf"^actrun: {option} '' names no file, and nothing was executed: .* {option} ci\.\w+\n$")
        (self.room / "--record").write_bytes(plan.read_bytes())
        for words in (["--"], ["--workers", "1", "--progress", "--"]):
            answer = self.run_words(self.script(program(), "run", "--work", str(self.work), *words, "--record"), cwd=self.room)
            self.assertEqual((answer.returncode, answer.stdout), (0, "shown\nrun 0 success\n"), answer.stderr)

    def test_a_link_is_refused_before_anything_is_executed(self) -> None:
        plan, other, times = self.plan([{"run": "touch here"}]), self.room / "other", self.room / "times"
        for link, option in ((self.part, "--record"), (times, "--times")):
            link.symlink_to(other)
            answer = self.run_words(self.script(*self.words(plan, "--record", str(self.record), "--times", str(times))))
            self.assertEqual((answer.returncode, answer.stdout), (2, ""))
            self.assertRegex(answer.stderr, rf"^actrun: {option}: {link} is a link, and nothing was executed: ")
            link.unlink()
        self.assertFalse((self.work / "here").exists() or other.exists())

    def test_only_the_owner_reads_what_is_made(self) -> None:
        plan, times = self.plan([{"run": f"stat -c %a {self.part}; umask"}]), self.room / "times"
        words = self.script(*self.words(plan, "--record", str(self.record), "--times", str(times)))
        for mode, umask in ((0o600, 0o2), (0o604, 0o22)):  # (a file that is there keeps its mode)
            answer = self.run_words(words, umask=umask)
            self.assertEqual(answer.stdout, f"600\n{umask:04o}\nrun 0 success\n")
            self.assertEqual([file.stat().st_mode & 0o777 for file in (self.record, times)], [mode, mode])
            for file in (self.record, times):
                file.chmod(0o604)

    def test_a_folder_of_steps_that_is_not_there_is_told(self) -> None:
        plan = self.plan([{"run": "echo shown"}])
        for words in (["--work", str(plan)], [f"--work={self.room}/none"], ["--times", "--work", "--work", "none"]):
            answer = self.run_words(self.script(program(), "run", *words, str(plan)), cwd=self.room)
            folder = words[-1].removeprefix("--work=")
            self.assertEqual(answer.stderr.splitlines()[0], f"actrun: --work {folder}: no step can start, for this is no folder: name one that is there")
            self.assertEqual((answer.returncode, answer.stdout), (1, "run 0 failure\n") if words[0] != "--times" else (2, ""))

    def test_a_part_that_cannot_be_made_changes_no_more(self) -> None:
        self.part.mkdir()
        for code in (0, 1):
            answer = self.run_words(self.words(self.plan([{"run": f"exit {code}"}])))
            self.assertEqual((answer.returncode, answer.stderr),
                             (code, f"actrun: {self.part} cannot be written (is a directory); the plan is executed all the same\n"))
            self.assertIn(b'"close"', self.lines(self.record)[-1])

    def test_a_file_that_cannot_be_written_leaves_the_part(self) -> None:
        self.record.mkdir()
        answer = self.run_words(self.words(self.plan([{"run": "true"}])))
        self.assertEqual((answer.returncode, answer.stderr), (3, "actrun: io\n"))
        self.assertIn(b'"close"', self.lines(self.part)[-1])

    def test_a_record_may_be_standard_output(self) -> None:
        answer = self.run_words(self.words(self.plan([{"run": "echo shown"}]), "--record", "/dev/stdout"))
        shown, result, *record = answer.stdout.splitlines(keepends=True)
        self.assertEqual((answer.returncode, shown, result), (0, "shown\n", "run 0 success\n"))
        self.record.write_text("".join(record), encoding="utf-8")
        self.lines(self.record)
        self.assertFalse(Path("/dev/stdout.part").exists())

    def test_a_run_that_is_stopped_leaves_the_part(self) -> None:
        """There is no memory to read the outputs of a step."""
        leg = "${{ matrix.leg }}"
        plan = self.plan([{"run": f"[ {leg} = 0 ] || truncate -s 60M $GITHUB_OUTPUT"}, {"run": "echo on"}], 2)
        answer = self.run_words(["sh", "-c", 'ulimit -v 60000 && exec "$@"', "sh", *self.words(plan), "--workers", "2"])
        self.assertEqual((answer.returncode, answer.stderr), (3, "actrun: memory\n"))
        self.assertNotIn("close", [it["event"] for it in self.entries(stopped=True)])
        self.lines(self.part)

    @unittest.skipUnless(os.geteuid() == 0, "only root can mount a small file system")
    def test_a_full_disk_leaves_whole_lines(self) -> None:
        small = self.room / "small"
        self.mount(small)
        plan = self.plan([{"run": "printf 'word=%09000d\\n' 1 >> $GITHUB_OUTPUT"}] * 12)
        told = f"actrun: {small}/r.part cannot be written (no storage space); the plan is executed all the same\nactrun: io\n"
        for before in (set(), {"r"}):
            (small / "r").write_text("before", encoding="utf-8") if before else None
            answer = self.run_words(self.words(plan, "--record", str(small / "r")))
            self.assertEqual((answer.returncode, answer.stdout, answer.stderr), (3, "run 0 success\n", told))
            self.assertGreater(len(self.lines(small / "r.part")), 10)
            self.assertEqual({it.name for it in small.iterdir()}, {"r.part", *before})
        self.assertEqual((small / "r").read_text(encoding="utf-8"), "before")

    @unittest.skipUnless(os.geteuid() == 0, "only root can mount a small file system")
    def test_a_terminal_gets_how_far_the_record_is(self) -> None:
        small = self.room / "small"
        self.mount(small)
        reader, writer = pty.openpty()
        for end in (reader, writer):
            self.addCleanup(os.close, end)
        early = [f"actrun: {small}/r.part cannot be written (no storage space); the plan is executed all the same"]
        for steps, first, kept in ((12, early, r"r\.part ends at line \d+, before all runs are closed: "), (4, [], r"r\.part has the whole record: ")):
            plan = self.plan([{"run": "printf 'word=%09000d\\n' 1 >> $GITHUB_OUTPUT"}] * steps)
            words = self.script(*self.words(plan, "--record", str(small / "r")))
            done = subprocess.run(words, stdin=subprocess.DEVNULL, stdout=subprocess.DEVNULL, stderr=writer, timeout=60, check=False)
            shown = os.read(reader, 65536).decode().splitlines()
            *told, last = shown
            self.assertEqual((done.returncode, told), (3, [*first, "actrun: io", f"  {small}: No space left on device: make room there, or name "
                                                           "another place, and start again"]))
            self.assertRegex(last, f"^  {small}/{kept}")

    @unittest.skipUnless(os.geteuid() == 0, "only root can mount a small file system")
    def test_a_step_that_fills_the_disk_is_no_failure_of_the_workflow(self) -> None:
        self.mount(self.work)
        plan = self.plan([{"run": "cat /dev/zero > big"}])
        answer = self.run_words(self.script(*self.words(plan)))
        told = f"actrun: ended by the system: {self.work}: No space left on device: make room there, or name another place by --work and --record\n"
        self.assertEqual((answer.returncode, answer.stderr), (3, told))
        self.assertTrue(answer.stdout.endswith("run 0 failure\n"))
        answer = self.run_words(self.script(*self.words(self.plan([{"run": "rm big; exit 1"}]))))
        self.assertEqual((answer.returncode, answer.stderr), (3 if "big" in os.listdir(self.work) else 1, told if "big" in os.listdir(self.work) else ""))

    def test_a_limit_of_the_size_of_files_is_told(self) -> None:
        plan = self.plan([{"run": "printf 'word=%060000d\\n' 1 >> $GITHUB_OUTPUT"}] * 4)
        words = ["bash", "-c", 'ulimit -f 100 && exec "$@"', "bash"]
        answer = self.run_words([*words, *self.script(*self.words(plan))])
        self.assertEqual(answer.returncode, 3, answer.stderr)
        self.assertIn("actrun: ended by the system: a file reached the limit of `ulimit -f`: raise this limit\n", answer.stderr)
        self.assertEqual(self.run_words([*words, *self.words(plan)]).returncode, -signal.SIGXFSZ)

    def test_many_legs(self) -> None:
        """The part grows to the record, which has each leg once."""
        jobs = 16 if ALL else 1
        legs = 256 * jobs
        words = [*self.words(self.plan([{"run": "true"}], 256, jobs)), "--workers", "16"]
        with subprocess.Popen(words, stdout=subprocess.PIPE, stderr=subprocess.PIPE, text=True) as child:
            while not self.part.exists() and child.poll() is None:
                time.sleep(0.01)
            # (an open file can be read after it was removed)
            with self.part.open("rb") as part:
                out, err = child.communicate()
                self.assertEqual((child.returncode, out, err), (0, "run 0 success\n", ""))
                self.assertEqual(part.read(), self.record.read_bytes())
        self.assertEqual(collections.Counter(it["event"] for it in self.entries()),
                         {"open": 1, "judge": jobs, **dict.fromkeys(("ask", "take", "begin", "end", "finish"), legs), "close": 1})
        self.assertEqual(self.answers(), [[0]] * legs)
        board = subprocess.run([program(), "table"], input=self.record.read_bytes(), stdout=subprocess.PIPE, check=True).stdout
        self.assertEqual((board.splitlines()[0], board.count(b" ended success\n")), (b"run 0 closed success", legs))


class Written(Case):
    """What FILE is at the end, by what it was before."""

    def write(self, **more) -> int:
        """Writes a record, and leaves no other file of it; gives its inode."""
        answer = self.run_words(self.words(self.plan([{"run": "true"}])), **more)
        self.assertEqual((answer.returncode, answer.stdout, answer.stderr), (0, "run 0 success\n", ""))
        self.assertEqual(self.entries()[-1]["event"], "close")
        self.assertFalse((self.room / "r.new").is_file())
        return self.record.stat().st_ino

    def test_a_file_is_replaced_by_one_of_its_mode(self) -> None:
        self.record.write_text("before", encoding="utf-8")
        for mode in (0o640, 0o4606):
            self.record.chmod(mode)
            (self.room / "r.new").write_text("of a run that was killed", encoding="utf-8")
            before = self.record.stat().st_ino
            self.assertNotEqual(self.write(), before)
            self.assertEqual(self.record.stat().st_mode & 0o7777, mode)

    def test_what_cannot_be_replaced_is_written_itself(self) -> None:
        other = self.room / "other"
        other.touch()
        self.record.symlink_to(other)
        self.write()
        self.assertTrue(self.record.is_symlink())
        self.record.unlink()
        os.link(other, self.record)
        self.assertEqual(self.write(), other.stat().st_ino)
        other.unlink()
        (self.room / "r.new").mkdir()
        before = self.record.stat().st_ino
        self.assertEqual(self.write(), before)

    def test_a_pipe_is_written(self) -> None:
        os.mkfifo(self.record)
        with concurrent.futures.ThreadPoolExecutor(1) as pool:
            reading = pool.submit(self.record.read_bytes)
            answer = self.run_words(self.words(self.plan([{"run": "true"}])))
        self.assertEqual((answer.returncode, answer.stderr), (0, ""))
        self.assertIn(b'"close"', reading.result().splitlines()[-1])

    @unittest.skipUnless(os.geteuid() == 0, "only root can mount a file, and become another user")
    def test_a_file_that_is_mounted_or_protected_stays(self) -> None:
        other = self.room / "other"
        for it in (self.record, other):
            it.write_text("before", encoding="utf-8")
        if subprocess.run(["mount", "--bind", str(other), str(self.record)], capture_output=True, check=False).returncode == 0:
            self.addCleanup(subprocess.run, ["umount", "-l", str(self.record)], capture_output=True, check=False)
            self.assertEqual(self.write(), other.stat().st_ino)
            subprocess.run(["umount", str(self.record)], check=True)
        own = shutil.copy(program(), self.room)
        for it in (self.room, self.work, self.record, own):
            os.chown(it, 65534, 65534)
        self.record.chmod(0o444)
        words = [own, *self.words(self.plan([{"run": "true"}]))[1:]]
        answer = self.run_words(words, user=65534, group=65534, extra_groups=[])
        self.assertEqual((answer.returncode, answer.stderr), (3, "actrun: io\n"))
        self.assertEqual(self.record.read_text(encoding="utf-8"), "before")
        self.assertIn(b'"close"', self.lines(self.part)[-1])


class Disturbed(Case):
    """What a run answers whose folder is full, or is taken away."""

    def told(self, steps: list[str], legs: int = 1) -> tuple[list[str], str]:
        """Why steps failed that all may fail, in order, and what is shown."""
        plan = self.plan([{"run": script, "continue-on-error": True} for script in steps], legs)
        answer = self.run_words([*self.words(plan), "--progress", "--workers", str(legs)])
        self.assertEqual(answer.returncode, 0, answer.stderr)
        why = re.findall(r" refused: (.*)| not started: .* \((.*)\), ", answer.stderr)
        return ["".join(it) for it in why], answer.stdout

    @unittest.skipUnless(os.geteuid() == 0, "only root can mount a small file system")
    def test_a_full_disk_of_the_folder(self) -> None:
        """What a step printed takes its room twice for a while."""
        self.mount(self.work)
        why, shown = self.told(["echo before", "head -c 40000 /dev/zero | tr '\\0' x", "head -c 20000 /dev/zero > big; echo fits",
                                "cat /dev/zero > big", "echo never"])
        self.assertEqual(self.answers(), [[0, "bad-output", 0, 1, "not-started"]])
        self.assertEqual(why, ["what it printed cannot be kept: no storage space", "a file for it cannot be written"])
        self.assertRegex(shown, r"\Abefore\nx*\n?fits\nrun 0 success\n\Z")

    def test_a_folder_that_is_taken_away(self) -> None:
        """Of two legs one takes the folder away in its second step, while the other's second step goes on."""
        for verb in ("rm -rf", "mv -t ."):
            with self.subTest(verb=verb):
                begun, leg = self.room / verb, "${{ matrix.leg }}"
                begun.mkdir()
                self.work.mkdir(exist_ok=True)
                takes = (f"cd '{begun}'; touch {leg}; while ! [ -e 0 -a -e 1 ]; do sleep 0.02; done; "
                         f"[ {leg} = 1 ] || {verb} {self.work}; while [ -e {self.work} ]; do sleep 0.02; done")
                why, shown = self.told(["echo before", takes, "echo never"], 2)
                self.assertEqual(self.answers(), [[0, "bad-output", "not-started"]] * 2)
                self.assertEqual(sorted(why), ["its folder is not there"] * 2 + ["what it printed cannot be kept: entity not found"] * 2)
                self.assertEqual((shown, self.work.exists()), ("run 0 success\n", False))


class Refused(Case):
    """Why an answer is bad output."""

    def test_each_reason_is_told_and_nothing_hangs(self) -> None:
        reasons = {
            "printf 'a<<E\\nb\\n' > $GITHUB_OUTPUT": "its file of outputs is refused: OpenBlock",
            "printf '\\377' > $GITHUB_OUTPUT": "its file of outputs is refused: NotUtf8",
            "echo =x > $GITHUB_ENV": "its file of variables is refused: NoName",
            "truncate -s 3G $GITHUB_OUTPUT": "its file of outputs cannot be read: file too large",
            "rm $GITHUB_OUTPUT; mkfifo $GITHUB_OUTPUT": "its file of outputs cannot be read: invalid input parameter",
            "rm $GITHUB_OUTPUT; mkfifo -m 0400 $GITHUB_OUTPUT": "its file of outputs cannot be read: invalid input parameter",
            "rm $GITHUB_ENV": "its file of variables cannot be read: entity not found",
            f"{GREAT} && sed -i 's/0/~/g' $GITHUB_OUTPUT": "one of its values exceeds 65,536 bytes once masked",
            "printf 'great=%022000d\\n' 1 | tr 0 '~' > $GITHUB_ENV": "one of its values exceeds 65,536 bytes once masked",
        }
        plan = self.plan([{"run": script, "continue-on-error": True} for script in reasons], secrets={"TILDE": "~"})
        answer = self.run_words([*LIMITED, *self.words(plan), "--progress"])
        told = [line.partition(" refused: ")[2] for line in answer.stderr.splitlines() if " refused: " in line]
        self.assertEqual((told, answer.returncode), (list(reasons.values()), 0), answer.stderr)
        self.assertEqual(answer.stderr.count(" bad output in "), len(reasons))

    def test_a_step_may_write_the_file_of_another_that_runs(self) -> None:
        """The other leg's answer has what stands there in the end."""
        other, leg = f"{self.work}/step-0-0.out", "${{ matrix.leg }}"
        for text, end in (("two=2", {"one": "1", "two": "2"}), ("=", None)):
            for name in ("begun", "done"):
                (self.work / name).unlink(missing_ok=True)
            scripts = ("touch begun; while ! [ -e done ]; do sleep 0.02; done; echo one=1 >> $GITHUB_OUTPUT",
                       f"while ! [ -e begun ]; do sleep 0.02; done; echo {text} >> {other}; touch done")
            step = {"run": f"if [ {leg} = 0 ]; then {scripts[0]}; else {scripts[1]}; fi", "continue-on-error": True}
            answer = self.run_words([*self.words(self.plan([step], 2)), "--progress", "--workers", "2"])
            self.assertEqual(answer.returncode, 0, answer.stderr)
            answers = {it["leg"]: it["answer"] for it in self.entries() if it["event"] == "end"}
            self.assertEqual((answers[0].get("outputs"), answers[1]["outputs"]), (end, {}))
            self.assertEqual(answer.stderr.count("refused: its file of outputs is refused: NoName"), int(end is None))

    def as_another(self, steps: list[str]) -> tuple[list[str], list]:
        """Why answers of steps that all may fail are refused, and the answers, where another user than root executes them."""
        plan = self.plan([{"run": script, "continue-on-error": True} for script in steps])
        own = shutil.copy(program(), self.room)
        for place in (self.room, self.work, own):
            os.chown(place, 65534, 65534)
        words = [own, *self.words(plan, "--record", str(self.record))[1:], "--progress"]
        answer = self.run_words(words, user=65534, group=65534, extra_groups=[])
        self.assertEqual(answer.returncode, 0, answer.stderr)
        return re.findall("refused: its file of outputs cannot be read: (.*)", answer.stderr), self.answers()[0]

    @unittest.skipUnless(os.geteuid() == 0, "only root can become another user")
    def test_a_file_that_may_not_be_written_is_read_and_keeps_its_mode(self) -> None:
        for name, owner in (("own", 65534), ("other", 0)):
            (self.room / name).write_text("name=value\n", encoding="utf-8")
            (self.room / name).chmod(0o444)
            os.chown(self.room / name, owner, owner)
        why, answers = self.as_another(["echo name=value > $GITHUB_OUTPUT; chmod 400 $GITHUB_OUTPUT",
                                        "echo name=value > $GITHUB_OUTPUT; chmod 4555 $GITHUB_OUTPUT",
                                        f"ln -sf {self.room}/own $GITHUB_OUTPUT",
                                        f"ln -sf {self.room}/other $GITHUB_OUTPUT",
                                        "echo name=value > $GITHUB_OUTPUT; chmod 0 $GITHUB_OUTPUT"])
        self.assertEqual((why, answers), (["permission denied"] * 2, [0, 0, 0, "bad-output", "bad-output"]))
        modes = [(self.work / f"step-0-{step}.out").stat().st_mode & 0o7777 for step in range(5)]
        self.assertEqual(modes, [0o400, 0o4555, 0o444, 0o444, 0])

    @contextlib.contextmanager
    def meanwhile(self, act: Callable[[], None]) -> Iterator[None]:
        """Acts again and again in a thread of its own."""
        until = threading.Event()

        def acts() -> None:
            while not until.is_set():
                act()
        with concurrent.futures.ThreadPoolExecutor(1) as pool:
            acting = pool.submit(acts)
            try:
                yield
            finally:
                until.set()
        acting.result()

    def give(self, kind: str, name: Path) -> None:
        """Gives a name to what has another in the room, in place of what had that name."""
        os.link(self.room / kind, self.room / "next")
        os.replace(self.room / "next", name)

    @unittest.skipUnless(os.geteuid() == 0, "only root can become another user")
    def test_a_pipe_that_takes_the_place_of_outputs_is_not_waited_for(self) -> None:
        """Neither the outputs nor the pipe may be written by their owner."""
        (self.room / "file").write_text("name=value\n", encoding="utf-8")
        os.mkfifo(self.room / "pipe")
        for kind in ("file", "pipe"):
            os.chown(self.room / kind, 65534, 65534)

        def swap() -> None:
            for kind in ("file", "pipe"):
                os.chmod(self.room / kind, 0o400)
                self.give(kind, self.room / "swapped")
        swap()
        with self.meanwhile(swap):
            why, answers = self.as_another([f"ln -sf {self.room}/swapped $GITHUB_OUTPUT"] * 20)
        self.assertLessEqual(set(why), {"invalid input parameter", "permission denied"})
        self.assertEqual((answers.count("bad-output"), answers.count(0)), (len(why), 20 - len(why)), answers)

    def test_a_pipe_that_takes_the_place_of_what_is_printed_is_not_waited_for(self) -> None:
        os.mkfifo(self.room / "pipe")

        def swap() -> None:
            step = sum(1 for _ in self.work.glob("*.sh")) - 1
            for _ in range(20):
                name = self.work / f"step-0-{step}.stdout"
                self.give("pipe", name)
                name.unlink(missing_ok=True)
        plan = self.plan([{"run": "echo shown", "continue-on-error": True}] * 40)
        with self.meanwhile(swap):
            answer = self.run_words([*self.words(plan), "--progress"])
        self.assertEqual((answer.returncode, len(self.answers()[0])), (0, 40), answer.stderr)

    @unittest.skipUnless(ALL, "it takes long")
    def test_great_files_in_little_memory(self) -> None:
        """A file that is not too large is read whole, and all ends with `memory` where as many as there are workers do not fit."""
        for legs in (1, 16):
            with self.subTest(legs=legs):
                plan = self.plan([{"run": "truncate -s 60M $GITHUB_OUTPUT", "continue-on-error": True}], legs)
                answer = self.run_words([*LIMITED, *self.words(plan), "--progress", "--workers", str(legs)], timeout=300)
                if legs > 1 and answer.returncode == 3:
                    self.assertEqual((answer.stdout, answer.stderr.splitlines()[-1]), ("", "actrun: memory"))
                    self.assertNotIn("close", [it["event"] for it in self.entries(stopped=True)])
                else:
                    self.assertEqual((answer.returncode, answer.stdout), (0, "run 0 success\n"), answer.stderr)
                    self.assertEqual(self.answers(), [["bad-output"]] * legs)
                self.assertEqual(set(re.findall("refused: .*", answer.stderr)), {"refused: its file of outputs is refused: NoName"})


class Signalled(Case):
    """What the script does at a signal."""

    def setUp(self) -> None:
        super().setUp()
        # (also where the tests are started in the background or by `nohup`)
        for number, handler in ((signal.SIGINT, signal.default_int_handler), (signal.SIGHUP, signal.SIG_DFL), (signal.SIGQUIT, signal.SIG_DFL)):
            self.addCleanup(signal.signal, number, signal.signal(number, handler))

    def stop(self, number: int, steps: list[dict] | None = None, again: bool = False) -> subprocess.CompletedProcess[str]:
        """What a run answers that gets a signal in its second step, and the same signal again and again until it ends."""
        words = self.script(*self.words(self.plan(steps or LONG)))
        with subprocess.Popen(words, stdin=subprocess.DEVNULL, stdout=subprocess.PIPE, stderr=subprocess.PIPE, text=True,
                              start_new_session=True) as child:
            end = time.monotonic() + 20
            while not (self.work / "here").exists() and time.monotonic() < end:
                time.sleep(0.02)
            time.sleep(0.1)
            # (a terminal sends SIGINT to all processes of the group, `kill` SIGTERM to the script alone)
            (os.killpg if number == signal.SIGINT else os.kill)(child.pid, number)
            while again and child.poll() is None:
                time.sleep(0.3)
                child.send_signal(number)
            out, err = child.communicate(timeout=30)
        return subprocess.CompletedProcess(words, child.returncode, out, err)

    def test_a_signal_ends_the_steps_and_the_record_is_named(self) -> None:
        for number, status in ((signal.SIGINT, 130), (signal.SIGTERM, 143), (signal.SIGHUP, 129), (signal.SIGQUIT, 131)):
            with self.subTest(number=number):
                (self.work / "here").unlink(missing_ok=True)
                answer = self.stop(number)
                self.assertEqual((answer.returncode, answer.stdout), (status, ""), answer.stderr)
                first, *why = answer.stderr.splitlines()
                self.assertEqual(first, f"actrun: a signal ended the run; {self.part} has its record so far: actrun why {self.part}")
                self.assertRegex("\n".join(why), r"\n      step 1 \(long\) runs since line \d+$")
                self.assertEqual(sleeps(), {})
                self.lines(self.part)
                self.assertFalse(self.record.exists())

    def test_a_server_in_a_session_of_its_own_goes_on(self) -> None:
        server = f"setsid sh -c 'touch there; exec sleep 77.{UNIQUE}' > /dev/null & until [ -e there ]; do sleep 0.02; done"
        self.assertEqual(self.stop(signal.SIGTERM, [{"run": f"{server}; touch here; sleep 78.{UNIQUE}"}]).returncode, 143)
        end = time.monotonic() + 5
        while not sleeps() and time.monotonic() < end:
            time.sleep(0.02)
        self.assertEqual(list(sleeps()), [f"77.{UNIQUE}"])

    def test_a_signal_that_comes_twice_at_once_is_one(self) -> None:
        """As `timeout` sends it, to the script and to its group."""
        with subprocess.Popen(self.script(*self.words(self.plan(LONG))), stdin=subprocess.DEVNULL, stdout=subprocess.PIPE,
                              stderr=subprocess.PIPE, text=True, start_new_session=True) as child:
            end = time.monotonic() + 20
            while not (self.work / "here").exists() and time.monotonic() < end:
                time.sleep(0.02)
            os.kill(child.pid, signal.SIGTERM)
            time.sleep(0.01)
            os.killpg(child.pid, signal.SIGTERM)
            err = child.communicate(timeout=30)[1]
        self.assertEqual((child.returncode, err.splitlines()[:1]),
                         (143, [f"actrun: a signal ended the run; {self.part} has its record so far: actrun why {self.part}"]))

    def test_a_second_signal_ends_at_once_what_does_not_end(self) -> None:
        steps = [{"run": f"trap '' TERM; touch here; sleep 79.{UNIQUE}"}]
        answer = self.stop(signal.SIGTERM, steps, again=True)
        self.assertEqual((answer.returncode, answer.stdout, answer.stderr), (143, "", ""))
        end = time.monotonic() + 5
        while sleeps() and time.monotonic() < end:
            time.sleep(0.02)
        self.assertEqual(sleeps(), {})

    def test_what_a_running_step_printed_is_in_its_log(self) -> None:
        """Also what it prints at its end."""
        cry = "trap 'echo cry >&2; exit 9' TERM; "
        steps = [{"run": "echo shown"}, {"run": f"{cry} printf out; echo err >&2; touch here; sleep 79.{UNIQUE} & wait"}]
        log = self.work / "step-0-1.log"
        for again in (False, True):
            with self.subTest(again=again):
                (self.work / "here").unlink(missing_ok=True)
                answer = self.stop(signal.SIGTERM, steps, again)
                told = [f"actrun: {log} has what its step printed so far, unmasked"]
                if not again:  # (a second signal may end the script before it says so)
                    self.assertEqual((answer.returncode, answer.stderr.splitlines()[-1:]), (143, told))
                self.assertIn((answer.returncode, answer.stdout), ((143, ""), (-signal.SIGTERM, "")))
                self.assertEqual((log.read_text(encoding="utf-8"), log.stat().st_mode & 0o777), ("out\nerr\ncry\n", 0o600))
                self.assertEqual((self.work / "step-0-0.log").read_text(encoding="utf-8"), "shown\n")

    def test_a_signal_that_the_parent_ignores_is_ignored(self) -> None:
        plan = self.plan([{"run": "touch here; sleep 1; echo through"}])
        for name in ("SIGINT", "SIGHUP"):
            (self.work / "here").unlink(missing_ok=True)
            code = f"import os, signal, sys; signal.signal(signal.{name}, signal.SIG_IGN); os.execvp(sys.argv[1], sys.argv[1:])"
            words = [sys.executable, "-c", code, *self.script(*self.words(plan))]
            with subprocess.Popen(words, stdout=subprocess.PIPE, stderr=subprocess.PIPE, text=True, start_new_session=True) as child:
                while not (self.work / "here").exists() and child.poll() is None:
                    time.sleep(0.02)
                os.killpg(child.pid, signal.Signals[name])
                out, err = child.communicate(timeout=30)
            self.assertEqual((child.returncode, out, err), (0, "through\nrun 0 success\n", ""))

    @unittest.skipUnless(shutil.which("setpriv"), "setpriv is missing")
    def test_on_a_terminal_a_signal_ends_the_program_without_a_record(self) -> None:
        words = self.script(*self.words(self.plan([{"run": f"echo $PPID > here; sleep 70.{UNIQUE}"}]), "--progress"))
        reader, writer = pty.openpty()
        for end in (reader, writer):
            self.addCleanup(os.close, end)
        for number in (signal.SIGTERM, signal.SIGHUP):
            (self.work / "here").unlink(missing_ok=True)
            with subprocess.Popen(words, stdin=subprocess.DEVNULL, stdout=writer, stderr=writer, start_new_session=True) as child:
                while not ((self.work / "here").exists() and (self.work / "here").stat().st_size):
                    time.sleep(0.02)
                child.send_signal(number)
            place, until = Path("/proc") / (self.work / "here").read_text(encoding="utf-8").strip(), time.monotonic() + 5
            while place.exists() and time.monotonic() < until:
                time.sleep(0.02)
            self.assertEqual((child.returncode, place.exists()), (-number, False))

    def test_nothing_else_changes(self) -> None:
        self.plan([{"run": "cat; kill -INT $$; echo on; exit 4"}])
        words = self.words(Path("/dev/stdin"))
        text = (self.room / "plan").read_text(encoding="utf-8")
        plain, answer = (self.run_words(it, input=text) for it in (words, self.script(*words)))
        self.assertEqual((answer.returncode, answer.stdout, answer.stderr), (plain.returncode, plain.stdout, plain.stderr))
        self.assertEqual((answer.returncode, answer.stdout), (1, "run 0 failure\n"))
        self.lines(self.record)
        for first in ("os.close(0)", "signal.signal(signal.SIGCHLD, signal.SIG_IGN)"):
            code = f"import os, signal, sys; {first}; os.execvp(sys.argv[1], sys.argv[1:])"
            answer = self.run_words([sys.executable, "-c", code, *self.script(*self.words(self.room / "plan"))])
            self.assertEqual((answer.returncode, answer.stdout, answer.stderr), (1, "run 0 failure\n", ""))

    def test_a_program_that_is_killed_ends_the_script_by_that_signal(self) -> None:
        answer = self.run_words(self.script(*self.words(self.plan([{"run": "kill -KILL $PPID; sleep 0.1"}]))))
        self.assertEqual((answer.returncode, answer.stdout), (-signal.SIGKILL, ""))
        self.assertRegex(answer.stderr, r"^actrun: a signal ended the run; .*\n(.*\n)*      step 0 \(.*\) runs since line 6\n$")

    @unittest.skipUnless(shutil.which("setpriv"), "setpriv is missing")
    def test_where_setsid_is_missing_the_program_is_started_alone(self) -> None:
        tools = self.room / "tools"
        tools.mkdir()
        for name in ("bash", "env", "flock", "setpriv", "true"):
            (tools / name).symlink_to(str(shutil.which(name)))
        words = self.script(*self.words(self.plan([{"run": "echo shown"}])))
        answer = self.run_words(words, env={**os.environ, "PATH": str(tools)})
        self.assertEqual((answer.returncode, answer.stdout, answer.stderr), (0, "shown\nrun 0 success\n", ""))
        self.assertEqual(self.entries()[-1]["event"], "close")

    def test_a_last_line_that_is_cut_is_left_out(self) -> None:
        steps = [{"run": GREAT}, {"run": f"truncate -s -30000 {self.part}; kill -KILL $PPID; sleep 0.1"}]
        answer = self.run_words(self.script(*self.words(self.plan(steps))))
        self.assertEqual((answer.returncode, answer.stdout), (-signal.SIGKILL, ""))
        first, *why = answer.stderr.splitlines()
        remedy = f"sed '$d' {self.part} > RECORD; actrun why RECORD"
        self.assertEqual(first, f"actrun: a signal ended the run; {self.part} has its record so far, its last line cut: {remedy}")
        self.assertRegex("\n".join(why), r"\n      step 0 \(.*\) runs since line 6$")
        self.assertEqual(len(self.lines(self.part, cut=True)), 6)
        answer = self.run_words([program(), "table"], input=self.part.read_text(encoding="utf-8"))
        self.assertEqual((answer.returncode, answer.stdout, answer.stderr), (2, "", "actrun: line 7 NotEntry\n"))
        answer = self.run_words(["sh", "-c", f"sed '$d' {self.part} > {self.record}; exec '{program()}' why {self.record}"])
        self.assertEqual((answer.returncode, answer.stdout.splitlines()), (0, why))

    def test_the_part_of_an_earlier_run_is_not_named(self) -> None:
        self.part.write_text("earlier\n", encoding="utf-8")
        with subprocess.Popen(self.script(*self.words(Path("/dev/stdin"))), stdin=subprocess.PIPE, stdout=subprocess.PIPE,
                              stderr=subprocess.PIPE, text=True, start_new_session=True) as child:
            while not Path(f"/proc/{child.pid}/task/{child.pid}/children").read_text(encoding="ascii"):
                time.sleep(0.02)
            time.sleep(1)  # (the program waits for its plan)
            child.terminate()
            child.wait(30)
            out, err = child.communicate()
        self.assertEqual((child.returncode, out, err), (143, "", ""))
        self.assertEqual(self.part.read_text(encoding="utf-8"), "earlier\n")

    def test_without_a_record_the_script_is_the_program(self) -> None:
        plan = self.plan([{"run": "readlink /proc/$PPID/exe; echo $PPID"}])
        words = self.script(*self.words(plan, "--progress"))
        with subprocess.Popen(words, stdout=subprocess.PIPE, stderr=subprocess.DEVNULL, text=True) as child:
            out, _ = child.communicate(timeout=30)
        self.assertEqual(out.splitlines()[:2], [program(), str(child.pid)])

    @unittest.skipUnless(shutil.which("setpriv"), "setpriv is missing")
    def test_the_program_ends_where_the_script_is_killed(self) -> None:
        plan = self.plan([{"run": "echo $PPID > here; sleep 3"}, {"run": "touch after"}])
        with subprocess.Popen(self.script(*self.words(plan)), stdout=subprocess.DEVNULL) as child:
            while not ((self.work / "here").exists() and (self.work / "here").stat().st_size):
                time.sleep(0.02)
            child.kill()
        place, until = Path("/proc") / (self.work / "here").read_text(encoding="utf-8").strip(), time.monotonic() + 20
        while place.exists() and time.monotonic() < until:
            time.sleep(0.02)
        self.assertEqual((place.exists(), (self.work / "after").exists()), (False, False))
        self.lines(self.part)


if __name__ == "__main__":
    unittest.main()
