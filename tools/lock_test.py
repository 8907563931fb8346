"""Tests of what the script does before `run`: two runs in one folder or with one record, and odd records.

ACTRUN_PAIRS is how many pairs of runs are started at once (30 unless it is set).
"""
from __future__ import annotations

import os
import random
import re
import shutil
import subprocess
import time
import unittest
from pathlib import Path

from record_test import Case, program

PAIRS = int(os.environ.get("ACTRUN_PAIRS", "30"))
SECONDS = 60
OTHER = r"another run \(process (\d+)\) %s, and nothing was executed: name another by %s"


class Locked(Case):
    """Two runs with the same --work or --record."""

    def start(self, plan: Path, *words: str, **more) -> subprocess.Popen[str]:
        """Starts `run` by the script."""
        return subprocess.Popen(self.script(program(), "run", *words, str(plan)), stdin=subprocess.DEVNULL,
                                stdout=subprocess.PIPE,
                                stderr=subprocess.PIPE, text=True, **more)

    def wait_for(self, file: Path) -> None:
        """Waits until a step has made a file."""
        end = time.monotonic() + SECONDS
        while not file.exists():
            self.assertLess(time.monotonic(), end, f"{file} was not made")
            time.sleep(0.02)

    def holding(self, name: str) -> Path:
        """A plan whose step waits for the file `go-on`, and makes one of that name before."""
        return self.plan([{"run": f"touch {self.room}/{name}; until [ -e {self.room}/go-on ]; do sleep 0.02; done; echo through"}])

    def assert_free(self, *words: str) -> None:
        """A run with these words is executed, and leaves no file in which the record grew."""
        answer = self.run_words(self.script(program(), "run", *words, str(self.plan([{"run": "echo free"}]))))
        self.assertEqual((answer.returncode, answer.stdout, answer.stderr), (0, "free\nrun 0 success\n", ""))
        self.assertFalse(self.part.exists())

    def test_the_second_run_in_a_folder_is_refused(self) -> None:
        other = self.room / "other"
        other.symlink_to(self.work)
        for words in ([], ["--record", str(self.record)]):
            (self.room / "go-on").unlink(missing_ok=True)
            with self.start(self.holding(f"begun{len(words)}"), "--work", str(self.work), *words) as first:
                self.wait_for(self.room / f"begun{len(words)}")
                before = sorted(self.work.iterdir())
                plan = self.plan([{"run": "touch here"}])
                for folder, more in ((self.work, {}), (other, {}), (None, {"cwd": self.work})):
                    named = ["--work", str(folder)] if folder else []
                    answer = self.run_words(self.script(program(), "run", *named, str(plan)), **more)
                    self.assertEqual((answer.returncode, answer.stdout), (2, ""))
                    self.assertRegex(answer.stderr,
                                     rf"^actrun: --work {folder or '.'}: {OTHER % ('uses this folder', '--work')}\n$")
                    self.assertEqual(re.search(r"process (\d+)", answer.stderr)[1], str(first.pid))
                self.assertEqual(sorted(self.work.iterdir()), before)
                (self.room / "go-on").touch()
                out, err = first.communicate(timeout=SECONDS)
            self.assertEqual((first.returncode, out, err), (0, "through\nrun 0 success\n", ""))
            self.assert_free("--work", str(self.work), *words)

    def test_the_second_run_with_a_record_is_refused(self) -> None:
        (self.room / "link").symlink_to(self.record)
        second = self.room / "second"
        second.mkdir()
        with self.start(self.holding("begun"), "--work", str(self.work), "--record",
                        str(self.record)) as first:
            self.wait_for(self.room / "begun")
            plan = self.plan([{"run": "touch here"}])
            for record in (self.record, self.room / "link", second / ".." / "r"):
                answer = self.run_words(self.script(program(), "run", "--work", str(second),
                                                    f"--record={record}", str(plan)))
                self.assertEqual((answer.returncode, answer.stdout), (2, ""))
                self.assertRegex(answer.stderr,
                                 rf"^actrun: --record {record}: {OTHER % ('writes this record', '--record')}\n$")
            self.assertEqual(list(second.iterdir()), [])
            (self.room / "go-on").touch()
            out, err = first.communicate(timeout=SECONDS)
        self.assertEqual((first.returncode, out, err), (0, "through\nrun 0 success\n", ""))
        self.lines(self.record)
        self.assert_free("--work", str(second), "--record", str(self.record))

    def test_any_death_frees_the_places(self) -> None:
        for words in ([], ["--record", str(self.record)]):
            begun = self.room / f"begun{len(words)}"
            with self.start(self.holding(begun.name), "--work", str(self.work), *words,
                            start_new_session=True) as first:
                self.wait_for(begun)
                first.kill()
                first.communicate(timeout=SECONDS)
            (self.room / "go-on").touch()  # (without it the step waits on)
            self.assert_free("--work", str(self.work), *words)
            (self.room / "go-on").unlink()

    def test_a_server_that_a_step_leaves_keeps_no_lock(self) -> None:
        plan = self.plan([{"run": f"sleep 80.{os.getpid()} & true"}])
        answer = self.run_words(self.script(program(), "run", "--work", str(self.work), "--record",
                                            str(self.record), str(plan)))
        self.assertEqual(answer.returncode, 0, answer.stderr)
        self.assert_free("--work", str(self.work), "--record", str(self.record))

    def test_a_run_that_is_refused_leaves_nothing(self) -> None:
        bad = self.room / "bad"
        bad.write_text("no plan\n", encoding="utf-8")
        answer = self.run_words(self.script(program(), "run", "--work", str(self.work), "--record",
                                            str(self.record), str(bad)))
        self.assertEqual((answer.returncode, answer.stderr), (2, "actrun: load NotJson\n"))
        self.assertEqual({it.name for it in self.room.iterdir()}, {"work", "bad"})
        self.part.write_text("earlier\n", encoding="utf-8")
        answer = self.run_words(self.script(program(), "run", "--work", str(self.work), "--record",
                                            str(self.record), str(bad)))
        self.assertEqual((answer.returncode, self.part.read_text(encoding="utf-8")), (2, "earlier\n"))

    def test_without_flock_it_is_said(self) -> None:
        tools = self.room / "tools"
        tools.mkdir()
        for name in ("bash", "env", "setpriv", "setsid", "true", "stat"):
            if shutil.which(name):
                (tools / name).symlink_to(str(shutil.which(name)))
        answer = self.run_words(self.script(*self.words(self.plan([{"run": "echo shown"}]))),
                                env={**os.environ, "PATH": str(tools)})
        self.assertEqual((answer.returncode, answer.stdout), (0, "shown\nrun 0 success\n"))
        self.assertEqual(answer.stderr,
                         "actrun: flock (of util-linux) is missing, so nothing is locked: let no other run use the same "
                                        "--work or --record meanwhile\n")

    def test_pairs_see_nothing_of_one_another(self) -> None:
        """Runs with folders and records drawn from few; each has a secret, outputs and a script of its own."""
        choose, refused = random.Random(7), 0
        folders = [self.room / f"w{number}" for number in range(2)]
        for folder in folders:
            folder.mkdir()
        plans = []
        for name in ("one", "two"):
            plan = self.plan([{"id": "a",
                               "run": f"echo word={name} >> $GITHUB_OUTPUT; echo {name} of {name}; echo secret-{name}"},
                              {"run": "echo ${{ steps.a.outputs.word }} ${{ secrets.S }}"}],
                             secrets={"S": f"secret-{name}"})
            plans.append(plan.rename(self.room / f"plan-{name}"))
        for _ in range(PAIRS):
            chosen = [(choose.choice(folders), choose.choice([None, "r1", "r2"])) for _ in plans]
            children = [self.start(plan, "--work", str(folder),
                                   *(["--record", str(self.room / record)] if record else []))
                        for plan, (folder, record) in zip(plans, chosen)]
            answers = [(*child.communicate(timeout=SECONDS), child.returncode) for child in children]
            self.assertIn(0, [status for _, _, status in answers], answers)
            for name, (out, err, status), (_, record) in zip(("one", "two"), answers, chosen):
                if status == 2:
                    refused += 1
                    self.assertRegex(err,
                                     r"^actrun: --(work|record) .*: another run.* and nothing was executed: name another by --(work|record)\n$")
                    self.assertEqual(out, "")
                    continue
                self.assertEqual((out, err, status), (f"{name} of {name}\n***\n{name} ***\nrun 0 success\n",
                                                      "", 0))
                same = chosen[0][1] == chosen[1][1] and answers[0][2] == answers[1][2]
                if record and not same:
                    self.lines(self.room / record)
                    self.assertIn(f"secret-{name}", (self.room / record).read_text(encoding="utf-8"))
            self.assertEqual(list(self.room.glob("*.part")), [])
        self.assertGreater(refused, 0)


class Records(Case):
    """Records that are no files."""

    def test_a_record_of_nothing_is_refused(self) -> None:
        before = Path("/dev/null").stat()
        answer = self.run_words(self.script(*self.words(self.plan([{"run": "touch here"}]), "--record",
                                                        "/dev/null")))
        told = "actrun: --record /dev/null keeps no record, and nothing was executed: leave this option out, or name a file\n"
        self.assertEqual((answer.returncode, answer.stdout, answer.stderr), (2, "", told))
        self.assertFalse((self.work / "here").exists() or Path("/dev/null.part").exists())
        self.assertEqual(Path("/dev/null").stat().st_rdev, before.st_rdev)

    def test_a_pipe_in_the_place_of_the_part_is_refused(self) -> None:
        os.mkfifo(self.part)
        answer = self.run_words(self.script(*self.words(self.plan([{"run": "touch here"}]))))
        told = f"actrun: {self.part} is no regular file, and nothing was executed: remove it, or name another record\n"
        self.assertEqual((answer.returncode, answer.stdout, answer.stderr), (2, "", told))
        self.assertFalse((self.work / "here").exists())


if __name__ == "__main__":
    unittest.main()
