"""How `try` speaks: few notes, what to do next, and the last execution of a repository by its name."""
from __future__ import annotations

import json
import os
import shutil
import subprocess
import sys
import unittest
from pathlib import Path

from actrun_front.notes import kind, lines
from actrun_front.present import cut
from actrun_front.yaml_reader import Note

from .terminal_case import TerminalCase
from .try_case import FRONT, NEEDS_PROGRAM, PROGRAM, TryCase

SCRIPT = FRONT.parent / "tools" / "dispatch.sh"
# the commands of the script, with a program of this test
SHELL = f'top={FRONT.parent} program={PROGRAM}; . {SCRIPT}; answer "$@"'


class Notes(unittest.TestCase):
    """Notes of what was rewritten."""

    def shown(self, *notes: tuple[str, int, str], whole: bool = False) -> list[str]:
        """The lines of notes."""
        return list(lines([(file, Note(line, text)) for file, line, text in notes], whole))

    def test_one_keeps_its_place(self) -> None:
        self.assertEqual(self.shown(("a.yml", 3, "it is dropped")), ["note: a.yml:3: it is dropped"])

    def test_equal_ones_are_one_line(self) -> None:
        given = [(f"{name}.yml", line, "it is not enforced") for name in "abcde" for line in (3, 9)]
        self.assertEqual(self.shown(*given[:2]), ["note: a.yml:3: it is not enforced (2 times, in a.yml)"])
        self.assertEqual(self.shown(*given), ["note: a.yml:3: it is not enforced (10 times, in a.yml, b.yml, "
                                              "c.yml and 2 more files)"])
        self.assertEqual(len(self.shown(*given, whole=True)), 10)
        self.assertEqual(self.shown(*given, whole=True)[1], "note: a.yml:9: it is not enforced")

    def test_many_of_a_kind(self) -> None:
        given = [("a.yml", number, f"container of job j{number} is dropped") for number in range(9)]
        few = [f"note: a.yml:{number}: container of job j{number} is dropped" for number in range(3)]
        self.assertEqual(self.shown(*given[:3]), few)
        self.assertEqual(self.shown(*given, ("b.yml", 1, "another")), [
            "note: a.yml:0: container of job j0 is dropped", "note: a.yml:1: container of job j1 is dropped",
            "note: 7 more notes like the last, in a.yml: -v shows all", "note: b.yml:1: another"])

    def test_kinds(self) -> None:
        self.assertEqual(kind("services of job a is dropped"), kind("services of job b-2 is dropped"))
        self.assertEqual(kind("hashFiles('a') is replaced by the digest 12"),
                         kind("hashFiles('b/c') is replaced by the digest 4"))
        self.assertNotEqual(kind("container of job a is dropped"), kind("services of job a is dropped"))


class Conditions(unittest.TestCase):
    """Conditions of several lines."""

    def test_they_are_cut(self) -> None:
        self.assertEqual(cut("a &&\n  b\n"), "a && …")
        self.assertEqual(cut("a\n"), "a")


@NEEDS_PROGRAM
class Next(TryCase):
    """After an execution."""

    def script(self, *words: str, folder: Path | None = None,
               typed: str = "") -> subprocess.CompletedProcess[str]:
        """What the script answers to a command."""
        environment = {name: value for name, value in self.environment.items() if name != "ACTRUN_PROGRAM"}
        return subprocess.run(["bash", "-c", SHELL, "actrun", *words], cwd=folder or self.project,
                              env=environment, input=typed, capture_output=True, text=True, check=False,
                              timeout=100)

    def test_what_to_do_next(self) -> None:
        self.workflow("- run: exit 1")
        done = self.attempt()
        self.assertTrue(done.stdout.endswith("\nopen      actrun open\nwalk      actrun debug --last\n"
                                             "back      actrun try --from failed\n"
                                             "again     actrun try -j one\n"), done.stdout)
        self.workflow("- run: 'true'", "on: [push, pull_request]\njobs:\n  ab:\n    runs-on: x\n    steps:\n")
        done = self.attempt("pull_request")
        self.assertNotIn("again ", done.stdout)
        self.workflow("- run: 'false'", "on: [pull_request]\njobs:\n  ab:\n    runs-on: x\n    steps:\n")
        self.assertIn("again     actrun try pull_request -j ab\n", self.attempt("pull_request").stdout)

    def test_the_program_is_started_four_times(self) -> None:
        """Each time for another question."""
        shutil.copytree(FRONT.parent / "examples" / "repository", self.project, dirs_exist_ok=True)
        self.commit()
        starts, program = self.room / "starts", self.room / "program"
        program.write_text(f'#!/bin/sh\necho "$1" >> {starts}\nexec {PROGRAM} "$@"\n')
        program.chmod(0o755)
        for event in ("push", "pull_request"):
            starts.write_text("")
            done = self.attempt(event, "--no-sandbox", ACTRUN_PROGRAM=str(program))
            self.assert_status(done, 0)
            self.assertEqual(starts.read_text().split(), ["plan", "run", "why", "replay"])

    def test_the_last_execution(self) -> None:
        self.workflow("- run: echo hi\n- run: exit 3")
        self.commit()
        self.write("below/file", "")
        self.assertEqual((self.script("why", "--last").returncode, self.script("open").returncode), (2, 2))
        self.assertIn("`actrun try` makes one", self.script("why", "--last").stderr)
        self.attempt()
        record = self.work() / "private" / "record"
        for words in (["why"], ["replay"], ["graph"], ["timeline"], ["replay", "--changes"],
                      ["timeline", "--times", str(record.with_name("times"))]):
            named = self.script(*words, str(record))
            last = self.script(*words, "--last", folder=self.project / "below")
            self.assertEqual((last.stdout, last.stderr), (named.stdout, named.stderr))
            self.assertEqual(last.returncode, named.returncode)
        self.assertIn("step 1 (exit 3)", self.script("why", "--last", "leg", "0").stdout)
        self.assertEqual(self.script("debug", "--last", typed="goto 1\n").stdout.split(" of")[0], "place 1")
        page = self.room / "page.html"
        self.assertEqual(self.script("report", "--last", "-o", str(page)).stdout, f"{page}\n")
        self.assertIn('"0-0":"hi\\n"', page.read_text(encoding="utf-8"))  # (by its logs)
        self.assertEqual(self.script("open").stdout, f"{record.with_name('report.html')}\n")
        self.assertEqual(self.script("open", "-C", "below").stdout, f"{record.with_name('report.html')}\n")
        self.assertNotEqual(self.script("why", "--", "--last").returncode, 0)
        record.unlink()
        gone = self.script("why", "--last")
        self.assertEqual(gone.returncode, 2)
        self.assertIn("is gone", gone.stderr)

    def test_an_editor_launches_it(self) -> None:
        self.workflow("- run: exit 3")
        self.attempt()
        code = ("from actrun_front.last import launched; import json, pathlib; "
                "print(json.dumps(launched({'record': '--last'}, pathlib.Path('.'))))")
        environment = {**self.environment, "PYTHONPATH": str(FRONT)}
        shown = subprocess.run([sys.executable, "-c", code], cwd=self.project, env=environment,
                               capture_output=True, text=True, check=True).stdout
        work = self.work()
        self.assertEqual(json.loads(shown), {"record": f"{work}/private/record", "logs": f"{work}/play"})

    def test_a_page_is_opened_where_there_is_a_screen(self) -> None:
        self.workflow("- run: 'true'")
        self.attempt()
        tool = self.room / "bin" / "xdg-open"
        tool.parent.mkdir()
        tool.write_text(f'#!/bin/sh\necho "$1" > {self.room}/opened\n', encoding="utf-8")
        tool.chmod(0o755)
        self.environment.update(DISPLAY=":9", PATH=f"{tool.parent}:{os.environ['PATH']}")
        page = self.script("open").stdout
        self.assertEqual((self.room / "opened").read_text(encoding="utf-8"), page)

    def test_quiet_and_verbose(self) -> None:
        self.workflow("- run: echo ${{ runner.os }}; exit 1\n- run: echo ${{ runner.os }}")
        done = self.attempt("--quiet")
        self.assertEqual((done.returncode, done.stdout), (1, "✗ .github/workflows/ci.yml: failure\n"))
        self.assertEqual(done.stderr, "")
        self.assertRegex(self.attempt("-n").stderr, r"(?m)^note: \S+ci\.yml:6: `runner\.os` is replaced .* "
                                                    r"\(2 times, in \.github/workflows/ci\.yml\)$")
        self.assertRegex(self.attempt("-n", "-v").stderr,
                         r"ci\.yml:6: `runner\.os` is .*\n.*ci\.yml:7: `runner\.os` is replaced by")
        self.assertIn("job one", self.attempt("-n", "-q").stdout)
        self.assertIn("no workflow has that job", self.attempt("-q", "-j", "none").stderr)


@NEEDS_PROGRAM
class Asked(TerminalCase):
    """Before the sandbox is given up."""

    def test_a_terminal_is_asked(self) -> None:
        self.workflow("- run: touch $HOME/done")
        for typed, status in ((b"n\n", 2), (b"\n", 2), (b"\x04", 2), (b"yes\n", 0)):
            shown = self.on_terminal("try", "--no-sandbox", typed=typed)
            self.assertIn("every step has your rights: it can read, change, delete", shown)
            self.assertEqual((self.status, (self.home / "done").exists()), (status, status == 0), shown)
        self.assertNotIn("[y/N]", self.on_terminal("try", "--no-sandbox", "-l"))


if __name__ == "__main__":
    unittest.main()
