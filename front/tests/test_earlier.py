"""`try --from`, `--resume` and `--watch`, the command `files`, and `files` at a break."""
from __future__ import annotations

import json
import re
import signal
import subprocess
import sys
import time
import unittest
from pathlib import Path

from . import test_root
from .live_case import PATIENCE, LiveCase
from .try_case import FRONT, NEEDS_PROGRAM, PROGRAM, sandbox_works

STEPS = """
- uses: actions/checkout@v4
- id: make
  run: |
    echo once >>made
    mkdir -p bin empty
    printf '#!/bin/sh\\necho the tool\\n' >bin/tool
    chmod 750 bin/tool
    echo "$PWD/bin" >>"$GITHUB_PATH"
    echo "A=1" >>"$GITHUB_ENV"
    echo "out=2" >>"$GITHUB_OUTPUT"
    echo "# sum" >>"$GITHUB_STEP_SUMMARY"
    echo "::add-mask::hidden-word"
- run: tool; echo "A=$A"; echo later >>made
- name: check
  run: cat made; ls -d empty; tool; echo "A=$A out=${{ steps.make.outputs.out }} hidden-word"; cat wanted
- name: last
  if: always()
  run: git status --porcelain; echo end
"""


@NEEDS_PROGRAM
@unittest.skipUnless(sandbox_works(), "no sandbox can be made here")
class EarlierCase(LiveCase):
    """A repository whose workflow fails at the step `check`."""

    workspace = ()

    def setUp(self) -> None:
        super().setUp()
        self.write("file", "one\n")
        self.workflow(STEPS)
        self.commit()

    def record(self) -> Path:
        """The record of the execution that began last."""
        place = next((self.home / ".cache" / "actrun" / "begun").iterdir())
        return Path(json.loads(place.read_text(encoding="utf-8"))) / "private" / "record"

    def answers(self, record: Path | None = None) -> list[int]:
        """The codes of all steps that ended."""
        lines = (record or self.record()).read_text(encoding="utf-8").splitlines()[1:]
        entries = map(json.loads, lines)
        return [entry["answer"]["code"] for entry in entries if entry["event"] == "end"]

    def assert_legal(self) -> None:
        """Fails where the program does not take the record."""
        done = subprocess.run([PROGRAM, "replay", str(self.record())], capture_output=True, text=True, check=False)
        self.assertIn(done.returncode, (0, 1), done.stderr)

    def change(self, old: str, new: str) -> None:
        """Changes the workflow."""
        self.workflow(STEPS.replace(old, new))

    def front(self, *words: str) -> subprocess.CompletedProcess[str]:
        """Calls a command of the front."""
        return subprocess.run([sys.executable, str(FRONT), *words], cwd=self.project, env=self.environment,
                              capture_output=True, text=True, check=False, timeout=120)


class From(EarlierCase):
    """`--from`."""

    def test_the_steps_before_keep_their_answers(self) -> None:
        self.assert_status(self.attempt(), 1)
        self.change("cat wanted", "echo fixed")
        done = self.attempt("--from", "one/check")
        self.assert_status(done, 0)
        self.assertIn("kept from the last execution", done.stderr)
        self.assertIn("goes on at: one: check", done.stderr)
        self.assertIn("once\nlater\nempty\nthe tool\nA=1 out=2 ***\nfixed\n", done.stdout)
        self.assertNotIn("✓ one: actions/checkout", done.stderr)
        self.assertEqual(self.answers(), [0, 0, 0, 0, 0])
        self.assertIn("# sum", done.stdout)
        self.assertIn("?? made", done.stdout)
        self.assert_legal()

    def test_failed_names_the_first_step_that_failed(self) -> None:
        self.assert_status(self.attempt(), 1)
        self.write("wanted", "")
        done = self.attempt("--from", "failed")
        self.assert_status(done, 1)  # (the file is not in the workspace of then)
        self.assertIn("goes on at: one: check", done.stderr)

    def test_it_can_be_done_again_and_again(self) -> None:
        self.assert_status(self.attempt(), 1)
        for count in (1, 2):
            self.change("cat wanted", f"echo fixed {count}")
            done = self.attempt("--from", "one/3")
            self.assert_status(done, 0)
            self.assertIn(f"once\nlater\nempty\nthe tool\nA=1 out=2 ***\nfixed {count}\n", done.stdout)
        first = next((self.home / ".cache" / "actrun" / "work").glob("*~1"))
        self.assertEqual(self.answers(first / "private" / "record"), [0, 0, 0, 1, 0])
        self.change("cat wanted", "echo fixed 3")
        done = self.attempt("--from", "one/2", "--record", str(first / "private" / "record"))
        self.assert_status(done, 0)
        self.assertIn("A=1 out=2 ***\nfixed 3\n", done.stdout)
        self.assertIn(f"which is in {first} now", done.stderr)
        self.assertEqual(len(list(first.parent.iterdir())), 4)

    def test_a_step_that_has_changed_is_said(self) -> None:
        self.assert_status(self.attempt(), 1)
        self.change("echo later", "echo other")
        record = self.record().read_bytes()
        done = self.attempt("--from", "one/check")
        self.assert_status(done, 2)
        self.assertRegex(done.stderr, r"step 2 \(.*\) is not as it was.*: --from one/2 executes it, too")
        self.assertEqual(self.record().read_bytes(), record)
        self.assert_status(self.attempt("--from", "one/2"), 1)

    def test_wrong_words(self) -> None:
        done = self.attempt("--from", "one/check")
        self.assert_status(done, 2)
        self.assertIn("no execution of", done.stderr)
        self.assert_status(self.attempt(), 1)
        for words, text in ((("--from", "one/chek"), "--from one/chek: no step"), (("--from", "last", "--keep", "x"), "--keep"),
                            (("--from", "last", "--in-place"), "--in-place"), (("--record", "/etc/passwd"), "--record"),
                            (("--from", "last", "--record", "/etc/passwd"), "name the file `record`"),
                            (("--from", "last", "--record", "/etc/record"), "no execution"), (("--resume",), "came to its end"),
                            (("--from", "one/check", "--resume"), "both")):
            done = self.attempt(*words)
            self.assert_status(done, 2)
            self.assertIn(text, done.stderr)
        self.assert_status(self.attempt("--no-snapshots"), 1)
        done = self.attempt("--from", "one/check")
        self.assert_status(done, 2)
        self.assertIn("no snapshot of the workspace after one: ", done.stderr)

    def test_without_a_place_for_snapshots(self) -> None:
        self.workflow("- run: echo done")
        place = self.home / ".cache" / "actrun"
        place.mkdir(parents=True, mode=0o700)
        (place / "snapshots").write_text("", encoding="utf-8")
        done = self.attempt()
        self.assert_status(done, 0)
        self.assertIn("note: snapshots cannot be kept: ", done.stderr)
        self.assert_status(self.attempt("--snapshots"), 3)
        self.assert_status(self.attempt("--from", "one/0"), 3)

    def test_options_of_the_earlier_execution_hold(self) -> None:
        self.workflow("- uses: actions/checkout@v4\n- run: echo ${{ inputs.name }} ${{ github.event_name }} $MORE",
                      "on: {push: {}, workflow_dispatch: {inputs: {name: {}}}}\njobs:\n  one:\n    runs-on: ubuntu-latest\n    steps:\n")
        self.assert_status(self.attempt("workflow_dispatch", "--input", "name=given", "--env", "MORE=more"), 0)
        done = self.attempt("--from", "one/1")
        self.assert_status(done, 0)
        self.assertIn("given workflow_dispatch more\n", done.stdout)

    def test_legs_and_jobs(self) -> None:
        head = """\
on: push
jobs:
  lint:
    runs-on: ubuntu-latest
    steps: [{run: echo linted}]
  build:
    runs-on: ubuntu-latest
    outputs: {v: '${{ steps.v.outputs.v }}'}
    steps: [{id: v, run: 'echo v=7 >>"$GITHUB_OUTPUT"'}]
  after:
    needs: test
    if: always()
    runs-on: ubuntu-latest
    steps: [{run: echo after}]
  test:
    needs: build
    runs-on: ubuntu-latest
    strategy: {fail-fast: false, matrix: {n: [1, 2]}}
    steps:
"""
        self.workflow("- run: echo ${{ needs.build.outputs.v }} ${{ matrix.n }} >file\n"
                      "- {id: read, run: 'cat file; [ ${{ matrix.n }} = 1 ]'}", head)
        self.assert_status(self.attempt(), 1)
        done = self.attempt("--from", "test/read")
        self.assert_status(done, 1)
        shown = re.findall("(?m)^[✓✗] (.*?)(?:,|$)", done.stderr)
        self.assertEqual(sorted(shown), ["after: echo after", "test (1): cat file; [ 1 = 1 ]", "test (2): cat file; [ 2 = 1 ]"])
        self.assertIn("7 1\n", done.stdout)
        self.assertIn("7 2\n", done.stdout)
        self.assertEqual(len(self.answers()), 7)
        self.assert_legal()

    def test_a_matrix_from_an_output(self) -> None:
        head = """\
on: push
jobs:
  make:
    runs-on: ubuntu-latest
    outputs: {list: "${{ steps.l.outputs.list }}"}
    steps: [{id: l, run: 'echo making; echo "list=[1, 2]" >>"$GITHUB_OUTPUT"'}]
  use:
    needs: make
    runs-on: ubuntu-latest
    strategy: {fail-fast: false, matrix: {n: "${{ fromJSON(needs.make.outputs.list) }}"}}
    steps:
"""
        self.workflow("- run: echo ${{ matrix.n }} >file\n- run: cat file wanted", head)
        self.assert_status(self.attempt(), 1)
        self.workflow("- run: echo ${{ matrix.n }} >file\n- run: cat file; echo fixed", head)
        done = self.attempt("--from", "use/1")
        self.assert_status(done, 0)
        self.assertNotIn("making\n", done.stdout)
        for number in (1, 2):  # (lines of legs that execute at once may have their names before them)
            self.assertRegex(done.stdout, rf"(?m)^(.* \| )?{number}\n(.* \| )?fixed$")
        self.assertEqual(self.answers(), [0] * 5)
        self.workflow("- run: echo ${{ matrix.n }} >file\n- run: cat file; echo again", head.replace("[1, 2]", "[1, 2, 3]"))
        done = self.attempt("--from", "use/1")
        self.assert_status(done, 2)
        self.assertIn("--from make/0 executes it, too", done.stderr)
        done = self.attempt("--from", "make")
        self.assert_status(done, 0)
        self.assertRegex(done.stdout, r"(?m)^(.* \| )?3\n(.* \| )?again$")

    def test_a_link_in_the_workspace_is_not_written_through(self) -> None:
        outside = self.room / "outside"
        outside.mkdir()
        self.workflow(f"- uses: actions/checkout@v4\n- run: ln -s {outside} link; ln -s /etc/passwd name; echo x >made\n"
                      "- run: ls -l; test -L link; cat made")
        self.assert_status(self.attempt(), 0)
        self.assert_status(self.attempt("--from", "one/2"), 0)
        self.assertEqual(list(outside.iterdir()), [])


@NEEDS_PROGRAM
@unittest.skipUnless(sandbox_works(), "no sandbox can be made here")
class OfPerson(test_root.OfPersonCase):
    """`--from` by an ordinary user."""

    def test_what_cannot_be_read_is_left_out(self) -> None:
        steps = ("- run: echo a >a; mkdir closed; echo b >closed/b; chmod 0 closed; echo c >c; chmod 0 c\n"
                 "- run: cat a; ls; ")
        self.workflow(steps + "cat wanted")
        self.prepare()
        done = self.attempt()
        self.assert_status(done, 1)
        self.assertRegex(done.stderr, r"snapshots of one are without .* \(permission denied\), and 1 other")
        self.workflow(steps + "echo fixed")
        self.prepare()
        done = self.attempt("--from", "one/1")
        self.assert_status(done, 0)
        self.assertIn("fixed\n", done.stdout)
        self.assertEqual(done.stderr.count("was not kept in the snapshot"), 2)


class Machines(EarlierCase):
    """What a leg goes on with also, next to its workspace."""

    STEPS = ("- run: echo home >~/file; echo temp >/tmp/file; echo a >$RUNNER_TEMP/file; sudo touch /etc/planted /usr/bin/planted\n"
             "- run: cat ~/file /tmp/file $RUNNER_TEMP/file; ls /etc/planted /usr/bin/planted; ")

    def test_a_leg_that_failed_finds_its_home_and_system(self) -> None:
        self.workflow(self.STEPS + "cat wanted")
        first = self.attempt()
        self.assert_status(first, 1)
        if "saw the system read-only" in first.stderr:
            self.skipTest("no root of a leg can be made here")
        for count in (1, 2):
            self.workflow(self.STEPS + f"echo fixed {count}; exit {2 - count}")
            done = self.attempt("--from", "one/1")
            self.assert_status(done, 2 - count)
            self.assertIn(f"home\ntemp\na\n/etc/planted\n/usr/bin/planted\nfixed {count}\n", done.stdout)
            self.assertIn("HOME, /tmp, /etc and /usr are too", done.stderr)
        done = self.attempt("--from", "one/1")
        self.assert_status(done, 1)  # (nothing is kept of a leg that succeeded)
        self.assertIn("HOME, /tmp and the system of one are new", done.stderr)


class Resume(EarlierCase):
    """`--resume`."""

    WAITS = "- uses: actions/checkout@v4\n- run: echo once >>made\n- run: echo begun >>made; [ -z \"$WAIT\" ] || sleep 300; cat made\n"

    def setUp(self) -> None:
        super().setUp()
        # (also where the tests are started in the background)
        self.addCleanup(signal.signal, signal.SIGINT, signal.signal(signal.SIGINT, signal.default_int_handler))

    def begin(self) -> subprocess.Popen[bytes]:
        """An execution whose last step waits."""
        self.workflow(self.WAITS)
        command = self.command("--env", "WAIT=1")
        child = subprocess.Popen(command, cwd=self.project, env=self.environment, stdout=subprocess.DEVNULL,
                                 stderr=subprocess.DEVNULL, stdin=subprocess.DEVNULL)
        self.addCleanup(child.wait)
        self.addCleanup(child.kill)
        end = time.monotonic() + PATIENCE
        trees = self.home / ".cache" / "actrun" / "work"
        while not any("begun" in path.read_text(encoding="utf-8") for path in trees.glob("*/play/tree/project/made")):
            self.assertLess(time.monotonic(), end)
            time.sleep(0.1)
        return child

    def assert_goes_on(self) -> None:
        """Fails where --resume does not go on behind the step that ended."""
        done = self.attempt("--resume", "--env", "WAIT=")
        self.assert_status(done, 0)
        self.assertIn("once\nbegun\n", done.stdout)
        self.assertNotIn("begun\nbegun", done.stdout)
        self.assertIn("goes on at: one: echo begun", done.stderr)
        self.assertEqual(self.answers(), [0, 0, 0])
        self.assert_legal()

    def test_after_a_kill(self) -> None:
        child = self.begin()
        self.assertIn("still goes on", self.attempt("--resume").stderr)
        child.kill()
        child.wait()
        self.assert_goes_on()

    def test_after_ctrl_c(self) -> None:
        child = self.begin()
        child.send_signal(signal.SIGINT)
        self.assertEqual(child.wait(PATIENCE), 130)
        self.assert_goes_on()


class Files(EarlierCase):
    """The command `files`, and that of a break."""

    def test_what_a_step_changed(self) -> None:
        self.assert_status(self.attempt("--env", "X=1"), 1)
        record = str(self.record())
        self.assertEqual(self.front("files", record, "0", "1").stdout, "A bin/tool\nA made\n")
        self.assertEqual(self.front("files", record, "0", "2").stdout, "M made\n")
        self.assertIn("+later\n", self.front("files", record, "0", "2", "./made").stdout)
        found = json.loads(self.front("files", record, "0", "2", "--json").stdout)
        self.assertEqual(found, {"leg": 0, "step": 2, "files": [{"change": "M", "path": "made"}]})
        page = self.record().with_name("report.html").read_text(encoding="utf-8")
        self.assertIn('"0-1":[["A","bin/tool"],["A","made"]],"0-2":[["M","made"]]', page)
        self.assertIn("did not change file", self.front("files", record, "0", "2", "file").stdout)
        for words, text in (((record, "0", "9"), "those of steps 0, 1, 2"), ((record, "7", "0"), "those of legs 0"),
                            (("/etc/passwd", "0", "0"), "no execution")):
            done = self.front("files", *words)
            self.assertEqual(done.returncode, 2)
            self.assertIn(text, done.stderr)

    def test_names_and_texts_steer_no_terminal_and_secrets_are_hidden(self) -> None:
        self.workflow("- run: |\n    printf '\\033]0;x\\007 a-secret-word\\n' >\"$(printf 'a\\033[31m')\"\n    echo a-secret-word >a-secret-word")
        self.assert_status(self.attempt("--secret", "S=a-secret-word", "--env", "S=a-secret-word"), 0)
        for words in ((), ("a\x1b[31m",), ("a-secret-word",)):
            text = self.front("files", str(self.record()), "0", "0", *words).stdout
            self.assertNotIn("\x1b", text)
            self.assertTrue(text)
        self.workflow("- run: touch \"$(printf 'a\\nD b')\" \"$(printf '\\xe2\\x80\\xae')\"")
        self.assert_status(self.attempt(), 0)
        self.assertEqual(self.front("files", str(self.record()), "0", "0").stdout, "A a\u240aD b\nA <U+202E>\n")
        self.assertNotIn("\u202e", self.front("files", str(self.record()), "0", "0", "--json").stdout)

    def test_other_ends_of_lines_in_values_are_none(self) -> None:
        self.workflow("- run: printf 'a=1\\xc2\\x852\\xe2\\x80\\xa83\\n' >>\"$GITHUB_OUTPUT\"\n- run: 'false'")
        self.assertNotIn("unforeseen", self.attempt("--json").stderr)
        self.assertIn("kept from", str(self.attempt("--from", "failed")))
        self.workflow("- run: echo ${{ secrets.S }} >a-secret-word")
        self.assert_status(self.attempt("--secret", "S=a-secret-word"), 0)
        for words in ((), ("a-secret-word",)):
            self.assertNotIn("secret-word", self.front("files", str(self.record()), "0", "0", *words).stdout)

    def test_at_a_break(self) -> None:
        done = self.at_pipe("files", "files made", "shell", "rm file; echo x >fresh", "exit", "files", "files nothing", "continue",
                            words=("--break", "failed"))
        self.assert_status(done, 1)
        self.assertIn("(break) files\nnothing was changed\n", done.stderr)
        self.assertIn("made: nothing of this file was changed", done.stderr)
        self.assertIn("D file\nA fresh\n", done.stderr)
        text = self.front("files", str(self.record()), "0", "3").stdout
        self.assertEqual(text, "D file\nA fresh\n")


class Watch(EarlierCase):
    """`--watch`."""

    def test_changes_are_executed_again(self) -> None:
        self.workflow("- run: echo before\n- uses: actions/checkout@v4\n- run: cat file\n- run: echo last")
        self.write(".gitignore", "ignored\n")
        person = self.person("--watch")
        person.until("watching .*\n")
        self.write("ignored", "x")
        self.write("file", "two\n")
        shown = person.until("watching .*\n")
        self.assertIn("changed: file\n", shown)
        self.assertIn("kept from the last execution: one (1 step)", shown)
        self.assertIn("two\n", shown)
        self.assertNotIn("✓ one: echo before", shown)
        self.workflow("- run: echo before\n- uses: actions/checkout@v4\n- run: cat file\n- run: echo LAST")
        shown = person.until("watching .*\n")
        self.assertIn("goes on at: one: echo LAST", shown)
        self.assertNotIn("✓ one: cat file", shown)
        self.workflow("- run: [", "on: push\n")
        self.assertIn("not valid YAML", person.until("watching .*\n"))
        person.type("\x03")
        self.assertEqual(person.end(), 130)
        self.assertEqual(len(list((self.home / ".cache" / "actrun" / "work").iterdir())), 1)

    def test_it_needs_a_copy(self) -> None:
        for words in (("--in-place",), ("--no-sandbox",), ("--keep", "x")):
            done = self.attempt("--watch", *words)
            self.assert_status(done, 2)
            self.assertIn("--watch: ", done.stderr)


if __name__ == "__main__":
    unittest.main()
