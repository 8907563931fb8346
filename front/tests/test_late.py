"""Matrices from outputs: what they need is executed first, and the record is one of the whole plan."""
from __future__ import annotations

import json
import os
import re
import signal
import subprocess
import sys
import tempfile
import time
import unittest
from pathlib import Path

from actrun_front.dap_record import Board
from actrun_front.late import pairs, results
from actrun_front.present import legs_of

from .try_case import NEEDS_PROGRAM, TryCase, sandbox_works

MAKE = """\
  make:
    runs-on: ubuntu-latest
    outputs: {list: "${{ steps.l.outputs.list }}"}
    steps:
      - {run: 'echo x >> $HERE/count; echo WORD=kept >> $GITHUB_ENV; echo made > file; echo "# made" >> $GITHUB_STEP_SUMMARY'}
      - id: l
        run: |
          echo "the word is $WORD"
          echo 'list=LIST' >> $GITHUB_OUTPUT
"""
USE = """\
  use:
    needs: make
    runs-on: ubuntu-latest
    strategy: {fail-fast: false, matrix: {x: "${{ fromJSON(needs.make.outputs.list) }}"}}
    steps:
      - {run: 'echo used ${{ matrix.x }} ${{ strategy.job-total }}'}
"""


class LateCase(TryCase):
    """Calls of `try` on workflows whose steps know a folder for files."""

    def flow(self, text: str, name: str = "ci") -> None:
        """A workflow with these jobs."""
        self.write(f".github/workflows/{name}.yml", f"name: {name}\non: push\nenv: {{HERE: {self.room}}}\njobs:\n{text}")

    def board(self) -> str:
        """The board of the record, which is one of its plan to the end."""
        record = self.work() / "private" / "record"
        done = subprocess.run([os.environ["ACTRUN_PROGRAM"], "replay", "--settled", record], capture_output=True, text=True, check=False)
        self.assertNotEqual(done.returncode, 2, done.stderr)
        return done.stdout

    def count(self) -> int:
        """How often the first job was executed."""
        return len((self.room / "count").read_text(encoding="utf-8").split())


@NEEDS_PROGRAM
class Stages(LateCase):
    """Workflows with such matrices."""

    def test_a_matrix_from_an_output(self) -> None:
        self.flow(MAKE.replace("LIST", '["a","b"]') + USE + "  other: {runs-on: ubuntu-latest, steps: [{run: echo other}]}\n")
        done = self.attempt("--no-sandbox")
        self.assert_status(done, 0)
        self.assertIn("note: stage 1: what the strategy of use needs is executed first\n", done.stderr)
        for text in ("the word is kept", "used a 2", "used b 2", "other", "# made"):
            self.assertEqual(self.printed(done).count(f"\n{text}\n"), 1, text)
        self.assertEqual(len(re.findall("(?m)^\\S+ make: ", done.stderr)), 2, done.stderr)
        self.assertEqual(self.count(), 1)
        board = self.board()
        self.assertEqual(len(re.findall("(?m)^leg . ended success$", board)), 4, board)
        self.assertIn('\nset {"WORD":"kept"}\n', board)
        self.assertIn('\nout {"list":"[\\"a\\",\\"b\\"]"}\n', board)
        self.assertEqual([log.read_text(encoding="utf-8").split("\n")[1:-1] for log in self.work().glob("play/step-?-1.log")], [["the word is kept"]])

    def test_several_stages(self) -> None:
        self.flow(MAKE.replace("LIST", '{"x":[1,2]}').replace('outputs.list }}"}', 'outputs.list }}", one: "1"}') + """\
  between:
    needs: make
    runs-on: ubuntu-latest
    strategy: {max-parallel: "${{ fromJSON(needs.make.outputs.one) }}", matrix: "${{ fromJSON(needs.make.outputs.list) }}"}
    outputs: {list: "${{ steps.l.outputs.list }}"}
    steps:
      - {id: l, run: 'echo "list=[{\\"y\\":5}]" >> $GITHUB_OUTPUT'}
  last:
    needs: [between, make]
    runs-on: ubuntu-latest
    strategy: {matrix: {include: "${{ fromJSON(needs.between.outputs.list) }}"}}
    steps:
      - {run: 'echo last ${{ matrix.y }}'}
""")
        done = self.attempt("--no-sandbox")
        self.assert_status(done, 0)
        self.assertIn("note: stage 2: what the strategy of last needs is executed first\n", done.stderr)
        self.assertIn("\nlast 5\n", self.printed(done))
        self.assertEqual(self.count(), 1)
        self.assertIn("ended success\n", self.board())

    def test_two_workflows_and_the_trees_of_legs(self) -> None:
        for name in ("a", "b"):
            self.flow(MAKE.replace("LIST", "[1,2,3]").replace("echo the", f"echo {name}: the").replace("- id: l", "- id: l\n        if: '!cancelled()'") + USE, name)
        done = self.attempt("--no-sandbox")
        self.assert_status(done, 0)
        self.assertEqual(self.count(), 2)
        self.assertEqual(self.printed(done).count("\nused 3 3\n"), 2)
        self.assertEqual(done.stdout.count("\n# made\n"), 2)
        self.assertEqual(len(re.findall("(?m)^leg . ended success$", self.board())), 8)

    def test_wrong_values_let_the_job_fail(self) -> None:
        for value, why in (("[", "value BadJson"), ("[]", "plan Matrix EmptyVariable"), ("5", "x in the matrix of job use is 5, but has to be a list")):
            with self.subTest(value):
                self.flow(MAKE.replace("LIST", value) + USE)
                done = self.attempt("--no-sandbox")
                self.assert_status(done, 1)
                self.assertRegex(done.stdout, f"error: the strategy of job use has no value: .*{re.escape(why)}")
                subprocess.run(["rm", "-rf", self.home / ".cache"], check=True)

    def test_a_failure_before_it(self) -> None:
        self.flow(MAKE.replace("echo 'list", "exit 7; echo 'list") + USE)
        done = self.attempt("--no-sandbox")
        self.assert_status(done, 1)
        self.assertEqual(self.count(), 1)
        self.assertIn("the program ended with 7", done.stdout)
        self.assertRegex(done.stdout, r"job 1 \(use\) was skipped")

    def test_a_matrix_that_calls_a_workflow(self) -> None:
        self.write(".github/workflows/called.yml", """\
on: {workflow_call: {inputs: {word: {type: string}}}}
jobs: {inner: {runs-on: ubuntu-latest, steps: [{run: 'echo called ${{ inputs.word }}'}]}}
""")
        self.flow(MAKE.replace("LIST", '["a","b"]') + """\
  call:
    needs: make
    strategy: {matrix: {x: "${{ fromJSON(needs.make.outputs.list) }}"}}
    uses: ./.github/workflows/called.yml
    with: {word: "${{ matrix.x }}"}
""")
        done = self.attempt("--no-sandbox")
        self.assert_status(done, 0)
        self.assertIn("\ncalled a\n", self.printed(done))
        self.assertIn("\ncalled b\n", self.printed(done))
        self.assertEqual(self.count(), 1)

    def test_links_of_a_step_are_not_followed(self) -> None:
        target = self.room / "target"
        target.write_text("mine", encoding="utf-8")
        links = ("for name in files stubs bin; do for it in $PLAY/$name/* $PLAY/$name/0/summary-0-0 $PLAY/$name/0/path-0; do "
                 f"ln -sf {target} $it; done; done; rm -rf $PLAY/stubs; ln -s {self.room} $PLAY/stubs")
        self.flow(MAKE.replace("LIST", "[1]").replace("      - id: l", f"      - {{run: 'PLAY=${{RUNNER_TEMP%/temp/*}}; {links}'}}\n      - id: l") + USE)
        done = self.attempt("--no-sandbox")
        self.assertEqual(target.read_text(encoding="utf-8"), "mine", done.stdout + done.stderr)
        self.assertEqual(sorted(path.name for path in self.room.iterdir()), ["count", "home", "target"])

    def test_what_is_told_again_is_shown_once(self) -> None:
        self.flow(MAKE.replace("LIST", "[1]") + USE + "      - {run: 'pass', shell: python}\n")
        self.write(".github/workflows/bad.yml", "on: push\njobs: {a: {runs-on: x, strategy: {matrix: '${{ needs.b }}'}, steps: [{uses: own/action@v1}]}}\n")
        done = self.attempt("--no-sandbox", "--stub", "own/action=true")
        self.assert_status(done, 2)
        for text in ("bad.yml:2: matrix of job a", "1 of 2 workflows cannot be planned", "the shell python is started by bash", "steps execute with all"):
            self.assertLessEqual(done.stderr.count(text), 1, done.stderr)
        self.assertIn("bad.yml:2: matrix of job a", done.stderr)
        self.assertIn("x of job use is evaluated before execution: [1]", done.stderr)
        self.assertIn("\nused 1 1\n", self.printed(done))

    def test_dry_runs_and_given_values(self) -> None:
        self.flow(MAKE.replace("LIST", "[1]") + USE)
        done = self.attempt("-n")
        self.assert_status(done, 0)
        self.assertIn("it is known after the jobs that this one needs, which are executed first", done.stderr)
        self.assertFalse((self.room / "count").exists())
        done = self.attempt("--matrix", "use.x=[7]", "--no-sandbox")
        self.assert_status(done, 0)
        self.assertNotIn("note: stage", done.stderr)
        self.assertIn("\nused 7 1\n", self.printed(done))

    @unittest.skipUnless(sandbox_works(), "bwrap is not installed or does not work here")
    def test_in_the_sandbox(self) -> None:
        self.flow(MAKE.replace("LIST", "[1,2]").replace("$HERE", "$PWD").replace("echo \"the", "printf \"\\377\\n\"; echo \"the") + USE)
        done = self.attempt()
        self.assert_status(done, 0)
        self.assertIn("\nused 2 2\n", self.printed(done))
        self.assertEqual(len(re.findall("(?m)^--- ", done.stdout)), 2, done.stdout)  # (the summary is one)
        self.assertEqual(done.stdout.count("\n# made\n"), 1)
        self.assertEqual(self.board().count(" ended success\n"), 3)

    def test_ctrl_c_in_a_stage(self) -> None:
        self.flow(MAKE.replace("echo 'list", "touch $HERE/begun; sleep 1000; echo 'list") + USE)
        reset = "import os, signal, sys; signal.signal(signal.SIGINT, signal.default_int_handler); os.execv(sys.argv[1], sys.argv[1:])"
        child = subprocess.Popen([sys.executable, "-c", reset, *self.command("--no-sandbox")], cwd=self.project, env=self.environment, text=True,
                                 stdout=subprocess.PIPE, stderr=subprocess.PIPE, start_new_session=True)
        end = time.monotonic() + 90
        while not (self.room / "begun").exists() and time.monotonic() < end:
            time.sleep(0.05)
        os.killpg(child.pid, signal.SIGINT)
        out, err = child.communicate(timeout=90)
        self.assertEqual(child.returncode, 130, out + err)
        self.assertIn("; stopped by Ctrl-C  [", out)
        self.assertNotIn("note: stage 2", err)


class Parts(unittest.TestCase):
    """Texts of files and boards."""

    @NEEDS_PROGRAM
    def test_results(self) -> None:
        job = {"condition": None, "env": {}, "fail_fast": True, "group": None, "max_parallel": None, "needs": [], "outputs": {}, "steps": [],
               "tolerate": False}
        plan = {"runs": [{"jobs": [{**job, "number": number, "id": f"j{number}", "name": "", "legs": [{}] * 2} for number in range(3)]}]}
        self.assertEqual(len(legs_of(plan)), 6)
        board = ("run 0 going\njob 0 open\nleg 0 ended success\nout {\"a\":\"1\",\"b\":\"1\"}\nleg 1 ended success\nout {\"a\":\"2\"}\n"
                 "job 1 open\nleg 2 ended failure tolerated\nleg 3 ended cancelled\njob 2 shut skipped\nleg 4 fresh\nleg 5 fresh\nends 1 0 2 3\n")
        self.assertEqual(results(plan, Board.of(board.splitlines())), {0: {"result": "success", "outputs": {"a": "1", "b": "1"}}, 1: {"result": "cancelled", "outputs": {}},
                                                2: {"result": "skipped", "outputs": {}}})

    @NEEDS_PROGRAM
    def test_pairs_are_read_as_they_were(self) -> None:
        values = {"a": "", "b": "x\n", "c": "\n\ny=1<<Z", "d": "='"}
        flow = {"on": "push", "jobs": {"a": {"steps": [{"id": "s", "run": "cat <<'EOF' >> $GITHUB_OUTPUT\n" + pairs(values) + "EOF"}]}}}
        room = tempfile.TemporaryDirectory()
        self.addCleanup(room.cleanup)
        folder = Path(room.name)
        program = os.environ["ACTRUN_PROGRAM"]
        (folder / "f.json").write_text(json.dumps(flow), encoding="utf-8")
        plan = subprocess.run([program, "plan", folder / "f.json"], capture_output=True, check=True).stdout
        (folder / "plan").write_bytes(plan)
        subprocess.run([program, "run", "--work", folder, "--record", folder / "record", folder / "plan"], capture_output=True, check=True)
        entries = map(json.loads, (folder / "record").read_text(encoding="utf-8").splitlines()[1:])
        self.assertEqual(next(entry["answer"]["outputs"] for entry in entries if entry["event"] == "end"), values)


if __name__ == "__main__":
    unittest.main()
