"""`actrun try --break`: the prompt before a step and after one that failed, by a pipe and by a terminal."""
from __future__ import annotations

import json
import subprocess
import sys
import time
import unittest
from pathlib import Path

from .live_case import PATIENCE, LiveCase
from .try_case import FRONT, NEEDS_PROGRAM, PROGRAM, WORKFLOW, sandbox_works

MISSING = """\
- name: first
  run: echo begins
- name: make the file
  id: make
  env:
    COLOUR: blue
  run: |
    echo "reads $COLOUR" | tee -a "$GITHUB_STEP_SUMMARY"
    echo before >>"$GITHUB_OUTPUT.tried"
    echo "value=$(cat missing.txt)" >>"$GITHUB_OUTPUT"
    cat missing.txt
- name: use it
  run: echo "got ${{ steps.make.outputs.value }}"
"""
TWO = WORKFLOW + """\
      - name: alone
        run: echo of one
  two:
    needs: one
    runs-on: ubuntu-latest
    steps:
"""


@NEEDS_PROGRAM
@unittest.skipUnless(sandbox_works(), "bwrap cannot make a room here")
class Pipe(LiveCase):
    """Commands on a pipe."""

    def record(self) -> Path:
        """The record of the execution."""
        return self.work() / "private" / "record"

    def answers(self) -> list[int]:
        """The statuses of the steps in the record, which the program accepts."""
        done = subprocess.run([PROGRAM, "replay", str(self.record())], capture_output=True, check=False)
        self.assertIn(done.returncode, (0, 1), done.stderr)
        entries = map(json.loads, self.record().read_text(encoding="utf-8").splitlines()[1:])
        return [entry["answer"].get("code") for entry in entries if entry["event"] == "end"]

    def why(self) -> str:
        """What `why` says of the record."""
        words = [PROGRAM, "why", str(self.record())]
        return subprocess.run(words, capture_output=True, check=True, text=True).stdout

    def test_a_step_that_failed_is_repaired_and_run_again(self):
        self.workflow(MISSING)
        shell = "shell", "echo here: $(basename $PWD) $COLOUR", "echo 42 >missing.txt", "exit"
        done = self.at_pipe("print COLOUR", *shell, "run", "run", "continue", words=("--break", "failed"))
        self.assert_status(done, 0)
        self.assertIn("make the file failed, exit 1  [.github/workflows/ci.yml:8]", done.stderr)
        self.assertRegex(done.stderr, r"(?s)reads blue.*No such file.*\(break\) print COLOUR\nblue\n")
        self.assertIn("here: project blue\n", done.stderr)
        self.assertIn("the step succeeded: `continue` goes on", done.stderr)
        self.assertIn("got 42", done.stdout)
        self.assertIn("--- summary of one: make the file\nreads blue\n\n", done.stdout)
        self.assertIn("step one: make the file was run again by hand: 2 times\n", done.stdout)
        self.assertIn("step one: make the file had a shell: 1 time\n", done.stdout)
        self.assertEqual(self.answers(), [0, 0, 0])
        self.assertEqual(self.why(), "")

    def test_the_last_answer_counts(self):
        self.workflow(MISSING)
        done = self.at_pipe("run", "continue", words=("--break", "failed"))
        self.assert_status(done, 1)
        self.assertEqual(self.answers(), [0, 1])
        self.assertIn("the step failed, exit 1", done.stderr)

    def test_a_step_has_a_break_by_name_id_job_and_line(self):
        self.workflow(MISSING)
        for number, place in enumerate(("make the file", "make", "one/make", "one/1", "one/make the file",
                                        "ci.yml:8", ".github/workflows/ci.yml:14")):
            kept = str(self.room / f"kept-{number}")
            done = self.at_pipe("script", "skip", words=("--break", place, "--keep", kept))
            self.assert_status(done, 0)
            self.assertEqual(done.stderr.count("\nbreak: "), 1, place)
            self.assertIn("\nbreak: before one: make the file  [", done.stderr, place)
            self.assertRegex(done.stderr, r"(?m)^cat missing\.txt$")
            self.assertNotIn("reads blue", done.stdout)
            self.assertIn("step one: make the file was skipped by hand: its answer is success\n", done.stdout)

    def test_a_job_has_a_break_before_its_first_step(self):
        self.workflow("- name: first\n  run: echo of two\n- run: echo last", head=TWO)
        for number, place in enumerate(("two", "ci.yml:8")):
            kept = str(self.room / f"kept-{number}")
            done = self.at_pipe("next", "continue", words=("--break", place, "--keep", kept))
            self.assert_status(done, 0)
            self.assertRegex(done.stderr, r"(?s)before two: first .*\) next\n.*before two: echo last .*\) continue\n")
            self.assertEqual(done.stderr.count("\nbreak: "), 2)

    def test_a_step_is_executed_before_its_break_goes_on(self):
        self.workflow("- name: a\n  run: |\n    echo ran >>count\n    wc -l <count")
        done = self.at_pipe("run", "continue", words=("--break", "a"))
        self.assert_status(done, 0)
        self.assertIn("--- one: a\n1\n", done.stdout)
        self.assertIn("step one: a was run by hand: 1 time\n", done.stdout)
        self.assertEqual(self.answers(), [0])

    def test_steps_of_actions_and_called_workflows_are_named_as_they_are_written(self):
        self.write("act/action.yml", "name: act\nruns:\n  using: composite\n  steps:\n    - name: inner\n"
                   "      shell: bash\n      run: echo inner\n    - shell: bash\n      run: echo last\n")
        called = WORKFLOW.replace("push", "workflow_call") + "      - run: echo deep\n"
        self.write(".github/workflows/called.yml", called)
        head = WORKFLOW.replace("jobs:\n", "jobs:\n  call:\n    uses: ./.github/workflows/called.yml\n")
        self.workflow("- name: greet\n  uses: ./act", head=head)
        places = [(place, "one: greet (./act) / inner") for place in ("greet", "one/greet", "./act", "inner")]
        places.append(("call", "call / one: echo deep"))
        for number, (place, step) in enumerate(places):
            done = self.at_pipe("c", words=("--break", place, "--keep", str(self.room / f"kept-{number}")))
            self.assert_status(done, 0)
            self.assertEqual(done.stderr.count("\nbreak: "), 1, place)
            self.assertIn(f"\nbreak: before {step}  [", done.stderr, place)

    def test_a_leg_that_is_known_during_execution_has_a_break(self):
        head = WORKFLOW + ("      - id: pick\n        run: echo 'list=[\"x\", \"y\"]' >>$GITHUB_OUTPUT\n    outputs:\n"
                           "      list: ${{ steps.pick.outputs.list }}\n  two:\n    needs: one\n"
                           "    runs-on: ubuntu-latest\n    strategy:\n      matrix:\n"
                           "        leg: ${{ fromJSON(needs.one.outputs.list) }}\n    steps:\n")
        self.workflow("- name: a\n  run: echo of ${{ matrix.leg }}", head=head)
        words = "--break", "pick", "--break", "two (y)", "--break", "unknown"
        done = self.at_pipe("run", "c", "skip", words=words)
        self.assert_status(done, 0)
        self.assertRegex(done.stderr, r"(?s)before one: echo.*\) c\n.*before two \(y\): a.*\) skip\n")
        self.assertEqual(done.stderr.count("\nbreak: "), 2)
        self.assertIn("note: --break unknown: no step, id or job has this name", done.stderr)
        self.assertRegex(done.stdout, r"(?s)was run by hand: 1 time\n.*step two \(y\): a was skipped by hand")
        self.assertNotIn("of y", done.stdout)

    def test_one_leg_after_the_other_is_asked(self):
        self.workflow("- name: a\n  run: echo ran in $LEG", head=WORKFLOW.replace(
            "    steps:", "    strategy:\n      matrix:\n        leg: [x, y]\n    env:\n"
            "      LEG: ${{ matrix.leg }}\n    steps:"))
        done = self.at_pipe("run", "c", "run", "c", words=("--break", "one", "--workers", "2"))
        self.assert_status(done, 0)
        one = r"before one \((.)\): a.*\) run\nran in "
        self.assertRegex(done.stderr, rf"(?s){one}\1\n.*{one}\2\n")

    def test_a_leg_that_another_one_ends_waits_no_longer(self):
        self.workflow("- name: a\n  run: '[ $LEG = x ] || exit 1'", head=WORKFLOW.replace(
            "    steps:", "    strategy:\n      matrix:\n        leg: [x, y]\n    env:\n"
            "      LEG: ${{ matrix.leg }}\n    steps:"))
        for number, lines in enumerate((("shell", "sleep 600", "exit", "skip"), ("shell", "exec sleep 2", "exit", "run"))):
            words = "--break", "one (x)", "--workers", "2", "--keep", str(self.room / f"kept-{number}")
            done = self.at_pipe(*lines, words=words)
            self.assert_status(done, 1)
            self.assertIn("one (x): a, one (y) failed, and the job fails fast", done.stderr)
            self.assertNotIn("by hand: ", done.stdout)

    def test_quit_ends_a_leg_that_waits_for_its_turn(self):
        self.workflow("- name: a\n  run: echo ran", head=WORKFLOW.replace(
            "    steps:", "    strategy:\n      matrix:\n        leg: [x, y]\n    steps:"))
        done = self.at_pipe("shell", "sleep 2", "exit", "quit", words=("--break", "one", "--workers", "2"))
        self.assert_status(done, 130)
        self.assertEqual(done.stderr.count("\nbreak: "), 1)
        self.assertNotIn("ran", done.stdout.partition("logs ")[0].replace("not executed", ""))

    def test_a_leg_keeps_its_sandbox_between_its_steps(self):
        self.workflow("- run: sleep 600 & echo $! >pid\n- run: kill $(cat pid)\n- name: last\n  run: echo")
        done = self.at_pipe("continue", words=("--break", "last"))
        self.assert_status(done, 0)

    def test_a_step_is_made_to_fail(self):
        self.workflow(MISSING)
        done = self.at_pipe("fail", words=("--break", "first"))
        self.assert_status(done, 1)
        self.assertEqual(self.answers(), [1])
        self.assertIn("step one: first was made to fail by hand\n", done.stdout)

    def test_a_shell_hands_values_on(self):
        self.workflow(MISSING)
        shell = "shell", "echo value=by-hand >>$GITHUB_OUTPUT", "exit"
        done = self.at_pipe(*shell, "skip", words=("--break", "make"))
        self.assert_status(done, 0)
        self.assertIn("got by-hand", done.stdout)

    def test_quit_ends_the_execution_as_a_signal_does(self):
        self.workflow(MISSING + "- name: last\n  if: always()\n  run: echo cleans up\n")
        done = self.at_pipe("quit", words=("--break", "make", "--break", "last"))
        self.assert_status(done, 130)
        self.assertIn("make the file, stopped by Ctrl-C", done.stderr)
        self.assertIn("cleans up", done.stdout)
        self.assertNotIn("reads blue", done.stdout)
        self.assertEqual(done.stderr.count("\nbreak: "), 1)

    def test_the_end_of_the_input_goes_on(self):
        self.workflow("- name: a\n  run: echo one\n- name: b\n  run: echo two")
        done = self.at_pipe("log", words=("--break", "a", "--break", "b"))
        self.assert_status(done, 0)
        self.assertIn("the step has printed nothing", done.stderr)
        self.assertRegex(done.stdout, r"(?s)one.*two")

    def test_a_place_that_is_unknown_is_refused_before_anything_executes(self):
        self.workflow(MISSING)
        for place, error in (("make the fiel", "no step, id or job has this name; did you mean make the file?"),
                             ("ci.yaml:3", "no workflow of this execution is ci.yaml; did you mean"),
                             ("ci.yml:1", "no step is at line 1; the first one is at line 3"),
                             ("ci.yml:999", "no step is at line 999")):
            done = self.at_pipe("continue", words=("--break", place))
            self.assert_status(done, 2)
            self.assertIn(f"--break {place}: {error}", done.stderr)
            self.assertEqual(done.stdout, "")

    def test_nobody_to_ask_is_an_error(self):
        self.workflow(MISSING)
        error = "--break failed: there is no terminal, and standard input has no commands"
        for done in (self.attempt("--break", "failed"), self.at_pipe(words=("--break", "failed"))):
            self.assert_status(done, 2)
            self.assertIn(error, done.stderr)

    def test_a_break_needs_the_sandbox(self):
        self.workflow(MISSING)
        done = self.at_pipe("continue", words=("--break", "failed", "--no-sandbox"))
        self.assert_status(done, 2)
        self.assertIn("a break needs the sandbox: leave --no-sandbox out", done.stderr)

    def test_the_file_of_a_repository_has_no_break(self):
        self.workflow(MISSING)
        self.write(".actrunrc", "--break failed\n")
        done = self.at_pipe("continue", words=())
        self.assert_status(done, 2)
        self.assertIn("--break cannot be in a file of the repository", done.stderr)

    def test_secrets_and_masks_are_hidden_at_the_prompt(self):
        self.workflow("- run: echo ::add-mask::hush\n- name: a\n  env:\n    TOKEN: ${{ secrets.TOKEN }}\n"
                      "  run: |\n"
                      "    echo of $TOKEN hush\n    printf 'a\\033[2Jb\\n'\n    exit 3")
        done = self.at_pipe("env", "print TOKEN", "log", "run", "continue",
                            words=("--break", "failed", "-s", "TOKEN=topsecret"))
        self.assert_status(done, 1)
        self.assertNotIn("topsecret", done.stderr)
        self.assertGreaterEqual(done.stderr.count("of *** ***"), 3)
        self.assertIn("TOKEN=***\n", done.stderr)
        self.assertNotIn("\x1b[2J", done.stderr)

    def test_commands_that_are_unknown_are_explained(self):
        self.workflow("- name: a\n  run: echo one")
        done = self.at_pipe("", "scirpt", "help", "print", "skip it", "c", words=("--break", "a"))
        self.assert_status(done, 0)
        self.assertIn("scirpt: there is no such command; did you mean script?", done.stderr)
        self.assertIn("skip takes no argument", done.stderr)
        self.assertRegex(done.stderr, r"  shell +open a shell")

    def test_the_time_at_a_break_does_not_count_for_limits(self):
        head = WORKFLOW.replace("    steps:", "    timeout-minutes: 0.03\n    steps:")
        self.workflow("- name: a\n  timeout-minutes: 0.03\n  run: echo one\n- name: b\n  run: echo two", head=head)
        done = self.at_pipe("shell", "sleep 4", "exit", "continue", words=("--break", "a"))
        self.assert_status(done, 0)
        self.assertRegex(done.stdout, r"(?s)one.*two")

    def test_other_legs_go_on_while_one_waits(self):
        other = "      - run: |\n          for i in 1 2 3; do echo other; sleep 0.1; done\n"
        head = WORKFLOW.replace("one:", "two:") + other + "  one:\n    runs-on: ubuntu-latest\n    steps:\n"
        self.workflow("- name: a\n  run: echo waits", head=head)
        done = self.at_pipe("shell", "sleep 3", "exit", "continue", words=("--break", "a", "--workers", "2"))
        self.assert_status(done, 0)
        self.assertLess(done.stderr.index("✓ two: "), done.stderr.index("(break) continue"), done.stderr)


@NEEDS_PROGRAM
@unittest.skipUnless(sandbox_works(), "bwrap cannot make a room here")
class Terminal(LiveCase):
    """A person at a terminal."""

    def test_a_step_is_repaired_in_an_interactive_shell(self):
        self.workflow(MISSING)
        person = self.person("--break", "failed")
        self.assertIn("make the file failed, exit 1", person.at("shell"))
        person.until(r"\(one\) .*\$ $")
        person.type("tty -s && echo is a $((40 + 2))nd terminal; sleep 600 & jobs; kill %1; echo in $COLOUR\n")
        person.until(r"is a 42nd terminal(.|\n)*Running(.|\n)*in blue\n")
        person.until(r"\$ $")
        person.type("bash -c 'echo asleep; exec sleep 600'\n")
        person.until(r"\nasleep\n")
        person.type("\x03")                     # (ends the sleep alone)
        person.until(r"\$ $")
        person.type("echo 42 >missing.txt; exit\n")
        person.at("run")
        self.assertIn("the step succeeded", person.at("continue"))
        self.assertEqual(person.end(), 0)
        self.assertIn("make the file was run again by hand: 1 time", person.shown)
        self.assertIn("got 42", person.shown)

    def test_ctrl_c_cancels_the_line_and_ends_what_run_executes(self):
        self.workflow("- name: a\n  run: |\n    echo started\n    sleep 600")
        person = self.person("--break", "a")
        person.until(r"\(break\) $")
        person.type("qui")
        person.until("qui")                     # (the line is being read)
        person.type("\x03")
        person.at("run")
        person.until("started\n")
        person.type("\x03")
        self.assertIn("the step failed, ", person.at("skip"))
        self.assertEqual(person.end(), 0)

    def test_ctrl_d_goes_on(self):
        self.workflow("- name: a\n  run: echo one $((1 + 1))")
        person = self.person("--break", "a")
        person.until(r"\(break\) $")
        person.type("\x04")
        self.assertEqual(person.end(), 0)
        self.assertIn("one 2", person.shown)

    def test_ctrl_c_between_breaks_ends_the_execution(self):
        self.workflow("- name: a\n  run: |\n    touch started\n    sleep 600\n- name: b\n  run: echo two")
        person = self.person("--break", "a", "--break", "b")
        person.at("continue")
        until, started = time.monotonic() + PATIENCE, ".cache/actrun/work/*/play/tree/project/started"
        while not list(self.home.glob(started)) and time.monotonic() < until:
            person.more()
        person.type("\x03")
        self.assertEqual(person.end(), 130)
        self.assertNotIn("before one: b", person.shown)


@unittest.skipUnless(PROGRAM, "the variable ACTRUN_PROGRAM names no built program")
class Options(unittest.TestCase):
    """The help."""

    def test_the_help_names_the_option(self):
        words = [sys.executable, str(FRONT), "try", "--help"]
        done = subprocess.run(words, capture_output=True, check=True, text=True)
        self.assertIn("--break PLACE", done.stdout)


if __name__ == "__main__":
    unittest.main()
