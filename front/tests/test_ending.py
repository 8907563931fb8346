"""Steps that are ended: by limits of time, by fail-fast, by a newer member of a group, and by Ctrl-C."""
from __future__ import annotations

import argparse
import json
import os
import re
import signal
import subprocess
import sys
import tempfile
import time
import unittest
import unittest.mock
from pathlib import Path

from actrun_front import ending
from actrun_front.ending import Ender, add_line, goes_on, see_stops
from actrun_front.execute import heeded

from .try_case import NEEDS_PROGRAM, TryCase, unprefixed

DEADLINE = 90.0


class Conditions(unittest.TestCase):
    """What the conditions of a plan become, and which steps start in what was stopped."""

    def test_which_go_on(self) -> None:
        for condition in ("always()", "cancelled()", "${{ failure() || cancelled() }}", "always() && steps.x.outcome == 'failure'"):
            self.assertTrue(goes_on(condition), condition)
        for condition in (None, "", "success()", "failure()", "!cancelled()", "${{ ! (cancelled()) }}", "github.ref == 'always()'"):
            self.assertFalse(goes_on(condition), condition)

    def test_texts_that_see_the_stop(self) -> None:
        step = {"name": None, "condition": "failure() || cancelled()", "env": {"S": "${{ job.status }}", "T": "status"}, "work": {
            "kind": "run", "run": "echo ${{ job.status }}"}}
        see_stops({"runs": [{"jobs": [{"steps": [step]}]}]})
        stopped = "env.ACTRUN_STOPPED == 'true'"
        self.assertEqual(step["condition"], f"failure() || (cancelled() || {stopped})")
        self.assertEqual(step["env"], {"S": f"${{{{ ({stopped} && 'cancelled' || job.status) }}}}", "T": "status"})
        self.assertEqual(step["name"], "echo ${{ job.status }}")

    def test_a_line_is_added_to_no_link(self) -> None:
        with tempfile.TemporaryDirectory() as name:
            name = os.path.realpath(name)
            target, link = Path(name, "target"), Path(name, "link")
            target.write_text("A=1", encoding="utf-8")
            link.symlink_to(target)
            os.mkfifo(Path(name, "pipe"))
            for place in (link, Path(name, "pipe"), Path(name, "missing")):
                add_line(place, "B=2")
            self.assertEqual(target.read_text(encoding="utf-8"), "A=1")
            add_line(target, "B=2")
            self.assertEqual(target.read_text(encoding="utf-8"), "A=1\nB=2\n")
            add_line(Path("/target"), "B=3", name)
            add_line(Path(f"/{link.name}"), "B=4", name)
            self.assertEqual(target.read_text(encoding="utf-8"), "A=1\nB=2\n\nB=3\n")
            os.symlink(name, Path(name, "folder"))
            add_line(Path("/folder/target"), "B=5", name)
            self.assertNotIn("B=5", target.read_text(encoding="utf-8"))
            os.link(target, Path(name, "second"))
            add_line(target, "C=3")
            self.assertNotIn("C=3", target.read_text(encoding="utf-8"))

    def test_programs_heed_signals_that_the_caller_ignores(self) -> None:
        self.addCleanup(signal.signal, signal.SIGINT, signal.signal(signal.SIGINT, signal.SIG_IGN))
        with heeded():
            child = subprocess.Popen([sys.executable, "-c", "import signal; print(signal.getsignal(signal.SIGINT) != signal.SIG_IGN)"],
                                     stdout=subprocess.PIPE)
        self.assertEqual(child.communicate(timeout=60)[0], b"True\n")
        self.assertEqual(signal.getsignal(signal.SIGINT), signal.SIG_IGN)


class Watched(unittest.TestCase):
    """An ender alone, with a step that this test starts."""

    def setUp(self) -> None:
        room = tempfile.TemporaryDirectory()
        self.addCleanup(room.cleanup)
        self.play = Path(room.name).resolve()
        self.told = self.play / "told"
        self.told.mkdir()
        Path(room.name, "part").touch()
        step = {"id": None, "name": None, "condition": None, "env": {}, "work": {"kind": "run", "run": "x"}}
        steps = [step, {**step, "condition": "always()"}]
        job = {"number": 0, "id": "a", "name": "a", "legs": [{}], "fail_fast": True, "group": None, "condition": None, "env": {}, "steps": steps}
        self.ender = Ender({"runs": [{"group": None, "jobs": [job]}]}, self.play, self.told, Path(room.name, "part")).start()
        self.addCleanup(self.ender.close)

    def begin(self, script: str) -> subprocess.Popen[bytes]:
        """Starts the step with a script, which prints a line when it is ready."""
        environment = {**os.environ, "GITHUB_OUTPUT": str(self.play / "step-0-0.out")}
        (self.play / "step-0-0.env").touch()
        with heeded():
            child = subprocess.Popen(["bash", "-c", script], env=environment, stdout=subprocess.PIPE, stderr=subprocess.DEVNULL)
        self.addCleanup(child.wait)
        self.addCleanup(child.kill)
        self.addCleanup(child.stdout.close)
        self.ender.execution = argparse.Namespace(child=argparse.Namespace(pid=os.getpid()))
        self.assertEqual(child.stdout.readline(), b"ready\n")
        self.ender.progress(0, 0, "started")
        return child

    def test_one_signal_after_the_other(self) -> None:
        script = "trap 'echo INT' INT; trap 'echo TERM' TERM; echo ready; while :; do sleep 0.05; done"
        with unittest.mock.patch.object(ending, "LADDER", ((0.0, signal.SIGINT), (2.0, signal.SIGTERM), (4.0, signal.SIGKILL))):
            child = self.begin(script)
            self.ender.end(0, 0, "why")
            self.assertEqual(child.wait(DEADLINE), -signal.SIGKILL)
        self.assertEqual(child.stdout.read(), b"INT\nTERM\n")
        self.assertEqual((self.told / "ended-0-0").read_text(encoding="utf-8"), "why\n")
        self.assertEqual([seconds for seconds, _ in ending.LADDER[:3]], [0.0, 7.5, 10.0])

    def test_last_steps_have_their_time(self) -> None:
        child = self.begin("echo ready; sleep 1000")
        self.ender.stop_all("Ctrl-C")
        child.wait(DEADLINE)
        self.assertEqual((self.play / "step-0-0.env").read_text(encoding="utf-8").split(), ["ACTRUN_STOPPED=true"])
        self.ender.progress(0, 0, "failure")
        self.assertEqual((self.told / "stopped-0").read_text(encoding="utf-8"), "stopped by Ctrl-C\n1\n")
        self.ender.progress(0, 1, "started")
        self.assertEqual(self.ender.cause(0, 1), "")
        self.assertTrue(any(200 < at - time.monotonic() <= 300 for at, *_ in self.ender.due))
        self.ender.stop_at_last(0)
        self.assertEqual((self.told / "stopped-0").read_text(encoding="utf-8").count("\n"), 1)
        self.assertEqual(self.ender.cause(0, 1), "stopped by Ctrl-C, and its last steps took more than 5 minutes")
        self.assertEqual(self.ender.cause(0, 0), "stopped by Ctrl-C")

    def test_answers_that_are_given_again_are_left_alone(self) -> None:
        self.ender.known = {(0, 0)}
        self.ender.progress(0, 0, "started")
        self.ender.end(0, 0, "why")
        self.assertEqual(self.ender.cause(0, 0), "")

    def test_a_leg_whose_time_is_over_between_two_steps(self) -> None:
        self.ender.stop_timed_out(0, "the job timed out after 1 minute")
        self.assertFalse(self.ender.timed_out)
        self.ender.progress(0, 1, "started")
        self.assertTrue(self.ender.timed_out)
        self.assertEqual(self.ender.cause(0, 1), "the job timed out after 1 minute")


class EndingCase(TryCase):
    """Calls of `try` whose steps leave files that others wait for."""

    def flow(self, text: str) -> None:
        """A workflow with these jobs, which know a folder for files."""
        head = f"on: push\nenv: {{HERE: {self.room}}}\njobs:\n"
        self.write(".github/workflows/ci.yml", head + "".join(f"  {line}\n" for line in text.strip("\n").split("\n")))

    def results(self) -> dict[str, str]:
        """The result of each leg on the board of the record, by its job and place."""
        record = self.work() / "private" / "record"
        plan = json.loads(record.read_text(encoding="utf-8").split("\n", 1)[0])
        names = [f"{job['id']}{place or ''}" for job in plan["runs"][0]["jobs"] for place in range(len(job["legs"]))]
        board = subprocess.run([os.environ["ACTRUN_PROGRAM"], "replay", record], capture_output=True, text=True, check=False).stdout
        return {names[int(number)]: result for number, result in re.findall(r"(?m)^leg (\d+) ended (\w+)", board)}


@NEEDS_PROGRAM
class Limits(EndingCase):
    """`timeout-minutes` of jobs and steps."""

    def test_limits_of_a_step(self) -> None:
        self.flow("""
one:
  runs-on: ubuntu-latest
  steps:
    - id: slow
      run: |
        trap 'echo seen; exit 0' INT
        echo word=kept >> "$GITHUB_OUTPUT"
        sleep 1000
      timeout-minutes: 0.1
      continue-on-error: true
    - {id: late, run: 'exec sleep 1000', timeout-minutes: "${{ format('{0}', '0.02') }}", continue-on-error: true}
    - {uses: some/action@v1, timeout-minutes: 0.02, continue-on-error: true}
    - {uses: some/action@v1, timeout-minutes: "${{ format('{0}', '0.03') }}", continue-on-error: true}
    - run: echo "is ${{ steps.slow.outputs.word }} ${{ steps.slow.outcome }} ${{ steps.late.outcome }} ${{ cancelled() }}"
      if: success() && !cancelled()
    - {run: 'echo in time', timeout-minutes: 1, shell: sh}
    - {run: x, timeout-minutes: "${{ format('{0}', 'soon') }}"}
""".replace("${{ cancelled() }}", "${{ job.status }}"))
        program = self.write("slow", "#!/bin/sh\nsleep 1000\n", 0o755)
        done = self.attempt("--stub", f"some/action={program}")
        self.assert_status(done, 1)
        self.assertIn("seen\nerror: timed out after 0.1 minutes\n", done.stdout)
        self.assertIn("is kept failure failure success\n", done.stdout)
        found = re.findall(r"(?m)^\S+ one: .*, timed out after (0\.\d+) minutes, [\d.]+ s$", done.stderr)
        self.assertEqual(found, ["0.1", "0.02", "0.02", "0.03"], done.stderr)
        self.assertIn("\nin time\n", done.stdout)
        self.assertIn("error: timeout-minutes is soon, but has to be a number\n", done.stdout)

    def test_limits_of_jobs(self) -> None:
        self.flow("""
one:
  runs-on: ubuntu-latest
  timeout-minutes: 0.03
  steps:
    - {name: slow, run: sleep 1000}
    - run: echo never
    - {run: 'echo always ${{ job.status }}', if: always()}
    - {run: echo is cancelled, if: cancelled()}
    - {run: echo never, if: failure()}
    - {run: echo never, if: '!cancelled()'}
two:
  needs: known
  runs-on: ubuntu-latest
  timeout-minutes: ${{ format('{0}', needs.known.outputs.minutes) }}
  steps:
    - {run: 'exec 2>&-; sleep 1000 & wait'}
known:
  runs-on: ubuntu-latest
  outputs: {minutes: '0.02'}
  steps: []
""")
        done = self.attempt()
        self.assert_status(done, 1)
        self.assertIn("always cancelled\n", done.stdout)
        self.assertIn("\nis cancelled\n", self.printed(done))
        self.assertNotIn("\nnever\n", self.printed(done))
        self.assertIn("one: slow, the job timed out after 0.03 minutes", done.stderr)
        self.assertRegex(done.stdout, r"step 0 \(slow\) failed at line \d+: the program ended with \d+; the job timed out after 0\.03 minutes  \[")
        self.assertRegex(done.stdout, r"step 0 \(exec .* failed at line .*; the job timed out after 0\.02 minutes  \[")
        self.assertEqual(self.results(), {"known": "success", "one": "failure", "two": "failure"})
        self.assertRegex(done.stdout, r"(?m)^\S+ \.github/workflows/ci\.yml: cancelled$")

    def test_what_other_jobs_see_of_a_job_that_timed_out(self) -> None:
        self.flow("one: {runs-on: ubuntu-latest, timeout-minutes: 0.01, steps: [{run: sleep 1000}]}\n"
                  "two: {runs-on: ubuntu-latest, needs: one, if: always(), steps: [{run: echo}]}")
        done = self.attempt()
        self.assert_status(done, 1)
        self.assertIn("\n  one: cancelled on GitHub, where jobs that need it see that; here they see a failure\n", done.stdout)

    def test_what_is_no_number_is_refused(self) -> None:
        self.flow("one: {runs-on: ubuntu-latest, timeout-minutes: soon, steps: []}")
        done = self.attempt()
        self.assert_status(done, 2)
        self.assertRegex(done.stderr, r"ci\.yml:4: .*timeout-minutes.* number")


@NEEDS_PROGRAM
class Stopping(EndingCase):
    """Legs that the board marks to stop."""

    FLOW = """
one:
  runs-on: ubuntu-latest
  strategy:
    FAST
    matrix: {x: [0, 1, 2]}
  steps:
    - run: |
        touch $HERE/begun-${{ matrix.x }}
        if [ ${{ matrix.x }} = 0 ]; then
          until [ -e $HERE/begun-1 ] && [ -e $HERE/begun-2 ]; do sleep 0.1; done
          exit 3
        fi
        sleep TIME
    - {run: 'echo cancelled ${{ matrix.x }}', if: cancelled()}
"""

    def test_fail_fast(self) -> None:
        self.flow(self.FLOW.replace("FAST", "").replace("TIME", "1000"))
        done = self.attempt("--workers", "3", "--no-sandbox")
        self.assert_status(done, 1)
        self.assertEqual(self.results(), {"one": "failure", "one1": "cancelled", "one2": "cancelled"})
        self.assertEqual(done.stderr.count(", one (0) failed, and the job fails fast, "), 2, done.stderr)
        self.assertEqual(sorted(re.findall(r"(?m)^cancelled \d", self.printed(done))), ["cancelled 1", "cancelled 2"])

    def test_without_fail_fast(self) -> None:
        self.flow(self.FLOW.replace("FAST", "fail-fast: false").replace("TIME", "1"))
        done = self.attempt("--workers", "3", "--no-sandbox")
        self.assert_status(done, 1)
        self.assertEqual(self.results(), {"one": "failure", "one1": "success", "one2": "success"})

    def test_a_newer_member_of_a_group(self) -> None:
        self.flow("""
first:
  runs-on: ubuntu-latest
  concurrency: {group: g, cancel-in-progress: true}
  steps:
    - {run: 'touch $HERE/begun; sleep 1000'}
between:
  runs-on: ubuntu-latest
  steps:
    - {run: 'until [ -e $HERE/begun ]; do sleep 0.1; done'}
second:
  needs: between
  runs-on: ubuntu-latest
  concurrency: {group: g, cancel-in-progress: true}
  steps: [{run: echo the second}]
""")
        done = self.attempt("--workers", "3", "--no-sandbox")
        self.assert_status(done, 1)
        self.assertIn("\nthe second\n", self.printed(done))
        self.assertEqual(self.results(), {"first": "cancelled", "between": "success", "second": "success"})
        self.assertIn(", a newer member of its group cancels it, ", done.stderr)


@NEEDS_PROGRAM
class CtrlC(EndingCase):
    """Signals to the process group."""

    FLOW = """
one:
  runs-on: ubuntu-latest
  steps:
    - {name: long, run: 'touch $HERE/begun; exec env -i sleep 1000'}
    - run: echo never
    - {run: 'echo always; touch $HERE/after; sleep TIME', if: always()}
    - {run: echo is cancelled, if: cancelled()}
    - {run: echo never, if: '!cancelled()'}
    - {run: echo never, if: failure()}
later: {needs: one, runs-on: ubuntu-latest, steps: [{run: echo never}]}
cleanup: {needs: one, if: always(), runs-on: ubuntu-latest, steps: [{run: echo cleaned}]}
free: {if: always(), runs-on: ubuntu-latest, steps: [{run: 'until [ -e $HERE/after ]; do sleep 0.1; done; echo went on'}]}
"""

    def interrupted(self, seconds: str, *marks: str) -> tuple[int, str, str]:
        """Status and outputs of a play that gets SIGINT whenever a step made one of these files."""
        self.flow(self.FLOW.replace("TIME", seconds))
        reset = ("import os, signal, sys; signal.signal(signal.SIGINT, signal.default_int_handler); signal.signal(signal.SIGQUIT, signal.SIG_DFL); "
                 "os.execv(sys.argv[1], sys.argv[1:])")
        child = subprocess.Popen([sys.executable, "-c", reset, *self.command("--workers", "4", "--no-sandbox")], cwd=self.project,
                                 env=self.environment, text=True, stdout=subprocess.PIPE, stderr=subprocess.PIPE, start_new_session=True)
        for mark in marks:
            end = time.monotonic() + DEADLINE
            while not (self.room / mark).exists() and time.monotonic() < end:
                time.sleep(0.05)
            os.killpg(child.pid, signal.SIGINT)
        out, err = child.communicate(timeout=DEADLINE)
        return child.returncode, out, err

    def test_once(self) -> None:
        status, out, err = self.interrupted("0.1", "begun")
        self.assertEqual(status, 130, out + err)
        for text in ("always", "is cancelled", "cleaned", "went on"):
            self.assertIn(f"\n{text}\n", unprefixed(out))
        self.assertNotIn("\nnever\n", unprefixed(out))
        self.assertIn("one: long, stopped by Ctrl-C, ", err)
        self.assertRegex(out, r"step 0 \(long\) was interrupted at line \d+; stopped by Ctrl-C  \[")

    def test_twice(self) -> None:
        status, out, err = self.interrupted("1000", "begun", "after")
        self.assertEqual(status, 130, out + err)
        self.assertNotIn("\nis cancelled\n", out)
        self.assertIn("runs since line", out)


if __name__ == "__main__":
    unittest.main()
