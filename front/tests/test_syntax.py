"""What GitHub refuses before it starts anything, and what it does not refuse."""
from __future__ import annotations

import re
import subprocess
import sys
import unittest
from pathlib import Path

from actrun_front.syntax import faults, why_no_cron
from actrun_front.yaml_reader import read_document
from .try_case import FRONT, NEEDS_PROGRAM, TryCase

ACCEPTED = Path(__file__).parent / "syntax" / "accepted.txt"
JOB = "on: push\njobs:\n  a:\n    runs-on: x\n    steps:\n      - run: 'true'\n"
STEP = JOB + "        "


def told(text: str) -> list[str]:
    """What is refused of a workflow, each with its line."""
    document = read_document(text.encode())
    assert not document.faults, document.faults
    return [f"{fault.line}: {fault.text}" for fault in faults(document)]


class Accepted(unittest.TestCase):
    """No workflow that GitHub takes is refused."""

    def test_workflows_of_the_documents(self) -> None:
        parts = re.split(r"(?m)^=== (.*)\n", ACCEPTED.read_text(encoding="utf-8"))[1:]
        self.assertGreaterEqual(len(parts) // 2, 60)
        for name, text in zip(parts[::2], parts[1::2]):
            with self.subTest(name):
                self.assertEqual(told(text), [])

    def test_workflows_of_the_repository(self) -> None:
        files = [path for pattern in ("examples/first/*.yml", "examples/repository/.github/workflows/*.yml",
                                      ".github/workflows/*.yml",
                                      "front/tests/from_yaml/*.yml") for path in (FRONT.parent).glob(pattern)]
        self.assertGreater(len(files), 8)
        for path in files:
            with self.subTest(path):
                found = [text for text in told(path.read_text(encoding="utf-8"))
                         if "knows no key `x-" not in text and "merge key" not in text]
                self.assertEqual(found, [])


class Refused(unittest.TestCase):
    """Each fault has the line, the place and the nearest known word."""

    def check(self, text: str, *wanted: str) -> None:
        """What is refused of a workflow begins so."""
        found = told(text)
        self.assertEqual([text for text, start in zip(found, wanted) if text.startswith(start)], found, found)
        self.assertEqual(len(found), len(wanted), found)

    def test_merge_keys(self) -> None:
        self.check(STEP + "env: &e {A: 1}\n      - {run: 'true', env: {<<: *e}}\n",
                   "8: GitHub knows anchors and aliases, but no merge key `<<`: write the keys out")

    def test_keys(self) -> None:
        self.check(JOB.replace("runs-on", "run-on"), "3: jobs.a: `runs-on` is missing",
                   "4: jobs.a.run-on: GitHub knows no key `run-on` here; did you mean runs-on?")
        self.check(STEP + "evn: {A: 1}\n",
                   "7: jobs.a.steps.0.evn: GitHub knows no key `evn` here; did you mean env?")
        self.check(STEP + "with: {A: 1}\n",
                   "7: jobs.a.steps.0.with: GitHub knows no key `with` of a step with `run`")
        self.check(STEP + "uses: a/b@v1\n", "6: jobs.a.steps.0.run: a step has `run` or `uses`, not both")
        self.check(JOB + "      - {uses: a/b@v1, working-directory: x}\n",
                   "7: jobs.a.steps.1.working-directory: GitHub knows no key `working-directory` of a step "
                   "with `uses`")
        self.check(JOB + "  b: {uses: ./x.yml, runs-on: y}\n",
                   "7: jobs.b.runs-on: GitHub knows no key `runs-on` of a job with `uses`")
        self.check("name: x\n" + JOB[9:], "1: `on` is missing: write it at the top of the file")
        self.check(JOB + "      - name: nothing\n", "7: jobs.a.steps.1: `run` or `uses` is missing")
        self.check("permission: {}\n" + JOB,
                   "1: permission: GitHub knows no key `permission` here; did you mean permissions?")
        self.check("jobz: {}\n" + JOB.split("jobs")[0], "1: `jobs` is missing",
                   "1: jobz: GitHub knows no key `jobz` here; did you mean jobs?")

    def test_events(self) -> None:
        self.check(JOB.replace("push", "[push, pul_request]"),
                   "1: on.1: GitHub knows no event `pul_request`; did you mean pull_request?")
        self.check(JOB.replace("push", "{pus: {}}"),
                   "1: on.pus: GitHub knows no event `pus`; did you mean push?")
        self.check(JOB.replace("push", "{push: {branch: x}}"),
                   "1: on.push.branch: GitHub knows no key `branch` here; did you mean branches?")
        self.check(JOB.replace("push", "{push: {branches: x, branches-ignore: y}}"),
                   "1: on.push.branches-ignore: an event has `branches` or")
        self.check(JOB.replace("push", "{pull_request: {types: [open]}}"),
                   "1: on.pull_request.types: pull_request has no activity `open`; did you mean opened?")
        self.check(JOB.replace("push", "{push: {types: [opened]}}"),
                   "1: on.push.types: GitHub knows no key `types` here")
        self.check(JOB.replace("push", "{workflow_run: {types: [completed]}}"),
                   "1: on.workflow_run: `workflows` is missing")
        self.check(JOB.replace("push", "{workflow_call: {inputs: {a: {default: 1}}}}"),
                   "1: on.workflow_call.inputs.a: `type` is missing")
        self.check(JOB.replace("push", "{workflow_dispatch: {inputs: {a: {type: text}}}}"),
                   "1: on.workflow_dispatch.inputs.a.type: `text` is none of string, boolean, number, "
                   "choice, environment")

    def test_times(self) -> None:
        self.check(JOB.replace("push", "{schedule: [{cron: '0 25 * * *'}]}"),
                   "1: on.schedule.0.cron: `0 25 * * *` is no time of a schedule: "
                   "the hour 25 is none of 0-23, `*`, lists, ranges and `*/N`")
        self.check(JOB.replace("push", "{schedule: {cron: '0 0 * * *'}}"),
                   "1: on.schedule: GitHub expects a list here, not a mapping")
        for text in ("* * * *", "@daily", "60 * * * *", "* * 0 * *", "* * * 13 *", "* * * * 8", "*/0 * * * *",
                     "a * * * *", "1-2-3 * * * *", ""):
            self.assertTrue(why_no_cron(text), text)
        for text in ("* * * * *", "*/5 1-5,7 1-31/2 JAN-DEC MON", "0 0 1,15 * 3", "5/15 * * * *"):
            self.assertEqual(why_no_cron(text), "", text)

    def test_what_is_no_workflow(self) -> None:
        for text in ("on: push\njobs: [a]",
                     "on: push\njobs: {a: true, b: [1], c: {steps: {x: 1}}, d: {runs-on: x, steps: [1, [2]]}}", "on: [[push]]\njobs: {}",
                     "on: 5\njobs: x", "on: {push: 5, schedule: [5]}\njobs: {a: {uses: [], with: 5, secrets: "
                                       "6}}"):
            self.assertTrue(told(text), text)

    def test_values(self) -> None:
        self.check("permissions: {contents: reed}\n" + JOB,
                   "1: permissions.contents: `reed` is none of read, write, none; did you mean read?")
        self.check("permissions: {content: read}\n" + JOB,
                   "1: permissions.content: GitHub knows no key `content` here; did you mean contents?")
        self.check("permissions: read\n" + JOB,
                   "1: permissions: `read` is none of read-all, write-all; did you mean read-all?")
        self.check(STEP + "continue-on-error: maybe\n",
                   "7: jobs.a.steps.0.continue-on-error: GitHub expects true, false or an expression")
        self.check(STEP + "timeout-minutes: soon\n",
                   "7: jobs.a.steps.0.timeout-minutes: GitHub expects a number here, not soon")
        self.check(STEP + "env: [A]\n", "7: jobs.a.steps.0.env: GitHub expects a mapping here, not a list")
        self.check(JOB.replace("x\n", "{groups: y}\n"),
                   "4: jobs.a.runs-on.groups: GitHub knows no key `groups` here; did you mean group?")
        self.check(JOB.replace("x\n", "\n"),
                   "4: jobs.a.runs-on: a value is missing: GitHub expects a mapping or a list or a string")
        self.check("concurrency: {cancel-in-progress: true}\n" + JOB, "1: concurrency: `group` is missing")

    def test_names_of_actions_and_workflows(self) -> None:
        self.check(JOB + "      - uses: actions/checkout\n",
                   "7: jobs.a.steps.1.uses: `actions/checkout` does not have the form "
                   "OWNER/NAME[/PATH]@REF, ./PATH or docker://IMAGE: write actions/checkout@REF, as @v4")
        self.check(JOB + "      - uses: a/b@${{ matrix.x }}\n",
                   "7: jobs.a.steps.1.uses: GitHub evaluates no expression here")
        self.check(JOB + "      - uses: checkout@v4\n",
                   "7: jobs.a.steps.1.uses: `checkout@v4` does not have the form")
        self.check(JOB + "  b: {uses: a/b/.github/workflows/c.yml}\n",
                   "7: jobs.b.uses: `a/b/.github/workflows/c.yml` does not have the form")
        self.check(JOB + "  b: {uses: ./.github/workflows/c.yml@main}\n",
                   "7: jobs.b.uses: a workflow of the repository is called without @REF")

    def test_ids(self) -> None:
        self.check(JOB.replace("  a:", "  1a:"),
                   "3: jobs.1a: the id `1a` has a character that GitHub rejects")
        self.check(STEP + "id: a.b\n", "7: jobs.a.steps.0.id: the id `a.b` has a character that "
                                       "GitHub rejects")
        self.check(STEP + "id: __a\n", "7: jobs.a.steps.0.id: the id __a begins with __, which GitHub "
                                       "reserves")
        self.check(STEP + "id: a\n      - {run: x, id: A}\n",
                   "8: jobs.a.steps.1: the id of a step of this job is there twice: a and A")
        self.check(JOB + "  A: {runs-on: x, steps: [{run: x}]}\n",
                   "7: jobs.A: the id of a job is there twice: a and A")

    def test_contexts(self) -> None:
        for at, text, place in ((4, "    if: matrix.x == 1\n", "if"), (4, "    if: ${{ env.A }}\n", "if"),
                                (4, "    env: {A: '${{ env.B }}'}\n", "env.A"),
                                (4, "    name: ${{ steps.a.outputs.b }}\n", "name"),
                                (4, "    strategy: {matrix: {x: ['${{ matrix.y }}']}}\n",
                                                                                     "strategy.matrix.x.0")):
            name = re.search(r"(matrix|env|steps)\.[xABay]\b", text)[1]
            self.check(JOB.replace("    runs-on", text + "    runs-on"),
                       f"{at}: jobs.a.{place}: the context `{name}` has no value here; there are ")
        self.check(STEP + "if: secrets.A != ''\n",
                   "7: jobs.a.steps.0.if: the context `secrets` has no value here; there are github, needs")
        self.check(JOB + "      - run: echo ${{ secret.A }}\n",
                   "7: jobs.a.steps.1.run: GitHub knows no context `secret` here; did you mean secrets?")
        self.check(JOB + "      - run: echo ${{ jobs.a.result }}\n",
                   "7: jobs.a.steps.1.run: the context `jobs` has no value here")
        self.check("env: {A: \"${{ hashFiles('x') }}\"}\n" + JOB,
                   "1: env.A: hashFiles can only be called in a step")
        self.check("concurrency: ${{ env.X }}\n" + JOB,
                   "1: concurrency: the context `env` has no value here; there are github, inputs, vars")


@NEEDS_PROGRAM
class Tried(TryCase):
    """`try` refuses before anything is executed; `--lenient` warns."""

    def test_nothing_is_executed(self) -> None:
        self.workflow("- run: echo executed\n- uses: actions/checkout")
        done = self.attempt()
        self.assert_status(done, 2)
        self.assertEqual(done.stdout, "")
        self.assertIn(".github/workflows/ci.yml:7: jobs.one.steps.1.uses: `actions/checkout` does not have the "
                      "form ", done.stderr)
        self.assertIn("--lenient executes what GitHub rejects, if it can", done.stderr)

    def test_lenient_warns(self) -> None:
        self.workflow("- run: echo executed\n  if: secrets.A == ''")
        done = self.attempt("--lenient")
        self.assert_status(done, 0)
        self.assertIn("executed\n", done.stdout)
        self.assertIn("warning: .github/workflows/ci.yml:7: jobs.one.steps.0.if: the context `secrets` has "
                      "no value here; there are github, needs, "
                      "strategy, matrix, job, runner, env, vars, steps, inputs: GitHub rejects this "
                      "workflow\n", done.stderr)

    def test_a_called_workflow(self) -> None:
        self.write(".github/workflows/called.yml",
                   "on: workflow_call\njobs:\n  in:\n    runs-on: x\n    steps:\n      - rum: echo executed\n")
        self.write("ci.yml", "on: push\njobs:\n  call:\n    uses: ./.github/workflows/called.yml\n")
        done = self.attempt("-W", "ci.yml")
        self.assert_status(done, 2)
        self.assertIn("ci.yml:4: the called workflow .github/workflows/called.yml is rejected by GitHub: "
                      ".github/workflows/called.yml:6: "
                      "jobs.in.steps.0: `run` or `uses` is missing",
                      done.stderr.replace("the called workflow is", "the called workflow "
                      ".github/workflows/called.yml is"))

    def test_the_others_go_on(self) -> None:
        self.workflow("- run: echo through")
        self.workflow("- rum: x", name="bad.yml")
        done = self.attempt()
        self.assert_status(done, 2)
        self.assertIn("through\n", done.stdout)


@NEEDS_PROGRAM
class Lint(TryCase):
    """The command `lint` of workflows in YAML."""

    def lint(self, *names: str) -> tuple[int, list[str], str]:
        """The status of `lint`, the lines that it prints, and its errors."""
        done = subprocess.run([sys.executable, str(FRONT), "lint", *names], cwd=self.project, env=self.environment,
                              capture_output=True, text=True, check=False)
        return done.returncode, done.stdout.splitlines(), done.stderr

    def test_what_is_wrong(self) -> None:
        self.write("good.yml", JOB)
        self.write("late.yml", JOB.replace("steps", "strategy: {matrix: {v: '${{ fromJSON(vars.LIST) }}'}}\n    steps"))
        self.write("key.yml", STEP + "evn: {A: 1}\n")
        self.write("function.yml", JOB.replace("'true'", "echo ${{ foo('a') }}"))
        self.write("number.yml", JOB.replace("runs-on", "env: {V: 3.10}\n    runs-on"))
        self.write("flow.json", '{"on": "push", "jobs": {}}')
        self.assertEqual(self.lint("good.yml"), (0, [], ""))
        for name, status, line in (("late.yml", 0, "late.yml:5: v of job a is "), ("function.yml", 2, "function.yml:6: jobs.a.steps.0.run: there is no function"),
                                   ("key.yml", 2, "key.yml:7: jobs.a.steps.0.evn: GitHub knows no key `evn`"), ("number.yml", 0, "number.yml:4: "),
                                   ("flow.json", 2, "flow.json: jobs: refused, ")):
            code, lines, errors = self.lint("good.yml", name)
            self.assertEqual((code, len(lines), errors), (status, 1, ""), lines)
            self.assertTrue(lines[0].startswith(line), lines)
        self.assertEqual(self.lint("none.yml"), (3, [], "actrun: none.yml: No such file or directory\n"))
        self.assertEqual(self.lint("--no", "good.yml")[0], 2)


if __name__ == "__main__":
    unittest.main()
