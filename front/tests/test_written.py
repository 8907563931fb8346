"""Actions and called workflows are shown as the user wrote them."""
from __future__ import annotations

import unittest
from dataclasses import replace
from typing import Any

from actrun_front import reasons
from actrun_front.present import Leg
from actrun_front.reasons import Part as Reason, Sentences
from actrun_front.written import Outline, Owner, Part

from .try_case import NEEDS_PROGRAM, TryCase

CALLER = """\
on: push
jobs:
  one:
    runs-on: ubuntu-latest
    steps:
      - run: echo first
      - uses: ./.github/actions/build
        if: |
          github.ref == 'x' ||
          github.ref != 'y'
        id: built
      - name: Second
        uses: ./.github/actions/deep
        continue-on-error: true
      - uses: ./.github/actions/build
        if: steps.built.outputs.none == 'here'
  call:
    needs: one
    if: github.event_name == 'push'
    uses: ./.github/workflows/called.yml
  many:
    strategy: {matrix: {x: [1, 2]}}
    uses: ./.github/workflows/called.yml
  last:
    needs: [call, many]
    if: always()
    runs-on: ubuntu-latest
    steps:
      - run: exit 1
"""
CALLED = """\
on: workflow_call
jobs:
  a:
    runs-on: ubuntu-latest
    steps:
      - run: echo a
  b:
    needs: a
    if: |
      github.ref ==
        'none'
    runs-on: ubuntu-latest
    steps:
      - uses: ./.github/actions/build
"""
COMPOSITE = "runs:\n  using: composite\n  steps:\n"
BUILD = COMPOSITE + """\
    - {run: echo compile, shell: bash}
    - {name: Test, if: always(), run: echo test, shell: bash}
"""
DEEP = COMPOSITE + """\
    - {uses: ./.github/actions/build, if: github.ref == 'none'}
    - {run: exit 1, shell: bash}
"""
BUILT = "      ./.github/actions/build\n        1 echo compile\n        2 Test, if always()\n"
INNER = f"    job a\n      0 echo a\n    job b, needs a, if github.ref == …\n{BUILT}"
TREE = f"""\
.github/workflows/ci.yml (.github/workflows/ci.yml)
  many (1) (./.github/workflows/called.yml)
{INNER}  many (2) (./.github/workflows/called.yml)
{INNER}  job one
    0 echo first
    ./.github/actions/build, if github.ref == 'x' || …
      2 echo compile
      3 Test, if always()
    Second (./.github/actions/deep)
      ./.github/actions/build, if github.ref == 'none'
        7 echo compile
        8 Test, if always()
      10 exit 1
    ./.github/actions/build, if steps.built.outputs.none == 'here'
      12 echo compile
      13 Test, if always()
  call (./.github/workflows/called.yml), if github.event_name == 'push'
{INNER}  job last, needs many, call, if always()
    0 exit 1
"""


def told(words: str, name: str, said: str, depth: int = 0, **cause: Any) -> Reason:
    """A part of a record as `why --json` has it."""
    kind, *numbers = words.split()
    names = ["leg", "step"] if kind == "step" else [kind]
    given = {"kind": kind, **dict(zip(names, map(int, numbers)))}
    return reasons.part_of({"above": False, "because": [], "depth": depth, "fact": cause or None, "line": 3, "name": name, "part": given,
                            "state": cause.pop("state", "failure"), "text": name + said, "tolerated": False})


def leg_of(number: int, job: int = 2, values: Any = None, steps: int = 2) -> Leg:
    """A leg of a plan, whose job has conditions of two lines."""
    step = {"id": "", "name": "", "condition": "x &&\ny", "work": {"run": ""}, "env": {}}
    return Leg(number, 0, {"number": job, "id": "j", "name": "j", "condition": "a &&\nb", "legs": [{}], "steps": [step] * steps}, values or {})


class Lines(unittest.TestCase):
    """The lines of `why` with parts that the front made, and with values."""

    legs = [leg_of(number) for number in range(4)]

    def shown(self, found: Reason, part: Part | None, cause: str = "") -> str:
        """A line about a step of leg 3, or about a job."""
        asked = []

        def find(run: int, job: str, step: int | None) -> Part | None:
            asked.append((run, job, step))
            return part
        lines = list(Sentences(self.legs, find, cause=lambda leg, step: cause).lines([told("leg 3", "leg 3 (a)", " ended failure"), found]))
        self.assertIn(asked, ([(0, "j", 1)], [(0, "j", None)]))
        return lines[1]

    def test_conditions(self) -> None:
        step = told("step 3 1", "step 1 (x)", " was skipped at line 3: its condition is not true: steps.a__begin", 1, kind="untrue")
        begins = "  step 1 (x) was skipped at line 3: "
        free, bound = Owner(1, "./build", ""), Owner(2, "./build", "here\nor there")
        for part, more in ((Part("x == 1", (free,), "x"), "its condition is not true: x == 1"),
                           (Part("", (free,), "x"), "./build does not go on"),
                           (Part("", (bound,), "x"), "the condition of ./build is not true: here …"),
                           (Part("x", (bound,), "x"), "its condition, x, or that of ./build, here …, is not true"),
                           (Part("x", (bound,), "x", False), "the condition of ./build is not true: here …")):
            named = begins.replace("(x)", "(./build / x)") if part.is_shown else begins
            self.assertEqual(self.shown(step, part), named + more)
        self.assertEqual(self.shown(step, None), begins + "its condition is not true: x && …")
        job = told("job 2", "job 2 (j)", " was skipped at line 3: its condition is not true: a", kind="untrue")
        self.assertEqual(self.shown(job, Part("b", (free,), "j")), "job 2 (j) was skipped at line 3: its condition is not true: b")
        self.assertEqual(self.shown(job, None), "job 2 (j) was skipped at line 3: its condition is not true: a && …")

    def test_steps_that_ended(self) -> None:
        made = Part("", (Owner(1, "./build", ""),), "x")
        failed = told("step 3 1", "step 1 (x)", " failed at line 3: the program ended with 1", 1, kind="exited", code=1)
        self.assertEqual(self.shown(failed, made), "  step 1 (./build / x) failed at line 3: the program ended with 1")
        self.assertEqual(self.shown(failed, None, "timed out"), "  step 1 (x) failed at line 3: the program ended with 1; timed out")
        self.assertEqual(self.shown(failed, None, "stopped by Ctrl-C"), "  step 1 (x) was interrupted at line 3; stopped by Ctrl-C")
        runs = told("step 3 1", "step 1 (x)", " runs since line 3", 1, state="in_progress")
        self.assertEqual(self.shown(runs, None, "stopped by Ctrl-C"), "  step 1 (x) was interrupted after line 3; stopped by Ctrl-C")
        self.assertEqual(self.shown(runs, None), "  step 1 (x) runs since line 3")

    def test_a_call_that_failed_has_no_steps(self) -> None:
        of_call = [told("job 2", "job 2 (j)", " failed"), told("leg 3", "leg 3 (j)", " ended failure", 1),
                   told("step 3 0", "step 0 (a job of c.yml did not succeed)", " failed", 2), told("run 0", "run 0 (k)", " failed")]
        closing = Part("", (Owner(1, "./build", ""),), "j", False)
        self.assertEqual(list(Sentences(self.legs, lambda *place: closing).lines(of_call)), ["job 2 (j) failed", "run 0 (k) failed"])

    def test_names_have_the_values_of_their_legs(self) -> None:
        legs = [leg_of(0, 0, {"v": 0}), leg_of(1, 0, {"v": 7}), leg_of(2, 1)]
        for leg in legs[:2]:
            leg.job["name"] = "${{ matrix.v }}"
        names = {f"leg {number}": f"leg {number} (${{{{ matrix.v }}}}, v {leg.values['v']})" for number, leg in enumerate(legs[:2])}
        names["job 0"] = "job 0 (${{ matrix.v }})"
        found = [told("leg 0", names["leg 0"], f" ended cancelled: {names['leg 1']} failed", kind="stopped",
                      cause={"kind": "fail-fast", "leg": 1}),
                 told("step 0 0", "step 0 (${{ matrix.v }})", " failed", 1),
                 told("leg 1", names["leg 1"], " waits behind leg 2 (j)", behind={"leg": 2}),
                 told("job 0", names["job 0"], " failed")]
        places = Sentences(legs, lambda *place: None, lambda run, job, step: f"{run} {job} {step}", names=names)
        self.assertEqual(list(places.lines(found)), [
            "leg 0 (0) ended cancelled: leg 1 (7) failed", "  step 0 (0) failed  [0 j 0]",
            "leg 1 (7) waits behind leg 2 (j)", "job 0 (j) failed  [0 j None]"])

    def test_legs_that_were_cancelled_for_one_reason(self) -> None:
        def tree(leg: int, cause: int, above: bool = True) -> list[Reason]:
            top = told(f"leg {leg}", f"leg {leg} (j)", " ended cancelled", kind="stopped", state="cancelled",
                       cause={"kind": "fail-fast", "leg": cause})
            return [top, replace(told(f"leg {cause}", f"leg {cause} (j)", " failed", 1), above=above)]
        legs = [leg_of(number, number // 10) for number in range(12)]
        trees = [*tree(1, 0, False), *tree(2, 0), *tree(3, 0), *tree(4, 0), *tree(6, 0), *tree(7, 5), *tree(8, 5), *tree(11, 0)]
        self.assertEqual([part.text for part in reasons.folded(trees, legs) if part.depth == 0], [
            "leg 1 (j) ended cancelled", "leg 2 (j) ended cancelled", "legs 3, 4, 6 ended cancelled for the same reason",
            "leg 7 (j) ended cancelled", "leg 8 (j) ended cancelled", "leg 11 (j) ended cancelled"])

    def test_texts_are_those_of_the_file(self) -> None:
        seen = "(cancelled() || env.ACTRUN_STOPPED == 'true') && (env.ACTRUN_STOPPED == 'true' && 'cancelled' || job.status)"
        self.assertEqual(list(Sentences(self.legs, lambda *place: None).lines([told("run 0", "run 0 (a)", seen)])),
                         ["run 0 (a)cancelled() && job.status"])


class Outlines(unittest.TestCase):
    """Trees of parts."""

    def test_heads_are_shown_once(self) -> None:
        one, two, other = Owner(1, "one", ""), Owner(2, "two", "if"), Owner(3, "one", "")
        parts = {0: Part("", (one,), "a"), 1: Part("", (one, two), "b"), 2: Part("", (one,), "c", False),
                 3: Part("", (other,), "d")}
        outline = Outline(lambda run, job, step: parts.get(step))
        found = [outline.put(0, "job", step, "") for step in range(5)]
        wanted = [(["one"], "  "), (["  two, if if"], "    "), None, (["one"], "  "), ([], "")]
        self.assertEqual([one and one[:2] for one in found], wanted)


@NEEDS_PROGRAM
class Shown(TryCase):
    """What `try` shows of them."""

    def test_tree_and_reasons(self) -> None:
        self.write(".github/workflows/ci.yml", CALLER)
        self.write(".github/workflows/called.yml", CALLED)
        self.write(".github/actions/build/action.yml", BUILD)
        self.write(".github/actions/deep/action.yml", DEEP)
        self.assertEqual(self.attempt("-n").stdout, TREE)
        done = self.attempt()
        self.assert_status(done, 1)
        # (other jobs are executed meanwhile)
        shown = [line.split(", ")[0] for line in done.stderr.splitlines() if " one: " in line]
        build = "one: ./.github/actions/build /"
        self.assertEqual(shown, ["✓ one: echo first", f"✓ {build} echo compile", f"✓ {build} Test",
                                 "✗ one: Second (./.github/actions/deep) / exit 1"])
        self.assertNotIn("outputs of", done.stderr)
        self.assertRegex(done.stdout, r"job \d+ \(many \(1\) / b\) was skipped at line \d+: "
                                      r"its condition is not true: github.ref == …  \[")
        for text in ("__begin", "__call", "␊"):
            self.assertNotIn(text, done.stdout.partition("✗")[2])
        self.assertTrue(done.stdout.endswith("\nagain     actrun try -j last\n"), done.stdout)


if __name__ == "__main__":
    unittest.main()
