"""The order of legs, `matrix` if there is none, and names that differ in case alone."""
from __future__ import annotations

import json
import os
import random
import unittest

from actrun_front.expressions import Program
from .lower_case import LowerCase
from .try_case import NEEDS_PROGRAM, WORKFLOW, TryCase


def same(one: object, other: object) -> bool:
    """Whether two values are the same, by kind."""
    return json.dumps(one, sort_keys=True) == json.dumps(other, sort_keys=True)


def github_legs(variables: dict, include: list, exclude: list) -> list[dict]:
    """The legs by GitHub's documents, written apart from what is tested."""
    legs: list[dict] = [{}]
    for name, values in variables.items():
        legs = [{**leg, name: value} for leg in legs for value in values]

    def fits(leg: dict, entry: dict, missing: bool) -> bool:
        return all(missing if name not in leg else same(leg[name], value) for name, value in entry.items())
    legs = [leg for leg in legs if not any(fits(leg, one, False) for one in exclude)] if variables else []
    originals, added = [dict(leg) for leg in legs], []
    for entry in include:
        found = [at for at, one in enumerate(originals) if fits(one, entry, True)]
        for at in found:
            legs[at].update(entry)
        added += [] if found else [entry]
    return legs + added


@NEEDS_PROGRAM
class Legs(LowerCase):
    """The legs that the program plans of a lowered matrix."""

    def planned(self, matrix: dict) -> list[dict]:
        """The legs of a job with a matrix."""
        text = json.dumps({"on": "push", "jobs": {"a": {"strategy": {"matrix": matrix},
                                                        "steps": [{"run": "x"}]}}})
        value = self.lower(text)["jobs"]["a"]["strategy"]["matrix"]
        return Program(os.environ["ACTRUN_PROGRAM"]).legs(value)

    def test_the_order_of_the_workflow(self) -> None:
        self.assertEqual(self.planned({"os": ["u", "w"], "node": [2, 1]}),
                         [{"os": "u", "node": 2}, {"os": "u", "node": 1}, {"os": "w", "node": 2},
                          {"os": "w", "node": 1}])

    def test_random_matrices(self) -> None:
        chance = random.Random(3)
        for _ in range(25):
            names = chance.sample(["z", "m", "a", "k"], chance.randint(1, 3))
            variables = {name: chance.sample([1, 2, "x", True, {"two": 1, "deep": [{"z": 1, "b": 2}]}],
                                             chance.randint(1, 3)) for name in names}

            def entry(extra: list[str]) -> dict:
                keys = chance.sample([*names, *extra], min(len(names) + len(extra), chance.randint(1, 2)))
                return {key: chance.choice(variables.get(key, [5, 6])) for key in keys}
            include, exclude = [entry(["q",
                                       "b"]) for _ in range(chance.randint(0, 3))], [entry([]) for _ in range(chance.randint(0, 1))]
            wanted = github_legs(variables, include, exclude)
            if wanted:
                found = self.planned({**variables, **({"include": include} if include else {}),
                                      **({"exclude": exclude} if exclude else {})})
                self.assertTrue(same(found, wanted), (variables, include, exclude, found, wanted))


class Names(LowerCase):
    """What is null, and what is the same name."""

    def test_matrix_is_null_without_a_strategy(self) -> None:
        job = self.job("if: true, steps: [{run: \"${{ matrix }} ${{ toJSON(matrix) }} ${{ matrix.x }}\", if: "
                       "matrix}, {run: x, if: '${{ !matrix }}'}]")
        self.assertEqual(job["steps"][0]["run"], "${{ null }} ${{ toJSON(null) }} ${{ matrix.x }}")
        self.assertEqual([step["if"] for step in job["steps"]], ["null", "${{ !null }}"])
        job = self.job("strategy: {matrix: {x: [1]}}, steps: [{run: '${{ toJSON(matrix) }}'}]")
        self.assertEqual(job["steps"][0]["run"], "${{ toJSON(matrix) }}")

    def test_needs_in_another_case(self) -> None:
        flow = self.lower("on: push\njobs: {Build: {steps: []}, b: {needs: build, steps: []}, c: {needs: "
                          "[BUILD, b, none], steps: []}}")
        self.assertEqual([flow["jobs"][name]["needs"] for name in "bc"], ["Build", ["Build", "b", "none"]])


@NEEDS_PROGRAM
class Tried(TryCase):
    """Order and names in an execution."""

    def test_numbers_and_names_of_legs(self) -> None:
        self.workflow("- run: echo \"leg ${{ strategy.job-index }} ${{ matrix.os }} ${{ matrix.node }} of "
                      "${{ strategy.job-total }}\"", WORKFLOW.replace(
            "    steps:\n", "    strategy: {matrix: {os: [u, w], node: [2, 1], include: [{os: w, node: 1, "
                            "extra: 5}]}}\n    steps:\n"))
        done = self.attempt()
        self.assert_status(done, 0)
        for line in ("one (u, 2): ", "one (w, 1, 5): ", "leg 0 u 2 of 4\n", "leg 1 u 1 of 4\n",
                     "leg 2 w 2 of 4\n", "leg 3 w 1 of 4\n"):
            self.assertIn(line, done.stdout)

    def test_a_matrix_that_calls_a_workflow(self) -> None:
        self.write(".github/workflows/called.yml",
                   "on: {workflow_call: {inputs: {os: {type: string}, node: {type: number}}}}\njobs:\n  in:\n"
                   "    runs-on: x\n    steps:\n      - run: echo '${{ inputs.os }} ${{ inputs.node }}'\n")
        self.write("ci.yml", "on: push\njobs:\n  call:\n    strategy: {matrix: {os: [u, w], node: [2, 1]}}\n "
                             "   uses: ./.github/workflows/called.yml\n"
                   "    with: {os: '${{ matrix.os }}', node: '${{ matrix.node }}'}\n")
        done = self.attempt("-W", "ci.yml", "--workers", "1")
        self.assert_status(done, 0)
        shown = [line for line in done.stdout.splitlines() if line.startswith("--- ")]
        self.assertEqual([line.split(":")[0] for line in shown],
                         [f"--- call ({one}) / in" for one in ("u, 2", "u, 1", "w, 2", "w, 1")])

    def test_no_matrix_and_needs(self) -> None:
        self.workflow("- if: ${{ matrix }}\n  run: echo unseen\n- if: '!matrix'\n  run: echo \"seen ${{ "
                      "needs.build.outputs.x }} ${{ toJSON(matrix) }}\"",
                      WORKFLOW.replace("  one:\n", """\
  Build:
    runs-on: ubuntu-latest
    outputs: {x: "${{ steps.S.outputs.x }}"}
    steps: [{id: s, run: 'echo x=5 >> "$GITHUB_OUTPUT"'}]
  one:
    needs: build
"""))
        for words in ((), ("-j", "one")):
            done = self.attempt(*words)
            self.assert_status(done, 0)
            self.assertIn("seen 5 null\n", done.stdout)
            self.assertNotIn("\nunseen", done.stdout)


if __name__ == "__main__":
    unittest.main()
