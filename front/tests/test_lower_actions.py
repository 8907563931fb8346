"""Tests of composite actions of the repository. Expected values are written by hand from GitHub's documents on composite actions."""
import unittest

from tests.lower_case import LowerCase, needs_program

HELLO = """\
inputs:
  who: {required: true}
  other: {default: dflt}
outputs:
  greeting: {value: "${{ steps.g.outputs.text }}"}
runs:
  using: composite
  steps:
    - id: g
      shell: bash
      run: echo "text=hello ${{ inputs.who }} ${{ inputs.other }} $OUTER" >> "$GITHUB_OUTPUT"
    - shell: sh
      if: inputs.who == 'abc'
      working-directory: sub
      run: echo "in ${PWD##*/} ${GITHUB_ACTION_PATH##*/} ${{ github.action_path }} ${{ runner.os }}"
"""
FAILING = """\
runs:
  using: composite
  steps:
    - {run: echo before, shell: bash}
    - {run: exit 3, shell: bash}
    - {run: echo never, shell: bash}
    - {run: echo cleanup, if: failure(), shell: bash}
    - {run: echo always, if: always(), shell: bash}
"""


class Composite(LowerCase):
    def setUp(self):
        super().setUp()
        self.write("hello/action.yml", HELLO)
        self.write("fail/action.yaml", FAILING)
        (self.top.parent / "work" / "sub").mkdir(parents=True)

    @needs_program
    def test_inputs_outputs_and_place(self):
        self.contexts = {"github": {"workspace": "/w"}}
        self.job("""\
    defaults: {run: {working-directory: sub}}
    steps:
      - id: act
        uses: ./hello
        with: {who: "${{ fromJSON('\\"abc\\"') }}"}
        env: {OUTER: outer}
      - run: echo "${{ steps.act.outputs.greeting }} ${{ steps.act.outcome }}"
""")
        self.assertEqual(self.run_plan(), ["in sub hello /w/hello Linux", "hello abc dflt outer success"])
        self.assertEqual(self.notes()[0], (6, "the composite action ./hello is inlined: 2 steps take its place"))
        self.assertIn((6, "hello/action.yml:15: `runner.os` is replaced by its value on this machine, 'Linux'"), self.notes())

    def test_a_step_without_an_id_needs_no_more_steps(self):
        job = self.job("steps: [{uses: ./hello, with: {who: x}, if: github.ref == 'y'}]")
        self.assertEqual([step["if"] for step in job["steps"]], ["github.ref == 'y'", "(github.ref == 'y') && ('x' == 'abc')"])
        self.assertEqual([step.get("id") for step in job["steps"]], ["action__g", None])

    @needs_program
    def test_an_action_that_fails(self):
        self.job("    steps:\n      - {id: bad, uses: ./fail}\n      - {run: echo never}\n"
                 "      - {if: always(), run: 'echo ${{ steps.bad.outcome }} ${{ steps.bad.conclusion }}'}\n")
        self.assertEqual(self.run_plan(status=1), ["before", "cleanup", "always", "failure failure"])

    @needs_program
    def test_an_action_that_may_fail(self):
        self.job("    steps:\n      - {id: bad, uses: ./fail, continue-on-error: true}\n"
                 "      - {run: 'echo ${{ steps.bad.outcome }} ${{ steps.bad.conclusion }}'}\n")
        self.assertEqual(self.run_plan(), ["before", "cleanup", "always", "failure success"])

    @needs_program
    def test_an_action_after_a_failure(self):
        self.job("    steps:\n      - run: exit 1\n      - {uses: ./fail}\n      - {uses: ./fail, if: failure()}\n"
                 "      - {id: skipped, uses: ./hello, with: {who: x}}\n      - {run: 'echo ${{ steps.skipped.outcome }}', if: always()}\n")
        self.assertEqual(self.run_plan(status=1), ["before", "cleanup", "always", "skipped"])

    @needs_program
    def test_nested_and_a_condition_that_steps_change(self):
        self.write("outer/action.yml", "runs:\n  using: composite\n  steps:\n    - {id: h, uses: ./hello, with: {who: n}}\n"
                   "    - {run: 'echo GO=no >> $GITHUB_ENV', shell: bash}\n    - {run: 'echo ${{ steps.h.outputs.greeting }}', shell: bash}\n")
        self.job("    env: {GO: 'yes'}\n    steps:\n      - {uses: ./outer, if: env.GO == 'yes'}\n      - {uses: ./outer, if: env.GO == 'yes'}\n")
        self.assertEqual(self.run_plan(), ["hello n dflt"])

    @needs_program
    def test_a_secret_in_a_condition(self):
        self.write("secret/action.yml", "runs:\n  using: composite\n  steps:\n    - {run: echo given, if: inputs.token != '', shell: bash}\n"
                   "    - {run: echo empty, if: inputs.token == '', shell: bash}\n")
        self.job("    steps:\n      - {uses: ./secret, with: {token: '${{ secrets.T }}'}}\n      - {uses: ./secret, with: {token: '${{ secrets.U }}'}}\n")
        self.contexts = {"secrets": {"T": "token"}}
        self.assertEqual(self.run_plan(), ["given", "empty"])


class CheckedOut(LowerCase):
    def test_an_action_below_a_path_of_checkout(self):
        self.write("hello/action.yml", HELLO)
        self.write("sub/other/action.yml", FAILING)
        steps = ("{uses: actions/checkout@v4, with: {path: sub}}, {uses: actions/checkout@v4, with: {path: foreign, repository: o/r}}, "
                 "{uses: ./sub/hello, with: {who: x}}, {uses: ./sub/other}, {uses: ./foreign/hello}, {uses: ./subx/hello}")
        job = self.job(f"steps: [{steps}]")
        self.assertEqual([step.get("uses", "run") for step in job["steps"]],
                         ["actions/checkout@v4"] * 2 + ["run"] * 2 + ["run"] * 6 + ["./foreign/hello", "./subx/hello"])
        self.assertEqual(job["steps"][2]["env"]["GITHUB_ACTION_PATH"], f"{self.top}/sub/hello")


class Hashed(LowerCase):
    def test_patterns_that_are_inputs(self):
        self.write("a.lock", "one\n")
        self.write("hash/action.yml", "inputs: {files: {default: '*.lock'}}\n"
                   "runs: {using: composite, steps: [{run: \"${{ hashFiles(inputs.files) }}\", shell: bash}]}\n")
        job = self.job("steps: [{uses: ./hash}, {uses: ./hash, with: {files: none}}]")
        self.assertEqual([step["run"][:6] for step in job["steps"]], ["9c6407", ""])


class Kept(LowerCase):
    def test_actions_that_stay(self):
        self.write("js/action.yml", "runs: {using: node20, main: x.js}")
        self.write("loop/action.yml", "runs: {using: composite, steps: [{uses: ./loop}]}")
        job = self.job("steps: [{uses: ./js}, {uses: ./none}, {uses: actions/checkout@v4}, {uses: ./../x}, {uses: ./loop}]")
        self.assertEqual([step["uses"] for step in job["steps"]], ["./js", "./none", "actions/checkout@v4", "./../x", "./loop"])
        self.assertIn((2, "the action ./js is not a composite action: its step needs a program (--stub)"), self.notes())
        self.assertIn((2, "the action ./none has no action.yml in the repository: its step needs a program (--stub)"), self.notes())

    def test_a_fault(self):
        self.write("bad/action.yml", "runs: [")
        line, text = self.refused("on: push\njobs:\n  a:\n    steps:\n      - uses: ./bad")
        self.assertEqual(line, 5)
        self.assertTrue(text.startswith("the action ./bad has an error: bad/action.yml:1: "), text)


if __name__ == "__main__":
    unittest.main()
