"""Tests of called workflows. Expected values are written by hand from GitHub's documents on reusing workflows."""
import unittest

from tests.lower_case import LowerCase, needs_program

CALLED = """\
on:
  workflow_call:
    inputs:
      text: {type: string}
      flag: {type: boolean}
      level: {type: number, default: 3}
    secrets:
      TOKEN: {required: true}
    outputs:
      version: {value: "${{ jobs.build.outputs.v }}"}
env: {CALLED: "${{ inputs.text }}"}
defaults: {run: {shell: bash}}
jobs:
  build:
    outputs: {v: "${{ steps.s.outputs.v }}"}
    steps:
      - id: s
        run: echo "v=1.${{ inputs.text }}" >> "$GITHUB_OUTPUT"
      - run: echo "$CALLED/${{ inputs.flag == true }}/${{ inputs.level }}/$GITHUB_JOB/${TOP-none}"
      - run: echo "secrets ${{ secrets.TOKEN == 'mine' }} ${{ secrets.OTHER == '' }}"
  test:
    needs: build
    if: needs.build.outputs.v == '1.abc'
    steps: [{run: "echo test ${{ needs.build.result }}"}]
"""


class Inlined(LowerCase):
    def setUp(self):
        super().setUp()
        self.write(".github/workflows/called.yml", CALLED)

    def test_an_input_whose_type_is_no_text(self):
        self.write(".github/workflows/called.yml", CALLED.replace("{type: boolean}", "{type: [boolean]}"))
        flow = self.lower("on: push\njobs: {call: {uses: ./.github/workflows/called.yml, with: {flag: 'no'}}}")
        self.assertIn("${{ 'no' == true }}", flow["jobs"]["call__build"]["steps"][1]["run"])

    @needs_program
    def test_inputs_secrets_needs_and_outputs(self):
        flow = self.lower("""\
on: push
env: {TOP: top}
jobs:
  first:
    outputs: {text: "${{ steps.s.outputs.text }}"}
    steps: [{id: s, run: "echo text=abc >> $GITHUB_OUTPUT; echo $TOP"}]
  call:
    needs: first
    uses: ./.github/workflows/called.yml
    with: {text: "${{ needs.first.outputs.text }}", flag: true}
    secrets: {TOKEN: "${{ secrets.MINE }}"}
  last:
    needs: call
    steps: [{run: "echo ${{ needs.call.result }} ${{ needs.call.outputs.version }}"}]
""")
        self.contexts = {"secrets": {"MINE": "mine", "OTHER": "other"}}
        self.assertEqual(self.run_plan(), ["top", "abc/true/3/build/none", "secrets true true", "test success", "success 1.abc"])
        self.assertEqual(set(flow["jobs"]), {"first", "call__call", "call__build", "call__test", "call", "last"})
        self.assertEqual(flow["jobs"]["call__test"]["name"], "call / test")
        self.assertEqual(self.notes(), [(9, "the called workflow .github/workflows/called.yml is inlined: call__build, call__test")])
        self.assertEqual(self.lowered.lines["jobs", "call__build", "steps", 0, "run"], 9)

    @needs_program
    def test_inherited_secrets_and_no_gate(self):
        flow = self.lower("on: push\njobs: {c: {uses: ./.github/workflows/called.yml, with: {text: abc}, secrets: inherit}}")
        self.contexts = {"secrets": {"TOKEN": "mine"}}
        self.assertEqual(self.run_plan(), ["abc/false/3/build/none", "secrets true true", "test success"])
        self.assertEqual(set(flow["jobs"]), {"c__build", "c__test", "c"})

    @needs_program
    def test_a_job_that_fails(self):
        self.write(".github/workflows/fail.yml", "on: workflow_call\njobs:\n  bad: {steps: [{run: exit 3}]}\n"
                   "  after: {needs: bad, steps: [{run: echo never}]}\n  clean: {needs: bad, if: failure(), steps: [{run: echo clean}]}\n")
        self.lower("on: push\njobs:\n  c: {uses: ./.github/workflows/fail.yml}\n  next: {needs: c, steps: [{run: echo never}]}\n"
                   "  always: {needs: c, if: always(), steps: [{run: \"echo ${{ needs.c.result }}\"}]}\n")
        self.assertEqual(self.run_plan(status=1), ["clean", "failure"])

    @needs_program
    def test_a_call_that_is_skipped(self):
        self.write(".github/workflows/c.yml", "on: workflow_call\njobs:\n  one: {steps: [{run: echo never}]}\n"
                   "  two: {needs: one, if: always(), steps: [{run: echo never}]}\n")
        self.lower("on: push\njobs:\n  c: {if: github.ref == 'x', uses: ./.github/workflows/c.yml}\n"
                   "  end: {needs: c, if: always(), steps: [{run: \"echo ${{ needs.c.result }}\"}]}\n")
        self.assertEqual(self.run_plan(), ["skipped"])

    @needs_program
    def test_a_call_after_a_failure(self):
        self.write(".github/workflows/c.yml", "on: workflow_call\njobs:\n  one: {steps: [{run: echo one}]}\n"
                   "  two: {needs: one, steps: [{run: echo two}]}\n  three: {needs: one, if: failure(), steps: [{run: echo never}]}\n")
        self.lower("on: push\njobs:\n  bad: {steps: [{run: exit 1}]}\n  c: {needs: bad, if: always(), uses: ./.github/workflows/c.yml}\n"
                   "  no: {needs: bad, uses: ./.github/workflows/c.yml}\n")
        self.assertEqual(self.run_plan(status=1), ["one", "two"])
        self.assertIn((4, "job c has a condition that names a status: in .github/workflows/c.yml success() and failure() look at direct "
                          "needs only"), self.notes())

    @needs_program
    def test_a_skipped_job_of_a_call_skips_nothing_behind_it(self):
        self.write(".github/workflows/c.yml", "on: workflow_call\njobs:\n  off: {if: false, steps: [{run: echo never}]}\n"
                   "  on: {steps: [{run: echo on}]}\n")
        self.write(".github/workflows/d.yml", "on: workflow_call\njobs:\n  one: {steps: [{run: echo one}]}\n"
                   "  two: {needs: one, steps: [{run: echo two}]}\n")
        self.lower("on: push\njobs:\n  c: {uses: ./.github/workflows/c.yml}\n  d: {needs: c, uses: ./.github/workflows/d.yml}\n"
                   "  e: {needs: d, steps: [{run: echo e}]}\n  f: {needs: c, if: success() || failure(), steps: [{run: echo f}]}\n")
        self.assertEqual(sorted(self.run_plan()), ["e", "f", "on", "one", "two"])
        self.assertIn((4, "job d is behind a call: in .github/workflows/d.yml success() and failure() look at direct needs only"),
                      self.notes())

    @needs_program
    def test_behind_a_call_success_looks_at_all_before_it(self):
        self.write(".github/workflows/c.yml", "on: workflow_call\njobs:\n  one: {if: true, steps: [{run: echo one}]}\n")
        self.lower("on: push\njobs:\n  bad: {steps: [{run: exit 1}]}\n"
                   "  c: {needs: bad, if: always(), uses: ./.github/workflows/c.yml}\n"
                   "  no: {needs: c, steps: [{run: echo never}]}\n  never: {needs: c, if: success(), steps: [{run: echo never}]}\n"
                   "  last: {needs: [no, never], if: always(), steps: [{run: 'echo ${{ needs.no.result }} ${{ needs.never.result }}'}]}\n")
        self.assertEqual(self.run_plan(status=1), ["one", "skipped skipped"])

    @needs_program
    def test_a_matrix_calls_once_for_each_combination(self):
        self.write(".github/workflows/c.yml", "on: {workflow_call: {inputs: {v: {type: number}}, outputs: {o: {value: 'o${{ inputs.v }}'}}}}\n"
                   "jobs: {one: {steps: [{run: 'echo v${{ inputs.v + 0 }}'}]}}\n".replace(" + 0", ""))
        flow = self.lower("on: push\njobs:\n  c: {strategy: {matrix: {v: [1, 2]}}, uses: ./.github/workflows/c.yml, with: {v: \"${{ matrix.v }}\"}}\n"
                          "  end: {needs: c, steps: [{run: \"echo ${{ needs.c.outputs.o }}\"}]}\n")
        self.assertEqual(self.run_plan(), ["v1", "v2", "o2"])
        self.assertEqual([job["name"] for job in flow["jobs"].values() if "name" in job], ["c (1) / one", "c (2) / one", "c"])

    @needs_program
    def test_nested(self):
        self.write(".github/workflows/mid.yml", "on: {workflow_call: {inputs: {x: {}}, outputs: {o: {value: '${{ jobs.in.outputs.version }}'}}}}\n"
                   "jobs: {in: {uses: ./.github/workflows/called.yml, with: {text: '${{ inputs.x }}c', flag: 'true'}}}\n")
        self.lower("on: push\njobs:\n  top: {uses: ./.github/workflows/mid.yml, with: {x: ab}}\n"
                   "  end: {needs: top, steps: [{run: \"echo ${{ needs.top.outputs.o }}\"}]}\n")
        self.assertEqual(self.run_plan(), ["abc/true/3/build/none", "secrets false true", "test success", "1.abc"])
        self.assertEqual([self.lowered.lines["jobs", name] for name in ("top__in__build", "top__in", "top", "end")], [3, 3, 3, 4])

    @needs_program
    def test_inputs_as_a_whole_and_variables_without_a_value(self):
        self.write(".github/workflows/c.yml", "on: {workflow_call: {inputs: {a: {}, n: {type: number}}}}\n"
                   "jobs: {one: {steps: [{run: \"echo ${{ fromJSON(toJSON(inputs)).n }} ${{ inputs['a'] }} ${A-none}\"}]}}\n")
        flow = self.lower("on: push\nenv: {A: 1, B: 2}\ndefaults: {run: {shell: sh}}\njobs:\n"
                          "  c: {uses: ./.github/workflows/c.yml, with: {a: x, n: 3}}\n  d: {env: {A: , C: 3}, defaults: {run: }, steps: []}\n")
        self.assertEqual(self.run_plan(), ["3 x none"])
        self.assertEqual(flow["jobs"]["d"]["env"], {"A": None, "B": 2, "C": 3, "GITHUB_JOB": "d"})
        self.assertEqual(flow["jobs"]["d"]["defaults"], {"run": {"shell": "sh"}})

    def test_ids_do_not_clash(self):
        flow = self.lower("on: push\njobs: {c: {uses: ./.github/workflows/called.yml}, c__build: {steps: []}}")
        self.assertEqual(set(flow["jobs"]), {"c", "c__build", "c__build_", "c__test"})
        self.assertEqual(flow["jobs"]["c__test"]["needs"], ["c__build_"])


class Elsewhere(LowerCase):
    def test_other_repository(self):
        flow = self.lower("on: push\njobs:\n  c:\n    needs: b\n    uses: o/r/.github/workflows/x.yml@v1\n    with: {a: 1}\n    secrets: inherit\n"
                          "  end: {needs: c, steps: [{run: '${{ needs.c.outputs.thing }}'}]}\n")
        job = flow["jobs"]["c"]
        self.assertEqual(job["steps"], [{"id": "call", "uses": "o/r/.github/workflows/x.yml@v1", "with": {"a": 1}, "env": {"GITHUB_ACTION": "call"}}])
        self.assertEqual((job["needs"], job["outputs"]), ("b", {"thing": "${{ steps.call.outputs.thing }}"}))
        self.assertEqual(self.notes()[0][0], 5)

    def test_missing_file(self):
        flow = self.lower("on: push\njobs: {c: {uses: ./.github/workflows/none.yml}}")
        self.assertEqual(flow["jobs"]["c"]["steps"][0]["uses"], "./.github/workflows/none.yml")
        self.assertIn("is not in this repository", self.note())


class Refusals(LowerCase):
    def reason(self, text, caller="uses: ./c.yml"):
        self.write("c.yml", text)
        line, reason = self.refused("on: push\njobs:\n  c:\n    " + caller)
        self.assertEqual(line, 4)
        return reason

    def test_refusals(self):
        self.assertIn("the called workflow has an error: c.yml:1: ", self.reason("a: ["))
        self.assertIn("c.yml has no jobs", self.reason("on: workflow_call"))
        self.assertIn("write `workflow_call` under its `on`", self.reason("on: push\njobs: {a: {steps: []}}"))
        self.assertIn("c.yml requires the input x: give it under `with` of job c",
                      self.reason("on: {workflow_call: {inputs: {x: {required: true}}}}\njobs: {a: {steps: []}}"))
        self.assertIn("nest deeper than 4 levels here: c.yml > c.yml > c.yml > c.yml", self.reason("on: workflow_call\njobs: {a: {uses: ./c.yml}}"))

    def test_inputs_and_secrets_that_do_not_fit(self):
        self.write("c.yml", "on: {workflow_call: {inputs: {n: {type: number}, b: {type: boolean}, s: {type: string}}, "
                            "secrets: {token: {required: true}}}}\njobs: {a: {runs-on: x, steps: [{run: a}]}}")
        for given, reason in (("with: {x: 1}, secrets: {token: t}", "c.yml declares no input x"),
                              ("with: {n: abc}, secrets: {token: t}", "the input n of c.yml is a number, not abc"),
                              ("with: {n: true}, secrets: {token: t}", "the input n of c.yml is a number, not true"),
                              ("with: {b: 'no'}, secrets: {token: t}", "the input b of c.yml is a boolean, not no"),
                              ("secrets: {token: t, other: o}", "c.yml declares no secret other"),
                              ("with: {n: 1}", "c.yml requires the secret token: give it under `secrets` of job c")):
            flow = "on: push\njobs: {c: {uses: ./c.yml, " + given + "}}"
            self.assertEqual(self.refused(flow, strict=True), (2, reason))
            self.lower(flow)
            self.assertTrue(any(text.startswith(f"{reason}: ") for _, text in self.notes()), self.notes())
        for given in ("with: {n: 1.5, b: true, s: 2}, secrets: {token: t}", "with: {n: '3', b: '${{ true }}'}, secrets: inherit",
                      "with: {n: '${{ 1 }}', s: abc}, secrets: {TOKEN: ''}"):
            self.lower("on: push\njobs: {c: {uses: ./c.yml, " + given + "}}", strict=True)

    def test_a_refusal_inside(self):
        reason = self.reason("on: workflow_call\njobs:\n  a:\n    steps:\n      - run: ${{ hashFiles(env.X) }}\n")
        self.assertTrue(reason.startswith("c.yml:5: hashFiles has no value"), reason)


if __name__ == "__main__":
    unittest.main()
