"""Tests of the lowerings of one job: contexts, hashFiles, variables, matrices, shells, limits and other systems.

Expected texts are written by hand from GitHub's documents: workflow syntax, contexts, default environment variables.
"""
import unittest
from unittest import mock

from tests.lower_case import LowerCase, needs_program


class Contexts(LowerCase):
    def test_runner(self):
        step = self.step("run: 'echo ${{ runner.os }} ${{ runner.arch }} runner.os', if: runner.os == 'Linux'")
        self.assertEqual(step["run"], "echo Linux X64 runner.os")
        self.assertEqual(step["if"], "'Linux' == 'Linux'")
        self.assertIn((2, "`runner.os` is replaced by its value on this machine, 'Linux'"), self.notes())

    def test_runner_of_the_contexts(self):
        self.contexts = {"runner": {"temp": "/t"}, "github": {"workspace": "/w/repo/repo"}}
        step = self.step("run: '${{ runner.temp }} ${{ runner.workspace }} ${{ toJSON(runner).x }}'")
        self.assertTrue(step["run"].startswith("/t /w/repo ${{ toJSON(fromJSON('{\"os\":\"Linux\","), step["run"])

    def test_what_differs_by_job_and_step(self):
        step = self.step("id: s, run: '${{ github.job }} ${{ github.action }} ${{ github.token }}', if: github.token")
        self.assertEqual(step["run"], "a s ${{ secrets.GITHUB_TOKEN }}")
        self.assertEqual(step["if"], "github.token")

    def test_default_variables(self):
        job = self.job("runs-on: u, steps: [{run: x}, {uses: actions/checkout@v4}, {run: y}, {id: me, run: z}, "
                       "{uses: ./act}, {uses: actions/checkout@v3, env: {GITHUB_ACTION: own}}]")
        self.assertEqual(job["env"], {"GITHUB_JOB": "a"})
        self.assertEqual([step["env"]["GITHUB_ACTION"] for step in job["steps"]],
                         ["__run", "__actions_checkout", "__run_2", "me", "__self", "__actions_checkout_2"])

    def test_default_variables_of_the_workflow(self):
        flow = self.lower("on: push\nenv: {GITHUB_JOB: mine, A: '${{ runner.os }}', GITHUB_TOKEN: t}\n"
                          "jobs: {a: {steps: [{run: x, env: {RUNNER_OS: BeOS, RUNNER_X: y}}]}}")
        self.assertEqual(flow["env"], {"A": "Linux", "GITHUB_TOKEN": "t"})
        self.assertEqual(flow["jobs"]["a"]["env"], {"GITHUB_JOB": "a"})
        self.assertEqual(flow["jobs"]["a"]["steps"][0]["env"], {"RUNNER_X": "y", "GITHUB_ACTION": "__run"})
        self.assertIn((3, "RUNNER_OS is a variable of the runner, which no `env` changes, as on GitHub"), self.notes())

    def test_default_variables_that_expressions_read(self):
        flow = self.lower("on: push\nenv: {GITHUB_REF_NAME: mine}\njobs: {a: {steps: [{run: 'x ${{ env.GITHUB_REF_NAME }}'}]}}")
        self.assertEqual(flow["env"], {"GITHUB_REF_NAME": "mine"})

    def test_default_variables_are_none_of_the_context(self):
        step = self.step("run: \"x ${{ env.GITHUB_JOB }} ${{ env['github_ref'] }} ${{ env.GITHUB_TOKEN }}\", if: env.RUNNER_TEMP == ''")
        self.assertEqual((step["run"], step["if"]), ("x ${{ null }} ${{ null }} ${{ env.GITHUB_TOKEN }}", "null == ''"))

    def test_environment_of_the_runner(self):
        for runs_on, expected in (("ubuntu-latest", "github-hosted"), ("[Self-Hosted, linux]", "self-hosted")):
            job = self.job(f"runs-on: {runs_on}, steps: [{{run: '${{{{ runner.environment }}}}'}}]")
            self.assertEqual(job["steps"][0]["run"], expected)
            self.assertEqual(job["env"].get("RUNNER_ENVIRONMENT", "github-hosted"), expected)

    def test_conditions_without_a_value_and_names_that_are_numbers(self):
        job = self.job("if: , name: 1.50, outputs: {n: 5, b: true, t: x}, steps: [{run: x, if: null, name: true}]")
        self.assertNotIn("if", job)
        self.assertEqual(job["outputs"], {"n": "5", "b": "true", "t": "x"})
        self.assertEqual((job["name"], job["steps"][0]["name"]), ("1.5", "true"))
        self.assertNotIn("if", job["steps"][0])

    def test_what_looks_otherwise(self):
        self.lower("on: push\njobs:\n  a:\n    steps:\n      - run: echo '${{ toJSON(github) }}'\n"
                   "      - run: echo '::add-matcher::m.json'\n      - run: echo \"${{ toJSON('x') }}\"\n")
        self.assertEqual(self.notes(), [(5, "toJSON sorts keys here, GitHub writes them in their own order"),
                                        (6, "problem matchers make no annotations here")])

    def test_hash_files(self):
        self.write("a.lock", "one\n")
        step = self.step("run: \"x-${{ hashFiles('*.lock') }}-${{ hashFiles('none', 'nothing') }}\"")
        self.assertEqual(step["run"], "x-9c64071fc196d33fec0036f48898b7ff2cf8398b892ead8afce6e9568f7fb6de-")
        self.assertEqual(self.notes(), [(2, "hashFiles('*.lock') is replaced by the digest 9c64071fc196.. of the repository's files"),
                                        (2, "hashFiles('none', 'nothing') is replaced by an empty string: no file matches")])

    def test_hash_files_are_read_once(self):
        with mock.patch("actrun_front.hash_files.files_of", return_value=[]) as listed:  # (of a big repository that is slow)
            self.step("run: \"${{ hashFiles('*.x') }} ${{ hashFiles('*.x') }}\"")
            self.step("run: \"${{ hashFiles('*.x') }}\"")
        self.assertEqual(listed.call_count, 1)

    def test_hash_files_that_are_refused(self):
        line, text = self.refused("on: push\njobs:\n  a:\n    steps:\n      - uses: c\n        with:\n          key: ${{ hashFiles(env.FILE) }}")
        self.assertEqual((line, text), (7, "hashFiles has no value before execution here: write its patterns as strings in quotes"))
        line, text = self.refused("on: push\njobs: {a: {steps: [{run: \"${{ hashFiles('../x') }}\"}]}}")
        self.assertIn("the pattern ../x of hashFiles has a `.` or `..` in it", text)

    def test_hash_files_of_the_workspace(self):
        self.write("a.lock", "one\n")
        self.contexts = {"github": {"workspace": "/w"}}
        self.assertEqual(self.step("run: \"${{ hashFiles('/w/a.lock') }}\"")["run"], "9c64071fc196d33fec0036f48898b7ff2cf8398b892ead8afce6e9568f7fb6de")

    def test_fractions(self):
        self.assertEqual(self.step("run: x, if: matrix.v == 3.10")["if"], "(format('{0}', matrix.v) == '3.1' || matrix.v == 0 && false)")
        self.assertEqual(self.note(), "`matrix.v == 3.10` compares numbers with fractions: (format('{0}', matrix.v) == '3.1' || matrix.v == 0 && "
                                      "false) takes its place")

    def test_container_and_services(self):
        job = self.job("container: x, services: {db: {image: y}}, steps: []")
        self.assertEqual(set(job), {"steps", "env"})
        self.assertEqual(self.notes(), [(2, "container of job a is dropped: its steps are executed on this machine, without it"),
                                        (2, "services of job a is dropped: its steps are executed on this machine, without it")])

    def test_lines(self):
        self.lower("on: push\njobs:\n  a:\n    container: x\n    steps:\n      - name: n\n        run: x\n")
        for path, line in ((("jobs", "a"), 3), (("jobs", "a", "steps", 0), 6), (("jobs", "a", "steps", 0, "run"), 7),
                           (("jobs", "a", "steps", 0, "env", "GITHUB_ACTION"), 6)):
            self.assertEqual(self.lowered.lines[path], line, path)

    def test_shapes_that_the_planner_refuses_stay(self):
        for text in ("on: push\njobs: x", "- 1", "on: push\njobs: {a: [], b: {steps: {}}, c: {steps: [1, {run: 3}, {uses: 1}]}}",
                     "on: push\njobs: {a: {strategy: 1, env: [], defaults: 2, runs-on: {x: 1}, steps: [{env: 1, shell: 2, run: x, if: []}]}}",
                     "on: push\njobs: {a: {uses: 3}, b: {needs: {}, defaults: {run: 1}, steps: [{run: '${{ '}]}}"):
            with self.subTest(text):
                self.lower(text)

    def test_deep_expressions(self):
        deep = "toJSON(" * 3000 + "runner.os" + ")" * 3000
        self.assertEqual(self.step("run: '${{ " + deep + " }}'")["run"], "${{ " + deep.replace("runner.os", "'Linux'") + " }}")


class Strategy(LowerCase):
    def test_given_values(self):
        job = self.job("strategy: {fail-fast: '${{ x }}', matrix: {v: '${{ fromJSON(needs.b.outputs.v) }}', w: [1]}}, steps: []",
                       matrices={("a", "v"): [3.9, "x"], ("a", "fail-fast"): False})
        self.assertEqual(job["strategy"], {"fail-fast": False, "matrix": {"v": ["3.9", "x"], "w": [1]}})
        self.assertIn((2, 'v of job a is [3.9,"x"], as --matrix gives it'), self.notes())

    def test_not_known(self):
        line, text = self.refused("on: push\njobs:\n  a:\n    strategy:\n      matrix: ${{ fromJSON(needs.b.outputs.m) }}\n    steps: []")
        self.assertEqual(line, 5)
        self.assertIn("give its value by --matrix a.matrix=JSON", text)
        line, text = self.refused("on: push\njobs:\n  a:\n    strategy:\n      matrix:\n        v: [1, 'x${{ env.A }}']\n    steps: []")
        self.assertEqual(line, 6)
        self.assertIn("give its value by --matrix a.v=JSON", text)

    def test_wrong_kinds(self):
        for given in ({("a", "v"): 3}, {("a", "matrix"): []}, {("a", "max-parallel"): "x"}):
            self.refused("on: push\njobs: {a: {strategy: {max-parallel: '${{ 1 }}', matrix: {v: [1]}}, steps: []}}",
                         evaluate=lambda text, known: 1, matrices=given)

    @needs_program
    def test_evaluated(self):
        self.contexts = {"github": {"ref": "main"}, "inputs": {"versions": "[1, 2]"}}
        job = self.job("""\
    strategy:
      max-parallel: ${{ fromJSON('3') }}
      matrix:
        v: ${{ fromJSON(inputs.versions) }}
        w: ["at-${{ github.ref }}", "${{ github.ref == 'main' }}"]
        include: ${{ fromJSON('[]') }}
    steps: []
""")
        self.assertEqual(job["strategy"], {"max-parallel": 3, "matrix": {"v": [1, 2], "w": ["at-main", True]}})
        self.assertIn((6, "v of job a is evaluated before execution: [1,2]"), self.notes())

    @needs_program
    def test_variables_by_one_expression(self):
        job = self.job("""\
    strategy:
      matrix:
        set: [{A: 1, B: x}, {A: 2}]
    env: ${{ matrix.set }}
    steps:
      - run: echo "$A-$B-$C"
        env: ${{ fromJSON('{"C":"c"}') }}
""")
        self.assertEqual(job["env"], {"A": "${{ (matrix.set)['A'] }}", "B": "${{ (matrix.set)['B'] }}", "GITHUB_JOB": "a"})
        self.assertEqual(self.run_plan(), ["1-x-c", "2--c"])
        self.assertIn((6, "env is ${{ matrix.set }}: its variables A, B are written one by one; B, which some legs do not have, is empty there"),
                      self.notes())
        line, _ = self.refused("on: push\njobs:\n  a:\n    env: ${{ needs.b.outputs }}\n    steps: []")
        self.assertEqual(line, 4)


class Systems(LowerCase):
    def test_fixed_system(self):
        for runs_on in ("windows-latest", "macOS-14", "[self-hosted, Windows]", "{group: g, labels: [macos-x]}"):
            job = self.job(f"runs-on: {runs_on}, steps: [{{run: x, if: always(), shell: pwsh}}, {{uses: y}}]")
            self.assertEqual([step["if"] for step in job["steps"]], [False, False])
            self.assertNotIn("shell", job["steps"][0])
        self.assertEqual(self.lowered.foreign, [("a", "macos-x")])

    def test_this_system(self):
        for runs_on in ("ubuntu-latest", "[self-hosted, linux]", "not-windows"):
            self.assertNotIn("if", self.job(f"runs-on: {runs_on}, steps: [{{run: x}}]")["steps"][0])
        self.assertEqual(self.lowered.foreign, [])
        self.assertNotIn("if", self.job("runs-on: windows-latest, steps: [{run: x}]", any_system=True)["steps"][0])

    @needs_program
    def test_system_of_the_matrix(self):
        self.job("""\
    strategy:
      matrix:
        os: [ubuntu, windows]
        include: [{os: macos, version: 13}]
    runs-on: ${{ matrix.os }}-${{ matrix.version || 'latest' }}
    steps:
      - run: echo "one on ${{ matrix.os }}"
      - run: echo "two on ${{ matrix.os }}"
        if: always() || matrix.os
      - run: echo never
        if: ${{ false }}
""")
        self.assertEqual(self.lowered.foreign, [("a", "macos-13"), ("a", "windows-latest")])
        self.assertEqual(self.run_plan(), ["one on ubuntu", "two on ubuntu"])
        self.assertEqual(self.notes(), [(7, "no step of job a is executed on macos-13, windows-latest: this machine has Linux")])

    @needs_program
    def test_system_that_is_known_during_execution(self):
        self.lower("""\
on: push
jobs:
  b:
    outputs: {os: "${{ steps.s.outputs.os }}"}
    steps: [{id: s, run: "echo os=Windows-2022 >> $GITHUB_OUTPUT"}]
  a:
    needs: b
    runs-on: ${{ needs.b.outputs.os }}
    steps: [{run: echo foreign}]
""")
        self.assertEqual(self.run_plan(), [])
        self.assertEqual(self.notes(), [(8, "the system of job a is known only during execution: its steps are skipped on Windows and macOS")])


class Shells(LowerCase):
    @needs_program
    def test_options(self):
        show = "echo \"${-//[hB]/} $(set -o | sed -n '/pipefail.*on/s/ .*//p')\""
        shells = (("bash -e {0}", "e "), ("bash {0}", " "), ("bash -l {0}", " "), ("bash --noprofile --norc -eo pipefail {0}", "e pipefail"),
                  ("/bin/bash -euxo pipefail {0}", "eux pipefail"), ("bash --login -e {0}", "e "), ("bash -o errexit -o pipefail {0}", "e pipefail"),
                  ("bash -c '. {0}'", "c "))
        self.job("    env: {HOME: /nonexistent}\n    steps:\n"
                 + "".join(f"      - {{shell: \"{shell}\", run: '{show.replace(chr(39), chr(39) * 2)}'}}\n" for shell, _ in shells)
                 + "      - {shell: 'sh -u {0}', run: 'echo $-'}\n      - {shell: 'sed s/a/b/ {0}', run: a}\n")
        printed = [line for line in self.run_plan() if not line.startswith("+")]
        self.assertEqual(printed, [wanted for _, wanted in shells] + ["u", "b"])
        self.assertIn((7, "the shell bash -l {0} is started by bash"), self.notes())
        self.assertEqual(self.lowered.value["jobs"]["a"]["steps"][-1]["name"], "a")

    @needs_program
    def test_others(self):
        self.job("    strategy: {fail-fast: false, matrix: {shell: [cmd, 'nosh {0}', bash -e, none -x]}}\n"
                 "    steps:\n      - {run: Get-Item, name: n, shell: '${{ matrix.shell }}'}\n")
        printed = [f"error: the shell {shell} is not supported here; use bash, sh or python" for shell in ("cmd", "bash -e", "none -x")]
        missing = "error: the program {0} of the shell {1} is not installed here; install it, or use bash, sh or python"
        self.assertEqual(sorted(self.run_plan(status=1)), sorted([*printed, missing.format("nosh", "nosh {0}")]))
        step = self.step("run: Get-Item, name: n, shell: cmd")
        self.assertEqual((step["name"], step["shell"], self.note()), ("n", "bash", "the shell cmd is not supported: the step fails and says so"))
        self.step("run: Get-Item, shell: 'nosh {0}'")
        self.assertEqual(self.note(), "the shell nosh {0} needs nosh, which is not installed here: the step fails and says so")

    def test_defaults(self):
        flow = self.lower("on: push\ndefaults: {run: {shell: cmd, working-directory: d}}\n"
                          "jobs: {a: {steps: [{run: x}, {run: y, shell: sh}]}, b: {defaults: {run: {shell: bash}}, steps: [{run: x}]}}")
        self.assertEqual(flow["defaults"], {"run": {"working-directory": "d"}})
        self.assertEqual(flow["jobs"]["a"]["steps"][0]["env"]["ACTRUN_SHELL"], "cmd")
        self.assertEqual(flow["jobs"]["a"]["steps"][1]["run"], "y")
        self.assertEqual(flow["jobs"]["b"]["steps"][0]["run"], "x")
        self.assertEqual(self.notes(), [(2, "the shell cmd is not supported: the step fails and says so")])

    @needs_program
    def test_python(self):
        self.job("""\
    steps:
      - shell: python
        run: |
          import sys
          text = "ACTRUN_END"
          print("it's", "${{ github.ref }}", text, sys.stdin.read() == "")
      - shell: python3 -u {0}
        run: raise SystemExit(3)
""")
        self.contexts = {"github": {"ref": "main"}}
        self.assertEqual(self.run_plan(status=1), ["it's main ACTRUN_END True"])

    @needs_program
    def test_shell_of_the_matrix(self):
        self.job("""\
    strategy: {fail-fast: false, matrix: {shell: [bash, sh, cmd]}}
    steps:
      - run: echo "${{ matrix.shell }}"
        shell: ${{ matrix.shell }}
""")
        self.assertEqual(self.run_plan(status=1), ["bash", "sh", "error: the shell cmd is not supported here; use bash, sh or python"])

    def test_first_words_of_sh(self):
        job = self.job("defaults: {run: {shell: sh}}, steps: [{run: x}, {run: y, shell: bash}, {run: z, timeout-minutes: 1}]", sh_line=". p; ")
        self.assertEqual([step["run"] for step in job["steps"][:2]], [". p; x", "y"])
        self.assertIn("\n. p; z\n", job["steps"][2]["run"])


class OwnVariables(LowerCase):
    """Texts of a step that see its own env, and become variables."""

    def test_names_of_the_step_are_written_out(self):
        step = self.step("run: x, env: {SUB: src, DEEP: 'a/${{ env.OUTER }}', ON: true}, working-directory: 'w/${{ env.SUB }}-${{ env.OUTER }}-${{ env.DEEP }}', "
                         "shell: \"${{ env['on'] }}\"")
        self.assertEqual(step["working-directory"], "w/src-${{ env.OUTER }}-${{ (format('a/{0}', env.OUTER)) }}")
        self.assertEqual(step["env"]["ACTRUN_SHELL"], "${{ (format('{0}', true)) }}")

    def test_they_are_checked_as_if_they_were_written_there(self):
        self.assertIn("timeout-minutes is soon, but has to be a number", self.refused(
            "on: push\njobs: {a: {steps: [{run: x, env: {T: soon}, timeout-minutes: '${{ env.T }}'}]}}")[1])

    @needs_program
    def test_limit_and_shell(self):
        self.job("""\
    env: {S: none}
    steps:
      - run: echo "$- ${ACTRUN_MINUTES-}"
        env: {S: 'bash -u {0}', T: 1}
        shell: ${{ env.S }}
        timeout-minutes: ${{ env.T }}
""")
        self.assertEqual(self.run_plan(), ["huB "])


class Limits(LowerCase):
    @needs_program
    def test_limits(self):
        self.job("""\
    timeout-minutes: 5
    steps:
      - run: |
          sleep 30 &
          echo begun
          wait
        timeout-minutes: 0.1
      - run: echo "in time ${ACTRUN_MINUTES-}"
        if: always()
        shell: sh
        timeout-minutes: ${{ fromJSON('1') }}
      - run: echo "to standard error" >&2; exit 124
        if: always()
        timeout-minutes: 1
      - run: x
        if: always()
        timeout-minutes: ${{ fromJSON('"soon"') }}
""")
        self.assertEqual(self.run_plan(status=1), ["begun", "error: the step was ended after 0.1 minutes, its timeout-minutes", "in time ",
                                                   "to standard error", "error: timeout-minutes is soon, but has to be a number"])
        self.assertEqual(self.notes()[0], (3, "timeout-minutes of a job is not enforced; that of a step with a script is"))

    def test_others(self):
        self.assertNotIn("timeout-minutes", self.step("uses: x, timeout-minutes: 3"))
        self.assertEqual(self.note(), "timeout-minutes of an action is not enforced")
        self.assertIn("has to be a number", self.refused("on: push\njobs: {a: {steps: [{run: x, timeout-minutes: soon}]}}")[1])


if __name__ == "__main__":
    unittest.main()
