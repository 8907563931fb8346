"""Names with expressions: of runs, jobs, legs and steps."""
from __future__ import annotations

import os
import unittest

from actrun_front.names import read_names
from actrun_front.present import legs_of

from .lower_case import LowerCase, needs_program
from .try_case import NEEDS_PROGRAM, TryCase


@needs_program
class Lowered(LowerCase):
    """What is written out before execution."""

    def names(self, *names: str, **given: object) -> list[str]:
        """The names of steps of a job that knows some variables."""
        self.contexts = {"github": {"ref_name": "main", "event": {"n": 5}}, "vars": {"V": "w"}}
        steps = "".join(f"      - {{run: x, name: \"{name}\", env: {{S: own}}}}\n" for name in names)
        job = self.job("    env: {J: job, D: '${{ github.ref_name }}', L: '${{ needs.x.result }}'}\n    steps:\n" + steps, **given)
        return [step["name"] for step in job["steps"]]

    def test_known_values(self) -> None:
        self.assertEqual(self.names("on ${{ github.ref_name }} ${{ vars.V }}${{ vars.W }} ${{ github.event.n > 4 }}", "${{ env.J }} ${{ env.s }} ${{ env.D }}"),
                         ["on main w true", "job own main"])

    def test_values_that_are_known_later_stay(self) -> None:
        same = ["${{ env.L }}", "${{ steps.a.outputs.b }}", "${{ env.NONE }}", "${{ matrix.x }} ${{ toJSON(env) }}"]
        self.assertEqual(self.names(*same), same)
        self.assertEqual(self.names("${{ matrix.x || github.ref_name }}"), ["${{ matrix.x || 'main' }}"])

    def test_run_name(self) -> None:
        self.contexts = {"github": {"actor": "ada"}, "inputs": {"where": "there"}}
        flow = self.lower("run-name: by ${{ github.actor }} to ${{ inputs.where }}\non: push\njobs: {a: {name: \"${{ github.actor }}'s\", steps: [{run: x}]}}")
        self.assertEqual((flow["run-name"], flow["jobs"]["a"]["name"]), ("by ada to there", "ada's"))

    def test_names_that_others_give(self) -> None:
        job = self.job("    name: ${{ needs.a.outputs.b }}\n    steps:\n      - {run: x, name: '${{ steps.a.outputs.b || env.X }} ${{ github.sha }}'}\n"
                       "      - {run: x, name: '${{ fromJSON(steps.a.outputs.b) }}'}\n      - {run: x, name: '${{ secrets.A }}'}\n"
                       "      - {run: x, name: '${{ matrix.a }}'}\n      - {run: x, name: '${{ steps.a == 1 }}'}\n", watched=True)
        self.assertEqual(job["env"]["ACTRUN_JOB_NAME"], "${{ needs.a.outputs.b }}")
        self.assertEqual([step["env"].get("ACTRUN_NAME") for step in job["steps"]], ["${{ steps.a.outputs.b || env.X }} ", None, None, None, None])

    def test_names_in_logs(self) -> None:
        self.write("log", "mark:0-0\nmark+job\nmark-step\nmark-other\n")
        self.assertEqual(read_names(self.top / "log", "mark"), {"ACTRUN_JOB_NAME": "job", "ACTRUN_NAME": "step"})
        (self.top / "link").symlink_to("log")
        os.mkfifo(self.top / "pipe")
        for name in ("link", "pipe", "missing", "."):
            self.assertEqual(read_names(self.top / name, "mark"), {})


class Shown(unittest.TestCase):
    """What is shown of legs."""

    @NEEDS_PROGRAM
    def test_values_of_the_matrix(self) -> None:
        job = {"id": "a", "number": 0, "name": "On ${{ matrix.v && 'yes' || 'no' }} ${{ matrix.v }}", "legs": [{"v": 0}, {"v": 7}], "steps": []}
        legs = legs_of({"runs": [{"jobs": [job]}]})
        self.assertEqual([leg.name for leg in legs], ["On no 0", "On yes 7"])

    @NEEDS_PROGRAM
    def test_names_that_have_no_value_stay(self) -> None:
        names = ("${{ steps.a.outcome || matrix.v }}", "${{ fromJSON(matrix.v) }}", "${{ success() && matrix.v }}")
        job = {"id": "a", "number": 0, "legs": [{"v": "["}], "steps": []}
        legs = legs_of({"runs": [{"jobs": [{**job, "name": name} for name in names]}]})
        self.assertEqual([leg.name for leg in legs], [f"{name} ([)" for name in names])


@NEEDS_PROGRAM
class Tried(TryCase):
    """What `try` shows."""

    def test_names(self) -> None:
        self.write(".github/workflows/ci.yml", """\
name: CI
run-name: Deploy ${{ github.event_name }}
on: push
jobs:
  make: {runs-on: ubuntu-latest, outputs: {list: '["a"]'}, steps: [{run: echo, name: 'of ${{ github.workflow }}'}]}
  use:
    name: Use ${{ needs.make.result }} in ${{ matrix.x }}
    needs: make
    strategy: {matrix: {x: "${{ fromJSON(needs.make.outputs.list) }}"}}
    runs-on: ubuntu-latest
    steps: [{run: exit 1}]
""")
        done = self.attempt("--no-sandbox")
        self.assert_status(done, 1)
        self.assertIn(" make: of CI, ", done.stderr)
        self.assertIn(" Use success in a: exit 1, exit 1, ", done.stderr)
        self.assertRegex(done.stdout, r"(?m)^\S+ Deploy push \(CI, \.github/workflows/ci\.yml\): failure$")
        self.assertIn("leg 1 (Use success in a) ended failure", done.stdout)

    def test_late_names(self) -> None:
        self.write(".github/workflows/ci.yml", """\
on: push
jobs:
  make:
    runs-on: ubuntu-latest
    outputs: {version: '1.2'}
    steps: []
  use:
    name: Release ${{ needs.make.outputs.version }}
    needs: make
    runs-on: ubuntu-latest
    steps:
      - {id: a, run: 'echo word=well >> "$GITHUB_OUTPUT"; echo "NEXT=later" >> "$GITHUB_ENV"'}
      - {name: 'Say ${{ steps.a.outputs.word }} ${{ env.NEXT }} ${{ secrets.NONE }}', run: echo}
      - {name: 'Say ${{ steps.a.outputs.word }} ${{ env.NEXT }}', run: 'echo "said ${ACTRUN_NAME-}."; exit 3'}
""")
        done = self.attempt("--no-sandbox")
        self.assert_status(done, 1)
        self.assertIn(" Release 1.2: Say well later, exit 3, ", done.stderr)
        self.assertIn("\n--- Release 1.2: Say well later\nsaid .\n", done.stdout)
        self.assertRegex(done.stdout, r"  job 1 \(Release 1\.2\) failed .*\n +leg 1 \(Release 1\.2\) ended .*\n +step 2 \(Say well later\) failed")


if __name__ == "__main__":
    unittest.main()
