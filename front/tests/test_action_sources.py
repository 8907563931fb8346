"""Where actions come from: a server, a folder, what is kept, a stub; what actrun.lock pins, and what an action may read."""
from __future__ import annotations

import re
import shutil
import unittest

from tests.action_case import ActionCase
from tests.try_case import NEEDS_PROGRAM


@NEEDS_PROGRAM
class Chosen(ActionCase):
    """Which of several places an action comes from."""

    COMPOSITE = {"action.yml": "runs: {using: composite, steps: [{run: 'echo of the server', shell: bash}]}"}

    def test_offline_and_no_fetch_use_what_is_kept(self) -> None:
        self.remote.publish("octo/one", self.COMPOSITE, "v1")
        self.workflow("- uses: octo/one@v1")
        self.commit()
        for option in ("--no-fetch", "--offline"):
            done = self.given("-n", option)
            self.assertIn(f"0 octo/one@v1 [it is not kept here, and {option} fetches nothing: its step fails]", done.stdout)
        done = self.given("--no-fetch")
        self.assert_status(done, 1)
        self.assertIn("error: octo/one@v1 cannot be fetched from", done.stdout)
        lenient = self.given("--no-fetch", "--lenient")
        self.assert_status(lenient, 0)
        self.assertIn("warning: skipped: octo/one@v1 cannot be fetched from", lenient.stdout)
        self.assert_status(self.given(), 0)
        shutil.rmtree(self.room / "remote")
        done = self.given("--no-fetch")
        self.assert_status(done, 0)
        self.assertIn("of the server", done.stdout)

    def test_a_ref_that_is_not_there_fails_its_step_alone(self) -> None:
        self.remote.publish("octo/one", self.COMPOSITE, "v1")
        self.workflow("- {uses: octo/one@v9, continue-on-error: true}\n- uses: octo/one@v1")
        self.commit()
        done = self.given()
        self.assert_status(done, 0)
        self.assertIn(f"error: octo/one@v9 cannot be fetched from {self.remote.url}/octo/one: couldn't find remote ref v9", done.stdout)
        self.assertIn("of the server", done.stdout)
        kept = self.given("-n", "--no-fetch")
        self.assertRegex(kept.stderr,
                         r"ci\.yml:7: the composite action octo/one@v1 \(commit [0-9a-f]{12}, kept\) is inlined: 1 steps")

    def test_a_lock_pins_and_refuses_a_ref_that_moved(self) -> None:
        first = self.remote.publish("octo/one", self.COMPOSITE, "v1")
        self.workflow(f"- uses: octo/one@v1\n- uses: octo/one@{first}")
        self.commit()
        self.assert_status(self.given("--lock"), 0)
        lock = self.project / "actrun.lock"
        self.assertEqual(lock.read_text(encoding="utf-8").splitlines()[1:], [f"octo/one@v1 {first}"])
        second = self.remote.publish("octo/one",
                                     {"action.yml": self.COMPOSITE["action.yml"].replace("of the server", "moved")}, "v1")
        self.assertIn("of the server", self.given().stdout)
        shutil.rmtree(self.home / ".cache/actrun/actions")
        done = self.given()
        self.assert_status(done, 2)
        self.assertIn(f"actrun.lock: octo/one@v1 is pinned to {first}, and names {second} now", done.stderr)
        self.assertNotIn("moved", done.stdout)
        self.assert_status(self.given("--lock"), 0)
        self.assertEqual(lock.read_text(encoding="utf-8").splitlines()[1:], [f"octo/one@v1 {second}"])
        self.assertIn("moved", self.given().stdout)
        self.assertIn("leave one of them out", self.given("-n", "--lock").stderr)

    def test_a_folder_of_ones_own(self) -> None:
        self.remote.publish("octo/one", self.COMPOSITE, "v1", "v2")
        mine = self.home / "mine"
        mine.mkdir()
        (mine / "action.yaml").write_text("runs: {using: composite, steps: [{run: 'echo of the folder', shell: bash}]}", encoding="utf-8")
        self.workflow("- uses: octo/one@v1\n- uses: Octo/One@v2")
        self.commit()
        done = self.given("--action", f"octo/one@v2={mine}")
        self.assert_status(done, 0)
        self.assertEqual(re.findall(r"(?m)^of the \w+$", done.stdout), ["of the server", "of the folder"])
        (self.home / "link").symlink_to(mine)
        self.assertEqual(self.given("--action",
                                    f"octo/one={self.home}/link").stdout.count("\nof the folder\n"), 2)
        self.assertIn("there is no action.yml or action.yaml in",
                      self.given("--action", f"octo/one={self.home}").stderr)
        self.assertIn("--action octo/two: no workflow of the event uses this action",
                      self.given("--action", f"octo/two={mine}").stderr)
        self.assertIn("write --action OWNER/NAME=DIR", self.given("--action", "one").stderr)

    def test_a_stand_in_and_the_action_itself(self) -> None:
        self.remote.publish("actions/cache", {"save/action.yml": self.COMPOSITE["action.yml"]}, "v4")
        self.workflow("- uses: actions/cache/save@v4\n  with: {key: a, path: b}")
        self.commit()
        self.assertIn("0 actions/cache/save@v4 [stub; --real executes the action itself]",
                      self.given("-n").stdout)
        done = self.given("--real", "actions/cache")
        self.assertIn("of the server", done.stdout)
        self.assertIn("no workflow of the event uses this action",
                      self.given("--real", "actions/checkout").stderr)

    def test_a_workflow_of_another_repository(self) -> None:
        inner = "on: workflow_call\njobs: {deep: {runs-on: ubuntu-latest, steps: [{run: echo the inner one}]}}\n"
        self.remote.publish("octo/flows", {".github/workflows/outer.yml": """\
on:
  workflow_call:
    inputs: {who: {type: string}}
    secrets: {given: {required: true}}
    outputs: {out: {value: "${{ jobs.first.outputs.out }}"}}
jobs:
  first:
    runs-on: ubuntu-latest
    outputs: {out: "${{ steps.s.outputs.v }}"}
    steps:
      - {id: s, run: "echo v=for-${{ inputs.who }} >> $GITHUB_OUTPUT"}
      - run: 'echo "$ALL" | tr -d " \\n"'
        env: {ALL: "${{ toJSON(secrets) }}"}
      - {run: 'echo [${{ secrets.other }}] $L', env: {L: "${{ secrets.given == 'a' }}"}}
  nested: {uses: ./.github/workflows/inner.yml}
""", ".github/workflows/inner.yml": inner}, "v1")
        self.write(".github/workflows/ci.yml", """\
on: push
jobs:
  call:
    uses: octo/flows/.github/workflows/outer.yml@v1
    with: {who: me}
    secrets: {given: "${{ secrets.A }}"}
  after: {needs: call, runs-on: ubuntu-latest, steps: [{run: 'echo got ${{ needs.call.outputs.out }}'}]}
""")
        self.commit()
        self.assertIn("octo/flows/.github/workflows/outer.yml@v1 [fetched from", self.given("-n").stdout)
        done = self.given("-s", "A=a", "-s", "OTHER=hidden-from-it")
        self.assert_status(done, 0)
        for line in ('{"github_token":"","given":"***"}', "[] true", "the inner one", "got for-me"):
            self.assertIn(f" | {line}\n", done.stdout)

    def test_an_action_reads_no_secrets(self) -> None:
        for number, text in enumerate((
                "runs: {using: composite, steps: [{run: 'echo ${{ secrets.KEY }}', shell: bash}]}",
                "runs: {using: composite, steps: [{run: 'true', shell: bash, if: \"toJSON(secrets) != ''\"}]}",
                "inputs: {a: {default: '${{ secrets.KEY }}'}}\nruns: {using: node20, main: a.js}",
                "inputs: {a: {default: '${{ env.KEY }}'}}\nruns: {using: composite, steps: []}",
                "outputs: {a: {value: '${{ secrets.KEY }}'}}\nruns: {using: composite, steps: [{run: 'true', shell: bash}]}")):
            self.remote.publish("octo/one", {"action.yml": text}, f"v{number}")
            self.workflow(f"- id: a\n  uses: octo/one@v{number}")
            self.commit()
            done = self.given("-s", "KEY=value")
            self.assert_status(done, 2)
            self.assertRegex(done.stderr, r"ci\.yml:7: the action octo/one@v\d.* reads `(secrets|env)`")

    def test_actions_that_would_have_steps_without_end(self) -> None:
        for number in range(9):
            inner = f"{{uses: octo/one@v{number - 1}}}" if number else "{run: 'true', shell: bash}"
            self.remote.publish("octo/one",
                                {"action.yml": f"runs: {{using: composite, steps: [{', '.join([inner] * 20)}]}}"}, f"v{number}")
        self.workflow("- uses: octo/one@v8")
        self.commit()
        done = self.given()
        self.assert_status(done, 2)
        self.assertIn("the job has more than 1024 steps once those of actions are written out", done.stderr)

    def test_inputs_that_would_grow_without_end(self) -> None:
        for number in range(9):
            word = "'" + "${{ inputs.x }}" * 100 + "'"
            inner = f"{{uses: octo/one@v{number - 1}, with: {{x: {word}}}}}" if number else "{run: 'true', shell: bash}"
            self.remote.publish("octo/one", {"action.yml": "inputs: {x: {default: a}}\n"
                                             f"runs: {{using: composite, steps: [{inner}]}}"}, f"v{number}")
        self.workflow("- uses: octo/one@v8")
        self.commit()
        done = self.given()
        self.assert_status(done, 2)
        self.assertIn("the inputs of actions become more than 16777216 characters of text", done.stderr)

    def test_an_action_that_leads_out_or_is_none(self) -> None:
        self.write("secret", "runs: {using: composite, steps: [{run: 'echo out', shell: bash}]}")
        self.remote.publish("octo/one", {"readme": "x"}, "v1")
        source = self.room / "source/octo/one"
        (source / "action.yml").symlink_to(self.project / "secret")
        self.remote.publish("octo/one", {"readme": "y"}, "v2")
        (source / "action.yml").unlink()
        self.remote.publish("octo/one", {"action.yml": "runs: {using: docker, image: Dockerfile}"}, "v3")
        self.workflow("".join(f"- {{uses: octo/one@v{number}, continue-on-error: true}}\n" for number in (1, 2, 3)))
        self.commit()
        done = self.given("--engine", "none")
        self.assertEqual(re.findall(r"(?m)^error: the action (octo/one@v\d .*?)\. Name", done.stdout), [
            "octo/one@v1 has no action.yml and no action.yaml", "octo/one@v2 has an action.yml that leads out of it by a link",
            "octo/one@v3 is a Docker action, which needs podman or docker (--engine none): apt-get install podman"])


if __name__ == "__main__":
    unittest.main()
