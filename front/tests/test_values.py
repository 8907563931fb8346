"""Which values decided what a step did: names that do not exist, conditions by their parts, variables,
scripts, annotations."""
from __future__ import annotations

import json
import os
import subprocess
import sys
import unittest
from pathlib import Path

from actrun_front import report
from actrun_front.dap_logs import plan_masks
from actrun_front.dap_record import Record, Walker
from actrun_front.explained import Explainer, answer, explainer, text_of
from actrun_front.expressions import Program, references, tokens
from actrun_front.kept_flows import KeptFlows, kept_flows
from actrun_front.live_places import Known
from actrun_front.values import COMPARED, Frame, Surroundings, name_of, peeled, split_at
from actrun_front.whole import whole

from .try_case import FRONT, NEEDS_PROGRAM, PROGRAM
from .values_case import MISSING, TYPO, ValuesCase


class Expressions(unittest.TestCase):
    """How expressions are taken apart."""

    def test_operands_are_those_outside_of_parentheses(self) -> None:
        for text, operators, wanted in (
                ("a && (b || c) && d", {"&&"}, ["a", "(b || c)", "d"]),
                ("f(a && b) || x['&&']", {"||"}, ["f(a && b)", "x['&&']"]),
                ("contains(fromJSON('[1]'), a == b)", COMPARED, ["contains(fromJSON('[1]'), a == b)"]),
                ("a", {"&&"}, ["a"]),
                ("a[b && c] && d", {"&&"}, ["a[b && c]", "d"])):
            self.assertEqual(split_at(tokens(text), operators), wanted, text)

    def test_parentheses_around_the_whole_are_left_out(self) -> None:
        for text, wanted in (("((a))", "a"), ("(a) && (b)", "(a) && (b)"), ("( a || b )", "a || b"),
                             ("f(a)", "f(a)"), ("(", "(")):
            self.assertEqual(peeled(text), wanted)

    def test_a_name_is_an_expression_again(self) -> None:
        for text in ("steps.a-b.outputs.c", "env['a b']", "matrix.os"):
            self.assertEqual(name_of(references(text)[0][0]), text)


@NEEDS_PROGRAM
class Explained(ValuesCase):
    """What is answered about parts of a record of `try`."""

    def asked(self, record: Path) -> Explainer:
        walker = Walker(PROGRAM, record)
        self.addCleanup(walker.close)
        return explainer(walker, Record(PROGRAM, record.read_bytes()), record)

    def text(self, part: str, place: int | None = None) -> list[str]:
        """The answer about a part at a place, by default the last one."""
        asked = self.asked(self.typo())
        return list(text_of(asked.explain(asked.record.last if place is None else place, part.split())))

    def test_a_name_that_does_not_exist_is_followed_to_its_job(self) -> None:
        found = self.text("step 1 1")
        self.assertRegex(found[0],
                         r"^step 1 \(deploy\) of leg 1 \(deploy, zone eu\): failure  \[\.github/workflows/ci\.yml:32\]$")
        self.assertEqual(found[1:5], ["  error: README.md:1: no channel", *MISSING])
        at_job = "\n".join(self.text("job 0"))
        self.assertIn("jobs.build.outputs.channel = '': output `channel`: ${{ steps.pick.outputs.chanel }}  [.github/workflows/ci.yml:9]", at_job)
        self.assertIn("steps.pick.outputs has no `chanel`: it has `channel`", at_job)

    def test_a_condition_has_its_parts_as_far_as_they_were_evaluated(self) -> None:
        found = self.text("step 0 1")
        at = found.index("condition:")
        self.assertEqual(found[at + 1:at + 6], [
            "  success() && (github.ref == 'refs/heads/dev' && steps.pick.outputs.channel != 'x') \u2192 false",
            "    success() \u2192 true",
            "    github.ref == 'refs/heads/dev' && steps.pick.outputs.channel != 'x' \u2192 false",
            f"      github.ref == 'refs/heads/dev' \u2192 {self.ref()} == 'refs/heads/dev' \u2192 false",
            "      steps.pick.outputs.channel != 'x': not evaluated"])

    def test_what_the_record_knows_is_not_asked_about(self) -> None:
        """That a condition held or not, as far as its comparisons follow from that."""
        path = self.typo()
        record, walker = Record(PROGRAM, path.read_bytes()), Walker(PROGRAM, path)
        self.addCleanup(walker.close)
        board, masks = walker.board_at(walker.last), plan_masks(record.plan)
        around = Surroundings(record, board, Program("/no/such"), masks, Frame(0, 0, 1), True)
        for text, held, wanted in (("github.ref == 'x'", False, [True, False]),
                                   ("'a' == 'b' || 1 < 2", False, [True, False, False]),
                                   ("success() && 'a' != 'b' && 1 < 2", True, [True, True, True]),
                                   ("1 == 2 && 2 == 1", False, [True, None, None]),
                                   ("true && (2 > 1)", False, [True, True, False])):
            with self.subTest(text):
                found = around.condition(text, held)
                values = [part.value for part in found.parts for part in (part.parts or [part])]
                self.assertEqual(values, wanted)

    def ref(self) -> str:
        """The ref of the record."""
        return f"'{Record(PROGRAM, self.typo().read_bytes()).plan['runs'][0]['roots']['github']['ref']}'"

    def test_variables_have_the_place_where_they_were_set(self) -> None:
        found = self.text("step 1 1")
        for line in ("  LEVEL=workflow    (env of the workflow)",
                     "  CHANNEL=    (env of the job: ${{ needs.build.outputs.channel }})",
                     "  ZONE=eu    (env of the step: ${{ matrix.zone }})",
                     "  TOKEN=***    (env of the job: ${{ secrets.TOKEN }})"):
            self.assertIn(line, found)
        self.assertIn("  MODE=fast    (set by step 0 (pick a channel))", self.text("step 0 1"))
        self.assertNotIn("topsecret", "".join(found))
        self.assertFalse([line for line in found if "GITHUB_JOB" in line])

    def test_a_script_is_shown_as_it_was_executed(self) -> None:
        found = self.text("step 1 1")
        at = found.index("script (- as it is written, + as it was executed):")
        self.assertEqual(found[at + 1:at + 4], ['  - echo "to ${{ needs.build.outputs.channel }} in $ZONE"',
                                                '  + echo "to  in $ZONE"',
                                                '    echo "::error file=README.md,line=1::no channel"'])
        self.assertIn("script:", self.text("step 0 0"))

    def test_what_has_not_happened_is_no_missing_name(self) -> None:
        found = self.text("step 0 1", 3)
        self.assertIn(": not begun", found[0])
        self.assertNotIn(MISSING[0], found)
        self.assertIn("  steps.pick.outputs.channel = null: step 0 (pick) has not ended here", found)

    def test_the_text_of_the_time_is_shown(self) -> None:
        file, record = ".github/workflows/ci.yml", self.typo()
        kept = kept_flows(record, Record(PROGRAM, record.read_bytes()).legs)
        kept.top = str(self.project)
        self.assertFalse(kept.changed(file))
        self.write(file, TYPO.replace("echo looks", "echo sees"))
        self.assertTrue(kept.changed(file))
        self.assertIn((31, "        run: echo looks"), kept.around(file, 32))
        self.assertEqual(kept.place(1, 1), (file, 32))
        self.assertEqual(os.stat(record.with_name("workflows.json")).st_mode & 0o777, 0o600)
        found = self.text("step 1 1")  # (the repository of this record may be gone)
        self.assertIn("  >   32        - name: deploy", found)
        self.assertTrue([line for line in found if line.startswith(file)])

    def test_a_condition_in_an_action_is_shown_as_it_is_written(self) -> None:
        self.write("act/action.yml", "name: act\ninputs: {who: {}}\nruns:\n  using: composite\n  steps:\n"
                   "    - if: inputs.who != ''\n      shell: bash\n      run: echo\n")
        self.workflow("- uses: ./act\n  if: always()\n")
        self.assert_status(self.attempt("--keep", str(self.room / "act")), 0)
        asked = self.asked(self.room / "act/private/record")
        found = list(text_of(asked.explain(asked.record.last, ["step", "0", "1"]), ("condition",)))
        self.assertEqual(found[1], "condition, written as inputs.who != ''; ./act: always():")
        self.assertRegex(found[2], "\u2192 false$")

    def test_a_variable_of_the_workflow_is_none_of_a_job(self) -> None:
        kept = KeptFlows(Known([], {}), envs=[{"": ["A", "B"], "one": ["B"]}])
        found = [kept.is_of_workflow(0, job, name) for job in ("one", "one__inner") for name in "AB"]
        self.assertEqual((found, kept.is_of_workflow(1, "one", "A")), ([True, False, False, False], False))

    def test_runs_and_legs(self) -> None:
        self.assertIn(": closed failure", self.text("run 0")[0])
        self.assertRegex(self.text("leg 1")[0], r"^leg 1 \(deploy, zone eu\): ended failure")

    def evaluated(self, expression: str, part: str = "step 1 1") -> list[str]:
        """What is said of the names in an expression."""
        asked = self.asked(self.typo())
        frame = asked.frame(part.split())
        around = asked.around(asked.seen_at(asked.record.last, frame, part.split()[0]), frame)
        return [read.said for read in around.reads([expression])]

    def test_what_there_is_in_place_of_a_name(self) -> None:
        for expression, said in (
                ("matrix.zne", "matrix has no `zne`: it has `zone`"),
                ("needs.biuld.result", "needs has no `biuld`: it has `build`"),
                ("needs.deploy", "the job does not need deploy: add it to `needs`"),
                ("steps.x.outputs.y", "steps has no `x`: it is empty"),
                ("secrets.OTHER", "no secret OTHER was given: `try -s OTHER` gives it"),
                ("env.CHANEL", "env has no `CHANEL`: it has `CHANNEL`"),
                ("github.event.nothing.inside", "github.event has no `nothing`: it has"), ("runner.os", ""),
                ("matrix.zone", "")):
            found = self.evaluated(expression)
            self.assertTrue(found[0].startswith(said) if said else not found[0], (expression, found))

    def explained(self, *words: str) -> subprocess.CompletedProcess[str]:
        """What `actrun explain` answers."""
        return subprocess.run([sys.executable, str(FRONT), "explain", *words], capture_output=True, text=True,
                              check=False,
                              env=self.environment, cwd=self.project)

    def test_the_command_prints_text_and_json(self) -> None:
        record = str(self.typo())
        done = self.explained(record, "end", "step", "1", "1")
        self.assertEqual((done.returncode, done.stderr), (0, ""))
        self.assertIn("\n".join(MISSING), done.stdout)
        found = json.loads(self.explained("--json", record, "end", "step", "1", "1").stdout)
        self.assertEqual((found["part"], found["state"], found["line"], found["changed"]),
                         ("step 1 1", "failure", 32, True))
        self.assertEqual(found["missing"][0]["inside"][0]["name"], "steps.pick.outputs.chanel")
        self.assertEqual(found["annotations"],
                         [{"kind": "error", "file": "README.md", "line": "1", "text": "no channel"}])
        self.assertEqual(found["contexts"]["matrix"], {"zone": "eu"})

    def test_wrong_words_are_explained(self) -> None:
        record = str(self.typo())
        for words, status, said in (
                ([record, "99", "run", "0"], 2, "99: the record has the places 0 to"),
                ([record, "end", "step", "0", "9"], 2, "leg 0 has 2 steps"),
                ([record, "end", "leg", "9"], 2, "its last leg is 2"),
                ([record, "end", "part", "9"], 2, "write run R, job J, leg L or step L S"),
                ([record, "end"], 2, "usage: actrun explain"),
                (["nowhere", "end", "run", "0"], 2, "nowhere: there is no such file")):
            done = self.explained(*words)
            self.assertEqual((done.returncode, done.stdout), (status, ""), words)
            self.assertIn(said, done.stderr)
        self.assertEqual(self.explained("--help").returncode, 0)

    def test_a_record_that_grows_is_read_up_to_its_last_whole_line(self) -> None:
        part = self.room / "record.part"
        lines = self.typo().read_bytes().splitlines(keepends=True)
        part.write_bytes(b"".join(lines[:6]) + lines[6][:9])
        done = self.explained(str(part), "end", "step", "0", "0")
        self.assertEqual((done.returncode, done.stderr), (0, ""))
        self.assertIn("step 0 (pick a channel) of leg 0 (build): running", done.stdout)
        with whole(part) as readable:
            self.assertEqual(readable.read_bytes(), b"".join(lines[:6]))
            walker = Walker(PROGRAM, readable)
            self.assertEqual(answer(walker, Record(PROGRAM, readable.read_bytes()), part,
                                    ["5", "run", "0"])["state"], "going")
            walker.close()

    def test_the_page_has_what_decided_parts_that_did_not_succeed(self) -> None:
        record = self.typo()
        logs = record.parent.parent / "play"
        found = report.shown(report.read_record(PROGRAM, record), record, logs=logs)["values"]
        self.assertEqual(sorted(found), ["step 0 1", "step 1 1"])
        self.assertEqual(found["step 1 1"].splitlines(), ["  error: README.md:1: no channel", *MISSING])
        self.assertRegex(found["step 0 1"],
                         r"(?s)^condition:\n.*github\.ref == 'refs/heads/dev' \u2192 .* \u2192 false\n")
        page = report.page(PROGRAM, record, logs=logs)
        self.assertIn("it has `channel`", page)
        self.assertNotIn("topsecret", page)


if __name__ == "__main__":
    unittest.main()
