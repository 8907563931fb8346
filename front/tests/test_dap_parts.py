"""Tests of the parts of dap: lines of workflows that are lowered, texts that are hidden, and what is shown of logs."""
from __future__ import annotations

import tempfile
import time
import unittest
from pathlib import Path

from actrun_front.dap_lines import Workflow, named_files
from actrun_front.dap_logs import LARGEST, SHOWN, Masks, plan_masks, read_log, shown_log
from actrun_front.dap_record import Board

CALLER = """\
name: Calls
on: push
jobs:
  marks:
    runs-on: ubuntu-latest
    steps:
      - run: echo first
      - uses: ./mark
      - {name: last, run: echo last}
"""
ACTION = """\
name: mark
runs:
  using: composite
  steps:
    - run: echo one
      shell: bash
    - run: echo two
      shell: bash
"""


class Room(unittest.TestCase):
    def setUp(self) -> None:
        folder = tempfile.TemporaryDirectory()
        self.addCleanup(folder.cleanup)
        self.room = Path(folder.name)

    def write(self, name: str, text: str | bytes) -> Path:
        path = self.room / name
        path.parent.mkdir(parents=True, exist_ok=True)
        path.write_bytes(text.encode() if isinstance(text, str) else text)
        return path


class Lines(Room):
    def run_of(self, steps: int) -> dict:
        """A run of the workflow above whose job has that many steps."""
        roots = {"github": {}, "inputs": {}, "secrets": {}, "vars": {}}
        return {"flow": "Calls", "roots": roots, "jobs": [{"id": "marks", "number": 3, "steps": [{}] * steps}]}

    def test_steps_have_their_own_lines(self) -> None:
        workflow = Workflow(self.write(".github/workflows/ci.yml", CALLER), "")
        self.assertEqual(workflow.lines_of(self.run_of(3)), {(3, -1): 4, (3, 0): 7, (3, 1): 8, (3, 2): 9})

    def test_steps_of_a_local_action_have_the_line_that_uses_it(self) -> None:
        workflow = Workflow(self.write(".github/workflows/ci.yml", CALLER), "")
        self.write("mark/action.yml", ACTION)
        self.assertEqual(workflow.lines_of(self.run_of(4)), {(3, -1): 4, (3, 0): 7, (3, 1): 8, (3, 2): 8, (3, 3): 9})

    def test_steps_that_fit_no_file_have_the_line_of_their_job(self) -> None:
        workflow = Workflow(self.write(".github/workflows/ci.yml", CALLER), "")
        self.assertEqual(workflow.lines_of(self.run_of(9)), {(3, -1): 4})

    def test_a_run_fits_by_name_then_by_path_then_by_jobs(self) -> None:
        named = Workflow(self.write("a.yml", CALLER), "")
        unnamed = Workflow(self.write("flows/b.yml", CALLER.partition("\n")[2]), "")
        jobs = self.run_of(1)["jobs"]
        self.assertEqual([named.rank({"flow": flow, "jobs": jobs}) for flow in ("Calls", "flows/b.yml", "other")], [(2, 1), (0, 1), (0, 1)])
        self.assertEqual([unnamed.rank({"flow": flow, "jobs": jobs}) for flow in ("Calls", "flows/b.yml", "/x/b.json")],
                         [(1, 1), (2, 1), (1, 1)])
        self.assertEqual(unnamed.rank({"flow": "x", "jobs": [{"id": "else"}]}), (0, 0))

    def test_lines_in_json_and_of_shapes_that_are_no_workflow(self) -> None:
        workflow = Workflow(self.write("a.json", '{"jobs": {"a": {"steps": [\n  {"run": "x",\n   "name": "y"},\n  {"run": "z"}\n]}}}'), "")
        self.assertEqual([workflow.meant(line) for line in range(1, 7)], [1, 2, 2, 4, None, None])
        for text in ("[]", "1", "jobs: 3", "jobs: {a: 1, b: {steps: 4}}"):
            self.assertEqual(Workflow(self.write("b.yml", text), "").lines_of(self.run_of(1)), {(3, -1): 1})

    def test_a_folder_stands_for_its_yaml_files(self) -> None:
        for name in ("b.yaml", "a.yml", "c.txt"):
            self.write(name, "")
        self.assertEqual([path.name for path in named_files(self.room, [".", "c.txt"])], ["a.yml", "b.yaml", "c.txt"])


class Logs(Room):
    def test_the_longest_mask_from_the_left_is_hidden(self) -> None:
        masks = Masks(["ab", "abc", "", "line one\nline two\n}"])
        self.assertEqual(masks.hide("xabcab, line two }"), "x******, *** ***")
        self.assertEqual(masks.hide({"ab": ["abx", 1, None]}), {"***": ["***x", 1, None]})
        self.assertEqual(Masks([]).hide("ab"), "ab")
        self.assertEqual(Masks(["abcdx", "cdef", "f"]).hide("abcdef abcdx"), "ab*** ***")

    def test_masks_of_a_plan_are_the_texts_of_its_secrets_and_the_token(self) -> None:
        runs = [{"roots": {"secrets": {"A": "one", "B": {"c": ["two", 3]}}, "github": {"token": "four", "ref": "five"}}}]
        self.assertEqual(plan_masks({"runs": runs}).texts, {"one", "two", "four"})

    def test_commands_are_shown_as_their_messages(self) -> None:
        log = self.write("log", "plain key\n ::Error file=a,line=3::50%25 key\n::group::key\n::endgroup::\n::debug::x\n::add-matcher::m.json\n::echo::on\n::other::x\n"
                                "::add-mask::word\nword key\n::stop-commands::on\n::error::word\n ::on::\n::warning::a%0Ab\n::notice::")
        masks = Masks(["key"])
        text, known = read_log(log, masks)
        self.assertTrue(known)
        self.assertEqual(text, "plain ***\nerror: 50% ***\n> ***\n::other::x\n*** ***\n::error::***\nwarning: a\nb\nnotice: \n")
        self.assertEqual(masks.texts, {"key", "word"})

    def test_thousands_of_masks(self) -> None:
        """In two steps, a line after each; in one step they begin alike."""
        for step in (0, 1):
            words = [f"{number * 7919 % 65536:04x}" * (1 - step) + f"{number:030}" for number in range(2000)]
            self.write(f"step-0-{step}.log", "".join(f"::add-mask::{word}\nnow {word}, {number:060}\n" for number, word in enumerate(words)))
        began = time.process_time()
        shown = [shown_log(self.room, 0, step, Masks(["a secret"])) for step in (0, 1)]
        self.assertLess(time.process_time() - began, 2)
        for text in shown:
            self.assertEqual({line[:8] for line in text.splitlines()[2:]}, {"now ***,"})

    def test_what_an_earlier_step_masks_is_hidden_later(self) -> None:
        self.write("step-2-0.log", "::add-mask::word\n")
        self.write("step-2-1.log", "actrun-0123:2-1\na word\n")
        self.write("step-3-1.log", "a word\n")
        self.assertEqual([shown_log(self.room, leg, 1, Masks([])) for leg in (2, 3, 4)], ["a ***\n", "a word\n", ""])

    def test_a_log_that_was_put_aside_is_shown_and_masks(self) -> None:
        self.write("step-2-0.shown", "::add-mask::word\nfirst\n")
        self.write("step-2-1.log", "a word\n")
        self.assertEqual([shown_log(self.room, 2, step, Masks([])) for step in (0, 1)], ["first\n", "a ***\n"])

    def test_logs_that_cannot_be_shown(self) -> None:
        self.write("step-0-0.log", b"\xff\n")
        self.write("step-0-1.log", "x" * (SHOWN + 9) + "\n")
        with open(self.room / "step-0-2.log", "wb") as large:
            large.truncate(LARGEST + 1)
        (self.room / "step-0-3.log").mkdir()
        shown = [shown_log(self.room, 0, step, Masks([])) for step in range(4)]
        self.assertEqual(shown[0], "(output is not UTF-8)\n")
        self.assertEqual(shown[1][:24], "(10 characters left out)")
        self.assertEqual(shown[2:], ["(the log is too large to be shown)\n", ""])


class Boards(unittest.TestCase):
    def test_each_line_of_a_board(self) -> None:
        board = Board()
        for line in ('run 0 going stop group "a stop"', "run 1 closed failure", "job 0 open", 'leg 0 running 3 call stop group "x"',
                     'step 0 failure success {"a b":"c group d"}', 'set {"A":"2"}', "leg 1 ended failure tolerated", 'out {"v":"1"}',
                     "job 1 shut skipped", "leg 2 fresh", "ends 1"):
            board.take(line)
        self.assertEqual([str(one) for one in board.runs + board.jobs + board.legs], [
            "going, told to stop", "closed failure", "open", "shut skipped", "running 3 call, told to stop", "ended failure tolerated",
            "fresh"])
        step = board.legs[0].steps[0]
        self.assertEqual((str(step), step.outputs, step.variables), ("failure, counts as success", {"a b": "c group d"}, {"A": "2"}))
        self.assertEqual((board.legs[1].outputs, board.ends), ({"v": "1"}, [1]))


if __name__ == "__main__":
    unittest.main()
