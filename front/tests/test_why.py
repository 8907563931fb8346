"""Tests of `actrun why --json`: its objects say of the examples what its English lines do."""
from __future__ import annotations

import json
import subprocess
import unittest
from pathlib import Path
from typing import Any

from actrun_front import reasons
from actrun_front.reasons import words_of

from .dap_case import EXAMPLES, NEEDS_PROGRAM, PROGRAM

REFUSED = ("cut.record", "refused.record")
RECORDS = sorted(path for path in EXAMPLES.glob("*.record") if path.name not in REFUSED)
KEYS = ["above", "because", "depth", "fact", "line", "name", "part", "state", "text", "tolerated", "version"]


def why(record: Path, *words: str) -> list[str]:
    """The lines that `why` prints."""
    done = subprocess.run([PROGRAM, "why", *words, record], capture_output=True, text=True, check=True)
    return done.stdout.splitlines()


def objects(record: Path, *words: str) -> list[dict[str, Any]]:
    """The objects that `why` prints."""
    return [json.loads(line) for line in why(record, "--json", *words)]


def asked(record: Path, words: str) -> list[str]:
    """What `why` prints of a part."""
    command = [PROGRAM, "why", record, *words.split()]
    return subprocess.run(command, capture_output=True, text=True, check=True).stdout.splitlines()


def tree(every: dict[str, dict[str, Any]], words: str) -> list[str]:
    """The lines of a part and of all that made it so, each part once, as REFERENCE has the tree."""
    lines, left, seen = [], [(words, 0)], set()
    while left:
        part, depth = left.pop()
        found, above = every[part], part in seen
        told = found["name"] + (" was told to stop" if part.startswith("stop ") else "") + " (above)"
        lines.append("  " * depth + (told if above else found["text"]))
        seen.add(part)
        left += [] if above else [(words_of(cause), depth + 1) for cause in reversed(found["because"])]
    return lines


@NEEDS_PROGRAM
class Objects(unittest.TestCase):
    def test_each_line_has_its_object(self) -> None:
        """With the text of the line, its depth, and whether it is above."""
        self.assertGreaterEqual(len(RECORDS), 15)
        for record in RECORDS:
            with self.subTest(record.name):
                found = objects(record)
                self.assertEqual(["  " * one["depth"] + one["text"] for one in found], why(record))
                for one in found:
                    self.assertEqual((list(one), one["version"]), (KEYS, 1))
                    self.assertTrue(one["text"].startswith(one["name"]))
                    self.assertEqual(one["above"], one["text"].endswith(" (above)"))
                    place = f" line {one['line']}" if one["line"] is not None and not one["above"] else ""
                    self.assertIn(place, one["text"])

    def test_each_part_has_its_object(self) -> None:
        """All runs, jobs, legs and steps of the plan, in order; they make the tree of any part."""
        for record in RECORDS:
            with self.subTest(record.name):
                runs = json.loads(record.read_bytes().split(b"\n", 1)[0])["runs"]
                jobs = [job for run in runs for job in run["jobs"]]
                legs = [job for job in jobs for _ in job["legs"]]
                wanted = [f"run {at}" for at, _ in enumerate(runs)]
                wanted += [f"job {at}" for at, _ in enumerate(jobs)]
                for at, job in enumerate(legs):
                    wanted += [f"leg {at}", *(f"step {at} {step}" for step, _ in enumerate(job["steps"]))]
                found = objects(record, "--each")
                every = {words_of(one["part"]): one for one in found}
                self.assertEqual([words for words in every if not words.startswith("stop ")], wanted)
                self.assertEqual(len(found), len(every))
                for words in wanted:
                    self.assertEqual(tree(every, words), asked(record, words))

    def test_each_part_makes_the_tree_of_all(self) -> None:
        """Of what did not succeed."""
        for record in RECORDS:
            with self.subTest(record.name):
                data = record.read_bytes()
                plan = json.loads(data.split(b"\n", 1)[0])
                lines = data.splitlines(keepends=True)
                for last in (len(lines) // 2, len(lines)):
                    part = b"".join(lines[:last])
                    wanted = reasons.asked(PROGRAM, part, [])
                    self.assertEqual(list(reasons.unsuccessful(reasons.parts_of(PROGRAM, part), plan)), wanted)

    def test_states_and_facts(self) -> None:
        """Of the examples, by what GUIDE says of them."""
        newer, older = ({"kind": "run", "run": number} for number in (2, 0))
        told = {"by": {"kind": "run", "run": 1}, "kind": "newer"}
        failed_fast = {"cause": {"kind": "fail-fast", "leg": 0}, "kind": "stopped"}
        for name, words, state, line, fact in (
                ("skipped", "run 0", "failure", 10, {"kind": "closed"}),
                ("skipped", "job 0", "failure", None, {"kind": "legs-ended"}),
                ("skipped", "job 1", "skipped", 9, {"kind": "unsuccessful"}),
                ("skipped", "leg 0", "failure", 8, {"kind": "finished"}),
                ("skipped", "leg 1", "skipped", None, None),
                ("skipped", "step 0 0", "failure", 7, {"code": 1, "kind": "exited"}),
                ("skipped", "step 1 0", "skipped", None, None),
                ("displaced", "run 1", "cancelled", 4, {"by": newer, "kind": "displaced"}),
                ("displaced", "run 2", "in_progress", 11, {"after": older, "kind": "follows"}),
                ("displaced", "job 1", "cancelled", None, None),
                ("displaced", "step 1 0", "skipped", None, None),
                ("condition-untrue", "step 0 1", "skipped", 8, {"kind": "untrue"}),
                ("own-group", "leg 0", "cancelled", 4, {"kind": "own-run"}),
                ("group-faulted", "run 1", "failure", 3, {"error": "BadJson", "kind": "no-group"}),
                ("group-faulted", "leg 1", "cancelled", 6, failed_fast),
                ("cancel-in-progress", "stop run 0", None, 7, told)):
            with self.subTest(f"{name} {words}"):
                every = {words_of(one["part"]): one for one in objects(EXAMPLES / f"{name}.record", "--each")}
                one = every[words]
                self.assertEqual((one["state"], one["line"], one["fact"]), (state, line, fact))
        found = objects(EXAMPLES / "nightly.record", "--each")
        soak = next(one for one in found if one["part"] == {"kind": "leg", "leg": 3})
        self.assertEqual((soak["state"], soak["tolerated"]), ("failure", True))
