"""Outputs beyond the program's limits: the message names the limit and the size."""
from __future__ import annotations

import os
import re
import tempfile
import unittest
from pathlib import Path

from actrun_front.output_limits import detail
from .try_case import NEEDS_PROGRAM, TryCase, sandbox_works

MANY = "its file of outputs is refused: TooMany, it has more"


class Details(unittest.TestCase):
    """What is found in the file."""

    def setUp(self) -> None:
        room = tempfile.TemporaryDirectory(prefix="actrun limits ")
        self.addCleanup(room.cleanup)
        self.folder = Path(room.name)

    def found(self, data: bytes, reason: str = MANY) -> str:
        """The detail of a file of outputs."""
        (self.folder / "step-0-1.out").write_bytes(data)
        return detail(self.folder, 0, 1, reason)

    def test_sizes_and_names(self) -> None:
        self.assertEqual(self.found(b"a=1\nbig=" + b"x" * 70000 + b"\n"),
                         ": the value of big has 70,000 bytes, and actrun takes at most 65,536, GitHub "
                         "1,048,576")
        self.assertEqual(self.found(b"big<<E\n" + b"y\n" * 40000 + b"E\n"),
                         ": the value of big has 79,999 bytes, and actrun takes at most 65,536, GitHub "
                         "1,048,576")
        self.assertEqual(self.found(b"".join(b"n%d=1\n" % at for at in range(300))),
                         ": it has 300 names, and actrun takes at most 256")
        self.assertTrue(self.found(b"n" * 300 + b"=1").endswith("nnn...` has 300 bytes, and actrun takes at "
                                                                "most 256"))
        self.assertEqual(self.found(b"a=1\nnothing\n", "its file of outputs is refused: NoName, a line"),
                         ": the line `nothing` has no `=`")
        self.assertEqual(self.found(b"a.b=1\n", "its file of outputs is refused: NoName, a line"),
                         ": the name `a.b` has other signs than letters, "
                         "digits, _ and -, which GitHub takes and actrun does not")

    def test_what_is_no_file(self) -> None:
        path = self.folder / "step-0-1.out"
        self.assertEqual(detail(None, 0, 1, MANY), "")
        self.assertEqual(detail(self.folder, 0, 1, MANY), "")
        os.mkfifo(path)
        self.assertEqual(detail(self.folder, 0, 1, MANY), "")
        path.unlink()
        path.symlink_to("/etc/passwd")
        self.assertEqual(detail(self.folder, 0, 1, MANY), "")
        path.unlink()
        self.assertEqual(self.found(b"\xff\n=\n", "its file of outputs is refused: NotUtf8"), "")


@NEEDS_PROGRAM
class Tried(TryCase):
    """In an execution."""

    def test_a_large_output(self) -> None:
        self.workflow("- run: printf 'v=%0100000d\\n' 5 >> \"$GITHUB_OUTPUT\"\n  continue-on-error: true")
        done = self.attempt()
        self.assert_status(done, 0)
        self.assertIn(": the value of v has 100,000 bytes, and actrun takes at most 65,536, GitHub "
                      "1,048,576, ", done.stderr)

    def test_names_with_other_signs(self) -> None:
        self.workflow("""- id: s
  run: |
    { echo a.b=1; echo 'x/y z<<E.F'; echo c.d=no; echo E.F; echo 'ä=ö'; echo plain_1-x=2; } >> "$GITHUB_OUTPUT"
- run: echo "${{ steps.s.outputs['a.b'] }} ${{ STEPS['S'].Outputs['X/Y z'] }} ${{ steps.s.outputs['ä'] }} ${{ steps.s.outputs.plain_1-x }}"
- if: steps.s.outputs['a.b'] == 1
  run: echo seen
- run: rm "$GITHUB_OUTPUT"
  continue-on-error: true
""")
        for more in ((), ("--no-sandbox",)):
            done = self.attempt(*more)
            self.assert_status(done, 0)
            self.assertIn("\n1 c.d=no ö 2\n", done.stdout)
            self.assertIn("\nseen\n", done.stdout)

    def test_an_output_that_the_last_leg_leaves_empty(self) -> None:
        self.write(".github/workflows/ci.yml", """\
on: push
jobs:
  one:
    runs-on: ubuntu-latest
    outputs: {a: "${{ steps.s.outputs.a }}", b: "${{ steps.s.outputs.b }}", c: "${{ steps.s.outputs.c }}"}
    strategy: {max-parallel: 1, matrix: {name: [a, b]}}
    steps: [{id: s, run: "echo ${{ matrix.name }}=x >> $GITHUB_OUTPUT"}]
  two:
    needs: one
    runs-on: ubuntu-latest
    steps: [{run: "echo [${{ needs.one.outputs.a }}] [${{ needs.one.outputs.b }}]"}]
""")
        done = self.attempt()
        self.assert_status(done, 0)
        self.assertIn("\n[x] [x]\n" if sandbox_works() else "\n[] [x]\n", self.printed(done))
        self.assertNotIn("actrun_outputs", done.stdout + done.stderr)
        done = self.attempt("--no-sandbox")
        self.assertIn("\n[] [x]\n", self.printed(done))
        self.assertEqual(re.findall(r"warning: job one: its last leg left the output (.) empty", done.stderr), ["a"])


if __name__ == "__main__":
    unittest.main()
