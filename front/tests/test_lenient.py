"""What --lenient lets pass is shown as skipped, and counted."""
from __future__ import annotations

from .try_case import NEEDS_PROGRAM, WORKFLOW, TryCase


@NEEDS_PROGRAM
class Lenient(TryCase):
    """Actions that have no stub."""

    def test_a_skipped_step_has_no_sign_of_success(self) -> None:
        self.workflow("- uses: a/b@v1\n- uses: c/d@v2\n  if: matrix.v == 1\n- run: echo executed",
                      WORKFLOW.replace(
            "    steps:\n", "    strategy: {matrix: {v: [1, 2]}}\n    steps:\n"))
        done = self.attempt("--lenient")
        self.assert_status(done, 0)
        for line in ("one (1): a/b@v1", "one (2): a/b@v1", "one (1): c/d@v2"):
            self.assertRegex(done.stderr,
                             rf"(?m)^- {line.replace('(', chr(92) + '(').replace(')', chr(92) + ')')}, \S+ s$")
        self.assertRegex(done.stderr, r"(?m)^\u2713 one \(1\): echo executed, \S+ s$")
        self.assertIn("\n  --lenient skipped 3 steps: a/b@v1 (2 times), c/d@v2\n", done.stdout)

    def test_nothing_is_said_where_nothing_was_skipped(self) -> None:
        self.workflow("- run: echo executed\n- uses: a/b@v1\n  if: false")
        done = self.attempt("--lenient")
        self.assert_status(done, 0)
        self.assertNotIn("--lenient", done.stdout)
