"""Filters of events: `try` executes what GitHub would start, and says how to execute the rest."""
from __future__ import annotations

from .try_case import NEEDS_PROGRAM, WORKFLOW, TryCase


@NEEDS_PROGRAM
class Filters(TryCase):
    """Workflows whose filters do not match."""

    def setUp(self) -> None:
        super().setUp()
        self.workflow("- run: echo from main",
                      WORKFLOW.replace("on: push", "on: {push: {branches: [main]}, pull_request: {}}"))

    def test_a_named_event(self) -> None:
        self.workflow("- run: echo from any", name="any.yml")
        self.commit("feature")
        for words in (("push",), ()):
            done = self.attempt(*words)
            self.assert_status(done, 0)
            self.assertIn("from any\n", done.stdout)
            self.assertNotIn("from main", done.stdout)
            self.assertIn("note: .github/workflows/ci.yml: its filter keeps it from this push (branches: "
                          "['main']), so it is not executed; "
                          "all the same: actrun try push -W .github/workflows/ci.yml\n", done.stderr)

    def test_a_file_or_a_job_that_is_named_is_meant(self) -> None:
        self.commit("feature")
        for words in (("push", "-W", ".github/workflows/ci.yml"), ("-W", ".github/workflows/ci.yml"),
                      ("push", "-j", "one")):
            done = self.attempt(*words)
            self.assert_status(done, 0)
            self.assertIn("from main\n", done.stdout)
            self.assertIn("note: .github/workflows/ci.yml: on GitHub its filter would keep it from this "
                          "event (branches: ['main'])\n", done.stderr)
        self.assertNotIn("from main", self.attempt("push", "-W", ".github/workflows").stdout)

    def test_a_named_event_that_starts_nothing(self) -> None:
        self.commit("feature")
        for more in ((), ("-n",)):
            done = self.attempt("push", *more)
            self.assert_status(done, 0)
            self.assertEqual(done.stdout, "no workflow starts for this push: nothing is executed\n")
            self.assertIn("-W .github/workflows/ci.yml\n", done.stderr)
        self.assertEqual(list((self.home / ".cache" / "actrun" / "work").iterdir()), [])

    def test_a_message_by_which_github_starts_nothing(self) -> None:
        self.workflow("- run: 'true'")
        self.commit()
        for message in ("docs [skip ci]", "a\n\nb\n\n\nskip-checks: true"):
            self.git("commit", "-q", "--allow-empty", "-m", message)
            self.assertRegex(self.attempt("-n").stderr, r"note: the message of the last commit has `(\[skip ci\]|skip-checks: true)`, "
                                                        "by which GitHub starts no workflow for this push\n")
        self.git("commit", "-q", "--allow-empty", "-m", "skip ci")
        self.assertNotIn("starts no workflow", self.attempt("-n").stderr)

    def test_without_an_event_what_there_is_is_offered(self) -> None:
        self.workflow("- run: 'true'", WORKFLOW.replace("push", "[workflow_dispatch, pull_request]"),
                      "other.yml")
        self.commit("feature")
        done = self.attempt()
        self.assert_status(done, 2)
        offered = ("  actrun try pull_request       .github/workflows/ci.yml, .github/workflows/other.yml\n"
                   "  actrun try workflow_dispatch  .github/workflows/other.yml\n")
        self.assertEqual(done.stderr, "actrun: no workflow starts:\n  .github/workflows/ci.yml: its filter "
                                      "keeps it from this push (branches: "
                         "['main']), so it is not executed; all the same: actrun try push -W "
                         ".github/workflows/ci.yml\n" + offered)
        (self.project / ".github/workflows/ci.yml").unlink()
        done = self.attempt()
        self.assert_status(done, 2)
        self.assertEqual(done.stderr, "actrun: no workflow is for the event push, which is executed if none "
                                      "is named; there are:\n"
                         + offered.replace(".github/workflows/ci.yml, ", ""))
        self.assertEqual(done.stdout, "")

    def test_types_paths_and_tags(self) -> None:
        self.workflow("- run: echo types", WORKFLOW.replace("push", "{pull_request: {types: [labeled]}}"),
                      "types.yml")
        self.workflow("- run: echo paths", WORKFLOW.replace("push", "{pull_request: {paths: ['docs/**']}}"),
                      "paths.yml")
        self.workflow("- run: echo docs", WORKFLOW.replace("push",
                                                           "{pull_request: {paths-ignore: ['*.md']}}"),
                                                           "ignored.yml")
        self.commit()
        self.git("checkout", "-q", "-b", "feature")
        self.write("docs/page.txt", "")
        done = self.attempt("pull_request")
        self.assert_status(done, 0)
        for line in ("from main\n", "paths\n", "docs\n"):
            self.assertIn(line, done.stdout)
        self.assertNotIn("\ntypes\n", done.stdout)
        self.assertIn("types.yml: its filter keeps it from this pull_request (types: ['labeled'])",
                      done.stderr)
