"""The workspace of `actrun try`: empty until actions/checkout fills it, as on GitHub."""
from __future__ import annotations

import unittest

from .try_case import NEEDS_PROGRAM, WORKFLOW, TryCase

CHECKOUT = "- uses: actions/checkout@v4\n"


@NEEDS_PROGRAM
class Workspace(TryCase):
    """What steps find before and after actions/checkout."""

    workspace = ()

    def lines(self, *words: str, status: int = 0) -> list[str]:
        """The lines of standard output of a play."""
        done = self.attempt(*words)
        self.assert_status(done, status)
        return done.stdout.splitlines()

    def history(self) -> None:
        """A repository with three commits on main, a tag at the first and the second, and a branch."""
        self.write("file", "1")
        self.commit()
        self.git("tag", "v1")
        self.git("branch", "other")
        for number in "23":
            self.write("file", number)
            self.git("add", "-A")
            self.git("commit", "-q", "-m", f"commit {number}")
            if number == "2":
                self.git("tag", "-a", "v2", "-m", "two")
        self.git("remote", "add", "origin", "git@github.com:octo/hello.git")

    def test_it_is_empty_without_checkout(self) -> None:
        self.write("file", "text")
        self.workflow("- run: echo \"has $(ls -A | wc -l) in $PWD\"; [ \"$PWD\" = \"$GITHUB_WORKSPACE\" ]\n- "
                      "run: cat file")
        self.commit()
        lines = self.lines(status=1)
        self.assertTrue(any(line.startswith("has 0 in /") for line in lines), lines)
        self.assertIn("has 3 in", " ".join(self.lines("--workspace", "full")))

    def test_a_matrix_and_folders_without_git_are_filled_too(self) -> None:
        self.write("sub/file", "text")
        self.workflow("- run: \"[ -z \\\"$(ls -A)\\\" ]\"\n" + CHECKOUT + "- run: cat sub/file; touch left; "
                                                                          "ls | tr '\\n' ' '", WORKFLOW.replace(
            "    steps:\n", "    strategy: {matrix: {v: [1, 2]}}\n    steps:\n"))
        lines = self.lines()
        self.assertEqual(len([line for line in lines if "| textleft sub" in line]), 2, lines)

    def test_branch_head_depth_and_a_clean_tree(self) -> None:
        self.workflow(CHECKOUT + """- run: |
    echo "branch $(git branch --show-current) $(git rev-parse HEAD) $(git log --format=%s | tr '\\n' ';') tags $(git tag | wc -l)"
    echo "remote $(git config remote.origin.url) upstream $(git rev-parse --abbrev-ref @{upstream})"
    echo "push $(git remote get-url --push origin)"
    git status --porcelain
    git cat-file -e HEAD^ || echo no parent
    git fetch -q --unshallow && git log --format=%s | tr '\\n' ';'
    git fetch -q origin other && git log -1 --format=%s FETCH_HEAD
""")
        self.history()
        lines = self.lines()
        at = lines.index(f"branch main {self.git('rev-parse', 'HEAD')} commit 3; tags 0")
        self.assertEqual(lines[at + 1], "remote https://github.com/octo/hello upstream origin/main")
        self.assertEqual(lines[at + 2], "push https://github.com/octo/hello")
        self.assertIn("no parent", lines)
        self.assertTrue(any(line.startswith("commit 3;commit 2;first: all;") for line in lines), lines)

    def test_depth_tags_and_the_whole_history(self) -> None:
        say = "; git log --format=%s | tr '\\n' ';'; echo \" tags $(git tag | tr '\\n' ' ')heads $(git branch -r | tr -d '\\n')\"\n"
        self.workflow("".join(f"- uses: actions/checkout@v4\n  with: {{{words}, path: {at}}}\n- run: cd "
                              f"{at}{say}" for at, words in (
            ("a", "fetch-depth: 2"), ("b", "fetch-depth: 0"), ("c", "fetch-tags: true"))))
        self.history()
        lines = self.lines()
        self.assertIn("commit 3;commit 2; tags heads   origin/main", lines)
        self.assertIn("commit 3;commit 2;first: all; tags v1 v2 heads   origin/main  origin/other", lines)
        self.assertIn("commit 3; tags v1 v2 heads   origin/main", lines)

    def test_a_shallow_clone(self) -> None:
        self.workflow("- uses: actions/checkout@v4\n  with: {fetch-depth: 0}\n- run: git log --format=%s; "
                      "git status --porcelain; git fsck\n"
                      "- uses: actions/checkout@v4\n  with: {path: one}\n- run: cd one; git log "
                      "--format=one:%s")
        self.history()
        self.project.rename(self.home / "far")
        self.git("clone", "-q", "--depth", "1", f"file://{self.home}/far", str(self.project),
                 folder=self.home)
        lines = self.lines()
        self.assertIn("warning: the local repository is shallow, so its history is incomplete: git "
                      "fetch --unshallow", lines)
        self.assertIn("commit 3", lines)
        self.assertIn("one:commit 3", lines)
        self.assertNotIn("error", " ".join(lines))

    def test_other_refs_and_paths(self) -> None:
        refs = {"by-branch": "other", "by-tag": "v2", "by-full-tag": "refs/tags/v1"}
        steps = "".join(f"- uses: actions/checkout@v4\n  id: {at}\n  with: {{ref: {ref}, path: {at}}}\n- "
                        f"run: cd {at}; echo \"{at} "
                        f"$(cat file) on <$(git branch --show-current)> ${{{{ steps.{at}.outputs.ref }}}}\"\n" for at, ref in refs.items())
        self.workflow(steps + "- run: ls | tr '\\n' ' '\n- uses: actions/checkout@v4\n  with: {ref: nowhere}")
        self.history()
        self.write("file", "changed")
        lines = self.lines(status=1)
        for line in ("by-branch 1 on <other> other", "by-tag 2 on <> v2", "by-full-tag 1 on <> refs/tags/v1",
                     "by-branch by-full-tag by-tag ",
                     "error: a branch or tag with the name 'nowhere' could not be found in the local "
                     "repository: "
                     "git fetch it there"):
            self.assertIn(line, lines)

    def test_a_commit_and_a_request(self) -> None:
        self.history()
        self.workflow(f"- uses: actions/checkout@v4\n  with: {{ref: {self.git('rev-parse', 'v2^{commit}')}, "
                      f"path: old}}\n- run: cat old/file\n"
                      + CHECKOUT + "- run: echo \"<$(git branch --show-current)> $(git rev-parse "
                                   "--abbrev-ref refs/remotes/pull/1/merge) "
                      "$(ls | tr '\\n' ' ')\"", WORKFLOW.replace("on: push", "on: pull_request"))
        self.git("checkout", "-q", "-b", "feature")
        lines = self.lines("pull_request")
        self.assertIn("2", lines)
        self.assertIn("<> pull/1/merge file ", lines)
        self.workflow("- uses: actions/checkout@v4\n  with: {ref: 'refs/pull/${{ github.event.number "
                      "}}/head'}\n- run: cat file",
                      WORKFLOW.replace("on: push", "on: pull_request"))
        self.assertIn("3", self.lines("pull_request"))

    def test_files_that_are_not_committed_come_too(self) -> None:
        self.workflow("- run: touch before\n" + CHECKOUT + "- run: git status --porcelain; cat new 'odd "
                                                           "name' dir/inside; ls -A | tr '\\n' ' '; readlink "
                                                           "link")
        for name in ("changed", "removed", "dir", "sub/removed"):
            self.write(name, "old")
        self.write(".gitignore", "ignored\n")
        self.commit()
        for name in ("removed", "dir", "sub/removed"):
            (self.project / name).unlink()
        for name in ("changed", "new", "odd name", "dir/inside", "ignored"):
            self.write(name, f"{name}\n")
        (self.project / "link").symlink_to("new")
        self.git("add", "new")
        lines = self.lines()
        self.assertIn("with the changes of the working tree that are not committed: 8 files", lines)
        at = lines.index("--- one: git status --porcelain; cat new 'odd name' dir/inside; ls -A | tr '\\n' ' "
                         "'; readlink link")
        self.assertEqual(sorted(lines[at + 1:at + 8]), [" D dir", " D removed", " D sub/removed",
                                                        " M changed", '?? "odd name"', "?? link",
                                                        "?? new"])
        self.assertEqual(lines[at + 8:at + 12], ["new", "odd name", "dir/inside",
                                                 ".git .github .gitignore changed dir link new odd name new"])

    def test_a_second_checkout_cleans_unless_it_is_told_not_to(self) -> None:
        clean = "- uses: actions/checkout@v4\n  with: {clean: false}\n"
        self.workflow(CHECKOUT + "- run: touch made\n" + clean + "- run: ls made\n" + CHECKOUT + "- run: ls -A | tr '\\n' ' '")
        self.write("file", "")
        self.commit()
        lines = self.lines()
        self.assertIn("made", lines)
        self.assertIn(".git .github file ", lines)

    def test_sparse_and_submodules(self) -> None:
        other = self.home / "other"
        other.mkdir()
        (other / "inside").write_text("deep\n", encoding="utf-8")
        self.git("init", "-q", folder=other)
        self.git("add", "-A", folder=other)
        self.git("commit", "-q", "-m", "other", folder=other)
        self.workflow(CHECKOUT + "- run: '[ ! -e module/inside ] && git status --porcelain'\n- uses: "
                                 "actions/checkout@v4\n"
                      "  with: {submodules: true}\n- run: cat module/inside; git status --porcelain; echo "
                      "end\n- uses: actions/checkout@v4\n"
                      "  with: {path: part, sparse-checkout: a}\n- run: find part -name .git -prune -o -type "
                      "f -print | sort | tr '\\n' ' '")
        for name in ("a/one", "b/two", "three"):
            self.write(name, "")
        self.git("init", "-q", "-b", "main")
        self.git("submodule", "--quiet", "add", str(other), "module")
        self.git("add", "-A")
        self.git("commit", "-q", "-m", "with a module")
        self.write("b/new", "")
        lines = self.lines()
        at = lines.index("deep")
        self.assertEqual(lines[at + 1:at + 3], ["?? b/", "end"] if "?? b/" in lines else ["?? b/new", "end"])
        self.assertIn("part/.gitmodules part/a/one part/three ", lines)

    def test_an_action_of_the_repository_needs_checkout(self) -> None:
        self.write("local/action.yml", "name: it\ndescription: d\nruns:\n  using: composite\n  steps:\n    - "
                                       "run: echo from the action\n      shell: bash\n")
        self.workflow("- uses: ./local\n  continue-on-error: true\n- uses: ./local\n  if: failure()\n- uses: "
                      "./local\n  id: it\n"
                      "  continue-on-error: true\n" + CHECKOUT + "- uses: ./local\n- uses: ./local\n  id: "
                                                                 "again")
        self.commit()
        lines = self.lines()
        self.assertEqual(lines.count("from the action"), 2, lines)
        failed = [line for line in lines if line.startswith("error: Can't find 'action.yml' or 'action.yaml' "
                                                            "under '/")
                  and line.endswith("local'. Did you forget to run actions/checkout before running your "
                                    "local action?")]
        self.assertEqual(len(failed), 2, lines)

    def test_an_action_that_github_cannot_load(self) -> None:
        self.write("local/action.yml", "runs:\n  using: composite\n  steps:\n    - run: echo from the "
                                       "action\n")
        self.workflow(CHECKOUT + "- uses: ./local\n  if: false\n- uses: ./local\n  id: it\n  "
                                 "continue-on-error: true\n"
                      "- run: echo 'it ${{ steps.it.outcome }}'\n- uses: ./local\n- run: echo unseen")
        self.commit()
        lines = self.lines(status=1)
        self.assertIn("it failure", lines)
        text = "./local/action.yml (line 4): a step with `run` in an action needs `shell`: write shell: bash"
        self.assertEqual(lines.count(f"error: {text.removeprefix('./')}"), 2, lines)
        self.assertFalse({"from the action", "unseen"} & set(lines), lines)

    def test_another_repository(self) -> None:
        self.write("vendor/lib/file", "theirs\n")
        self.workflow("- uses: actions/checkout@v4\n  with: {repository: who/lib, path: vendor/lib}\n- run: "
                      "cat vendor/lib/file\n"
                      "- uses: actions/checkout@v4\n  with: {repository: who/else}")
        self.commit()
        lines = self.lines(status=1)
        self.assertIn("theirs", lines)
        self.assertTrue(any(line.startswith("error: checkout brings no files of the repository who/else: ") for line in lines), lines)

    def test_no_commit_and_a_path_outside(self) -> None:
        self.workflow(CHECKOUT + "- run: cat file\n- uses: actions/checkout@v4\n  with: {path: ../x}")
        self.write("file", "not committed\n")
        self.git("init", "-q", "-b", "trunk")
        lines = self.lines(status=1)
        self.assertIn("not committed", lines)
        self.assertIn("error: the path ../x is not below the workspace", lines)

    def test_what_the_repository_configures_is_not_started(self) -> None:
        """A hook, a file monitor and a filter of the repository or of the user would leave a file."""
        planted = self.home / "planted"
        self.write(".gitattributes", "* filter=evil\n")
        self.write("file", "text\n")
        self.workflow(CHECKOUT + "- run: cat file")
        self.commit()
        evil = self.write("../evil", f"#!/bin/sh\ntouch {planted}\ncat\n", 0o755)
        for place in (self.project / ".git" / "hooks" / name for name in ("post-checkout", "reference-transaction", "post-index-change")):
            place.parent.mkdir(exist_ok=True)
            place.write_text(evil.read_text(encoding="utf-8"), encoding="utf-8")
            place.chmod(0o755)
        for name in ("core.fsmonitor", "filter.evil.smudge", "filter.evil.process",
                     "uploadpack.packObjectsHook", "remote.origin.uploadpack"):
            self.git("config", name, str(evil))
        self.assertIn("text", self.lines("--no-sandbox"))
        self.assertFalse(planted.exists())

    def test_refs_that_lead_elsewhere_are_neither_written_nor_removed(self) -> None:
        self.workflow(CHECKOUT + "- run: git log --format=%s")
        self.history()
        outside = self.home / "outside"
        outside.mkdir()
        (outside / "mine").write_text(self.git("rev-parse", "HEAD") + "\n", encoding="utf-8")
        for name in ("refs/heads/more", "refs/remotes"):
            (self.project / ".git" / name).symlink_to(outside)
        self.assertIn("commit 3", self.lines("--no-sandbox"))
        self.assertEqual([path.name for path in outside.iterdir()], ["mine"])

    def test_in_place_has_the_tree(self) -> None:
        self.workflow("- run: ls -A | tr '\\n' ' '\n" + CHECKOUT)
        self.commit()
        self.assertIn(".git .github ", self.lines("--in-place"))
        done = self.attempt("--in-place", "--workspace", "checkout")
        self.assert_status(done, 2)
        self.assertIn("--workspace checkout: with --in-place the workspace is the working tree", done.stderr)


if __name__ == "__main__":
    unittest.main()
