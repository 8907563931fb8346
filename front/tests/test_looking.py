"""Looking at a repository executes nothing of it and reads nothing outside of it, whatever its configuration,
its options and its links say.

Each attack would touch a canary.
"""
from __future__ import annotations

import os
import resource
import shutil
import subprocess
import time
import unittest
from pathlib import Path

from actrun_front import Problem, options, repository
from actrun_front.contexts import matches
from actrun_front.expressions import PIECE
from actrun_front.hash_files import digest
from actrun_front.yaml_reader import MOST_PLACES, read_document
from stubs.globs import Pattern

from .try_case import FRONT, NEEDS_PROGRAM, WORKFLOW, TryCase, sandbox_works

LOOKS = (("-l",), ("-n",), ("-g",))


@NEEDS_PROGRAM
@unittest.skipUnless(shutil.which("git") and sandbox_works(),
                     "git or bwrap is not installed or does not work here")
class Git(TryCase):
    """The configuration of a clone."""

    def setUp(self) -> None:
        super().setUp()
        self.canary = self.home / "canary"
        self.attack = self.home / "attack"
        self.attack.write_text(f"#!/bin/sh\necho \"$0 $*\" >> '{self.canary}'\nexit 1\n", encoding="utf-8")
        self.attack.chmod(0o755)
        self.workflow("- run: echo ${{ hashFiles('**/*.txt') }}\n- uses: ./act\n",
                      WORKFLOW.replace("on: push", "on: {push: {paths: ['**']}}"))
        self.write("act/action.yml", "runs: {using: composite, steps: [{run: echo in, shell: bash}]}\n")
        self.write("a.txt", "a\n")
        self.commit()

    def look(self, *more: str) -> None:
        """All ways to look; the canary is as it was."""
        for words in (*LOOKS, *([more] if more else [])):
            self.attempt(*words)
            self.assertFalse(self.canary.exists(), f"{words}: the repository executed something")
        name = ".github/workflows/ci.yml"
        subprocess.run([*self.command()[:2], "from-yaml", "--lower", "-o", "-", name], cwd=self.project,
                       env=self.environment,
                       capture_output=True, check=False, timeout=60)
        self.assertFalse(self.canary.exists(), "from-yaml executed something")

    def live(self, *words: str) -> None:
        """The attack works where git is started plainly."""
        subprocess.run(["git", *words], cwd=self.project, env=self.environment, capture_output=True,
                       check=False, timeout=60)
        self.assertTrue(self.canary.exists(), f"the attack by git {words} is none")
        self.canary.unlink()

    def config(self, *pairs: str) -> None:
        """Writes settings of the clone."""
        for pair in pairs:
            self.git("config", *pair.split("=", 1))

    def test_monitor_hooks_and_pager(self) -> None:
        for name in ("post-index-change", "post-checkout", "reference-transaction", "fsmonitor-watchman",
                     "query-watchman"):
            shutil.copy2(self.attack, self.project / ".git" / "hooks" / name)
        self.config(*(f"{name}={self.attack}" for name in (
            "core.fsmonitor", "core.pager", "core.sshCommand", "core.gitProxy", "core.askPass",
                                                           "core.editor", "diff.external", "gpg.program",
            "credential.helper", "core.alternateRefsCommand", "uploadpack.packObjectsHook", "pager.log",
                                                           "pager.diff", "pager.config",
            "interactive.diffFilter", "sequence.editor", "alias.ls-files", "alias.log", "trailer.x.command")),
            "log.showSignature=true", f"core.hooksPath={self.home}", "core.untrackedCache=true",
                    "core.splitIndex=true")
        shutil.copy2(self.attack, self.home / "post-index-change")
        self.live("status")
        self.look()

    def test_filters_and_drivers(self) -> None:
        self.config(*(f"{name}={self.attack}" for name in (
            "filter.x.clean", "filter.x.smudge", "diff.x.command", "diff.x.textconv", "merge.x.driver")),
                    "filter.x.required=true")
        self.git("config", "filter.y = z.clean", str(self.attack))
        self.git("config", "filter.y = z.process", str(self.attack))
        self.write(".gitattributes", "* filter=x diff=x merge=x\n")
        self.write(".git/info/attributes", "* filter=x diff=x\n")
        time.sleep(0.01)
        for name in ("a.txt", "b.txt", "c.md"):
            self.write(name, "changed\n")
        self.live("status")
        self.write(".gitattributes", '* "filter=y = z"\n')
        self.look("-n", "pull_request")

    def test_submodule_with_a_filter(self) -> None:
        lib = self.home / "lib"
        lib.mkdir()
        (lib / "file").write_text("x", encoding="utf-8")
        for words in (("init", "-q"), ("add", "-A"), ("commit", "-q", "-m", "lib")):
            self.git(*words, folder=lib)
        self.git("submodule", "--quiet", "add", str(lib), "lib")
        self.git("commit", "-q", "-m", "module")
        inner = self.project / "lib"
        for name in ("clean", "smudge", "process"):
            self.git("config", f"filter.inner.{name}", str(self.attack), folder=inner)
        self.git("config", "core.fsmonitor", str(self.attack), folder=inner)
        (inner / ".gitattributes").write_text("* filter=inner\n", encoding="utf-8")
        (inner / "file").write_text("y", encoding="utf-8")
        self.config("diff.ignoreSubmodules=none", "submodule.lib.ignore=none", "submodule.recurse=true")
        self.live("diff", "HEAD")
        self.look("-n", "pull_request")
        self.attempt("--offline")
        self.assertFalse(self.canary.exists())

    def test_promisor(self) -> None:
        self.config("extensions.partialClone=evil", "core.repositoryFormatVersion=1",
                    "remote.evil.promisor=true", f"remote.evil.url={self.project}",
                    f"remote.evil.uploadpack={self.attack}", "protocol.file.allow=always",
                    "protocol.ext.allow=always",
                    "remote.ext.promisor=true", f"remote.ext.url=ext::{self.attack}")
        for folder in (self.project / ".git" / "objects").glob("??"):
            if self.git("rev-parse", "HEAD")[:2] != folder.name:
                shutil.rmtree(folder)
        self.live("log", "--name-only")
        self.look("-n", "pull_request")

    def test_bare_repository_within(self) -> None:
        inner = self.project / "inner"
        self.git("init", "-q", "--bare", str(inner))
        with open(inner / "config", "a", encoding="utf-8") as file:
            file.write(f"[core]\n\tfsmonitor = {self.attack}\n\tworktree = {self.home}\n\tbare = false\n")
        (inner / "index").write_bytes((self.project / ".git" / "index").read_bytes())
        for words in LOOKS:
            done = self.attempt(*words, folder=inner)
            self.assertFalse(self.canary.exists())
            self.assert_status(done, 0)

    def test_work_tree_elsewhere(self) -> None:
        (self.home / "letter.txt").write_text("canary of home\n", encoding="utf-8")
        self.config(f"core.worktree={self.home}")
        self.assertEqual(repository.find_top(self.project), self.project)
        done = self.attempt("-n")
        self.assert_status(done, 0)
        self.attempt()
        for path in (self.home / ".cache").rglob("letter.txt"):
            self.fail(f"{path} was copied")

    def other(self) -> Path:
        """A repository of the user that the clone must not bring to steps."""
        other = self.home / "other"
        other.mkdir()
        (other / "secret.txt").write_text("canary of other\n", encoding="utf-8")
        self.git("init", "-q", folder=other)
        self.git("add", "-A", folder=other)
        self.git("commit", "-q", "-m", "canary of other", folder=other)
        return other / ".git"

    def refused(self, *more: str) -> None:
        """The clone is refused with a remedy, unless the place is named."""
        for words in (("-n",), ()):
            done = self.attempt(*words)
            self.assert_status(done, 2)
            self.assertIn("--bind", done.stderr)
            self.assertNotIn("canary of other", done.stdout + done.stderr)
        if more:
            self.assert_status(self.attempt("-n", *more), 0)

    def test_repository_of_somebody_else(self) -> None:
        other = self.other()
        git = self.project / ".git"
        git.rename(self.home / "kept")
        git.write_text(f"gitdir: {other}\n", encoding="utf-8")
        self.refused("--bind", str(other))
        git.unlink()
        git.symlink_to(other)
        self.refused("--bind", str(other))
        git.unlink()
        (self.home / "kept").rename(git)
        (git / "commondir").write_text(f"{other}\n", encoding="utf-8")
        self.refused()

    def test_links_within_git(self) -> None:
        other, git = self.other(), self.project / ".git"
        for name in ("objects", "packed-refs", "objects/pack"):
            place = git / name
            kept = self.home / "kept"
            if place.exists():
                place.rename(kept)
            place.symlink_to(other / name)
            if name == "packed-refs":
                (other / name).write_text("", encoding="utf-8")
            self.refused("--bind", str(other), *(["--bind", str(self.project)] if name == "objects" else []))
            place.unlink()
            if kept.exists():
                kept.rename(place)

    def test_a_tracked_file_that_is_a_pipe_now(self) -> None:
        (self.project / "a.txt").unlink()
        os.mkfifo(self.project / "a.txt")
        done = self.attempt()
        self.assertIn("note: not copied: a.txt is no plain file", done.stderr)
        self.assert_status(done, 0)

    def test_alternates(self) -> None:
        other = self.other()
        place = self.project / ".git" / "objects" / "info" / "alternates"
        place.write_text(f"{other / 'objects'}\n", encoding="utf-8")
        for words in (("-n",), ()):
            done = self.attempt(*words)
            self.assert_status(done, 2)
            self.assertIn(f"--bind {other / 'objects'}", done.stderr)
        self.assert_status(self.attempt("--bind", str(other / "objects")), 0)
        inner = self.project / "inner"
        shutil.copytree(other / "objects", inner)
        place.write_text("../../inner\n", encoding="utf-8")
        self.assert_status(self.attempt(), 0)
        (self.home / "letter").write_text("canary of home\n", encoding="utf-8")
        place.unlink()
        place.symlink_to(self.home / "letter")
        done = self.attempt("-n")
        self.assert_status(done, 2)
        self.assertNotIn("canary of home", done.stderr)

    def test_linked_trees_and_submodules_are_known(self) -> None:
        linked = self.home / "linked"
        self.git("worktree", "add", "-q", str(linked))
        self.assert_status(self.attempt("-n", folder=linked), 0)
        self.assert_status(self.attempt(folder=linked), 0)
        lib = self.home / "lib"
        lib.mkdir()
        (lib / "file").write_text("x", encoding="utf-8")
        self.git("init", "-q", folder=lib)
        self.git("add", "-A", folder=lib)
        self.git("commit", "-q", "-m", "lib", folder=lib)
        self.git("submodule", "--quiet", "add", str(lib), "lib")
        (self.project / "lib" / ".github" / "workflows").mkdir(parents=True)
        shutil.copy2(self.project / ".github/workflows/ci.yml", self.project / "lib/.github/workflows/ci.yml")
        self.assert_status(self.attempt("-n", folder=self.project / "lib"), 0)
        self.assert_status(self.attempt(), 0)

    def test_a_pipe_as_included_file_ends(self) -> None:
        os.mkfifo(self.home / "pipe")
        self.config(f"include.path={self.home}/pipe")
        old, repository.PATIENCE = repository.PATIENCE, 2
        try:
            with self.assertRaisesRegex(Problem, "did not answer"):
                repository.find_top(self.project)
        finally:
            repository.PATIENCE = old

    def test_programs_of_the_repository_are_not_started(self) -> None:
        (self.project / "bin").mkdir()
        for name in ("git", "cp", "xargs", "chmod", "rm", "bwrap", "unshare", "bash", "sh", "env",
                     "python3", "ldd", "slirp4netns"):
            shutil.copy2(self.attack, self.project / name)
            shutil.copy2(self.attack, self.project / "bin" / name)
        self.environment["PATH"] = f"{self.project}/bin:bin:.::{self.environment['PATH']}"
        self.look()
        self.attempt("--offline")
        self.assertFalse(self.canary.exists(), self.canary.exists()
                         and self.canary.read_text(encoding="utf-8"))
        (self.project / "inner").mkdir()
        self.environment["PATH"] = f"..:../bin:{self.environment['PATH']}"
        self.attempt("-n", folder=self.project / "inner")
        self.assertFalse(self.canary.exists())


@NEEDS_PROGRAM
class Links(TryCase):
    """Links in a clone."""

    def setUp(self) -> None:
        super().setUp()
        self.outside = self.home / "outside"
        self.outside.mkdir()
        (self.outside / "ci.yml").write_text(WORKFLOW + "      - run: echo canary-of-outside\n",
                                             encoding="utf-8")
        self.workflow("- run: 'true'")

    def test_workflows_elsewhere(self) -> None:
        place = self.project / ".github" / "workflows"
        (place / "other.yml").symlink_to(self.outside / "ci.yml")
        (place / "zero.yml").symlink_to("/dev/zero")
        done = self.attempt("-n")
        self.assert_status(done, 2)
        self.assertIn("outside of", done.stderr)
        self.assertNotIn("canary-of-outside", done.stdout)
        for name in ("workflows", "../.github"):
            link = place.parent / name if name == "workflows" else place.parent
            shutil.rmtree(link)
            link.symlink_to(self.outside if name == "workflows" else self.home / "hub")
            (self.home / "hub").mkdir(exist_ok=True)
            if not (self.home / "hub" / "workflows").exists():
                (self.home / "hub" / "workflows").symlink_to(self.outside)
            for words in LOOKS:
                done = self.attempt(*words)
                self.assert_status(done, 2)
                self.assertNotIn("canary-of-outside", done.stdout)
            link.unlink()
            place.mkdir(parents=True, exist_ok=True)
        self.assert_status(self.attempt("-n", "-W", str(self.outside)), 0)

    def test_actions_and_called_workflows_elsewhere(self) -> None:
        (self.outside / "action.yml").write_text("runs: {using: composite, steps: [{run: echo canary-of-outside, shell: bash}]}\n", encoding="utf-8")
        (self.project / "act").symlink_to(self.outside)
        (self.project / ".github" / "called.yml").symlink_to(self.outside / "ci.yml")
        self.workflow("- uses: ./act")
        done = self.attempt("-n")
        self.assertNotIn("canary-of-outside", done.stdout + done.stderr)
        self.write(".github/workflows/ci.yml", "on: push\njobs:\n  one:\n    uses: ./.github/called.yml\n")
        done = self.attempt("-n")
        self.assertNotIn("canary-of-outside", done.stdout + done.stderr)

    def test_actions_that_use_one_another_many_times(self) -> None:
        for at in range(9):
            steps = ", ".join(["{uses: ./a%d}" % (at + 1)] * 8) if at < 8 else "{run: echo, shell: bash}"
            self.write(f"a{at}/action.yml", f"runs: {{using: composite, steps: [{steps}]}}\n")
        self.workflow("- uses: ./a0")
        done = self.attempt("-n")
        self.assert_status(done, 2)
        self.assertRegex(done.stderr, "more than (10000 jobs and|1024) steps")
        for at in range(400):
            self.write(f"a{at}/action.yml", f"runs: {{using: composite, steps: [{{uses: ./a{at + 1}}}]}}\n")
        done = self.attempt("-n")
        self.assert_status(done, 2)
        self.assertIn("nest deeper than 10", done.stderr)

    def test_hash_files_elsewhere(self) -> None:
        self.write("a.txt", "a")
        wanted = digest(["*.txt"], self.project)
        (self.outside / "b").write_text("canary", encoding="utf-8")
        (self.project / "b.txt").symlink_to(self.outside / "b")
        (self.project / "c.txt").symlink_to("/dev/zero")
        os.mkfifo(self.project / "d.txt")
        self.assertEqual(digest(["*.txt"], self.project), wanted)

    def test_option_file_elsewhere(self) -> None:
        (self.outside / "rc").write_text("canary-of-rc\n", encoding="utf-8")
        for target in (self.outside / "rc", Path("/dev/zero")):
            (self.project / ".actrunrc").symlink_to(target)
            done = self.attempt("-l")
            self.assert_status(done, 2)
            self.assertNotIn("canary-of-rc", done.stderr)
            (self.project / ".actrunrc").unlink()
        os.mkfifo(self.project / ".actrunrc")
        self.assert_status(self.attempt("-l"), 2)


class OptionFile(TryCase):
    """What the file of options of a repository may hold."""

    def words(self, text: str) -> list[str]:
        """The words of such a file."""
        return options.repository_words(self.write(".actrunrc", text))

    def test_harmless_options(self) -> None:
        self.write("stub", "#!/bin/sh\n", 0o755)
        text = "# all\n--job one\n-j two\n--env A=b c\n--input=x=y\n--var V=1\n--matrix a.b=[1]\n--lenient\n--any-system\n--workers 2\n--stub a/b=./stub\n"
        self.assertEqual(self.words(text), [
            "--job", "one", "--job", "two", "--env", "A=b c", "--input", "x=y", "--var", "V=1", "--matrix",
                                            "a.b=[1]", "--lenient",
            "--any-system", "--workers", "2", "--stub", "a/b=$GITHUB_WORKSPACE/stub"])

    def test_every_other_is_refused_by_its_line(self) -> None:
        known = {word for action in options.parser()._actions
                 for word in action.option_strings} - set(options.IN_REPOSITORY)
        for word in (*known, "--", "-nl", "--no-sandbo", "--bind=/", "-C.", "-e/x"):
            with self.subTest(word), self.assertRaisesRegex(Problem, r"\.actrunrc:2: "):
                self.words(f"--workers 2\n{word} x\n")
            with self.subTest(word), self.assertRaisesRegex(Problem, r"\.actrunrc:2: "):
                self.words(f"--workers 2\n{word}\n")

    def test_no_option_hides_behind_another(self) -> None:
        for line in ("--lenient push", "--lenient -n", "--any-system --no-sandbox", "--env TOKEN",
                     "--job=a --no-sandbox", "push", "-ja --help",
                     "--env A=\0LD_PRELOAD=/x", "--stub a/b=./a\0/b", "--stub a/b=/bin/sh",
                     "--stub a/b=sh", "--stub a/b=../x", "--stub a/b=/proc/self/exe", "--stub a/b"):
            with self.subTest(line), self.assertRaisesRegex(Problem, r"\.actrunrc:1: |--stub a/b: "):
                self.words(line + "\n")
        (self.project / "link").symlink_to("/bin/sh")
        with self.assertRaisesRegex(Problem, r"\.actrunrc:1: "):
            self.words("--stub a/b=./link\n")
        for line in ("--job --no-sandbox", "--job -n", "--workers -n", "--var --bind=/"):
            with self.subTest(line):
                found = self.words(line + "\n")
                self.assertEqual(len(found), 1)

    @NEEDS_PROGRAM
    def test_stub_of_the_copy(self) -> None:
        self.write("tools/stub", "#!/bin/sh\necho \"stub in $PWD\"; touch made\n", 0o755)
        more = "".join(f"--stub other/action{at}=./tools/stub\n"
                       for at in range(3200))  # (they add no arguments of the sandbox)
        self.write(".actrunrc", more + "--stub some/action=./tools/stub\n")
        self.workflow("- uses: some/action@v1\n- run: ls made")
        done = self.attempt()
        self.assert_status(done, 0)
        self.assertIn("stub in ", done.stdout)
        self.assertFalse((self.project / "made").exists())

    @NEEDS_PROGRAM
    def test_the_users_own_file_may_lift_the_sandbox(self) -> None:
        own = self.home / ".config" / "actrun" / ".actrunrc"
        own.parent.mkdir(parents=True)
        own.write_text("--no-sandbox\n", encoding="utf-8")
        self.workflow("- run: 'true'")
        self.assert_status(self.attempt("-n"), 0)


class Limits(unittest.TestCase):
    """Files and patterns that would take all memory or time."""

    def faults(self, text: str) -> str:
        """The faults of a file, which come soon."""
        return "".join(fault.text for fault in read_document(text.encode()).faults)

    def test_values_after_merge_keys(self) -> None:
        base = "a: &a {" + ", ".join(f"k{at}: 1" for at in range(2000)) + "}\n"
        self.assertIn(f"more than {MOST_PLACES} values",
                      self.faults(base + "".join(f"b{at}: {{<<: *a}}\n" for at in range(2000))))
        self.assertIn(f"more than {MOST_PLACES} values",
                      self.faults(base + "b: {<<: [" + ", ".join(["*a"] * 2000) + "]}\n"))
        self.assertEqual(self.faults(base + "b: {<<: *a}\n"), "")

    def test_aliases_as_keys(self) -> None:
        rows = ["a0: &a0 [x, x]"] + [f"a{at}: &a{at} [*a{at - 1}, *a{at - 1}]" for at in range(1, 40)]
        self.assertIn("a key must be a string", self.faults("\n".join(rows) + "\n? *a39\n: 1\n"))

    def test_length_and_depth(self) -> None:
        self.assertIn("more than 10 MB", self.faults("#" * 10_000_001))
        self.assertIn("nest deeper", self.faults("[" * 100_000))
        self.assertIn("nest deeper", self.faults("a: " + "{a: " * 5000))

    def test_patterns(self) -> None:
        name = "a" * 250
        self.assertFalse(matches(["*a" * 20 + "b", "**a" * 20 + "b", "a?" * 60 + "b", "a+" * 60 + "b",
                                  "**/" * 20 + "b"], name))
        self.assertTrue(matches(["*a" * 20 + "*"], name))
        self.assertEqual(len(PIECE.split("${{" * 100_000 + "${{ '" * 100_000)), 1)
        self.assertFalse(Pattern(("**", "*a" * 20 + "b") * 5, False).matches((name,) * 40))
        self.assertTrue(Pattern(("**", "*a" * 20), False).matches((name,) * 40))


class Command(TryCase):
    """from-yaml and lint read what was named, and nothing else."""

    def called(self, *words: str) -> subprocess.CompletedProcess[str]:
        """Calls a command in the project, with little memory."""
        return subprocess.run([*self.command()[:1], str(FRONT), *words], cwd=self.project, env=self.environment, capture_output=True,
                              text=True, check=False, timeout=60, preexec_fn=lambda: resource.setrlimit(resource.RLIMIT_AS, (1 << 30, 1 << 30)))

    def test_nothing_is_written_by_a_link(self) -> None:
        self.workflow("- run: x")
        outside = self.home / ".bash_aliases"
        json = self.project / ".github" / "workflows" / "ci.json"
        for make in (lambda: json.symlink_to(outside), lambda: os.mkfifo(json)):
            make()
            for more in ((), ("--force",)):
                done = self.called("from-yaml", *more, ".github/workflows/ci.yml")
                self.assertEqual(done.returncode, 2)
                self.assertIn("is a link or no plain file", done.stderr)
            json.unlink()
        self.assertFalse(outside.exists())

    def test_pipes_devices_and_aliases(self) -> None:
        folder = self.write("f/many.yml", "a0: &a0 [" + "x," * 9 + "x]\n" + "".join(
            f"a{at}: &a{at} [" + f"*a{at - 1}," * 9 + f"*a{at - 1}]\n" for at in range(1, 12))).parent
        os.mkfifo(folder / "pipe.yml")
        (folder / "zero.yml").symlink_to("/dev/zero")
        for command in ("lint", "from-yaml"):
            for name, status, text in (("many", 2, f"more than {MOST_PLACES} values"), ("pipe", 2, "the file is empty"),
                                       ("zero", 3, "this is no plain file")):
                done = self.called(command, f"f/{name}.yml")
                self.assertEqual((done.returncode, text in done.stdout + done.stderr), (status, True), done)

    def test_called_workflow_elsewhere(self) -> None:
        outside = self.home / "outside.yml"
        outside.write_text("on: workflow_call\njobs: {x: {runs-on: a, steps: [{run: echo canary-of-outside}]}}\n", encoding="utf-8")
        (self.project / ".github" / "workflows").mkdir(parents=True)
        (self.project / ".github" / "workflows" / "called.yml").symlink_to(outside)
        self.write(".github/workflows/ci.yml",
                   "on: push\njobs:\n  one:\n    uses: ./.github/workflows/called.yml\n")
        done = subprocess.run([*self.command()[:1], str(FRONT), "from-yaml", "--lower", "-o", "-",
                               ".github/workflows/ci.yml"], cwd=self.project,
                              env=self.environment, capture_output=True, text=True, check=False, timeout=60)
        self.assertNotIn("canary-of-outside", done.stdout + done.stderr)


if __name__ == "__main__":
    unittest.main()
