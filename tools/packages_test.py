"""Tests of what `./actrun --install` gets from the distribution, and of `--version`. `apt-get` is a stub."""
from __future__ import annotations

import os
import pty
import re
import shutil
import subprocess
import tempfile
import unittest
from pathlib import Path

TOP = Path(__file__).resolve().parent.parent
TOOLS = ("bash", "cat", "chmod", "env", "find", "install", "mkdir", "mktemp", "realpath", "rm", "rmdir",
         "sed", "sort")
CALL = "apt-get install -y -qq bubblewrap git"
MISSING = "`try` needs packages that are missing"
READ = 'set -u; top=$1; shift; . "$top/tools/dispatch.sh"; . "$top/tools/packages.sh"; '
INSTALL = ('set -u; top=$1 version=1 toolchain=kit; shift; '
           '. "$top/tools/dispatch.sh"; . "$top/tools/install.sh"; '
           'choose() { program=/bin/true; }; install_below "$@"')


class Case(unittest.TestCase):
    """A test on a machine without bubblewrap and git, whose `apt-get` writes its arguments into a file."""

    def setUp(self) -> None:
        self.room = Path(tempfile.mkdtemp(prefix="actrun-packages-"))
        self.addCleanup(shutil.rmtree, self.room, ignore_errors=True)
        self.bin = self.room / "bin"
        self.bin.mkdir()
        for name in TOOLS:
            (self.bin / name).symlink_to(shutil.which(name))
        self.stub("python3", "exit 0")
        self.stub("id", "echo 1000")
        self.stub("sudo", 'echo "sudo $*" >> "$CALLS"; exec "$@"')
        self.stub("apt-get", 'echo "apt-get $*" >> "$CALLS"')

    def stub(self, name: str, script: str) -> None:
        (self.bin / name).write_text(f"#!/bin/sh\n{script}\n", encoding="utf-8")
        (self.bin / name).chmod(0o755)

    def bash(self, script: str, *words: str) -> subprocess.CompletedProcess:
        command = [self.bin / "bash", "-c", script, "bash", str(TOP), *words]
        return subprocess.run(command, capture_output=True, text=True, check=False, env=self.environment(),
                              stdin=subprocess.DEVNULL)

    def environment(self) -> dict[str, str]:
        return {"PATH": str(self.bin), "CALLS": str(self.room / "calls"), "HOME": str(self.room)}

    def calls(self) -> list[str]:
        file = self.room / "calls"
        return file.read_text(encoding="utf-8").splitlines() if file.exists() else []


class Packages(Case):
    def test_nothing_is_asked_where_nothing_is_missing(self) -> None:
        self.stub("bwrap", "exit 0")
        self.stub("git", "exit 0")
        done = self.bash(READ + "get_packages yes")
        self.assertEqual((done.returncode, done.stdout + done.stderr, self.calls()), (0, "", []))

    def test_yes_installs_what_is_missing(self) -> None:
        done = self.bash(READ + "get_packages yes")
        self.assertEqual((done.returncode, done.stderr), (0, ""))
        self.assertEqual(self.calls(), [f"sudo {CALL}", CALL])

    def test_root_needs_no_sudo(self) -> None:
        self.stub("id", "echo 0")
        self.stub("sudo", "exit 1")
        self.assertEqual(self.bash(READ + "get_packages yes").returncode, 0)
        self.assertEqual(self.calls(), [CALL])

    def test_without_a_terminal_the_command_is_said(self) -> None:
        done = self.bash(READ + "get_packages no")
        self.assertEqual((done.returncode, self.calls()), (0, []))
        self.assertEqual(done.stderr, f"actrun: {MISSING}: sudo apt-get install bubblewrap git\n")

    def test_a_failure_is_said_after_an_update(self) -> None:
        self.stub("apt-get", 'echo "apt-get $*" >> "$CALLS"; [ "$1" = update ]')
        done = self.bash(READ + "get_packages yes")
        self.assertEqual(done.returncode, 1)
        said = "actrun: the packages cannot be installed: sudo apt-get install bubblewrap git\n"
        self.assertEqual(done.stderr, said)
        called = [it.split()[1] for it in self.calls() if it.startswith("apt-get")]
        self.assertEqual(called, ["install", "update", "install"])

    def test_another_distribution_gets_the_names(self) -> None:
        (self.bin / "apt-get").unlink()
        for yes, status in (("no", 0), ("yes", 1)):
            done = self.bash(READ + f"get_packages {yes}")
            self.assertEqual((done.returncode, done.stderr), (status, f"actrun: {MISSING}: bubblewrap git\n"))

    def test_a_person_is_asked(self) -> None:
        for answer, called in (("n\n", []), ("\n", []), ("y\n", [CALL])):
            with self.subTest(answer):
                ours, theirs = pty.openpty()
                os.write(ours, answer.encode())
                command = [self.bin / "bash", "-c", READ + "get_packages no", "bash", str(TOP)]
                process = subprocess.Popen(command, stdin=theirs, stdout=theirs, stderr=theirs, env=self.environment())
                os.close(theirs)
                self.assertEqual(process.wait(60), 0)
                asked = os.read(ours, 4096).decode()
                self.assertIn("Execute `sudo apt-get install bubblewrap git`? [y/N]", asked)
                os.close(ours)
                self.assertEqual([it for it in self.calls() if it.startswith("apt-get")], called)


class Installed(Case):
    def test_the_program_comes_after_the_packages(self) -> None:
        prefix = self.room / "pre fix"
        done = self.bash(INSTALL, str(prefix), "--yes")
        self.assertEqual((done.returncode, done.stderr), (0, ""))
        self.assertIn(f"to start it by its name: export PATH='{prefix}'/bin:$PATH\n", done.stdout)
        version = (prefix / "lib/actrun/version").read_text(encoding="utf-8")
        self.assertEqual(version, "actrun 1 (no commit, proved)\nkit\n")
        self.assertEqual(len(self.calls()), 2)

    def test_nothing_is_installed_where_the_packages_fail(self) -> None:
        self.stub("apt-get", "exit 100")
        done = self.bash(INSTALL, "--yes", str(self.room / "prefix"))
        self.assertEqual((done.returncode, done.stdout, (self.room / "prefix").exists()), (3, "", False))

    def test_the_version_names_commit_and_proofs(self) -> None:
        done = subprocess.run([TOP / "actrun", "--version"], capture_output=True, text=True, check=True)
        sources = r"(commit [0-9a-f]{10}( with changes)?|no commit)"
        built = "(proved|built without proofs|not built)"
        wanted = rf"actrun [0-9.]+ \({sources}, {built}\)\n[^\n]+\n"
        self.assertRegex(done.stdout, re.compile(rf"\A{wanted}\Z"))


if __name__ == "__main__":
    unittest.main()
