"""A home folder with a repository for tests of `actrun try`, and the way to call it."""
from __future__ import annotations

import functools
import os
import re
import shutil
import subprocess
import sys
import tempfile
import unittest
from pathlib import Path

FRONT = Path(__file__).resolve().parent.parent
PROGRAM = os.environ.get("ACTRUN_PROGRAM", "")
NEEDS_PROGRAM = unittest.skipUnless(PROGRAM, "the variable ACTRUN_PROGRAM names no built program")
WORKFLOW = """\
on: push
jobs:
  one:
    runs-on: ubuntu-latest
    steps:
"""


@functools.lru_cache(maxsize=None)
def sandbox_works() -> bool:
    """Whether bwrap can make a room here."""
    words = ["bwrap", "--ro-bind", "/", "/", "--proc", "/proc", "--unshare-pid", "/bin/true"]
    return shutil.which("bwrap") is not None and subprocess.run(words, capture_output=True, check=False).returncode == 0


def unprefixed(text: str) -> str:
    """Lines without the names of leg and step before them, behind an empty one."""
    return re.sub(r"(?m)^[^|\n]*?: .*? \| ", "", f"\n{text}")


class TryCase(unittest.TestCase):
    """A test with a home folder of its own, in which a repository can be made."""

    workspace = ("--workspace", "full")  # so that no workflow of a test needs actions/checkout; () where it is about the workspace

    def setUp(self) -> None:
        self.room = Path(tempfile.mkdtemp(prefix="actrun-try-", dir=os.environ.get("ACTRUN_TEST_FOLDER"))).resolve()
        self.addCleanup(self.remove)
        self.home = self.room / "home"
        self.project = self.home / "project"
        self.project.mkdir(parents=True)
        self.environment = {"PATH": os.environ["PATH"], "HOME": str(self.home), "LANG": "C.UTF-8", "USER": "ada",
                            "ACTRUN_PROGRAM": PROGRAM, "GIT_CONFIG_NOSYSTEM": "1"}

    def remove(self) -> None:
        """Removes the room, also folders that a step made read-only."""
        subprocess.run(["chmod", "-R", "u+rwx", str(self.room)], check=False, capture_output=True)
        shutil.rmtree(self.room, ignore_errors=True)

    def write(self, name: str, text: str, mode: int = 0o644) -> Path:
        """A file of the project."""
        path = self.project / name
        path.parent.mkdir(parents=True, exist_ok=True)
        path.write_text(text, encoding="utf-8")
        path.chmod(mode)
        return path

    def workflow(self, steps: str, head: str = WORKFLOW, name: str = "ci.yml") -> None:
        """A workflow with these steps."""
        indented = "".join(f"      {line}\n" for line in steps.strip("\n").split("\n"))
        self.write(f".github/workflows/{name}", head + indented)

    def git(self, *words: str, folder: Path | None = None) -> str:
        """What git prints in the project."""
        return subprocess.run(["git", "-c", "user.name=Ada", "-c", "user.email=ada@example.org", "-c", "protocol.file.allow=always",
                               "-c", "commit.gpgsign=false", *words], cwd=folder or self.project, env=self.environment, check=True,
                              capture_output=True, text=True).stdout.strip()

    def commit(self, branch: str = "main") -> None:
        """Makes the project a repository with one commit of all that it has."""
        self.git("init", "-q", "-b", branch)
        self.git("add", "-A")
        self.git("commit", "-q", "-m", "first: all")

    def command(self, *words: str) -> list[str]:
        """The words that start `actrun try`; where no sandbox can be made, the tests' own workflows are executed without."""
        in_place = {"--in-place", "--workspace"} & set(words)
        return [sys.executable, str(FRONT), "try", *([] if sandbox_works() else ["--no-sandbox"]), *words, *(() if in_place else self.workspace)]

    def attempt(self, *words: str, folder: Path | None = None, **environment: str) -> subprocess.CompletedProcess[str]:
        """Calls `actrun try` in the project."""
        done = subprocess.run(self.command(*words), cwd=folder or self.project, env={**self.environment, **environment},
                              stdin=subprocess.DEVNULL, capture_output=True, check=False, timeout=120)
        return subprocess.CompletedProcess(done.args, done.returncode, done.stdout.decode("utf-8", "replace"),
                                           done.stderr.decode("utf-8", "replace"))

    def assert_status(self, done: subprocess.CompletedProcess[str], status: int) -> None:
        """Fails with both outputs where the status is another."""
        self.assertEqual(done.returncode, status, f"\n{done.stdout}\n--- standard error\n{done.stderr}")

    def printed(self, done: subprocess.CompletedProcess[str]) -> str:
        """What steps printed and the rest of standard output, without the names before each line."""
        return unprefixed(done.stdout)

    def work(self) -> Path:
        """The only work folder there is."""
        found = list((self.home / ".cache" / "actrun" / "work").iterdir())
        self.assertEqual(len(found), 1)
        return found[0]
