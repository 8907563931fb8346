"""A repository whose workflows use actions of a server, which is a folder of bare repositories."""
from __future__ import annotations

import os
import re
import subprocess
from pathlib import Path

from tests.try_case import TryCase

AUTHOR = {"GIT_AUTHOR_NAME": "a", "GIT_AUTHOR_EMAIL": "a@b", "GIT_COMMITTER_NAME": "a",
          "GIT_COMMITTER_EMAIL": "a@b",
          "GIT_CONFIG_GLOBAL": "/dev/null", "GIT_CONFIG_NOSYSTEM": "1"}


def git(folder: Path, *words: str) -> str:
    """What git prints in a folder."""
    return subprocess.run(["git", *words], cwd=folder, env={**os.environ, **AUTHOR}, capture_output=True,
                          text=True, check=True).stdout.strip()


class Remote:
    """Bare repositories below a folder, as a server of actions."""

    def __init__(self, folder: Path) -> None:
        self.folder = folder
        self.url = f"file://{folder}/remote"

    def publish(self, name: str, files: dict[str, str], *refs: str) -> str:
        """Makes a commit with these files what the refs name, `main` among them; gives the commit."""
        bare, tree = self.folder / "remote" / name, self.folder / "source" / name
        if not bare.exists():
            bare.parent.mkdir(parents=True, exist_ok=True)
            git(self.folder, "init", "-q", "--bare", str(bare))
            tree.mkdir(parents=True)
            git(tree, "init", "-q", "-b", "main")
        for place, text in files.items():
            (tree / place).parent.mkdir(parents=True, exist_ok=True)
            (tree / place).write_text(text, encoding="utf-8")
        git(tree, "add", "-A")
        git(tree, "commit", "-q", "--allow-empty", "-m", "some")
        for ref in refs:
            git(tree, "tag", "-f", "-a", "-m", ref, ref)
        git(tree, "push", "-q", "-f", str(bare), "main", *(f"refs/tags/{ref}" for ref in refs))
        return git(tree, "rev-parse", "HEAD")


class ActionCase(TryCase):
    def setUp(self) -> None:
        super().setUp()
        self.remote = Remote(self.room)

    def given(self, *words: str, **environment: str) -> subprocess.CompletedProcess[str]:
        """Calls `try` with the server of this test."""
        return self.attempt("--actions-url", self.remote.url, *words, **environment)

    def sections(self, done: subprocess.CompletedProcess[str]) -> list[tuple[str, str]]:
        """The title of each step without its job, and what it printed."""
        found = re.findall(r"(?ms)^--- one: (.*?)\n(.*?)\n(?=\n)", done.stdout)
        return [(title, text.strip()) for title, text in found]
