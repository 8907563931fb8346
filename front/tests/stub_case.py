"""A temporary tree in which the stubs of actions are started as `run` starts them."""

from __future__ import annotations

import os
import pathlib
import subprocess
import sys
import tempfile
import unittest
from dataclasses import dataclass

from actrun_front import actions


@dataclass
class Ended:
    """What a step came to."""

    code: int
    shown: str
    outputs: dict[str, str]
    variables: dict[str, str]
    paths: list[str]


def pairs(place: pathlib.Path) -> dict[str, str]:
    """The pairs of a file in GitHub's form `name<<DELIMITER`, `name=value`."""
    found, lines = {}, iter(place.read_text(encoding="utf-8").splitlines())
    for line in lines:
        if "<<" in line:
            name, delimiter = line.split("<<", 1)
            value = []
            for part in lines:
                if part == delimiter:
                    break
                value.append(part)
            found[name] = "\n".join(value)
        elif line:
            name, found[name] = line.split("=", 1)
    return found


class StubCase(unittest.TestCase):
    """Each test has a folder with `tree`, `home`, `temporary`, `cache` and `artifacts`."""

    def setUp(self) -> None:
        room = tempfile.TemporaryDirectory(prefix="actrun stubs ")
        self.addCleanup(room.cleanup)
        self.room = pathlib.Path(room.name).resolve()
        for name in ("tree", "home", "temporary", "cache", "artifacts", "bin"):
            (self.room / name).mkdir()
        self.tree = self.room / "tree"
        self.environment = {"PATH": f"{self.room / 'bin'}:/usr/bin:/bin", "HOME": str(self.room / "home"), "LANG": "C.UTF-8",
                            "RUNNER_TEMP": str(self.room / "temporary"), "ACTRUN_CACHE": str(self.room / "cache"),
                            "ACTRUN_ARTIFACTS": str(self.room / "artifacts"), "GITHUB_WORKSPACE": str(self.tree),
                            "GITHUB_REPOSITORY": "octo/app", "GITHUB_REF": "refs/heads/main", "GITHUB_REF_NAME": "main"}

    def write(self, name: str, text: str = "", mode: int = 0o644) -> pathlib.Path:
        """Writes a file below the room and returns its place."""
        place = self.room / name
        place.parent.mkdir(parents=True, exist_ok=True)
        place.write_text(text, encoding="utf-8")
        place.chmod(mode)
        return place

    def program(self, name: str, script: str) -> pathlib.Path:
        """Puts a program of `sh` into PATH."""
        return self.write(f"bin/{name}", "#!/bin/sh\n" + script + "\n", 0o755)

    def start(self, uses: str, inputs: dict[str, str] | None = None, number: int = 0, lenient: bool = False,
              named: dict[str, str] | None = None) -> Ended:
        """Starts what replaces an action, as step `number` of leg 0."""
        stubs = actions.stubs_for([uses], named or {}, lenient, self.room / "wrappers", sys.executable)
        files = {name: self.write(f"step-0-{number}{end}") for name, end in
                 (("GITHUB_OUTPUT", ".out"), ("GITHUB_ENV", ".env"), ("GITHUB_PATH", ".path"))}
        given = {"INPUT_" + name.upper().replace(" ", "_"): value for name, value in (inputs or {}).items()}
        done = subprocess.run([stubs.programs[uses]], cwd=self.tree, text=True, stdout=subprocess.PIPE, stderr=subprocess.STDOUT,
                              env={**self.environment, **given, **{name: str(place) for name, place in files.items()}},
                              stdin=subprocess.DEVNULL, check=False)
        return Ended(done.returncode, done.stdout, pairs(files["GITHUB_OUTPUT"]), pairs(files["GITHUB_ENV"]),
                     files["GITHUB_PATH"].read_text(encoding="utf-8").splitlines())

    def files_below(self, name: str) -> list[str]:
        """The files below a folder of the room, by their names from there."""
        top = self.room / name
        return sorted(str(place.relative_to(top)) for place in top.rglob("*") if not place.is_dir())

    def git(self, *words: str) -> str:
        """Executes git in the tree and returns what it prints."""
        identity = {**os.environ, "GIT_AUTHOR_NAME": "a", "GIT_AUTHOR_EMAIL": "a@b", "GIT_COMMITTER_NAME": "a",
                    "GIT_COMMITTER_EMAIL": "a@b", "GIT_CONFIG_GLOBAL": "/dev/null"}
        return subprocess.run(["git", *words], cwd=self.tree, env=identity, capture_output=True, text=True, check=True).stdout.strip()
