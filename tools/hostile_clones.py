"""Random clones that try to hurt their reader: option files, configurations of git, attributes, links and
workflows.

usage: python3 tools/hostile_clones.py N SEED   (ACTRUN_PROGRAM names the program)

Each clone is looked at by `try -l`, `-n` or `-g`, one in a hundred is executed in the sandbox. All that an
attack does is to touch a canary or to print a secret, both in a temporary folder. A clone is kept and named
if it does so, if a traceback comes, or if the status is none of those that GUIDE names. The last line counts.
"""
from __future__ import annotations

import contextlib
import io
import os
import random
import shutil
import stat
import subprocess
import sys
import tempfile
import traceback
from pathlib import Path
from typing import Callable

TOP = Path(__file__).resolve().parent.parent
sys.path.insert(0, str(TOP / "front"))
from actrun_front import attempt, files, repository, sandbox  # noqa: E402

SECRET = "canary-of-this-machine"
STATUSES = (0, 1, 2, 3, 4)
OPTIONS = ("--job", "-j", "--env", "--input", "--var", "--matrix", "--stub", "--lenient", "--any-system",
           "--workers", "-l", "-n", "-g", "-s",
           "--secret", "--secret-file", "--var-file", "--env-file", "--input-file", "--stubs", "-e",
           "--eventpath", "-W", "--workflows", "-C",
           "--directory", "--keep", "--in-place", "--no-sandbox", "--offline", "--bind", "--bind-rw",
           "--writable-git", "--host-network", "--break", "--help", "-h", "--", "-",
           "-nl", "push", "--unknown", "#", "")
SETTINGS = ("core.fsmonitor", "core.hooksPath", "core.pager", "core.sshCommand", "core.gitProxy",
            "core.askPass", "core.worktree", "core.bare",
            "core.attributesFile", "core.excludesFile", "core.untrackedCache", "core.splitIndex",
            "core.repositoryFormatVersion",
            "core.alternateRefsCommand", "core.editor", "include.path", "diff.external", "diff.x.command",
            "diff.x.textconv", "filter.x.clean",
            "filter.x.smudge", "filter.x.process", "filter.x.required", "merge.x.driver",
            "remote.origin.url", "remote.origin.promisor",
            "remote.origin.uploadpack", "remote.origin.fetch", "remote.origin.vcs",
            "remote.origin.partialclonefilter", "url.x.insteadOf",
            "protocol.allow", "protocol.ext.allow", "protocol.file.allow", "extensions.partialClone",
            "extensions.worktreeConfig",
            "extensions.objectFormat", "extensions.refStorage", "credential.helper", "gpg.program",
            "log.showSignature", "user.email",
            "user.signingKey", "branch.main.remote", "branch.main.merge", "mailmap.file", "mailmap.blob",
            "alias.log", "alias.ls-files",
            "trailer.x.command", "submodule.x.update", "submodule.recurse", "safe.directory",
            "i18n.logOutputEncoding", "format.pretty",
            "index.version", "index.sparse", "feature.manyFiles", "status.submoduleSummary", "pager.log",
            "color.ui", "column.ui")


class Clone:
    """One clone, made at random."""

    def __init__(self, room: Path, template: Path, choice: random.Random) -> None:
        self.room, self.choice, self.top = room, choice, room / "clone"
        self.canary, self.outside = room / "canary", room / "outside"
        self.attack = room / "attack"
        shutil.copytree(template, self.top, symlinks=True)

    def places(self) -> list[str]:
        """What a link or an option may name."""
        return [str(self.outside), str(self.outside / "secret"), str(self.outside / ".git"),
                str(self.attack), "/dev/zero", "/proc/self/exe",
                "/proc/self/fd/0", "/", "/etc/passwd", "..", ".", "nowhere", "./attack", "a.txt",
                "../outside/secret", str(self.room / "pipe"),
                "/proc/1/root", str(self.top), "loop", f"!{self.attack}", f"ext::{self.attack}", "x" * 300,
                "\x00", "\udc80", "true", "1", "", "~"]

    def place(self) -> str:
        """One of these."""
        return self.choice.choice(self.places())

    def option_file(self) -> None:
        """A file of options."""
        lines: list[str] = []
        for _ in range(self.choice.randrange(4)):
            option = self.choice.choice(OPTIONS[:10] if self.choice.random() < 0.6 else OPTIONS)
            value = self.choice.choice(["", "A=b", "x/y=" + self.place(), self.place(),
                                        "PATH=./:" + self.place(), f"LD_PRELOAD={self.place()}",
                                        "one", "2", "a.b=[1]", "--no-sandbox", "-n"])
            lines.append(option + self.choice.choice([" ", "=", "  ", "\t", ""]) + value)
        (self.top / ".actrunrc").write_bytes("\n".join(lines).encode("utf-8", "surrogateescape"))

    def settings(self) -> None:
        """A configuration."""
        with open(self.top / ".git" / "config", "ab") as file:
            for _ in range(self.choice.randrange(6)):
                section, _, name = self.choice.choice(SETTINGS).rpartition(".")
                first, _, below = section.partition(".")
                value = self.place().replace("\\", "\\\\").replace('"', '\\"')
                head = f'[{first} "{below}"]' if below else f"[{first}]"
                file.write(f'{head}\n\t{name} = "{value}"\n'.encode("utf-8", "surrogateescape"))

    def attributes(self) -> None:
        """Attributes that name filters, and changed files."""
        text = self.choice.choice(["* filter=x diff=x merge=x\n", "*.txt filter=x\n",
                                   "* text eol=crlf working-tree-encoding=UTF-16\n", ""])
        for name in (".gitattributes", ".git/info/attributes"):
            if self.choice.random() < 0.5:
                (self.top / name).parent.mkdir(exist_ok=True)
                (self.top / name).write_text(text, encoding="utf-8")
        (self.top / "a.txt").write_text(str(self.choice.random()), encoding="utf-8")

    def link(self) -> None:
        """A link, a pipe or a file in place of something."""
        name = self.choice.choice([".github", ".github/workflows", ".github/workflows/ci.yml",
                                   ".github/workflows/b.yml", ".actrunrc", "a.txt", "loop",
                                   "act", "act/action.yml", ".git", ".git/objects", ".git/objects/pack",
                                   ".git/refs", ".git/HEAD", ".git/index",
                                   ".git/packed-refs", ".git/config", ".git/commondir",
                                   ".git/objects/info/alternates", ".git/info", ".git/shallow",
                                   ".git/config.worktree", ".git/logs", ".git/hooks", ".git/worktrees"])
        place = self.top / name
        if not os.path.isdir(place.parent) or not os.path.realpath(place.parent).startswith(os.path.realpath(self.top)):
            return  # (a link before this one leads out of the clone, and what is there is not to be changed)
        if os.path.isdir(place) and not place.is_symlink():
            files.remove(place)
        elif os.path.lexists(place):
            place.unlink()
        target = self.place().replace("\x00", "0") or "empty"
        kind = self.choice.randrange(5)
        try:
            if kind == 0:
                place.write_bytes(f"{self.choice.choice(['gitdir: ', '', 'ref: '])}{target}\n".encode("utf-8", "surrogateescape"))
            elif kind == 1:
                os.mkfifo(place)
            else:
                place.symlink_to(target)
        except OSError:
            return

    def workflow(self) -> None:
        """A workflow that reads and touches what it can."""
        step = self.choice.choice([f"cat '{self.outside}/secret'", f"touch '{self.canary}'",
                                   'rm -f "$GITHUB_OUTPUT"; ln -s /etc/passwd "$GITHUB_OUTPUT"',
                                   f"ln -sfn '{self.outside}' \"$GITHUB_STEP_SUMMARY\"",
                                   f'echo "PATH={self.room}" >> "$GITHUB_ENV"',
                                   "cat /proc/[0-9]*/environ | tr -d '\\\\0' | head -c 10000",
                                   "echo ${{ hashFiles('**') }}"])
        uses = self.choice.choice(["./act", "x/y@v1", "actions/cache@v4", "./../outside", "./loop"])
        text = ("on: {push: {branches: ['**'], paths: ['*a*a*a*b']}}\njobs:\n  one:\n    runs-on: ubuntu-latest\n    steps:\n"
                f"      - run: |\n          {step}\n      - uses: {uses}\n        with: {{path: '{self.outside}', key: k}}\n")
        place = self.top / ".github" / "workflows" / "ci.yml"
        with contextlib.suppress(OSError):
            place.write_text(text, encoding="utf-8")

    def spoil(self) -> None:
        """Makes the clone hostile."""
        self.workflow()
        made = [make for make in (self.option_file, self.settings, self.attributes)
                if self.choice.random() < 0.5]
        # (links last: what is written would follow them)
        for make in [*made, *[self.link] * self.choice.randrange(3)]:
            make()


def template(room: Path) -> Path:
    """A clean repository."""
    made = room / "template"
    (made / ".github" / "workflows").mkdir(parents=True)
    (made / "act").mkdir()
    (made / "act" / "action.yml").write_text("runs: {using: composite, steps: [{run: echo in, shell: bash}]}\n", encoding="utf-8")
    (made / "a.txt").write_text("a\n", encoding="utf-8")
    (made / ".github" / "workflows" / "ci.yml").write_text("on: push\njobs: {}\n", encoding="utf-8")
    for words in (("init", "-q", "-b", "main"), ("add", "-A"), ("-c", "user.name=A", "-c",
                                                                "user.email=a@b", "commit", "-q", "-m",
                                                                "all")):
        subprocess.run(["git", *words], cwd=made, check=True, capture_output=True,
                       env={"PATH": os.environ["PATH"], "HOME": str(room)})
    return made


def prepare(room: Path) -> Path:
    """The canaries of a room, and the template of clones. The attack is tried out first: it touches the
    canary, and nothing else."""
    (room / "outside").mkdir()
    (room / "outside" / "secret").write_text(SECRET + "\n", encoding="utf-8")
    (room / "attack").write_text(f"#!/bin/sh\ntouch '{room}/canary'\n", encoding="utf-8")
    (room / "attack").chmod(0o755)
    os.mkfifo(room / "pipe")
    subprocess.run([room / "attack"], check=True)
    (room / "canary").unlink()
    made = template(room)
    shutil.copytree(made / ".git", room / "outside" / ".git")
    (made / "attack").write_bytes((room / "attack").read_bytes())
    (made / "attack").chmod(0o755)
    return made


def looked(words: list[str], top: Path) -> tuple[int, str, str]:
    """The status of `try`, what it printed, and a traceback."""
    out, before = io.TextIOWrapper(io.BytesIO(), "utf-8", "surrogateescape"), Path.cwd()
    for cache in (repository.settings, repository.without_programs, repository.find_top, repository.place_of):
        cache.cache_clear()
    try:
        os.chdir(top)
        with contextlib.redirect_stdout(out), contextlib.redirect_stderr(out):
            status, trace = attempt.main(words), ""
    except SystemExit as ended:
        status, trace = ended.code if isinstance(ended.code, int) else 2, ""
    except BaseException as error:  # (whatever it is, a person would see it)
        if isinstance(error, KeyboardInterrupt):
            raise
        status, trace = -1, traceback.format_exc()
    finally:
        os.chdir(before)
    out.flush()
    return status, out.buffer.getvalue().decode("utf-8", "replace"), trace


def fault(clone: Clone, state: Callable[[], str], words: list[str]) -> str:
    """What is wrong of one clone, or nothing."""
    before = state()
    status, text, trace = looked(words, clone.top)
    if trace or "Traceback (most recent" in text:
        return trace or text
    if clone.canary.exists():
        clone.canary.unlink()
        return "the canary was touched"
    if SECRET in text:
        return f"the secret was printed:\n{text}"
    if state() != before:
        return "something outside of the clone has changed"
    return "" if status in STATUSES else f"the status is {status}:\n{text}"


def main(count: int, seed: int) -> int:
    """Tries that many clones; the status is 0 if none did harm."""
    room = Path(tempfile.mkdtemp(prefix="actrun-clones-"))
    os.environ.update(HOME=str(room), XDG_CACHE_HOME=str(room / "cache"),
                      XDG_CONFIG_HOME=str(room / "config"), GIT_CONFIG_NOSYSTEM="1")
    repository.PATIENCE = 2
    choice, made, bad = random.Random(seed), prepare(room), 0
    executes = os.access(sandbox.PLACES[0], os.X_OK)

    def state() -> str:
        found = sorted((path for path in room.iterdir() if path.name not in ("cache", "clone")), key=str)
        inner = [path for folder in (room / "outside", made) for path in folder.rglob("*")]
        return "\n".join(f"{path} {stat.S_IFMT(path.lstat().st_mode)} {path.lstat().st_mtime_ns * stat.S_ISREG(path.lstat().st_mode)}" for path in (*found, *inner))
    for number in range(count):
        clone = Clone(room, made, choice)
        clone.spoil()
        words = [choice.choice(["-l", "-n",
                                "-g"])] if not executes or choice.random() < 0.99 else ["--offline"]
        wrong = fault(clone, state, words)
        if wrong:
            bad += 1
            kept = Path(tempfile.mkdtemp(prefix=f"actrun-clone-{seed}-{number}-")) / "clone"
            shutil.move(str(clone.top), kept)
            print(f"{kept}: try {' '.join(words)}: {wrong}")
        files.remove(clone.top)
    files.remove(room)
    print(f"{count} clones, {bad} did harm")
    return 1 if bad else 0


if __name__ == "__main__":
    sys.exit(main(int(sys.argv[1]), int(sys.argv[2])))
