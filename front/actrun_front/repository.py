"""The one way in which git is started: it executes nothing that a repository names, asks nobody, and fetches
nothing.

A clone's configuration and attributes can name programs: a file system monitor, hooks, filters, a differ,
commands for a server. All of these are taken away for each call. The work tree is the folder that is asked
about, whatever the configuration says.
"""
from __future__ import annotations

import functools
import os
import subprocess
from pathlib import Path
from typing import IO

from . import Problem
from .files import read_below

PATIENCE = 120  # seconds for one answer
FIXED = ("core.fsmonitor=false", "core.hooksPath=/dev/null", "core.untrackedCache=false",
         "protocol.allow=never", "core.pager=cat",
         "diff.external=", "core.sshCommand=false", "core.gitProxy=", "core.askPass=false",
         "uploadpack.packObjectsHook=",
         "core.alternateRefsCommand=", "credential.helper=", "gpg.program=false",
         "safe.bareRepository=explicit",
         "log.showSignature=false", "maintenance.auto=false", "gc.auto=0", "fetch.writeCommitGraph=false")
OF_BARE = (("core.fsync", "none"), ("core.looseCompression", "1"), ("pack.window", "0"))
VARIABLES = {"GIT_NO_LAZY_FETCH": "1", "GIT_TERMINAL_PROMPT": "0", "GIT_CONFIG_NOSYSTEM": "1",
             "GIT_OPTIONAL_LOCKS": "0",
             "GIT_ALLOW_PROTOCOL": "none", "GIT_ASKPASS": "false", "SSH_ASKPASS": "false",
             "GIT_PAGER": "cat", "LC_ALL": "C"}
WORKED_ON: set[str] = set()  # the tops of all repositories so far
KEPT = ("GIT_CONFIG_GLOBAL",
        "GIT_TRACE2_EVENT")  # of the caller's variables for git; the others may name another repository
# keys below a name that a repository chooses, whose values are programs
PROGRAMS = {"filter": ("clean", "smudge", "process", "required"), "diff": ("command", "textconv"),
            "merge": ("driver",),
            "remote": ("promisor", "uploadpack", "vcs", "proxy"), "credential": ("helper",),
            "gpg": ("program",)}
OFF = {"required": "false", "promisor": "false", "uploadpack": "false"}


def is_at(real: str, top: str) -> bool:
    """Whether a real path is that of a folder or below it."""
    return real == top or real.startswith(top.rstrip("/") + "/")


@functools.lru_cache(maxsize=None)
def place_of(name: str, path: str, avoid: frozenset[str]) -> str | None:
    """A program by the entries of PATH that are whole paths and not below a folder, whose author would
    choose it otherwise."""
    for entry in path.split(":"):
        place, real = os.path.join(entry, name), os.path.realpath(entry)
        if os.path.isabs(entry) and os.access(place, os.X_OK) and not any(is_at(real, top) for top in avoid):
            return place
    return None


def of_system(name: str, folder: Path) -> str:
    """A program for work on a repository around a folder, never one of that repository or of one that was
    worked on before."""
    WORKED_ON.add(os.path.realpath(top_by_name(folder)))
    return place_of(name, os.environ.get("PATH", os.defpath), frozenset(WORKED_ON)) or f"/usr/bin/{name}"


def environment(top: Path | None, more: tuple[tuple[str, str], ...] = ()) -> dict[str, str]:
    """The variables of one call; `more` are settings over those of the repository."""
    result = {name: value for name, value in os.environ.items() if not name.startswith("GIT_")
              or name in KEPT}
    result.update(VARIABLES)
    if top is not None:
        result.update(GIT_WORK_TREE=os.fspath(top), GIT_CEILING_DIRECTORIES=os.fspath(top.parent))
    settings = [tuple(entry.split("=", 1)) for entry in FIXED] + list(more)
    result["GIT_CONFIG_COUNT"] = str(len(settings))
    for number, (name, value) in enumerate(settings):
        result[f"GIT_CONFIG_KEY_{number}"], result[f"GIT_CONFIG_VALUE_{number}"] = name, value
    return result


def top_by_name(folder: Path) -> Path:
    """The nearest folder upwards with something of the name `.git`, whatever that is; the folder itself
    where none has it."""
    start = Path(os.path.realpath(folder))
    return next((top for top in (start, *start.parents) if os.path.lexists(top / ".git")), start)


def run(folder: Path, words: tuple[str, ...], variables: dict[str, str],
        given: IO[bytes] | None = None) -> subprocess.CompletedProcess[bytes]:
    """The answer of git with some variables and a file as its input; status 127 where it is not installed."""
    try:
        return subprocess.run([of_system("git", folder), "-C", os.fspath(folder), "--no-pager",
                               "--no-replace-objects", "--literal-pathspecs", *words],
                              env=variables, stdin=given or subprocess.DEVNULL, capture_output=True,
                              check=False, timeout=PATIENCE)
    except subprocess.TimeoutExpired:
        raise Problem(f"{folder}: git did not answer in {PATIENCE} s: `git {words[0]}` there shows what it "
                      "waits for", 3) from None
    except FileNotFoundError:
        return subprocess.CompletedProcess(words, 127, b"", b"git is not installed")


@functools.lru_cache(maxsize=None)
def settings(top: Path) -> tuple[tuple[str, str], ...]:
    """All settings that hold for a repository, the last of a name counts; names in git's spelling."""
    answer = run(top, ("config", "--list", "-z"), environment(top))
    entries = os.fsdecode(answer.stdout).split("\0") if answer.returncode == 0 else []
    return tuple((name, value) for name, _, value in (entry.partition("\n") for entry in entries) if name)


def setting(folder: Path, name: str) -> str:
    """The value of a setting, or nothing."""
    top = find_top(folder) or folder
    return next((value for key, value in reversed(settings(top)) if key == name), "")


@functools.lru_cache(maxsize=None)
def without_programs(top: Path) -> tuple[tuple[str, str], ...]:
    """Settings that take away each program that the repository names."""
    found = {}
    for name, _ in settings(top):
        first, _, rest = name.partition(".")
        last = rest.rpartition(".")[2]
        if last in PROGRAMS.get(first, ()) and "." in rest:
            found[name] = OFF.get(last, "")
    return tuple(found.items())


def ask(folder: Path, *words: str) -> subprocess.CompletedProcess[bytes]:
    """The whole answer of git about the repository around `folder`."""
    top = find_top(Path(folder)) or Path(folder)
    return run(Path(folder), words, environment(top, without_programs(top)))


def ask_bare(folder: Path, *words: str, given: IO[bytes] | None = None) -> subprocess.CompletedProcess[bytes]:
    """The whole answer of git about a bare repository that the front made; `given` becomes its input."""
    return run(folder, (f"--git-dir={folder}", *words), environment(None, OF_BARE), given)


def make(folder: Path, *words: str) -> subprocess.CompletedProcess[bytes]:
    """Makes an empty repository, with nothing of a template; gives the answer of git."""
    answer = run(
        folder, ("-c", "init.defaultRefFormat=files", "init", "-q", "--template=", *words), environment(None)
    )
    find_top.cache_clear()
    return answer


def git(folder: Path, *words: str) -> str | None:
    """What git prints, without the last newline; None if it fails or is not installed. It writes
    nothing and executes nothing."""
    answer = ask(folder, *words)
    return answer.stdout.decode("utf-8", "replace").removesuffix("\n") if answer.returncode == 0 else None


@functools.lru_cache(maxsize=None)
def find_top(folder: Path) -> Path | None:
    """The top of the working tree around a folder; None if there is no repository. Embedded bare
    repositories are none."""
    start = Path(os.path.realpath(folder))
    for top in (start, *start.parents):
        if not os.path.lexists(top / ".git"):
            continue
        answer = run(top, ("rev-parse", "--git-dir"), environment(top))
        if b"dubious ownership" in answer.stderr:
            raise Problem(f"{top}: the repository belongs to somebody else, so git reads nothing of it: "
                          f"git config --global --add safe.directory '{top}'")
        if answer.returncode == 0:
            return top
        if answer.returncode == 127:
            return None
    return None


def folders(folder: Path) -> tuple[Path, Path]:
    """The folder of a repository's own state, and the one that it shares with other working trees, as they
    really are."""
    top = find_top(folder) or folder
    answer = run(top, ("rev-parse", "--path-format=absolute", "--git-dir", "--git-common-dir"),
                 environment(top))
    lines = [Path(os.path.realpath(line)) for line in os.fsdecode(answer.stdout).splitlines()]
    return (lines[0], lines[1]) if len(lines) == 2 else (top / ".git", top / ".git")


def is_below(path: str | os.PathLike[str], folder: str | os.PathLike[str]) -> bool:
    """Whether a place is a folder or below it, as both really are."""
    return is_at(os.path.realpath(path), os.path.realpath(folder))


def knows_tree(own: Path, common: Path, top: Path) -> bool:
    """Whether a repository outside of a working tree says itself that the tree is its own, as it does of
    linked trees and submodules."""
    try:
        back = Path(os.fsdecode((own / "gitdir").read_bytes()).strip())
        linked = own.parent == common / "worktrees" and os.path.realpath(back.parent) == os.path.realpath(top)
    except OSError:
        linked = False
    # (the setting is of that repository's own file, so nobody else has written it)
    named = run(top, ("config", "--file", os.fspath(own / "config"), "core.worktree"),
                environment(None)).stdout
    tree = os.fsdecode(named.strip())
    return linked or bool(tree) and os.path.realpath(own / tree) == os.path.realpath(top)


def check(top: Path, named: tuple[Path, ...] = ()) -> None:
    """Refuses a repository that brings what is elsewhere: its own folders have to be below its top, know
    it, or be named by --bind."""
    own, common = folders(top)
    ours = (top, *named)
    if not all(any(is_below(path, one) for one in ours) for path in (own, common)):
        if not knows_tree(own, common, top):
            raise Problem(f"{top}: its .git names the repository {common}, which does not name this tree: "
                          f"--bind {common} lets steps read it")
        ours = (*ours, own, common)
    for folder in (own, common, common / "objects"):
        for entry in os.scandir(folder) if folder.is_dir() else ():
            if entry.is_symlink() and not any(is_below(entry.path, one) for one in ours):
                raise Problem(
                    f"{entry.path}: this link leads to {os.path.realpath(entry.path)}, outside of the "
                    "repository: --bind PATH lets steps read it"
                )
    alternates(common / "objects", ours)


def alternates(objects: Path, allowed: tuple[Path, ...], seen: tuple[Path, ...] = ()) -> list[Path]:
    """The folders of objects that a folder of objects borrows from. Raises Problem if one is neither
    below the repository nor named."""
    file = objects / "info" / "alternates"
    found: list[Path] = []
    try:
        lines = os.fsdecode(read_below(objects, "info", "alternates", most=1 << 20)).splitlines()
    except FileNotFoundError:
        return []
    except OSError as error:
        raise Problem(
            f"{file}: {error.strerror}: it names directories of objects, so it must be a plain file"
        ) from None
    for line in filter(None, lines):
        if line.startswith("#"):
            continue
        path = Path(os.path.realpath(objects / line.strip('"')))
        if not any(is_below(path, one) for one in allowed):
            raise Problem(
                f"{file}: the repository borrows objects from {path}: --bind {path} lets steps read " "them"
            )
        if path not in (*seen, objects):
            found += [path, *alternates(path, allowed, (*seen, objects, *found))]
    return found
