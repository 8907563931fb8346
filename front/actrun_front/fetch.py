"""Fetches actions of other repositories by git, once for each ref, and keeps their files by commit.

`~/.cache/actrun/actions` has `refs/BASE/OWNER/NAME/REF`, a file with the commit that the ref named when it
was fetched, and `trees/OWNER/NAME/COMMIT`, the files of that commit. A tree is made beside its place and
moved there whole, under a lock. While git fetches it reads no configuration but that of `WORDS`, starts no
hook, filter or helper, and follows no submodule.
"""
from __future__ import annotations

import contextlib
import fcntl
import hashlib
import os
import re
import shutil
import stat
import subprocess
import tempfile
from dataclasses import dataclass, field
from pathlib import Path
from typing import Iterator
from urllib.parse import quote

from . import Problem
from .tree import cache_root

BASE = "https://github.com"
LOCK_NAME = "actrun.lock"
LOCK_HEAD = "# The commits of actions, written by `actrun try --lock`.\n"
MOST_SECONDS = 600
MOST_BYTES = 1 << 20  # of a file that describes an action, and of actrun.lock
COMMIT = re.compile(r"[0-9a-f]{40}")
NAME = r"[A-Za-z0-9_][A-Za-z0-9_.-]*"
REF = r"[A-Za-z0-9_][\w./+@=,!#%-]*"
PATH = r"(?:/[^@/]+)*"
REFERENCE = re.compile(rf"(?P<owner>{NAME})/(?P<name>{NAME})(?P<path>{PATH})/?@(?P<ref>{REF})", re.ASCII)
SCHEMES = ("https", "http", "file")
SETTINGS = {
    "core.fsmonitor": "false", "core.hooksPath": "/dev/null", "core.symlinks": "true",
    "core.autocrlf": "false", "protocol.allow": "never", "credential.helper": "", "init.templateDir": "",
    "fetch.recurseSubmodules": "false", "submodule.recurse": "false", "gc.auto": "0",
    "maintenance.auto": "false", "http.lowSpeedLimit": "1000", "http.lowSpeedTime": "60",
    "fetch.fsckObjects": "true", "fetch.fsck.zeroPaddedFilemode": "ignore",
    "fetch.fsck.badTimezone": "ignore", "fetch.fsck.missingSpaceBeforeDate": "ignore"}
WORDS = [word for name, value in SETTINGS.items() for word in ("-c", f"{name}={value}")]


class FetchError(Exception):
    """An action cannot be fetched: the text says why."""


@dataclass(frozen=True)
class Reference:
    """What `owner/name[/path]@ref` names."""

    owner: str
    name: str
    path: str  # from the top of the repository, without a slash at its ends
    ref: str

    @property
    def key(self) -> str:
        """The repository and the ref, as actrun.lock has them."""
        return f"{self.owner.lower()}/{self.name.lower()}@{self.ref}"

    @property
    def commit(self) -> str:
        """The commit, if the ref is one."""
        return self.ref if COMMIT.fullmatch(self.ref) else ""


def parse_reference(uses: str) -> Reference | None:
    """The reference of a text of `uses`; None for another form, or a path or ref that git would not take."""
    found = REFERENCE.fullmatch(uses)
    if not found:
        return None
    parts, ref = found["path"].split("/"), found["ref"]
    wrong = any(part in (".", "..") for part in parts) or ".." in ref or "@{" in ref or "//" in ref
    if wrong or ref.endswith(("/", ".", ".lock")) or any(part.startswith(".") for part in ref.split("/")):
        return None
    return Reference(found["owner"], found["name"], found["path"].strip("/"), ref)


def check_base(base: str) -> str:
    """The URL before `/owner/name`, without a slash at its end. Raises Problem if nothing can be fetched
    from it."""
    scheme, colon, rest = base.partition("://")
    wrong = not rest.strip("/") or rest.startswith("-") or re.search(r"[\x00-\x20]", base)
    if scheme not in SCHEMES or not colon or wrong:
        raise Problem(f"--actions-url {base}: write https://HOST or file:///DIR, below which OWNER/NAME "
                      "is a repository")
    return base.rstrip("/")


def git_environment() -> dict[str, str]:
    """The variables of git: those of the caller that lead to the network, none that would start anything."""
    kept = {name: value for name, value in os.environ.items()
            if not name.startswith(("GIT_", "SSH_")) or name.startswith("GIT_SSL_")}
    return {**kept, "GIT_CONFIG_NOSYSTEM": "1", "GIT_CONFIG_GLOBAL": "/dev/null", "GIT_ATTR_NOSYSTEM": "1",
            "GIT_TERMINAL_PROMPT": "0", "GIT_ASKPASS": "/bin/false", "GIT_LFS_SKIP_SMUDGE": "1",
            "LC_ALL": "C"}


def git(folder: Path, scheme: str, *words: str) -> str:
    """What git prints in a folder with a repository and a tree. Raises FetchError with the line that says
    why."""
    places = (f"--git-dir={folder / 'git'}", f"--work-tree={folder / 'tree'}")
    command = ["git", *WORDS, "-c", f"protocol.{scheme}.allow=always", *places, *words]
    try:
        done = subprocess.run(command, env=git_environment(), stdin=subprocess.DEVNULL, capture_output=True,
                              check=False, timeout=MOST_SECONDS, cwd=folder)
    except FileNotFoundError:
        raise FetchError("git is not installed") from None
    except subprocess.TimeoutExpired:
        raise FetchError(f"git did not end within {MOST_SECONDS} seconds") from None
    if done.returncode:
        lines = [line.strip() for line in done.stderr.decode("utf-8", "replace").splitlines() if line.strip()]
        told = [line for line in lines if line.startswith(("fatal:", "error:"))] or lines
        raise FetchError(re.sub(r"^(fatal|error): ", "", (told or [f"git ended with {done.returncode}"])[0]))
    return done.stdout.decode("utf-8", "replace").strip()


def read_small(path: Path) -> bytes:
    """The bytes of a file of at most MOST_BYTES. Raises OSError also for a pipe or a device."""
    opened = os.open(path, os.O_RDONLY | os.O_NONBLOCK | os.O_CLOEXEC)
    with open(opened, "rb") as file:
        if not stat.S_ISREG(os.fstat(opened).st_mode):
            raise OSError(0, "it is no file", os.fspath(path))
        text = file.read(MOST_BYTES + 1)
    if len(text) > MOST_BYTES:
        raise OSError(0, f"it has more than {MOST_BYTES} bytes", os.fspath(path))
    return text


@dataclass
class Store:
    """The folder that keeps actions."""

    base: str = BASE
    folder: Path = field(default_factory=lambda: cache_root() / "actions")

    def url(self, reference: Reference) -> str:
        """Where the repository is fetched from."""
        return f"{self.base}/{reference.owner}/{reference.name}"

    def tree(self, reference: Reference, commit: str) -> Path:
        """The place of the files of a commit of a repository."""
        return self.folder.joinpath("trees", reference.owner.lower(), reference.name.lower(), commit)

    def has(self, reference: Reference, commit: str) -> bool:
        """Whether the files of a commit of a repository are kept."""
        return bool(commit) and self.tree(reference, commit).is_dir()

    def note(self, reference: Reference) -> Path:
        """The file with the commit that a ref named when it was fetched."""
        base, ref = hashlib.sha256(self.base.encode()).hexdigest()[:16], quote(reference.ref, safe="")
        return self.folder.joinpath("refs", base, reference.owner.lower(), reference.name.lower(), ref)

    def commit_of(self, reference: Reference) -> str:
        """The commit that the ref names as far as is known here, or nothing."""
        try:
            known = reference.commit or read_small(self.note(reference)).decode("ascii", "replace").strip()
        except OSError:
            return ""
        return known if COMMIT.fullmatch(known) else ""

    def fetch(self, reference: Reference) -> str:
        """Fetches the ref, keeps the files of its commit, and gives that. Raises FetchError."""
        with self.locked():
            room = Path(tempfile.mkdtemp(prefix=".new-", dir=self.folder))
            try:
                commit = self.fetch_into(room, reference)
                if not self.has(reference, commit):
                    self.tree(reference, commit).parent.mkdir(mode=0o700, parents=True, exist_ok=True)
                    (room / "tree").rename(self.tree(reference, commit))
                if not reference.commit:
                    self.keep(reference, commit, room)
            finally:
                shutil.rmtree(room, ignore_errors=True)
        return commit

    def fetch_into(self, room: Path, reference: Reference) -> str:
        """Puts the files of a ref into `tree` of a new folder; gives its commit."""
        scheme = self.base.partition("://")[0]
        (room / "tree").mkdir(mode=0o700)
        git(room, scheme, "init", "-q")
        git(room, scheme, "fetch", "-q", "--depth=1", "--no-tags", "--no-recurse-submodules",
            "--no-write-fetch-head", "--", self.url(reference), f"{reference.ref}:refs/fetched")
        commit = git(room, scheme, "rev-parse", "--verify", "--quiet", "refs/fetched^{commit}")
        if not COMMIT.fullmatch(commit) or commit != (reference.commit or commit):
            raise FetchError(f"git found the commit {commit or '(none)'}")
        git(room, scheme, "-c", "advice.detachedHead=false", "checkout", "-q", "--force",
            "--no-recurse-submodules", "--detach", commit)
        return commit

    def keep(self, reference: Reference, commit: str, room: Path) -> None:
        """Notes the commit of a ref."""
        place = self.note(reference)
        place.parent.mkdir(mode=0o700, parents=True, exist_ok=True)
        (room / "note").write_text(f"{commit}\n", encoding="ascii")
        (room / "note").replace(place)

    @contextlib.contextmanager
    def locked(self) -> Iterator[None]:
        """The folder, while no other execution fetches into it. What one that was killed left is removed."""
        cache_root().mkdir(mode=0o700, parents=True, exist_ok=True)
        self.folder.mkdir(mode=0o700, parents=True, exist_ok=True)
        self.folder.chmod(0o700)
        with open(self.folder / "lock", "w", encoding="utf-8") as lock:
            fcntl.flock(lock, fcntl.LOCK_EX)
            for left in self.folder.glob(".new-*"):
                shutil.rmtree(left, ignore_errors=True)
            yield


def read_lock(top: Path) -> dict[str, str]:
    """The commits that actrun.lock of a repository pins, by `owner/name@ref`; none if there is no such
    file."""
    place, pins = top / LOCK_NAME, {}
    try:
        lines = read_small(place).decode("utf-8").splitlines()
    except FileNotFoundError:
        return {}
    except (OSError, UnicodeDecodeError) as error:
        why = error.strerror if isinstance(error, OSError) else "it is no UTF-8"
        raise Problem(
            f"{place}: the file cannot be read ({why}): remove it, then write it by --lock"
        ) from None
    for number, line in enumerate(lines, 1):
        name, _, commit = line.strip().partition(" ")
        if not name or name.startswith("#"):
            continue
        reference = parse_reference(name)
        if not reference or reference.path or not COMMIT.fullmatch(commit):
            raise Problem(f"{place}:{number}: OWNER/NAME@REF and a commit of 40 digits were expected: "
                          "write the file by `actrun try --lock`")
        pins[reference.key] = commit
    return pins


def write_lock(top: Path, pins: dict[str, str]) -> Path:
    """Writes actrun.lock of a repository, whole or not at all."""
    place = top / LOCK_NAME
    handle, new = tempfile.mkstemp(prefix=f".{LOCK_NAME}-", dir=top)
    with open(handle, "w", encoding="utf-8") as file:
        file.write(LOCK_HEAD + "".join(f"{name} {commit}\n" for name, commit in sorted(pins.items())))
    os.chmod(new, 0o644)
    os.replace(new, place)
    return place
