"""The repository: what git knows of it, the work folders of executions, and the copy of the working tree in
them."""
from __future__ import annotations

import contextlib
import errno
import fcntl
import functools
import hashlib
import os
import re
import secrets
import subprocess
import time
from dataclasses import dataclass, field
from pathlib import Path
from typing import IO, Iterator

from . import Problem, files, keeping
from .repository import alternates, ask, check, find_top, folders, git, make, of_system, setting, settings

__all__ = ["ask", "find_top", "git"]
GITHUB = "github.com"
URLS = [re.compile(start + r"/*(?:[^/]+/)*(?P<owner>[^/]+)/(?P<name>[^/]+?)(?:\.git)?/*") for start in (
    r"(?P<scheme>https?|ssh|git|git\+ssh)://(?:[^/]*@)?(?P<host>\[[^]]+\]|[^/:@\[\]]+)(?P<port>:\d+)?/",
    r"(?P<scheme>)(?:[^@/\[\]]+@)?(?P<host>\[[^]]+\]|[^@/:\[\]]{2,})(?P<port>):(?!//)")]
# folders of the steps, and in `private` contexts, workflows, plan, record and diagrams, which may hold
# secrets
FOLDERS = (
    "private",
    "play",
    *(f"play/{name}" for name in ("tree", "files", "temp", "tools", "tmp", "bin", "stubs", "artifacts")),
)


@dataclass(frozen=True)
class Facts:
    """The state of a working tree and where it is hosted, else as if its actor owned it on GitHub. What is
    not known is empty."""

    top: Path
    actor: str = ""
    mail: str = ""
    repository: bool = False
    nested: bool = False     # `top` is a folder below that of the repository, with workflows of its own
    sha: str = ""
    branch: str = ""         # empty on a detached head
    ref: str = ""            # the full name of the branch, or of the tag of a detached head
    default_branch: str = "main"
    # branch, that of `origin` before one's own -> its commit
    heads: dict[str, str] = field(default_factory=dict)
    server: str = f"https://{GITHUB}"
    owner: str = ""
    name: str = ""
    full_name: str = ""      # `owner/name`
    web: str = ""            # the page of the repository


def find_project(start: Path, top: Path) -> Path:
    """The nearest folder from `start` up to the repository's top that has workflows; the top where none
    has."""
    start, top = start.resolve(), top.resolve()
    below = [folder for folder in (start, *start.parents) if top in folder.parents]
    return next((folder for folder in below if (folder / ".github" / "workflows").is_dir()), top)


def read_facts(top: Path, repository: bool, nested: bool = False) -> Facts:
    """The facts of the working tree with that top."""
    actor, mail = setting(top, "github.user") or os.environ.get("USER") or "user", setting(top, "user.email")
    own = (re.sub(r"[^\w.-]+", "-", actor), re.sub(r"[^\w.-]+", "-", top.name))
    if not repository:
        return Facts(top, actor, mail, owner=own[0], name=own[1], full_name="/".join(own))
    branch = git(top, "symbolic-ref", "--quiet", "--short", "HEAD") or ""
    tag = "" if branch else git(top, "describe", "--tags", "--exact-match", "HEAD") or ""
    found = (
        git(
            top,
            "for-each-ref",
            "--format=%(objectname) %(refname) %(symref)",
            "refs/heads",
            "refs/remotes/origin",
        )
        or ""
    )
    rows = [line.split(" ") for line in found.splitlines()]
    heads = {re.sub("^refs/(heads|remotes/origin)/", "", name): commit for commit, name, _ in rows}
    of_origin = next(
        (
            target.removeprefix("refs/remotes/origin/")
            for _, name, target in rows
            if name == "refs/remotes/origin/HEAD"
        ),
        "",
    )
    # the remote `origin`, else that of the branch, else the first one
    remotes = (git(top, "remote") or "").splitlines()
    wanted = ["origin", setting(top, f"branch.{branch}.remote") if branch else None, *remotes]
    remote = next((name for name in wanted if name in remotes), None)
    server, owner, name = parse_remote((git(top, "remote", "get-url", remote) if remote else None) or "")
    web = f"{server}/{owner}/{name}" if owner else ""
    owner, name = (owner, name) if owner else own
    return Facts(
        top,
        actor,
        mail,
        True,
        nested,
        git(top, "rev-parse", "--verify", "--quiet", "HEAD") or "",
        branch,
        f"refs/heads/{branch}" if branch else f"refs/tags/{tag}" if tag else "",
        of_origin or next((name for name in ("main", "master") if name in heads), branch or "main"),
        heads,
        server,
        owner,
        name,
        f"{owner}/{name}",
        web,
    )


def parse_remote(url: str) -> tuple[str, str, str]:
    """Server, owner and name of a remote's URL. A path of this machine has no owner."""
    found = next(filter(None, (form.fullmatch(url) for form in URLS)), None)
    if not found:
        return f"https://{GITHUB}", "", ""
    host = found["host"].lower()
    # an alias of ~/.ssh/config has no dot
    host = GITHUB if "." not in host or host in ("ssh.github.com", "www.github.com") else host
    return (
        f"https://{host}" + (found["port"] or "" if found["scheme"].startswith("http") else ""),
        found["owner"],
        found["name"],
    )


def cache_root() -> Path:
    """The folder that holds everything `try` keeps."""
    return Path(os.environ.get("XDG_CACHE_HOME") or Path.home() / ".cache").absolute() / "actrun"


def make_root() -> Path:
    """The folder that holds everything `try` keeps, made for its owner alone, whatever made it before."""
    root = cache_root()
    root.mkdir(mode=0o700, parents=True, exist_ok=True)
    try:
        if root.stat().st_mode & 0o077:
            root.chmod(0o700)
    except PermissionError:
        raise Problem(
            f"{root}: this directory belongs to somebody else: set XDG_CACHE_HOME to another", 3
        ) from None
    return root


def kept_for(top: Path, kind: str) -> Path:
    """The place of something that is kept for one repository."""
    place = make_root() / kind / f"{short_name(top.name)}-{hashlib.sha256(os.fsencode(top)).hexdigest()[:12]}"
    place.parent.mkdir(parents=True, exist_ok=True)
    return place


@dataclass
class Room:
    """The folder of one execution. Steps see `play` alone."""

    folder: Path
    name: str            # of the repository
    lock: IO[str]

    def __post_init__(self) -> None:
        # the folder of `run --work`: step files, and below it what else steps see
        self.play = self.folder / "play"
        # the copy of the working tree, or a link to it, in a folder of its own as on GitHub
        self.tree = self.play / "tree" / self.name
        self.private = self.folder / "private"
        # links to the folders in which the repository keeps its objects
        self.objects = self.folder / "objects"
        # what actions/checkout reads, which steps cannot write
        self.source = self.folder / "source" / self.name
        # where the copy of the working tree is: there or in `source`
        self.files = self.tree
        self.identity = files.identity(self.folder) if self.folder.exists() else None


def make_room(parent: Path, name: str, keep: Path | None = None, place: Path | None = None) -> Room:
    """A new folder for one execution, `place` if that is given. Nobody else can read it, and no other
    execution removes it while it is in use."""
    named = place or (keep.absolute() if keep else None)
    folder = named or parent / f"{short_name(name)}-{time.strftime('%Y%m%d-%H%M%S')}-{secrets.token_hex(3)}"
    if folder.exists() and (not folder.is_dir() or any(folder.iterdir())):
        raise Problem(f"--keep {keep}: this exists and is not empty: name a new directory")
    make_root()
    if keep or place and place.parent != parent:
        return fill_room(folder, short_name(name), 0)
    parent.mkdir(parents=True, exist_ok=True)
    with keeping.held(parent):
        return fill_room(folder, short_name(name), keeping.next_number(parent))


def fill_room(folder: Path, name: str, number: int) -> Room:
    """Makes the folders of an execution, and locks them. If that fails, nothing is left."""
    folder.mkdir(mode=0o700, parents=True, exist_ok=True)
    try:
        folder.chmod(0o700)
        folder = folder.resolve()
        for part in FOLDERS:
            (folder / part).mkdir(mode=0o700)
        lock = open(folder / "lock", "w", encoding="ascii")
        fcntl.flock(lock, fcntl.LOCK_EX | fcntl.LOCK_NB)
        lock.write(f"{number}\n")
        lock.flush()
    except OSError:
        remove(folder)
        raise
    return Room(folder, name, lock)


def short_name(name: str) -> str:
    """A name for a folder, with plain characters alone."""
    return re.sub(r"[^A-Za-z0-9._-]+", "_", name)[:40].strip("._-") or "tree"


def clean(parent: Path, own: Path) -> None:
    """Removes old work folders that no execution uses: never `own`, nor one that ended within the hour."""
    with contextlib.suppress(OSError):
        for folder, lock in keeping.choose_old(parent, own):
            with lock:
                remove(folder, files.identity(folder))


def remove(folder: Path, known: tuple[int, int] | None = None) -> None:
    """Removes a folder, also where steps left folders in it that cannot be written."""
    files.remove(folder, known)


def copy_tree(facts: Facts, room: Room, in_place: bool = False, named: tuple[Path, ...] = ()) -> list[str]:
    """Copies the working tree into the room, with links, modes and times, and gives what was left out, a
    sentence each. With `in_place` a link to it is made. `named` are places of --bind."""
    left: list[str] = []
    if in_place and os.fsencode(facts.top).decode("utf-8", "replace") != str(facts.top):
        raise Problem(f"--in-place {facts.top}: the program takes only names in UTF-8: leave --in-place out")
    if in_place:
        room.tree.symlink_to(facts.top)
        return left
    if not facts.repository and facts.top in (Path.home(), Path("/")):
        raise Problem(
            f"{facts.top} is no repository, and too much to copy: name a directory by --directory DIR"
        )
    for folder in {room.tree, room.files}:
        folder.mkdir(parents=True)
    if not facts.repository:
        copy(facts.top, ["cp", "-a", "--reflink=auto", "--", "./.", room.files])
        return left
    names = b"".join(b"./" + name + b"\0" for name in files_of(facts.top, left))
    if facts.nested:
        left.append(
            "the history: the directory is a part of a repository, so git knows no commit in the copy"
        )
    else:
        copy_repository(facts.top, room, named)
    copy(
        facts.top,
        [
            "xargs",
            "-0",
            "-r",
            "cp",
            "-d",
            "--reflink=auto",
            "--preserve=mode,timestamps",
            "--parents",
            "-t",
            room.files,
            "--",
        ],
        names,
    )
    return left


def copy(top: Path, words: list[str | Path], names: bytes = b"") -> None:
    """Executes a command that copies files of a folder; blocks are shared where the file system can."""
    own = [of_system(str(word), top) if word in ("cp", "xargs") else word for word in words]
    answer = subprocess.run(
        own, cwd=top, input=names, capture_output=True, check=False, env={**os.environ, "LC_ALL": "C"}
    )
    text = check_room(answer)
    if answer.returncode != 0:
        raise Problem(f"the working tree {top} cannot be copied: {text.partition(chr(10))[0]}: change the rights, or name the file in .gitignore", 3)


def check_room(answer: subprocess.CompletedProcess[bytes]) -> str:
    """What a command said on standard error. Raises OSError if the cache has no room for what it writes."""
    text = answer.stderr.decode("utf-8", "replace").strip()
    known = (errno.ENOSPC, errno.EDQUOT) if answer.returncode else ()
    number = next((number for number in known if os.strerror(number) in text), 0)
    if number:
        raise OSError(number, os.strerror(number), os.fspath(cache_root()))
    return text


def files_of(top: Path, left: list[str], prefix: bytes = b"") -> Iterator[bytes]:
    """The names of the files that git tracks or would add, those of submodules among them, from the top."""
    root = os.path.realpath(os.fsencode(top))
    real = functools.lru_cache(None)(lambda folder: bool(os.path.realpath(folder) == folder))
    answer = ask(top, "ls-files", "-co", "--exclude-standard", "-z")
    if answer.returncode != 0:
        raise Problem(
            f"{top}: git cannot list the files: {answer.stderr.decode(errors='replace').strip()}", 3
        )
    for name in dict.fromkeys(filter(None, answer.stdout.split(b"\0"))):
        path = os.path.join(root, name)
        if name.endswith(b"/"):
            left.append(f"{os.fsdecode(prefix + name)} is a repository of its own that git does not track")
        elif os.path.isdir(path) and not os.path.islink(path):
            if os.path.lexists(os.path.join(path, b".git")):
                yield from files_of_module(Path(os.fsdecode(path)), left, prefix + name + b"/")
        elif os.path.lexists(path) and real(os.path.dirname(path)):  # (behind a link git tracks nothing)
            if os.path.islink(path) or os.path.isfile(path):
                yield prefix + name
            else:
                left.append(f"{os.fsdecode(prefix + name)} is no plain file")


def files_of_module(top: Path, left: list[str], prefix: bytes) -> Iterator[bytes]:
    """The names of the files of a submodule, if its repository says that the folder is its own."""
    try:
        check(top)
    except Problem as problem:
        left.append(str(problem))
        return
    yield from files_of(top, left, prefix)


def copy_repository(top: Path, room: Room, named: tuple[Path, ...] = ()) -> None:
    """Makes the copy a repository at the same commit. It reads the objects through links in the room, and can
    write none of them. Of the configuration it has the remotes without passwords, and how files are compared.
    `named` are places of --bind."""
    form, folder = git(top, "rev-parse", "--show-object-format") or "sha1", room.files / ".git"
    check_room(make(room.files, *([f"--object-format={form}"] if form != "sha1" else [])))
    names = ("objects", "HEAD", "packed-refs", "refs", "index", "shallow", "info")
    found = (
        git(
            top,
            "rev-parse",
            *(word for name in names for word in ("--git-path", name)),
            "--shared-index-path",
        )
        or ""
    )
    objects, *paths = [top / name for name in found.split("\n") if name]
    copy(top, ["cp", "-a", "--", *(path for path in paths if path.exists()), folder])
    room.objects.mkdir()
    inherited = alternates(objects, (top, *folders(top), *named))
    for number, path in enumerate((objects, *inherited)):
        (room.objects / str(number)).symlink_to(path.resolve())
    links = "".join(f"{link}\n" for link in room.objects.iterdir())
    (folder / "objects" / "info" / "alternates").write_text(links, encoding="utf-8")
    write_config(top, folder / "config")


def write_config(top: Path, file: Path) -> None:
    """Adds the remotes without passwords to the configuration of the copy, how files are compared, and
    nothing else of the user's."""
    entries = [("core.checkstat", "minimal"), ("core.trustctime", "false"), ("gc.auto", "0")]
    kept = r"core\.(autocrlf|eol|filemode|symlinks|ignorecase)|remote\.[^\n]*\.(url|fetch)"
    entries += [entry for entry in settings(top) if re.fullmatch(kept, entry[0])]
    before = ""
    with open(file, "a", encoding="utf-8", errors="surrogateescape") as text:
        for key, value in entries:
            section, _, rest = key.partition(".")
            below, _, name = rest.rpartition(".")
            head = f"[{section} {quoted(below)}]" if below else f"[{section}]"
            value = re.sub(r"^([a-z+]+://)[^/]*@", r"\1", value)
            value = value if re.fullmatch(r"[\w:/.@+*-]+", value) else quoted(value)
            text.write((head + "\n") * (head != before) + f"\t{name} = {value}\n")
            before = head


def quoted(text: str) -> str:
    """A text in quotes, for a configuration of git."""
    text = text.replace("\\", "\\\\").replace('"', '\\"').replace("\n", "\\n")
    return f'"{text}"'
