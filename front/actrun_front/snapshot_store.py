"""Where snapshots are kept: a private bare repository for each repository, of objects that the front writes.

A snapshot is a tree with two entries: `path`, what steps of the leg wrote into GITHUB_PATH, and `tree`, the
workspace. Each folder of the workspace has an entry `.`, a list of modes and times, which git's trees have
not. Git reads nothing of a workspace: it gets a pack of objects, and is asked for objects.
"""
from __future__ import annotations

import contextlib
import fcntl
import hashlib
import os
import secrets
import struct
import tempfile
import threading
import time
import zlib
from dataclasses import dataclass, field
from pathlib import Path
from typing import IO, Dict, Iterable, Iterator, Tuple

from . import Problem, repository

MOST_BYTES = 2 * 1024 ** 3     # of a store, until the oldest executions are removed
MOST_EXECUTIONS = 20
FEW = 100                      # objects that become files of their own, not a pack
AT_ONCE = 32 * 1024 ** 2       # bytes of objects that are read by one call of git
KINDS = {b"blob": 3, b"tree": 2}
FOLDER, FILE, PROGRAM, LINK = 0o40000, 0o100644, 0o100755, 0o120000
ABOUT = b"."                   # the entry with modes and times, which no file can have as its name
NAMES = "refs/snapshots"
Place = Tuple[int, int]        # leg and step
Entry = Tuple[int, bytes]      # mode and id
Entries = Dict[bytes, Entry]   # of a tree, by name


def id_of(kind: bytes, data: bytes) -> bytes:
    """The id of an object."""
    return hashlib.sha256(b"%s %d\0" % (kind, len(data)) + data).digest()


def tree_data(entries: Entries) -> bytes:
    """The object of a tree."""
    def key(one: tuple[bytes, Entry]) -> bytes:
        return one[0] + b"/" if one[1][0] == FOLDER else one[0]
    rows = sorted(entries.items(), key=key)
    return b"".join(b"%o %s\0" % (mode, name) + number for name, (mode, number) in rows)


EMPTY = id_of(b"tree", b"")


@dataclass
class Batch:
    """Objects that are written together. `known` are those that the store has."""

    known: set[bytes]
    file: IO[bytes]
    new: set[bytes] = field(default_factory=set)
    stored: int = 0     # bytes

    def add(self, kind: bytes, data: bytes) -> bytes:
        """Adds an object; gives its id."""
        number = id_of(kind, data)
        if number in self.known or number in self.new:
            return number
        size, head = len(data) >> 4, [KINDS[kind] << 4 | len(data) & 15]
        while size:
            head[-1] |= 128
            head.append(size & 127)
            size >>= 7
        packed = bytes(head) + zlib.compress(data, 1)
        self.file.write(packed)
        self.new.add(number)
        self.stored += len(packed)
        return number

    def end(self) -> None:
        """Makes the file a pack."""
        self.file.seek(0)
        self.file.write(b"PACK" + struct.pack(">II", 2, len(self.new)))
        self.file.seek(0)
        sum_of_all = hashlib.sha256()
        for part in iter(lambda: self.file.read(1 << 20), b""):
            sum_of_all.update(part)
        self.file.write(sum_of_all.digest())
        self.file.seek(0)


@dataclass
class Store:
    """The snapshots of one repository."""

    folder: Path
    known: set[bytes] | None = None
    guard: threading.Lock = field(default_factory=threading.Lock)
    lock: IO[bytes] | None = None      # as long as an execution uses it

    def open(self) -> Store:
        """Makes the repository, if it is not there; others remove nothing of it until it is closed."""
        if not (self.folder / "HEAD").is_file():
            self.folder.mkdir(mode=0o700, parents=True, exist_ok=True)
            answer = repository.make(self.folder, "--bare", "--object-format=sha256")
            if answer.returncode != 0:
                raise OSError(f"{self.folder}: {answer.stderr.decode('utf-8', 'replace').strip()}")
        self.lock = open(self.folder / "in-use", "wb")
        fcntl.flock(self.lock, fcntl.LOCK_SH)
        return self

    def close(self) -> None:
        """Lets others remove objects."""
        if self.lock is not None:
            self.lock.close()
        self.lock = None

    def git(self, *words: str, given: IO[bytes] | None = None) -> bytes:
        """What git answers about the store. Raises OSError if it fails."""
        answer = repository.ask_bare(self.folder, *words, given=given)
        if answer.returncode != 0:
            said = answer.stderr.decode("utf-8", "replace").strip()
            raise OSError(f"{self.folder}: git {words[0]}: {said}")
        return answer.stdout

    def all_known(self) -> set[bytes]:
        """The ids of all objects."""
        with self.guard:
            if self.known is None:
                words = ("--batch-all-objects", "--unordered", "--batch-check=%(objectname)")
                text = self.git("cat-file", *words)
                self.known = set(map(bytes.fromhex, text.decode("ascii").split()))
            return self.known

    @contextlib.contextmanager
    def batch(self) -> Iterator[Batch]:
        """Takes objects, and writes them at its end."""
        known = self.all_known()
        with tempfile.TemporaryFile(dir=self.folder) as file:
            file.write(bytes(12))
            batch = Batch(known, file)
            yield batch
            if batch.new:
                batch.end()
                words = ("unpack-objects", "-q") if len(batch.new) <= FEW else ("index-pack", "--stdin")
                self.git(*words, given=file)
                with self.guard:
                    known.update(batch.new)

    # names: a file for each snapshot

    def name(self, execution: str, place: Place | None) -> Path:
        """The file with the id of a snapshot; without a place that of the workspace before all steps."""
        return self.folder / NAMES / execution / ("start" if place is None else f"{place[0]}-{place[1]}")

    def keep(self, execution: str, place: Place | None, number: bytes) -> None:
        """Names a snapshot."""
        file = self.name(execution, place)
        file.parent.mkdir(parents=True, exist_ok=True)
        new = file.with_name(f".{secrets.token_hex(4)}.lock")
        new.write_text(f"{number.hex()}\n", encoding="ascii")
        new.replace(file)

    def find(self, execution: str, place: Place | None) -> bytes | None:
        """The id of a snapshot."""
        try:
            return bytes.fromhex(self.name(execution, place).read_text(encoding="ascii"))
        except (OSError, ValueError):
            return None

    def places(self, execution: str) -> set[Place]:
        """The steps with a snapshot."""
        try:
            names = [name.split("-") for name in os.listdir(self.folder / NAMES / execution)]
        except OSError:
            return set()
        pairs = (name for name in names if len(name) == 2 and all(map(str.isdigit, name)))
        return {(int(leg), int(step)) for leg, step in pairs}

    def forget(self, execution: str) -> None:
        """Removes the names of an execution."""
        folder = self.folder / NAMES / execution
        for name in os.listdir(folder) if folder.is_dir() else ():
            (folder / name).unlink()
        with contextlib.suppress(OSError):
            folder.rmdir()

    # what is read

    def objects(self, numbers: Iterable[bytes]) -> Iterator[tuple[bytes, bytes]]:
        """Ids and contents of objects."""
        numbers = list(numbers)
        if not numbers:
            return
        with tempfile.TemporaryFile(dir=self.folder) as file:
            file.writelines(number.hex().encode() + b"\n" for number in numbers)
            file.seek(0)
            text, at = self.git("cat-file", "--batch", given=file), 0
        while at < len(text):
            end = text.index(b"\n", at)
            name, kind, *size = text[at:end].split(b" ")
            if kind == b"missing":
                raise OSError(f"{self.folder}: the object {name.decode()} is not there")
            yield bytes.fromhex(name.decode("ascii")), text[end + 1:end + 1 + int(size[0])]
            at = end + 2 + int(size[0])

    def object(self, number: bytes) -> bytes:
        """The content of an object."""
        return next(data for _, data in self.objects([number]))

    def trees(self, *snapshots: bytes | None) -> list[bytes]:
        """The ids of the workspaces of snapshots; of an empty one where there is none."""
        contents = dict(self.objects(filter(None, dict.fromkeys(snapshots))))
        found = (
            {name: number for _, number, name in entries_of(contents.get(one or b"", b""))}
            for one in snapshots
        )
        return [entries.get(b"tree", EMPTY) for entries in found]

    def entry(self, tree: bytes, path: bytes) -> Entry | None:
        """Mode and id of what has a path in a tree; None if nothing has."""
        mode, number = FOLDER, tree
        for part in filter(None, path.split(b"/")):
            found = entries_of(self.object(number)) if mode == FOLDER else ()
            named = next(((mode, number) for mode, number, name in found if name == part != ABOUT), None)
            if named is None:
                return None
            mode, number = named
        return mode, number

    def path(self, snapshot: bytes) -> bytes:
        """What GITHUB_PATH had in a snapshot."""
        return self.object(
            next(number for _, number, name in entries_of(self.object(snapshot)) if name == b"path")
        )

    def changes(self, before: bytes, after: bytes) -> list[tuple[str, bytes]]:
        """What is added (A), changed (M) and deleted (D) from one tree to another, but for `.git`."""
        return next(self.all_changes([(before, after)]))

    def all_changes(self, pairs: Iterable[tuple[bytes, bytes]]) -> Iterator[list[tuple[str, bytes]]]:
        """The changes of several pairs of trees."""
        with tempfile.TemporaryFile(dir=self.folder) as file:
            file.writelines(f"{before.hex()} {after.hex()}\n".encode("ascii") for before, after in pairs)
            file.seek(0)
            text = self.git("diff-tree", "-r", "--no-renames", "--name-status", "-z", "--stdin", given=file)
        at = 0
        found: list[tuple[str, bytes]] | None = None
        while at < len(text):
            if text[at:at + 1] in b"ADMT":
                end = text.index(b"\0", at + 2)
                kind, path, at = text[at:at + 1], text[at + 2:end], end + 1
                if found is not None and not {b".", b".git"} & set(path.split(b"/")):
                    found.append((kind.decode("ascii").replace("T", "M"), path))
                continue
            if found is not None:
                yield found
            at, found = text.index(b"\n", at) + 1, []
        if found is not None:
            yield found

    def difference(self, before: bytes, after: bytes, path: bytes) -> bytes:
        """The difference of a file in two trees."""
        words = ("diff-tree", "-p", "-r", "--no-renames", "--no-ext-diff", "--no-textconv", "--no-color")
        return self.git(*words, before.hex(), after.hex(), "--", os.fsdecode(path))

    # the bounds

    def bound(self) -> None:
        """Removes the oldest executions if there are too many, or all take too much room, unless the store is
        in use."""
        executions = self.executions()
        if len(executions) <= MOST_EXECUTIONS and self.size() <= MOST_BYTES:
            return
        with open(self.folder / "in-use", "wb") as lock:
            try:
                fcntl.flock(lock, fcntl.LOCK_EX | fcntl.LOCK_NB)
            except OSError:
                return
            while len(executions) > MOST_EXECUTIONS or len(executions) > 1 and self.size() > MOST_BYTES:
                few = max(len(executions) // 4, 1)  # (several at a time: writing all again is slow)
                for execution in executions[:few]:
                    self.forget(execution)
                executions = executions[few:]
                self.git("repack", "-a", "-d", "-q")
                self.git("prune", "--expire=now")

    def executions(self) -> list[str]:
        """The executions with snapshots, the oldest first."""
        place = self.folder / NAMES
        return sorted(os.listdir(place)) if place.is_dir() else []

    def size(self) -> int:
        """The bytes of all objects."""
        lines = (line.split(b": ") for line in self.git("count-objects", "-v").splitlines())
        sizes = {name: int(value) for name, value in lines if name in (b"size", b"size-pack")}
        return 1024 * sum(sizes.values())


def entries_of(data: bytes) -> Iterator[tuple[int, bytes, bytes]]:
    """Mode, id and name of each entry of a tree."""
    at = 0
    while at < len(data):
        end = data.index(b"\0", at)
        mode, _, name = data[at:end].partition(b" ")
        yield int(mode, 8), data[end + 1:end + 33], name
        at = end + 33


def new_execution() -> str:
    """A name for the snapshots of an execution; older ones are before it in order."""
    return f"{time.time_ns():020}-{secrets.token_hex(3)}"


def store_of(top: Path) -> Store:
    """The store of a repository. Raises Problem if it cannot be used."""
    from .tree import kept_for
    try:
        return Store(kept_for(top, "snapshots")).open()
    except OSError as error:
        raise Problem(f"snapshots cannot be kept: {error}: leave them out by --no-snapshots", 3) from None
