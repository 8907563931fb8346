"""Snapshots: after each step, before its answer is given, the workspace of its leg is kept.

The workspace is what a stranger's steps left: folders are opened one by one, no link is followed, `.git` is
read as files are, and what is no file, folder or link is left out. A file is read again if its time, size or
number changed. What a step left running may change files meanwhile: each file is kept as it was read.
"""
from __future__ import annotations

import contextlib
import errno
import os
import socket
import stat
import threading
import time
from dataclasses import dataclass, field
from pathlib import Path
from typing import Callable, Dict, List, Tuple

from . import Problem, files
from .relay import carry
from .snapshot_store import ABOUT, EMPTY, FILE, FOLDER, LINK, PROGRAM, Batch, Entries, Place, Store, tree_data

MOST_FILES = 20_000              # of a workspace; with --snapshots MOST_ASKED
MOST_ASKED = 1_000_000
MOST_OF_FILE = 64 * 1024 ** 2    # bytes
MOST_READ = 1024 ** 3            # bytes that are read for one snapshot
MOST_STORED = 2 * 1024 ** 3      # bytes that an execution adds to the store
DEEPEST = 64
LONGEST = 3000                   # bytes of a path; the system has at most 4096, and folders above it
FRESH = 20_000_000               # nanoseconds in which a file may change without a new time
SETUID = stat.S_ISUID | stat.S_ISGID
State = Tuple[int, ...]          # times, size, number and mode of a file


class TooMuch(Exception):
    """A workspace of which no snapshot is made; the text says why."""


@dataclass(frozen=True)
class Spot:
    """Where a workspace is: below a folder of the front's, by parts that steps may have changed."""

    base: Path
    parts: Tuple[str, ...]


@dataclass
class Folder:
    """What a folder had at the last snapshot."""

    states: Dict[str, State] = field(default_factory=dict)
    entries: Entries = field(default_factory=dict)
    number: bytes = b""          # of its tree; nothing if it has to be read again


@dataclass
class Workspace:
    """A workspace between two snapshots."""

    folders: Dict[str, Folder] = field(default_factory=dict)
    left: Dict[str, str] = field(default_factory=dict)   # what no snapshot has, and why
    why_not: str = ""            # no snapshot is made any more


def about(entries: List[Tuple[str, os.stat_result]]) -> bytes:
    """The list of modes and times of the entries of a folder."""
    return b"".join(b"%o %d %s\0" % (found.st_mode & 0o7777 & ~SETUID, found.st_mtime_ns, os.fsencode(name))
                    for name, found in sorted(entries))


def safe_stat(entry: os.DirEntry[str]) -> os.stat_result | None:
    """The state of an entry of a folder; None where it is gone meanwhile."""
    try:
        return entry.stat(follow_symlinks=False)
    except OSError:
        return None


def too_many(kind: str, most: int) -> TooMuch:
    """The error of a workspace with more files or folders than a limit."""
    remedy = ": --snapshots keeps it" if most == MOST_FILES else ""
    return TooMuch(f"it has more than {most:,} {kind}{remedy}")


def check_size(number: int, most: int, left: List[int], depth: int = 0) -> None:
    """Raises TooMuch for an open folder with more than `most` files or folders, of which some are left. No
    file is read, so this takes little time."""
    with os.scandir(number) as entries:
        for entry in entries:
            is_folder = entry.is_dir(follow_symlinks=False)
            left[is_folder] -= 1
            if left[is_folder] < 0:
                raise too_many("folders" if is_folder else "files", most)
            if is_folder and depth < DEEPEST:
                with contextlib.suppress(OSError):
                    inner = os.open(entry.name, os.O_RDONLY | os.O_DIRECTORY | files.NO_LINK, dir_fd=number)
                    try:
                        check_size(inner, most, left, depth + 1)
                    finally:
                        os.close(inner)


@dataclass
class Visit:
    """One walk through a workspace."""

    workspace: Workspace
    batch: Batch
    most: int
    began: int = field(default_factory=time.time_ns)
    files: int = 0
    read: int = 0
    folders: Dict[str, Folder] = field(default_factory=dict)

    def folder(self, number: int, path: str = "", depth: int = 0) -> bytes:
        """The id of the tree of an open folder. Raises TooMuch."""
        old, new = self.workspace.folders.get(path, Folder()), Folder()
        if depth > DEEPEST:
            self.leave(path, f"it is deeper than {DEEPEST} folders")
            return EMPTY
        kept: List[Tuple[str, os.stat_result]] = []
        with os.scandir(number) as entries:
            for entry in entries:
                found = safe_stat(entry)
                if found is None:
                    continue
                try:
                    self.entry(number, entry.name, f"{path}/{entry.name}", found, old, new, depth)
                    kept.append((entry.name, found))
                except OSError as error:
                    if error.errno in (errno.ENOSPC, errno.EDQUOT):
                        raise
                    if error.errno != errno.ENOENT:  # (it is gone meanwhile)
                        self.leave(f"{path}/{entry.name}", (error.strerror or "it cannot be read").lower())
                        kept.append((entry.name, found))
        self.folders[path] = new
        is_same = (new.entries, new.states) == (old.entries, old.states)
        if old.number and is_same and len(new.states) == len(kept):
            new.number = old.number
        else:
            listed = {**new.entries, ABOUT: (FILE, self.batch.add(b"blob", about(kept)))} if kept else {}
            new.number = self.batch.add(b"tree", tree_data(listed))
        return new.number

    def entry(self, folder: int, name: str, path: str, found: os.stat_result, old: Folder, new: Folder,
              depth: int) -> None:
        """Takes an entry of a folder."""
        kind, key = stat.S_IFMT(found.st_mode), os.fsencode(name)
        state = (found.st_mtime_ns, found.st_ctime_ns, found.st_size, found.st_ino, found.st_mode)
        if len(os.fsencode(path)) > LONGEST:
            self.leave(path, f"its path has more than {LONGEST} bytes")
            return
        if kind == stat.S_IFDIR:
            if len(self.folders) > self.most:
                raise too_many("folders", self.most)
            inner = os.open(name, os.O_RDONLY | os.O_DIRECTORY | files.NO_LINK, dir_fd=folder)
            try:
                new.entries[key] = FOLDER, self.folder(inner, path, depth + 1)
            finally:
                os.close(inner)
            new.states[name] = state
            return
        self.files += 1
        if self.files > self.most:
            raise too_many("files", self.most)
        if old.states.get(name) == state:
            new.states[name] = state
            if key in old.entries:
                new.entries[key] = old.entries[key]
            return
        if kind == stat.S_IFLNK:
            text = os.fsencode(os.readlink(name, dir_fd=folder))
            new.entries[key] = LINK, self.batch.add(b"blob", text)
        elif kind == stat.S_IFREG:
            data = self.content(folder, name, path)
            if data is not None:
                mode = PROGRAM if found.st_mode & 0o100 else FILE
                new.entries[key] = mode, self.batch.add(b"blob", data)
        else:
            self.leave(path, "it is no file, folder or link")
        if found.st_ctime_ns < self.began - FRESH:
            new.states[name] = state

    def content(self, folder: int, name: str, path: str) -> bytes | None:
        """The bytes of a file; None if it has too many. Raises TooMuch."""
        number = os.open(name, os.O_RDONLY | os.O_NONBLOCK | files.NO_LINK, dir_fd=folder)
        with open(number, "rb") as file:
            found = os.fstat(number)
            if not stat.S_ISREG(found.st_mode):  # (it was another thing before)
                return None
            data = file.read(MOST_OF_FILE + 1) if found.st_size <= MOST_OF_FILE else None
        if data is None or len(data) > MOST_OF_FILE:
            self.leave(path, f"it has more than {MOST_OF_FILE >> 20} MiB")
            return None
        self.read += len(data)
        if self.read > MOST_READ:
            raise TooMuch(f"its files have more than {MOST_READ >> 30} GiB")
        return data

    def leave(self, path: str, why: str) -> None:
        """Notes what is left out."""
        if len(self.workspace.left) < 100:
            self.workspace.left[path.lstrip("/")] = why


@dataclass
class Keeper:
    """Makes the snapshots of one execution."""

    store: Store
    execution: str                                    # their name
    place_of: Callable[[int], Spot]                   # where a leg's workspace is
    path_of: Callable[[int], bytes]                   # what its steps wrote into GITHUB_PATH
    most: int = MOST_FILES
    start: Spot | None = None                         # of which all workspaces are copies
    stored: int = 0                                   # bytes
    workspaces: Dict[int, Workspace] = field(default_factory=dict)
    kept: Dict[Place, bytes] = field(default_factory=dict)
    guard: threading.Lock = field(default_factory=threading.Lock)

    def begin(self, known: Dict[Place, bytes]) -> None:
        """Begins with the snapshots of steps that are not executed again."""
        self.store.forget(self.execution)
        for place, number in known.items():
            self.keep(place, number)
        if self.start is not None:
            number = self.snapshot(Workspace(), self.start, b"")
            if number:
                self.store.keep(self.execution, None, number)

    def keep(self, place: Place, number: bytes) -> None:
        """Names a snapshot."""
        self.store.keep(self.execution, place, number)
        self.kept[place] = number

    def hold(self, leg: int, step: int, connection: socket.socket) -> socket.socket:
        """What takes the place of a step's connection: its answer goes on when the snapshot is there."""
        ours, theirs = socket.socketpair()
        threading.Thread(target=self.carry, args=((leg, step), connection.dup(), ours), daemon=True).start()
        return theirs

    def carry(self, place: Place, connection: socket.socket, ours: socket.socket) -> None:
        """Carries what both sides of a step say."""
        with connection, ours, contextlib.suppress(OSError):  # (one side may have ended)
            carry(connection, ours, lambda: self.take(place))

    def take(self, place: Place) -> None:
        """Keeps the workspace of a leg after a step."""
        leg, workspace = place[0], self.workspaces.setdefault(place[0], Workspace())
        if workspace.why_not:
            return
        number = self.snapshot(workspace, self.place_of(leg), self.path_of(leg))
        try:
            if number:
                self.keep(place, number)
        except OSError as error:
            workspace.why_not = str(error.strerror)

    def snapshot(self, workspace: Workspace, place: Spot, path: bytes) -> bytes:
        """The id of a new snapshot; nothing if there is none, and the workspace says why."""
        try:
            with self.store.batch() as batch:
                tree, folders = self.tree(workspace, place, batch)
                number = snapshot_of(batch, tree, path)
            workspace.folders = folders
            return number
        except TooMuch as reason:
            workspace.why_not = str(reason)
        except (OSError, ValueError, MemoryError, Problem) as error:
            workspace.why_not = str(getattr(error, "strerror", None) or error or "there is no memory for it")
        return b""

    def changed(self, leg: int) -> Tuple[bytes, bytes] | str:
        """The trees of a leg's workspace after its last step and now, or why they are not known."""
        workspace = self.workspaces.setdefault(leg, Workspace())
        steps = [step for one, step in self.kept if one == leg]
        before = self.kept[leg, max(steps)] if steps else self.store.find(self.execution, None)
        now = self.snapshot(workspace, self.place_of(leg), b"") if not workspace.why_not else b""
        trees = self.store.trees(before, now)
        return (trees[0], trees[1]) if now else workspace.why_not

    def tree(self, workspace: Workspace, place: Spot, batch: Batch) -> tuple[bytes, Dict[str, Folder]]:
        """The id of the tree of a workspace, and its folders. Raises TooMuch."""
        batch.add(b"tree", b"")
        try:
            outer = files.open_folder(place.base, place.parts)
        except OSError:  # (no step has made it, or one has put something else there)
            return EMPTY, {}
        inner = os.open(".", os.O_RDONLY | os.O_DIRECTORY | os.O_CLOEXEC, dir_fd=outer)
        try:
            if not workspace.folders:
                check_size(inner, self.most, [self.most, self.most])
            visit = Visit(workspace, batch, self.most)
            tree = visit.folder(inner)
        finally:
            for number in (outer, inner):
                os.close(number)
        with self.guard:
            self.stored += batch.stored
            if self.stored > MOST_STORED:
                raise TooMuch(f"this execution has more than {MOST_STORED >> 30} GiB of them")
        return tree, visit.folders

    def lacks(self) -> Dict[int, Tuple[str, Dict[str, str]]]:
        """Of each leg why no more snapshots of it are made, and what these are without."""
        return {leg: (one.why_not, one.left) for leg, one in self.workspaces.items()}

    def notes(self, title: Callable[[int], str]) -> list[str]:
        """What is said of snapshots that are not whole, or not there."""
        found = []
        for leg, workspace in sorted(self.workspaces.items()):
            if workspace.why_not:
                found.append(f"the workspace of {title(leg)} is not kept: {workspace.why_not}")
            elif workspace.left:
                path, why = next(iter(workspace.left.items()))
                others = len(workspace.left) - 1
                more = f", and {others} other{'s' * (others > 1)}" if others else ""
                found.append(f"snapshots of {title(leg)} are without {path} ({why}){more}")
        return found


def snapshot_of(batch: Batch, tree: bytes, path: bytes) -> bytes:
    """The id of a snapshot."""
    parts: Entries = {b"path": (FILE, batch.add(b"blob", path)), b"tree": (FOLDER, tree)}
    return batch.add(b"tree", tree_data(parts))
