"""Writes the workspace of a snapshot into a new folder: files, links, empty folders, modes and times."""
from __future__ import annotations

import contextlib
import os
from dataclasses import dataclass, field
from pathlib import Path
from typing import Dict, Iterator, List, Tuple

from .snapshot_store import ABOUT, AT_ONCE, FOLDER, LINK, PROGRAM, Store

USUAL = (0o755, 0)             # mode and time of what has none in its folder's list
About = Tuple[int, int]


@dataclass
class File:
    """A file or link of a tree."""

    path: bytes
    mode: int
    number: bytes
    size: int


@dataclass
class Listed:
    """What a tree has."""

    files: List[File] = field(default_factory=list)
    links: List[File] = field(default_factory=list)
    folders: List[bytes] = field(default_factory=list)
    lists: Dict[bytes, bytes] = field(default_factory=dict)   # ids of the lists of modes and times, by folder


def listed(store: Store, tree: bytes) -> Listed:
    """What a tree has. Raises OSError for a name that no file can have."""
    found = Listed()
    for line in store.git("ls-tree", "-r", "-t", "-z", "-l", tree.hex()).split(b"\0")[:-1]:
        head, _, path = line.partition(b"\t")
        mode, _, number, size = head.split()
        folder, _, name = path.rpartition(b"/")
        if name == ABOUT:
            found.lists[folder] = bytes.fromhex(number.decode("ascii"))
        elif name in (b"", b"..") or b".." in folder.split(b"/"):
            raise OSError(f"{store.folder}: a snapshot has the name {os.fsdecode(path)}")
        elif int(mode, 8) == FOLDER:
            found.folders.append(path)
        else:
            kind = found.links if int(mode, 8) == LINK else found.files
            kind.append(File(path, int(mode, 8), bytes.fromhex(number.decode("ascii")), int(size)))
    return found


def abouts(store: Store, lists: Dict[bytes, bytes]) -> Dict[bytes, About]:
    """Modes and times by paths."""
    texts = dict(store.objects(dict.fromkeys(lists.values())))
    result: Dict[bytes, About] = {}
    for folder, number in lists.items():
        for line in texts[number].split(b"\0")[:-1]:
            mode, when, name = line.split(b" ", 2)
            result[folder + b"/" + name if folder else name] = int(mode, 8), int(when)
    return result


def parts(files: List[File]) -> Iterator[List[File]]:
    """Files in parts that are read at once."""
    part: List[File] = []
    size = 0
    for file in files:
        if part and size + file.size > AT_ONCE:
            yield part
            part, size = [], 0
        part.append(file)
        size += file.size
    if part:
        yield part


def restore(store: Store, tree: bytes, place: Path) -> List[Tuple[bytes, About]]:
    """Writes a tree into a folder that only the front writes; gives paths, modes and times of what the
    snapshot was without. Links are made last, so none is followed."""
    place.mkdir(parents=True)
    root, found = os.fsencode(place), listed(store, tree)
    known = abouts(store, found.lists)
    for folder in found.folders:
        os.mkdir(os.path.join(root, folder), 0o700)
    for part in parts(found.files):
        contents = dict(store.objects(dict.fromkeys(file.number for file in part)))
        for file in part:
            path = os.path.join(root, file.path)
            mode, when = known.get(file.path, (0o755 if file.mode == PROGRAM else 0o644, 0))
            number = os.open(path, os.O_WRONLY | os.O_CREAT | os.O_EXCL, 0o600)
            with open(number, "wb", buffering=0) as target:
                target.write(contents[file.number])
                os.fchmod(target.fileno(), mode)
                os.utime(target.fileno(), ns=(when, when))
    targets = dict(store.objects(dict.fromkeys(link.number for link in found.links)))
    for link in found.links:
        path, when = os.path.join(root, link.path), known.get(link.path, USUAL)[1]
        os.symlink(targets[link.number], path)
        with contextlib.suppress(OSError):
            os.utime(path, ns=(when, when), follow_symlinks=False)
    for folder in sorted(found.folders, reverse=True):  # (the inner ones first)
        mode, when = known.get(folder, USUAL)
        os.chmod(os.path.join(root, folder), mode)
        os.utime(os.path.join(root, folder), ns=(when, when))
    there = {*(file.path for file in (*found.files, *found.links)), *found.folders}
    return [(path, about) for path, about in known.items() if path not in there]
