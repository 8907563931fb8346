"""The copy of the repository that actions/checkout reads: it has the branches that the server would have
after a push."""
from __future__ import annotations

import argparse
import shutil
from pathlib import Path

from . import tree as rooms
from .tree import Facts, Room

# what GitHub's server allows, too; files are sent as they are stored, since they do not go far
SETTINGS = "[uploadpack]\n\tallowAnySHA1InWant = true\n\tallowFilter = true\n[pack]\n\twindow = 0\n"


def copy_tree(facts: Facts, room: Room, options: argparse.Namespace) -> list[str]:
    """Copies the working tree for an execution and gives what was left out: into the workspace, or to where
    checkout finds it."""
    if options.workspace != "full" and not options.in_place:
        room.files = room.source
    left = rooms.copy_tree(facts, room, bool(options.in_place), (*options.bind, *options.bind_rw))
    if room.files == room.source and (room.files / ".git").is_dir():
        publish(facts, room.files)
    return left


def publish(facts: Facts, folder: Path) -> None:
    """Gives the copy each branch of `origin`, and those of one's own that it lacks. The branch of the working
    tree is as it is here. All refs are written into one new file, since a link among the copied ones may lead
    anywhere."""
    place = folder / ".git"
    found = rooms.git(folder, "for-each-ref", "--format=%(refname) %(objectname)")
    if found is None:  # (git reads no refs there: they stay as they were copied)
        return
    refs = dict(line.rsplit(" ", 1) for line in found.splitlines())
    others = {name: commit for name, commit in facts.heads.items() if name not in ("HEAD", facts.branch)}
    refs.update((f"refs/heads/{name}", commit) for name, commit in others.items())
    for name in ("refs", "packed-refs"):
        if (place / name).is_dir() and not (place / name).is_symlink():
            shutil.rmtree(place / name)
        else:
            (place / name).unlink(missing_ok=True)
    (place / "refs" / "heads").mkdir(parents=True)
    rows = "".join(f"{commit} {name}\n" for name, commit in sorted(refs.items()))
    (place / "packed-refs").write_text(rows, encoding="utf-8")
    with open(place / "config", "a", encoding="utf-8") as file:
        file.write(SETTINGS)


def shown(room: Room) -> list[Path]:
    """The folder that steps can read, and not write."""
    return [room.source] if room.files == room.source and room.source.is_dir() else []


def variables(room: Room) -> dict[str, str]:
    """The variable by which actions/checkout finds the copy; none if the workspace has it already."""
    return {"ACTRUN_SOURCE": str(folder) for folder in shown(room)}
