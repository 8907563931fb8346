"""The last execution of a repository: what `try` keeps of it, and the commands that name it by --last."""
from __future__ import annotations

import json
import os
import sys
from dataclasses import asdict, dataclass, field
from pathlib import Path
from typing import Any, List, Tuple

from . import Problem
from .tree import kept_for
from .visible import visible

NAME = "--last"
CALL = "call"    # the file of a Call, in the folder `private`
LACKS = "lacks"   # there, of each leg why no more snapshots of it are made, and what they are without


@dataclass(frozen=True)
class Last:
    """Where an execution has its files."""

    record: str
    logs: str    # the folder of the steps' logs
    times: str
    page: str    # of `report`; nothing if there is none


@dataclass
class Call:
    """How `try` was called."""

    # with the folders they were written in, of earlier executions first
    words: List[Tuple[str, List[str]]]
    top: str
    folder: str = ""                                 # of the execution, by which its steps know it
    files: List[str] = field(default_factory=list)   # of the workflows, by runs
    execution: str = ""                              # the name of its snapshots; nothing where it has none


def write(place: Path, value: Any) -> None:
    """Writes JSON into a file that only its owner can read, at once."""
    new = place.with_name(f"{place.name}.{os.getpid()}")
    handle = os.open(new, os.O_WRONLY | os.O_CREAT | os.O_TRUNC, 0o600)
    with open(handle, "w", encoding="utf-8", errors="surrogateescape") as file:
        json.dump(value, file, ensure_ascii=False)
    new.replace(place)


def note_call(folder: Path, call: Call) -> None:
    """Keeps how an execution was called, also for one that is ended from outside."""
    write(folder / "private" / CALL, asdict(call))
    write(kept_for(Path(call.top), "begun"), str(folder))


def call_of(folder: Path, option: str) -> Call:
    """How the execution of a folder was called. Raises Problem where it is gone."""
    try:
        text = (folder / "private" / CALL).read_text(encoding="utf-8", errors="surrogateescape")
        return Call(**json.loads(text))
    except (OSError, ValueError, TypeError):
        why = f"there is no execution in {folder} (any more)"
        raise Problem(f"{option}: {why}: `actrun try` makes one") from None


def begun(top: Path, option: str) -> Path:
    """The folder of the execution of a repository that began last."""
    try:
        text = kept_for(top, "begun").read_text(encoding="utf-8", errors="surrogateescape")
        return Path(json.loads(text))
    except (OSError, ValueError, TypeError):
        raise Problem(f"{option}: no execution of {top} is kept: `actrun try` makes one") from None


def keep(top: Path, last: Last) -> None:
    """Keeps the places of an execution, for commands that name it by --last."""
    write(kept_for(top, "last"), asdict(last))


def find(here: Path) -> Last:
    """The last execution of the repository around a folder."""
    for top in (here, *here.parents):
        place = kept_for(top, "last")
        if place.is_file():
            try:
                found = Last(**json.loads(place.read_text(encoding="utf-8", errors="surrogateescape")))
            except (ValueError, TypeError):
                continue
            if not os.path.isfile(found.record):
                why = f"the last execution of {top} is gone ({found.record})"
                raise Problem(f"{why}: `actrun try` executes again")
            return found
    raise Problem(f"no execution of {here} is kept: `actrun try` makes one, or name a record")


def words_of(command: str, words: list[str], here: Path) -> list[str]:
    """The words of a command with the record in place of --last; a report gets logs and times, too."""
    end = words.index("--") if "--" in words else len(words)
    if NAME not in words[:end]:
        return words
    at, last = words.index(NAME), find(here)
    more = {"--logs": last.logs, "--times": last.times} if command == "report" else {}
    given = {word.partition("=")[0] for word in words}
    wanted = [(name, value) for name, value in more.items() if name not in given and os.path.exists(value)]
    added = [text for option in wanted for text in option]
    return [*words[:at], *added, last.record, *words[at + 1:]]


def launched(given: dict[str, Any], folder: Path) -> dict[str, Any]:
    """What an editor gives to launch a record; where that is --last, with the last record and its logs."""
    if given.get("record") != NAME:
        return given
    last = find(folder.resolve())
    return {**given, "record": last.record, "logs": given.get("logs") or last.logs}


def main(arguments: list[str]) -> int:
    """`last COMMAND WORD..`: prints the words with the record in place of --last, a zero byte behind each."""
    command, *words = arguments
    try:
        found = words_of(command, words, Path.cwd())
    except (Problem, OSError) as problem:
        print(visible(f"actrun: {command} {NAME}: {problem}"), file=sys.stderr)
        return 2
    sys.stdout.buffer.write(b"".join(os.fsencode(word) + b"\0" for word in (command, *found)))
    return 0
