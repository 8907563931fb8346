"""Notes of what was rewritten, few enough to be read: equal ones are one line, many alike are cut."""
from __future__ import annotations

import re
from typing import Iterable, Iterator

from .present import one_line
from .yaml_reader import Note

ALIKE = 3   # of one kind that are shown
FILES = 3   # that a line names
VARIES = re.compile(r"'[^']*'|\"[^\"]*\"|\b(job|step|action|workflow) \S+|[\w.@-]*/[\w./@-]+|\d+")


def kind(text: str) -> str:
    """A note without the names and values that differ between notes of its kind."""
    return VARIES.sub(lambda found: found[1] or "_", text)


def lines(notes: Iterable[tuple[str, Note]], whole: bool) -> Iterator[str]:
    """The lines of notes, each with the file of its workflow; `whole` shows each note at its place."""
    found: dict[str, list[tuple[str, int]]] = {}
    given = list(notes)
    if whole:
        yield from (f"note: {file}:{note.line}: {note.text}" for file, note in given)
        return
    for file, note in given:
        found.setdefault(note.text, []).append((file, note.line))
    kinds: dict[str, list[str]] = {}
    for text in found:
        kinds.setdefault(kind(text), []).append(text)
    for alike in kinds.values():
        shown = alike if len(alike) <= ALIKE else alike[:ALIKE - 1]
        yield from (line(text, found[text]) for text in shown)
        rest = [place for text in alike[len(shown):] for place in found[text]]
        if rest:
            yield f"note: {len(rest)} more notes like the last, in {names(rest)}: -v shows all"


def line(text: str, places: list[tuple[str, int]]) -> str:
    """One line for equal notes, at the place of the first."""
    more = f" ({len(places)} times, in {names(places)})" if len(places) > 1 else ""
    return f"note: {places[0][0]}:{places[0][1]}: {text}{more}"


def names(places: list[tuple[str, int]]) -> str:
    """The files of places."""
    files = list(dict.fromkeys(one_line(file) for file, _ in places))
    more = len(files) - FILES
    return ", ".join(files[:FILES]) + (f" and {more} more file{'s' * (more > 1)}" if more > 0 else "")
