"""Paths as actions and hashFiles name them: `*`, `?`, `[..]`, `\\`, `**`, and `!` before what is left out.

A pattern matches hidden files too, and all that is below a folder that it matches. The last pattern that
matches decides.
"""

from __future__ import annotations

import functools
import itertools
import os
import pathlib
import re
from dataclasses import dataclass
from typing import Iterator

try:
    from stubs.automaton import Test, wildcard_match
except ImportError:  # (a stub starts as a program)
    from automaton import Test, wildcard_match  # type: ignore[no-redef]

PART = re.compile(r"\\(?P<escaped>.)|(?P<star>\*)|(?P<any>\?)|\[(?P<set>.[^\]]*)\]|(?P<char>.)", re.DOTALL)


@dataclass(frozen=True)
class Pattern:
    """One line of patterns, as segments from the folder where paths begin."""

    segments: tuple[str, ...]
    negative: bool
    folders_only: bool = False

    @functools.cached_property
    def whole(self) -> tuple[str, ...]:
        """The segments with what is below a match. A last `**` takes in a file of that name too."""
        return (*self.segments, *(["*"] if self.folders_only else []), "**")

    def matches(self, path: tuple[str, ...]) -> bool:
        """Whether a file matches, or a folder that it is in. As of the stars in a name, only the last `**`
        has to be tried again."""
        whole, at, place, star, mark = self.whole, 0, 0, -1, 0
        while at < len(path):
            if place < len(whole) and whole[place] == "**":
                star, mark = place, at
                place += 1
            elif place < len(whole) and fits(whole[place], path[at]):
                at, place = at + 1, place + 1
            elif star >= 0:
                mark += 1
                at, place = mark, star + 1
            else:
                return False
        return all(segment == "**" for segment in whole[place:])


@functools.lru_cache(maxsize=1 << 16)
def fits(segment: str, name: str) -> bool:
    """Whether a name fits a segment."""
    tests, literal = translated(segment)
    return name == literal if literal is not None else segment == "*" or wildcard_match(list(tests), name)


@functools.lru_cache(maxsize=None)
def translated(segment: str) -> tuple[tuple[Test | None, ...], str | None]:
    """The tests of a segment's characters, and the name that it means, or None if it is a pattern."""
    tests: list[Test | None] = []
    names: list[str | None] = []
    for part in PART.finditer(segment):
        inner, char = part["set"] or "", part["escaped"] or part["char"]
        names.append(char or (inner if len(inner) == 1 else None))
        if names[-1]:
            tests.append(names[-1].__eq__)
        elif inner:
            of_set = "^" * (inner[:1] in ("!", "^")) + re.sub(
                r"([\\\[&~|])", r"\\\1", re.sub(r"^[!^]", "", inner)
            )
            try:
                tests.append(re.compile(f"[{of_set}]", re.DOTALL).fullmatch)  # type: ignore[arg-type]
            except re.error:  # a range as `[z-a]` means itself
                return (), segment
        elif not part["star"]:
            tests.append(lambda _: True)
        elif not tests or tests[-1] is not None:
            tests.append(None)
    return tuple(tests), None if None in names else "".join(filter(None, names))


def starts(patterns: list[Pattern]) -> list[tuple[str, ...]]:
    """Where the search begins, in order: the literal beginnings of the patterns, without those that are below
    others."""
    names = [[translated(one)[1] or "" for one in pattern.segments]
             for pattern in patterns if not pattern.negative]
    candidates = list(dict.fromkeys(tuple(itertools.takewhile(bool, one)) for one in names))
    return [path for path in candidates if not any(path[:end] in candidates for end in range(len(path)))]


def is_chosen(patterns: list[Pattern], path: tuple[str, ...]) -> bool:
    """Whether the last pattern that matches a file is none with `!`."""
    return next((not pattern.negative for pattern in reversed(patterns) if pattern.matches(path)), False)


def segments_of(text: str, tree: pathlib.Path) -> tuple[str, ...]:
    """The segments of a path from the root: `~` is the home folder, another one that is not absolute starts
    at the tree."""
    bases = {f"{tree}/": str(tree), "~/": str(pathlib.Path.home().resolve()), "/": "", "": str(tree)}
    start = next(start for start in bases if f"{text}/".startswith(start))
    base = re.sub(r"([\\*?\[])", r"\\\1", bases[start])
    return tuple(filter(None, os.path.normpath(f"{base}/{text[len(start):]}").split("/"))) or ("**",)


def read_patterns(lines: list[str], tree: pathlib.Path) -> list[Pattern]:
    """The patterns of lines that are no comments, over whole paths."""
    return [
        Pattern(segments_of(line.lstrip("!").strip(), tree), line.startswith("!"))
        for line in lines
        if line[0] != "#"
    ]


def roots(patterns: list[Pattern]) -> list[pathlib.Path]:
    """The places at which a search begins."""
    return [pathlib.Path("/", *path) for path in starts(patterns)]


def below(place: pathlib.Path, hidden: bool, above: tuple[pathlib.Path, ...] = ()) -> Iterator[pathlib.Path]:
    """The files at or below a place, by links too that lead to no folder above; without `hidden` none by a
    name with a dot before it."""
    if place.is_file():
        yield place
    elif place.is_dir() and (real := place.resolve()) not in above:
        for inner in place.iterdir():
            if hidden or not inner.name.startswith("."):
                yield from below(inner, hidden, (*above, real))


def files(patterns: list[Pattern], hidden: bool) -> list[pathlib.Path]:
    """All files that are matched, sorted."""
    return sorted(
        file
        for root in roots(patterns)
        for file in below(root, hidden)
        if is_chosen(patterns, file.parts[1:])
    )


def tops(patterns: list[Pattern]) -> list[pathlib.Path]:
    """The files and folders that are matched themselves, without what is below another of them, sorted."""
    found, waiting = [], roots(patterns)
    for place in waiting:
        if os.path.lexists(place) and is_chosen(patterns, place.parts[1:]):
            found.append(place)
        elif place.is_dir() and not place.is_symlink():
            waiting += place.iterdir()
    return sorted(found)
