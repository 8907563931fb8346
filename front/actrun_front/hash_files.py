"""The digest of `hashFiles(..)` over a folder, by the glob rules of GitHub's runner.

The runner joins the arguments by newlines and hands them to @actions/glob, which reads each line as a pattern
from the workspace: `*`, `?`, `[..]` and `**` match hidden files too, a line that begins with `!` takes
matches away, one that begins with `#` is a comment, and a pattern matches what is below a folder that it
matches. Files come folder by folder, in the byte order of their names, for one starting point after the
other. Their SHA-256 digests are the input of one SHA-256.
"""
from __future__ import annotations

import hashlib
import os
import pathlib

from stubs.globs import Pattern, is_chosen, starts, translated

from .files import open_inside
from .repository import ask, find_top

MOST_BYTES = 4 * 1024 ** 3  # of all files of one call


class GlobError(Exception):
    """The arguments of hashFiles cannot be read: the text says why."""


def read_pattern(line: str, workspace: str) -> Pattern | None:
    """The pattern of a line; None if it can match nothing in the workspace."""
    text = line.lstrip("! \t")
    negative = line[:len(line) - len(text)].count("!") % 2 == 1
    if not text:
        raise GlobError("a pattern of hashFiles is empty after its `!`")
    if workspace and (text == workspace or text.startswith(workspace + "/")):
        text = "." + text[len(workspace):]
    if text == "~" or text.startswith(("~/", "/")):
        return None
    parts = [part for part in text.split("/") if part]
    parts = parts[1:] if parts[:1] == ["."] else parts
    if any(translated(part)[1] in (".", "..") for part in parts):
        raise GlobError(f"the pattern {text} of hashFiles has a `.` or `..` in it, which GitHub rejects")
    return Pattern(tuple(parts) or ("**",), negative, text.endswith("/"))


def files_of(repository: pathlib.Path) -> list[tuple[str, ...]]:
    """All files that a checkout has, with new ones that git does not ignore, in the order in which the search
    meets them."""
    answer = (
        ask(repository, "ls-files", "-z", "--cached", "--others", "--exclude-standard")
        if find_top(repository)
        else None
    )
    if answer is None or answer.returncode:  # (the folder is no repository of git)
        return files_there(repository)
    found = {tuple(os.fsdecode(name).split("/")) for name in answer.stdout.split(b"\0") if name}
    return sorted(found, key=lambda path: [os.fsencode(name) for name in path])


def files_there(folder: pathlib.Path) -> list[tuple[str, ...]]:
    """All files of a folder but those of git, in the order in which the search meets them. No link is
    followed."""
    found = []
    for place, folders, names in os.walk(folder):
        parts = pathlib.Path(place).relative_to(folder).parts
        links = [name for name in folders if os.path.islink(os.path.join(place, name))]
        found += [(*parts, name) for name in (*names, *links) if name != ".git"]
        folders[:] = [name for name in folders if name != ".git"]
    return sorted(found, key=lambda path: [os.fsencode(name) for name in path])


def matching(arguments: list[str], repository: pathlib.Path, workspace: str = "",
             there: bool = False) -> list[tuple[str, ...]]:
    """The files that hashFiles reads, in order: of the repository, or of all that are `there`. `workspace` is
    the path that expressions know for the repository."""
    if arguments and arguments[0].startswith("--"):
        raise GlobError(f"hashFiles takes no option here: leave {arguments[0]} out")
    lines = [line.strip() for line in "\n".join(arguments).split("\n")]
    read = [read_pattern(line, workspace.rstrip("/")) for line in lines if line and not line.startswith("#")]
    patterns = [pattern for pattern in read if pattern is not None]
    files = (files_there if there else files_of)(repository) if patterns else []
    chosen = [path for path in files if is_chosen(patterns, path)]
    return list(
        dict.fromkeys(path for start in starts(patterns) for path in chosen if path[: len(start)] == start)
    )


def file_digest(number: int, most: int) -> tuple[bytes, int]:
    """The digest of a file's descriptor, which is closed, and its length. Raises GlobError if it is too
    long."""
    with open(number, "rb") as file:
        length = os.fstat(number).st_size
        if length > most:
            raise GlobError(f"the files that it matches have more than {MOST_BYTES >> 30} GiB")
        found = hashlib.sha256()
        for part in iter(lambda: file.read(1 << 20), b""):
            found.update(part)
        return found.digest(), length


def digest(arguments: list[str], repository: pathlib.Path, workspace: str = "", there: bool = False) -> str:
    """What `hashFiles(ARGUMENTS)` gives: 64 hexadecimal digits, or an empty text where no file matches. Links
    that lead out of the repository are not followed. Raises GlobError or OSError."""
    inner, left = [], MOST_BYTES
    for path in matching(arguments, repository, workspace, there):
        try:
            number = open_inside(repository, repository.joinpath(*path))
        except OSError:
            continue
        found, length = file_digest(number, left)
        left -= length
        inner.append(found)
    return hashlib.sha256(b"".join(inner)).hexdigest() if inner else ""
