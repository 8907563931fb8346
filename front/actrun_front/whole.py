"""A record that still grows, as it is at one moment: its whole lines."""
from __future__ import annotations

import contextlib
import os
from pathlib import Path
from typing import Iterator

from . import Problem


def whole_lines(path: Path) -> bytes:
    """The bytes of a record; of one that grows (FILE.part) its whole lines so far. Raises Problem."""
    try:
        data = path.read_bytes()
    except OSError as fault:
        raise Problem(f"{path}: {fault.strerror}") from None
    return data[:data.rfind(b"\n") + 1] if path.name.endswith(".part") else data


@contextlib.contextmanager
def whole(path: Path) -> Iterator[Path]:
    """A path by which programs read a record: the file itself, or of one that grows its whole lines so far.
    Raises Problem."""
    if not path.name.endswith(".part") or not path.is_file():
        yield path
        return
    with held(whole_lines(path)) as readable:
        yield readable


@contextlib.contextmanager
def held(data: bytes) -> Iterator[Path]:
    """A path by which programs that are started meanwhile read bytes, which no folder has."""
    number = os.memfd_create("record")
    try:
        with open(number, "wb", closefd=False) as file:
            file.write(data)
        yield Path(f"/proc/{os.getpid()}/fd/{number}")
    finally:
        os.close(number)
