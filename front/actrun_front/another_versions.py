"""What programs for actions noted of versions: steps that used another one than the workflow asks for."""
from __future__ import annotations

from pathlib import Path
from typing import Iterable

from .fetch import MOST_BYTES
from .files import read_below
from .present import Board, mask, one_line


def another_versions(folder: Path, secrets: list[str], board: Board) -> Iterable[str]:
    """How many steps used another version of a tool, then a sentence for each such tool."""
    found = []
    for leg, step in board.places():
        try:
            text = read_below(folder, str(leg), f"another-{leg}-{step}", most=MOST_BYTES).decode(
                "utf-8", "replace"
            )
        except OSError:
            continue
        found += [(leg, step, one_line(mask(line, secrets))) for line in text.splitlines() if line.strip()]
    if found:
        count = len({(leg, step) for leg, step, _ in found})
        steps = "1 step" if count == 1 else f"{count} steps"
        yield f"{steps} used another version than the workflow asks for (--lenient):"
    yield from (f"  {board.title(leg, step)}: {text}" for leg, step, text in found)
