"""What the front hides of the lines of steps: what the program hides, and forms that it does not know."""
from __future__ import annotations

import contextlib
import re
from dataclasses import dataclass, field
from pathlib import Path
from typing import BinaryIO, Iterable, Iterator

from .dap_logs import LARGEST, walk
from .files import open_file
from .keeping import ASIDE
from .masks import MOST, Masks, forms

LONGEST = 1 << 16  # bytes of a line that may be a command
ADD_MASK = re.compile(rb"add-mask", re.IGNORECASE)


def open_left(path: Path) -> BinaryIO | None:
    """A regular file that a step may have left, opened without following a link; None if there is none."""
    with contextlib.suppress(OSError):
        return open(open_file(path.parent, path.name), "rb")
    return None


def has_masks(path: Path) -> bool:
    """Whether a log may have the command add-mask."""
    file = open_left(path)
    if file is None:
        return False
    with file:
        end, read = b"", 0
        while read < LARGEST:
            piece = file.read(1 << 20)
            if ADD_MASK.search(end + piece):
                return True
            if not piece:
                return False
            end, read = piece[-16:], read + len(piece)
    return False


def lines_of(path: Path) -> Iterator[str]:
    """The lines of a log; of a long one only its beginning."""
    file = open_left(path)
    if file is None:
        return
    with file:
        line = file.readline(LONGEST)
        while line:
            part = line
            while part and not part.endswith(b"\n"):
                part = file.readline(LONGEST)
            yield line.decode("utf-8", "replace").removesuffix("\n")
            line = file.readline(LONGEST)


class Layers:
    """What the program hides in lines, and what is hidden after it: forms that it does not know."""

    def __init__(self, found: Iterable[str] = (), unknown: Iterable[str] = ()):
        self.texts: list[str] = []
        self.inner, self.outer = Masks(), Masks(unknown)
        self.add(found)

    def add(self, found: Iterable[str]) -> None:
        """Hides more texts from here on."""
        new = list(filter(None, found))
        self.texts += new
        self.inner.hide_forms(set(new))
        for text in new if len(self.outer.forms) < MOST else ():
            wanted = {made for form in forms(text) for made in (form, self.inner.hide(form))}
            self.outer.hide_forms({made for made in wanted - self.inner.forms if made.strip("*")})

    def touches(self, text: str) -> bool:
        """Whether something may be hidden in a text."""
        return self.inner.touches(text) or self.outer.touches(text)

    def hide(self, text: str) -> str:
        """What is shown of a line, or of the lines of a message."""
        if not self.touches(text):
            return text
        return "\n".join(map(self.outer.hidden, self.inner.hidden(text).split("\n")))


@dataclass
class LogMasks:
    """What is hidden in the lines of each leg, where these come one after the other."""

    secrets: list[str]                                           # that the program hides
    folder: Path | None                                          # of the logs
    legs: dict[int, Layers] = field(default_factory=dict)        # of the legs that mask more

    def __post_init__(self) -> None:
        self.unknown: list[str] = []  # secrets that the program does not hide, since no text names them
        self.common = Layers(self.secrets)

    def hide_too(self, secrets: Iterable[str]) -> None:
        """Hides more secrets."""
        self.unknown = [text for text in secrets if text not in self.secrets]
        self.common = Layers(self.secrets, self.unknown)

    def of(self, leg: int) -> Layers:
        """What is hidden in the next line of a leg."""
        return self.legs.get(leg, self.common)

    def add(self, leg: int, mask: str) -> None:
        """Hides what a line of a leg masks, from its next line on."""
        if leg not in self.legs:
            self.legs[leg] = Layers(self.secrets, self.unknown)
        self.legs[leg].add([mask])

    def until(self, leg: int, step: int) -> Masks:
        """What is hidden after a step of a leg in all that the step shows."""
        numbers = range(step + 1) if self.folder else ()
        names = (f"step-{leg}-{number}{ending}" for number in numbers for ending in (".log", ASIDE))
        paths = [self.folder / name for name in names]  # type: ignore[operator]
        found = [mask for path in paths if has_masks(path) for _, mask in walk(lines_of(path)) if mask]
        return Masks([*self.secrets, *self.unknown, *found])
