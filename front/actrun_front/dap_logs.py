"""What `actrun run` would show of texts and of step logs: secrets and masks hidden, commands as their
messages."""
from __future__ import annotations

import itertools
import pathlib
import re
from typing import Iterable, Iterator

from .masks import Masks, plan_masks, texts

__all__ = ["Masks", "plan_masks", "texts"]

from .files import read_below
from .keeping import ASIDE

LARGEST = 64 * 1024 * 1024
SHOWN = 64 * 1024
COMMAND = re.compile(r"[ \t]*::([A-Za-z-]+)(?: .*?)?::(.*)", re.DOTALL)
UNSEEN = ("debug", "endgroup", "add-matcher", "remove-matcher", "echo")
ESCAPES = {"%25": "%", "%0D": "\r", "%0A": "\n"}


def shown_logs(folder: pathlib.Path, leg: int, masks: Masks) -> Iterator[tuple[str, bool]]:
    """What is shown of the log of each step of a leg, in order, and whether it could be read; nothing of one
    that is not there. What a step masks is masked in later ones, too."""
    masks = Masks(masks.texts)
    for step in itertools.count():
        text, known = read_log(folder / f"step-{leg}-{step}.log", masks)
        text = re.sub(rf"\A\S+:{leg}-{step}\n", "", text)  # the line by which `try` finds a step's output
        yield text if len(
            text
        ) <= SHOWN else f"({len(text) - SHOWN} characters left out)\n{text[-SHOWN:]}", known


def shown_log(folder: pathlib.Path, leg: int, step: int, masks: Masks) -> str:
    """What is shown of a step's log."""
    return next(itertools.islice(shown_logs(folder, leg, masks), step, None))[0]


def read_log(path: pathlib.Path, masks: Masks) -> tuple[str, bool]:
    """The shown text of one log, also where `try` has put it aside, and whether it could be read; then
    `masks` has what it masks."""
    for place in (path, path.with_suffix(ASIDE)):
        try:
            if place.is_file() and place.stat().st_size > LARGEST:
                return "(the log is too large to be shown)\n", False
            if place.is_file():
                return text_of_log(read_below(place.parent, place.name, most=LARGEST), masks)
        except FileNotFoundError:  # (it is put aside at this moment)
            continue
        except OSError as fault:
            return f"(the log cannot be read: {fault.strerror})\n", False
    return "", False


def text_of_log(data: bytes, masks: Masks) -> tuple[str, bool]:
    """The shown text of the bytes of a log, and whether these are one; then `masks` has what it masks."""
    try:
        lines = data.decode("utf-8").split("\n")
    except UnicodeDecodeError:
        return "(output is not UTF-8)\n", False
    shown = []
    for text, mask in walk(lines[:-1] if lines[-1] == "" else lines):
        masks.add([mask] if mask else [])
        shown += [masks.hide(text)] if text is not None else []
    return "".join(line + "\n" for line in shown), True


class Walker:
    """Reads the lines of one log one after the other."""

    def __init__(self) -> None:
        self.resume = ""  # the line that ends `stop-commands`

    def take(self, line: str) -> tuple[str | None, str]:
        """Of the next line what is shown, unmasked, or None; and what it masks from here on."""
        if self.resume:
            ends = line.strip(" \t") == self.resume
            self.resume = "" if ends else self.resume
            return None if ends else line, ""
        command = COMMAND.fullmatch(line)
        if not command:
            return line, ""
        name = command[1].lower()
        message = re.sub(
            "%25|%0D|%0A", lambda it: ESCAPES[it.group().upper()], command[2], flags=re.IGNORECASE
        )
        if name in ("add-mask", "stop-commands"):
            self.resume = f"::{message}::" if message and name == "stop-commands" else ""
            return None, message if name == "add-mask" else ""
        if name in ("notice", "warning", "error", "group"):
            return f"> {message}" if name == "group" else f"{name}: {message}", ""
        return None if name in UNSEEN else line, ""


def walk(lines: Iterable[str]) -> Iterator[tuple[str | None, str]]:
    """Of each line of a log what is shown, unmasked, or None; and what it masks from here on."""
    walker = Walker()
    return (walker.take(line) for line in lines)
