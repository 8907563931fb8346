"""The one filter for texts that a terminal shows, also as a program: what would steer it becomes pictures."""
from __future__ import annotations

import io
import re
import signal
import sys
import unicodedata
from typing import TextIO

# control characters but tab and newline, those of C1, and marks of direction and of ends of lines
STEERING = re.compile("[\x00-\x08\x0b-\x1f\x7f-\x9f\u061c\u200e\u200f\u2028-\u202e\u2066-\u2069]")
COLOUR = re.compile(r"(\x1b\[[0-9;:]*m)")  # the sequence SGR
PLAIN = re.compile(r"\x1b\[0*m")
RESET = "\x1b[0m"
CUT = re.compile(r"(\x1b(\[[0-9;:]*)?|\r)\Z")  # at the end of a part: what the next part may complete


def unfailing(stream: TextIO, errors: str) -> None:
    """Writes what a stream's encoding lacks in another way, such as "replace"."""
    if isinstance(stream, io.TextIOWrapper):
        stream.reconfigure(errors=errors)


def picture(sign: str) -> str:
    """What is shown in place of a character that steers a terminal."""
    code = ord(sign)
    return chr(0x2400 + code) if code < 32 else "\u2421" if code == 127 else f"<U+{code:04X}>"


def visible(text: str) -> str:
    """A text with pictures in place of all that would steer a terminal; tabs and newlines stay."""
    return STEERING.sub(lambda found: picture(found[0]), text) if STEERING.search(text) else text


def visible_log(text: str, coloured: bool) -> str:
    """The visible text of a step's output. Where colours are shown they stay, and end with their line; else
    they are left out."""
    if not STEERING.search(text):
        return text
    return "\n".join(map(Parts(coloured).line, text.split("\n")))


def cells(text: str, most: int) -> str:
    """The beginning of a line that has at most that many cells of a terminal, with `…` where it is cut."""
    if text.isascii():
        return text if len(text) <= most else text[:max(most - 1, 0)] + "…" * (most > 0)
    used = 0
    for at, sign in enumerate(text):
        used += 2 if unicodedata.east_asian_width(sign) in "WF" else unicodedata.combining(sign) == 0
        if used > most or used == most and at + 1 < len(text):
            return text[:at] + "…" * (most > 0)
    return text


class Parts:
    """Makes the output of a step visible where it comes in parts: whole lines, and beginnings of lines."""

    def __init__(self, coloured: bool) -> None:
        self.coloured = coloured
        self.kept = ""  # of the end of the last part
        self.last = ""  # colour of the line that is not whole

    def take(self, text: str) -> str:
        """The visible text of the next part."""
        text = self.kept + text
        cut = CUT.search(text)
        self.kept = cut[0] if cut else ""
        text = text[:cut.start()] if cut else text
        if not self.last and not STEERING.search(text):
            return text
        *lines, rest = text.split("\n")
        return "".join(f"{self.line(line)}\n" for line in lines) + self.line(rest, False)

    def line(self, text: str, is_whole: bool = True) -> str:
        """The rest of a line, or more of it."""
        text = text.removesuffix("\r") if is_whole else text
        if not self.coloured:
            return visible(COLOUR.sub("", text))
        parts = COLOUR.split(text)  # (those with odd numbers are colours)
        shown = "".join(part if at % 2 else visible(part) for at, part in enumerate(parts))
        last = parts[-2] if len(parts) > 1 else self.last
        self.last = "" if is_whole else last
        return shown + RESET if is_whole and last and not PLAIN.fullmatch(last) else shown


def main() -> int:
    """Shows standard input, and ends after the program that prints it."""
    for number in (signal.SIGINT, signal.SIGTERM, signal.SIGHUP):
        signal.signal(number, signal.SIG_IGN)
    try:
        for line in sys.stdin.buffer:
            sys.stdout.buffer.write(visible(line.decode("utf-8", "replace")).encode("utf-8"))
            sys.stdout.buffer.flush()
    except OSError:
        return 3
    return 0


if __name__ == "__main__":
    sys.exit(main())
