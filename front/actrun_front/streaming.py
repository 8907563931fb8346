"""What a step prints, while it executes: read where the program keeps it, and masked line by line."""
from __future__ import annotations

import contextlib
import os
import re
from dataclasses import dataclass, field
from pathlib import Path

from .dap_logs import Walker
from .files import new_file, open_file
from .keeping import ASIDE
from .log_masks import LogMasks
from .step_log import Limits

PIECE = 1 << 18          # bytes that are read at once
MOST_LINE = 1 << 20      # of a line that is shown in one part
COMMAND = re.compile(r"^[ \t]*::", re.MULTILINE)
# the beginning of a line that may be a command, whatever follows
OPEN = re.compile(r"[ \t]*(:|::|::[A-Za-z-]+(:|::.*| .*)?)?", re.DOTALL)
NO_TEXT = "(output is not UTF-8: {log} has it, unmasked)\n"
LEFT_OUT = "(a line of more than {most} bytes that may be a command is left out: {log} has it, unmasked)\n"


@dataclass
class Printed:
    """The bytes that a step prints: in files without names while the step executes, then in its log."""

    limits: Limits
    leg: int
    step: int
    at: int = 0                  # bytes that were read of the log, or of what becomes it
    errors: int = 0              # of standard error, where the log is lost
    ended: bool = False
    lost: bool = False           # there is no whole log
    is_over: bool = False        # the log has no more
    is_cut: bool = False         # and it is known where the line that says so is
    last: bytes = b""            # the last byte
    file: int = -1               # of the log

    @property
    def log(self) -> Path:
        """The file of the log."""
        return self.limits.folder / f"step-{self.leg}-{self.step}.log"

    def more(self) -> bytes:
        """What comes next; nothing where that is all so far."""
        if self.is_over:
            return b""
        data = self.of_log() if self.ended and not self.lost else self.of_files()
        self.last = data[-1:] or self.last
        return data

    def of_files(self) -> bytes:
        """What the files have that the program holds: of errors once the step has ended."""
        place = self.leg, self.step
        self.go_back(self.limits.note_at(*place, "out"))
        data = self.limits.read(*place, "out", self.at, PIECE)
        self.at += len(data)
        if data or not self.ended:
            return data
        data = self.limits.read(*place, "err", self.errors, PIECE)
        begins = data and not self.errors and self.last not in (b"", b"\n")
        self.errors += len(data)
        return b"\n" + data if begins else data

    def of_log(self) -> bytes:
        """What the log has. Of one that was cut where it was read already, the line that says so."""
        try:
            if self.file < 0:
                self.file = self.opened()
                size, note = os.fstat(self.file).st_size, self.limits.note
                if self.at != size and os.pread(self.file, len(note), max(size - len(note), 0)) == note:
                    self.go_back(size - len(note))
            data = os.pread(self.file, PIECE, self.at)
            if not data and os.fstat(self.file).st_size < self.at:
                self.is_over = True
                return self.limits.note[self.last == b"\n":]
        except FileNotFoundError:
            self.is_over = True
            return b""
        except OSError as error:
            self.is_over = True
            return f"(the log cannot be read: {error.strerror})\n".encode()
        self.at += len(data)
        return data

    def go_back(self, note: int | None) -> None:
        """Goes back to the line that says that the log is cut, if more of the log was read before it was cut."""
        if note is not None and not self.is_cut:
            self.is_cut = True
            self.at = min(self.at, note + (self.at > note and self.last == b"\n"))

    def opened(self) -> int:
        """A descriptor of the log, which has another name until the execution has ended."""
        try:
            return open_file(self.limits.folder, self.log.with_suffix(ASIDE).name)
        except FileNotFoundError:
            return open_file(self.limits.folder, self.log.name)

    def save(self) -> None:
        """Writes the log of a step where the program was ended before the step."""
        with contextlib.suppress(OSError):
            with open(new_file(self.limits.folder, self.log.name), "wb") as log:
                for kind in ("out", "err"):
                    at = 0
                    data = self.limits.read(self.leg, self.step, kind, at, PIECE)
                    while data:
                        log.write(data)
                        at += len(data)
                        data = self.limits.read(self.leg, self.step, kind, at, PIECE)

    def close(self) -> None:
        """Reads no more."""
        self.limits.release(self.leg, self.step)
        if self.file >= 0:
            os.close(self.file)
        self.file = -1


@dataclass
class Stream:
    """The lines that a step prints, as they are shown."""

    masks: LogMasks
    mark: str                    # of the lines that the prelude prints
    leg: int
    log: Path
    rest: list[bytes] = field(default_factory=list)  # of the line that is not whole yet
    size: int = 0                # bytes of it
    middle: str = ""             # what the program would show of it, as far as it is not shown
    is_begun: bool = False       # a part of it is shown
    is_text: bool = True
    is_left_out: bool = False    # the rest of a line that is not shown
    names: dict[str, str] = field(default_factory=dict)  # late ones, behind their signs

    def __post_init__(self) -> None:
        self.walker = Walker()

    def take(self, data: bytes) -> str:
        """What is shown of more output: whole lines, and first the rest of one of which a part was shown."""
        if self.is_left_out:
            _, ends, data = data.partition(b"\n")
            self.is_left_out = not ends
        end = data.rfind(b"\n") + 1
        if not end:
            return self.keep(data)
        text = self.decoded(b"".join([*self.rest, data[:end]]))
        self.rest, self.size, shown = [], 0, ""
        if self.is_begun and self.is_text:
            line, _, text = text.partition("\n")
            shown = self.finished(line) + "\n"
        return shown + self.lines(text) + self.keep(data[end:])

    def decoded(self, data: bytes, goes_on: bool = False) -> str:
        """The text of bytes, without the beginning of a character at their end if more follow; nothing where
        they are no text."""
        try:
            return data.decode() if self.is_text else ""
        except UnicodeDecodeError as error:
            if goes_on and error.reason == "unexpected end of data":
                return data[:error.start].decode()
        self.is_text = False
        return ""

    def keep(self, data: bytes) -> str:
        """Keeps the beginning of a line, of which a part is shown where it is too long."""
        if not data or not self.is_text:
            return ""
        self.rest.append(data)
        self.size += len(data)
        shown = self.part() if self.size > MOST_LINE else ""
        return shown if self.size <= 2 * MOST_LINE else shown + self.leave_out()

    def leave_out(self) -> str:
        """Gives up a line that may be a command, and is too long to be one."""
        mask = self.walker.take(self.decoded(b"".join(self.rest), True))[1]
        if mask:
            self.masks.add(self.leg, mask)
        self.rest, self.size, self.is_left_out = [], 0, True
        return LEFT_OUT.format(most=MOST_LINE, log=self.log)

    def lines(self, text: str) -> str:
        """What is shown of whole lines."""
        has_commands = "::" in text and (self.walker.resume or COMMAND.search(text))
        if not has_commands and self.mark not in text and not self.masks.of(self.leg).touches(text):
            return text
        return "".join(map(self.line, text.split("\n")[:-1]))

    def line(self, line: str) -> str:
        """What is shown of a line."""
        if line.startswith(self.mark):
            sign, name = line[:len(self.mark) + 1], line[len(self.mark) + 1:]
            self.names.setdefault(sign, name)
            return ""
        shown, mask = self.walker.take(line)
        text = "" if shown is None else self.masks.of(self.leg).hide(shown) + "\n"
        if mask:
            self.masks.add(self.leg, mask)
        return text

    def part(self) -> str:
        """What can be shown of a line that is not whole: no text in which a mask may begin, and no
        command."""
        data = b"".join(self.rest)
        text = self.decoded(data, True)
        if not self.is_begun and not self.may_begin(text):
            self.rest = [data] if data else []
            return ""
        layers = self.masks.of(self.leg)
        inner, count = layers.inner.settled(text)
        shown, settled = layers.outer.settled(self.middle + inner)
        self.middle = (self.middle + inner)[settled:]
        left = data[len(text[:count].encode()):]
        self.rest, self.size = [left] if left else [], len(left)
        self.is_begun = self.is_begun or count > 0
        return shown

    def may_begin(self, text: str) -> bool:
        """Whether the beginning of a line is shown as it is, whatever follows."""
        if self.walker.resume:
            return not self.walker.resume.startswith(text.strip(" \t"))
        return OPEN.fullmatch(text) is None and not self.mark.startswith(text[:len(self.mark)])

    def finished(self, line: str) -> str:
        """What is shown of the rest of a line of which a part was shown."""
        layers = self.masks.of(self.leg)
        text = self.middle + layers.inner.hidden(line)
        self.middle, self.is_begun = "", False
        return layers.outer.hidden(text)

    def end(self) -> str:
        """What is shown of a last line without an end, and where the output is if it is no text."""
        text = self.take(b"\n") if self.rest or self.is_begun else ""
        return text if self.is_text else text + NO_TEXT.format(log=self.log)
