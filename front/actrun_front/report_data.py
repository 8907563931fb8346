"""What the page of `actrun report` shows of a record: boards by `replay`, logs, times.

A board is kept as blocks: one for each run, job and leg, and one for the ended legs. A block is a list of
numbers of texts, its head first.
"""
from __future__ import annotations

import contextlib
import itertools
import json
import pathlib
import re
import subprocess
from dataclasses import dataclass, field
from typing import Any, Generator, Iterator

from . import Problem
from .dap_logs import Masks, shown_logs
from .dap_record import PICTURES, Board, Record, Stand, refused

MOST = 100_000  # entries of a page
LOGS = 1 << 20  # characters of logs, at most
TIME = re.compile(rb"[0-9]{1,14}")  # (of 14 digits: in the year 5138)
COLOURS = re.compile(r"\x1b\[[0-9;]*[A-Za-z]")
CONTROL = {number: picture for number, picture in PICTURES.items() if number not in (9, 10)}


@dataclass
class Texts:
    """Texts and their numbers, each text once; secrets are hidden."""
    masks: Masks
    texts: list[str] = field(default_factory=list)
    numbers: dict[str, int] = field(default_factory=dict)

    def number(self, text: str) -> int:
        """The number of a line of a board."""
        if text not in self.numbers:
            self.numbers[text] = len(self.texts)
            self.texts.append(self.hidden(text))
        return self.numbers[text]

    def hidden(self, line: str) -> str:
        """The line with the values of its JSON masked; the line itself where nothing is to hide."""
        begin = value_of(line) if self.masks.pattern else 0
        if not begin:
            return line
        value = json.loads(line[begin:])
        shown = self.masks.hide(value)
        if shown == value:
            return line
        return line[:begin] + json.dumps(shown, ensure_ascii=False, separators=(",", ":"))


def value_of(line: str) -> int:
    """Where the JSON of a line of a board begins; 0 if it has none."""
    word = line.partition(" ")[0]
    if word in ("step", "set", "out"):
        return len(line) - len(line.split(" ", 4 if word == "step" else 1)[-1])
    before, found, _ = line.partition(" group ")
    return len(before + found) if found else 0


class Boards:
    """The board at the first place of a page, and what each later place of the page changes, as `replay
    --changes` prints them."""

    def __init__(self, program: str, record: pathlib.Path, masks: Masks, total: int, around: int | None):
        if around is not None and not 0 <= around <= total:
            raise Problem(f"--around {around}: the record has the places 0 to {total}")
        self.first = max(0, total - MOST if around is None else min(around - MOST // 2, total - MOST))
        self.last = min(total, self.first + MOST)
        self.texts = Texts(masks)
        self.steps: list[list[list[int]]] = []
        self.ids: dict[tuple[bytes, bytes], int] = {}
        self.blocks: dict[tuple[bytes, bytes], list[int]] = {}
        with contextlib.closing(places(program, record)) as found:
            self.open(next(found))
            for place, lines in enumerate(itertools.islice(found, self.last), 1):
                changes = [self.change(head, block) for head, block in blocks_of(lines).items()]
                if place > self.first:
                    self.steps.append(changes)
                elif place == self.first:
                    self.base = list(self.blocks.values())
        if len(self.steps) < self.last - self.first:
            raise Problem(f"{record}: the record changed while it was read; write the report again")
        self.known, self.raw = (self.first, list(self.base)), list(self.texts.numbers)
        self.stands: dict[tuple[bytes, bytes], tuple[list[int], Stand]] = {}

    def open(self, lines: list[bytes]) -> None:
        """Takes the board at place 0: runs, jobs, legs and the ended legs, each kind by its numbers."""
        found = blocks_of(lines)
        for head in (it for kind in (b"run", b"job", b"leg", b"ends") for it in found if it[0] == kind):
            self.ids[head] = len(self.ids)
            self.blocks[head] = [self.texts.number(line) for line in found[head]]
        self.base = list(self.blocks.values())

    def change(self, head: tuple[bytes, bytes], lines: list[str]) -> list[int]:
        """Changes a block: its number, its head or -1 where that stays, how many lines stay, and the lines
        after these."""
        was, block = self.blocks[head], [self.texts.number(line) for line in lines]
        keep = len(was) - 1
        if keep and self.texts.texts[was[-1]].startswith("out "):
            keep -= 1  # (the outputs of a leg are its last line, and are shown whole)
        self.blocks[head] = [block[0], *was[1:1 + keep], *block[1:]]
        return [self.ids[head], -1 if block[0] == was[0] else block[0], keep, *block[1:]]

    def board_at(self, place: int) -> Board:
        """The board at a place of the page. Raises Problem at a place before it."""
        if place < self.first:
            raise Problem(f"the page begins at place {self.first}")
        at, blocks = self.known if place >= self.known[0] else (self.first, list(self.base))
        for number, head, keep, *lines in itertools.chain(*self.steps[at - self.first:place - self.first]):
            was = blocks[number]
            blocks[number] = [was[0] if head < 0 else head, *was[1:1 + keep], *lines]
        self.known, board = (place, blocks), Board()
        for (kind, name), block in zip(self.ids, blocks):
            if kind == b"ends":
                board.ends = [int(self.raw[number]) for number in block[1:]]
            else:
                kinds: list[Stand] = getattr(board, f"{kind.decode()}s")
                kinds.append(self.stand(kind, name, block))
        return board

    def stand(self, kind: bytes, name: bytes, block: list[int]) -> Stand:
        """How a run, a job or a leg is by its block. It is read again only where the block is another one."""
        found = self.stands.get((kind, name))
        if found is None or found[0] is not block:
            head, *more = (self.raw[number] for number in block)
            board = Board.of([f"{kind.decode()} {name.decode()} {head}", *more])
            found = self.stands[kind, name] = block, [*board.runs, *board.jobs, *board.legs][0]
        return found[1]


def places(program: str, record: pathlib.Path) -> Generator[list[bytes], None, None]:
    """The lines of each place: of place 0 the board, of each later place what it changes."""
    with subprocess.Popen(
        [program, "replay", "--changes", record], stdout=subprocess.PIPE, stderr=subprocess.PIPE
    ) as process:
        assert process.stdout is not None and process.stderr is not None
        lines: list[bytes] = []
        if not next(process.stdout, b"").startswith(b"place "):
            raise refused(
                record,
                process.stderr.read().decode("utf-8", "replace").strip() or "`actrun replay` ended too early",
            )
        for line in process.stdout:
            if line.startswith(b"place "):
                yield lines
                lines = []
            else:
                lines.append(line)
        yield lines


def blocks_of(lines: list[bytes]) -> dict[tuple[bytes, bytes], list[str]]:
    """The blocks of some lines of a board, each its head without kind and number, then its further lines."""
    found: dict[tuple[bytes, bytes], list[str]] = {}
    block: list[str] = []
    for line in lines:
        kind, _, rest = line[:-1].partition(b" ")
        if kind in (b"run", b"job", b"leg"):
            number, _, head = rest.partition(b" ")
            block = found[kind, number] = [head.decode("utf-8")]
        elif kind == b"ends":
            found[kind, b"0"] = ["", *rest.decode("ascii").split()]
        else:
            block.append(line[:-1].decode("utf-8"))
    return found


def read_logs(record: Record, folder: pathlib.Path, masks: Masks, failed: set[str]) -> dict[str, str]:
    """The masked logs of the steps that were called, those of failed steps first; a sentence where a log is
    left out. A step that was running when the record ended has a log where a signal ended the run."""
    called: dict[int, list[int]] = {}
    for place, entry in enumerate(record.entries):
        if entry["event"] == "end" and entry["answer"]["kind"] != "not-started":
            called.setdefault(entry["leg"], []).append(record.begun(entry["leg"], place) - 1)
    for leg, begins in enumerate(record.begins):
        step = len(begins) - 1
        if begins and record.done[leg][-1] == begins[-1] and (folder / f"step-{leg}-{step}.log").is_file():
            called.setdefault(leg, []).append(step)
    found, used = {}, 0
    for wanted in (True, False):
        for leg, steps in sorted(called.items()):
            logs = leg_logs(folder, leg, steps, masks)
            for step in (it for it in steps if (f"{leg}-{it}" in failed) is wanted):
                name = f"{leg}-{step}"
                if used > LOGS:
                    found[name] = f"(left out: the page has {LOGS} characters of logs; see step-{name}.log)"
                    continue
                text, is_log = next((text, is_log) for at, text, is_log in logs if at == step)
                found[name] = COLOURS.sub("", text).translate(CONTROL)
                used += len(found[name]) if is_log else 0
    return found


def leg_logs(
    folder: pathlib.Path, leg: int, steps: list[int], masks: Masks
) -> Iterator[tuple[int, str, bool]]:
    """Of each step of a leg what is shown of its log, or why none is, and whether it is a log. `steps` are
    those that were called."""
    unread = None
    for step, (text, known) in enumerate(shown_logs(folder, leg, masks)):
        path = folder / f"step-{leg}-{step}.log"
        if path.is_symlink():
            known = False
            yield step, f"(left out: {path.name} is a link)", False
        elif not path.is_file():
            yield step, f"(there is no file {path.name})", False
        elif unread is not None:
            yield step, f"(left out: step-{leg}-{unread}.log cannot be read, so what it masks is not known)", False
        else:
            yield step, text, True
        if unread is None and not known and step in steps:
            unread = step


def read_times(path: pathlib.Path, entries: int, ended: bool = False) -> dict[str, Any]:
    """The wall clock of the start, in milliseconds since 1970, and the milliseconds of each entry since then.
    Further numbers are left out, since the record may be the first part of one; but where all its runs have
    `ended`, it is whole."""
    try:
        with open(path, "rb") as file:
            lines = [line.rstrip(b"\r\n") for line in itertools.islice(file, entries + 2)]
    except OSError as fault:
        raise Problem(
            f"--times {path}: {fault.strerror}: name a file that `actrun run --times` wrote"
        ) from None
    wrong = misfit(lines, entries, ended)
    if wrong:
        raise Problem(
            f"--times {path}: {wrong}: name the file that `actrun run --times` wrote beside this record"
        )
    return {"start": int(lines[0]), "entries": [int(line) for line in lines[1:entries + 1]]}


def misfit(lines: list[bytes], entries: int, ended: bool) -> str:
    """The first line of a file of times that does not fit a record, and why; nothing if all fit."""
    for number, line in enumerate(lines[:entries + 1], 1):
        if not TIME.fullmatch(line):
            return f"line {number} is no number of milliseconds"
        if number > 2 and int(line) < int(lines[number - 2]):
            return f"line {number} is less than line {number - 1}"
    if len(lines) <= entries:
        return f"line {len(lines) + 1} is missing, since the record has {entries + 1} lines"
    return (
        f"line {entries + 2} is too many, since the record has {entries + 1} lines"
        if ended and len(lines) > entries + 1
        else ""
    )
