"""A record as an editor walks it: the plan, the entries by their places, and what `actrun debug` and `why`
answer."""
from __future__ import annotations

import bisect
import contextlib
import functools
import json
import os
import pathlib
import re
import subprocess
from dataclasses import dataclass, field
from typing import Any, Container, Iterable, Sequence

from . import Problem
from .execute import ask, lines_of
from .explain import explain
from .names import as_text
from .present import Leg, legs_of
from .reasons import Part, asked, parts_of

PLACE = re.compile(r"place ([0-9]+) of ([0-9]+)")
PART = 1 << 30  # bytes that one write takes
PICTURES = {number: 0x2400 + number for number in range(32)} | {127: 0x2421}
FILTER_OF = {"failure": "failed", "skipped": "skipped", "cancelled": "cancelled"}


@dataclass
class DoneStep:
    """A done step on a board."""
    outcome: str
    conclusion: str
    outputs: dict[str, Any]
    variables: dict[str, Any] = field(default_factory=dict)

    def __str__(self) -> str:
        return self.outcome + (f", counts as {self.conclusion}" if self.outcome != self.conclusion else "")


def mapping(text: str) -> dict[str, Any]:
    """The mapping of a line of a board, which is mostly empty."""
    found: dict[str, Any] = {} if text == "{}" else json.loads(text)
    return found


@dataclass
class Stand:
    """How a run, a job or a leg is on a board; only a leg has steps and outputs."""
    state: str
    stop: bool = False
    steps: list[DoneStep] = field(default_factory=list)
    outputs: dict[str, Any] = field(default_factory=dict)

    def __str__(self) -> str:
        return self.state + (", told to stop" if self.stop else "")


@dataclass
class Board:
    """What the text of a board says."""
    runs: list[Stand] = field(default_factory=list)
    jobs: list[Stand] = field(default_factory=list)
    legs: list[Stand] = field(default_factory=list)
    ends: list[int] = field(default_factory=list)

    @classmethod
    def of(cls, lines: Iterable[str]) -> Board:
        """The board that some lines say."""
        board = cls()
        for line in lines:
            board.take(line)
        return board

    def result(self, job: int, legs: Iterable[int]) -> str:
        """How a job with some legs ended; nothing if it has not."""
        states = {self.legs[leg].state for leg in legs}
        shut = self.jobs[job].state.partition(" ")[2]
        if shut or not all(state.startswith("ended") for state in states):
            return shut
        return next((one for one in ("failure", "cancelled") if f"ended {one}" in states), "success")

    def outputs(self, legs: Container[int]) -> dict[str, str]:
        """The outputs of a job with some legs, those of each leg over those of legs that ended before."""
        ended = [self.legs[leg].outputs for leg in self.ends if leg in legs]
        return {name: text for outputs in ended for name, text in outputs.items()}

    def take(self, line: str) -> None:
        """Takes one line of the text."""
        kind, _, rest = line.partition(" ")
        if kind in ("run", "job", "leg"):
            words = rest.partition(" group ")[0].split(" ")[1:]
            stop = words[-1] == "stop"
            getattr(self, kind + "s").append(Stand(" ".join(words[:-1] if stop else words), stop))
        elif kind == "step":
            _, outcome, conclusion, outputs = rest.split(" ", 3)
            self.legs[-1].steps.append(DoneStep(outcome, conclusion, mapping(outputs)))
        elif kind == "set":
            self.legs[-1].steps[-1].variables = mapping(rest)
        elif kind == "out":
            self.legs[-1].outputs = mapping(rest)
        elif kind == "ends":
            self.ends = [int(word) for word in rest.split()]


def board_of(record: pathlib.Path) -> Board:
    """The board after the last entry of a record. Raises Problem."""
    answer = ask("replay", record)
    if not answer.stdout:
        raise refused(record, answer.stderr.strip())
    return Board.of(lines_of(answer.stdout))


def refused(record: pathlib.Path, line: str) -> Problem:
    """The problem that the program has with a record, with what explains its line."""
    words = explain(line, "debug", [str(record)])
    return Problem(f"{line.removeprefix('actrun: ')}: {words}" if words else f"{record}: {line}")


class Walker:
    """`actrun debug` of one record, or of its first lines, which `data` has. Raises Problem with the
    program's line where it refuses the record or ends. Without `wait` what it makes of the record is known
    after `accept`."""

    def __init__(self, program: str, record: pathlib.Path, data: bytes | None = None, wait: bool = True):
        if data is None and not record.is_file():
            raise Problem(f"{record}: there is no such file; `record` has to name one that `actrun run --record` or `try` wrote")
        self.path, self.data = record, record.read_bytes() if data is None else data
        self.place = self.last = 0
        with open(os.memfd_create("record"), "wb", buffering=0) as file:  # (which nobody changes)
            for at in range(0, len(self.data), PART):
                file.write(self.data[at:at + PART])
            # (in a session of its own, where Ctrl-C does not end it)
            self.process = subprocess.Popen(
                [program, "debug", f"/proc/self/fd/{file.fileno()}"],
                stdin=subprocess.PIPE,
                stdout=subprocess.PIPE,
                stderr=subprocess.PIPE,
                start_new_session=True,
                pass_fds=[file.fileno()],
            )
        assert self.process.stdin and self.process.stdout and self.process.stderr
        self.asks, self.answers, self.errors = self.process.stdin, self.process.stdout, self.process.stderr
        if wait:
            self.accept()

    def accept(self) -> None:
        """Goes to the first place, once the program has read the record."""
        try:
            self.go("goto 0")
        except Problem as fault:
            self.close()
            raise refused(self.path, str(fault)) from None

    def ask(self, command: str) -> str:
        """The answer, or its first line, to a command; the place that it names is kept."""
        try:
            self.asks.write(command.encode("utf-8", "replace") + b"\n")
            self.asks.flush()
        except OSError:
            pass  # the program has ended, and the read says why
        line = self.line()
        reached = PLACE.fullmatch(line)
        if reached:
            self.place, self.last = int(reached[1]), int(reached[2])
        return line

    def line(self) -> str:
        line = self.answers.readline()
        if not line.endswith(b"\n"):
            said = self.errors.read().decode("utf-8", "replace").strip()
            raise Problem(said or f"`actrun debug` ended with status {self.process.wait()}")
        return line.decode("utf-8")[:-1]

    def go(self, command: str) -> bool:
        """Whether a move reached a place."""
        return PLACE.fullmatch(self.ask(command)) is not None

    def end_of(self, leg: int) -> int | None:
        """The later place where a leg ends, if there is one."""
        before, found = self.place, None
        self.ask(f"break ends {leg}")
        if self.go("go"):
            found = self.place
        self.ask(f"clear ends {leg}")
        self.go(f"goto {before}")
        return found

    def board_lines(self) -> list[str]:
        """The lines of the board at the place; `ends` is the last."""
        lines = [self.ask("show")]
        while not lines[-1].startswith("ends"):
            lines.append(self.line())
        return lines

    def show(self) -> Board:
        """The board at the place."""
        return Board.of(self.board_lines())

    def board_at(self, place: int) -> Board:
        """The board at another place."""
        here = self.place
        self.go(f"goto {place}")
        try:
            return self.show()
        finally:
            self.go(f"goto {here}")

    def settle(self, place: int) -> None:
        """Reads what the program still answers, where a person interrupted, and goes to a place."""
        answer = self.ask("?")
        while answer != "unknown command":
            answer = self.line()
        self.go(f"goto {place}")

    def close(self) -> None:
        """Ends the program."""
        with contextlib.suppress(OSError), self.process:
            self.process.kill()


@dataclass(frozen=True)
class Mishap:
    """Something that did not succeed: where, by which filter, what is said of it, and the words by which
    `why` is asked about it."""
    place: int
    filter: str
    fact: str
    words: tuple[str, ...]

    def about(self) -> dict[str, int]:
        """The run, job or leg, as entries name it."""
        return {"leg" if self.words[0] == "step" else self.words[0]: int(self.words[1])}


class Record:
    """The plan and the entries of a record that the program accepted. Places count from 0, as those of
    `debug`."""

    def __init__(self, program: str, data: bytes):
        self.program = program
        self.lines = data.split(b"\n")[:-1] if data.endswith(b"\n") else data.split(b"\n")
        self.plan = json.loads(self.lines[0])
        self.entries: list[dict[str, Any]] = [{"event": "nothing"}] + [
            json.loads(line) for line in self.lines[1:]
        ]
        self.last = len(self.lines) - 1
        self.jobs: list[tuple[int, dict[str, Any]]] = [
            (number, job) for number, run in enumerate(self.plan["runs"]) for job in run["jobs"]
        ]
        self.legs: list[Leg] = legs_of(self.plan)
        self.legs_of: list[list[int]] = [[] for _ in self.jobs]
        for leg in self.legs:
            self.legs_of[leg.job["number"]].append(leg.number)
        self.judged: dict[int, int] = {}
        self.begins: list[list[int]] = [[] for _ in self.legs]  # of each leg, where its steps began
        # where they were done, if they are: without a call where they began
        self.done: list[list[int]] = [[] for _ in self.legs]
        for place, entry in enumerate(self.entries):
            if entry["event"] == "begin":
                self.begins[entry["leg"]].append(place)
                self.done[entry["leg"]].append(place)
            elif entry["event"] == "end":
                self.done[entry["leg"]][-1] = place
            elif entry["event"] == "judge":
                self.judged[entry["job"]] = place

    def begun(self, leg: int, place: int) -> int:
        """How many steps of a leg have begun at a place."""
        return bisect.bisect_right(self.begins[leg], place)

    def answered(self, leg: int, step: int, place: int) -> bool:
        """Whether the call of a step of a leg ended up to a place."""
        done = self.done[leg][step:step + 1]
        return bool(done) and done[0] <= place and self.entries[done[0]]["event"] == "end"

    def places_of(self, things: list[tuple[int, int]], ends: bool = False) -> list[int]:
        """Where jobs (those with -1) are judged and steps of jobs begin in each leg, and with `ends` where
        the steps end."""
        found = {self.judged[job] for job, step in things if step < 0 and job in self.judged}
        for job, step in things:
            for leg in self.legs_of[job] if step >= 0 else []:
                found.update(
                    self.begins[leg][step : step + 1] + (self.done[leg][step : step + 1] if ends else [])
                )
        return sorted(found)

    def about(self, place: int) -> dict[str, int]:
        """The run, job or leg that the entry of a place is about."""
        return {key: value for key, value in self.entries[place].items() if key in ("run", "job", "leg")}

    def focus(self, about: dict[str, int]) -> int | None:
        """The leg that an entry is about; of a job or a run the first one."""
        if "leg" in about:
            return about["leg"]
        return next(
            (leg.number for leg in self.legs if about in ({"run": leg.run}, {"job": leg.job["number"]})), None
        )

    def name(self, kind: str, number: int, step: int | None = None) -> str:
        """A run, a job, a leg or a step of a leg as `why` names it."""
        if kind == "step":
            plan = self.legs[number].job["steps"][step]
            text = plan["name"] or plan["work"].get("uses") or plan["work"]["run"].strip().partition("\n")[0]
        elif kind == "leg":
            values = [f"{name} {as_text(value)}" for name, value in self.legs[number].values.items()]
            text = ", ".join([self.legs[number].job["name"], *values])
        else:
            text = self.plan["runs"][number]["flow"] if kind == "run" else self.jobs[number][1]["name"]
        return f"{kind} {number if step is None else step} ({text.translate(PICTURES)})"

    def happened(self, place: int) -> str:
        """What the entry of a place is."""
        entry = self.entries[place]
        if entry["event"] in ("begin", "end"):
            step = self.begun(entry["leg"], place) - 1
            return f"{entry['event']} of {self.name('step', entry['leg'], step)} of {self.name('leg', entry['leg'])}"
        about = [self.name(kind, entry[kind]) for kind in ("run", "job", "leg") if kind in entry]
        return " ".join([entry["event"], *about])

    def why(self, place: int, words: Sequence[str]) -> str:
        """What `why` answers of the record up to a place, as text. Raises Problem with the program's line."""
        return "\n".join("  " * part.depth + part.text for part in self.reasons(place, words))

    def reasons(self, place: int, words: Sequence[str]) -> list[Part]:
        """The tree of `why` of the record up to a place. Raises Problem with the program's line."""
        try:
            return asked(self.program, b"\n".join(self.lines[:place + 1]) + b"\n", words)
        except Problem as fault:
            raise Problem(f"why {' '.join(words)}: {fault}; ask `why`, `why all`, `why run R`, `why job J`, "
                          "`why leg L` or `why step L S`") from None

    @functools.cached_property
    def parts(self) -> dict[str, Part]:
        """All parts at the end of the record, by their words. Raises Problem with the program's line."""
        return parts_of(self.program, b"\n".join(self.lines) + b"\n")

    def mishaps(self, board: Board, parts: dict[str, Part] | None = None) -> list[Mishap]:
        """All that did not succeed: steps by the board after the last entry, the rest by what `why` says."""
        found = [
            Mishap(
                self.done[leg][at],
                FILTER_OF[step.outcome],
                f"{self.name('step', leg, at)} of {self.name('leg', leg)}: {step}",
                ("step", str(leg), str(at)),
            )
            for leg, row in enumerate(board.legs)
            for at, step in enumerate(row.steps)
            if step.outcome in FILTER_OF
        ]
        for part in (parts or self.parts).values():
            if (
                part.kind in ("run", "job", "leg")
                and part.state in FILTER_OF
                and part.is_own
                and part.line is not None
            ):
                kind = "displaced" if part.fact == "displaced" else FILTER_OF[part.state]
                found.append(Mishap(part.line - 1, kind, part.text, tuple(part.words.split(" "))))
        return found


def read_record(program: str, path: pathlib.Path) -> Record:
    """The record of a file, with its parts, which the program has checked. Raises Problem."""
    if path.exists() and not path.is_file() and not path.is_dir():
        raise Problem(f"{path}: this is not a regular file, and the record is read several times: write it "
                      "into a file")
    try:
        data = path.read_bytes()
        parts = parts_of(program, data)
    except OSError as fault:
        remedy = "name a file that `actrun run --record` or `try` wrote"
        raise Problem(f"{path}: {fault.strerror}: {remedy}") from None
    except Problem as fault:
        raise refused(path, str(fault)) from None
    record = Record(program, data)
    record.parts = parts
    return record
