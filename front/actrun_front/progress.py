"""Reads the lines of `run --progress`. What masks hide in them the plan and the growing record have."""
from __future__ import annotations

import contextlib
import json
import os
import re
import time
from dataclasses import dataclass, field
from pathlib import Path
from typing import TYPE_CHECKING, Any, Optional, Tuple

from .execute import REFUSALS, read_progress
from .masks import Masks

if TYPE_CHECKING:
    from .present import Leg

PATIENCE = 5.0  # seconds for the entry of a step that has ended
GRACE = 0.5     # and for one whose line cannot be recognized
PAUSE = 0.005
SECONDS = re.compile(r" in (\d+\.\d) s, ")
HIDDEN = "***"
# sentences of the program without a value in them
KINDS = ("outputs", "variables")
REFUSED = (*(f"its file of {kind} is refused: {name}" for kind in KINDS for name in REFUSALS),
           "one of its values exceeds 65,536 bytes once masked")
NO_LOG = "what it printed cannot be kept"
UNSTARTED = ("no program is named for its action", "its folder is not there",
             "a file for it cannot be written")
Place = Tuple[int, int]  # leg and step
Progress = Optional[Tuple[int, int, str, str, str]]  # what `read_progress` gives


def first_line(text: str) -> str:
    """The first line of a text that has more than white space, by which the program names a step."""
    return next((line.strip() for line in text.splitlines() if line.strip()), "")


class Entries:
    """How the steps of a growing record were answered, by leg and step in the order of the record."""

    def __init__(self, path: Path):
        self.path, self.file = path, path.open("rb")
        self.reset()

    def reset(self) -> None:
        """Begins with an empty record."""
        self.rest = b""
        self.begun: dict[int, int] = {}
        self.answers: dict[Place, dict[str, Any]] = {}

    def read(self) -> dict[Place, dict[str, Any]]:
        """The answers so far."""
        with contextlib.suppress(OSError):  # (the program removes it at its end)
            self.follow(self.path.stat().st_ino)
        *lines, self.rest = (self.rest + self.file.read()).split(b"\n")
        for line in lines:
            self.take(line)
        return self.answers

    def follow(self, inode: int) -> None:
        """Opens the file again where the program made another."""
        if inode != os.fstat(self.file.fileno()).st_ino:
            file = self.path.open("rb")
            self.file.close()
            self.file = file
            self.reset()

    def take(self, line: bytes) -> None:
        """Takes a line; the plan's says nothing of steps."""
        if not line.startswith((b'{"answer":', b'{"event":"begin"')):
            return
        entry = json.loads(line)
        leg = entry["leg"]
        if entry["event"] == "begin":
            self.begun[leg] = self.begun.get(leg, 0) + 1
        else:
            self.answers[leg, self.begun[leg] - 1] = entry["answer"]


def has_no_value(reason: str) -> bool:
    """Whether a reason is a sentence of the program alone, in which nothing is a secret."""
    unstarted = (f"not started: {text}" for text in UNSTARTED)
    return reason.startswith(("exit ", "its outputs or variables cannot be read", *REFUSED, *unstarted))


@dataclass
class Steps:
    """The steps that run, and what a line of the program says of one."""

    legs: list[Leg]
    secrets: list[str]                                                  # that the program masks in its lines
    entries: Entries | None = None                                      # of the record, where it can be read
    started: dict[Place, float] = field(default_factory=dict)           # steps that were said to start; when
    ended: set[Place] = field(default_factory=set)                      # and to end
    failed: list[Place] = field(default_factory=list)

    def __post_init__(self) -> None:
        self.masks = Masks()
        self.masks.hide_forms(set(filter(None, self.secrets)))

    def read(self, line: str) -> Progress:
        """Leg, step, state, reason and seconds of a line; None of a line that is not about a step."""
        found = read_progress(line)
        if not found and HIDDEN in line and self.masks.forms and self.entries:
            found = self.looked_up(line, self.entries)
        if found:
            leg, step, state = found[:3]
            if state == "started":
                self.started[leg, step] = time.monotonic()
            elif state != "refused":
                self.ended.add((leg, step))
                self.failed += [(leg, step)] if state == "failure" else []
        return found

    def looked_up(self, line: str, entries: Entries) -> Progress:
        """What a line with a hidden part says, by the entries before it, or the one that follows it."""
        entries.read()
        return self.of_start(line, entries) or self.of_refusal(line, entries) or self.of_end(line, entries)

    def hidden(self, place: Place, text: str = "") -> str:
        """A line about a step, or its beginning, as the program shows it."""
        leg, step = place
        job = self.legs[leg].job
        name, count = job.get("id", job["name"]), len(job["steps"])
        return self.masks.hide(f"leg {leg} ({name}) step {step} of {count} {text}")

    def name(self, place: Place) -> str:
        """What the program calls a step."""
        part = self.legs[place[0]].job["steps"][place[1]]
        return first_line(part["name"] or part["work"].get("run") or part["work"].get("uses") or "")

    def plain(self, place: Place, text: str) -> Progress:
        """What a line says of a step when nothing is hidden in its numbers."""
        return read_progress(f"leg {place[0]} (job) step {place[1]} of 1 {text}")

    def of_start(self, line: str, entries: Entries) -> Progress:
        """What a line says of a step that was started. Its end may be in the record already, and may be shown
        for that of another step whose line is the same."""
        answered = [place for place, answer in entries.answers.items() if answer["kind"] != "not-started"]
        begun = [(leg, count - 1) for leg, count in entries.begun.items()]
        found = [place for place in (*begun, *answered) if place not in self.started]
        found.sort(key=lambda place: place in self.ended)
        for place in found:
            if line == self.hidden(place, f"started: {self.name(place)}"):
                return (*place, "started", "", "")
        return None

    def of_refusal(self, line: str, entries: Entries) -> Progress:
        """What a line says of a step whose files are refused."""
        for place in self.started.keys() - self.ended:
            begins = self.hidden(place, "refused: ")
            if line.startswith(begins):
                known = next((text for text in REFUSED if line == self.hidden(place, f"refused: {text}")), "")
                return self.plain(place, f"refused: {known or line[len(begins):]}")
        return None

    def of_end(self, line: str, entries: Entries) -> Progress:
        """What a line says of a step that has ended, or was not started: the entry that follows has that."""
        began, waits = time.monotonic(), True
        while waits:
            new = [place for place in entries.read() if place not in self.ended]
            ends = {place: self.hidden(place, self.end_of(place, entries)) for place in new}
            fits = [place for place in new if line.startswith(ends[place])]
            passed = time.monotonic() - began
            # (a mask may go beyond the part of the line that is known)
            if fits or new and passed > GRACE and not line.startswith("actrun: "):
                return self.answered(line, (fits or new)[0], entries)
            waits = passed < (PATIENCE if self.started.keys() - self.ended else GRACE)
            time.sleep(PAUSE)
        return None

    def end_of(self, place: Place, entries: Entries) -> str:
        """How a line goes on about a step that was answered so."""
        answer = entries.answers[place]
        if answer["kind"] == "exit":
            return f"exit {answer['code']}"
        return "bad output" if answer["kind"] == "bad-output" else f"not started: {self.name(place)} ("

    def answered(self, line: str, place: Place, entries: Entries) -> Progress:
        """What a line says of a step with an answer."""
        end = self.end_of(place, entries)
        if entries.answers[place]["kind"] == "not-started":
            known = (text for text in UNSTARTED if line.startswith(self.hidden(place, f"{end}{text}), ")))
            why = next(known, line[len(self.hidden(place, end)):].rpartition("), ")[0])
            return self.plain(place, f"not started: it ({why}), 1 of 1 steps")
        shown, now = SECONDS.search(line), time.monotonic()
        took = shown[1] if shown else f"{now - self.started.get(place, now):.1f}"
        return self.plain(place, f"{end} in {took} s, 1 of 1 steps")
