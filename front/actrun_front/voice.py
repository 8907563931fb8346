"""Speaks of an execution as it goes, in one thread: each step that begins and ends, and what it prints."""
from __future__ import annotations

import contextlib
import re
import threading
import time
from collections import deque
from dataclasses import dataclass, field
from typing import Any, Callable

from .names import JOB_NAME, STEP_NAME
from .present import RESET, Board, Event, Leg, Screen, one_line
from .step_log import Limits
from .streaming import Printed, Stream
from .visible import Parts, visible

TICK = 0.1               # seconds between two looks at what steps print
SILENCE = 0.2            # seconds after which a line is shown that is not whole
MOST_KEPT = 1 << 20      # characters of a step's output that a live view shows if the step fails
MOST_LAST = 400          # of the last line
MOST_NAME = 40           # characters of a leg or step before each line
EXIT = re.compile(r"exit (\d+)")
LEG_COLOURS = (36, 35, 34, 33, 32)


@dataclass
class Running:
    """A step that executes, and what was shown of it."""

    printed: Printed
    stream: Stream
    title: str
    parts: Parts
    since: float = field(default_factory=time.monotonic)
    heard: float = 0.0           # when it printed last; 0 where nothing is to be shown of it
    is_muted: bool = False       # it was shown before
    is_headed: bool = False      # its title was shown
    kept: deque[str] = field(default_factory=deque)
    size: int = 0                # characters of these
    is_cut: bool = False         # there were more
    last: str = ""               # line, with its end if it has one

    def seconds(self) -> int:
        """How long it executes."""
        return int(time.monotonic() - self.since)


class Silent:
    """Shows the results of steps alone."""

    follows = False              # shows what steps print
    takes_parts = False          # also of lines that are not whole

    def __init__(self, board: Board) -> None:
        self.board, self.screen = board, board.screen

    def begun(self, step: Running) -> None:
        """A step begins."""

    def print(self, step: Running, text: str) -> None:
        """A step printed lines. The last may not be whole."""

    def ended(self, step: Running | None, event: Event) -> None:
        """A step ended, or the program said something else."""
        self.board.tell(event)

    def interrupted(self, step: Running) -> None:
        """The program ended before a step did."""

    def view(self, running: list[Running]) -> list[str]:
        """The lines at the end of the terminal."""
        return []


class Plain(Silent):
    """Shows what steps print below their titles: of legs that execute one after the other."""

    follows = takes_parts = True

    def print(self, step: Running, text: str) -> None:
        shown = step.parts.take(text)
        if shown and not step.is_headed:
            self.screen.section(step.title)
            step.is_headed = True
        self.screen.print(shown)

    def view(self, running: list[Running]) -> list[str]:
        return [f"{step.title}  {step.seconds()} s" for step in running]


class Prefixed(Silent):
    """Shows each line that a step prints behind the names of leg and step. A line that is not whole is at the
    end of the terminal, since other legs may print before it goes on."""

    follows = takes_parts = True

    def print(self, step: Running, text: str) -> None:
        whole, ends, step.last = (step.last + text).rpartition("\n")
        if len(step.last) > MOST_KEPT:
            whole, ends, step.last = whole + ends + step.last, "\n", ""
        if ends:
            before = self.prefix(step.printed.leg, step.title)
            shown = step.parts.take(f"{whole}\n")
            self.screen.print(before + shown[:-1].replace("\n", f"\n{before}") + "\n")

    def view(self, running: list[Running]) -> list[str]:
        return [f"{step.title} | {step.last}" for step in running if step.last]

    def prefix(self, leg: int, title: str) -> str:
        """What is before each line of a step."""
        name = self.board.legs[leg].name
        words = f"{short(name)}: {short(title[len(name) + 2:])} | "
        colour = f"\x1b[{LEG_COLOURS[leg % len(LEG_COLOURS)]}m"
        return f"{colour}{words}{RESET}" if self.screen.shows_colours else words


class Live(Silent):
    """Shows a line for each leg that executes, at the end of the terminal; the output of a step if it
    fails."""

    follows = takes_parts = True

    def __init__(self, board: Board) -> None:
        super().__init__(board)
        board.is_brief = True

    def print(self, step: Running, text: str) -> None:
        step.kept.append(step.parts.take(text))
        step.size += len(step.kept[-1])
        line = (step.last + text).rstrip("\n").rpartition("\n")[2]
        step.last = line[-MOST_LAST:] + "\n" * text.endswith("\n")
        while step.size > MOST_KEPT and len(step.kept) > 1:
            step.size -= len(step.kept.popleft())
            step.is_cut = True

    def ended(self, step: Running | None, event: Event) -> None:
        if step and event.kind not in ("success", "skipped"):
            self.interrupted(step)
        super().ended(step, event)

    def interrupted(self, step: Running) -> None:
        if step.kept:
            self.screen.section(step.title)
        if step.is_cut:
            text = f"(the last {step.size} characters; {step.printed.log} has all, unmasked)"
            self.screen.say(text, "note")
        for text in step.kept:
            self.screen.print(text)

    def view(self, running: list[Running]) -> list[str]:
        return [f"{step.title}  {step.seconds()} s  {step.last.strip()}" for step in running]


class Objects(Silent):
    """Shows events as objects of JSON."""

    def __init__(self, board: Board, follows: bool, stage: int) -> None:
        super().__init__(board)
        self.follows, self.stage, self.since = follows, stage, time.monotonic()

    def object(self, event: str, leg: int, step: int, **more: Any) -> None:
        """An object about a step."""
        part, now = self.board.legs[leg], time.monotonic()
        place = {"stage": self.stage, "run": part.run, "leg": leg, "step": step}
        self.screen.object({"version": 1, "event": event, **place, **more,
                            "milliseconds": int((now - self.since) * 1000)})

    def named(self, event: str, place: tuple[int, int], **more: Any) -> None:
        """An object about a step with its names."""
        part = self.board.legs[place[0]]
        job = self.board.made.jobs.get(place[0], part.job["id"])
        self.object(event, *place, job=job, leg_name=part.name, step_name=self.board.name(*place), **more)

    def begun(self, step: Running) -> None:
        place = step.printed.leg, step.printed.step
        if not step.is_muted and not self.board.is_made(*place):
            self.named("begin", place)

    def print(self, step: Running, text: str) -> None:
        for line in text.removesuffix("\n").split("\n"):
            self.object("output", step.printed.leg, step.printed.step, line=line)

    def ended(self, step: Running | None, event: Event) -> None:
        super().ended(step, event)
        if event.leg >= 0 and event.is_shown:
            found = EXIT.fullmatch(event.line)
            number = 0 if event.state == "success" else int(found[1]) if found else None
            self.named("end", event.place, result=event.kind, exit=number, why=event.why or None)


def short(text: str) -> str:
    """A name before each line."""
    line = visible(one_line(text))
    return line if len(line) <= MOST_NAME else f"{line[:MOST_NAME - 1]}…"


def at_once(plan: dict[str, Any], legs: list[Leg], workers: int) -> bool:
    """Whether two legs may execute at the same time: neither needs the other, directly or not."""
    numbers = [leg.job["number"] for leg in legs]
    if workers < 2 or len(numbers) > len(set(numbers)):
        return workers > 1
    needs = {job["number"]: job["needs"] for run in plan["runs"] for job in run["jobs"]}
    before = {number: reached(number, needs) for number in numbers}
    chain = sorted(numbers, key=lambda number: len(before[number]))
    return any(first not in before[second] for first, second in zip(chain, chain[1:]))


def reached(number: int, needs: dict[int, list[int]]) -> set[int]:
    """The jobs that a job needs, directly or not."""
    found: set[int] = set()
    left = list(needs[number])
    while left:
        need = left.pop()
        if need not in found:
            found.add(need)
            left += needs[need]
    return found


def form_of(board: Board, plan: dict[str, Any], options: Any, stage: int) -> Silent:
    """How an execution is shown."""
    screen = board.screen
    if screen.quiet:
        return Silent(board)
    if screen.json:
        return Objects(board, bool(options.follow), stage)
    if not at_once(plan, board.legs, options.workers):
        return Plain(board)
    return Live(board) if screen.is_terminal and not options.follow else Prefixed(board)


class Voice:
    """Takes what the program says, and shows it in its order, what steps print between."""

    def __init__(self, board: Board, limits: Limits, form: Silent, end: Callable[[], None]) -> None:
        self.board, self.limits, self.form, self.end = board, limits, form, end
        self.screen: Screen = board.screen
        self.running: dict[tuple[int, int], Running] = {}  # by leg and step
        self.events: deque[Event] = deque()
        self.change = threading.Condition()
        self.is_over = self.is_deaf = self.hurries = False
        self.fault: BaseException | None = None
        self.thread = threading.Thread(target=self.speak, daemon=True)

    def start(self) -> Voice:
        """Begins to speak."""
        self.thread.start()
        return self

    def take(self, event: Event) -> None:
        """Takes what the program says."""
        with self.change:
            self.events.append(event)
            self.change.notify()

    def tell(self, text: str, kind: str = "") -> None:
        """Takes a line for a person."""
        self.take(Event(text, kind=kind))

    def close(self, is_deaf: bool = False, hurries: bool = False) -> None:
        """Ends when all is said, without what steps printed last if it hurries, or at once. Raises the error
        by which lines could not be shown."""
        with self.change:
            self.is_over, self.is_deaf, self.hurries = True, self.is_deaf or is_deaf, hurries
            self.change.notify()
        self.thread.join()
        self.screen.view([])
        if self.fault:
            raise self.fault

    def speak(self) -> None:
        """Speaks until the execution is over."""
        try:
            while self.round():
                pass
        except BaseException as error:  # pylint: disable=broad-except  (the thread that waits raises it)
            self.fault, self.is_deaf = error, True
            self.end()
        finally:
            for step in self.running.values():
                step.printed.close()

    def round(self) -> bool:
        """Shows what there is of each step, and events whose steps have no more; false when all is said."""
        if self.is_deaf:
            return False
        steps = [] if self.screen.is_full or self.hurries else list(self.running.values())
        is_busy = any([self.read(step) for step in steps])
        while not self.screen.is_full and self.events and not self.waits(self.events[0]):
            self.show(self.events.popleft())
            is_busy = True
        self.look()
        if is_busy:
            return True
        with self.change:
            if self.is_over and not self.events:
                self.finish_all()
                return False
            if not self.events or self.screen.is_full:
                self.change.wait(TICK)
        return True

    def look(self) -> None:
        """Shows the lines at the end of the terminal, unless that is gone."""
        with contextlib.suppress(OSError):
            self.screen.view(self.form.view([step for _, step in sorted(self.running.items())]))

    def waits(self, event: Event) -> bool:
        """Whether a step whose end is to be shown has more output."""
        if event.leg < 0 or event.state == "started":
            return False
        step = self.begin(event)
        step.printed.ended, step.printed.lost = True, event.is_lost
        return not self.hurries and self.read(step)

    def show(self, event: Event) -> None:
        """Shows an event."""
        if event.state == "started":
            self.form.begun(self.begin(event))
            return
        step = self.running.pop(event.place, None)
        if step:
            self.look()
            self.finish(step, event.cut)
        self.form.ended(step, event)

    def begin(self, event: Event) -> Running:
        """The step of an event, which begins if it is not known. (Lines about the beginnings of several steps
        may be alike, where masks hide the numbers.)"""
        if event.place not in self.running:
            board, (leg, number) = self.board, event.place
            printed = Printed(self.limits, leg, number)
            stream = Stream(board.masks, board.mark, leg, printed.log)
            step = Running(printed, stream, board.title(leg, number), Parts(self.screen.shows_colours))
            step.is_muted = event.place in board.quiet
            self.running[event.place] = step
        return self.running[event.place]

    def read(self, step: Running) -> bool:
        """Shows what comes next of a step; whether there was something."""
        data = step.printed.more() if self.form.follows else b""
        now = time.monotonic()
        if data:
            self.print(step, step.stream.take(data))
            step.heard = now
        elif step.heard and now - step.heard >= SILENCE and self.form.takes_parts:
            self.print(step, step.stream.part())
            step.heard = 0.0
        return bool(data)

    def print(self, step: Running, text: str) -> None:
        """Shows text of a step."""
        if step.stream.names:
            signs = {f"{self.board.mark}+": JOB_NAME, f"{self.board.mark}-": STEP_NAME}
            given = {signs[sign]: name for sign, name in step.stream.names.items() if sign in signs}
            self.board.take_names(step.printed.leg, step.printed.step, given)
            step.title = self.board.title(step.printed.leg, step.printed.step)
            step.stream.names.clear()
        if text and not step.is_muted:
            self.form.print(step, text)

    def finish(self, step: Running, cut: str = "") -> None:
        """Shows the end of what a step printed, and why it is cut, if it is."""
        if self.form.follows:
            self.print(step, step.stream.end())
            if cut:
                self.print(step, f"(the log is {'cut here' if step.printed.at else 'lost'}: {cut})\n")
        step.printed.close()

    def finish_all(self) -> None:
        """Shows the rest of steps of which no end was said."""
        for step in self.running.values():
            while not self.hurries and self.read(step):
                pass
            step.printed.save()
            self.finish(step)
            self.form.interrupted(step)
        self.running.clear()
