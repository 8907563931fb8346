"""Shows an execution to a person: live lines, the output of steps in groups, trees, tables and results."""
from __future__ import annotations

import functools
import json
import os
import re
import shutil
import sys
import threading
from dataclasses import dataclass, field
from pathlib import Path
from typing import Any, Callable, Iterable, TextIO

from . import advice
from .execute import program
from .expressions import PIECE, STATUS, EvaluationError, Program, references
from .files import names, read_below
from .late_hashes import is_hidden, with_calls
from .log_masks import LogMasks
from .masks import Masks
from .names import JOB_NAME, STEP_NAME, as_text, read_names
from .progress import NO_LOG, Entries, Progress, Steps, has_no_value
from .visible import cells, unfailing, visible, visible_log
from .written import Find, Made, Outline, Part, grouped, within

MOST_SUMMARY = 1 << 20  # bytes, as on GitHub
CONTROL = re.compile(r"[\x00-\x1f\x7f]")
COLOURS = {
    "success": "32",
    "failure": "31",
    "cancelled": "33",
    "skipped": "90",
    "stalled": "31",
    "interrupted": "33",
    "note": "90",
    "head": "1",
    "warning": "33",
}
SIGNS = {
    "success": ("✓", "ok"),
    "failure": ("✗", "FAILED"),
    "cancelled": ("⊘", "CANCELLED"),
    "skipped": ("-", "skipped"),
    "stalled": ("✗", "STALLED"),
    "interrupted": ("⊘", "INTERRUPTED"),
}
RESET = "\x1b[0m"
MOST_KEPT_BACK = 1 << 20  # characters
MATRIX = re.compile(r"\$\{\{\s*matrix((?:\.[\w-]+)+)\s*\}\}")
ANNOTATION = re.compile(r"(?m)^(error|warning):(?: .*)?$")
KINDS = {"error": "failure", "warning": "warning"}


@dataclass(frozen=True)
class Leg:
    """One leg of a plan."""

    number: int
    run: int
    job: dict[str, Any]
    values: dict[str, Any]
    late: dict[str, str] = field(default_factory=dict, compare=False)  # names that came later, by the plan's

    @property
    def name(self) -> str:
        """The job's name, with the values of the matrix behind it."""
        name = self.filled(self.job["name"])
        words = [as_text(value) for value in self.values.values()]
        return one_line(
            name
            if name != self.job["name"] and "${{" not in name or not words
            else f"{name} ({', '.join(words)})"
        )

    def filled(self, text: str) -> str:
        """A name with the values of the matrix that it mentions."""
        def value(found: re.Match[str]) -> str:
            part: Any = self.values
            for key in found[1].split(".")[1:]:
                if not isinstance(part, dict) or key not in part:
                    return found[0]
                part = part[key]
            return as_text(part)
        for name, known in self.late.items():
            text = text.replace(name, known)
        named = MATRIX.sub(value, text)
        if "${{" not in named:
            return named
        return PIECE.sub(lambda it: by_values(it[1].strip(), json.dumps(self.values), it[0]), named)


@functools.lru_cache(maxsize=None)
def by_values(expression: str, values: str, otherwise: str) -> str:
    """The text of an expression by the values of a matrix, or another text where it reads more or just
    one."""
    matrix = json.loads(values)
    accesses, calls = references(expression)
    is_lone = bool(re.fullmatch(r"matrix[\w.-]*", expression))
    reads_more = any(access.context != "matrix" for access in accesses)
    if is_lone or not accesses or reads_more or calls & {*STATUS, "hashfiles"}:
        return otherwise
    try:
        return as_text(Program(program()).evaluate(expression, {"matrix": matrix}))
    except EvaluationError:
        return otherwise


def legs_of(plan: dict[str, Any]) -> list[Leg]:
    """All legs of a plan by their numbers."""
    triples = (
        (run, job, values)
        for run, part in enumerate(plan["runs"])
        for job in part["jobs"]
        for values in job["legs"]
    )
    return [Leg(number, *triple) for number, triple in enumerate(triples)]


def one_line(text: str, most: int = 100) -> str:
    """The first line of a text, without control characters."""
    line = CONTROL.sub(" ", text.strip().split("\n", 1)[0]).strip()
    return line if len(line) <= most else line[:most - 3] + "..."


def cut(text: str) -> str:
    """The first line of a text, with `…` where more follow."""
    return one_line(text) + (" …" if "\n" in text.strip() else "")


def step_name(step: dict[str, Any]) -> str:
    """The step's name, else the first line of what it does."""
    work = step["work"]
    return one_line(step["name"] or (work["run"] if work["kind"] == "run" else work["uses"]))


def mask(text: str, secrets: Iterable[str]) -> str:
    """The text with `***` in place of each secret."""
    words = sorted(filter(None, secrets), key=len, reverse=True)
    return re.sub("|".join(map(re.escape, words)), "***", text) if words else text


def is_joined() -> bool:
    """Whether standard output and error are one file."""
    try:
        return os.path.samestat(os.fstat(sys.stdout.fileno()), os.fstat(sys.stderr.fileno()))
    except (OSError, ValueError):
        return False


class Screen:
    """Where lines go: results to standard output, all else to standard error. Colours and the lines of
    running steps need a terminal."""

    def __init__(self) -> None:
        self.live = sys.stderr.isatty() and os.environ.get("TERM") != "dumb"
        self.plain = bool(os.environ.get("NO_COLOR")) or os.environ.get("TERM") == "dumb"
        self.is_terminal = self.live and sys.stdout.isatty()
        self.area: list[str] = []  # the last lines of the terminal, which the next line replaces
        self.rows = 0  # of these
        self.is_open = False  # standard output has a line without an end
        self.is_joined = is_joined()
        self.quiet = False  # shows results and errors alone
        self.json = False  # standard output has objects alone
        self.held: list[tuple[str, TextIO, bool]] | None = None  # lines that wait for the end of a prompt
        self.lock = threading.RLock()
        for stream in (sys.stdout, sys.stderr):
            unfailing(stream, "replace")

    def paint(self, text: str, kind: str, stream: TextIO) -> str:
        """The text in the colour of its kind, where the stream has colours."""
        coloured = text and kind in COLOURS and self.coloured(stream)
        return f"\x1b[{COLOURS[kind]}m{text}\x1b[0m" if coloured else text

    def coloured(self, stream: TextIO) -> bool:
        """Whether a stream has colours."""
        return stream.isatty() and not self.plain

    @property
    def shows_colours(self) -> bool:
        """Whether the output of steps is shown with its colours."""
        return self.coloured(sys.stdout)

    def result(self, kind: str, text: str, stream: TextIO, more: str = "") -> None:
        """A line behind the sign of a result; what is more has its colour, too."""
        sign = SIGNS[kind]["utf" not in (stream.encoding or "").lower()]
        line = f"{self.paint(sign, kind, stream)} {visible(text)}{self.paint(visible(more), kind, stream)}"
        self.put(line, stream, stream is sys.stdout)

    def say(self, text: str, kind: str = "", stream: TextIO | None = None) -> None:
        """A line of standard output, or of another stream."""
        stream = stream or sys.stdout
        self.put(self.paint(visible(text), kind, stream), stream, kind == "failure")

    def log(self, text: str) -> None:
        """What a step wrote, on standard output, with its own colours."""
        if not self.quiet:
            self.print(visible_log(text, self.shows_colours) + "\n")

    def print(self, text: str) -> None:
        """Visible lines of a step, on standard output; the last may have no end yet."""
        if self.shows_colours and ANNOTATION.search(text):
            text = ANNOTATION.sub(lambda found: self.paint(found[0], KINDS[found[1]], sys.stdout), text)
        self.add(text, sys.stdout, True)

    def put(self, text: str, stream: TextIO, always: bool = False) -> None:
        """Lines as they are."""
        if not self.quiet or always:
            self.add(f"{text}\n", stream, False)

    def add(self, text: str, stream: TextIO, goes_on: bool) -> None:
        """Writes a text in place of the lines of what is running, which `view` shows again, or keeps it
        back."""
        if self.json and stream is sys.stdout:
            return
        with self.lock:
            if self.held is not None:
                self.held.append((text, stream, goes_on))
                return
            self.view([])
            self.write(text, stream, goes_on)

    def write(self, text: str, stream: TextIO, goes_on: bool) -> None:
        """Writes a text, on a line of its own unless it goes on with the last one."""
        if self.is_open and not goes_on and (self.is_joined or stream is sys.stdout):
            print(RESET if self.shows_colours else "", flush=True)
            self.is_open = False
        print(text, end="", file=stream, flush=True)
        if stream is sys.stdout and text:
            self.is_open = not text.endswith("\n")

    def object(self, value: dict[str, Any]) -> None:
        """An object of JSON in ASCII, which steers no terminal, on a line of standard output."""
        text = json.dumps(value, separators=(",", ":")).replace("\x7f", "\\u007f")
        with self.lock:
            print(text, flush=True)

    def hold(self) -> None:
        """Keeps lines back from here on."""
        with self.lock:
            self.view([])
            self.held = []

    @property
    def is_full(self) -> bool:
        """Whether so much is kept back that no step's output may be added."""
        return self.held is not None and sum(len(text) for text, _, _ in self.held) > MOST_KEPT_BACK

    def flush(self) -> None:
        """Shows the lines that were kept back."""
        with self.lock:
            lines, self.held = self.held or [], None if self.held is None else []
            for text, stream, goes_on in lines:
                self.write(text, stream, goes_on)

    def release(self) -> None:
        """Keeps no more lines back."""
        with self.lock:
            self.flush()
            self.held = None

    def tell(self, text: str, kind: str = "") -> None:
        """A line of standard error."""
        self.say(text, kind, sys.stderr)

    def section(self, title: str) -> None:
        """A title on standard output."""
        self.say("")
        self.say(f"--- {title}", "head")

    def view(self, lines: list[str]) -> None:
        """The last lines of the terminal, which say what is running, in place of the last ones."""
        with self.lock:
            if not self.live or self.quiet or self.held is not None or lines == self.area:
                return
            if self.is_open and self.is_joined:
                return
            columns, rows = shutil.get_terminal_size()
            fitting = lines if len(lines) < rows else [*lines[:rows - 2], f"… {len(lines) - rows + 2} more"]
            shown = [self.paint(cells(visible(line), columns - 1), "note", sys.stderr) for line in fitting]
            above = f"\x1b[{self.rows - 1}A" if self.rows > 1 else ""
            print("\r" + above + "\x1b[J" + "\n".join(shown), end="", file=sys.stderr, flush=True)
            self.area, self.rows = lines, len(shown)


@dataclass(frozen=True)
class Event:
    """What a line of `run --progress` says: of a step, or a line for a person."""

    line: str = ""        # where it says nothing of a step
    leg: int = -1
    step: int = -1
    state: str = ""       # `started`, `success` or `failure`
    kind: str = ""        # how it is shown
    why: str = ""         # it failed, or was ended
    seconds: str = ""
    is_shown: bool = True
    is_lost: bool = False  # what the step printed cannot be kept
    cut: str = ""         # why its log ends before the step did

    @property
    def place(self) -> tuple[int, int]:
        """Leg and step."""
        return self.leg, self.step


@dataclass
class Board:
    """What the lines of `run --progress` say of the steps, and how they are shown."""

    screen: Screen
    legs: list[Leg]
    mark: str                                                     # of the lines that begin a step's output
    # that the program masks, in its own lines too
    secrets: list[str] = field(default_factory=list)
    folder: Path | None = None                                    # of the logs
    # hears of each step, and knows why it was ended
    ender: Any = None
    path: str = os.defpath                                        # the PATH of the user
    # leg and step of those that did not find a command
    lacking: list[tuple[int, int]] = field(default_factory=list)
    # actions whose steps do nothing by --lenient
    lenient: set[str] = field(default_factory=set)
    skipped: list[tuple[int, int]] = field(default_factory=list)  # leg and step of those
    made: Made = Made()                                           # steps that the user did not write
    running: dict[int, int] = field(default_factory=dict)         # leg -> step
    begun: set[int] = field(default_factory=set)                  # legs
    # leg -> why the answer of its step is bad output
    refused: dict[int, str] = field(default_factory=dict)
    ended: int = 0                                                # steps
    errors: list[str] = field(default_factory=list)               # lines of the program
    results: dict[int, str] = field(default_factory=dict)         # of runs, when the execution is over
    quiet: set[tuple[int, int]] = field(default_factory=set)      # legs with steps that were shown before
    told: dict[tuple[int, int], str] = field(default_factory=dict)  # and why these were ended
    is_brief: bool = False                                        # shows no output of steps that succeed

    def __post_init__(self) -> None:
        self.steps, self.masks = Steps(self.legs, self.secrets), LogMasks(self.secrets, self.folder)

    def follow(self, record: Path) -> None:
        """Reads what the masks hide in lines of the program from the record that grows."""
        self.steps.entries = Entries(record)

    def name(self, leg: int, step: int) -> str:
        """A step in words."""
        part = self.legs[leg]
        name = one_line(with_calls(part.filled(step_name(part.job["steps"][step])), part.job["steps"]))
        return within(map(one_line, self.made.owners.get((leg, step), ())), name)

    def title(self, leg: int, step: int) -> str:
        """Leg and step in words."""
        return f"{self.legs[leg].name}: {self.name(leg, step)}"

    def stop(self, cause: str) -> None:
        """Says that a signal was seen."""
        self.screen.tell(
            f"{cause}: the steps are being ended; those with always() or cancelled() still execute; "
            "again ends the program at once"
        )

    def heard(self, line: str, found: Progress) -> Event | None:
        """Takes a line of standard error, and what it says of a step; gives what a person is to see of it."""
        if not found:
            self.errors += [line] if line.startswith("actrun: ") else []
            return Event(re.sub("^::(notice|warning|error)::", r"\1: ", line),
                         kind="failure" if line.startswith("actrun: ") else "")
        leg, step, state, reason, seconds = found
        reason = reason if has_no_value(reason) else mask(reason, self.secrets)
        if state == "refused":  # (the line of the step's end follows)
            from .output_limits import detail
            self.refused[leg] = reason + mask(detail(self.folder, leg, step, reason), self.secrets)
            return None
        self.running.pop(leg, None)
        if self.ender:
            self.ender.progress(leg, step, state)
        if state == "started":
            self.running[leg] = step
            self.begun.add(leg)
            return Event(leg=leg, step=step, state=state)
        is_shown = self.is_shown(leg, step, state)
        self.ended += is_shown
        self.lacking += [(leg, step)] if reason == "exit 127" and is_shown else []
        why, reason = self.cause(leg, step), self.refused.pop(leg, reason)
        kind = self.kind(leg, step, state) if is_shown else state
        kind = "interrupted" if why.startswith("stopped by ") else kind
        return Event(reason, leg, step, state, kind, why or reason, seconds, is_shown and not (
            kind == "success" and self.is_made(leg, step)), NO_LOG in reason)

    def tell(self, event: Event) -> None:
        """Shows an event. Where it cannot be shown, nothing need wait."""
        try:
            if event.leg < 0:
                self.screen.tell(event.line, event.kind)
            elif event.kind and event.is_shown:
                words = [self.title(*event.place), event.why, f"{event.seconds} s" if event.seconds else ""]
                self.screen.result(event.kind, ", ".join(filter(None, words)), sys.stderr)
        except OSError:
            pass

    def is_shown(self, leg: int, step: int, state: str) -> bool:
        """Takes the names that came with a step that ended, and says whether a person sees that step."""
        self.take_names(leg, step)
        is_known = (leg, step) in self.quiet | self.made.calls
        return not is_known and not (state == "success" and self.is_hidden(leg, step))

    def is_hidden(self, leg: int, step: int) -> bool:
        """Whether the front made a step for an expression of another one."""
        return is_hidden(self.legs[leg].job["steps"][step])

    def is_made(self, leg: int, step: int) -> bool:
        """Whether a step is shown only where it does not succeed, since the user did not write it."""
        return (leg, step) in self.made.ends | self.made.opens | self.made.calls or self.is_hidden(leg, step)

    def take_names(self, leg: int, step: int, given: dict[str, str] | None = None) -> None:
        """Keeps the names of a leg and a step that came with the step's output, or are given."""
        part = self.legs[leg]
        for node, variable in ((part.job, JOB_NAME), (part.job["steps"][step], STEP_NAME)):
            if self.folder and variable in node.get("env", {}) and node["name"] not in part.late:
                log = self.folder / f"step-{leg}-{step}.log"
                found = (read_names(log, self.mark) if given is None else given).get(variable)
                if found:
                    part.late[node["name"]] = mask(found, self.secrets)

    def cause(self, leg: int, step: int) -> str:
        """Why a step was ended or did not start; nothing if it was left alone."""
        return self.told.get((leg, step)) or (self.ender.cause(leg, step) if self.ender else "")

    def kind(self, leg: int, step: int, state: str) -> str:
        """How a step is shown that ended so: as skipped, if --lenient had it do nothing."""
        is_skipped = (
            state == "success" and self.legs[leg].job["steps"][step]["work"].get("uses") in self.lenient
        )
        self.skipped += [(leg, step)] if is_skipped else []
        return "skipped" if is_skipped else state

    def skips(self) -> Iterable[str]:
        """A line with the steps that --lenient had do nothing."""
        uses = [self.legs[leg].job["steps"][step]["work"]["uses"] for leg, step in self.skipped]
        counts = [
            f"{one_line(name)}{f' ({uses.count(name)} times)' if uses.count(name) > 1 else ''}"
            for name in dict.fromkeys(uses)
        ]
        if counts:
            yield f"--lenient skipped {len(uses)} step{'s' if len(uses) > 1 else ''}: {', '.join(counts)}"

    def missing(self) -> list[str]:
        """The advice for each command that a step did not find."""
        logs = (self.folder / f"step-{leg}-{step}.log" for leg, step in self.lacking) if self.folder else ()
        return list(
            dict.fromkeys(mask(text, self.secrets) for log in logs for text in advice.missing(log, self.path))
        )

    def without_record(self) -> list[str]:
        """What is known where the program was ended before it wrote a record."""
        executed = [
            f"{self.title(leg, step)}: was being executed" for leg, step in sorted(self.running.items())
        ]
        return [*executed, f"steps that ended: {self.ended}"]

    def places(self) -> Iterable[tuple[int, int]]:
        """Leg and step of each step."""
        return ((leg.number, step) for leg in self.legs for step in range(len(leg.job["steps"])))


def without_guard(condition: str, guards: Iterable[str]) -> str:
    """A condition as the workflow has it, without a guard before it."""
    for guard in guards:
        if condition == guard:
            return ""
        if condition.startswith(f"({guard}) && ("):
            return condition[len(guard) + 7:-1]
    return condition


def tree(plan: dict[str, Any], files: list[str], stands: dict[str, str], guards: Iterable[str],
         parts: Find = lambda run, job, step: None,
         lacks: Callable[[int, str], str] = lambda run, job: "") -> Iterable[str]:
    """Runs, jobs, legs and steps of a plan; `stands` has the stub of each action, `parts` what the front
    made, and `lacks` what a job is executed without."""
    def condition(part: dict[str, Any], made: Part | None, steps: list[dict[str, Any]] | None = None) -> str:
        text = with_calls(
            made.condition if made else without_guard(part["condition"] or "", guards), steps or []
        )
        return f", if {cut(text)}" if text else ""

    def called(job: int) -> str:
        found = parts(number, ids[job], None)
        return found.name if found else str(ids[job])
    legs = legs_of(plan)
    ids = {job["number"]: job["id"] for run in plan["runs"] for job in run["jobs"]}
    for number, (run, file) in enumerate(zip(plan["runs"], files)):
        yield f"{one_line(run['flow'])} ({file})"
        jobs = Outline(parts)
        for job in grouped(run["jobs"], number, parts):
            put = jobs.put(number, job["id"], indent="  ")
            if not put:
                continue
            heads, indent, made = put
            yield from heads
            names = list(filter(None, map(called, job["needs"])))
            needs = f", needs {', '.join(names)}" if names else ""
            lack = lacks(number, job["id"])
            ends = needs + (f", without its {lack}" if lack else "") + condition(job, made)
            yield f"{indent}job {called(job['number'])}{ends}"
            if job["legs"] != [{}]:
                yield from (f"{indent}  leg {leg.number}: {leg.name}" for leg in legs if leg.job is job)
            steps = Outline(parts)
            for place, step in enumerate(job["steps"]):
                put = None if is_hidden(step) else steps.put(number, job["id"], place, f"{indent}  ")
                if not put:
                    continue
                heads, begins, made = put
                yield from heads
                uses = step["work"].get("uses", "")
                stub = f" [{uses + ': ' if step['name'] else ''}{stands[uses]}]" if uses else ""
                yield f"{begins}{place} {with_calls(step_name(step), job['steps'])}{stub}{condition(step, made, job['steps'])}"


def table(rows: list[tuple[str, ...]]) -> Iterable[str]:
    """Rows in columns, the first of them the heads."""
    widths = [max(map(len, column)) for column in zip(*rows)]
    return ("  ".join(text.ljust(width) for text, width in zip(row, widths)).rstrip() for row in rows)


def summaries(folder: Path, secrets: Iterable[str], board: Board) -> Iterable[tuple[str, str]]:
    """Title and text of each summary that a step wrote, in the order of legs and steps."""
    found: dict[tuple[int, ...], tuple[str, ...]] = (
        {(): ("summary",)} if "summary" in names(folder.parent, folder.name) else {}
    )
    for leg in board.legs:
        for file in names(folder.parent, folder.name, str(leg.number)):
            name = re.fullmatch(rf"summary-{leg.number}-([0-9]{{1,9}})", file)
            if name and int(name[1]) < len(leg.job["steps"]):
                found[leg.number, int(name[1])] = (str(leg.number), file)
    for place, parts in sorted(found.items()):
        title = f"summary of {board.title(*place)}" if place else "summary"
        try:
            text = (
                read_below(folder.parent, folder.name, *parts, most=MOST_SUMMARY)
                .decode("utf-8", "replace")
                .rstrip("\n")
            )
        except OSError as error:
            yield title, f"(not shown: {error.strerror})"
            continue
        masks = board.masks.until(*place) if place else Masks([*secrets, *board.masks.unknown])
        if text:
            yield title, masks.hide(text)
