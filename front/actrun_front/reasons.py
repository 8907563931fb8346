"""What `actrun why --json` says of a record: its parts, and the tree of reasons as lines for a person."""
from __future__ import annotations

import itertools
import json
import subprocess
from dataclasses import dataclass, field, replace
from types import MappingProxyType
from typing import TYPE_CHECKING, Any, Callable, Iterable, Iterator, Mapping, Sequence

from . import Problem
from .late_hashes import with_calls
from .names import as_in_file
from .written import Find, Part as Made, is_closing, shown, within

if TYPE_CHECKING:
    from .present import Leg

OPEN = ("opened", "legs-ended")  # facts of a job whose legs execute, or did


@dataclass(frozen=True)
class Part:
    """A run, job, leg, step or stop of a record. By `words`, `why` is asked about it."""
    words: str
    numbers: dict[str, Any]  # its `kind`, and by `run`, `job`, `leg` and `step`
    name: str
    text: str
    state: str | None
    line: int | None
    cause: dict[str, Any]    # what made it so
    because: tuple[str, ...]
    tolerated: bool
    depth: int = 0           # in a tree
    above: bool = False      # it is in the tree already

    @property
    def kind(self) -> str:
        """What it is: `run`, `job`, `leg`, `step` or `stop`."""
        return self.words.partition(" ")[0]

    @property
    def fact(self) -> str | None:
        """The kind of what made it so; None if nothing did yet."""
        return self.cause.get("kind")

    @property
    def is_own(self) -> bool:
        """Whether it is so by itself. (What failed by something in it is closed or finished so.)"""
        return self.state == "cancelled" or self.fact not in ("closed", "finished")

    @property
    def failed(self) -> bool:
        """Whether it ended with a failure that is not tolerated."""
        return self.state == "failure" and self.fact is not None and not self.tolerated


def part_of(found: dict[str, Any]) -> Part:
    """The part that an object is about."""
    kept = {key: found[key] for key in ("name", "text", "state", "line", "tolerated", "depth", "above")}
    because = tuple(map(words_of, found["because"]))
    return Part(words_of(found["part"]), found["part"], cause=found["fact"] or {}, because=because, **kept)


def words_of(part: dict[str, Any]) -> str:
    """The words by which `why` is asked about a part; those of a stop are `stop` and the run or leg."""
    numbers = [[kind, str(part[kind])] for kind in ("run", "job", "leg", "step") if kind in part]
    if part["kind"] == "step":
        return " ".join(["step", *(number for _, number in numbers)])
    return " ".join([*(["stop"] if part["kind"] == "stop" else []), *numbers[0]])


def asked(program: str, data: bytes, words: Sequence[str]) -> list[Part]:
    """What `why` answers of a record. Raises Problem with the program's line."""
    command = [program, "why", "--json", "/dev/stdin", *words]
    answer = subprocess.run(command, input=data, capture_output=True, check=False)
    if answer.returncode:
        raise Problem(answer.stderr.decode("utf-8", "replace").strip() or "`actrun why` ended too early")
    return [part_of(json.loads(line)) for line in answer.stdout.splitlines()]


def parts_of(program: str, data: bytes) -> dict[str, Part]:
    """All parts at the end of a record, by their words. Raises Problem with the program's line."""
    return {part.words: part for part in asked(program, data, ["--each"])}


def roots(parts: dict[str, Part], plan: dict[str, Any]) -> Iterator[str]:
    """The parts that did not succeed: runs, jobs that were judged or will be, and legs of jobs that were
    opened."""
    runs = [run for run, one in enumerate(plan["runs"]) for _ in one["jobs"]]
    jobs = [job["number"] for one in plan["runs"] for job in one["jobs"] for _ in job["legs"]]
    for words, part in parts.items():
        is_root = part.kind == "run"
        if part.kind == "job":
            run = parts[f"run {runs[part.numbers['job']]}"]
            is_root = part.fact is not None or run.state == "in_progress"
        elif part.kind == "leg":
            is_root = parts[f"job {jobs[part.numbers['leg']]}"].fact in OPEN
        if is_root and part.state != "success":
            yield words


def unsuccessful(
    parts: dict[str, Part], plan: dict[str, Any], failed: Mapping[str, Sequence[str]] = MappingProxyType({})
) -> Iterator[Part]:
    """The tree of all that did not succeed, as `why` prints it: below each part those that caused it, and what
    else failed in it."""
    told: set[str] = set()
    for root in roots(parts, plan):
        left = [] if root in told else [(root, 0)]
        while left:
            words, depth = left.pop()
            part, above = parts[words], words in told
            short = f"{part.name}{' was told to stop' * (part.kind == 'stop')} (above)"
            yield replace(part, depth=depth, above=above, text=short if above else part.text)
            told.add(words)
            below = (*part.because, *failed.get(words, ()))
            left += [] if above else [(cause, depth + 1) for cause in reversed(below)]


def folded(parts: Iterable[Part], legs: Sequence[Leg]) -> Iterator[Part]:
    """A tree with one line for legs of one job that were cancelled for one reason, after the first of them."""
    trees: list[list[Part]] = []
    for part in parts:
        trees += [[]] if part.depth == 0 else []
        trees[-1].append(part)

    def reason(tree: list[Part]) -> tuple[int, str] | None:
        top, *below = tree
        if top.kind != "leg" or top.state != "cancelled" or not all(part.above for part in below):
            return None
        return legs[top.numbers["leg"]].job["number"], json.dumps(top.cause, sort_keys=True)
    for same, group in itertools.groupby(trees, reason):
        first, *more = group
        yield from first
        if same is None or len(more) < 2:
            yield from itertools.chain.from_iterable(more)
        else:
            name = f"legs {ranges([tree[0].numbers['leg'] for tree in more])}"
            yield replace(first[0], numbers={}, name=name, text=f"{name} ended cancelled for the same reason")


def ranges(numbers: Iterable[int]) -> str:
    """Ascending numbers in words: `1, 4 to 7`."""
    found: list[list[int]] = []
    for number in numbers:
        if found and number == found[-1][-1] + 1:
            found[-1][1:] = [number]
        else:
            found.append([number])
    return ", ".join((", " if one[-1] == one[0] + 1 else " to ").join(map(str, one)) for one in found)


@dataclass(frozen=True)
class Sentences:
    """The reasons of an execution as lines, its parts as the user wrote them. `find` has the parts that
    the front made, `place` where a job or a step is in YAML, and `cause` why a step of a leg was ended."""

    legs: Sequence[Leg]
    find: Find
    place: Callable[[int, str, int | None], str] = lambda run, job, step: ""
    cause: Callable[[int, int], str] = lambda leg, step: ""
    names: Mapping[str, str] = field(default_factory=dict)  # of parts in the program's words

    def lines(self, parts: Iterable[Part]) -> Iterator[str]:
        """The lines of a tree; a call that failed without the steps that say so."""
        closing: int | None = None  # the depth of a job that closes a call
        for part in parts:
            if closing is None or part.depth <= closing:
                leg, made = self.leg(part), None
                if leg and part.kind in ("job", "step"):
                    made = self.find(leg.run, leg.job["id"], part.numbers.get("step"))
                closing = part.depth if part.kind == "job" and is_closing(made) else None
                yield "  " * part.depth + self.line(part, leg, made)

    def leg(self, part: Part) -> Leg | None:
        """The leg of a part; of a job its first one."""
        number: int = part.numbers.get("leg", -1)
        if number >= 0:
            return self.legs[number]
        return next((leg for leg in self.legs if leg.job["number"] == part.numbers.get("job")), None)

    def line(self, part: Part, leg: Leg | None, made: Made | None) -> str:
        """The line of a part, of which that is known."""
        step = part.numbers.get("step")
        name, said = part.name, part.text[len(part.name):]
        ended = self.cause(leg.number, step) if leg and step is not None else ""
        if step is not None and made and made.is_shown:
            head = len(f"step {step} (")
            name = name[:head] + within((owner.label for owner in made.owners), name[head:])
        if leg and part.fact == "untrue" and not part.above:
            said = f" was skipped at line {part.line}: {untrue(made) if made else own_condition(leg, step)}"
        runs = part.state == "in_progress"
        if ended.startswith("stopped by ") and (runs or part.fact == "exited" and part.failed):
            said = f" was interrupted {'after' if runs else 'at'} line {part.line}"
        line = self.with_values(name + said, part, leg) + (f"; {ended}" if ended else "")
        line = as_in_file(with_calls(line, leg.job["steps"] if leg else []))
        where = self.place(leg.run, leg.job["id"], step) if leg and part.kind in ("job", "step") else ""
        return f"{line}  [{where}]" if where else line

    def with_values(self, line: str, part: Part, leg: Leg | None) -> str:
        """A line with the names that GitHub shows in place of expressions: of the part and of those that it
        mentions."""
        if "${{" not in line:
            return line
        given = [found for found in part.cause.values() if isinstance(found, dict)]
        mentioned = [f"{kind} {found[kind]}" for found in given for kind in ("leg", "job", "run") if kind in found]
        for words in (part.words, *mentioned):
            name = part.name if words == part.words else self.names.get(words)
            line = line.replace(name, self.shown_name(words, name)) if name else line
        is_one = leg and (part.kind != "job" or len(leg.job["legs"]) == 1)
        return leg.filled(line) if leg and is_one else line

    def shown_name(self, words: str, name: str) -> str:
        """The name of a part whose name has expressions: of a job with several legs its id."""
        kind, number, *_ = words.split()
        found = [leg for leg in self.legs if (leg.number if kind == "leg" else leg.job["number"]) == int(number)]
        if kind not in ("leg", "job") or not found or "${{" not in found[0].job["name"]:
            return name
        return f"{kind} {number} ({found[0].name if len(found) == 1 else found[0].job['id']})"


def own_condition(leg: Leg, step: int | None) -> str:
    """That the condition of a job or a step is not true, as the plan has it."""
    condition = (leg.job if step is None else leg.job["steps"][step])["condition"]
    return f"its condition is not true: {'success()' if condition is None else shown(condition)}"


def untrue(made: Made) -> str:
    """Why a part that the front made was skipped."""
    owner = made.owners[-1]
    own = made.condition if made.is_shown else ""
    if own and not owner.condition:
        return f"its condition is not true: {shown(own)}"
    if not own:
        outer = f"the condition of {owner.label} is not true: {shown(owner.condition)}"
        return outer if owner.condition else f"{owner.label} does not go on"
    return f"its condition, {shown(own)}, or that of {owner.label}, {shown(owner.condition)}, is not true"


# For the page of a record

def reasons(parts: dict[str, Part], hide: Callable[[str], str]) -> dict[str, list[Any]]:
    """Of each part without success, and of each that made one so: its name, what is said of it, and its
    causes, by its words. A step that never began is left out."""
    told = {part.words for part in parts.values()
            if part.state != "success" and (part.kind != "step" or part.line is not None)}
    told.update(cause for words in list(told) for cause in parts[words].because)
    return {words: [hide(part.name), hide(part.text[len(part.name):]), list(part.because)]
            for words, part in parts.items() if words in told}


def ended_jobs(parts: dict[str, Part], legs_of: list[list[int]]) -> dict[str, list[Any]]:
    """The result of each job whose legs have ended, and the place where the last of them did."""
    found = {}
    for job, legs in enumerate(legs_of):
        part = parts[f"job {job}"]
        lines = [parts[f"leg {leg}"].line or 0 for leg in legs]
        if part.fact == "legs-ended" and any(lines):
            found[str(job)] = [part.state, max(lines) - 1]
    return found


def displaced(parts: dict[str, Part]) -> dict[str, int]:
    """The places where runs and legs were displaced."""
    return {part.words: part.line - 1 for part in parts.values() if part.fact == "displaced" and part.line}
