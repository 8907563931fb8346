"""Where an execution or a walk stops: which steps a name, an id, a job, `job/name` or `file:line` means."""
from __future__ import annotations

import re
from dataclasses import dataclass, field
from typing import TYPE_CHECKING, Dict, FrozenSet, Iterable, Iterator, List, Optional, Set, Tuple

from . import Problem
from .explain import near
from .late_hashes import is_hidden, with_calls
from .present import Leg, step_name

if TYPE_CHECKING:
    from .attempt import Trial

FAILED = "failed"
LABEL = re.compile(r"(?s)(.*?)(?: \((\./.*)\))?")  # of what uses an action
LINE = re.compile(r"(.+):(\d{1,9})")
Place = Tuple[int, int]  # leg and step
Names = FrozenSet[str]


@dataclass(frozen=True)
class Named:
    """A leg: its number, how it and its job are called, where these are written, and its steps."""
    leg: int
    job: str                      # its id
    file: str = ""                # of its workflow
    line: Optional[int] = None
    names: Names = frozenset()
    steps: Dict[int, Tuple[Optional[int], Names]] = field(default_factory=dict)  # with lines and names


@dataclass(frozen=True)
class Known:
    """All that may be named in an execution or a record, and how many lines each workflow has."""
    legs: List[Named]
    files: Dict[str, int]


def shown_steps(trial: Trial, leg: Leg) -> list[int]:
    """The steps of a leg that its reader knows."""
    steps, unseen = enumerate(leg.job["steps"]), trial.board.made.ends
    made = trial.find(leg.run, leg.job["id"], None)
    if made and not made.is_shown:  # (it closes the call of a workflow)
        return []
    return [number for number, step in steps if not is_hidden(step) and (leg.number, number) not in unseen]


def job_names(leg: Leg) -> Set[str]:
    """What a leg and its job are called, and the jobs that call its workflow."""
    parts = leg.job["id"].split("__")
    calls = {"__".join(parts[:at + 1]) for at in range(len(parts))}
    return calls | {"/".join(parts), leg.job["name"], leg.name}


def plain_names(leg: Leg, step: int) -> Set[str]:
    """What a step is called by its name and its id."""
    part = leg.job["steps"][step]
    name = step_name(part)
    return {name, with_calls(leg.filled(name), leg.job["steps"]), part["id"] or ""} - {""}


def step_names(trial: Trial, leg: Leg, step: int) -> Set[str]:
    """What a step is called: its name, its id, and for the first step of an action also what uses that."""
    made = trial.find(leg.run, leg.job["id"], step)
    names = plain_names(leg, step) | {made.name if made else ""}
    before = trial.find(leg.run, leg.job["id"], step - 1) if step else None
    known = {owner.number for owner in before.owners} if before else set()
    for owner in (made.owners if made else ()):
        label = LABEL.fullmatch(owner.label) if owner.number not in known else None
        names |= {*label.groups("")} if label else set()
    return names - {""}


def known_in(trial: Trial) -> Known:
    """What may be named in an execution."""
    found = []
    for leg in trial.legs:
        flow, job = trial.flows[leg.run], leg.job["id"]
        lines = flow.lowered.lines
        steps = {step: (lines.get(("jobs", job, "steps", step)), frozenset(step_names(trial, leg, step)))
                 for step in shown_steps(trial, leg)}
        line = lines.get(("jobs", job))
        found.append(Named(leg.number, job, flow.name, line, frozenset(job_names(leg)), steps))
    return Known(found, {flow.name: len(flow.document.text.splitlines()) for flow in trial.flows})


def known_by_plan(legs: Iterable[Leg]) -> Known:
    """What may be named in a record, by its plan alone."""
    found = []
    for leg in legs:
        steps = {step: (None, frozenset(plain_names(leg, step))) for step in range(len(leg.job["steps"]))}
        found.append(Named(leg.number, leg.job["id"], names=frozenset(job_names(leg)), steps={**steps}))
    return Known(found, {})


def of_line(known: Known, text: str, file: str, line: int, option: str) -> Set[Place]:
    """The steps at a line of a workflow: the step around the line, or the first one of the job around it."""
    files = {name: length for name, length in known.files.items() if f"/{name}".endswith(f"/{file}")}
    if not files:
        named = [name for one in known.files for name in (one, one.rpartition("/")[2])]
        raise Problem(f"{option} {text}: no workflow of this execution is {file}{near(file, named)}")
    found: list[tuple[int, int, Place]] = []
    for leg in (leg for leg in known.legs if leg.file in files):
        begins = [(leg.line, 0, sorted(leg.steps)[:1])]
        begins += [(at, 1, [step]) for step, (at, _) in leg.steps.items()]
        known_lines = [(at, kind, steps) for at, kind, steps in begins if at is not None]
        found += [(at, kind, (leg.leg, step)) for at, kind, steps in known_lines for step in steps]
    last = max((one[:2] for one in found if one[0] <= line), default=None)
    length = max(files.values())
    if last is None or 0 < length < line:
        first_line = min((one[0] for one in found), default=0)
        where = f"is at line {line}; the first one is at line {first_line}"
        raise Problem(f"{option} {text}: no step {where if found else 'of this file is executed'}")
    first: dict[int, int] = {}
    for at, kind, (number, step) in found:
        if (at, kind) == last:
            first[number] = min(step, first.get(number, step))
    return set(first.items())


def pairs(text: str) -> Iterator[tuple[str, str]]:
    """Job and step of `job/step`; both may have a slash."""
    parts = text.split("/")
    return (("/".join(parts[:at]), "/".join(parts[at:])) for at in range(1, len(parts)))


def of_name(known: Known, text: str) -> Set[Place]:
    """The steps that a text names."""
    found: Set[Place] = set()
    for leg in known.legs:
        found |= {(leg.leg, step) for step in (sorted(leg.steps)[:1] if text in leg.names else ())}
        wanted = {name for job, name in pairs(text) if job in leg.names}
        for step, (_, names) in leg.steps.items():
            if text in names or wanted & {*names, str(step)}:
                found.add((leg.leg, step))
    return found


def with_condition(known: Known, text: str) -> Tuple[str, str]:
    """The place and the condition of `PLACE if EXPR`; names may have an `if`, too."""
    place, _, condition = text.partition(" if ")
    return (text, "") if of_name(known, text) else (place.strip(), condition.strip())


def known_names(known: Known) -> Iterator[str]:
    """All that may be named."""
    yield FAILED
    for leg in known.legs:
        yield from leg.names
        for _, names in leg.steps.values():
            yield from names
            yield from (f"{leg.job}/{name}" for name in names)


def places_of(known: Known, texts: Iterable[str], option: str = "--break") -> Set[Place]:
    """The steps that the texts of an option name. Raises Problem if a text names none."""
    found: Set[Place] = set()
    for text in texts:
        line = LINE.fullmatch(text)
        places = set() if text == FAILED else of_name(known, text)
        if not places and line and line[1].endswith((".yml", ".yaml")):
            places = of_line(known, text, line[1], int(line[2]), option)
        if not places and text != FAILED:
            meant = near(text, dict.fromkeys(known_names(known)))
            remedy = ("write a step's name or id, a job, JOB/STEP, FILE:LINE or failed; `actrun try -n` "
                      "prints the names")
            raise Problem(f"{option} {text}: no step, id or job has this name{meant or f': {remedy}'}")
        found |= places
    return found
