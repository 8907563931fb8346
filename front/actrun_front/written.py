"""How the user wrote what the front made: the steps of inlined actions, and the jobs of called workflows."""
from __future__ import annotations

from dataclasses import dataclass, field
from typing import (TYPE_CHECKING, Any, Callable, Dict, FrozenSet, Iterable, List, Mapping, NamedTuple,
                    Optional, Sequence, Tuple)

from .yaml_reader import Path, members

if TYPE_CHECKING:
    from .present import Leg

MOST_NAMED = 4  # names around a step


class Owner(NamedTuple):
    """What uses an action or calls a workflow: a number of its own, how it is shown, and its condition."""
    number: int
    label: str
    condition: str


@dataclass(frozen=True)
class Part:
    """A job or a step that the front made: its condition, what uses it from the outermost on, and its name
    there. One that only opens or closes what uses it is not shown; the job that closes a call has its id."""
    condition: str
    owners: Tuple[Owner, ...]
    name: str
    is_shown: bool = True
    is_end: bool = False  # a step that closes an action


Parts = Dict[Path, Part]
Put = Optional[Tuple[List[str], str, Optional[Part]]]  # what `Outline` says of a part
Find = Callable[[int, str, Optional[int]], Optional[Part]]  # the part of a run, a job and a step


def note_written(nodes: Iterable[Any], user: Any) -> None:
    """Keeps of steps or jobs that take the place of another one which that is, and their conditions."""
    for node in nodes:
        if hasattr(node, "user"):
            node.user, node.written = user, text_of(node.get("if"))


def text_of(condition: Any) -> str:
    """A condition as a text; nothing if there is none."""
    if isinstance(condition, bool):
        return str(condition).lower()
    return "" if condition is None else str(condition).strip()


def owners_of(node: Any) -> Tuple[Owner, ...]:
    """What uses a node, from the outermost on."""
    found: Tuple[Owner, ...] = ()
    while getattr(node, "user", None) is not None:
        user = node.user
        condition = user.written if user.user is not None else text_of(user.get("if"))
        label = str(user.get("name") or user.get("uses"))
        if user.known_as is not None and isinstance(user.get("uses"), str) and user.get("name"):
            label += f" ({user['uses']})"
        found, node = (Owner(id(user), label, condition), *found), user
    return found


def parts_of(flow: Any) -> Parts:
    """The parts of a lowered workflow that the front made."""
    found: Parts = {}
    for job_id, job in members(flow.get("jobs") if isinstance(flow, dict) else None):
        if getattr(job, "user", None) is not None:
            name = job.inside or ("" if job.user.get("steps") is None and job.get("steps") == [] else job_id)
            found["jobs", job_id] = Part(job.written, owners_of(job), name, bool(job.inside))
        steps = job.get("steps") if isinstance(job, dict) else None
        for at, step in enumerate(steps if isinstance(steps, list) else ()):
            if getattr(step, "user", None) is not None:
                title = step.user.get("name") or step.user.get("uses")
                opens = step.get("run") == ":\n" and step.get("name") == title
                closes = step.get("id") is not None and step.get("id") == step.user.get("id")
                name = str(step.get("name") or step.get("uses") or step.get("run") or "")
                is_own = not opens and not closes
                found["jobs", job_id, "steps", at] = Part(step.written, owners_of(step), name, is_own, closes)
    return found


def grouped(jobs: list[dict[str, Any]], run: int, find: Find) -> list[dict[str, Any]]:
    """The jobs of a run, those of one call together where the first of them is."""
    first: Dict[int, int] = {}

    def place(at: int) -> int:
        part = find(run, jobs[at]["id"], None)
        return first.setdefault(part.owners[0].number, at) if part and part.owners else at
    return [jobs[at] for at in sorted(range(len(jobs)), key=place)]


class Outline:
    """The places of jobs and steps in a tree: the parts of an action or a call are below what uses it."""

    def __init__(self, find: Find):
        self.find = find
        self.above: Tuple[Owner, ...] = ()  # what the part before is below

    def put(self, run: int, job: str, step: Optional[int] = None, indent: str = "    ") -> Put:
        """The lines before a job or a step, what its own line begins with, and how it was written; None of
        one that is not shown."""
        part = self.find(run, job, step)
        if part and not part.is_shown:
            return None
        owners = part.owners if part else ()
        known = sum(1 for one, other in zip(owners, self.above) if one.number == other.number)
        self.above = owners
        ends = [f", if {shown(owner.condition)}" if owner.condition else "" for owner in owners]
        lines = [f"{indent}{'  ' * depth}{owner.label}{ends[depth]}" for depth, owner in enumerate(owners)]
        return lines[known:], indent + "  " * len(owners), part


@dataclass(frozen=True)
class Made:
    """Which steps of a plan the front made, by leg and step."""

    ends: FrozenSet[Tuple[int, int]] = frozenset()     # they only close an action
    opens: FrozenSet[Tuple[int, int]] = frozenset()    # they only open one
    # they only close a call, and fail where a job of it did
    calls: FrozenSet[Tuple[int, int]] = frozenset()
    # the actions around a step
    owners: Mapping[Tuple[int, int], Tuple[str, ...]] = field(default_factory=dict)
    jobs: Mapping[int, str] = field(default_factory=dict)  # of legs, by the ids that the user wrote


def within(labels: Iterable[str], name: str) -> str:
    """A step behind the actions that it is in. Of many only the first and the last are named."""
    first, *rest = [*labels, name]
    return " / ".join((first, *(rest if len(rest) < MOST_NAMED else ("…", *rest[-2:]))))


def made_steps(legs: Sequence[Leg], find: Find) -> Made:
    """The steps that the user did not write."""
    places = [(leg, at) for leg in legs for at in range(len(leg.job["steps"]))]
    parts = {(leg.number, at): find(leg.run, leg.job["id"], at) for leg, at in places}
    found = {place: part for place, part in parts.items() if part}
    jobs = {leg.number: find(leg.run, leg.job["id"], None) for leg in legs}
    calls = frozenset((leg.number, at) for leg, at in places if is_closing(jobs[leg.number]))
    ends = frozenset(place for place, part in found.items() if part.is_end)
    opens = frozenset(place for place, part in found.items() if not part.is_shown) - ends
    shown = {place: part for place, part in found.items() if part.is_shown}
    owners = {place: tuple(owner.label for owner in part.owners) for place, part in shown.items()}
    return Made(ends, opens, calls, owners, {leg.number: job_of(leg.job, jobs[leg.number]) for leg in legs})


def job_of(job: Any, part: Optional[Part]) -> str:
    """A job of a plan by the ids that the user wrote: `CALL/JOB` for a job of a called workflow."""
    return str(job["id"]).replace("__", "/") if part else str(job["id"])


def is_closing(job: Optional[Part]) -> bool:
    """Whether a job only closes a call, and fails where a job of the call did."""
    return job is not None and not job.is_shown and bool(job.name)


def shown(condition: str) -> str:
    """The first line of a condition."""
    first, *more = condition.split("\n")
    return first + (" …" if more else "")
