"""Breakpoints of an editor: where each is, when it holds, and what it logs."""
from __future__ import annotations

import re
from dataclasses import dataclass, field
from typing import TYPE_CHECKING, Any, Callable, Dict, Sequence, Set

from . import Problem
from .explain import near
from .live_places import known_by_plan, known_names, of_name

if TYPE_CHECKING:
    from .dap_record import Record
    from .live_places import Place

Body = Dict[str, Any]
Where = Callable[[], Sequence[int]]
HITS = re.compile(r"\s*(==|>=|<=|>|<|%)?\s*(\d{1,9})\s*")
COUNTS: dict[str, Callable[[int, int], bool]] = {
    "==": int.__eq__, ">=": int.__ge__, "<=": int.__le__, ">": int.__gt__, "<": int.__lt__,
    "%": lambda count, each: count % each == 0}
LOGGED = re.compile(r"\{((?:[^{}']|'[^']*')+)\}")


@dataclass
class Stop:
    """One breakpoint."""

    number: int
    where: Where                                      # gives the places of the record
    condition: str = ""
    hits: str = ""
    log: str = ""
    pairs: Set[Place] = field(default_factory=set)    # the legs and steps before which an execution stops
    known: dict[int, bool] = field(default_factory=dict)  # whether the condition holds at a place
    found: Sequence[int] | None = None                # the places, in order, until the record is another

    def places(self) -> Sequence[int]:
        """The places of the record, in order."""
        if self.found is None:
            self.found = sorted(self.where())
        return self.found

    def counts(self, count: int) -> bool:
        """Whether a time counts, from 1 on: `3` is the third time alone."""
        found = HITS.fullmatch(self.hits)
        return found is None or COUNTS[found[1] or "=="](count, int(found[2]))


class Stops:
    """The breakpoints by their owners: a file, functions, data. Each owner sets all of its own at once."""

    def __init__(self, holds: Callable[[str, int], bool]) -> None:
        self.holds = holds                            # whether an expression is true at a place
        self.of: dict[str, list[Stop]] = {}
        self.count = 0

    def all(self) -> list[Stop]:
        """Every breakpoint."""
        return [stop for stops in self.of.values() for stop in stops]

    def add(self, owner: str, where: Where, given: Body, pairs: Set[Place] | None = None) -> Stop:
        """Sets a breakpoint as an editor gives it. Raises Problem where its count is none."""
        names = ("condition", "hitCondition", "logMessage")
        condition, hits, log = ((given.get(name) or "").strip() for name in names)
        found = HITS.fullmatch(hits)
        if hits and (found is None or not int(found[2])):
            raise Problem(f"{hits} is no count of hits: write 3 for the third time, or >= 3, <= 3, % 3")
        self.count += 1
        stop = Stop(self.count, where, condition, hits, log, pairs or set())
        self.of.setdefault(owner, []).append(stop)
        return stop

    def forget(self) -> None:
        """Lets all be found again, since the record is another."""
        for stop in self.all():
            stop.known.clear()
            stop.found = None

    def places(self) -> Set[int]:
        """Where a breakpoint may hold."""
        return {place for stop in self.all() for place in stop.places()}

    def at(self, place: int) -> list[Stop]:
        """The breakpoints that hold at a place."""
        return [stop for stop in self.all() if place in stop.places() and self.hold(stop, place)]

    def hold(self, stop: Stop, place: int) -> bool:
        """Whether a breakpoint holds at one of its places."""
        return self.is_true(stop, place) and self.counted(stop, place)

    def is_true(self, stop: Stop, place: int) -> bool:
        """Whether the condition of a breakpoint holds at a place."""
        if stop.condition and place not in stop.known:
            stop.known[place] = self.holds(stop.condition, place)
        return not stop.condition or stop.known[place]

    def counted(self, stop: Stop, place: int) -> bool:
        """Whether the place is a time that the breakpoint counts."""
        if not stop.hits:
            return True
        return stop.counts(sum(self.is_true(stop, one) for one in stop.places() if one <= place))


def named(record: Record, name: str) -> Set[Place]:
    """The legs and steps that a name means. Raises Problem where it means none."""
    known = known_by_plan(record.legs)
    found = of_name(known, name)
    if not found:
        raise Problem(f"no step, id or job has this name{near(name, dict.fromkeys(known_names(known)))}")
    return found


def logged(message: str, value: Callable[[str], str]) -> str:
    """The text of a log message, with the values of the expressions in its braces."""
    return LOGGED.sub(lambda found: value(found[1].strip()), message)
