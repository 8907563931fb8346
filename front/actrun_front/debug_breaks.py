"""Where `actrun debug` stops at its prompt: breaks of the program, names of steps, failures, and values that
change."""
from __future__ import annotations

import re
from dataclasses import dataclass, field
from functools import cached_property
from typing import Any

from . import Problem
from .dap_record import Mishap, Walker
from .explained import Explainer, one_value
from .expressions import EvaluationError, references
from .live_places import FAILED, places_of, with_condition
from .values import STATUS, Frame, syntax_fault

OWN = re.compile(r"leg \d+|step \d+ \d+|ends \d+")  # breaks that the program has


@dataclass
class Break:
    """A break: what was typed, the places where it may hold, and what has to be so there."""
    number: int
    text: str
    places: list[int]
    condition: str = ""
    once: bool = False
    watched: Frame | None = None  # of the value that is the condition
    value: Any = None             # it, where the walk is

    def names(self) -> set[str]:
        """How it can be named."""
        return {str(self.number), self.text, self.text.partition(" if ")[0], self.condition}


@dataclass
class Breaks:
    """The breaks of a prompt."""
    walker: Walker
    explainer: Explainer
    breaks: list[Break] = field(default_factory=list)
    count: int = 0

    @cached_property
    def mishaps(self) -> list[Mishap]:
        """All that did not succeed in the record, by places."""
        record = self.explainer.record
        return sorted(record.mishaps(self.explainer.board(record.last)), key=lambda one: one.place)

    def add(self, text: str, once: bool = False) -> Break:
        """Sets a break; one that is set already stays. Raises Problem."""
        name, condition = with_condition(self.explainer.flows.known, text)
        known = next((one for one in self.breaks if one.text == text and one.watched is None), None)
        if known:
            return known
        fault = syntax_fault(self.explainer.record.program, condition) if condition else ""
        if fault:
            raise Problem(f"{condition}: {fault}")
        self.count += 1
        self.breaks.append(Break(self.count, text, self.places(name), condition, once))
        return self.breaks[-1]

    def places(self, name: str) -> list[int]:
        """Where a break holds: of a failure where its step ends, of a step where it begins."""
        if name == FAILED:
            return sorted({one.place for one in self.mishaps if one.filter == FAILED})
        if OWN.fullmatch(name):
            return self.of_program(name)
        begins = self.explainer.record.begins
        named = places_of(self.explainer.flows.known, [name])
        return sorted({begins[leg][step] for leg, step in named if step < len(begins[leg])})

    def of_program(self, own: str) -> list[int]:
        """Where a break of the program holds."""
        here, found = self.walker.place, []
        self.walker.ask(f"break {own}")
        self.walker.go("goto 0")
        while self.walker.go("go"):
            found.append(self.walker.place)
        self.walker.ask(f"clear {own}")
        self.walker.go(f"goto {here}")
        return found

    def watch(self, expression: str, frame: Frame) -> Break:
        """Sets a break at each change of a value, as a leg sees it. Raises Problem."""
        try:
            value = self.explainer.around(self.walker.place, frame).evaluate(expression)[0]
        except EvaluationError as fault:
            raise Problem(f"{expression}: {fault}") from None
        accesses, calls = references(expression)
        wide = bool(calls & set(STATUS)) or {access.context for access in accesses} & {"needs", "job"}
        others = ("finish", "judge", "cancel") if wide else ()
        places = [place for place, entry in enumerate(self.explainer.record.entries)
                  if entry.get("leg") == frame.leg or entry["event"] in others]
        self.count += 1
        made = Break(self.count, f"watch {expression}", places, expression, watched=frame, value=value)
        self.breaks.append(made)
        return made

    def named(self, text: str) -> list[Break]:
        """The breaks of a number, or of what was typed, also without its condition; all of them without a
        text."""
        if not text:
            return list(self.breaks)
        return [one for one in self.breaks if text in one.names()]

    def remove(self, text: str) -> bool:
        """Removes the breaks of a number or a text; whether there were any."""
        found = self.named(text)
        self.breaks = [one for one in self.breaks if one not in found]
        return bool(found)

    def find(self, forward: bool) -> tuple[int, list[tuple[Break, str]]] | None:
        """The nearest place where a break holds, those that do, and what changed; None if none does."""
        here = self.walker.place
        ahead: dict[int, list[Break]] = {}
        for one in self.breaks:
            one.value = self.value(one, here) if one.watched else None
            for place in one.places:
                if place > here if forward else place < here:
                    ahead.setdefault(place, []).append(one)
        for place in sorted(ahead, reverse=not forward):
            found = [(one, said) for one in ahead[place] for said in self.holding(one, place)]
            if found:
                over = [id(one) for one, _ in found if one.once]
                self.breaks = [one for one in self.breaks if id(one) not in over]
                return place, found
        return None

    def holding(self, one: Break, place: int) -> list[str]:
        """What is said where a break holds at a place; nothing if it does not."""
        if one.watched:
            before, one.value = one.value, self.value(one, place)
            said = f"{one.condition}: {shown(before)} \u2192 {shown(one.value)}"
            return [said] if before != one.value else []
        if not one.condition:
            return [one.text]
        record = self.explainer.record
        leg = record.focus(record.about(place))
        around = self.explainer.around(place, frame_of(self.explainer, leg, place))
        try:
            return [one.text] if around.evaluate(f"!({one.condition})")[0] is False else []
        except EvaluationError as fault:
            return [f"{one.text}: the condition has no value: {fault}"]

    def value(self, one: Break, place: int) -> Any:
        """The value of what is watched at a place; why it has none."""
        frame = frame_of(self.explainer, one.watched.leg if one.watched else None, place)
        try:
            return self.explainer.around(place, frame).evaluate(one.condition)[0]
        except EvaluationError as fault:
            return f"(no value: {fault})"


def frame_of(explainer: Explainer, leg: int | None, place: int) -> Frame:
    """The frame of the step of a leg that began last up to a place; that of the first run without a leg."""
    if leg is None:
        return Frame(0)
    begun = explainer.record.begun(leg, place)
    return Frame(explainer.record.legs[leg].run, leg, begun - 1 if begun else None)


def shown(value: Any) -> str:
    """A value on one line, not too long."""
    text = one_value(value)
    return text if len(text) <= 200 else f"{text[:200]}..."
