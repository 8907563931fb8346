"""Matches texts against patterns in time that grows with pattern times text, whatever the pattern: no
pattern is tried twice at one place."""

from __future__ import annotations

from dataclasses import dataclass, field
from typing import Callable

Test = Callable[[str], bool]


@dataclass
class Automaton:
    """A pattern as states in a row: each passes one character on, and may be repeated or passed over."""

    tests: list[Test] = field(default_factory=list)
    loops: set[int] = field(default_factory=set)            # states that take more characters than one
    # states from which others are reached without a character
    edges: dict[int, list[int]] = field(default_factory=dict)

    def add(self, test: Test, many: bool = False, none: bool = False) -> None:
        """Adds a state for a character, with `many` for more of them, with `none` also for no character."""
        number = len(self.tests)
        self.tests.append(test)
        if many:
            self.loops.add(number)
        if none:
            self.edges.setdefault(number, []).append(number + 1)

    def closed(self, states: set[int]) -> set[int]:
        """The states with all that are reached from them without a character."""
        waiting = list(states)
        for state in waiting:
            for other in self.edges.get(state, ()):
                if other not in states:
                    states.add(other)
                    waiting.append(other)
        return states

    def fullmatch(self, text: str) -> bool:
        """Whether the whole text fits the pattern."""
        states = self.closed({0})
        for char in text:
            taken = {state for state in states if state < len(self.tests) and self.tests[state](char)}
            states = self.closed({state + 1 for state in taken} | (taken & self.loops))
            # (a state that takes more is left by its edge)
            if not states:
                return False
        return len(self.tests) in states


def wildcard_match(pattern: list[Test | None], text: str) -> bool:
    """Whether a text fits a pattern of tests for one character each and of `None` for any characters."""
    at, place, star, mark = 0, 0, -1, 0
    while at < len(text):
        if place < len(pattern) and pattern[place] is None:
            star, mark = place, at
            place += 1
        elif place < len(pattern) and pattern[place](text[at]):  # type: ignore[misc]
            at, place = at + 1, place + 1
        elif star >= 0:  # the last star takes one character more; an earlier one need not
            mark += 1
            at, place = mark, star + 1
        else:
            return False
    return all(test is None for test in pattern[place:])
