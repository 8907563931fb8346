"""Signals that end a command outside of an execution: what it has made is removed, as after Ctrl-C."""
from __future__ import annotations

import signal
from typing import Any, NoReturn

from .execute import SIGNALS


class Stopped(KeyboardInterrupt):
    """A signal that ends the command."""

    def __init__(self, number: int) -> None:
        super().__init__(SIGNALS[number])
        self.number = number


def stop(number: int, _: Any) -> NoReturn:
    """Ends what is being done."""
    raise Stopped(number)


def heed() -> None:
    """Lets the signals that end a command raise Stopped, but for those that the caller ignores."""
    for number in SIGNALS:
        if signal.getsignal(number) in (signal.SIG_DFL, signal.default_int_handler):
            signal.signal(number, stop)


def ended_by(interrupt: KeyboardInterrupt) -> tuple[str, int]:
    """What a person reads of a signal, and the exit status."""
    number = getattr(interrupt, "number", signal.SIGINT)
    return f"stopped by {SIGNALS[number]}", 128 + number
