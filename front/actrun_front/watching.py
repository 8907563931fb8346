"""Watches an execution: what the system refuses it, how much its steps print, and who speaks of it."""
from __future__ import annotations

import contextlib
from dataclasses import dataclass, field, replace
from typing import Any, Iterator

from .contexts import Play
from .execute import session
from .keeping import put_aside, put_back
from .step_log import Limits
from .system_faults import Faults
from .voice import Voice, form_of


@contextlib.contextmanager
def watched(board: Any, plan: dict[str, Any], play: Play, stage: int = 0) -> Iterator[Listener]:
    """What takes the lines of an execution, and has them shown."""
    room, options = play.room, play.options

    def leader() -> int | None:
        child = listener.execution.child if listener.execution else None
        return int(child.pid) if child else None
    places = [room.folder, *([play.facts.top] if options.in_place else [])]
    said: list[str] = []
    faults = Faults(places, said.append, lambda: session(leader()) if leader() else ())
    most = options.log_limit if options.no_sandbox else 0  # (with a sandbox the shim has the limit)
    limits = Limits(most, room.play, leader)

    def end() -> None:
        listener.execution.end()
    voice = Voice(board, limits, form_of(board, plan, options, stage), end)
    listener = Listener(board, faults, limits, voice, said)
    with limits.watch():
        voice.start()
        try:
            yield listener
        except BaseException:
            voice.close(True)
            raise
        finally:
            put_back(room.play)
        voice.close(hurries=len(listener.execution.signals) > 1)


@dataclass
class Listener:
    """Takes the lines of an execution: what the board makes of them is shown in their order."""

    board: Any
    faults: Faults
    limits: Limits
    voice: Voice
    said: list[str] = field(default_factory=list)  # of faults
    execution: Any = None                 # whose lines these are

    def progress(self, line: str) -> None:
        """A line of standard error."""
        found = self.board.steps.read(line)
        leg, step, state = (found or (0, 0, ""))[:3]
        if state == "started" and self.voice.form.follows:
            self.limits.begun(leg, step)
        elif state in ("success", "failure"):
            self.limits.ended(leg, step)
        event = self.board.heard(line, found)
        if state in ("success", "failure"):
            put_aside(self.limits.folder, leg, step)
        with contextlib.suppress(OSError):
            self.faults.hear(found)
        if event:
            self.voice.take(replace(event, cut=self.faults.steps.pop(event.place, "")))
        while self.said:
            self.voice.tell(self.said.pop(0), "failure")

    def stop(self, cause: str) -> None:
        """A signal was seen."""
        self.board.stop(cause)

    def status(self, status: int) -> int:
        """The status of the execution: that of the system's faults, where there are any."""
        return 3 if self.faults.first else status
