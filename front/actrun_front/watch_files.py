"""`try --watch`: executes again when files of the repository change, from the first step that can see it."""
from __future__ import annotations

import os
import time
from dataclasses import dataclass
from pathlib import Path
from typing import Callable, Dict, List, Optional, Tuple

from . import Problem, files, repository
from .actions import action_name
from .present import Leg, Screen

PAUSE = 0.3          # seconds between two looks, at least
QUIET = 0.2          # seconds without a change before all is executed again
SHARE = 4            # times that a look takes, until the next
SHOWN = 3            # files that a line names
WORKFLOWS = b".github/workflows/"
State = Dict[bytes, Optional[Tuple[int, int, int]]]


def state_of(top: Path) -> State:
    """Time, size and mode of each file that git tracks or would add."""
    answer = repository.ask(top, "ls-files", "-co", "--exclude-standard", "-z")
    if answer.returncode == 0:
        names = list(filter(None, answer.stdout.split(b"\0")))
    else:
        names = [os.fsencode(os.readlink(f"/proc/self/fd/{folder}")) + b"/" + os.fsencode(name)
                 for folder, name, _ in files.walk(top)]
    return {name: look(os.path.join(os.fsencode(top), name)) for name in names}


def look(path: bytes) -> Optional[Tuple[int, int, int]]:
    """Time, size and mode of a file; None if there is none."""
    try:
        found = os.lstat(path)
    except OSError:
        return None
    return found.st_mtime_ns, found.st_size, found.st_mode


def changed(before: State, after: State) -> List[bytes]:
    """The files that two states have not in common."""
    return sorted(name for name in {*before, *after} if before.get(name) != after.get(name))


def first_to_see(paths: List[bytes], full: bool) -> Callable[[Leg], int]:
    """What gives the first step of a leg that can see that files changed."""
    of_workflows = all(path.startswith(WORKFLOWS) for path in paths)

    def first(leg: Leg) -> int:
        steps = leg.job["steps"]
        if full and not of_workflows:
            return 0
        uses = (number for number, step in enumerate(steps)
                if action_name(step["work"].get("uses", "")) == "actions/checkout")
        return len(steps) if of_workflows else next(uses, len(steps))
    return first


@dataclass
class Watch:
    """The watch of one repository."""

    top: Path
    screen: Screen
    full: bool                   # the workspace has the files from the start

    def until_changed(self, known: State) -> List[bytes]:
        """Waits until files are not as they were; gives their names."""
        while True:
            began = time.monotonic()
            found = state_of(self.top)
            if found != known:
                return changed(known, self.until_quiet(found))
            time.sleep(max(PAUSE, SHARE * (time.monotonic() - began)))

    def until_quiet(self, found: State) -> State:
        """Waits until no more files change."""
        while True:
            time.sleep(QUIET)
            later = state_of(self.top)
            if later == found:
                return found
            found = later

    def repeat(self, execute: Callable[[Callable[[Leg], int] | None], int]) -> int:
        """Executes, and again after each change, until Ctrl-C; gives the exit status."""
        first = None
        while True:
            known = state_of(self.top)
            try:
                status = execute(first)
            except Problem as problem:
                if first is None:
                    raise
                self.screen.tell(f"actrun: {problem}", "failure")
                status = problem.status
            if status >= 128:
                return status
            self.screen.tell(f"watching {self.top}: what changes is executed again; Ctrl-C ends")
            paths = self.until_changed(known)
            names = ", ".join(os.fsdecode(path) for path in paths[:SHOWN])
            more = f" and {len(paths) - SHOWN} others" if len(paths) > SHOWN else ""
            self.screen.tell(f"\nchanged: {names}{more}")
            first = first_to_see(paths, self.full)
