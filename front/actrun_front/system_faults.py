"""Faults of the system, as a full disk: they are named, and are no failure of a workflow."""
from __future__ import annotations

import errno
import os
import re
import resource
import subprocess
import traceback
from dataclasses import dataclass, field
from pathlib import Path
from typing import Callable, Iterable

from .progress import Progress
from .tree import cache_root

LEAST = 16384  # bytes: a file system with less is full
FULL = os.strerror(errno.ENOSPC)
FEW = 256  # descriptors: 16 legs need some more than half of them
REMEDIES = {errno.ENOSPC: "make room there, or name another place by the variable XDG_CACHE_HOME",
            errno.EMFILE: "`ulimit -n 1024` lets a shell open more", errno.ENFILE: "end other programs",
            errno.EAGAIN: "end other programs, or raise `ulimit -u`"}
# how the program words what is not the workflow's doing, but has several reasons
NO_FILE = "a file for it cannot be written"
UNCLEAR = re.compile(
    "no storage space|uncategorized error|operation would block|resource temporarily unavailable|"
    f"out of memory|{NO_FILE}"
)


def sentence(error: OSError) -> str:
    """The file, or the place that has no room, the reason and the remedy of an error of the system."""
    number = errno.ENOSPC if error.errno == errno.EDQUOT else error.errno
    name = os.fsdecode(error.filename) if error.filename else ""
    if not name and number == errno.ENOSPC:
        name = "standard output" if is_of_screen(error) else str(cache_root())
    remedy = REMEDIES.get(number or 0, "") if name != "standard output" else ""
    if not remedy and str(cache_root().parent) in name:
        remedy = "change that, or name another place by the variable XDG_CACHE_HOME"
    return ": ".join(filter(None, (name, error.strerror or str(error), remedy)))


def is_of_screen(error: OSError) -> bool:
    """Whether a line could not be shown: only the module that shows lines writes to a stream."""
    last = traceback.extract_tb(error.__traceback__)[-1:]
    return bool(last) and os.path.basename(last[0].filename) == "present.py"


def is_full(place: Path) -> bool:
    """Whether the file system of a place has no room, or no file more."""
    try:
        found = os.statvfs(place)
    except OSError:
        return False
    room = (found.f_bavail if os.geteuid() else found.f_bfree) * found.f_frsize
    return bool(found.f_blocks) and room < LEAST or bool(found.f_files) and found.f_ffree == 0


def lacks(processes: Iterable[int]) -> int:
    """The error by which the system refuses programs and files, here or in one of these processes; 0 without
    one."""
    try:
        subprocess.run(["/bin/true"], check=False, stdin=subprocess.DEVNULL)
    except OSError as error:
        return error.errno or 0
    most = resource.getrlimit(resource.RLIMIT_NOFILE)[0]
    if most < FEW:
        return errno.EMFILE
    for process in processes:
        try:
            if len(os.listdir(f"/proc/{process}/fd")) + 8 > most:
                return errno.EMFILE
        except OSError:
            continue
    return 0


@dataclass
class Faults:
    """What the system refused in an execution, by the steps that ended so; the first is printed at once."""

    places: list[Path]                      # whose file systems the execution needs
    tell: Callable[[str], None]
    processes: Callable[[], Iterable[int]]  # of the execution
    first: str = ""
    steps: dict[tuple[int, int], str] = field(default_factory=dict)
    refused: dict[int, str] = field(default_factory=dict)

    def hear(self, found: Progress) -> None:
        """Takes what a line of --progress says of a step."""
        if not found:
            return
        leg, step, state, reason, _ = found
        if state == "refused":
            self.refused[leg] = reason
        elif state == "failure":
            self.failed(leg, step, self.refused.pop(leg, reason))

    def failed(self, leg: int, step: int, reason: str) -> None:
        """Looks whether the system made a step fail."""
        why = self.cause(reason)
        if not why:
            return
        self.steps[leg, step] = why.partition(": make")[0]
        if not self.first:
            self.first = why
            self.tell(f"ended by the system: {why}")

    def cause(self, reason: str) -> str:
        """What the system lacks; nothing if the step itself failed."""
        full = next(filter(is_full, self.places), None)
        if full is not None or "no storage space" in reason:
            return f"{full or self.places[0]}: {FULL}: {REMEDIES[errno.ENOSPC]}"
        if not UNCLEAR.search(reason):
            return ""
        number = lacks(self.processes())
        if number:
            return f"{os.strerror(number)}: {REMEDIES.get(number, 'see `ulimit -a`')}"
        # (a step may have taken the rights of a file away)
        return "" if NO_FILE in reason else f"{reason.removeprefix('not started: ')}: see `ulimit -a`"
