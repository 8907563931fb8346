"""Keeps what a step prints below a limit: the rest is thrown away while the step goes on.

With a sandbox the shim does that (shim.py), by the limit from here. Without one the files of a step are
watched: it prints into two files without names that the program keeps open. Each write is at the end of its
file, so that a file that was cut grows on from there. A step below the limit costs nothing, and nothing can
hang.
"""
from __future__ import annotations

import contextlib
import os
import re
import stat
import threading
from dataclasses import dataclass, field
from pathlib import Path
from typing import Callable, Iterator

from .execute import program, session

USUAL = 1 << 30
FILE = re.compile(r"/step-(\d+)-(\d+)\.std(out|err) \(deleted\)\Z")
UNITS = {"": 1, "K": 1 << 10, "M": 1 << 20, "G": 1 << 30}
MOST_HELD = 64   # steps whose files are open at once
SELDOM, OFTEN = 0.2, 0.02  # seconds between two looks


def size(text: str) -> int:
    """The bytes that a text like 500M means; 0 is no limit."""
    found = re.fullmatch(r"(\d{1,12})([KMG]?)(?:i?B)?", text, re.IGNORECASE)
    if not found:
        raise ValueError(text)
    return int(found[1]) * UNITS[found[2].upper()]


def spelled(count: int) -> str:
    """A number of bytes as a person writes it."""
    unit = next(unit for unit in "GMK " if unit == " " or count % UNITS[unit] == 0 and count)
    return f"{count} bytes" if unit == " " else f"{count // UNITS[unit]} {unit}iB"


def note_of(most: int) -> str:
    """The line that ends the log of a step that printed more than the limit."""
    return f"(the log is cut here: the step printed more than {spelled(most)}; --log-limit names another limit)\n"


def for_shim(most: int) -> str:
    """The limit, 0 for none, and the line that ends a log beyond it, as the shim reads them."""
    return f"{most} {note_of(most)}"


def program_of(leader: int | None) -> int | None:
    """The process that executes the plan: the first of this program in a session, since a step may start it,
    too."""
    found = []
    for number in session(leader) if leader else ():
        with contextlib.suppress(OSError):
            words = Path(f"/proc/{number}/cmdline").read_bytes().split(b"\0")
            if words[:2] == [os.fsencode(program()), b"run"]:
                found.append(number)
    return min(found, default=None)


@dataclass
class Cut:
    """Where the two files of a step end from now on, and their descriptors; the note is at the end of one."""

    files: dict[str, int]
    ends: dict[str, int]
    noted: str


@dataclass
class Limits:
    """Looks at what the running steps print."""

    most: int                             # bytes of a step
    folder: Path                          # of the logs
    leader: Callable[[], int | None]      # the first process of the execution's session, once there is one
    process: int | None = None            # the one that executes the plan
    cuts: dict[tuple[int, int], Cut] = field(default_factory=dict)
    over: threading.Event = field(default_factory=threading.Event)
    lock: threading.Lock = field(default_factory=threading.Lock)
    # the files of steps whose output is still shown
    held: dict[tuple[int, int], dict[str, int]] = field(default_factory=dict)

    def __post_init__(self) -> None:
        self.note = f"\n{note_of(self.most)}".encode("utf-8")

    @contextlib.contextmanager
    def watch(self) -> Iterator[None]:
        """Looks as long as something is executed within."""
        thread = threading.Thread(target=self.look_on, daemon=True)
        if self.most:
            thread.start()
        try:
            yield
        finally:
            self.over.set()
            if self.most:
                thread.join()
            for leg, step in {*self.cuts, *self.held}:
                self.ended(leg, step)
                self.release(leg, step)

    def look_on(self) -> None:
        """Looks again and again."""
        pause = SELDOM
        while not self.over.wait(pause):
            with contextlib.suppress(OSError), self.lock:
                pause = self.look()

    def files(self) -> dict[tuple[int, int], dict[str, str]]:
        """The files of the running steps, by the names of the program's descriptors."""
        process = self.process = self.process or program_of(self.leader())
        found: dict[tuple[int, int], dict[str, str]] = {}
        for name in os.listdir(f"/proc/{process}/fd") if process else ():
            path = f"/proc/{process}/fd/{name}"
            with contextlib.suppress(OSError):
                place = FILE.search(os.readlink(path))
                if place:
                    found.setdefault((int(place[1]), int(place[2])), {})[place[3]] = path
        return found

    def begun(self, leg: int, step: int) -> None:
        """Holds the files of a step that begins. Of one that has ended meanwhile the log has all."""
        with contextlib.suppress(OSError), self.lock:
            held = self.held.setdefault((leg, step), {})
            wanted = self.files().get((leg, step), {}) if len(self.held) < MOST_HELD else {}
            for kind, path in wanted.items():
                file = os.open(path, os.O_RDONLY | os.O_CLOEXEC)
                if is_of(file, leg, step):
                    held[kind] = file

    def read(self, leg: int, step: int, kind: str, at: int, most: int) -> bytes:
        """What a held file of a step has from a place on, up to where it is cut."""
        with contextlib.suppress(OSError), self.lock:
            file = self.held.get((leg, step), {}).get(kind)
            cut = self.cuts.get((leg, step))
            end = cut.ends.get(kind, at) if cut else at + most
            return os.pread(file, min(most, end - at), at) if file is not None and end > at else b""
        return b""

    def note_at(self, leg: int, step: int, kind: str) -> int | None:
        """Where the note of a step is in a file; None if it is not there."""
        with self.lock:
            cut = self.cuts.get((leg, step))
            return cut.ends[kind] - len(self.note) if cut and cut.noted == kind else None

    def release(self, leg: int, step: int) -> None:
        """Holds the files of a step no longer."""
        with self.lock:
            cut = self.cuts.pop((leg, step), None)
            for file in (*self.held.pop((leg, step), {}).values(), *(cut.files.values() if cut else ())):
                os.close(file)

    def look(self) -> float:
        """Cuts the files that are too large; gives the seconds until the next look."""
        most = 0
        for step, files in self.files().items():
            with contextlib.suppress(OSError):
                most = max(most, self.measure(step, files))
        return OFTEN if 2 * most > self.most else SELDOM

    def measure(self, step: tuple[int, int], files: dict[str, str]) -> int:
        """The bytes that a step has printed; where these are too many, they are cut."""
        sizes = {kind: os.stat(path).st_size for kind, path in files.items()}
        total = sum(sizes.values())
        if step not in self.cuts and total > self.most + len(self.note):
            self.begin(step, files, sizes)
        if step in self.cuts:
            cut = self.cuts[step]
            for kind, end in cut.ends.items():
                if os.fstat(cut.files[kind]).st_size > end:
                    os.ftruncate(cut.files[kind], end)
        return total

    def begin(self, step: tuple[int, int], files: dict[str, str], sizes: dict[str, int]) -> None:
        """Chooses where the files of a step end, and writes the note. Each may have half of the limit."""
        opened = {kind: os.open(path, os.O_RDWR) for kind, path in files.items()}
        larger = max(sizes, key=lambda kind: sizes[kind])
        ends = {}
        for kind, other in (("out", "err"), ("err", "out")):
            room = max(self.most - sizes.get(other, 0), self.most // 2)
            ends[kind] = min(sizes.get(kind, 0), room)
        ends = {kind: ends[kind] for kind in opened}
        ends[larger] = end_of_line(opened[larger], ends[larger])
        os.pwrite(opened[larger], self.note, ends[larger])
        ends[larger] += len(self.note)
        self.cuts[step] = Cut(opened, ends, larger)

    def ended(self, leg: int, step: int) -> None:
        """Cuts the log of a step that has ended, which may have what was printed after the last look."""
        with self.lock:
            cut = self.cuts.get((leg, step))
        with contextlib.suppress(OSError):
            log = os.open(self.folder / f"step-{leg}-{step}.log", os.O_RDWR | os.O_NOFOLLOW | os.O_NONBLOCK)
            try:
                found = os.fstat(log)
                if self.most and stat.S_ISREG(found.st_mode) and found.st_nlink == 1:
                    self.cut_log(log, found.st_size, cut)
            finally:
                os.close(log)

    def cut_log(self, log: int, length: int, cut: Cut | None) -> None:
        """Cuts a log as its files were; where they were not, since all came between two looks, at the
        limit."""
        if cut:
            rewrite(log, cut)
        elif length > self.most + len(self.note):
            end = end_of_line(log, self.most)
            os.pwrite(log, self.note, end)
            os.ftruncate(log, end + len(self.note))


def is_of(file: int, leg: int, step: int) -> bool:
    """Whether an open file is one into which a step prints; another is closed."""
    found = FILE.search(os.readlink(f"/proc/self/fd/{file}"))
    is_it = found is not None and (int(found[1]), int(found[2])) == (leg, step)
    if not is_it:
        os.close(file)
    return is_it


def end_of_line(file: int, end: int) -> int:
    """The end of the last line before a place in a file; of a long line the last whole character."""
    before = os.pread(file, min(end, 4096), max(end - 4096, 0))
    line = before.rfind(b"\n")
    if line >= 0:
        return end - len(before) + line
    return end - len(before) + len(before.decode("utf-8", "ignore").encode("utf-8")) if before else end


def rewrite(log: int, cut: Cut) -> None:
    """Makes a log what the two files have up to their ends: standard output, then errors on a new line."""
    out = cut.ends.get("out", 0)
    os.ftruncate(log, out)
    errors = os.pread(cut.files["err"], cut.ends["err"], 0) if cut.ends.get("err") else b""
    if errors and out and os.pread(log, 1, out - 1) != b"\n":
        errors = b"\n" + errors
    os.pwrite(log, errors, out)
