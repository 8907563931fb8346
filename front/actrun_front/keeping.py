"""Which work folders of executions are kept, and what an execution left that was ended from outside.

Each folder has a file `lock` with its number, which its execution has locked, and then a file `ended`.
"""
from __future__ import annotations

import contextlib
import fcntl
import os
import re
import time
from pathlib import Path
from typing import IO, Iterator

from .files import names

KEPT = 5
PROTECTED = 3600.0  # seconds after its end in which no work folder is removed
ASIDE = ".shown"
LOG_ASIDE = re.compile(r"step-\d+-\d+\.shown")
BOOT = Path("/proc/sys/kernel/random/boot_id")


@contextlib.contextmanager
def held(parent: Path) -> Iterator[None]:
    """Keeps others from making and choosing work folders meanwhile."""
    handle = os.open(parent, os.O_RDONLY | os.O_DIRECTORY)
    try:
        fcntl.flock(handle, fcntl.LOCK_EX)
        yield
    finally:
        os.close(handle)


def folders_of(parent: Path) -> list[Path]:
    """The work folders by their numbers, the oldest first."""
    found = [entry for entry in parent.glob("*") if entry.is_dir() and not entry.is_symlink()]
    return sorted(found, key=lambda entry: (number_of(entry), entry.name))


def number_of(folder: Path) -> int:
    """The number of a work directory; 0 if it has none."""
    try:
        text = (folder / "lock").read_text(encoding="ascii").strip()
        return int(text) if text.isdigit() and len(text) < 19 else 0
    except (OSError, ValueError):
        return 0


def next_number(parent: Path) -> int:
    """A number above those of all work folders."""
    return 1 + max(map(number_of, folders_of(parent)), default=0)


def lock_folder(folder: Path) -> IO[str] | None:
    """The lock of a work folder; None if an execution has it."""
    lock = open(folder / "lock", "a", encoding="ascii")
    try:
        fcntl.flock(lock, fcntl.LOCK_EX | fcntl.LOCK_NB)
        return lock
    except OSError:
        lock.close()
        return None


def note_end(folder: Path) -> None:
    """Notes when an execution ended, by the clock and by the time since the machine was started."""
    with contextlib.suppress(OSError):
        text = f"{boot()} {time.clock_gettime(time.CLOCK_BOOTTIME)} {time.time()}\n"
        (folder / "ended").write_text(text, encoding="ascii")


def boot() -> str:
    """What names this start of the machine."""
    try:
        return BOOT.read_text(encoding="ascii").strip()
    except OSError:
        return "unknown"


def seconds_since_end(folder: Path) -> float | None:
    """How long ago an execution ended, even if the clock was set; None if that is unknown."""
    try:
        name, since, clock = (folder / "ended").read_text(encoding="ascii").split()
        if name == boot():
            return time.clock_gettime(time.CLOCK_BOOTTIME) - float(since)
        return time.time() - float(clock)
    except (OSError, ValueError):
        return None


def put_aside(folder: Path, leg: int, step: int) -> None:
    """Gives the log of a step that has ended another name until the execution has: the program would show it
    then, slowly and a second time."""
    with contextlib.suppress(OSError):
        os.rename(folder / f"step-{leg}-{step}.log", folder / f"step-{leg}-{step}{ASIDE}")


def put_back(folder: Path) -> None:
    """Gives the logs of an execution their names."""
    for name in names(folder):
        if LOG_ASIDE.fullmatch(name):
            with contextlib.suppress(OSError):
                os.rename(folder / name, folder / (name[:-len(ASIDE)] + ".log"))


def recover(private: Path) -> bool:
    """Whether the program was ended before it wrote its whole record, which gets the events of `record.part`
    then."""
    put_back(private.parent / "play")
    record, part = private / "record", private / "record.part"
    if not part.is_file() or part.is_symlink():
        return False
    part.chmod(0o600)
    if record.is_file() and part.stat().st_size <= record.stat().st_size:
        part.unlink()  # (the program cannot remove it in the sandbox)
        return False
    os.truncate(part, part.read_bytes().rfind(b"\n") + 1)  # (a kill may cut the last line)
    part.replace(record)
    return True


def recover_all(parent: Path) -> None:
    """Recovers the records of executions that were ended from outside, so that nothing was shown of them."""
    if parent.is_dir():
        with contextlib.suppress(OSError), held(parent):
            for folder in folders_of(parent):
                recover_ended(folder)


def recover_ended(folder: Path) -> None:
    """Recovers the record of one execution, if it goes on no more and did not end by itself."""
    with contextlib.suppress(OSError):
        lock = lock_folder(folder) if not (folder / "ended").exists() else None
        if lock is not None:
            with lock:
                recover(folder / "private")
                note_end(folder)


def choose_old(parent: Path, own: Path, kept: int = KEPT) -> list[tuple[Path, IO[str]]]:
    """The work folders to remove, with their locks: none of the last ones, nor `own`, nor one in use or just
    ended."""
    chosen = []
    with held(parent):
        for folder in folders_of(parent)[:-kept]:
            with contextlib.suppress(OSError):
                recover_ended(folder)
                lock = None if folder == own else lock_folder(folder)
                if lock is not None and max(seconds_since_end(folder) or 0.0, 0.0) >= PROTECTED:
                    chosen.append((folder, lock))
                elif lock is not None:
                    lock.close()
    return chosen
