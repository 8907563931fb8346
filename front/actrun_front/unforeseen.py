"""The one place that turns the error of a command into a line; of an unforeseen one also where it is kept,
and where to report it."""
from __future__ import annotations

import contextlib
import errno
import os
import sys
import threading
import time
import traceback
from typing import Callable

from . import Problem
from .stopping import ended_by
from .tree import cache_root
from .visible import visible

MOST_KEPT = 20
REPORT = "please report it, with this file, to whom you have actrun from"
NO_THREAD = "can't start new thread"
THREADS = f"{os.strerror(errno.EAGAIN)}: end other programs, or raise `ulimit -u`"
MEMORY = "out of memory: give it more, or take a smaller file"


def kept(error: BaseException, what: str) -> str:
    """The file with the traceback of an error, which only its owner reads; or why it could not be written."""
    try:
        folder = cache_root() / "faults"
        folder.mkdir(mode=0o700, parents=True, exist_ok=True)
        for old in sorted(folder.glob("*.txt"), key=os.path.getmtime)[:-MOST_KEPT]:
            old.unlink()
        place = folder / f"{time.strftime('%Y%m%d-%H%M%S')}-{os.getpid()}-{threading.get_native_id()}.txt"
        lines = traceback.format_exception(type(error), error, error.__traceback__)
        handle = os.open(place, os.O_WRONLY | os.O_CREAT | os.O_TRUNC, 0o600)
        with open(handle, "w", encoding="utf-8", errors="backslashreplace") as file:
            file.write("".join([f"{what}, Python {sys.version.split()[0]}\n", *lines]))
        return str(place)
    except (OSError, RuntimeError) as fault:
        return f"(no file: {getattr(fault, 'strerror', None) or fault})"


def sentence(error: BaseException, command: str) -> str:
    """What a person reads of an unforeseen error. Its text may have secrets, and is in the file alone."""
    last = traceback.extract_tb(error.__traceback__)[-1:]
    place = f" at {os.path.basename(last[0].filename)}:{last[0].lineno}" if last else ""
    return f"unforeseen: {type(error).__name__}{place}; {REPORT}: {kept(error, command)}"


def show(text: str) -> None:
    """A line on standard error, if that can be written."""
    with contextlib.suppress(OSError, ValueError, AttributeError):
        sys.stderr.write(visible(f"actrun: {text}\n").encode("utf-8", "backslashreplace").decode("utf-8"))
        sys.stderr.flush()


def of_system(error: OSError, command: str) -> str:
    """What a person reads of an error of the system: the file, if one is named, and the reason."""
    name = os.fsdecode(error.filename) if isinstance(error.filename, (str, bytes)) else "a file or a stream"
    return f"{command}: {name}: {error.strerror or error}"


def guarded(command: str, work: Callable[[], int]) -> int:
    """The exit status of a command; no error of it is shown as a traceback."""
    threading.excepthook = lambda given: show(sentence(given.exc_value, command)) if given.exc_value else None
    status, told = 3, ""
    try:
        status = work()
    except SystemExit as end:
        told = end.code if isinstance(end.code, str) else ""
        status = end.code if isinstance(end.code, int) else 1 if end.code else 0
    except Problem as problem:
        told, status = f"{command}: {str(problem).removeprefix('actrun: ')}", problem.status
    except KeyboardInterrupt as interrupt:
        told, status = ended_by(interrupt)
    except BrokenPipeError:
        told = "standard output was closed before the end"
    except MemoryError:
        told = f"{command}: {MEMORY}"
    except OSError as error:
        told = of_system(error, command)
    except Exception as error:  # (this is the one place that takes all)
        if isinstance(error.__cause__, KeyboardInterrupt):  # (which Python wraps where a class is being made)
            told, status = ended_by(error.__cause__)
        else:
            told = f"{command}: {THREADS if str(error) == NO_THREAD else sentence(error, command)}"
    if told:
        show(told)
    return flushed(status, not told)


def flushed(status: int, tells: bool) -> int:
    """The status once all is written; if the system prevents that, prints its error and gives its status."""
    for stream, name in ((sys.stdout, "standard output"), (sys.stderr, "")):
        try:
            if stream is not None and not stream.closed:
                stream.flush()
        except (OSError, KeyboardInterrupt) as error:
            with contextlib.suppress(OSError):
                os.dup2(os.open(os.devnull, os.O_WRONLY), stream.fileno())
            if name and tells:
                show(f"{name}: {getattr(error, 'strerror', None) or 'stopped by Ctrl-C'}")
                status = 3
    return status
