"""What a person reads before the sandbox is given up: the next useful step, and what steps could do."""
from __future__ import annotations

import os
import re
import shutil
import sys
from pathlib import Path
from typing import Any

from . import Problem, files as safe

MOST_READ, MOST_TOLD = 4096, 3  # bytes of a log, commands
# as bash and dash say it
NOT_FOUND = re.compile(r"(?m)^.*?: (?:line )?\d+: ([\w.+-]+): (?:command )?not found$")

WITHOUT = ("without the sandbox every step has your rights: it can read, change, delete and send away "
           "all your files, and change this machine")


def missing(log: Path, path: str) -> list[str]:
    """The advice for each command that the end of a step's log says was not found. `path` is the user's PATH,
    whose directories below home directories the sandbox hides."""
    try:
        with open(safe.open_file(log.parent, log.name), "rb") as file:
            file.seek(max(os.fstat(file.fileno()).st_size - MOST_READ, 0))
            text = file.read(MOST_READ).decode("utf-8", "replace")
    except OSError:
        return []
    return [
        of_command(name, shutil.which(name, path=path)) for name in dict.fromkeys(NOT_FOUND.findall(text))
    ][:MOST_TOLD]


def of_command(name: str, place: str | None) -> str:
    """The advice where a command was not found that is in this place outside of the sandbox, or nowhere."""
    if place:
        folder = os.path.dirname(place)
        return (f"the sandbox hides {folder}, which has {name}: --bind {folder} lets steps read it; "
                "or install the command outside of home directories, such as into /usr/local/bin")
    return (
        f"this machine has no command {name}, which GitHub's may have: install it on this machine, or let "
        "a step before this one do so, with sudo apt-get install"
    )


def agree(options: Any) -> None:
    """Asks on a terminal whether steps are to execute without the sandbox, where the command line says so.
    Raises Problem if not."""
    if not options.line.no_sandbox or not (sys.stdin and sys.stdin.isatty() and sys.stderr.isatty()):
        return
    print(f"--no-sandbox: {WITHOUT}.\nExecute the steps so? [y/N] ", end="", file=sys.stderr, flush=True)
    if sys.stdin.readline().strip().lower() not in ("y", "yes"):
        raise Problem("nothing was executed: leave --no-sandbox out, and steps execute in the sandbox")
