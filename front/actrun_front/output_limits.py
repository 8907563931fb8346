"""What in a step's file of outputs or variables is beyond the program's limits: its name, its size and the
limit."""
from __future__ import annotations

import re
from pathlib import Path
from typing import Iterator

from .expressions import Access, Replacement, literal
from .files import read_below
from .present import one_line

MOST_READ = 64 << 20
MOST_BYTES, MOST_NAME, MOST_PAIRS = 65536, 256, 256
KINDS = {"outputs": "out", "variables": "env"}


def detail(folder: Path | None, leg: int, step: int, reason: str) -> str:
    """What is refused in the file that a reason of the program names, with `: ` before it; nothing if it
    cannot be told."""
    found = re.match(r"its file of (outputs|variables) is refused: (NoName|TooMany)\b", reason)
    if folder is None or not found:
        return ""
    try:
        data = read_below(folder, f"step-{leg}-{step}.{KINDS[found[1]]}", most=MOST_READ)
    except OSError:
        return ""
    text = next(refused(data, found[2]), "")
    return f": {text}" if text else ""


def plain_output(access: Access) -> Replacement:
    """The rule for an output whose name has other signs than the program takes: `one_stream.py` writes it
    so."""
    keys = access.keys
    if len(keys) < 3 or keys[1].lower() != "outputs" or re.fullmatch(r"[A-Za-z0-9_-]*", keys[2]):
        return None
    name = re.sub(rb"[^A-Za-z0-9_-]", lambda it: b"_x%02x_" % it[0][0], keys[2].encode()).decode()
    return f"steps[{literal(keys[0])}].outputs[{literal(name)}]", 3


def pairs(data: bytes) -> Iterator[tuple[str, bytes | None]]:
    """The names and values of a file, as GitHub writes them; no value where a line has none."""
    lines = iter(data.decode("utf-8", "replace").split("\n"))
    for line in lines:
        name, block, delimiter = line.partition("<<")
        if block and "=" not in name:
            values: list[str] = []
            for inner in lines:
                if inner == delimiter:
                    break
                values.append(inner)
            yield name, "\n".join(values).encode()
        elif line:
            name, sign, value = line.partition("=")
            yield name, value.encode() if sign else None


def refused(data: bytes, error: str) -> Iterator[str]:
    """What is wrong, by the kind of error."""
    found = list(pairs(data))
    for name, value in found:
        if error == "NoName" and value is None:
            yield f"the line `{one_line(name, 60)}` has no `=`"
        elif error == "NoName" and not re.fullmatch(r"[A-Za-z0-9_-]+", name):
            yield (f"the name `{one_line(name, 60)}` has other signs than letters, digits, _ and -, "
                   "which GitHub takes and actrun does not")
        if error == "TooMany" and len(value or b"") > MOST_BYTES:
            yield (f"the value of {one_line(name, 60)} has {len(value or b''):,} bytes, and actrun takes at most "
                   f"{MOST_BYTES:,}, GitHub 1,048,576")
        if error == "TooMany" and len(name.encode()) > MOST_NAME:
            size = len(name.encode())
            yield f"the name `{one_line(name, 60)}` has {size} bytes, and actrun takes at most {MOST_NAME}"
    names = len({name for name, _ in found})
    if error == "TooMany" and names > MOST_PAIRS:
        yield f"it has {names} names, and actrun takes at most {MOST_PAIRS}"
