"""The command `from-yaml`: makes JSON, as `actrun` reads it, of workflows in YAML."""
from __future__ import annotations

import argparse
import os
import pathlib
import sys
from typing import Any

from . import Problem, read_json
from .files import read_named
from .lower import Setting, lower
from .options import matrix, unknown_matrix
from .visible import visible
from .yaml_reader import MOST_BYTES, Document, Note, Refused, read_document, text_of

ABOUT = """\
Converts workflows from YAML to the JSON that `actrun` reads.

Each FILE holds one workflow. Its JSON goes to FILE with `.json` instead of `.yml` or `.yaml`; an existing file with other
contents is replaced only with `--force`. `-o OUT` writes the JSON of one FILE to OUT, and `-o -` to standard output. The FILE `-`
is standard input, whose JSON goes to standard output without -o.

YAML is read as GitHub reads it, by the core schema of YAML 1.2: `on`, `yes`, `2024-01-01` and `12:30:45` are strings. `true`,
`True` and `TRUE` are booleans; `null`, `~` and nothing are null; `8`, `010`, `0x1f` and `0o17` are the integers 8, 10, 31 and 15.
A fraction, or an integer out of range, becomes the string as written. If GitHub reads another value (3.1 for 3.10), a line
on standard error says so. Anchors, aliases and `<<` are written out.

A file is rejected, by lines `FILE:LINE: SENTENCE` on standard error, if it is not UTF-8 or not YAML, or has
  - a second document, more than 127 levels, or more than 200000 values;
  - a key that is twice in a mapping, or that is no string;
  - a tag beyond the core schema, an alias without its anchor or inside it;
  - infinity, NaN, an unpaired surrogate.

--lower rewrites what `actrun plan` does not accept, and a line on standard error names each thing that was replaced or dropped:
numbers with fractions, hashFiles, `runner`, shells other than sh and bash, containers and services, called workflows, composite
actions of the repository, matrices and variables by expression, timeouts, and legs for Windows and macOS.

Exit status: 0 all JSON is written, 2 an option or a FILE is wrong, 3 a file, a stream or the library failed."""


def parsed(given: list[str]) -> argparse.Namespace:
    """The options; where they make no sense the process ends with a line that says why."""
    parser = argparse.ArgumentParser(
        "from-yaml",
        "from-yaml [-o OUT] [--lower [OPTION..]] FILE..",
        ABOUT,
        allow_abbrev=False,
        formatter_class=argparse.RawDescriptionHelpFormatter,
    )
    parser.print_usage = lambda file=None: None  # type: ignore[assignment]
    add = parser.add_argument
    add("-o", metavar="OUT", help="the place of the JSON of one FILE; - is standard output")
    add("--force", action="store_true", help="replace an existing FILE.json with other contents")
    add("--lower", action="store_true", help="rewrite the workflow for `actrun plan`")
    add("--contexts", metavar="FILE", help="JSON with the objects github, inputs, vars, secrets and runner, as far as they are known; give the "
        "same file to `actrun plan`")
    add(
        "--repository",
        metavar="DIR",
        help="the directory of hashFiles, ./ACTION and ./.github/workflows/FILE (default: that with "
        "the .github/workflows of FILE, else the current one)",
    )
    add(
        "--matrix",
        action="append",
        default=[],
        type=matrix,
        metavar="JOB.VARIABLE=JSON",
        help="the value of a matrix variable, of `matrix`, "
        "`include`, `exclude`, `fail-fast` or `max-parallel`",
    )
    add("--any-system", action="store_true", help="let legs for Windows and macOS execute their steps here")
    add("names", nargs="+", metavar="FILE", help="a workflow in YAML; - is standard input")
    try:
        options = parser.parse_args(given)
    except Problem as problem:
        parser.error(str(problem))
    options.asked = set()  # (job, variable): the places for which --matrix can have a value
    if options.o is not None and len(options.names) > 1:
        parser.error("-o takes the JSON of one FILE")
    if not options.lower and (options.contexts or options.repository or options.matrix or options.any_system):
        parser.error("--contexts, --repository, --matrix and --any-system need --lower")
    return options


def contexts_of(name: str) -> dict[str, Any]:
    """The objects in the file of --contexts. Raises ValueError if it holds something else."""
    given: dict[str, Any] = read_json(pathlib.Path(name).read_bytes())
    for key in ("github", "inputs", "vars", "secrets", "runner"):
        if not isinstance(given, dict) or not isinstance(given.get(key, {}), dict):
            raise ValueError(
                "it must hold a JSON object whose github, inputs, vars, secrets and runner are objects"
            )
    return given


def lowered(document: Document, name: str, options: argparse.Namespace, known: dict[str, Any]) -> Document:
    """The document that `actrun plan` takes, or one with a fault."""
    folder = pathlib.Path(name).absolute().parent
    found = folder.parent.parent if folder.parts[-2:] == (".github", "workflows") else pathlib.Path()
    try:
        done = lower(
            document,
            name,
            Setting(
                pathlib.Path(options.repository or found), known, dict(options.matrix), options.any_system
            ),
        )
    except Refused as refused:
        return Document(faults=[Note(refused.line, refused.text)])
    options.asked |= done.asked
    return Document(done.value, notes=sorted([*document.notes, *done.notes], key=lambda note: note.line))


def convert(name: str, options: argparse.Namespace, known: dict[str, Any]) -> int:
    """Makes the JSON of a file, prints faults or notes, and returns the status."""
    base, end = os.path.splitext(name)
    out = options.o or (
        "-" if name == "-" else (base if end.lower() in (".yml", ".yaml") else name) + ".json"
    )
    place = name
    try:
        document = read_document(
            sys.stdin.buffer.read(MOST_BYTES + 1) if name == "-" else read_named(name, MOST_BYTES)
        )
        if options.lower and not document.faults:
            document = lowered(document, name, options, known)
        for note in document.faults or document.notes:
            shown = "standard input" if name == "-" else name
            print(visible(f"{shown}:{note.line}: {note.text}"), file=sys.stderr)
        if document.faults:
            return 2
        place = "standard output" if out == "-" else out
        text = (text_of(document.value) + "\n").encode()
        if (
            not options.o
            and out != "-"
            and os.path.lexists(out)
            and (os.path.islink(out) or not os.path.isfile(out))
        ):
            print(
                visible(f"from-yaml: {out} is a link or no plain file: -o OUT names another place"),
                file=sys.stderr,
            )
            return 2
        if not options.o and out != "-" and not options.force and has_other(out, text):
            print(f"from-yaml: {out} exists, with other contents: "
                  "--force replaces it, -o OUT names another place", file=sys.stderr)
            return 2
        with open(1 if out == "-" else out, "wb", closefd=out != "-") as it:
            it.write(text)
        return 0
    except (OSError, ValueError) as fault:  # a name with a zero byte is a ValueError
        named = getattr(fault, "filename", None)
        why = getattr(fault, "strerror", None) or fault
        print(visible(f"from-yaml: {named if isinstance(named, str) else place}: {why}"), file=sys.stderr)
        return 3


def has_other(name: str, text: bytes) -> bool:
    """Whether there is a file of that name which is not empty and has another text."""
    place = pathlib.Path(name)
    if not place.is_file() or place.stat().st_size == 0:
        return False
    return place.stat().st_size != len(text) or place.read_bytes() != text


def main(arguments: list[str]) -> int:
    """Does the command, and returns its exit status."""
    options = parsed(arguments)
    try:
        known = contexts_of(options.contexts) if options.contexts is not None else {}
    except (OSError, ValueError) as fault:
        why = getattr(fault, "strerror", None) or fault
        print(visible(f"from-yaml: --contexts {options.contexts}: {why}"), file=sys.stderr)
        return 3 if isinstance(fault, OSError) else 2
    status = max(convert(name, options, known) for name in options.names)
    wrong = "" if status else unknown_matrix(options.matrix, options.asked)
    if wrong:
        print(visible(f"from-yaml: {wrong}"), file=sys.stderr)
    return 2 if wrong else status
