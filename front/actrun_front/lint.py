"""`actrun lint` of workflows in YAML: what GitHub refuses, else why a workflow cannot be planned, by
lines."""
from __future__ import annotations

import subprocess
import sys
import tempfile
from pathlib import Path

from . import explain, syntax
from .execute import program
from .files import read_named
from .lower import Refused, Setting, lower
from .lower_numbers import settle
from .lower_tree import Lowering
from .tree import find_top
from .visible import visible
from .yaml_reader import MOST_BYTES, Document, Note, copied, read_document, text_of

LATE = "give its value by --matrix"  # in the text about a strategy whose value only an execution knows


def main(arguments: list[str]) -> int:
    """The exit status of `actrun lint FLOW..`."""
    names = [name for name in arguments if name != "--"]
    options = arguments[:arguments.index("--") if "--" in arguments else None]
    wrong = visible(next((name for name in options if name.startswith("-")), ""))
    if wrong:
        print(
            f"actrun: lint has no option {wrong}; a file of that name is written ./{wrong}", file=sys.stderr
        )
        return 2
    return max(lint(name) for name in names)


def lint(name: str) -> int:
    """Prints what is wrong in a file; gives the status."""
    if not name.endswith((".yml", ".yaml")):
        sys.stdout.flush()
        return subprocess.run([program(), "lint", "--", name], check=False).returncode
    try:
        document = read_document(read_named(name, MOST_BYTES))
    except (OSError, ValueError) as fault:
        print(visible(f"actrun: {name}: {getattr(fault, 'strerror', None) or fault}"), file=sys.stderr)
        return 3
    lines, is_refused = findings(document, name)
    for line in lines:
        print(visible(line))
    return 2 if is_refused else 0


def findings(document: Document, name: str) -> tuple[list[str], bool]:
    """The lines about a workflow, and whether it is refused."""
    notes, faults = list(document.notes), document.faults or syntax.faults(document)
    if not document.faults:  # (else its aliases may mean more values than there is memory for)
        lowering = Lowering(Setting(Path()))
        settle(copied(document.value), lowering, notes)
        notes += lowering.notes
    if not faults and not isinstance(document.value, dict):
        faults = [Note(1, "a workflow with `on` and `jobs` was expected")]
    planned: list[str] = []
    if not faults:
        try:
            planned = unplanned(document, name)
        except Refused as refused:
            note = Note(refused.line, refused.text)
            notes, faults = ([*notes, note], []) if LATE in refused.text else (notes, [note])
    ordered = sorted({*notes, *faults}, key=lambda note: note.line)
    return [*(f"{name}:{note.line}: {note.text}" for note in ordered), *planned], bool(faults or planned)


def unplanned(document: Document, name: str) -> list[str]:
    """Why the program makes no plan of a workflow. Raises Refused."""
    folder = Path(name).absolute().parent
    top = find_top(folder) or (folder.parent.parent if folder.name == "workflows" else folder)
    lowered = lower(document, name, Setting(top, containers="keep", strict=True, watched=True, staged=True))
    with tempfile.TemporaryDirectory(prefix="actrun-lint-") as room:
        file = Path(room, "flow.json")
        file.write_text(text_of(lowered.value), encoding="utf-8", errors="replace")
        return explain.lint([str(file)], "", {str(file): (name, lowered.lines)}).splitlines()
