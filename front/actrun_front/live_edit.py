"""A script that a person changes at a break, and what that is as a change of the workflow's file."""
from __future__ import annotations

import difflib
import os
import re
import shlex
import subprocess
from dataclasses import dataclass
from pathlib import Path
from typing import TYPE_CHECKING, Iterator

from . import Problem
from .explained import WRAPPED
from .planning import write_private
from .yaml_reader import Document, read_document

if TYPE_CHECKING:
    from .attempt import Trial

PATCH = "edited.patch"
BLOCK = re.compile(r"(\s*(?:- )?run:)\s*\|[+-]?\s*(?:#.*)?")
PLAIN = re.compile(r"(\s*(?:- )?run:) (.*)")
SIMPLE = re.compile(r"[\w./$][\w ./$=+-]*")  # a script that YAML takes as it is


@dataclass
class Edit:
    """The script of a step before and after a person changed it."""
    leg: int
    step: int
    title: str
    old: str
    new: str


def inner(script: str) -> tuple[int, int]:
    """Where the user's own script is in the one that a step executes."""
    found = WRAPPED.fullmatch(script)
    return found.span(2) if found else (0, len(script))


def edited(text: str, folder: Path) -> str:
    """A text after a person changed it in their editor. Raises Problem."""
    editor = os.environ.get("VISUAL") or os.environ.get("EDITOR") or ("vi" if os.isatty(0) else "")
    if not editor:
        raise Problem("edit: the variable EDITOR names no editor")
    file = folder / "edited.sh"
    write_private(file, text)
    try:
        status = subprocess.run([*shlex.split(editor), str(file)], check=False).returncode
        new = file.read_text(encoding="utf-8", errors="replace")
    except (OSError, ValueError) as fault:
        why = getattr(fault, "strerror", None) or fault
        raise Problem(f"edit: {editor}: {why}: set EDITOR to an editor") from None
    finally:
        file.unlink(missing_ok=True)
    if status:
        raise Problem(f"edit: {editor} ended with status {status}: the script stays as it was")
    return new


def changes(trial: Trial, edits: list[Edit]) -> Iterator[str]:
    """The changes in sentences, and as a patch of the workflow's files that nothing applies unasked."""
    texts = {flow.name: flow.document.text for flow in trial.flows}
    lost = []
    for edit in edits:
        flow = trial.flows[trial.legs[edit.leg].run]
        line = flow.lowered.lines.get(("jobs", trial.legs[edit.leg].job["id"], "steps", edit.step), 0)
        changed = in_file(flow.document, texts[flow.name], line, edit)
        lost += [] if changed else [edit]
        texts[flow.name] = changed or texts[flow.name]
    lines = [line for flow in trial.flows
             for line in unified(flow.name, flow.document.text, texts[flow.name])]
    if lines:
        patch = trial.room.private / PATCH
        write_private(patch, "".join(lines))
        names = ", ".join(dict.fromkeys(edit.title for edit in edits if edit not in lost))
        files = ", ".join(flow.name for flow in trial.flows if texts[flow.name] != flow.document.text)
        yield (f"you changed {names}: apply it to {files}? This does: "
               f"git -C {shlex.quote(str(trial.play.facts.top))} apply {shlex.quote(str(patch))}")
        yield from (line.rstrip("\n") for line in lines)
    for edit in lost:
        yield (f"you changed {edit.title}, whose script is neither a block nor one line in the workflow: "
               "change it there by hand:")
        yield from (line.rstrip("\n") for line in unified("script", edit.old, edit.new))


def in_file(document: Document, text: str, line: int, edit: Edit) -> str:
    """The text of a workflow with a changed script; nothing if the script has no place there that is
    known."""
    steps = (path for path, at in document.lines.items() if at == line and len(path) == 4)
    path = next((path for path in steps if path[0::2] == ("jobs", "steps")), None)
    step = document.value["jobs"][path[1]]["steps"][path[3]] if path else None
    template = step.get("run") if isinstance(step, dict) else None
    if path is None or not isinstance(template, str):
        return ""
    wanted = merged(template, edit.old, edit.new)
    number = document.lines.get((*path, "run"), 0)
    number += changed_before(document.text, text, number)
    made = replaced(text.splitlines(keepends=True), number - 1, template, wanted) if wanted else ""
    if not made:
        return ""
    again = read_document(made.encode())
    found = again.value["jobs"][path[1]]["steps"][path[3]].get("run") if not again.faults else None
    return made if isinstance(found, str) and found.rstrip("\n") == wanted.rstrip("\n") else ""


def changed_before(old: str, new: str, line: int) -> int:
    """By how many lines a line of a text has moved in a later version of the text."""
    matcher = difflib.SequenceMatcher(None, old.splitlines(), new.splitlines(), autojunk=False)
    return next((there - here for here, there, size in matcher.get_matching_blocks()
                 if here <= line - 1 < here + size), 0)


def merged(template: str, old: str, new: str) -> str:
    """A script as it is written, with the changes of the one that was executed; nothing if their lines do
    not fit."""
    written, before, after = (text.rstrip("\n").split("\n") for text in (template, old, new))
    if len(written) != len(before):
        return ""
    found = []
    matcher = difflib.SequenceMatcher(None, before, after, autojunk=False)
    for kind, first, last, begin, end in matcher.get_opcodes():
        found += written[first:last] if kind == "equal" else after[begin:end]
    return "\n".join(found) + "\n" * template.endswith("\n")


def replaced(lines: list[str], at: int, template: str, wanted: str) -> str:
    """The lines of a file with another script at a line with `run`; nothing if it is written in a way that
    is not known."""
    if not 0 <= at < len(lines):
        return ""
    end = "\r\n" if lines[at].endswith("\r\n") else "\n"
    block, plain = BLOCK.fullmatch(lines[at].rstrip("\r\n")), PLAIN.fullmatch(lines[at].rstrip("\r\n"))
    if block:
        count = template.rstrip("\n").count("\n") + 1
        first = lines[at + 1] if at + 1 < len(lines) else ""
        indent = first[:len(first) - len(first.lstrip(" "))]
        body = [indent + line + end if line else end for line in wanted.rstrip("\n").split("\n")]
        return "".join([*lines[:at + 1], *body, *lines[at + 1 + count:]])
    if not plain or plain[2].strip() != template:
        return ""
    if SIMPLE.fullmatch(wanted):
        return "".join([*lines[:at], f"{plain[1]} {wanted}{end}", *lines[at + 1:]])
    indent = " " * (len(plain[1]) - len("run:") + 2)
    body = [indent + line + end if line else end for line in wanted.rstrip("\n").split("\n")]
    return "".join([*lines[:at], f"{plain[1]} |{end}", *body, *lines[at + 1:]])


def unified(name: str, old: str, new: str) -> Iterator[str]:
    """A patch of a file, by lines; none if nothing changed."""
    before, after = old.splitlines(keepends=True), new.splitlines(keepends=True)
    for line in difflib.unified_diff(before, after, f"a/{name}", f"b/{name}"):
        yield line if line.endswith("\n") else f"{line}\n\\ No newline at end of file\n"
