"""Programs for the actions that a plan names: the file of `run --stubs`, and what stands behind it.

Each `uses` text gets a small wrapper script. It starts the program that the user named, the stub that is
shipped for the action, or `without.py`, which skips the step or lets it fail with a sentence that says how to
name a program.
"""

from __future__ import annotations

import json
import os
import pathlib
import re
import shlex
import shutil
from dataclasses import dataclass, field
from types import MappingProxyType
from typing import Iterable, Mapping

PRELUDE = '[ -z "${ACTRUN_PRELUDE-}" ] || . "$ACTRUN_PRELUDE"'
IN_COPY = "$GITHUB_WORKSPACE/"  # begins the name of a program in the copy of the repository
STUBS = pathlib.Path(__file__).resolve().parent.parent / "stubs"


class StubError(Exception):
    """A program that was named for an action cannot be used; the text names both, and the remedy."""


@dataclass
class Stubs:
    """What `stubs_for` decided for the `uses` texts of a plan."""

    # text of `uses` -> wrapper script, the file of `run --stubs`
    programs: dict[str, str] = field(default_factory=dict)
    missing: list[str] = field(default_factory=list)  # no program replaces these: their steps fail and say so
    lenient: list[str] = field(default_factory=list)  # also these, but their steps are skipped with a warning
    named: list[str] = field(default_factory=list)  # the user named a program for these
    binds: list[pathlib.Path] = field(default_factory=list)  # what a sandbox has to show, read-only


def is_whole(uses: str) -> bool:
    """Whether the text names a folder of the repository or a container, which have no ref."""
    return uses in (".", "..") or uses.startswith(("./", "../", "docker://"))


def action_name(uses: str) -> str:
    """The action's name without its ref: `actions/cache/save` of `actions/cache/save@v4`, in small
    letters."""
    return uses if is_whole(uses) else uses.partition("@")[0].strip("/").lower()


def named_program(uses: str, named: dict[str, str]) -> str | None:
    """The program that the user named for an action: for its whole text, its name, or a leading part
    `owner/name`."""
    known = {(key if "@" in key else action_name(key)): program for key, program in named.items()}
    parts = action_name(uses).split("/")
    leading = (
        ["/".join(parts[:count]) for count in range(len(parts) - 1, 1, -1)] if not is_whole(uses) else []
    )
    return next((known[name] for name in (uses, action_name(uses), *leading) if name in known), None)


def check_program(action: str, program: str) -> pathlib.Path | None:
    """The place of a named program that a sandbox has to show, or None for one of the repository or the
    system.

    Raises StubError if there is no such program, or it is not executable.
    """
    if program.startswith(IN_COPY):
        return None
    found = shutil.which(program)
    if found is None:
        reason = "is not executable: chmod +x it" if os.path.isfile(program) else "is not there"
        raise StubError(f"--stub {action}={program}: the program {program} {reason}")
    return pathlib.Path(os.path.abspath(found)) if os.path.isabs(program) else None


def stubs_for(uses: Iterable[str], named: dict[str, str], lenient: bool, folder: pathlib.Path, python: str,
              commands: Mapping[str, list[str]] = MappingProxyType({}),
              reasons: Mapping[str, str] = MappingProxyType({})) -> Stubs:
    """Writes one wrapper script below `folder` for each `uses` text and returns which program replaces which
    action.

    `named` maps actions to programs as `--stub ACTION=PROGRAM` gives them, with or without `@ref`; the
    longest match wins. By the `uses` text `commands` has the words behind `python` that execute an action
    itself, and `reasons` why a step fails. Raises StubError if a named program isn't there.
    """
    stubs = Stubs(
        binds=[
            STUBS.parent,
            *filter(None, (check_program(action, program) for action, program in named.items())),
        ]
    )
    shipped = {
        name.lower(): entry.get("stub")
        for name, entry in json.loads((STUBS / "actions.json").read_text(encoding="utf-8")).items()
    }
    bash = shutil.which("bash") or "/bin/sh"  # other shells drop variables such as INPUT_PYTHON-VERSION
    folder.mkdir(parents=True, exist_ok=True)
    for number, text in enumerate(sorted(set(uses))):
        program, stub = named_program(text, named), shipped.get(action_name(text)) or "without.py"
        stub = "without.py" if text in reasons else stub
        of_python = commands.get(text, [str(STUBS / stub), text])
        command = [program] if program is not None else [python, "-EsB", *of_python]
        if program is not None:
            stubs.named.append(text)
        elif text not in commands and stub == "setup.py":
            command += ["--lenient"] if lenient else []
        elif text not in commands and stub == "without.py":
            (stubs.lenient if lenient else stubs.missing).append(text)
            command += [f"--why={reasons[text]}"] if text in reasons else []
            command += ["--lenient"] if lenient else []
        place = folder / f"{number:03}-{re.sub(r'[^A-Za-z0-9.]+', '-', text).strip('-')[:60]}"
        words = shlex.join(command)
        if program is not None and program.startswith(IN_COPY):
            words = f'"$GITHUB_WORKSPACE"/{shlex.quote(program[len(IN_COPY):])}'
        place.write_text(
            f"#!{bash}\n{PRELUDE}\nACTRUN_ACTION={shlex.quote(text)} exec {words}\n", encoding="utf-8"
        )
        place.chmod(0o755)
        stubs.programs[text] = str(place.resolve())
    return stubs
