"""Steps that fail since GitHub cannot load their action, and notes of what is written otherwise here than on
GitHub."""
from __future__ import annotations

import re
import shlex
from typing import Any, Optional

from .lower_tree import Lowering, part
from .yaml_reader import Map, mark_of, members


DIFFERENCES = (
    (
        re.compile(r"\btoJSON\s*\(\s*[^\s')]", re.IGNORECASE),
        "toJSON sorts keys here, GitHub writes them in their own order",
    ),
    (re.compile("::add-matcher::", re.IGNORECASE), "problem matchers make no annotations here"),
)


def note_differences(lowering: Lowering, node: Any) -> None:
    """Notes what the texts of a workflow have that looks otherwise here."""
    for key, value in members(node):
        if isinstance(value, str):
            for form, text in DIFFERENCES:
                if form.search(value):
                    lowering.note(mark_of(node, key), text)
        else:
            note_differences(lowering, value)


def failing_step(lowering: Lowering, step: Any, action: Any) -> Optional[Any]:
    """The step that replaces one whose action GitHub cannot load; None if GitHub can load it."""
    steps = part(action, "runs").get("steps")
    scripts = [(at, one) for at, one in members(steps) if isinstance(one, dict) and "run" in one]
    missing = next((at for at, one in scripts if "shell" not in one), None)
    if missing is None or not lowering.setting.strict:
        return None
    found = re.fullmatch(r"(.*):(\d+)", mark_of(steps, missing).inside)
    place = f"{found[1]} (line {found[2]})" if found else step["uses"]
    text = f"{place}: a step with `run` in an action needs `shell`: write shell: bash"
    lowering.note(mark_of(step, "uses"),
                  f"GitHub cannot load the action {step['uses']}, so its step fails: {text}")
    kept = {key: step[key] for key in ("id", "name", "if", "continue-on-error", "env") if key in step}
    made = Map({"name": step["uses"], **kept,
                "run": f"printf '%s\\n' {shlex.quote('::error::' + text)}; exit 1\n", "shell": "bash"},
               mark_of(step))
    made.known_as = step.known_as
    return made
