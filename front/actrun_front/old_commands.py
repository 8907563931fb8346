"""Workflow commands that write to no file, as `::set-output`: a program around the script carries them
out."""
from __future__ import annotations

import re
import shlex
from typing import Any

from .actions import STUBS
from .lower_tree import Lowering
from .toolchains import PYTHON
from .yaml_reader import mark_of

RELAY = shlex.join([PYTHON, "-EsB", str(STUBS / "relay.py")])
OLD_COMMANDS = re.compile(r"::(set-output|save-state|set-env|add-path)\b", re.IGNORECASE)
SHELL_WORDS = {"": '"${BASH:-sh}" -e', "bash": "bash --noprofile --norc -eo pipefail", "sh": "sh -e"}


def relay_commands(lowering: Lowering, step: Any, script: str, shell: Any) -> None:
    """Has a script that writes such a command started again, in its shell, by the program that carries it
    out."""
    if not lowering.setting.relay or not OLD_COMMANDS.search(script):
        return
    lowering.note(
        mark_of(step, "run"), "commands like `::set-output` are carried out by a program around the script"
    )
    again = f'exec {lowering.setting.relay} {SHELL_WORDS.get(shell, SHELL_WORDS["bash"])} "$0"'
    step["run"] = f'[ -n "${{ACTRUN_RELAYED-}}" ] || {again}; unset ACTRUN_RELAYED; {step["run"]}'
    line = next((line.strip() for line in script.splitlines() if line.strip()), "")
    step["name"] = step.get("name") or line
