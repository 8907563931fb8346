"""Names with expressions: what is known before execution is written out, what differs by leg is filled in
later.

What only other jobs and steps give comes by a variable, which the prelude prints first in a step's output.
"""
from __future__ import annotations

import pathlib
import re
from typing import Any, Dict, Set

from .expressions import (
    PIECE,
    Access,
    EvaluationError,
    Replacement,
    Rules,
    has_expression,
    literal,
    references,
    rewrite,
    tokens,
)
from .files import first_bytes
from .late_hashes import PREFIX
from .lower_tree import EXPRESSION_CONTEXTS, Lowering, part, set_variable, steps_of

JOB_NAME, STEP_NAME = "ACTRUN_JOB_NAME", "ACTRUN_NAME"
# in a leg that was stopped from outside, which the board does not know
STOPPED = "env.ACTRUN_STOPPED == 'true'"
# what a plan has in place of these, so that they see such a stop
SEEN = {
    "cancelled()": f"(cancelled() || {STOPPED})",
    "job.status": f"({STOPPED} && 'cancelled' || job.status)",
}
# what the value of a late name may read; without calls and comparisons it cannot fail
OF_JOB = {"github", "inputs", "vars", "needs", "strategy", "matrix"}
OF_STEP = OF_JOB | {"env", "job", "steps"}
PLAIN = re.compile(r"&&|\|\||[][().!*]")


def fill_names(lowering: Lowering, flow: Any, job_id: str, job: Any) -> None:
    """Writes the values into the names of a job and its steps, as far as they are known."""
    known: Dict[str, Any] = {}
    if job_id in lowering.setting.needs:
        known["needs"] = lowering.setting.needs[job_id]
    if has_expression(job.get("name")):
        job["name"] = filled(lowering, job["name"], known)
        name_late(lowering, job, JOB_NAME, OF_JOB)
    for step in steps_of(job):
        if has_expression(step.get("name")):
            env = known_variables(lowering, known, flow, job, step)
            step["name"] = filled(lowering, step["name"], {**known, "env": env})
            name_late(lowering, step, STEP_NAME, OF_STEP)


def name_late(lowering: Lowering, node: Any, variable: str, contexts: Set[str]) -> None:
    """Gives a job or step the variable for a name that reads what only other jobs or steps give."""
    read: Set[str] = set()
    for expression in PIECE.findall(node["name"]):
        parts = tokens(expression) or [("call", "")]
        if any(kind == "call" or kind == "operator" and not PLAIN.fullmatch(text) for kind, text in parts):
            return  # (its evaluation could fail, and the step with it)
        read |= {access.context for access in references(expression)[0]}
    if lowering.setting.watched and read - {"matrix"} and read <= contexts and PREFIX not in node["name"]:
        set_variable(node, variable, node["name"])


def read_names(log: pathlib.Path, mark: str) -> Dict[str, str]:
    """The late names that the log of a step begins with, by their variables."""
    lines = first_bytes(log.parent, log.name, most=8192).decode("utf-8", "replace").split("\n")[1:3]
    signs = {f"{mark}+": JOB_NAME, f"{mark}-": STEP_NAME}
    return {variable: line[len(sign):]
            for line in lines for sign, variable in signs.items() if line.startswith(sign)}


def as_in_file(text: str) -> str:
    """A text of a plan as the workflow has it, where it was changed to see a stop."""
    for written, seen in SEEN.items():
        text = text.replace(seen, written)
    return text


def known_variables(lowering: Lowering, known: Dict[str, Any], *nodes: Any) -> Dict[str, str]:
    """The variables of a workflow, job and step whose values are known before execution."""
    found = {name: value for node in nodes for name, value in part(node, "env").items()}
    texts = {name: filled(lowering, value, known) if has_expression(value) else as_text(value)
             for name, value in found.items()}
    return {name: text for name, text in texts.items() if not has_expression(text)}


def filled(lowering: Lowering, text: str, known: Dict[str, Any]) -> str:
    """A name with the values of its expressions. If an expression reads something unknown, its known parts
    have values."""
    contexts = {**{name: lowering.contexts.get(name) or {} for name in EXPRESSION_CONTEXTS}, **known}

    def is_known(access: Access) -> bool:
        own = {name.lower() for name in known.get("env", {})}
        of_env = bool(access.keys) and access.keys[0].lower() in own
        return access.context in contexts and (access.context != "env" or of_env)

    def value(access: Access) -> Replacement:
        if not is_known(access):
            return None
        expression = access.context + "".join(f"[{literal(key)}]" for key in access.keys)
        return literal(lowering.value_of(expression, contexts)), len(access.keys)

    def piece(found: re.Match[str]) -> str:
        accesses, calls = references(found[1])
        try:
            if all(map(is_known, accesses)) and "hashfiles" not in calls:
                return as_text(lowering.value_of(found[1].strip(), contexts))
            return "${{" + rewrite(found[1], Rules(dict.fromkeys(contexts, value))) + "}}"
        except EvaluationError:
            return found[0]
    return PIECE.sub(piece, text)


def as_text(value: Any) -> str:
    """A value of an expression as a text, as programs get it."""
    if value is None or isinstance(value, bool):
        return {None: "", False: "false", True: "true"}[value]
    return "Array" if isinstance(value, list) else "Object" if isinstance(value, dict) else str(value)
