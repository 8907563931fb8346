"""Matrices by expression, variables by one expression, and legs that are for another system."""
from __future__ import annotations

import json
import re
from typing import Any, List, Optional

from .expressions import (PIECE, EvaluationError, condition_expression, conjunction, has_expression, literal,
                          reads_only, references, template_expression)
from .lower_numbers import fold_numbers, loads, no_values
from .lower_tree import EXPRESSION_CONTEXTS, Lowering, is_set, labels_of, part, shown, steps_of, texts
from .yaml_reader import Map, Mark, Refused, Sequence, mark_of, members

FOREIGN = ("windows", "macos")
KINDS = {
    "strategy": (object, "anything"),
    "fail-fast": (bool, "true or false"),
    "max-parallel": (int, "an integer"),
    "matrix": (dict, "a mapping"),
}


def lower_strategy(lowering: Lowering, job_id: str, job: Any, staged: bool = True) -> None:
    """Puts values in place of the expressions of a job's strategy. One that is known only after other jobs is
    left out until then, and one that turns out to be wrong then lets the job fail. Without `staged` it is
    refused."""
    fold_numbers(lowering, job.get("strategy"), no_values, False)
    known, was_late = staged and job_id in lowering.setting.needs, job_id in lowering.late
    try:
        decide_strategy(lowering, job_id, job, texts(job.get("needs")) if staged else None)
        if known and part(job, "strategy").get("matrix") is not None:
            lowering.combinations(job["strategy"]["matrix"])
    except (Refused, EvaluationError) as fault:
        if not known:
            raise
        fail_late(job_id, job, str(getattr(fault, "text", fault)))
    if job_id in lowering.late and not was_late:
        lowering.late[job_id] = texts(job.get("needs"))
        job.pop("strategy", None)


def fail_late(job_id: str, job: Any, why: str) -> None:
    """Puts a step that fails in place of those of a job whose strategy has no value after the jobs it
    needs."""
    why = why.replace("'", "\u2019").replace("\n", " ")
    text = f"::error::the strategy of job {job_id} has no value: {why}"
    script, mark = f"echo '{text.replace('${{', '$ {{')}'; exit 1", mark_of(job, "strategy")
    job.pop("strategy", None)
    job["steps"] = Sequence([Map({"name": "strategy", "run": script, "shell": "bash"}, mark)], mark)


def decide_strategy(lowering: Lowering, job_id: str, job: Any, needed: Optional[List[str]]) -> None:
    """Puts values in place of the expressions of a strategy. Outputs of the jobs in `needed` may come
    later."""
    decide(lowering, job_id, job, "strategy", needed)
    strategy = part(job, "strategy")
    for key in ("fail-fast", "max-parallel", "matrix"):
        decide(lowering, job_id, strategy, key, needed)
    matrix = part(strategy, "matrix")
    for variable in list(matrix):
        decide(lowering, job_id, matrix, variable, needed)
        if variable in ("include", "exclude") and not matrix[variable]:
            del matrix[variable]


def decide(lowering: Lowering, job_id: str, node: Any, key: str, needed: Optional[List[str]]) -> None:
    """Puts the value of `--matrix` in place of a member, else values in place of the expressions in it.
    Refuses one of another kind."""
    mark, given = mark_of(node, key), lowering.setting.matrices
    lowering.asked.add((job_id, key))
    if (job_id, key) in given:
        node[key] = loads(json.dumps(given[job_id, key]))
        lowering.note(mark, f"{key} of job {job_id} is {shown(given[job_id, key])}, as --matrix gives it")
    elif key in node:
        node[key] = decided(lowering, job_id, key, node[key], mark, needed)
    if needed is not None and job_id in lowering.late:
        return
    kind, wanted = KINDS.get(key, (list, "a list"))
    value = node.get(key)
    if isinstance(value, str) and kind in (bool, int) and re.fullmatch("true|false|[0-9]+", value):
        value = node[key] = value == "true" if value in ("true", "false") else int(value[:20])
    if value is not None and (not isinstance(value, kind) or kind is int and isinstance(value, bool)):
        name = f"{key} in the matrix" if key not in KINDS else key
        raise lowering.refuse(mark, f"{name} of job {job_id} is {shown(value)}, but has to be {wanted}")


def decided(lowering: Lowering, job_id: str, name: str, value: Any, mark: Mark,
            needed: Optional[List[str]]) -> Any:
    """A value with the values of the expressions in it."""
    if has_expression(value):
        expression = template_expression(value.strip())
        if needed and is_late(lowering, job_id, name, expression, mark, needed):
            return value
        needs = lowering.setting.needs.get(job_id) if needed else None
        try:
            found = lowering.evaluate(expression, None if needs is None else {"needs": needs})
        except EvaluationError as fault:
            if needs is not None:
                raise
            raise lowering.refuse(mark, f"{name} of job {job_id} is {shown(value)}, and cannot be evaluated before execution ({fault}); "
                                        f"give its value by --matrix {job_id}.{name}=JSON") from None
        lowering.note(mark, f"{name} of job {job_id} is evaluated before execution: {shown(found)}")
        return found
    for key, inner in members(value) if name not in KINDS else ():
        value[key] = decided(lowering, job_id, name, inner, mark_of(value, key), needed)
    return value


def is_late(lowering: Lowering, job_id: str, name: str, expression: str, mark: Mark,
            needed: List[str]) -> bool:
    """Whether the value of an expression of a strategy comes with the jobs that its job needs, but not
    yet."""
    read = [access.keys[:1] for access in references(expression)[0] if access.context == "needs"]
    if not lowering.setting.staged or job_id in lowering.setting.needs or not read or \
            any(key not in needed for keys in read for key in keys) or \
            not reads_only(expression, {*EXPRESSION_CONTEXTS, "needs"}):
        return False
    text = shown("${{ " + expression + " }}")
    lowering.note(mark, f"{name} of job {job_id} is {text}: it is known after the jobs that this one needs, "
                        "which are executed first")
    lowering.late[job_id] = []
    return True


def lower_env(lowering: Lowering, node: Any, job: Any) -> None:
    """Writes the variables of a workflow, job or step one by one, where one expression gives all of them."""
    text, mark = node.get("env"), mark_of(node, "env")
    if not has_expression(text):
        return
    expression = template_expression(text.strip())
    try:
        values = [value if isinstance(value, dict) else {} for value in lowering.by_leg(expression, job)]
    except EvaluationError as fault:
        raise lowering.refuse(
            mark,
            f"env is {shown(text)}, and cannot be evaluated before execution ({fault}); "
            "write its variables one by one",
        ) from None
    names = sorted({name for value in values for name in value})
    node["env"] = {name: "${{ (" + expression + ")[" + literal(name) + "] }}" for name in names}
    missing = [name for name in names if any(name not in value for value in values)]
    lowering.note(
        mark,
        f"env is {shown(text)}: its variables {', '.join(names) or '(none)'} are written one by one"
        + (f"; {', '.join(missing)}, which some legs do not have, is empty there" if missing else ""),
    )


def lower_system(lowering: Lowering, job_id: str, job: Any) -> None:
    """Puts a condition before each step of a job with legs for another system."""
    mark, runs_on = mark_of(job, "runs-on"), job.get("runs-on")
    if lowering.setting.any_system or not is_set(runs_on):
        return
    joined = "".join(" " + PIECE.sub(lambda it: "${{ join(" + it[1].strip() + ", ' ') }}", label)
                     for label in labels_of(runs_on))
    expression = template_expression(joined)
    condition, everywhere = " && ".join(f"!contains({expression}, ' {name}')" for name in FOREIGN), False
    try:
        found = lowering.by_leg(expression, job)
        foreign = sorted(
            {text.strip() for text in found if any(" " + name in text.lower() for name in FOREIGN)}
        )
        if not foreign:
            return
        lowering.foreign += [(job_id, name) for name in foreign]
        lowering.note(
            mark, f"no step of job {job_id} is executed on {', '.join(foreign)}: this machine has Linux"
        )
        everywhere = {text.strip() for text in found} == set(foreign)
    except EvaluationError:
        lowering.note(mark, f"the system of job {job_id} is known only during execution: its steps are skipped on Windows and macOS")
    lowering.guards.add(condition)
    for step in steps_of(job):
        step["if"] = False if everywhere else conjunction(condition, condition_expression(step.get("if")))
