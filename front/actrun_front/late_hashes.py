"""hashFiles of files that steps may have made: a step before the one that names it computes the digests.

The program's expressions have no such call, and the files are known only then. So the call becomes an output
of the new step, which has the variables and the condition of the other one, and shows nothing unless it
fails.
"""
from __future__ import annotations

import re
from typing import Any, Dict, List, Tuple

from .expressions import (
    PIECE,
    Rules,
    as_text,
    condition_expression,
    expression_of,
    grouped,
    has_expression,
    known_keys,
    names_status,
    rewrite,
    tokens,
)
from .lower_tree import Lowering, free_name, part, steps_of
from .yaml_reader import Map, Sequence, mark_of

PREFIX = "actrun_hash_"  # of the ids of these steps
OUTPUTS = "actrun_outputs"  # and of those that hand on the outputs of a job with a matrix
HARMLESS = re.compile(r"actions/(setup-[\w-]+|upload-artifact)(@|$)", re.IGNORECASE)
CHECKOUT = re.compile("actions/checkout(@|$)", re.IGNORECASE)
OF_OTHER_FILES = {"path", "ref", "repository", "sparse-checkout", "submodules"}  # inputs of checkout
EMPTY, REPOSITORY, UNKNOWN = "none", "those of the repository", "any"
LITERAL = re.compile(r"'(?:[^']|'')*'")
CALL = re.compile(r"hashfiles\s*\(", re.IGNORECASE)
KEYS = ("if", "run", "env", "with")


def is_hidden(step: Dict[str, Any]) -> bool:
    """Whether a step of a plan was added here, or for outputs."""
    return (step.get("id") or "").startswith((PREFIX, OUTPUTS))


def with_calls(text: str, steps: List[Dict[str, Any]]) -> str:
    """A text of a plan with the calls in place of what became of them; `steps` are those of its job."""
    if PREFIX not in text:
        return text
    given = {step["id"]: step["env"] for step in steps if is_hidden(step)}

    def call(found: re.Match[str]) -> str:
        patterns = given.get(found[1], {}).get(f"ACTRUN_HASH_{found[2]}", "").split("\n")
        pieces = [(PIECE.fullmatch(one), one) for one in patterns]
        return f"hashFiles({', '.join(piece[1].strip() if piece else repr(one) for piece, one in pieces)})"
    return re.sub(rf"steps\.({PREFIX}\d+)\.outputs\.h(\d+)", call, text)


def add_hashes(lowering: Lowering, job: Any) -> None:
    """Adds such a step before each one of a job that names hashFiles, unless its value is known before
    execution."""
    if not lowering.setting.watched or "container" in job.marks or not isinstance(job["steps"], list):
        return
    taken = {step["id"] for step in steps_of(job) if isinstance(step.get("id"), str)}
    made = Sequence(mark=mark_of(job, "steps"))
    files = EMPTY
    for at, step in enumerate(job["steps"]):
        before = None
        if isinstance(step, dict) and names_hash(step):
            one = Hashing(step, f"{PREFIX}{sum(name.startswith(PREFIX) for name in taken)}")
            before = None if files == REPOSITORY and one.is_literal() else one.before()
        if before:
            free_name(before["id"], taken)
            lowering.note(mark_of(step), "hashFiles is evaluated when its step begins, by a step before it")
            made.marks[len(made)] = mark_of(job["steps"], at)
            made.append(before)
        made.marks[len(made)] = mark_of(job["steps"], at)
        made.append(step)
        files = files_after(step, files)
    job["steps"] = made


def files_after(step: Any, files: str) -> str:
    """What files the workspace has after a step."""
    uses = step.get("uses") if isinstance(step, dict) else None
    name = uses if isinstance(uses, str) else ""
    if files == EMPTY and CHECKOUT.match(name) and not OF_OTHER_FILES & part(step, "with").keys():
        return REPOSITORY
    return files if HARMLESS.match(name) else UNKNOWN


def names_hash(value: Any, top: bool = True) -> bool:
    """Whether a step, or a value in it, calls hashFiles."""
    if isinstance(value, dict):
        return any(names_hash(inner, False) for key, inner in value.items() if not top or key in KEYS)
    return isinstance(value, str) and CALL.search(value) is not None


def calls_of(expression: str) -> Tuple[str, List[List[str]]]:
    """An expression with `{N}` in place of each call of hashFiles, and the arguments of each."""
    parts, at, new = tokens(expression) or [("wrong", expression)], 0, ""
    found: List[List[str]] = []
    while at < len(parts):
        kind, text = parts[at]
        at += 1
        if kind != "call" or not CALL.match(text):
            new += text
            continue
        if text.endswith(")"):
            inner = tokens(text[text.index("(") + 1:-1]) or []
        else:
            inner, depth = [], 1
            while at < len(parts) and depth:
                depth += parts[at][1].endswith("(") - (parts[at][1] in (")", "]")) + (parts[at][1] == "[")
                inner += [parts[at]] if depth else []
                at += 1
        arguments, depth = [""], 0
        for kind, word in inner:
            depth += word.endswith("(") + (word == "[") - (word in (")", "]"))
            if word == "," and not depth:
                arguments.append("")
            else:
                arguments[-1] += word
        new += f"\0{len(found)}\0"
        found.append([one.strip() for one in arguments if one.strip()])
    return new, found


class Hashing:
    """The calls of one step, whose texts read outputs of a step before it."""

    def __init__(self, step: Any, identity: str) -> None:
        self.step, self.identity = step, identity
        self.own: List[List[str]] = []         # the arguments of each call

    def is_literal(self) -> bool:
        """Whether all arguments are texts in quotes."""
        texts = texts_of({key: self.step[key] for key in KEYS if key in self.step})
        return all(LITERAL.fullmatch(one) for text in texts for call in calls_of(text)[1] for one in call)

    def expression(self, expression: str) -> str:
        """An expression with outputs in place of its calls."""
        text, found = calls_of(expression)
        for number, arguments in enumerate(found):
            self.own.extend([arguments] if arguments not in self.own else [])
            text = text.replace(
                f"\0{number}\0", f"steps.{self.identity}.outputs.h{self.own.index(arguments)}"
            )
        return text

    def text(self, value: Any, condition: bool = False) -> Any:
        """A text of the step, or a map of such, with outputs in place of its calls."""
        if isinstance(value, dict):
            for key, inner in value.items():
                value[key] = self.text(inner)
            return value
        if not names_hash(value) or not (condition or has_expression(value)):
            return value
        if not has_expression(value):
            return self.expression(value)
        return PIECE.sub(lambda it: "${{" + self.expression(it[1]) + "}}", value)

    def before(self) -> Any:
        """Rewrites the step, and gives the one before it; None if no call is in an expression."""
        step, condition, name = self.step, self.step.get("if"), step_title(self.step)
        env = {key: value for key, value in part(step, "env").items() if not names_hash(value)}
        for key in KEYS:
            if key in step:
                step[key] = self.text(step[key], key == "if")
        if not self.own:
            return None
        name = self.text(name)
        if "uses" not in step or "name" in step:
            step["name"] = name
        made = Map(
            {
                "id": self.identity,
                "name": f"hashFiles of {name}",
                "shell": "bash",
                "working-directory": ".",
                "run": 'eval "$ACTRUN_HASHER"\n',
                "env": {**env, **self.patterns(env)},
            },
            mark_of(step),
        )
        if names_hash(condition):
            made["if"] = "always()" if names_status(condition_expression(condition)) else "success()"
        elif condition is not None:
            made["if"] = condition
        if "continue-on-error" in step:
            made["continue-on-error"] = step["continue-on-error"]
        made.known_as = step.known_as
        return made

    def patterns(self, env: Dict[str, Any]) -> Dict[str, str]:
        """The variables with the patterns of each call, a line each, where the step's own variables are
        written out."""
        own = {name: grouped(as_text(expression_of(value))) for name, value in env.items()}
        rules = Rules({"env": known_keys(own)})
        return {f"ACTRUN_HASH_{at}": "\n".join("${{ " + rewrite(one, rules) + " }}" for one in call)
                for at, call in enumerate(self.own)}


def step_title(step: Any) -> str:
    """The step's name, else the first line of what it does."""
    text = next((step[key] for key in ("name", "run", "uses") if isinstance(step.get(key), str)), "")
    return next((line.strip() for line in text.splitlines() if line.strip()), "")


def texts_of(value: Any) -> List[str]:
    """The expressions in a value that call hashFiles."""
    if isinstance(value, dict):
        return [text for inner in value.values() for text in texts_of(inner)]
    if not names_hash(value):
        return []
    return [text for text in PIECE.findall(value) if CALL.search(text)] if has_expression(value) else [value]
