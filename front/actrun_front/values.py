"""What a frame sees: contexts and variables from the plan and the board, conditions by their parts, names
that do not exist.

The values of expressions come from `actrun eval`.
"""
from __future__ import annotations

import difflib
import functools
from dataclasses import dataclass, field
from typing import Any, Iterator

from .dap_logs import Masks
from .dap_record import Board, Record
from .expressions import (PIECE, Access, EvaluationError, Program, Replacement, Rules, condition_expression,
                          has_expression, literal, names_status, references, rewrite, template_expression,
                          tokens)
from .late_hashes import PREFIX
from .names import as_text

OF_LEG, OF_STEP = {"needs", "strategy", "matrix"}, {"job", "steps", "env"}
STATUS = {"success": "success", "failure": "failure", "cancelled": "cancelled"}
COMPARED = {"==", "!=", "<", "<=", ">", ">="}
LONGEST = 60  # characters of a value in a condition
MOST_NAMES = 6
NOT_YET = "has not ended here"
DEEPEST = 5   # expressions through which a name that does not exist is followed


@dataclass(frozen=True)
class Frame:
    """A frame of a stack: a run, above it a leg of a job, above that a step of the leg."""
    run: int
    leg: int | None = None
    step: int | None = None


@dataclass(frozen=True)
class Shown:
    """A value with a text of its own, a word on where it comes from, and what is inside."""
    text: str
    origin: str = ""
    inside: Any = None


@dataclass
class Part:
    """A part of a condition: as it is written, with the values of what it reads, and its own value if it was
    evaluated."""
    text: str
    filled: str = ""
    value: Any = None
    known: bool = False
    fault: str = ""
    parts: list[Part] = field(default_factory=list)

    @property
    def holds(self) -> bool | None:
        """Whether its value counts as true; None if it is not known."""
        return bool(self.value) or isinstance(self.value, (list, dict)) if self.known else None


@dataclass
class Read:
    """What an expression reads: its name, its value, what is said of a name that does not exist, and what the
    value comes from."""
    name: str
    value: Any
    said: str = ""
    inside: list[Read] = field(default_factory=list)
    missing: bool = False

    def faults(self) -> Iterator[Read]:
        """The names in it that do not exist."""
        yield from [self] if self.missing else []
        for one in self.inside:
            yield from one.faults()


class Surroundings:
    """What a frame sees at a place, with all secrets hidden; if it is `plain` they are not, for a caller that
    hides what it shows."""

    def __init__(self, record: Record, board: Board, program: Program, masks: Masks, frame: Frame,
                 plain: bool = False,
                 outputs: dict[tuple[int, str, str], str] | None = None):
        self.record, self.board, self.program, self.masks, self.frame = record, board, program, masks, frame
        self.plain = plain
        self.written = outputs or {}  # outputs of jobs, by run, job and name, as the workflow has them
        self.run = record.plan["runs"][frame.run]
        if frame.leg is not None:
            self.leg = record.legs[frame.leg]
            self.job, self.stand = self.leg.job, board.legs[frame.leg]
            self.fellows = record.legs_of[self.job["number"]]

    def contexts(self, level: int = 2, env: dict[str, Any] | None = None) -> dict[str, Any]:
        """The contexts of an env of the run (level 0), of the job (1), or of the step (2), as far as the
        frame has that level."""
        roots = self.run["roots"]
        event = {} if self.run["event"] is None else {"event_name": self.run["event"]}
        found = {"github": {**roots["github"], "workflow": self.run["flow"], **event},
                 "inputs": roots["inputs"], "vars": roots["vars"]}
        secrets = {name: "***" for name in roots["secrets"]}
        if level >= 1 and self.frame.leg is not None:
            total = len(self.fellows)
            found["needs"] = self.needs()
            found["strategy"] = {"fail-fast": self.job["fail_fast"],
                                 "job-index": self.fellows.index(self.frame.leg),
                                 "job-total": total, "max-parallel": self.job["max_parallel"] or total}
            found["matrix"] = self.leg.values
        if level >= 2 and self.frame.step is not None:
            found["job"] = {"status": self.status()} if self.status() else {}
            found["steps"] = {plan["id"]: {"outputs": done.outputs, "outcome": done.outcome,
                                           "conclusion": done.conclusion}
                              for plan, done in zip(self.job["steps"], self.stand.steps) if plan["id"]}
            found["env"] = env or {}
        if self.plain:
            return {**found, "secrets": roots["secrets"]}
        return {**self.masks.hide(found), "secrets": secrets}

    def needs(self) -> dict[str, Any]:
        """Of each direct need that has ended its result and its outputs, those of its legs in the order in
        which they ended."""
        found = {}
        for number in self.job["needs"]:
            result = self.result(number)
            if result:
                outputs = self.board.outputs(self.record.legs_of[number])
                found[self.record.jobs[number][1]["id"]] = {"result": result, "outputs": outputs}
        return found

    def result(self, number: int) -> str:
        """How a job ended; nothing if it has not."""
        return self.board.result(number, self.record.legs_of[number])

    def job_status(self) -> str:
        """How the jobs are that the job needs, directly or not: what its condition sees."""
        first, needed = self.record.jobs, list(self.job["needs"])
        for number in needed:
            needed += [need for need in first[number][1]["needs"] if need not in needed]
        results = {self.result(number) for number in needed}
        if self.board.runs[self.frame.run].stop:
            return "cancelled"
        return "failure" if "failure" in results else "success" if results <= {"success"} else "none"

    def status(self) -> str | None:
        """How the leg is; None in a run that is to stop, where the board does not say whether the job goes
        on."""
        failed = any(self.board.legs[leg].state == "ended failure" for leg in self.fellows
                     if leg != self.frame.leg)
        stopped = self.board.runs[self.frame.run].stop
        if self.stand.stop or self.stand.state == "ended cancelled" or self.job["fail_fast"] and failed:
            return "cancelled"
        if stopped:
            return None if self.job["condition"] else "cancelled"
        return "failure" if any(done.conclusion == "failure" for done in self.stand.steps) else "success"

    def variables(self) -> dict[str, Shown]:
        """The variables of the frame and where each was set: its step's stand over those that done steps set,
        then job and workflow."""
        found: dict[str, Shown] = {}
        self.lay(found, self.run["env"], self.contexts(0), "env of the workflow")
        if self.frame.leg is not None:
            self.lay(found, self.job["env"], self.contexts(1), "env of the job")
        if self.frame.step is not None:
            for at, done in enumerate(self.stand.steps):
                found.update({name: Shown(text, f"set by {self.record.name('step', self.leg.number, at)}")
                              for name, text in done.variables.items()})
            contexts = self.contexts(2, {name: one.text for name, one in found.items()})
            self.lay(found, self.job["steps"][self.frame.step]["env"], contexts, "env of the step")
        return found

    def lay(self, found: dict[str, Shown], env: dict[str, Any], contexts: dict[str, Any],
            origin: str) -> None:
        """Lays the variables of one env over those that are there."""
        templates = [value for value in env.values() if has_expression(value)]
        known = dict(zip(templates, self.many(list(map(template_expression, templates)), contexts)))
        for name, value in env.items():
            if not isinstance(value, str) or value not in known:
                found[name] = Shown(as_text(value), origin)
            elif isinstance(known[value], EvaluationError):
                found[name] = Shown("", f"{origin}: {value} has no value: {known[value]}")
            else:
                found[name] = Shown(as_text(known[value]), f"{origin}: {value}")

    def many(self, expressions: list[str], contexts: dict[str, Any]) -> list[Any]:
        """The values of expressions, asked for at once; an EvaluationError in place of one that has none."""
        self.program.ask_together([(one, contexts) for one in expressions] if len(expressions) > 1 else [])
        return [self.one(one, contexts) for one in expressions]

    def one(self, expression: str, contexts: dict[str, Any]) -> Any:
        """The value of an expression; an EvaluationError where it has none."""
        try:
            return self.program.evaluate(expression, contexts)
        except EvaluationError as fault:
            return fault

    def all_contexts(self) -> dict[str, Any]:
        """All contexts of the frame, with `env` in that of a step."""
        if self.frame.step is None:
            return self.contexts()
        return self.contexts(2, {name: one.text for name, one in self.variables().items()})

    def evaluate(self, text: str) -> tuple[Any, list[str]]:
        """The value of an expression here, and sentences on what is missing. Raises EvaluationError."""
        expression = template_expression(text) if has_expression(text) else text
        accesses, calls = references(expression)
        used = {access.context for access in accesses}
        unseen = {*(OF_LEG if self.frame.leg is None else ()), *(OF_STEP if self.frame.step is None else ())}
        notes = [f"{name} is empty in this frame: choose that of a step" for name in sorted(used & unseen)]
        notes += [f"{name} is not in a record, and empty here" for name in sorted(used & {"runner", "jobs"})]
        notes += ["secrets are never shown: each is *** here"] if "secrets" in used else []
        if calls & set(STATUS) or "job" in used:
            of_job = self.job_status() if self.plain and self.frame.leg is not None else None
            status = of_job if self.frame.step is None else self.status()
            if status is None:
                raise EvaluationError(
                    "the status is not known here: choose the frame of a step, in a run that "
                    "was not told to stop"
                )
            values = {name: str(one == status).lower() for name, one in STATUS.items()}
            expression = rewrite(expression, constants(values))
        if expression in ("true", "false"):
            return expression == "true", notes
        contexts = self.all_contexts() if "env" in used else self.known
        if [name_of(access) for access in accesses if access.context in contexts] == [expression]:
            return value_of(accesses[0], contexts), notes
        seen = {name: value for name, value in contexts.items() if name in used}
        return self.program.evaluate(expression, seen), notes

    # Conditions

    def condition(self, condition: str | None, held: bool | None = None) -> Part:
        """A condition by its parts, as far as it is evaluated. It may be known whether it held."""
        expression = condition_expression(condition) or "success()"
        return self.part(expression if names_status(expression) else f"success() && ({expression})", held)

    def part(self, text: str, held: bool | None = None) -> Part:
        """A part of a condition, with those that decide it. It may be known whether it held."""
        text = peeled(text.strip())
        parts = tokens(text) or []
        for operator, end in (("||", True), ("&&", False)):
            operands = split_at(parts, {operator})
            if len(operands) > 1:
                return self.chain(text, operands, end, held)
        if held is not None and len(split_at(parts, COMPARED)) > 1:
            return Part(text, self.filled(text), held, True)
        if parts[:1] == [("operator", "!")] and len(split_at(parts, COMPARED)) == 1:
            inner = self.part(text[1:])
            return Part(text, value=not inner.holds, known=inner.known, fault=inner.fault, parts=[inner])
        part = Part(text, self.filled(text))
        try:
            part.value, part.known = self.evaluate(text)[0], True
        except EvaluationError as fault:
            part.fault = str(fault)
        return part

    def chain(self, text: str, operands: list[str], end: bool, held: bool | None) -> Part:
        """The parts of `&&` or `||` up to the one that decides, then the others without a value."""
        found: list[Part] = []
        for operand in operands:
            is_last = len(found) == len(operands) - 1 and all(part.known for part in found)
            found.append(self.part(operand, held if is_last or held is not end else None))
            if found[-1].holds is end or not found[-1].known and not self.program.collects:
                break
        last = found[-1]
        rest = map(Part, operands[len(found):])
        return Part(text, value=last.value, known=last.known, fault=last.fault, parts=[*found, *rest])

    def filled(self, text: str) -> str:
        """An expression with the values of what it reads."""
        accesses, calls = references(text)

        def rule(access: Access) -> Replacement:
            return self.literal(name_of(access)), len(access.keys)
        rules = constants({name: self.literal(f"{name}()") for name in calls & set(STATUS)})
        rules.contexts = {access.context: rule for access in accesses}
        return rewrite(text, rules)

    def literal(self, text: str) -> str:
        """The value of an expression as one is written, not too long; the expression itself where it has
        none."""
        try:
            value = self.masks.hide(self.evaluate(text)[0])
        except EvaluationError:
            return text
        found = as_text(value) if isinstance(value, (list, dict)) else literal(value)
        return found if len(found) <= LONGEST else f"{found[:LONGEST - 4]}...'"

    # What is read, and what does not exist

    def reads(self, expressions: list[str], depth: int = 0) -> list[Read]:
        """What expressions read, each name once."""
        accesses = [access for one in expressions for access in references(one)[0]]
        return self.read([access for access in dict.fromkeys(accesses) if not is_of_front(access)], depth)

    def read(self, accesses: list[Access], depth: int = 0) -> list[Read]:
        """What names give; of one that is empty also why."""
        return [self.read_one(access, depth) for access in accesses]

    @functools.cached_property
    def known(self) -> dict[str, Any]:
        """All contexts of the frame but `env`."""
        return self.contexts()

    def read_one(self, access: Access, depth: int) -> Read:
        """What a name gives."""
        try:
            value = self.evaluate(name_of(access))[0]
        except EvaluationError as fault:
            return Read(name_of(access), None, str(fault))
        if access.context == "secrets" and value:
            return Read(name_of(access), "***")
        found = Read(name_of(access), value)
        if value is None and access.context not in ("runner", "jobs"):
            found.said = self.lacking(access)
            found.missing = bool(found.said) and not found.said.endswith(NOT_YET)
        elif value == "" and depth < DEEPEST:
            found.said, found.inside = self.source(access, depth + 1)
        return found

    def lacking(self, access: Access) -> str:
        """Which part of a name does not exist, and what there is; nothing if all exists."""
        value: Any = self.all_contexts().get(access.context)
        path = access.context
        for key in access.keys:
            if not isinstance(value, dict):
                return ""
            known = next((name for name in value if name.lower() == key.lower()), None)
            if known is None:
                return self.alternatives(access, path, key, list(value))
            value, path = value[known], f"{path}.{known}"
        return ""

    def alternatives(self, access: Access, path: str, key: str, names: list[str]) -> str:
        """What there is in place of a name that does not exist."""
        if path == "steps":
            steps = enumerate(self.job["steps"] if self.frame.leg is not None else ())
            later = {step["id"]: at for at, step in steps if step["id"]}
            if key in later:
                return f"step {later[key]} ({key}) {NOT_YET}"
            names = list(later)
        if path == "needs":
            jobs = {job["id"]: number for number, (run, job) in enumerate(self.record.jobs)
                    if run == self.frame.run}
            if key in jobs and self.frame.leg is not None:
                if jobs[key] in self.job["needs"]:
                    return f"job {jobs[key]} ({key}) {NOT_YET}"
                return f"the job does not need {key}: add it to `needs`"
            names = names or [self.record.jobs[number][1]["id"] for number in self.job["needs"]]
        if path == "secrets":
            return f"no secret {key} was given: `try -s {key}` gives it"
        skipped = self.undone(access) if path.startswith("steps.") and path.endswith(".outputs") else ""
        near = difflib.get_close_matches(key, names, 1)
        listed = near or names[:MOST_NAMES]
        more = ", .." if not near and len(names) > MOST_NAMES else ""
        there = f"it has {', '.join(f'`{name}`' for name in listed)}{more}" if listed else "it is empty"
        return f"{path} has no `{key}`: {there}{skipped}"

    def undone(self, access: Access) -> str:
        """That the step which an access names did not succeed."""
        for at, (plan, done) in enumerate(zip(self.job["steps"], self.stand.steps)):
            if plan["id"] and plan["id"].lower() == access.keys[0].lower() and done.outcome != "success":
                return f" (step {at}: {done.outcome})"
        return ""

    def source(self, access: Access, depth: int) -> tuple[str, list[Read]]:
        """Where an empty value comes from: an output of a job, or a variable; and what that reads."""
        keys = [key.lower() for key in access.keys]
        if access.context == "needs" and len(keys) == 3 and keys[1] == "outputs":
            return self.of_output(keys[0], access.keys[2], depth)
        if access.context == "env" and keys:
            values = [env[name] for env in self.envs() for name in env if name.lower() == keys[0]]
            if values and has_expression(values[0]):
                return f"`env`: {values[0]}", self.reads(PIECE.findall(values[0]), depth)
        return "", []

    def envs(self) -> list[dict[str, Any]]:
        """The `env` of the step, of the job and of the workflow, as far as the frame has them."""
        found = [self.job["steps"][self.frame.step]["env"]] if self.frame.step is not None else []
        return found + ([self.job["env"]] if self.frame.leg is not None else []) + [self.run["env"]]

    def of_output(self, job: str, name: str, depth: int) -> tuple[str, list[Read]]:
        """The text of an output of a job, and what that reads in a leg of it."""
        for number, (run, plan) in enumerate(self.record.jobs):
            key = next((key for key in plan["outputs"] if key.lower() == name.lower()), None)
            if run == self.frame.run and plan["id"].lower() == job and key is not None:
                text = self.written.get((run, plan["id"], key), str(plan["outputs"][key]))
                said = f"output `{name}` of job {number} ({plan['id']}): {text}"
                ended = [leg for leg in self.board.ends if leg in self.record.legs_of[number]]
                if not ended:
                    return said, []
                around = self.of_leg(ended[-1])
                return said + around.withheld(text), around.reads(PIECE.findall(text), depth)
        return "", []

    def withheld(self, text: str) -> str:
        """That an output is empty because it has a secret, where its text has a value."""
        try:
            value = as_text(self.evaluate(template_expression(text))[0])
            return ": it is withheld, since its value has a secret" if value else ""
        except EvaluationError as fault:
            return f": it has no value: {fault}"

    def of_leg(self, leg: int) -> Surroundings:
        """What the outputs of a leg's job see."""
        steps = len(self.record.legs[leg].job["steps"])
        frame = Frame(self.record.legs[leg].run, leg, steps - 1 if steps else None)
        return Surroundings(self.record, self.board, self.program, self.masks, frame, self.plain,
                            self.written)


def syntax_fault(program: str, expression: str) -> str:
    """What is wrong with an expression that cannot be read, whatever the contexts are; nothing where it can
    be."""
    try:
        Program(program).evaluate(rewrite(expression, constants(dict.fromkeys(STATUS, "true"))), {})
    except EvaluationError as fault:
        return str(fault) if str(fault).startswith("expr ") else ""
    return ""


def constants(values: dict[str, str]) -> Rules:
    """The rules that replace calls by values."""
    def constant(text: str, _: list[str] | None) -> str:
        return text
    return Rules(calls={name: functools.partial(constant, text) for name, text in values.items()})


def is_of_front(access: Access) -> bool:
    """Whether the front wrote an access: of a variable, or of the digest that replaces hashFiles."""
    key = access.keys[0] if access.keys else ""
    return (
        access.context == "env"
        and key.startswith("ACTRUN_")
        or access.context == "steps"
        and key.startswith(PREFIX)
    )


def value_of(access: Access, contexts: dict[str, Any]) -> Any:
    """The value of a name in contexts."""
    value = contexts.get(access.context)
    for key in access.keys:
        inner = value.items() if isinstance(value, dict) else ()
        value = next((one for name, one in inner if name.lower() == key.lower()), None)
    return value


def name_of(access: Access) -> str:
    """An access as an expression."""
    keys = (f".{key}" if key.replace("-", "_").isidentifier() else f"[{literal(key)}]" for key in access.keys)
    return access.context + "".join(keys)


def opened(kind: str, text: str) -> int:
    """By how much a token opens more parentheses and brackets than it closes."""
    if kind == "call":
        return 0 if text.endswith(")") else 1
    return (text in ("(", "[")) - (text in (")", "]")) if kind == "operator" else 0


def split_at(parts: list[tuple[str, str]], operators: set[str]) -> list[str]:
    """The operands of operators that are in no parentheses."""
    depth, found = 0, [""]
    for kind, text in parts:
        if depth == 0 and kind == "operator" and text in operators:
            found.append("")
            continue
        depth += opened(kind, text)
        found[-1] += text
    return [one.strip() for one in found]


def peeled(text: str) -> str:
    """An expression without the parentheses around the whole of it."""
    parts = tokens(text) or []
    depths, depth = [], 0
    for kind, one in parts:
        depth += opened(kind, one)
        depths.append(depth)
    closed = next((at for at, one in enumerate(depths) if one == 0), -1)
    if parts[:1] == [("operator", "(")] and closed == len(parts) - 1:
        return peeled(text[1:-1].strip())
    return text
