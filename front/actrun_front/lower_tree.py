"""What all lowerings share: the setting, the notes, what is known before execution, and changes of a
workflow's tree."""
from __future__ import annotations

import functools
import os
import pathlib
import re
from dataclasses import dataclass, field
from typing import Any, Callable, Dict, List, Optional, Set, Tuple

from stubs.one_stream import KEPT

from .expressions import (
    Access,
    EvaluationError,
    Program,
    Replacement,
    Rules,
    has_expression,
    known_keys,
    literal,
    lone_text,
    reads_only,
    references,
    rewrite_condition,
    rewrite_template,
)
from .hash_files import GlobError, digest
from .yaml_reader import Mark, Note, Refused, mark_of, members, short, text_of

# those that GitHub gives before execution and outside of steps
EXPRESSION_CONTEXTS = ("github", "inputs", "vars", "runner")
MOST_INLINED = 10_000
DEFAULTS = {name.decode() for name in KEPT}
RUNNER = {
    "os": "Linux",
    "arch": "X64",
    "name": "actrun",
    "temp": "/tmp",
    "tool_cache": "/opt/hostedtoolcache",
    "debug": "",
    "environment": "github-hosted",
}


@dataclass
class Setting:
    """What is known before execution."""
    repository: pathlib.Path  # the tree for hashFiles, local actions and called workflows
    contexts: Dict[str, Any] = field(default_factory=dict)  # github, inputs, vars, secrets, runner
    # (job id, variable) -> value that replaces an expression
    matrices: Dict[Tuple[str, str], Any] = field(default_factory=dict)
    any_system: bool = False  # execute legs for Windows and macOS too
    # the value of an expression; raises EvaluationError
    evaluate: Optional[Callable[[str, dict[str, Any]], Any]] = None
    # the combinations of a matrix; raises EvaluationError
    legs: Optional[Callable[[Any], List[dict[str, Any]]]] = None
    # how `container` and `services` are executed: "drop", "keep", or why they are refused
    containers: str = "drop"
    strict: bool = False  # refuse what GitHub refuses in called workflows
    sh_line: str = ""  # the words that every script of the shell sh begins with
    relay: str = ""  # the command that executes another one and carries out `::set-output` and the like
    actions: Any = None  # (action_sources.Actions) where actions of other repositories are
    watched: bool = False  # steps are watched and ended: variables give their limits of time
    staged: bool = False  # a strategy may be known only after other jobs
    needs: Dict[str, Dict[str, Any]] = field(default_factory=dict)  # job id -> its context `needs`, if known


class Lowering:
    """The lowering of one workflow: its setting, and the notes that it made. The program of ACTRUN_PROGRAM
    evaluates, if no other does."""

    def __init__(self, setting: Setting):
        program = Program(os.environ.get("ACTRUN_PROGRAM") or "actrun")
        self.setting = setting
        self.notes: Dict[Note, None] = {}
        self.foreign: List[Tuple[str, str]] = []
        self.guards: Set[str] = set()  # conditions that keep steps of such legs from being executed
        self.orders: Dict[str, List[str]] = {}  # job id -> variables of its matrix as they are written
        self.inlined = 0
        # (job id, variable): the places where a value could have been given
        self.asked: Set[Tuple[str, str]] = set()
        self.dockers: Dict[str, Any] = {}  # text of `uses` -> the Docker action of another repository
        self.without: Dict[str, str] = {}  # jobs -> what of them is dropped
        self.late: Dict[str, List[str]] = {}  # jobs whose strategy comes with others -> those that they need
        self.behind_calls: Set[Mark] = set()  # jobs whose success() looks at the results of calls
        self.value_of = setting.evaluate or program.evaluate
        # raises EvaluationError where the planner refuses a matrix
        self.combinations = setting.legs or program.legs
        self.workspace = str(
            (setting.contexts.get("github") or {}).get("workspace") or setting.repository.absolute()
        ).rstrip("/")
        runner = {
            **RUNNER,
            "workspace": os.path.dirname(self.workspace),
            **(setting.contexts.get("runner") or {}),
        }
        self.contexts = {**setting.contexts, "runner": runner}

    def note(self, mark: Mark, text: str) -> None:
        """Keeps a sentence about a line, once."""
        self.notes[Note(mark.line, f"{mark.inside}: {text}" if mark.inside else text)] = None

    def refuse(self, mark: Mark, text: str) -> Refused:
        """The error for a line; the caller raises it."""
        return Refused(mark.line, f"{mark.inside}: {text}" if mark.inside else text)

    def count(self, mark: Mark, number: int) -> None:
        """Counts what is inlined. Raises Refused if it is too much: a few files that use one another can
        result in millions of steps."""
        self.inlined += number
        if self.inlined > MOST_INLINED:
            raise self.refuse(mark, f"the workflow has more than {MOST_INLINED} jobs and steps once actions and called workflows are inlined")

    def evaluate(self, expression: str, more: Optional[dict[str, Any]] = None) -> Any:
        """The value of an expression over what is known before execution and `more`. Raises
        EvaluationError."""
        text = lone_text(expression)
        if text is not None:
            return text
        known = {**{name: self.contexts.get(name) or {} for name in EXPRESSION_CONTEXTS}, **(more or {})}
        if not reads_only(expression, known):
            raise EvaluationError("its value is known only during execution")
        return self.value_of(expression, known)

    def by_leg(self, expression: str, job: Any) -> List[Any]:
        """The values of an expression in the legs of a job; none if the planner refuses its matrix. Raises
        EvaluationError."""
        read = {
            access.keys[0] if access.keys else None
            for access in references(expression)[0]
            if access.context == "matrix"
        }
        matrix = part(job, "strategy").get("matrix")
        try:
            legs = self.combinations(matrix) if read and matrix is not None else [{}]
        except EvaluationError:
            return []
        return [
            self.evaluate(
                expression, {"matrix": {key: one for key, one in leg.items() if None in read or key in read}}
            )
            for leg in legs
        ]


def part(node: Any, key: str) -> Any:
    """The map at a key, or an empty one if there is none."""
    value = node.get(key) if isinstance(node, dict) else None
    return value if isinstance(value, dict) else {}


def is_set(value: Any) -> bool:
    """Whether a key of YAML has a value that says something."""
    return value not in (None, "", {}, [])


def steps_of(job: Any) -> List[Any]:
    """The steps of a job that are maps."""
    return [step for _, step in members(job.get("steps")) if isinstance(step, dict)]


def set_variable(node: Any, name: str, value: Any) -> None:
    """Adds a variable to a workflow, job or step. An `env` that is no map stays, for the planner to
    refuse."""
    env = node.get("env") or {}
    if isinstance(env, dict):
        env[name] = value
        node["env"] = env


def free_name(name: str, taken: Set[str]) -> str:
    """The name, made longer until it is none of those that are taken; then it is taken too."""
    while name in taken:
        name += "_"
    taken.add(name)
    return name


def texts(value: Any) -> List[str]:
    """The texts of a key that has one text or a list of texts, as `needs`."""
    return (
        [value]
        if isinstance(value, str)
        else [one for one in value if isinstance(one, str)]
        if isinstance(value, list)
        else []
    )


def shown(value: Any) -> str:
    """A value as a message shows it."""
    return short(value if isinstance(value, str) else text_of(value))


@functools.lru_cache(maxsize=None)
def digest_once(given: Tuple[str, ...], repository: pathlib.Path, workspace: str) -> str:
    """What hashFiles gives, read once: no file changes while workflows are rewritten, and many name the same
    ones."""
    return digest(list(given), repository, workspace)


class KnownContexts(Rules):
    """The rules for the texts of one step, of the job if there is no step, or of the workflow if there is no
    job."""

    def __init__(self, lowering: Lowering, job_id: str = "", action: str = "", runs_on: Any = None):
        super().__init__({"runner": self.runner, "github": self.github}, {"hashfiles": self.hash_files})
        self.lowering, self.of_runner = lowering, runner_of(runs_on)
        self.of_place = {"job": job_id, "action": action}

    def note(self, text: str) -> None:
        """Says what is rewritten where."""
        self.lowering.note(self.mark, text)

    def runner(self, access: Access) -> Replacement:
        """`runner.os` becomes the value that this machine has."""
        values = {
            key.lower(): value
            for key, value in {**self.lowering.contexts["runner"], **self.of_runner}.items()
        }
        value = literal(values.get(access.keys[0].lower()) if access.keys else values)
        self.note(
            f"`runner.{access.keys[0]}` is replaced by its value on this machine, {value}"
            if access.keys
            else "`runner` is replaced by its values on this machine"
        )
        return value, len(access.keys[:1])

    def github(self, access: Access) -> Replacement:
        """What differs by job or step, and the token."""
        key = access.keys[0].lower() if access.keys else ""
        if key == "token" and self.condition:
            self.note(
                "`github.token` in a condition is the one of the contexts: a condition reads no secrets"
            )
            return None
        value = (
            "secrets.GITHUB_TOKEN"
            if key == "token"
            else literal(self.of_place[key])
            if self.of_place.get(key)
            else None
        )
        if value is not None:
            self.note(f"`github.{key}` is replaced by " + (f"`{value}`" if key == "token" else value))
        return None if value is None else (value, 1)

    def hash_files(self, given: Optional[List[str]]) -> str:
        """A call of hashFiles becomes the digest of the files in the repository."""
        if given is None:
            raise self.lowering.refuse(
                self.mark,
                "hashFiles has no value before execution here: write its patterns as strings in quotes",
            )
        call, workspace = f"hashFiles({', '.join(map(literal, given))})", str(
            part(self.lowering.contexts, "github").get("workspace") or ""
        )
        try:
            value = digest_once(tuple(given), self.lowering.setting.repository, workspace)
        except (GlobError, OSError) as fault:
            raise self.lowering.refuse(self.mark, f"{call} has no value: {fault}") from None
        self.note(
            f"{call} is replaced by "
            + (
                f"the digest {value[:12]}.. of the repository's files"
                if value
                else "an empty string: no file matches"
            )
        )
        return literal(value)


def labels_of(runs_on: Any) -> List[str]:
    """The labels of `runs-on`."""
    return texts(runs_on.get("labels") if isinstance(runs_on, dict) else runs_on)


def runner_of(runs_on: Any) -> Dict[str, str]:
    """What `runner` has for these labels alone."""
    is_own = "self-hosted" in map(str.lower, labels_of(runs_on))
    return {"environment": "self-hosted"} if is_own else {}


def rewrite_texts(node: Any, rules: Rules, whole: bool = True) -> None:
    """Rewrites all texts of a workflow without its jobs, of a job without its steps, or of a step."""
    for key, value in members(node):
        rules.condition = whole and key == "if"
        if isinstance(value, str) and (rules.condition or has_expression(value)):
            rules.mark = mark_of(node, key)
            node[key] = rewrite_condition(value, rules) if rules.condition else rewrite_template(value, rules)
        elif not whole or key not in ("jobs", "steps"):
            rewrite_texts(value, rules, False)


def name_steps(job: Any) -> None:
    """Keeps GITHUB_ACTION of each step: its id, else `__run` or the action's name, with a number from the
    second on."""
    counts: Dict[str, int] = {}
    for step in steps_of(job):
        uses = step.get("uses") if isinstance(step.get("uses"), str) else "run"
        name = "__" + (
            "self"
            if uses.startswith(".")
            else re.sub(r"[^\w-]", "_", uses.replace("docker://", "").partition("@")[0])
        )
        counts[name] = counts.get(name, 0) + (not isinstance(step.get("id"), str))
        step.known_as = (
            step["id"]
            if isinstance(step.get("id"), str)
            else name
            if counts[name] == 1
            else f"{name}_{counts[name]}"
        )


def drop_default_variables(lowering: Lowering, flow: Any) -> None:
    """Takes variables of GitHub's runner out of each `env`: on GitHub they have no effect on what steps see.
    One that an expression reads stays; all others are null in the context `env`."""
    whole, jobs = text_of(flow).lower(), [job for job in flow["jobs"].values() if isinstance(job, dict)]
    nodes, read = [flow, *jobs, *(step for job in jobs for step in steps_of(job))], set()
    for node in nodes:
        for name in sorted(DEFAULTS & part(node, "env").keys()):
            if f"env.{name}".lower() in whole:
                read.add(name)
                continue
            del node["env"][name]
            lowering.note(
                mark_of(node, "env"),
                f"{name} is a variable of the runner, which no `env` changes, as on GitHub",
            )
    rules = Rules({"env": known_keys(dict.fromkeys(DEFAULTS - read, "null"))})
    for node in nodes:
        rewrite_texts(node, rules)


def set_default_variables(job_id: str, job: Any, flow: Any) -> None:
    """Adds GITHUB_JOB to a job's variables and GITHUB_ACTION to those of each step, where the workflow does
    not define them."""
    if "GITHUB_JOB" not in {**part(flow, "env"), **part(job, "env")}:
        set_variable(job, "GITHUB_JOB", job_id)
    for name, value in runner_of(job.get("runs-on")).items():
        set_variable(job, f"RUNNER_{name.upper()}", value)
    for step in steps_of(job):
        if "GITHUB_ACTION" not in {**part(flow, "env"), **part(job, "env"), **part(step, "env")}:
            set_variable(step, "GITHUB_ACTION", step.known_as)
