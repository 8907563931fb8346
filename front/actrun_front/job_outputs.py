"""Outputs of jobs that have a secret in them: as on GitHub they are not handed on, and a line says so."""
from __future__ import annotations

import threading
import time
from functools import partial
from pathlib import Path
from typing import TYPE_CHECKING, Any, Callable, Iterator, Mapping

from .dap_record import Board, board_of
from .expressions import Access, as_text, expression_of, has_expression, literal, references
from .late import Answer
from .late_hashes import OUTPUTS
from .lower_outputs import VARIABLE
from .masks import BEGIN, LEAST, Masks, forms, texts
from .relay import Ended

if TYPE_CHECKING:
    from .attempt import Trial
    from .present import Board as Steps, Leg

HIDDEN = "***"  # what the program puts in place of a secret in values, where the shim puts no veil there
LONGEST = 20_000  # bytes of an expression
PATIENCE, PAUSE = 10.0, 0.01  # seconds
DIRECT = ("secrets", "env", "inputs")  # contexts that have secrets as they are


def withhold(plan: dict[str, Any]) -> None:
    """Empties the outputs of jobs that have a secret in them, where the plan has secrets."""
    for run in plan["runs"]:
        named = run["roots"]["secrets"].items()
        secrets = {name: value for name, value in named if isinstance(value, str) and value}
        for job in run["jobs"] if secrets else ():
            job["outputs"] = {name: withheld(template, secrets) if has_expression(template) else template
                              for name, template in job["outputs"].items()}


def withheld(template: str, secrets: dict[str, str]) -> str:
    """The template of an output that is empty where its text has a secret in it, if that is not too long."""
    text = as_text(expression_of(template))
    named = secrets if {access.context for access in references(text)[0]}.intersection(DIRECT) else []
    found = [literal(HIDDEN), literal(BEGIN), *(f"secrets[{literal(name)}]" for name in named)]
    known = {form for value in secrets.values() for form in forms(value)} - set(secrets.values())
    encoded = sorted(form for form in known if len(form) >= LEAST)
    tests = [f"!contains({text}, {one})" for one in (*found, *map(literal, encoded))]
    fewer = (tests, tests[:len(found)], tests[:2])
    made = [f"${{{{ {' && '.join(some)} && {text} || '' }}}}" for some in fewer]
    return next((one for one in made if len(one.encode("utf-8", "replace")) <= LONGEST), template)


def outputs_read(template: str) -> Iterator[tuple[str, str]]:
    """The steps and their outputs that a template reads."""
    def is_output(access: Access) -> bool:
        return access.context == "steps" and len(access.keys) > 2 and access.keys[1].lower() == "outputs"
    accesses = filter(is_output, references(expression_of(template))[0])
    yield from ((access.keys[0].lower(), access.keys[2].lower()) for access in accesses)


def merged(plan: dict[str, Any]) -> set[int]:
    """The jobs of several legs whose outputs other jobs may read."""
    jobs = [job for run in plan["runs"] for job in run["jobs"]]
    needed = {number for job in jobs for number in job["needs"]}
    return {job["number"] for job in jobs
            if job["number"] in needed and job["outputs"] and len(job["legs"]) > 1}


class Merged:
    """What the legs of one job with a matrix have set so far. The program takes the outputs of the leg that
    ends last, so each one waits until the one before it has ended."""

    def __init__(self, ended: Ended) -> None:
        self.guard, self.ended = threading.Lock(), ended
        self.values: dict[str, str] = {}
        self.last: int | None = None  # the leg that has these values

    def add(self, values: Mapping[str, str]) -> None:
        """Adds the outputs of a leg that are not empty."""
        self.values.update(
            (name, value) for name, value in values.items() if value or name not in self.values
        )

    def answer(self, leg: int, variables: Mapping[bytes, bytes]) -> Answer:
        """The answer of the last step of a leg, by its variables."""
        given = {
            name.decode("utf-8", "replace"): value.decode("utf-8", "replace")
            for name, value in variables.items()
        }
        with self.guard:
            end = time.monotonic() + PATIENCE  # (that leg ends at once, unless the program does)
            while self.last not in (None, *self.ended.read()) and time.monotonic() < end:
                time.sleep(PAUSE)
            self.add(
                {name[len(VARIABLE) :]: value for name, value in given.items() if name.startswith(VARIABLE)}
            )
            self.last = leg
            return Answer({"kind": "exit", "code": 0, "outputs": dict(self.values), "env": {}}, b"")


def finders(trial: Trial) -> dict[tuple[int, int], Callable[[dict[bytes, bytes]], Answer]]:
    """What answers the last steps of legs that hand on outputs."""
    jobs: dict[int, Merged] = {}
    places: dict[tuple[int, int], Callable[[dict[bytes, bytes]], Answer]] = {}
    for leg in trial.legs:
        last = len(leg.job["steps"]) - 1
        if last < 0 or leg.job["steps"][last].get("id") != OUTPUTS:
            continue
        merged = jobs.setdefault(leg.job["number"], Merged(Ended(trial.part)))
        places[leg.number, last] = partial(merged.answer, leg.number)
        known = trial.known.get((leg.number, last))
        merged.add(known.answer.get("outputs", {}) if known else {})
    return places


def lost(legs: list[Leg], jobs: set[int], record: Path) -> Iterator[str]:
    """The lines of outputs that a leg left empty after another had set them. GitHub keeps the value of the
    other leg."""
    board = board_of(record) if jobs else Board()
    for job in sorted(jobs):
        own = [leg for leg in board.ends if legs[leg].job["number"] == job]
        for name in sorted({name for leg in own for name in board.legs[leg].outputs}):
            values = [board.legs[leg].outputs.get(name, "") for leg in own]
            if not values[-1] and any(values):
                yield (f"warning: job {legs[own[0]].job['id']}: its last leg left the output {name} empty, and jobs "
                       "that need it see that; on GitHub they see the value of another leg")


def warnings(plan: dict[str, Any], board: Steps) -> Iterator[str]:
    """The lines of outputs that were not handed on."""
    answers = board.steps.entries.read() if board.steps.entries else {}
    for leg in board.legs:
        masks = Masks(texts(plan["runs"][leg.run]["roots"]["secrets"]))
        if not masks.texts:
            continue
        steps = enumerate(leg.job["steps"])
        ids = {number: str(step["id"]).lower() for number, step in steps if step.get("id")}
        hidden = {(ids[number], name.lower()) for number in ids
                  for name, value in answers.get((leg.number, number), {}).get("outputs", {}).items()
                  if HIDDEN in value or BEGIN in value or masks.hide(value) != value}
        for name, template in leg.job["outputs"].items():
            if hidden.intersection(outputs_read(template)):
                yield f"warning: {leg.name}: Skip output '{name}' since it may contain secret."
