"""The workflows of an execution as they were: their text, and the names and lines of their jobs and steps.

`try` writes them into the file `workflows.json` next to its record.
"""
from __future__ import annotations

import json
import os
from dataclasses import asdict, dataclass, field
from pathlib import Path
from typing import TYPE_CHECKING, Any, Dict, List, Optional, Tuple

from .files import read_below
from .live_places import Known, Named, known_by_plan, known_in
from .lower import Lowered
from .lower_tree import part
from .planning import write_private
from .names import as_text
from .present import Leg
from .yaml_reader import MOST_BYTES, members

if TYPE_CHECKING:
    from .attempt import Trial

NAME = "workflows.json"
BEFORE, AFTER = 2, 8  # lines that are shown around one
MOST = 64 * MOST_BYTES


Outputs = Dict[str, Dict[str, Tuple[int, str]]]  # of jobs, by job and name: line and text


@dataclass
class KeptFlows:
    """The workflows of a record; without texts where nothing kept them."""
    known: Known
    top: str = ""                                                  # the folder of the repository
    runs: List[str] = field(default_factory=list)                  # the file of each run
    texts: Dict[str, str] = field(default_factory=dict)            # by these files
    outputs: List[Outputs] = field(default_factory=list)           # of each run
    envs: List[Dict[str, List[str]]] = field(default_factory=list)  # of each run: names by job, its own by ""
    conditions: Dict[int, Dict[int, str]] = field(default_factory=dict)  # of steps of actions, as written

    def place(self, leg: int, step: Optional[int] = None) -> tuple[str, int]:
        """File and line of a step or of a leg's job; line 0 where these are not known."""
        named = self.known.legs[leg]
        return named.file, (named.line if step is None else named.steps.get(step, (named.line,))[0]) or 0

    def output(self, run: int, job: str, name: str) -> str:
        """File and line of an output of a job, as they follow its text; nothing if they are not known."""
        found = self.outputs[run].get(job, {}).get(name) if run < len(self.outputs) else None
        return f"  [{self.runs[run]}:{found[0]}]" if found else ""

    def texts_of_outputs(self) -> dict[tuple[int, str, str], str]:
        """The texts of the outputs of jobs, by run, job and name."""
        return {(run, job, name): text for run, jobs in enumerate(self.outputs)
                for job, outputs in jobs.items() for name, (_, text) in outputs.items()}

    def condition(self, leg: int, step: int) -> str:
        """The condition of a step as it is written, where the front made another one of it."""
        return self.conditions.get(leg, {}).get(step, "")

    def is_of_workflow(self, run: int, job: str, name: str) -> bool:
        """Whether a variable of a job is written in the `env` of the workflow, which may be given to jobs."""
        envs = self.envs[run] if run < len(self.envs) else {}
        return name in envs.get("", ()) and name not in envs.get(job, [name])

    def changed(self, file: str) -> bool:
        """Whether today's file differs from the text that was kept."""
        try:
            folder, name = os.path.split(os.path.realpath(os.path.join(self.top, file)))
            today = read_below(folder, name, most=MOST_BYTES).decode("utf-8-sig", "replace")
        except OSError:
            return True
        return today != self.texts.get(file)

    def around(self, file: str, line: int) -> list[tuple[int, str]]:
        """The lines of the kept text around one, with their numbers."""
        lines = self.texts.get(file, "").splitlines()
        first = max(0, line - 1 - BEFORE)
        return list(enumerate(lines[first:line + AFTER], first + 1)) if 0 < line <= len(lines) else []


def keep(trial: Trial) -> None:
    """Writes what is kept of the workflows of an execution, for its owner alone."""
    known = known_in(trial)
    legs = [{**asdict(leg), "names": sorted(leg.names), "steps": {
        number: [line, sorted(names)] for number, (line, names) in leg.steps.items()}} for leg in known.legs]
    outputs = [outputs_of(flow.lowered) for flow in trial.flows]
    kept = {"top": str(trial.play.facts.top), "runs": [flow.name for flow in trial.flows], "legs": legs,
            "texts": {flow.name: flow.document.text for flow in trial.flows}, "outputs": outputs,
            "envs": [envs_of(flow.document.value) for flow in trial.flows],
            "conditions": {leg.number: conditions_of(trial, leg) for leg in trial.legs}}
    write_private(trial.room.private / NAME, json.dumps(kept, ensure_ascii=False))


def outputs_of(lowered: Lowered) -> Outputs:
    """The outputs of the jobs of a workflow."""
    found: Outputs = {}
    for job_id, job in members(part(lowered.value, "jobs")):
        for name, text in members(part(job, "outputs")):
            line = lowered.lines.get(("jobs", job_id, "outputs", name), 0)
            found.setdefault(job_id, {})[name] = line, as_text(text)
    return found


def conditions_of(trial: Trial, leg: Leg) -> dict[int, str]:
    """The conditions of those steps of a leg that are in actions, each with those of the actions."""
    found = {}
    for step in range(len(leg.job["steps"])):
        made = trial.find(leg.run, leg.job["id"], step)
        if made and made.is_shown:
            owners = [f"{owner.label}: {owner.condition}" for owner in made.owners if owner.condition]
            found[step] = "; ".join([made.condition or "none", *owners] if made.condition or owners else [])
    return found


def envs_of(value: Any) -> dict[str, list[str]]:
    """The names in the `env` of a workflow and of its jobs."""
    jobs = {str(name): list(part(job, "env")) for name, job in part(value, "jobs").items()}
    return {**jobs, "": list(part(value, "env"))}


def kept_flows(record: Path, legs: List[Leg]) -> KeptFlows:
    """The workflows that were kept next to a record; by its plan alone where none fit it."""
    try:
        kept = json.loads(read_below(record.parent, NAME, most=MOST))
        found = [named(one) for one in kept["legs"]]
        if [(one.leg, one.job) for one in found] == [(leg.number, leg.job["id"]) for leg in legs]:
            outputs = [{job: {name: (int(line), str(text)) for name, (line, text) in given.items()}
                        for job, given in jobs.items()} for jobs in kept["outputs"]]
            texts = {str(name): str(text) for name, text in kept["texts"].items()}
            lengths = {name: len(text.splitlines()) for name, text in texts.items()}
            envs = [{str(job): list(map(str, names)) for job, names in one.items()} for one in kept["envs"]]
            conditions = {int(leg): {int(step): str(text) for step, text in steps.items()}
                          for leg, steps in kept["conditions"].items()}
            runs = list(map(str, kept["runs"]))
            return KeptFlows(Known(found, lengths), str(kept["top"]), runs, texts, outputs, envs, conditions)
    except (OSError, ValueError, LookupError, TypeError, AttributeError):
        pass
    return KeptFlows(known_by_plan(legs))


def named(kept: dict[str, Any]) -> Named:
    """A leg as it was kept."""
    steps = {int(number): (line, frozenset(names)) for number, (line, names) in kept["steps"].items()}
    return Named(kept["leg"], kept["job"], kept["file"], kept["line"], frozenset(kept["names"]), steps)
