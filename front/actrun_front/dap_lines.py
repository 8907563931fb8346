"""Where the jobs and steps of a plan are in the YAML files of its workflows, and which of them a line
means."""
from __future__ import annotations

import os
import pathlib
from typing import Any

from . import Problem
from .explain import Lines
from .expressions import EvaluationError, Program
from .lower import Refused, Setting, lower
from .lower_tree import RUNNER
from .yaml_reader import read_document


class Workflow:
    """One file in YAML (or JSON) and the lines of its jobs and steps. Raises Problem if it cannot be read."""

    def __init__(self, path: pathlib.Path, program: str):
        self.path, self.program = path, Program(program)
        try:
            data = path.read_bytes()
        except OSError as fault:
            raise Problem(
                f"{path}: {fault.strerror}; `workflows` names the YAML files of the record's workflows"
            ) from None
        self.document = read_document(data)
        if self.document.faults:
            raise Problem(f"{path}:{self.document.faults[0].line}: {self.document.faults[0].text}")
        self.text = data.decode("utf-8").splitlines()
        self.name = self.document.value.get("name") if isinstance(self.document.value, dict) else None
        self.jobs = steps_by_job(self.document.value)
        places = [("jobs", job, "steps", at) for job, steps in self.jobs.items() for at in range(len(steps))]
        self.steps = {self.document.lines.get(place, 0) for place in places}
        self.lines = sorted({self.document.lines.get(("jobs", job), 0) for job in self.jobs} | self.steps)

    def rank(self, run: dict[str, Any]) -> tuple[int, int]:
        """How well a run fits: by its name, else by its jobs where the file has no name; (0, ..) is not at
        all."""
        shared = sum(job["id"] in self.jobs for job in run["jobs"])
        if self.name == run["flow"] or self.name is None and str(self.path).endswith("/" + run["flow"]):
            return 2, shared
        return int(self.name is None and shared > 0), shared

    def lines_of(self, run: dict[str, Any]) -> dict[tuple[int, int], int]:
        """The line of each job (with -1) and step of a run. Where the numbers of steps differ, those of the
        lowered workflow count."""
        found: dict[tuple[int, int], int] = {}
        lowered: tuple[Any, Lines] | None = None
        for job in run["jobs"]:
            steps, lines = self.jobs.get(job["id"]), self.document.lines
            if steps is None or len(steps) != len(job["steps"]):
                lowered = lowered or self.lowered(run)
                steps, lines = steps_by_job(lowered[0]).get(job["id"], []), lowered[1]
            found[job["number"], -1] = lines.get(("jobs", job["id"]), 1)
            if len(steps) == len(job["steps"]):
                found.update(
                    {(job["number"], at): lines[("jobs", job["id"], "steps", at)] for at in range(len(steps))}
                )
        return found

    def lowered(self, run: dict[str, Any]) -> tuple[Any, Lines]:
        """The workflow as `try` lowers it, and its lines."""
        tops = [
            folder
            for folder in self.path.parents
            if (folder / ".git").exists() or (folder / ".github").is_dir()
        ]
        setting = Setting(tops[0] if tops else self.path.parent, {**run["roots"], "runner": RUNNER},
                          evaluate=self.program.evaluate, legs=self.program.legs)
        try:
            done = lower(self.document, str(self.path), setting)
        except (Refused, EvaluationError, Problem, OSError):
            return {}, self.document.lines
        return done.value, done.lines

    def meant(self, line: int) -> int | None:
        """The line of the step that has this line in it, else that of the next step or job."""
        before = max((one for one in self.lines if one <= line), default=0)
        if before == line or before in self.steps and self.inside(before, line):
            return before
        return min((one for one in self.lines if one > line), default=None)

    def inside(self, step: int, line: int) -> bool:
        """Whether each line after that of a step, up to this one, is empty or indented as the step's text, at
        least."""
        indent = len(self.text[step - 1]) - len(self.text[step - 1].lstrip(" -"))
        return line <= len(self.text) and all(
            len(text) - len(text.lstrip()) >= indent or not text.strip() for text in self.text[step:line]
        )


def steps_by_job(value: Any) -> dict[str, list[Any]]:
    """The steps of each job of a workflow; a job without a list of steps has none."""
    jobs = value.get("jobs") if isinstance(value, dict) else None
    inner = (
        {job: one.get("steps") if isinstance(one, dict) else None for job, one in jobs.items()}
        if isinstance(jobs, dict)
        else {}
    )
    return {job: steps if isinstance(steps, list) else [] for job, steps in inner.items()}


def named_files(folder: pathlib.Path, names: list[str]) -> list[pathlib.Path]:
    """The files that `workflows` names; of a folder its *.yml and *.yaml files."""
    files: list[pathlib.Path] = []
    for name in names:
        path = pathlib.Path(os.path.abspath(folder / name))
        files += (
            sorted(it for it in path.iterdir() if it.suffix in (".yml", ".yaml")) if path.is_dir() else [path]
        )
    return files
