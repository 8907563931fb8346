"""The result of an execution as one object of JSON: runs, jobs, legs and steps by the last board."""
from __future__ import annotations

from typing import TYPE_CHECKING, Any

from .dap_record import FILTER_OF, Record
from .explain import remedies
from .written import job_of

if TYPE_CHECKING:
    from .attempt import Trial
    from .present import Leg

VERSION = 1
ENDED = ("success", *FILTER_OF)
# where no workflow is started
NOTHING = {"version": VERSION, "runs": [], "record": None, "page": None, "logs": None}


class Results:
    """What came of an execution; of one without a record what its plan has."""

    def __init__(self, trial: Trial, record: Record | None) -> None:
        self.trial, self.record = trial, record
        self.parts = record.parts if record else {}
        text = trial.times.read_text(encoding="ascii") if trial.times.exists() else ""
        self.clock = list(map(int, text.split()))

    def object(self, page: str) -> dict[str, Any]:
        """The object."""
        trial = self.trial
        return {"version": VERSION, "runs": [self.run(number) for number in range(len(trial.flows))],
                "record": str(trial.record) if self.record else None, "page": page or None,
                "logs": str(trial.room.play)}

    def run(self, number: int) -> dict[str, Any]:
        """A run with its jobs that the user wrote."""
        run, flow = self.trial.plan["runs"][number], self.trial.flows[number]
        parts = [(job, flow.lowered.parts.get(("jobs", job["id"]))) for job in run["jobs"]]
        jobs = [self.job(job, job_of(job, part)) for job, part in parts if not part or part.is_shown]
        return {"run": number, "file": flow.name, "name": flow.run_name or run["flow"],
                "result": self.trial.board.results.get(number), "jobs": jobs}

    def job(self, job: dict[str, Any], name: str) -> dict[str, Any]:
        """A job with its legs."""
        legs = [self.leg(leg) for leg in self.trial.legs if leg.job is job]
        return {"job": name, "result": self.result(f"job {job['number']}"), "legs": legs}

    def leg(self, leg: Leg) -> dict[str, Any]:
        """A leg with its steps that the user wrote, or that failed."""
        part, board = self.parts.get(f"leg {leg.number}"), self.trial.board
        steps = [number for number in range(len(leg.job["steps"]))
                 if not board.is_made(leg.number, number)
                 or self.result(f"step {leg.number} {number}") == "failure"]
        return {"leg": leg.number, "name": leg.name, "matrix": leg.values,
                "without": self.trial.flows[leg.run].lowered.without.get(leg.job["id"]),
                "tolerated": bool(part and part.tolerated), "result": self.result(f"leg {leg.number}"),
                "steps": [self.step(leg, number) for number in steps]}

    def step(self, leg: Leg, number: int) -> dict[str, Any]:
        """A step."""
        record, cause = self.record, self.trial.board.cause(leg.number, number)
        result = self.result(f"step {leg.number} {number}")
        begun = record is not None and number < len(record.begins[leg.number])
        code = took = None
        if record and begun:
            begin, end = record.begins[leg.number][number], record.done[leg.number][number]
            code = record.entries[end].get("answer", {}).get("code")
            took = self.clock[end] - self.clock[begin] if end > begin and len(self.clock) > end else None
        # (a step that began and has no result did not end before the program did)
        if result == "failure" and cause.startswith("stopped by ") or begun and not result:
            result = "interrupted"
        part = self.parts.get(f"step {leg.number} {number}")
        if part and result == "failure" and code is None and not cause:
            cause = "".join(remedies([str(part.cause.get("error"))]))
        return {"step": number, "name": self.trial.board.name(leg.number, number), "result": result,
                "exit": code, "cause": cause or None, "milliseconds": took}

    def result(self, words: str) -> str | None:
        """How a part ended, a step before continue-on-error; None where it did not, or never began."""
        part = self.parts.get(words)
        return part.state if part and part.fact and part.state in ENDED else None
