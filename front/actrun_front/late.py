"""Strategies that read outputs of other jobs: these jobs are executed first, then all is planned again.

The jobs that such a strategy needs are executed by a plan in which no other job begins. Its record has the
values, and the answers of steps. In the next execution a step whose answer is known is not started again: the
prelude gives its output, its files and its status. So the last record is one of the whole plan.
"""
from __future__ import annotations

import contextlib
import json
import os
import re
import secrets
from dataclasses import dataclass, field
from typing import TYPE_CHECKING, Any, Iterable, Tuple

from . import Problem
from .contexts import Play
from .dap_record import Board, Record, board_of
from .execute import program
from .files import first_bytes, names
from .planning import Flow, plan_flows
from .present import Leg, Screen, legs_of
from .tree import remove

if TYPE_CHECKING:
    from .attempt import Trial

Place = Tuple[str, str, int, int]  # workflow, job's id, number of the leg in the job, step
MOST_LOG = 1 << 24
OF_STEPS = ("files", "stubs", "bin")  # folders in which the front writes before steps begin, and steps too
KEPT = re.compile(r"([a-z]+)-(\d+)((?:-\d+)?)")  # files of legs and steps


class Once(Screen):
    """A screen that shows each note, warning and error once, since each stage has them again."""

    def __init__(self, screen: Screen) -> None:
        self.__dict__ = screen.__dict__
        self.seen: set[str] = self.__dict__.setdefault("seen", set())

    def tell(self, text: str, kind: str = "") -> None:
        """A line of standard error, unless it was shown."""
        if not kind or text not in self.seen:
            super().tell(text, kind)
        self.seen.add(text)


@dataclass
class Answer:
    """How a step ended in an earlier stage."""

    answer: dict[str, Any]                     # as its entry has it
    log: bytes
    cause: str = ""                            # why it was ended, if it was
    snapshot: bytes = b""                      # of the workspace after it


@dataclass
class Stages:
    """What the stages before the last one found."""

    answers: dict[Place, Answer] = field(default_factory=dict)
    numbers: dict[tuple[str, str, int], int] = field(default_factory=dict)  # of legs, in the stage before
    timed_out: bool = False
    count: int = 0
    by_hand: list[str] = field(default_factory=list)  # what a person did at breaks, in all stages
    prompt: Any = None                         # of the breaks
    earlier: Any = None                        # an execution whose steps are not all executed again
    call: Any = None                           # how `try` was called
    store: Any = None                          # of snapshots
    control: Any = None                        # by which editors stop legs

    def known(self, flows: list[Flow], legs: list[Leg]) -> dict[tuple[int, int], Answer]:
        """The answers by numbers of legs and steps of a plan."""
        by_leg: dict[tuple[str, str, int], list[tuple[int, Answer]]] = {}
        for (flow, job, index, step), answer in self.answers.items():
            by_leg.setdefault((flow, job, index), []).append((step, answer))
        return {(leg.number, step): answer
                for place, leg in places(flows, legs) for step, answer in by_leg.get(place, ())}


def places(flows: list[Flow], legs: list[Leg]) -> Iterable[tuple[tuple[str, str, int], Leg]]:
    """Each leg behind its workflow, its job's id and its number in the job."""
    counts: dict[int, int] = {}
    for leg in legs:
        counts[leg.job["number"]] = counts.get(leg.job["number"], -1) + 1
        yield (flows[leg.run].name, leg.job["id"], counts[leg.job["number"]]), leg


def plan_of_stage(flows: list[Flow], plan: dict[str, Any]) -> tuple[dict[str, Any], list[tuple[int, str]]]:
    """The plan of the next stage, and the jobs whose strategies are known after it, by run and id. Only the
    jobs that these need, directly or not, begin in it."""
    begun: set[int] = set()
    ready: list[tuple[int, str]] = []
    for run, flow in enumerate(flows):
        jobs = {job["id"]: job for job in plan["runs"][run]["jobs"]}
        ids = {job["number"]: name for name, job in jobs.items()}
        for late, needs in flow.lowered.late.items():
            closure = [name for name in needs if name in jobs]
            for name in closure:
                closure += [ids[need] for need in jobs[name]["needs"] if ids[need] not in closure]
            if not any(waits_for(name, other) for name in closure for other in flow.lowered.late):
                ready.append((run, late))
                begun |= {jobs[name]["number"] for name in closure}
    stage = json.loads(json.dumps(plan))
    for job in (job for run in stage["runs"] for job in run["jobs"]):
        if job["number"] not in begun:
            job["condition"] = "false"
    return stage, ready


def waits_for(name: str, late: str) -> bool:
    """Whether a job is one whose strategy is not known, or one of the workflow that it calls."""
    return name == late or name.startswith(f"{late}__")


def results(plan: dict[str, Any], board: Board) -> dict[int, dict[str, Any]]:
    """Result and outputs of each job, as the context `needs` has them."""
    legs = legs_of(plan)
    own = {job: [leg.number for leg in legs if leg.job["number"] == job] for job in range(len(board.jobs))}
    return {job: {"result": board.result(job, found), "outputs": board.outputs(found)}
            for job, found in own.items()}


def take_answers(stages: Stages, trial: Trial) -> None:
    """Adds the answers of the record of a stage, with the logs."""
    legs = {leg.number: place for place, leg in places(trial.flows, trial.legs)}
    stages.numbers = {place: number for number, place in legs.items()}
    record = Record(program(), trial.record.read_bytes())
    for leg, rows in enumerate(record.done):
        for step, place in enumerate(rows):
            answer = record.entries[place].get("answer")
            if answer and (leg, step) not in trial.board.quiet:
                text = first_bytes(trial.room.play, f"step-{leg}-{step}.log", most=MOST_LOG)
                log = re.sub(rb"\A(?:%s[^\n]*\n)*" % trial.board.mark.encode(), b"", text)  # (the prelude's)
                cause, snapshot = trial.board.cause(leg, step), trial.snapshots.get((leg, step), b"")
                stages.answers[(*legs[leg], step)] = Answer(answer, log, cause, snapshot)


def pairs(values: dict[str, str]) -> str:
    """The text of a file of outputs or variables with these values."""
    end = f"end_{secrets.token_hex(16)}"
    return "".join(f"{name}<<{end}\n{value}\n{end}\n" for name, value in values.items())


def tell_answers(stages: Stages, trial: Trial) -> dict[tuple[int, int], Answer]:
    """The answers of steps that are not executed again. Without a sandbox, writes what the prelude gives in
    their place."""
    known: dict[tuple[int, int], Answer] = stages.earlier.known(trial) if stages.earlier else {}
    known.update(stages.known(trial.flows, trial.legs))
    trial.board.quiet = set(known)
    trial.board.told = {place: answer.cause for place, answer in known.items() if answer.cause}
    for (leg, step), answer in known.items() if trial.options.no_sandbox else ():
        folder = trial.told / f"known-{leg}-{step}"
        folder.mkdir()
        of_exit = answer.answer["kind"] == "exit"
        (folder / "out").write_bytes(pairs(answer.answer["outputs"]).encode() if of_exit else b"\xff\n")
        (folder / "env").write_bytes(pairs(answer.answer.get("env", {})).encode() if of_exit else b"")
        (folder / "code").write_text(str(answer.answer["code"] if of_exit else 1), encoding="utf-8")
        (folder / "log").write_bytes(answer.log)
    return known


def renew(stages: Stages, trial: Trial) -> None:
    """Makes the folders new in which the front writes: steps could have put links there. What legs wrote
    stays."""
    old_names = {number: place for place, number in stages.numbers.items()}
    new_numbers = {place: leg.number for place, leg in places(trial.flows, trial.legs)}
    play, aside = trial.room.play, trial.room.folder / "aside"
    aside.mkdir(mode=0o700)
    for name in OF_STEPS:
        with contextlib.suppress(FileNotFoundError):
            os.rename(play / name, aside / name)
        (play / name).mkdir(mode=0o700)
    for old, leg in ((old, new_numbers.get(place)) for old, place in old_names.items()):
        for name in names(aside, "files", str(old)) if leg is not None else ():
            found = KEPT.fullmatch(name)
            if found and int(found[2]) == old:
                (play / "files" / str(leg)).mkdir(exist_ok=True)
                new = play / "files" / str(leg) / f"{found[1]}-{leg}{found[3]}"
                new.write_bytes(first_bytes(aside, "files", str(old), name, most=MOST_LOG))
    remove(aside)


def execute_stages(trial: Trial, picked: list[Flow], play: Play, screen: Screen) -> tuple[Trial, bool]:
    """The execution of the whole plan, after its stages were executed; with False a stage that was
    stopped."""
    stages, kind, screen = trial.stages, type(trial), Once(screen)
    while any(flow.lowered.late for flow in trial.flows):
        plan, ready = plan_of_stage(trial.flows, trial.plan)
        if not ready:
            jobs = ", ".join(job for flow in trial.flows for job in flow.lowered.late)
            raise Problem(f"the strategies of {jobs} wait for one another")
        stages.count += 1
        jobs = ", ".join(job for _, job in ready)
        text = f"note: stage {stages.count}: what the strategy of {jobs} needs is executed first"
        screen.tell(text, "note")
        stage = kind(trial.flows, play, plan, screen, stages)
        if stage.perform() > 1 or stage.execution.signals:
            return stage, False
        stage.part.unlink(missing_ok=True)
        take_answers(stages, stage)
        stages.timed_out |= stage.board.ender.timed_out
        found = results(plan, board_of(stage.record))
        for run, late in ready:
            flow = trial.flows[run]
            numbers = {job["id"]: job["number"] for job in plan["runs"][run]["jobs"]}
            needs = {name: found[numbers[name]] for name in flow.lowered.late[late] if name in numbers}
            play.needs.setdefault(flow.name, {})[late] = needs
        stage.record.replace(stage.record.with_name(f"record-{stages.count}"))
        flows, plan = plan_flows(picked, play, screen)
        trial = kind(flows, play, plan, screen, stages)
    return trial, True
