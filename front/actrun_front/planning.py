"""From the files of a repository to a plan: which workflows an event starts, what they become, and what the
program plans of them."""
from __future__ import annotations

import json
import os
import subprocess
from dataclasses import dataclass, field, replace
from pathlib import Path
from typing import Any

from . import Problem, syntax
from .actions import named_program
from .containers import lacks as lacks_engine, missing as missing_engine
from .contexts import Play, contexts, excluded, triggers
from .environment import SH_HOOK
from .execute import ask
from .explain import explain, near
from .files import read_inside
from .lower_legs import match_needs, sorted_legs
from .lower_containers import needs_engine
from .lower import Lowered, Refused, Setting, lower
from .lower_tree import part, steps_of, texts
from .named_secrets import named_secrets
from .notes import lines as note_lines
from .old_commands import RELAY
from .options import unknown_matrix
from .present import Screen, one_line
from .repository import is_below
from .yaml_reader import MOST_BYTES, Document, Note, copied, read_document


@dataclass
class Flow:
    """A workflow: its file, its text, and its plan or error."""

    name: str                                   # the file from the top of the repository
    document: Document
    contexts: dict[str, Any] = field(default_factory=dict)
    lowered: Lowered = field(default_factory=lambda: Lowered({}, {}))
    file: Path = Path()                         # of the lowered workflow, which the program reads

    def __post_init__(self) -> None:
        self.jobs = part(self.document.value, "jobs")      # as they are in the file
        match_needs(self.jobs)
        self.events = triggers(self.document.value)

    @property
    def run_name(self) -> str:
        """The workflow's `run-name` with values, or nothing."""
        name = self.lowered.value.get("run-name") if isinstance(self.lowered.value, dict) else None
        return name if isinstance(name, str) else ""

    def notes(self) -> list[Note]:
        """What is said of the file and of what was rewritten in it."""
        return sorted({*self.document.notes, *self.lowered.notes}, key=lambda note: note.line)


def workflow_files(given: str | None, bases: list[Path], top: Path) -> list[Path]:
    """The files of workflows, in the order of their names."""
    places = [base / given for base in bases] if given else [top / ".github" / "workflows"]
    for place in places:
        if not given and place.exists() and not is_below(place, top):
            raise Problem(f"{place}: a link of it leads to {place.resolve()}, outside of the repository: name that by --workflows PATH")
        files = (
            [place]
            if place.is_file()
            else sorted(
                path for path in place.glob("*") if path.suffix in (".yml", ".yaml") and path.is_file()
            )
        )
        if files:
            return files
    looked = ", ".join(dict.fromkeys(map(str, places)))
    raise Problem(f"there is no workflow: a file or a directory with *.yml or *.yaml was expected at {looked}: name one by "
                  "--workflows PATH, or the repository by --directory DIR")


def read_flows(files: list[Path], top: Path, screen: Screen, lenient: bool = False) -> list[Flow]:
    """The workflows of these files without those that have faults, which are shown with line and remedy. At
    least one is without. With `lenient` what GitHub alone refuses is a warning."""
    flows, more = [], ""
    for path in files:
        real = path.parent.resolve() / path.name
        name = real.relative_to(top.resolve()).as_posix() if top.resolve() in real.parents else str(path)
        document = read_file(path, top)
        faults = [f"{name}:{fault.line}: {fault.text}" for fault in document.faults]
        if not faults and not isinstance(document.value, dict):
            faults = [f"{name}:1: a workflow with `on` and `jobs` was expected"]
        refused = (
            [] if faults else [f"{name}:{fault.line}: {fault.text}" for fault in syntax.faults(document)]
        )
        for fault in refused if lenient else ():
            screen.tell(f"warning: {fault}: GitHub rejects this workflow", "warning")
        faults += [] if lenient else refused
        more = more or ("; --lenient executes what GitHub rejects, if it can" if refused else "")
        for fault in faults:
            screen.tell(fault, "failure")
        flows += [] if faults else [Flow(name, document)]
    if not flows:
        raise Problem(f"no workflow can be read: repair one, or choose others by --workflows PATH{more}")
    if len(flows) < len(files):
        screen.tell(f"note: {len(files) - len(flows)} of {len(files)} workflows cannot be read: the others are executed, and the status is 2", "warning")
    return flows


def read_file(path: Path, top: Path) -> Document:
    """The document of a workflow's file. A file of the repository is read where no link leads out of it; one
    that was named elsewhere as it is."""
    given = path.absolute()
    inside = (
        top if given == top or top in given.parents or is_below(given.parent, top) else path.resolve().parent
    )
    try:
        return read_document(read_inside(inside, path, MOST_BYTES))
    except OSError as error:
        return Document(faults=[Note(1, f"this file is not read: {error.strerror}")])


def of_event(flows: list[Flow], event: str, job: str | None, screen: Screen) -> list[Flow]:
    """The workflows of the event, with --job those that have the job."""
    picked = [flow for flow in flows if event in flow.events]
    having = [flow for flow in flows if job in flow.jobs]
    if job is None and not picked:
        events = sorted({name for flow in flows for name in flow.events})
        raise Problem(
            f"no workflow is for the event {event}; there are: {', '.join(events)}: name one of these"
            if events
            else f"no workflow names an event: write `on: {event}` into {' or '.join(flow.name for flow in flows)}"
        )
    if job is not None and not having:
        raise Problem(f"--job {job}: no workflow has that job; there are: {', '.join(sorted({name for flow in flows for name in flow.jobs}))}")
    both = picked if job is None else [flow for flow in having if flow in picked]
    if not both:
        screen.tell(
            f"note: no workflow of the event {event} has the job {job}: it is executed anyway", "note"
        )
    return both or having


def plan_flows(flows: list[Flow], play: Play, screen: Screen) -> tuple[list[Flow], dict[str, Any]]:
    """The workflows without those that cannot be planned, which are shown with line and remedy, and the plan.
    At least one can be."""
    lowered, faults = lower_flows(flows, play, screen)
    notes = ((flow.name, note) for flow in lowered for note in flow.notes())
    for text in note_lines(notes, bool(play.options.verbose)):
        screen.tell(text, "note")
    answer = ask_plan(lowered, play) if lowered else None
    if answer and answer.returncode == 2:
        answers = [(flow, ask_plan([flow], play)) for flow in lowered]
        faults += [why_unplanned([flow], one, play) for flow, one in answers if one.returncode == 2]
        lowered = [flow for flow, one in answers if one.returncode != 2]
        answer = ask_plan(lowered, play) if lowered else None
    if not answer:
        raise Problem("\n".join(faults))
    for fault in faults:
        screen.tell(fault, "failure")
    if faults:
        screen.tell(f"note: {len(faults)} of {len(flows)} workflows cannot be planned: the others are executed, and the status is 2", "warning")
    check_names(flows, play)
    if answer.returncode != 0:
        raise Problem(why_unplanned(lowered, answer, play), answer.returncode)
    if (
        lowered[0].contexts["github"]["event"].keys() == {"repository", "sender"}
        and play.event != "workflow_call"
        and play.payload is None
    ):
        screen.tell(f"note: github.event of {play.event} has only repository and sender: --eventpath FILE names a whole payload", "note")
    plan = json.loads(answer.stdout)
    for run, flow in zip(plan["runs"], lowered):
        for job in run["jobs"]:
            job["legs"] = sorted_legs(job["legs"], flow.lowered.orders.get(job["id"], []))
        run["roots"] = {name: flow.contexts[name] for name in ("github", "inputs", "secrets", "vars")}
        run["roots"]["secrets"] = named_secrets(run, flow.contexts["secrets"])
    return lowered, plan


def lower_flows(flows: list[Flow], play: Play, screen: Screen) -> tuple[list[Flow], list[str]]:
    """The workflows that can be lowered, and the faults of the others."""
    lowered: list[Flow] = []
    faults: list[str] = []
    for flow in flows:
        try:
            lower_flow(flow, len(lowered), play, screen)
            lowered.append(flow)
        except Refused as refused:
            faults.append(f"{flow.name}:{refused.line}: {refused.text}")
    return lowered, faults


def plan_words(flows: list[Flow], play: Play) -> list[str]:
    """The command that plans lowered workflows."""
    return [
        "plan",
        *(["--job", play.options.job] if play.options.job else ["--event", play.event]),
        *map(str, (flow.file for flow in flows)),
    ]


def ask_plan(flows: list[Flow], play: Play) -> subprocess.CompletedProcess[str]:
    """What the program answers to that command."""
    return ask(*plan_words(flows, play))


def why_unplanned(flows: list[Flow], answer: subprocess.CompletedProcess[str], play: Play) -> str:
    """The last line of an answer that is no plan, and what explains it."""
    line = (answer.stderr.strip().splitlines() or [f"actrun: plan ended with {answer.returncode}"])[-1]
    command, *words = plan_words(flows, play)
    more = explain(line, command, words, {str(flow.file): (flow.name, flow.lowered.lines) for flow in flows})
    for flow in flows:  # (what the person knows)
        line = line.replace(str(flow.file), flow.name)
    return "\n".join(filter(None, [line.removeprefix("actrun: "), more]))


def check_names(flows: list[Flow], play: Play) -> None:
    """Refuses an option of the command line that names what no workflow has, and an input that none
    declares."""
    unknown = set(map(str.lower, play.options.inputs)) - {
        name.lower() for flow in flows for name in flow.contexts["inputs"]
    }
    if unknown:
        raise Problem(f"--input {min(unknown)}: no workflow declares this input for the event {play.event}")
    # of a workflow that cannot be lowered, or left out by --job
    left = {
        name: job
        for flow in flows
        for name, job in flow.jobs.items()
        if name not in part(flow.lowered.value, "jobs")
    }
    given = [one for one in play.options.line.matrix if one[0][0] not in left]
    wrong = unknown_matrix(given, {place for flow in flows for place in flow.lowered.asked})
    if wrong:
        raise Problem(wrong)
    jobs = [*left.values(), *(job for flow in flows for job in part(flow.lowered.value, "jobs").values())]
    users = [user for job in jobs if isinstance(job, dict) for user in (job, *steps_of(job))]
    actions = sorted({user["uses"] for user in users if isinstance(user.get("uses"), str)})
    for action, named in play.options.line.stub:
        if not any(named_program(text, {action: named}) for text in actions):
            raise Problem(f"--stub {action}={named}: no workflow of the event {play.event} uses this action{near(action, actions)}")


def chosen(flow: Flow, job: str | None) -> Document:
    """The workflow's document, with --job only that job and those that it needs, directly or not."""
    if job is None or job not in flow.jobs:
        return flow.document
    kept = [job]
    for name in kept:
        kept += [
            need
            for need in texts(part(flow.jobs, name).get("needs"))
            if need in flow.jobs and need not in kept
        ]
    value = copied(flow.document.value)
    for name in flow.jobs.keys() - set(kept):
        del value["jobs"][name]
    return replace(flow.document, value=value)


def lower_flow(flow: Flow, number: int, play: Play, screen: Screen) -> None:
    """Lowers one workflow into a file that the program reads, and shows what was rewritten. Raises
    Refused."""
    room, options = play.room, play.options
    flow.contexts = contexts(play, flow.name, flow.document.value)
    flow.contexts["github"]["event_path"] = str(room.play / "files" / f"event-{number}.json")
    top = room.files if room.files.exists() and not room.files.is_symlink() else play.facts.top
    setting = Setting(
        top,
        flow.contexts,
        options.matrices,
        bool(options.any_system),
        containers=engine_state(flow, options, top),
        sh_line=SH_HOOK,
        relay=RELAY,
        actions=play.actions,
        watched=True,
        staged=True,
        needs=play.needs.get(flow.name, {}),
        strict=not options.lenient,
    )
    flow.lowered = lower(chosen(flow, options.job), flow.name, setting)
    filtered = excluded(play, flow.events.get(play.event), flow.contexts["github"])
    if filtered:
        screen.tell(
            f"note: {flow.name}: on GitHub its filter would keep it from this event ({filtered})", "note"
        )
    value, flow.file = flow.lowered.value, room.private / f"{number}.json"
    write_private(
        flow.file,
        json.dumps({"name": flow.name, **value} if isinstance(value, dict) else value, ensure_ascii=False),
    )


def engine_state(flow: Flow, options: Any, top: Path) -> str:
    """How containers and services of a workflow are executed: the word for the lowering, or why they are
    refused."""
    if options.list or options.dryrun or options.graph or not needs_engine(flow.jobs, top):
        return "keep"
    why = lacks_engine(options)
    return "drop" if why and options.lenient else missing_engine(why) if why else "keep"


def write_private(path: Path, text: str) -> None:
    """Writes a file that only its owner can read."""
    with open(
        os.open(path, os.O_WRONLY | os.O_CREAT | os.O_TRUNC, 0o600), "w", encoding="utf-8", errors="replace"
    ) as file:
        file.write(text)


def job_rows(flows: list[Flow]) -> list[tuple[str, ...]]:
    """The rows of the table of jobs, by their stages; the first one has the heads."""
    rows = []
    for flow in flows:
        needs = {
            name: [need for need in texts(part(flow.jobs, name).get("needs")) if need in flow.jobs]
            for name in flow.jobs
        }
        stage = dict.fromkeys(needs, 0)
        for _ in needs:
            stage = {name: max((stage[need] + 1 for need in needs[name]), default=0) for name in needs}
        title = one_line(str(flow.document.value.get("name") or flow.name))
        rows += [
            (
                str(stage[name]),
                name,
                one_line(str(part(flow.jobs, name).get("name") or name)),
                title,
                flow.name,
                ",".join(flow.events),
            )
            for name in needs
        ]
    return [
        ("Stage", "Job ID", "Job name", "Workflow name", "Workflow file", "Events"),
        *sorted(rows, key=lambda row: int(row[0])),
    ]
