"""`actrun try`: from a repository to executed workflows and a reason for each thing that did not succeed."""
from __future__ import annotations

import argparse
import json
import os
import re
import shlex
import sys
import time
from dataclasses import replace
from pathlib import Path
from typing import Any, Callable, Iterable

from . import (
    Problem,
    advice,
    earlier as earlier_ones,
    files as safe,
    filters,
    hosted,
    job_outputs,
    keeping,
    kept_flows,
    last,
    machine,
    network,
    options as words,
    repository,
    stopping,
    system_faults,
    tree as rooms,
    veils,
    watch_files,
)
from .actions import StubError, Stubs, stubs_for
from .action_sources import Actions
from .another_versions import another_versions
from .toolchains import PYTHON, folders
from .contexts import Play, read_payload
from .broker import Broker
from .ending import Ender, failed_legs, see_stops
from .environment import marker, settle, variables, write_prelude
from .dap_record import Record, read_record
from .execute import Execution, ask, program
from .explain import explain, remedies
from .late import Once, Stages, execute_stages, renew, tell_answers
from .live import breaks_of
from .masks import secrets_of
from .next_steps import next_steps
from .planning import Flow, job_rows, of_event, plan_flows, read_flows, workflow_files, write_private
from .sandbox import CLEAN, HOME, python_places, sandbox_words
from .present import SIGNS, Board, Leg, Screen, legs_of, one_line, summaries, table, tree
from .reasons import Part as Reason, Sentences, folded, unsuccessful
from .results import NOTHING, Results
from .step_log import for_shim
from .tree import find_project, find_top, read_facts
from .watching import watched
from .written import Part, made_steps

FRONT = Path(__file__).resolve().parent.parent


def main(arguments: list[str]) -> int:
    """The exit status of `actrun try ARGUMENTS`."""
    if sys.stdout is None or sys.stderr is None:
        print(
            "actrun: standard output or standard error is closed: send it to a file, as > /dev/null",
            file=sys.stderr or sys.stdout,
        )
        return 3
    screen = Screen()
    stopping.heed()
    try:
        return attempt(arguments, screen)
    except (Problem, StubError) as problem:
        text, status = str(problem), getattr(problem, "status", 2)
    except KeyboardInterrupt as interrupt:
        text, status = stopping.ended_by(interrupt)
    except BrokenPipeError:
        text, status = "standard output was closed before the end", 3
    except OSError as error:
        text, status = system_faults.sentence(error), 3
    for stream, show in ((sys.stderr, screen.tell), (sys.stdout, None)):
        try:
            if show:
                show(f"actrun: {text}", "failure")
            elif screen.json:
                screen.object({"version": 1, "status": status, "error": text})
            stream.flush()
        except OSError:
            os.dup2(os.open(os.devnull, os.O_WRONLY), stream.fileno())
    return status


def attempt(arguments: list[str], screen: Screen) -> int:
    """Reads the options and does what they ask for."""
    here = Path.cwd()
    line = words.parser(here).parse_args(arguments)
    start = here / (line.directory or "")
    if not start.is_dir():
        raise Problem(f"--directory {start}: there is no such directory")
    whole = find_top(start)
    top = find_project(start, whole) if whole and not line.workflows else whole or start.resolve()
    if line.watch:
        watch = watch_files.Watch(top, screen, line.workspace == "full")
        return watch.repeat(lambda first: once(arguments, screen, line, top, first))
    return once(arguments, screen, line, top)


def once(arguments: list[str], screen: Screen, line: argparse.Namespace, top: Path,
         first: Callable[[Leg], int] | None = None) -> int:
    """Executes once. With `first`, which gives the first step of a leg that is executed again, the rest is
    kept."""
    here = Path.cwd()
    start = here / (line.directory or "")
    whole = find_top(start)
    work = rooms.cache_root() / "work"
    keeping.recover_all(work)
    earlier = earlier_ones.find(line, top, first)
    before = earlier.call.words if earlier and not first else []
    options = words.complete(arguments, here, top, before)
    screen.quiet = bool(options.quiet) and not (options.list or options.dryrun or options.graph)
    event, looks = options.event or "push", bool(options.list or options.dryrun or options.graph)
    screen.json = bool(options.json)
    if screen.json and (looks or options.list):
        raise Problem("--json: only an execution has events and a result: leave --json out, or -l, -n and -g")
    if not options.list and not looks:
        advice.agree(options)
    files = workflow_files(options.workflows, [here, start, top], top)
    flows = read_flows(files, top, screen, bool(options.lenient))
    least = 2 if len(flows) < len(files) else 0
    if options.list:
        for text in table(job_rows(of_event(flows, event, None, screen) if options.event else flows)):
            screen.say(text)
        return least
    if whole:
        repository.check(whole, (*options.bind, *options.bind_rw))
    facts = read_facts(top, whole is not None, whole is not None and whole.resolve() != top.resolve())
    payload = read_payload(options.eventpath) if options.eventpath else None
    filters.check_event(flows, options)
    picked = of_event(flows, event, options.job, screen)
    stages = Stages(
        earlier=None if looks else earlier, call=last.Call([*before, (str(here), arguments)], str(top))
    )
    room = earlier_ones.make_room(stages.earlier, work, facts.name or top.name,
                                  here / options.keep if options.keep and not looks else None)
    try:
        number = 1 if looks else next_number(top)
        play = Play(event, facts, options, payload, room, number, int(time.time() * 1000))
        picked = filters.started(picked, play, screen, flows)
        if not picked:
            if screen.json:
                screen.object(NOTHING)
            return least
        for text in () if looks else hosted.copy_tree(facts, room, options):
            screen.tell(f"note: not copied: {text}", "note")
        play = replace(play, actions=Actions(options, facts.top, room.play, looks, screen.tell))
        planned, plan = plan_flows(picked, play, Once(screen))
        play.actions.settle()
        least = 2 if len(planned) < len(picked) else least
        if looks:
            return max(look(plan, planned, play, screen), least)
        return max(execute(Trial(planned, play, plan, screen, stages), picked), least)
    finally:
        machine.remove_all(room)
        keeping.note_end(room.folder)
        if looks or not (room.private / "record").exists():
            rooms.remove(room.folder, room.identity)
        earlier_ones.close(stages)
        if work.is_dir():
            rooms.clean(work, room.folder)
        room.lock.close()
        machine.clean(work)


def execute(trial: Trial, picked: list[Flow]) -> int:
    """Executes a plan, after the stages before it, and shows all that came of it; gives the exit status."""
    stages = trial.stages
    try:
        trial, whole = execute_stages(trial, picked, trial.play, trial.screen)
        return trial.execute() if whole else trial.show()
    finally:
        if stages.control:
            stages.control.close()


def next_number(top: Path) -> int:
    """The number of this execution in the repository, from 1: the length of a file that each execution makes
    one byte longer."""
    with open(rooms.kept_for(top, "counts"), "ab", buffering=0) as file:
        file.write(b".")
        return file.tell()


def look(plan: dict[str, Any], flows: list[Flow], play: Play, screen: Screen) -> int:
    """Shows the graph of the plan, or its tree with the stubs of its actions and the jobs that execute
    nothing here."""
    for text in [graph_of(plan, play)] if play.options.graph else tree_of(plan, flows, play):
        screen.say(text)
    if play.options.graph and sys.stdout.isatty():
        screen.tell("note: this is for Graphviz: actrun try -g | dot -Tsvg > graph.svg", "note")
    return 0


def graph_of(plan: dict[str, Any], play: Play) -> str:
    """The graph of a plan."""
    write_private(play.room.private / "plan", json.dumps(plan, ensure_ascii=False))
    answer = ask("graph", play.room.private / "plan")
    if answer.returncode != 0:
        raise Problem(answer.stderr.strip().removeprefix("actrun: "), answer.returncode)
    return answer.stdout.rstrip("\n")


def tree_of(plan: dict[str, Any], flows: list[Flow], play: Play) -> Iterable[str]:
    """The tree of a plan."""
    stubs = stubs_of(plan, play)
    stands = {
        **dict.fromkeys(stubs.programs, "stub"),
        **dict.fromkeys(stubs.named, "named program"),
        **dict.fromkeys(stubs.missing, "no stub, its step fails"),
        **dict.fromkeys(stubs.lenient, "no stub, its step is skipped"),
        **play.actions.words(),
    }
    guards = {guard for flow in flows for guard in flow.lowered.guards}
    yield from tree(
        plan,
        [flow.name for flow in flows],
        stands,
        guards,
        lambda *place: part_of(flows, *place),
        lambda run, job: flows[run].lowered.without.get(job, ""),
    )
    yield from (f"{flow.name}: {job} is for {system}: it executes nothing here (--any-system executes it)"
                for flow in flows for job, system in flow.lowered.foreign)


def path_of(job: str, step: int | None) -> tuple[str | int, ...]:
    """The place of a job or a step in a workflow."""
    of_job: tuple[str | int, ...] = ("jobs", job)
    return of_job if step is None else (*of_job, "steps", step)


def part_of(flows: list[Flow], run: int, job: str, step: int | None) -> Part | None:
    """A job or a step of a plan where the front made it."""
    return flows[run].lowered.parts.get(path_of(job, step))


def stubs_of(plan: dict[str, Any], play: Play) -> Stubs:
    """The programs that replace the actions of a plan."""
    works = [step["work"] for run in plan["runs"] for job in run["jobs"] for step in job["steps"]]
    found = stubs_for(
        {work["uses"] for work in works if work["kind"] == "uses"},
        play.options.named_stubs,
        bool(play.options.lenient),
        play.room.play / "stubs",
        PYTHON,
        play.actions.commands,
        play.actions.reasons(),
    )
    found.binds += folders()
    return found


class Trial:
    """The execution of a plan and what is shown of it."""

    def __init__(self, flows: list[Flow], play: Play, plan: dict[str, Any], screen: Screen,
                 stages: Stages | None = None) -> None:
        self.flows, self.play, self.plan, self.screen = flows, play, plan, screen
        self.stages = stages or Stages()
        self.known: dict[tuple[int, int], Any] = {}  # answers of steps that are not executed again
        self.snapshots: dict[tuple[int, int], bytes] = {}
        self.room, self.options = play.room, play.options
        self.record, self.part, self.times = (
            play.room.private / name for name in ("record", "record.part", "times")
        )
        self.told = play.room.folder / "told"  # what the front says to steps, which can write nothing there
        self.legs = legs_of(plan)
        # several legs in one tree would disturb one another
        self.own_trees = len(self.legs) > 1 and not self.options.in_place
        self.secrets = list(secrets_of(plan))
        self.board = Board(screen, self.legs, marker(), self.secrets, self.room.play)
        self.board.masks.hide_too(self.options.secrets.values())
        self.board.made = made_steps(self.legs, self.find)
        self.breaks = breaks_of(self)
        self.cache = rooms.kept_for(play.facts.top, "caches")
        self.machine = machine.Machine(self.room, PYTHON, rooms.kept_for(play.facts.top, "apt"))
        # of the caller, unless this is a step of another `try`, whose prelude it is
        bash_env = os.environ.get("BASH_ENV", "")
        self.bash_env = (
            os.path.abspath(bash_env)
            if os.path.isfile(bash_env) and bash_env != os.environ.get("ACTRUN_PRELUDE")
            else ""
        )

    def execute(self) -> int:
        """Executes the plan and shows all that came of it; gives the exit status."""
        self.perform()
        return self.show()

    def perform(self) -> int:
        """Executes the plan; gives the status of the program."""
        room = self.room
        rooms.remove(self.told)
        self.told.mkdir()
        if self.stages.numbers:
            renew(self.stages, self)
        for leg in self.legs:
            (room.play / "files" / str(leg.number)).mkdir(exist_ok=True)
        for github in (flow.contexts["github"] for flow in self.flows):
            Path(github["event_path"]).write_text(
                json.dumps(github["event"], ensure_ascii=False, indent=2), encoding="utf-8", errors="replace"
            )
        settle(self.plan, room, self.own_trees)
        see_stops(self.plan)
        job_outputs.withhold(self.plan)
        earlier_ones.open_store(self)
        self.known = tell_answers(self.stages, self)
        stubs = stubs_of(self.plan, self.play)
        reasons = self.play.actions.reasons()
        self.board.lenient = set(stubs.lenient)
        for text in stubs.missing:
            why = reasons.get(text) or f"no stub replaces {text}"
            self.screen.tell(f"note: {why}: its steps will fail; name a program by --stub "
                             f"{text.partition('@')[0]}=PROGRAM, or skip such actions by --lenient", "note")
        for name, text in (
            ("plan", json.dumps(self.plan, ensure_ascii=False)),
            ("stubs.json", json.dumps(stubs.programs)),
            *((path.name, "") for path in (self.record, self.part, self.times)),
        ):
            write_private(room.private / name, text)
        kept_flows.keep(self)
        if self.breaks:
            self.breaks.control.begin(self.breaks)
        self.board.ender = ender = Ender(self.plan, room.play, self.told, self.part).start()
        ender.known = self.board.quiet
        self.board.follow(self.part)
        self.machine.watch(self.legs, self.part)
        # (where steps could read it, it has the secrets)
        self.part.chmod(0o200 if self.options.no_sandbox else 0o600)
        self.cache.mkdir(exist_ok=True)
        environment = {
            **variables(
                room,
                self.flows[0].contexts,
                write_prelude(room, self.board.mark, self.told, PYTHON),
                self.cache,
            ),
            "ACTRUN_TOLD": str(self.told),
            "ACTRUN_HASHER": shlex.join([PYTHON, "-EsB", str(FRONT / "stubs" / "hash.py")]),
            "ACTRUN_PROGRAM": program(),
            "ACTRUN_BASH_ENV": self.bash_env,
            **hosted.variables(room),
            **self.options.variables,
        }
        with watched(self.board, self.plan, self.play, self.stages.count) as listener:
            ender.execution = self.execution = listener.execution = Execution(ender, listener)
            if self.breaks:
                ender.held, self.execution.prompt = self.breaks.held, self.breaks.prompt
            self.status = listener.status(self.start(self.execution, stubs, environment))
        ender.close()
        if self.breaks:
            self.breaks.close()
        safe.drop_setuid(self.cache)
        failed = {leg for leg, _ in self.board.steps.failed} | set(self.board.running)
        self.machine.finish(self.screen, failed if self.snapshots else ())
        for text in job_outputs.warnings(self.plan, self.board):
            self.screen.tell(text, "warning")
        return self.status

    def show(self) -> int:
        """Shows all that came of the execution; gives the exit status."""
        is_cut = keeping.recover(self.room.private)
        if is_cut:
            why = "the program was ended before it wrote its whole record"
            self.screen.tell(f"note: {why}: {self.record} has the events until then", "warning")
        record = None
        if self.record.exists() and self.record.stat().st_size:
            try:
                record = read_record(program(), self.record)
            except Problem as problem:
                self.screen.tell(f"actrun: {problem}", "failure")
        parts = record.parts if record else {}
        for run in range(len(self.flows) if parts else 0):
            state, other = parts[f"run {run}"].state, "interrupted" if is_cut else "stalled"
            self.board.results[run] = state if state in SIGNS else other
        self.show_runs(record)
        self.screen.say("")
        from . import report  # (here, as it takes longer than the rest together, and no step waits for it)
        page = report.beside(self.record, self.room.play, self.times, record) if record else None
        for line in self.places(page, record is not None):
            self.screen.say(line, "note")
        if self.screen.json:
            self.screen.object(Results(self, record).object(str(page or "")))
        timed_out = self.stages.timed_out or self.board.ender.timed_out
        if self.execution.signals:
            return 128 + self.execution.signals[0]
        return max(self.status, int(timed_out))

    def start(self, execution: Execution, stubs: Stubs, environment: dict[str, str]) -> int:
        """Starts `actrun run`, the steps in a sandbox each leg; gives its status."""
        room, options = self.room, self.options
        words = [
            program(),
            "run",
            "--progress",
            "--workers",
            str(options.workers),
            "--work",
            str(room.play),
            "--stubs",
            str(room.private / "stubs.json"),
            "--record",
            str(self.record),
            "--times",
            str(self.times),
            "/dev/stdin",
        ]
        if options.no_sandbox and options.offline:
            raise Problem("--offline needs the sandbox: leave --no-sandbox out")
        if options.no_sandbox:
            return execution.run(words, environment, room.private / "plan")
        inside = self.inside(environment)
        if self.own_trees:
            (room.play / "legs").mkdir(exist_ok=True)
        top = self.play.facts.top if options.in_place else None
        told = {"limit": for_shim(options.log_limit).encode(), "veils": veils.for_shim(self.plan)}
        with Broker(
            room,
            lambda leg: self.machine.words(self.sandbox(stubs, leg), leg),
            PYTHON,
            options.workers + 8,
            self.machine.before(),
            told,
            "" if options.offline or options.host_network else network.maker(),
        ) as broker, self.machine.containers(
            broker, self.legs, inside, options, top, self.board.mark
        ), earlier_ones.around(
            self, broker
        ):
            if self.breaks:
                self.breaks.broker, broker.breaks = broker, self.breaks
            self.tell_network(broker)
            status = execution.run(
                broker.program_words(words, inside, stubs.programs.values()), CLEAN, room.private / "plan"
            )
            if not execution.signals:
                broker.check(self.board.errors)
        return status

    def tell_network(self, broker: Broker) -> None:
        """Says what steps reach by the network of this machine, where they share it."""
        scoped = broker.leg(0).scoped
        if self.options.offline or broker.maker and not broker.relays:
            return
        whose = "steps of jobs with containers or services" if broker.maker else "steps"
        why = "" if broker.maker or self.options.host_network else broker.no_network or network.NONE
        text = network.note(scoped, whose, f" ({why})" if why else "")
        if text:
            self.screen.tell(text, "note")

    def inside(self, environment: dict[str, str]) -> dict[str, str]:
        """The variables of steps in the sandbox."""
        folder, path = self.room.play / "bin", environment.get("PATH", os.defpath)
        self.machine.prepare(bool(self.options.offline))
        self.board.path = path
        kept = {name: value for name, value in environment.items() if name != "TMPDIR"}
        home = {} if "HOME" in self.options.variables else {"HOME": str(HOME)}
        return {**kept, "PATH": f"{folder}:{path}", **home}

    def own_folders(self, leg: int) -> list[Path]:
        """The folders below `play` that a leg has for itself."""
        name, play = earlier_ones.leg_folder(self, leg), self.room.play
        own = [play / "files" / str(leg), play / "temp" / name, *[play / "legs" / name] * self.own_trees]
        if leg in self.machine.places:  # (the engine's containers have the others)
            own = own[:1]
        for folder in own:
            folder.mkdir(parents=True, exist_ok=True)
        return own

    def sandbox(self, stubs: Stubs, leg: int) -> list[str]:
        """The words before a command that executes in the sandbox of a leg."""
        top = self.play.facts.top
        readable = [
            Path(program()),
            FRONT,
            *python_places(PYTHON),
            *stubs.binds,
            *hosted.shown(self.room),
            self.told,
            *([Path(self.bash_env)] if self.bash_env else []),
        ]
        shown, changed = [*readable, *self.options.bind], [self.cache, *self.options.bind_rw]
        if self.options.in_place:
            state = (
                [path for path in (*repository.folders(top), top / ".git") if path.exists()]
                if self.play.facts.repository
                else []
            )
            changed += [top, *(state if self.options.writable_git else [])]
            shown += [] if self.options.writable_git else state
        return sandbox_words(
            self.room, shown, changed, bool(self.options.offline), top, self.own_folders(leg)
        )

    def show_runs(self, record: Record | None) -> None:
        """Shows summaries, and the result of each run with what did not succeed, and why."""
        screen, parts = self.screen, record.parts if record else {}
        for title, text in summaries(self.room.play / "files", self.secrets, self.board):
            screen.section(title)
            screen.log(text)
        screen.say("")
        merged = job_outputs.merged(self.plan) if record else set()
        for text in job_outputs.lost(self.legs, merged, self.record):
            screen.tell(text, "warning")
        failed, stopped = set(failed_legs(parts)), self.stopped()
        cancelled = failed & stopped
        runs = {self.legs[leg].run for leg in cancelled} - {self.legs[leg].run for leg in failed - stopped}
        results = {run: "cancelled" if result == "failure" and run in runs else result
                   for run, result in self.board.results.items()}
        for number, flow in enumerate(self.flows):
            result, name = results.get(number, "stalled"), one_line(self.plan["runs"][number]["flow"])
            title = name if name == flow.name else f"{name} ({flow.name})"
            if flow.run_name:
                title = f"{one_line(flow.run_name)} ({', '.join(dict.fromkeys([name, flow.name]))})"
            screen.result(result, f"{title}: ", sys.stdout, result)
            for job, system in flow.lowered.foreign:
                screen.say(
                    f"  {job} is for {system}: nothing of it was executed (--any-system executes it here)",
                    "skipped",
                )
        names = {words: part.name for words, part in parts.items()}
        why = Sentences(self.legs, self.find, self.place, self.board.cause, names)
        found = list(folded(unsuccessful(parts, self.plan, self.failed_in(parts)), self.legs)) if record else []
        lines = why.lines(found) if record else self.board.without_record()
        for line in (*lines, *remedies(str(part.cause.get("error")) for part in found)):
            screen.say(f"  {line}")
        needed = {number for run in self.plan["runs"] for job in run["jobs"] for number in job["needs"]}
        for leg in sorted(leg for leg in cancelled if self.legs[leg].job["number"] in needed):
            screen.say(f"  {self.legs[leg].name}: cancelled on GitHub, where jobs that need it see that; "
                       "here they see a failure", "warning")
        versions = another_versions(self.room.play / "files", self.secrets, self.board)
        for text in (
            *self.without(),
            *versions,
            *self.board.skips(),
            *self.board.missing(),
            *self.stages.by_hand,
        ):
            screen.say(f"  {text}", "warning")
        for text in filter(
            None, (explain(line, "run", ["--work", str(self.room.folder)]) for line in self.board.errors)
        ):
            screen.tell(text)
        if self.options.keep is None:
            rooms.remove(self.room.play / "actions")
        done = {leg.job["number"] for leg in self.legs if results.get(leg.run) == "success"}
        if self.own_trees and self.options.keep is None:
            for name in safe.names(self.room.play, "legs"):
                if name.partition("-")[0] in map(str, done):
                    safe.remove_below(self.room.play, "legs", name)

    def failed_in(self, parts: dict[str, Reason]) -> dict[str, list[str]]:
        """The steps that failed by themselves in legs that were cancelled."""
        found: dict[str, list[str]] = {}
        for part in parts.values():
            leg, step = part.numbers.get("leg", -1), part.numbers.get("step", -1)
            if part.kind == "step" and part.failed and not self.board.cause(leg, step):
                found.setdefault(f"leg {leg}", []).append(part.words)
        return {leg: steps for leg, steps in found.items() if parts[leg].state == "cancelled"}

    def stopped(self) -> set[int]:
        """The legs that a limit of time or a signal stopped."""
        told = {leg for (leg, _), cause in self.board.told.items()
                if cause.startswith(("the job timed out", "stopped by "))}
        return told.union(self.board.ender.stopped)

    def without(self) -> Iterable[str]:
        """A sentence for each leg whose container or services were dropped."""
        for leg in self.legs:
            lacks = self.flows[leg.run].lowered.without.get(leg.job["id"])
            if lacks and leg.number in self.board.begun:
                yield f"{leg.name}: executed on this machine, without its {lacks}"

    def find(self, run: int, job: str, step: int | None) -> Part | None:
        """A job or a step where the front made it."""
        return part_of(self.flows, run, job, step)

    def place(self, run: int, job: str, step: int | None) -> str:
        """File and line of a job or a step."""
        line = self.flows[run].lowered.lines.get(path_of(job, step))
        return f"{self.flows[run].name}:{line}" if line else ""

    def places(self, page: Path | None, known: bool) -> Iterable[str]:
        """Where the logs and the trees are, and if the record is `known` that and the page; how a person goes
        on."""
        private, play = self.room.private, self.room.play
        yield f"logs      {play}/step-LEG-STEP.log"
        made = sorted(name for name in safe.names(play, "legs") if re.fullmatch(r"\d+-\d+", name))
        trees = (
            [play / "legs" / name / self.room.name for name in made]
            if self.own_trees
            else [self.play.workspace]
        )
        if trees:
            yield f"tree      {trees[0] if len(trees) == 1 else play / 'legs' / 'JOB-INDEX' / self.room.name}"
        if known:
            yield f"record    {self.record}"
            if page:
                yield f"report    {page}"
            elif system_faults.is_full(private):
                self.screen.tell(
                    f"note: the page cannot be written: {private}: {system_faults.FULL}", "warning"
                )
            yield f"timeline  actrun timeline --last --times {shlex.quote(str(self.times))} > timeline.svg"
            yield "graph     actrun graph --last > graph.dot"
        kept = last.Last(str(self.record), str(play), str(self.times), str(page or ""))
        last.keep(self.play.facts.top, kept)
        yield from next_steps(self.board, self.flows, self.options, known, bool(page), bool(self.snapshots))
