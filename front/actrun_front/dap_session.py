"""A record before the eyes of an editor: what `actrun dap` answers to each request.

Places, boards, reasons and values come from `actrun debug`, `why` and `eval`.
"""
from __future__ import annotations

import json
import os
import pathlib
import re
import shlex
import sys
from concurrent.futures import Future, ThreadPoolExecutor
from typing import Any, Callable, Dict, List, Tuple

from . import Problem
from .dap_lines import Workflow, named_files
from .dap_logs import plan_masks, shown_log
from .dap_record import Board, Mishap, Record, Walker
from .dap_stops import Stop, Stops, Where, logged, named
from .dap_words import completed
from .explain import near
from .explained import BRIEF, VALUES, Explainer, text_of
from .expressions import EvaluationError, Program, has_expression, references, template_expression
from .kept_files import KeptFiles
from .kept_flows import kept_flows
from .last import launched
from .live_places import Place
from .planning import write_private
from .prompt_words import part_of
from .reasons import parts_of
from .values import Frame, Shown, Surroundings
from .visible import visible

Body = Dict[str, Any]
Thing = Tuple[int, int]  # a job (with -1) or a step of it
FILTERS = {
    "failed": "A step fails, tolerated or not, or a text of a leg, job or run has no value.",
    "skipped": "A step or a job is skipped.",
    "cancelled": "A leg, a job or a run is cancelled.",
    "displaced": "A newer run or leg takes the place of one that waits for a group.",
}
CAPABILITIES = {
    "supportsConfigurationDoneRequest": True,
    "supportsStepBack": True,
    "supportsEvaluateForHovers": True,
    "supportsGotoTargetsRequest": True,
    "supportsExceptionInfoRequest": True,
    "supportsSteppingGranularity": True,
    "supportsTerminateRequest": True,
    "supportsDataBreakpoints": True,
    "supportsDelayedStackTraceLoading": True,
    "supportsConditionalBreakpoints": True,
    "supportsHitConditionalBreakpoints": True,
    "supportsFunctionBreakpoints": True,
    "supportsLogPoints": True,
    "supportsCompletionsRequest": True,
    "completionTriggerCharacters": [".", "$", " "],
    "supportsLoadedSourcesRequest": True,
    "supportsRestartRequest": True,
    "supportsRestartFrame": True,
    "supportTerminateDebuggee": True,
    "exceptionBreakpointFilters": [
        {"filter": name, "label": name.capitalize(), "description": text, "default": name == "failed"}
        for name, text in FILTERS.items()
    ],
}
ALWAYS = {"disconnect", "terminate"}
BEFORE_LAUNCH = ALWAYS | {"initialize", "launch", "attach"}
BEFORE_DONE = BEFORE_LAUNCH | {"setBreakpoints", "setExceptionBreakpoints", "setFunctionBreakpoints",
                               "dataBreakpointInfo",
                               "setDataBreakpoints", "configurationDone", "threads", "loadedSources"}
VARIABLE = re.compile(r"\$?(\{?)([A-Za-z_]\w*)\}?")
EXPLAINED = {"explain": BRIEF, "values": VALUES}
OF_FILES = ("files", "cat", "shell")  # words of the console that ask the snapshots
FRONT = pathlib.Path(__file__).resolve().parent.parent
RUNNING = "running"      # begins the state of a leg that executes
CONTEXTS = {
    "github",
    "env",
    "vars",
    "job",
    "steps",
    "secrets",
    "strategy",
    "matrix",
    "needs",
    "inputs",
    "runner",
    "jobs",
}
MOST_LOGS = 100


class Session:
    """One record before a client's eyes. `on_REQUEST` gives the body of a response; `after` holds what
    follows it."""

    walker: Walker
    record: Record
    board: Board
    failures: Future[List[Mishap]]
    ask_client: Callable[[str, Body, Callable[[Body], None]], int | None]

    def __init__(self, program: str, send: Callable[[str, Body], None]):
        self.program, self.send, self.asker = program, send, Program(program)
        self.initialized = self.launched = self.configured = self.over = False
        self.client: Body = {}                   # what the client can do
        self.after: list[Callable[[], Any]] = []
        self.filters = {"failed"}
        self.stops = Stops(self.holds)
        self.handles = self.thread = 0
        self.alive: set[int] = set()             # the legs that the client knows as threads
        self.frames: dict[int, Frame] = {}
        self.values: dict[int, Any] = {}
        self.variables_of: dict[int, int] = {}
        self.hit: Mishap | None = None

    def check(self, command: str) -> None:
        """Refuses a request that comes too early."""
        if not self.initialized and command not in ALWAYS | {"initialize"}:
            raise Problem("send initialize first")
        if not self.launched and command not in BEFORE_LAUNCH:
            raise Problem("send launch with a `record` first")
        if not self.configured and command not in BEFORE_DONE:
            raise Problem("send configurationDone first")

    def later(self, action: Callable[..., Any], *given: Any, **more: Any) -> Body:
        """The empty body of a response after which something is done."""
        self.after.append(lambda: action(*given, **more))
        return {}

    # The beginning and the end

    def on_initialize(self, given: Body) -> Body:
        if self.initialized:
            raise Problem("initialize was sent before")
        self.initialized, self.client = True, given
        self.base = 0 if given.get("linesStartAt1") is False else 1
        self.column = 0 if given.get("columnsStartAt1") is False else 1
        return CAPABILITIES

    def on_launch(self, given: Body) -> Body:
        if self.launched:
            raise Problem("a record was launched before")
        folder = pathlib.Path(text(given, "cwd", "."))
        given = launched(given, folder)
        self.path = pathlib.Path(os.path.abspath(folder / text(given, "record")))
        self.logs = folder / text(given, "logs", "") if given.get("logs") else None
        if self.logs and not self.logs.is_dir():
            raise Problem(f"{self.logs}: there is no such folder; `logs` has to name the one with the files step-L-S.log")
        self.load(self.path)
        self.walker.go("goto 0")
        self.board = self.walker.show()
        try:
            self.find_files(named_files(folder, given.get("workflows") or []))
        except BaseException:
            self.walker.close()
            raise
        self.at_entry, self.launched = given.get("stopOnEntry") is True, True
        return self.later(self.send, "initialized", {})

    def load(self, path: pathlib.Path, data: bytes | None = None) -> None:
        """Reads a record that the program accepts, or its first lines, to its end. What did not succeed in it
        is found meanwhile."""
        walker = Walker(self.program, path, data, wait=False)
        try:
            pool = ThreadPoolExecutor(1)
            parts = pool.submit(parts_of, self.program, walker.data)
            walker.accept()
            record = Record(self.program, walker.data)
            walker.go(f"goto {walker.last}")
            self.board = board = walker.show()
            self.failures = pool.submit(lambda: record.mishaps(board, parts.result()))
            pool.shutdown(wait=False)
        except BaseException:
            walker.close()
            raise
        self.walker, self.record = walker, record
        self.masks = plan_masks(record.plan)

    def find_files(self, files: list[pathlib.Path]) -> None:
        """Reads the workflows of the runs: those that were kept next to the record, or the ones that fit
        it."""
        self.flows: dict[str, Workflow] = {}
        self.changed: dict[str, pathlib.Path] = {}  # of files that have changed, what was executed
        self.kept = kept_flows(self.path, self.record.legs)
        for file in files:
            try:
                self.flows[os.path.realpath(file)] = Workflow(file, self.program)
            except Problem as fault:
                if not file.is_file():
                    raise
                self.later(self.print, f"{fault}; the lines of this file are not known\n", "important")
        self.files: list[str | None] = []
        self.lines: list[dict[Thing, int]] = []
        for number, run in enumerate(self.record.plan["runs"]):
            kept = self.kept_file(number, [os.path.realpath(file) for file in files])
            if kept:
                self.files.append(kept)
                self.lines.append(self.kept_lines(number))
                continue
            rank, found = max([(flow.rank(run), file) for file, flow in self.flows.items()],
                              default=((0, 0), ""))
            self.files.append(found if rank[0] else None)
            self.lines.append(self.flows[found].lines_of(run) if rank[0] else {})

    def kept_file(self, run: int, files: list[str]) -> str | None:
        """The file of a run whose text was kept: today's, or one with that text where today's differs."""
        name = self.kept.runs[run] if run < len(self.kept.runs) else None
        path = pathlib.Path(self.kept.top) / name if name else None
        if name is None or path is None or files and os.path.realpath(path) not in files:
            return None
        if self.kept.changed(name):
            today, path = path, self.path.parent / "as-executed" / str(run) / path.name
            path.parent.mkdir(mode=0o700, parents=True, exist_ok=True)
            write_private(path, self.kept.texts.get(name, ""))
            self.changed[os.path.realpath(today)] = path
            self.later(self.print, f"{today} has changed; what was executed is {path}\n", "important")
        file = os.path.realpath(path)
        try:
            self.flows[file] = self.flows.get(file) or Workflow(path, self.program)
        except Problem:  # (`try --lenient` reads what is no workflow here)
            return None
        return file

    def kept_lines(self, run: int) -> dict[Thing, int]:
        """The lines of the jobs and steps of a run whose text was kept."""
        found: dict[Thing, int] = {}
        for leg in self.record.legs:
            if leg.run == run:
                number = leg.job["number"]
                places = [(-1, None), *((step, step) for step in range(len(leg.job["steps"])))]
                found.update({(number, key): self.kept.place(leg.number, step)[1] or 1 for key,
                              step in places})
        return found

    def on_configurationDone(self, given: Body) -> Body:
        if self.configured:
            raise Problem("configurationDone was sent before")
        self.configured = True
        return self.later(self.begin)

    def begin(self) -> None:
        """Stops at the beginning, or where the record has something to show."""
        if self.at_entry:
            self.stop("entry")
        else:
            self.resume(True)

    def on_attach(self, given: Body) -> Body:
        raise Problem("a record was launched before")

    def on_restart(self, given: Body) -> Body:
        """Reads the record again, and begins at its beginning."""
        before = self.walker
        self.load(self.path)
        before.close()
        self.walker.go("goto 0")
        self.board = self.walker.show()
        self.stops.forget()
        self.look_anew()
        return self.later(self.begin)

    def on_disconnect(self, given: Body) -> Body:
        self.over = True
        return {}

    def on_terminate(self, given: Body) -> Body:
        return self.later(self.send, "terminated", {})

    def close(self) -> None:
        """Ends what the session started."""
        if self.launched:
            self.walker.close()

    # Breakpoints

    def on_setBreakpoints(self, given: Body) -> Body:
        file = os.path.realpath(text(given.get("source") or {}, "path"))
        asked = given.get("breakpoints")
        wanted = asked if asked is not None else [{"line": line} for line in given.get("lines") or []]
        self.stops.of[file] = []
        return {"breakpoints": [self.set_line(file, one) for one in wanted]}

    def set_line(self, file: str, given: Body) -> Body:
        """Sets a breakpoint at the job or step that a line means."""
        meant = self.flows[file].meant(given["line"] + 1 - self.base) if file in self.flows else None
        if file in self.changed:
            return {"verified": False,
                    "message": f"this file has changed; what was executed is {self.changed[file]}"}
        if meant is None:
            return {
                "verified": False,
                "message": "there is no job or step in this line, or after it"
                if file in self.flows
                else "this file is not one of the `workflows` of launch",
            }
        things = self.things(file, meant)
        answer = {"line": meant - 1 + self.base, "verified": bool(things)}
        if not things:
            return {**answer, "message": "the record's plan has nothing of this line"}
        pairs = {(leg, max(step, 0)) for job, step in things for leg in self.record.legs_of[job]}
        return {**answer, **self.added(file, lambda: self.places_of(things), given, pairs)}

    def places_of(self, things: list[Thing]) -> list[int]:
        """Where the jobs of a line are judged and its steps begin."""
        return self.record.places_of(things)

    def added(self, owner: str, where: Where, given: Body, pairs: set[Place] | None = None) -> Body:
        """The answer to a breakpoint that is set, unless something is wrong with it."""
        try:
            if given.get("condition"):
                self.check_expression(given["condition"])
            stop = self.stops.add(owner, where, given, pairs)
        except Problem as problem:
            return {"verified": False, "message": str(problem)}
        return {"id": stop.number, "verified": True}

    def check_expression(self, expression: str) -> None:
        """Raises Problem where an expression cannot be read."""
        try:
            self.asker.evaluate(expression_of(expression), {})
        except EvaluationError as fault:
            if str(fault).startswith("expr"):
                raise Problem(f"{expression}: {fault}") from None

    def holds(self, expression: str, place: int) -> bool:
        """Whether an expression is true at a place; one without a value counts as true, and why is
        printed."""
        asked = f"({expression_of(expression)}) && true || false"
        try:
            return self.around_place(place).evaluate(asked)[0] is True
        except EvaluationError as fault:
            self.print(self.masks.hide(f"the breakpoint's condition {expression} has no value: {fault}\n"),
                       "important")
            return True

    def around_place(self, place: int) -> Surroundings:
        """What is seen at a place by the leg whose entry led there. The walker is at that place then."""
        self.walker.go(f"goto {place}")
        entry, leg = self.record.entries[place], self.record.focus(self.record.about(place))
        step = self.record.begun(entry["leg"], place) - 1 if entry["event"] in ("begin", "end") else None
        frame = Frame(self.record.legs[leg or 0].run, leg, step)
        return Surroundings(self.record, self.walker.show(), self.asker, self.masks, frame)

    def log(self, stop: Stop, place: int) -> None:
        """Prints what a breakpoint logs."""
        around = self.around_place(place)

        def value(expression: str) -> str:
            try:
                return shown_value(around.evaluate(expression)[0])
            except EvaluationError as fault:
                return f"{{{expression}: {fault}}}"
        self.print(self.masks.hide(logged(stop.log, value)) + "\n", "console", **self.source(around.frame))

    def things(self, file: str, line: int) -> list[Thing]:
        """The jobs (with -1) and steps of the plan that a line of a file declares."""
        return [
            thing
            for owner, lines in zip(self.files, self.lines)
            if owner == file
            for thing, at in lines.items()
            if at == line
        ]

    def on_setExceptionBreakpoints(self, given: Body) -> Body:
        names = [
            *(given.get("filters") or []),
            *(one["filterId"] for one in given.get("filterOptions") or []),
        ]
        self.filters = {name for name in names if name in FILTERS}
        unknown = {"verified": False, "message": f"the filters are {', '.join(FILTERS)}"}
        return {"breakpoints": [{"verified": True} if name in FILTERS else unknown for name in names]}

    def on_setFunctionBreakpoints(self, given: Body) -> Body:
        """Breakpoints by what `try --break` takes: a name or an id of a step, a job, or JOB/STEP."""
        self.stops.of["functions"] = []
        return {"breakpoints": [self.set_name(one) for one in given["breakpoints"]]}

    def named(self, name: str) -> set[Place]:
        """The legs and steps that a name means. Raises Problem where it means none."""
        return named(self.record, name)

    def set_name(self, given: Body) -> Body:
        """Sets a breakpoint at what a name means."""
        try:
            pairs = self.named(text(given, "name"))
        except Problem as problem:
            return {"verified": False, "message": str(problem)}

        def where() -> list[int]:
            return [place for leg, step in pairs for place in self.record.begins[leg][step:step + 1]]
        return self.added("functions", where, given, pairs)

    def on_dataBreakpointInfo(self, given: Body) -> Body:
        leg = self.variables_of.get(given.get("variablesReference", 0))
        if leg is None:
            return {"dataId": None, "description": "only the variables of a leg can be watched"}
        name = text(given, "name")
        return {
            "dataId": f"{leg} {name}",
            "description": f"{name} in {self.name('leg', leg)}",
            "accessTypes": ["write"],
        }

    def on_setDataBreakpoints(self, given: Body) -> Body:
        """Breakpoints hold where a step of the leg ends that set the variable."""
        self.stops.of["data"] = []
        return {"breakpoints": [self.set_data(one) for one in given["breakpoints"]]}

    def set_data(self, given: Body) -> Body:
        """Sets a breakpoint at a variable of a leg."""
        leg, _, name = text(given, "dataId").partition(" ")

        def where() -> list[int]:
            return [place for place, entry in enumerate(self.record.entries)
                    if entry["event"] == "end" and str(entry["leg"]) == leg
                    and name in entry["answer"].get("env", {})]
        found = self.added("data", where, given)
        return found if where() else {"verified": False, "message": "no step of the leg set this variable"}

    # Moves

    def move(self, command: str, reason: str, before: int | None = None, **more: Any) -> None:
        """Moves by the program, prints the logs of the steps that ended on the way, and says where the record
        is."""
        before = self.walker.place if before is None else before
        self.walker.go(command)
        self.board = self.walker.show()
        self.look_anew()
        self.print_logs(before, self.walker.place)
        self.stop(reason, **more)

    def look_anew(self) -> None:
        """Lets no number that the client has mean anything."""
        self.frames, self.values, self.variables_of = {}, {}, {}

    def stop(self, reason: str, leg: int | None = None, hits: list[int] | None = None,
             hit: Mishap | None = None,
             fact: str = "") -> None:
        """Tells the client where the record is, and which leg to look at."""
        place, self.hit = self.walker.place, hit
        about = self.record.about(place)
        if leg is None and about and about != {"run": self.record.legs[self.thread].run}:
            leg = self.record.focus(about)
        self.thread = self.thread if leg is None else leg
        where = f"{hit.filter + ' at ' if hit else ''}place {place} of {self.walker.last}"
        fact = self.masks.hide(fact or (hit.fact if hit else self.record.happened(place)))
        self.print(f"{where}: {fact}\n", "console")
        self.tell_threads()
        self.send(
            "stopped",
            {
                "reason": reason,
                "description": where,
                "text": fact,
                "threadId": self.thread + 1,
                "allThreadsStopped": True,
                **({"hitBreakpointIds": hits} if hits else {}),
            },
        )

    def tell_threads(self) -> None:
        """Tells the client which threads have begun and ended."""
        now = set(self.threads())
        for reason, legs in (("exited", self.alive - now), ("started", now - self.alive)):
            for leg in sorted(legs):
                self.send("thread", {"reason": reason, "threadId": leg + 1})
        self.alive = now

    def threads(self) -> list[int]:
        """The legs that execute at the place, and the one to look at."""
        return [leg for leg,
                row in enumerate(self.board.legs) if row.state.startswith(RUNNING) or leg == self.thread]

    def resume(self, forward: bool) -> None:
        """Goes to the next or previous breakpoint, else to the end or the beginning of the record."""
        here = self.walker.place
        mishaps = {one.place: one for one in reversed(self.failures.result()) if one.filter in self.filters}
        ahead = [place for place in {*self.stops.places(), *mishaps}
                 if (place > here if forward else place < here)]
        for place in sorted(ahead, reverse=not forward):
            held = self.stops.at(place)
            for stop in held:
                if stop.log:
                    self.log(stop, place)
            hits, hit = [stop.number for stop in held if not stop.log], mishaps.get(place)
            if hit or hits:
                leg = self.record.focus(hit.about()) if hit else None
                self.move(f"goto {place}", "exception" if hit else "breakpoint", here, leg=leg, hits=hits,
                          hit=hit)
                return
        self.past_all(here, forward)

    def past_all(self, here: int, forward: bool) -> None:
        """Goes to an end of the record, since no breakpoint is before it."""
        self.print(f"no breakpoint {'after' if forward else 'before'} place {here}\n", "console")
        self.move(f"goto {self.walker.last if forward else 0}", "pause" if forward else "entry", here)

    def on_continue(self, given: Body) -> Body:
        return {**self.later(self.resume, True), "allThreadsContinued": True}

    def on_reverseContinue(self, given: Body) -> Body:
        return self.later(self.resume, False)

    def on_pause(self, given: Body) -> Body:
        return self.later(self.stop, "pause", leg=self.leg(given))

    def on_next(self, given: Body) -> Body:
        """To the begin of the leg's next step, else to the leg's end, else to that of the record."""
        leg = self.leg(given)
        if given.get("granularity") == "instruction":
            return self.on_stepIn(given)
        places = self.record.begins[leg][self.record.begun(leg, self.walker.place):]
        return (
            self.later(self.move, f"goto {places[0]}", "step", leg=leg) if places else self.on_stepOut(given)
        )

    def on_stepBack(self, given: Body) -> Body:
        """To the begin of the leg's present step, or from there to that of the step before; then to the place
        before the first one, and to the beginning."""
        leg = self.leg(given)
        if given.get("granularity") == "instruction":
            return self.later(self.move, "back", "step")
        here, begins = self.walker.place, self.record.begins[leg]
        earlier = [place for place in begins if place < here]
        target = earlier[-1] if earlier else begins[0] - 1 if begins and begins[0] == here else 0
        return self.later(self.move, f"goto {target}", "step", leg=leg)

    def on_restartFrame(self, given: Body) -> Body:
        """To the begin of a frame's step, leg or run."""
        frame = found(self.frames, given.get("frameId"), "frame")
        begins = self.record.begins[frame.leg] if frame.leg is not None else []
        target = begins[frame.step or 0] if begins else 0
        return self.later(self.move, f"goto {target}", "restart", leg=frame.leg)

    def on_stepIn(self, given: Body) -> Body:
        self.leg(given)
        return self.later(self.move, "step", "step")

    def on_stepOut(self, given: Body) -> Body:
        leg = self.leg(given)
        return self.later(self.move, f"goto {self.walker.end_of(leg) or self.walker.last}", "step", leg=leg)

    def on_gotoTargets(self, given: Body) -> Body:
        """The places where the steps of a line begin and end, and where its job is judged."""
        file = os.path.realpath(text(given.get("source") or {}, "path"))
        meant = self.flows[file].meant(given["line"] + 1 - self.base) if file in self.flows else None
        places = self.record.places_of(self.things(file, meant) if meant else [], ends=True)
        return {
            "targets": [
                {
                    "id": place,
                    "label": self.masks.hide(f"place {place}: {self.record.happened(place)}"),
                    "line": given["line"],
                }
                for place in places
            ]
        }

    def on_goto(self, given: Body) -> Body:
        place = given.get("targetId")
        if not isinstance(place, int) or not 0 <= place <= self.walker.last:
            raise Problem(f"there is no place {place}: the record has the places 0 to {self.walker.last}")
        return self.later(self.move, f"goto {place}", "goto")

    def print(self, words: str, category: str, **more: Any) -> None:
        self.send("output", {"category": category, "output": words, **more})

    def print_logs(self, before: int, now: int) -> None:
        """Prints the masked logs of the steps that ended on a way forward, the last ones at least."""
        ended = (
            [place for place in range(before + 1, now + 1) if self.record.entries[place]["event"] == "end"]
            if self.logs
            else []
        )
        if len(ended) > MOST_LOGS:
            self.print(f"({len(ended) - MOST_LOGS} earlier logs left out)\n", "console")
        for place in ended[-MOST_LOGS:]:
            leg = self.record.entries[place]["leg"]
            self.print_log(leg, self.record.begun(leg, place) - 1)

    def print_log(self, leg: int, step: int) -> None:
        """Prints the masked log of a step."""
        log = shown_log(self.logs, leg, step, self.masks) if self.logs else ""
        if log:
            frame = Frame(self.record.legs[leg].run, leg, step)
            self.print(f"--- {self.name('step', leg, step)} of {self.name('leg', leg)}\n{log}", "stdout",
                       **self.source(frame))

    # What is seen

    def leg(self, given: Body) -> int:
        number = given.get("threadId")
        if not isinstance(number, int) or not 1 <= number <= len(self.record.legs):
            raise Problem(
                f"there is no thread {number}: the threads 1 to {len(self.record.legs)} are the legs"
            )
        return number - 1

    def name(self, kind: str, number: int, step: int | None = None) -> str:
        """The name of a run, a job, a leg or a step, without secrets."""
        hidden: str = self.masks.hide(self.record.name(kind, number, step))
        return hidden

    def on_threads(self, given: Body) -> Body:
        return {"threads": [{"id": number + 1, "name": self.name("leg", number)}
                            for number in self.threads()]}

    def on_loadedSources(self, given: Body) -> Body:
        return {"sources": [source_of(self.flows[file].path) for file in sorted({*filter(None, self.files)})]}

    def on_stackTrace(self, given: Body) -> Body:
        leg = self.record.legs[self.leg(given)]
        begun = self.record.begun(leg.number, self.walker.place)
        stack = [Frame(leg.run, leg.number, begun - 1)] if begun else []
        stack += [Frame(leg.run, leg.number), Frame(leg.run)]
        first = given.get("startFrame") or 0
        wanted = stack[first:first + (given.get("levels") or len(stack))]
        return {
            "stackFrames": [
                {
                    "id": self.handle(self.frames, one),
                    "name": self.title(one),
                    "line": 0,
                    "column": self.base,
                    **self.source(one),
                }
                for one in wanted
            ],
            "totalFrames": len(stack),
        }

    def title(self, frame: Frame) -> str:
        """The name of a frame, and how it is."""
        if frame.leg is None:
            return f"{self.name('run', frame.run)}: {self.board.runs[frame.run]}"
        stand, job = self.board.legs[frame.leg], self.record.legs[frame.leg].job["number"]
        if frame.step is None:
            return f"{self.name('job', job)}: {self.board.jobs[job]}; leg {frame.leg}: {stand}"
        done = stand.steps[frame.step] if frame.step < len(stand.steps) else "running"
        return f"{self.name('step', frame.leg, frame.step)}: {done}"

    def source(self, frame: Frame) -> Body:
        """File and line of a frame; nothing where the file of its run is not known."""
        file, lines = self.files[frame.run], self.lines[frame.run]
        if file is None:
            return {}
        job = self.record.legs[frame.leg].job["number"] if frame.leg is not None else None
        line = lines.get((job, -1 if frame.step is None else frame.step), lines.get((job, -1), 1))
        return {"source": source_of(self.flows[file].path), "line": line - 1 + self.base}

    def handle(self, table: dict[int, Any], one: Any) -> int:
        """The number of a frame or a value. No number is used twice, so that one of an earlier place is
        refused."""
        self.handles += 1
        table[self.handles] = one
        return self.handles

    def on_scopes(self, given: Body) -> Body:
        frame = found(self.frames, given.get("frameId"), "frame")
        around = self.around(frame)
        scopes = {"Outputs": lambda: self.outputs(frame.leg)} if frame.leg is not None else {}
        scopes.update({"Variables": around.variables, "Contexts": around.all_contexts, "Board": self.tree})
        answer: list[Body] = [{"name": name, "variablesReference": self.handle(self.values, value),
                               "expensive": name in ("Contexts", "Board")}
                  for name, value in scopes.items()]
        if frame.leg is not None:
            self.variables_of[answer[1]["variablesReference"]] = frame.leg
        return {"scopes": answer}

    def around(self, frame: Frame) -> Surroundings:
        return Surroundings(self.record, self.board, self.asker, self.masks, frame)

    def outputs(self, leg: int) -> dict[str, Shown]:
        """The outputs of the leg's done steps and the variables that they set, then the leg's own outputs."""
        found = {
            self.record.name("step", leg, at): Shown(
                str(done),
                inside={**done.outputs, **{f"env.{name}": value for name, value in done.variables.items()}},
            )
            for at, done in enumerate(self.board.legs[leg].steps)
        }
        return {**found, **self.board.legs[leg].outputs}

    def tree(self) -> dict[str, Shown]:
        """The board: runs, in them jobs, legs and steps."""
        board, name = self.board, self.record.name
        legs = [
            Shown(
                str(row),
                inside={name("step", leg, at): Shown(str(done)) for at, done in enumerate(row.steps)},
            )
            for leg, row in enumerate(board.legs)
        ]
        jobs = [Shown(str(row), inside={name("leg", leg): legs[leg] for leg in self.record.legs_of[job]})
                for job, row in enumerate(board.jobs)]
        return {
            name("run", run): Shown(
                str(row),
                inside={
                    name("job", job): jobs[job]
                    for job, (owner, _) in enumerate(self.record.jobs)
                    if owner == run
                },
            )
            for run, row in enumerate(board.runs)
        }

    def on_variables(self, given: Body) -> Body:
        value = found(self.values, given.get("variablesReference"), "variables")
        value = value() if callable(value) else value
        pairs = list(value.items() if isinstance(value, dict) else enumerate(value))
        first = given.get("start") or 0
        return {"variables": [{"name": self.masks.hide(str(name)), **self.presented(inner, "value")}
                              for name, inner in pairs[first:first + (given.get("count") or len(pairs))]]}

    def presented(self, value: Any, key: str) -> Body:
        """A value as clients show it: a text, where it comes from, and a number by which its parts are asked
        for."""
        one = value if isinstance(value, Shown) else Shown(as_json(self.masks.hide(value)), inside=value)
        inside = one.inside if isinstance(one.inside, (dict, list)) and one.inside else None
        return {
            key: self.masks.hide(one.text),
            "variablesReference": self.handle(self.values, inside) if inside else 0,
            **({"type": self.masks.hide(one.origin)} if one.origin else {}),
        }

    # Questions

    def on_evaluate(self, given: Body) -> Body:
        expression = text(given, "expression").strip()
        frame = found(self.frames, given["frameId"], "frame") if given.get("frameId") else None
        words = expression.split()
        if given.get("context") == "hover":
            return self.hover(expression, frame)
        if words[:1] == ["why"]:
            return (
                self.why(words[1:] if words[1:] != ["all"] else [])
                if words[1:] or not frame
                else self.why_frame(frame)
            )
        if words[:1] and words[0] in EXPLAINED:
            return self.explained(words[0], words[1:], frame or self.here())
        if words[:1] and words[0] in OF_FILES and given.get("context") == "repl":
            return self.of_files(words[0], expression[len(words[0]):].strip(), frame or self.here())
        if expression == "place":
            return plain(self.masks.hide(f"place {self.walker.place} of {self.walker.last}: {self.record.happened(self.walker.place)}"))
        if len(words) == 2 and words[0] == "goto" and words[1].isdigit():
            return {**self.on_goto({"targetId": int(words[1][:20])}), **plain("")}
        return self.value(expression, frame)

    def hover(self, expression: str, frame: Frame | None) -> Body:
        """Under the mouse a property of a context and a variable have their values, the id of a job or step
        its reasons, and all else those of the frame."""
        if expression.startswith("$") and not has_expression(expression):
            return self.variable(expression, frame)
        reads = references(expression)[0]
        if reads and reads[0].context in CONTEXTS and reads[0].keys:
            return self.value(expression, frame)
        steps = self.record.legs[frame.leg].job["steps"] if frame and frame.leg is not None else []
        for at, step in enumerate(steps):
            if frame and expression in (step["id"], step["name"]):
                return self.why(["step", str(frame.leg), str(at)])
        for number, (run, job) in enumerate(self.record.jobs):
            if expression == job["id"] and frame and run == frame.run:
                return self.why(["job", str(number)])
        if frame and expression in self.around(frame).variables():
            return self.variable(expression, frame)
        return self.why_frame(frame) if frame else self.why([])

    def variable(self, word: str, frame: Frame | None) -> Body:
        """The value of a shell variable in a frame, written `$NAME`, `${NAME}` or `NAME`."""
        name = VARIABLE.match(word)
        if name is None:
            raise Problem(f"{word} names no variable")
        known = self.around(frame or self.here()).variables()
        if name[2] not in known:
            raise Problem(f"{name[2]} is set by no `env` and no step before{near(name[2], known)}")
        return self.presented(known[name[2]], "result")

    def explained(self, word: str, words: list[str], frame: Frame) -> Body:
        """What `explain` and `values` say of a part, else of the frame: what decided it, or what it sees."""
        explainer = self.explainer()
        here = ["run", str(frame.run)] if frame.leg is None else ["leg",
                                                                  str(frame.leg)] if frame.step is None else \
            ["step", str(frame.leg), str(frame.step)]
        part = part_of(explainer, " ".join(words), here)
        lines = text_of(explainer.explain(self.walker.place, part, EXPLAINED[word]), EXPLAINED[word])
        return plain(self.masks.hide("\n".join(lines)))

    def explainer(self) -> Explainer:
        """What answers questions about the record."""
        flows = kept_flows(self.path, self.record.legs)
        return Explainer(self.record, self.masks, self.walker.board_at, flows, self.logs)

    def of_files(self, word: str, rest: str, frame: Frame) -> Body:
        """What a step changed, a file as it was at this place, or a shell in a copy of the workspace."""
        files, place = KeptFiles(self.explainer(), self.path), self.walker.place
        if word == "shell":
            with files.then(place, frame):  # (or there is none)
                path = self.path if self.path.stat().st_size else self.path.with_name("record.part")
            words = ["--shell", os.path.abspath(path), str(place), str(frame.leg)]
            return self.open_terminal(
                f"{self.name('leg', files.leg(frame))} at {place}", str(path.parent), *words
            )
        asked = files.changes(place, frame, rest) if word == "files" else files.content(place, frame, rest)
        return plain("\n".join(map(visible, asked)))

    def open_terminal(self, title: str, folder: str, *words: str) -> Body:
        """Has the client open a terminal with a shell of `actrun dap`."""
        if not self.client.get("supportsRunInTerminalRequest"):
            raise Problem(f"this editor opens no terminal: write `actrun dap {' '.join(map(shlex.quote, words))}` into one")
        asked = {"kind": "integrated", "title": f"actrun: {title}", "cwd": folder,
                 "args": [sys.executable, str(FRONT), "dap", *words], "env": {"ACTRUN_PROGRAM": self.program}}
        return {**self.later(self.ask_client, "runInTerminal", asked, self.heard_terminal), **plain("")}

    def heard_terminal(self, answer: Body) -> None:
        """Says why the client opened no terminal."""
        if not answer.get("success"):
            why = answer.get("message") or "it says nothing"
            self.print(f"shell: the editor opened no terminal: {why}\n", "important")

    def why_frame(self, frame: Frame) -> Body:
        if frame.leg is None:
            return self.why(["run", str(frame.run)])
        return self.why(
            ["leg", str(frame.leg)] if frame.step is None else ["step", str(frame.leg), str(frame.step)]
        )

    def why(self, words: list[str]) -> Body:
        return plain(
            self.masks.hide(self.record.why(self.walker.place, words))
            or "all that has happened so far succeeded"
        )

    def here(self) -> Frame:
        """The frame at the top of the thread that stopped last."""
        begun = self.record.begun(self.thread, self.walker.place)
        return Frame(self.record.legs[self.thread].run, self.thread, begun - 1 if begun else None)

    def on_completions(self, given: Body) -> Body:
        """What may be in place of the last word before a column."""
        frame = found(self.frames, given["frameId"], "frame") if given.get("frameId") else self.here()
        around = self.around(frame)
        before = text(given, "text", "")[:max(0, given["column"] - self.column)]
        return {"targets": completed(before, self.words_of_console(), around.all_contexts, around.variables,
                                     self.column)}

    def words_of_console(self) -> list[str]:
        """The words of the console, apart from expressions."""
        return ["why", "goto", "place", *EXPLAINED, *OF_FILES]

    def value(self, expression: str, frame: Frame | None) -> Body:
        """The value of an expression in a frame, or in that of the thread that stopped last."""
        try:
            value, notes = self.around(frame or self.here()).evaluate(expression)
        except EvaluationError as fault:
            raise Problem(f"{self.masks.hide(expression)}: {fault}") from None
        body = self.presented(value, "result")
        return {**body, "result": body["result"] + "".join(f" ({note})" for note in notes)}

    def on_exceptionInfo(self, given: Body) -> Body:
        self.leg(given)
        if self.hit is None:
            raise Problem("the record is at no exception")
        return {
            "exceptionId": self.hit.filter,
            "description": self.why(list(self.hit.words))["result"],
            "breakMode": "always",
        }


def text(given: Body, name: str, otherwise: str | None = None) -> str:
    """A text among the arguments of a request, not empty where there is no other."""
    value = given.get(name, otherwise)
    if not isinstance(value, str) or not (value or otherwise is not None):
        raise Problem(f"`{name}` has to be a text")
    return value


def found(table: dict[int, Any], number: Any, kind: str) -> Any:
    """What a number that the client was given means."""
    if number not in table:
        raise Problem(f"there is no {kind} {number} at this place: ask for the stackTrace again")
    return table[number]


def source_of(path: pathlib.Path) -> Body:
    """A file as the client opens it."""
    return {"name": path.name, "path": str(path)}


def expression_of(text: str) -> str:
    """The expression of a condition, which may be written in `${{ }}`."""
    return template_expression(text.strip()) if has_expression(text) else text


def shown_value(value: Any) -> str:
    """A value in a logged message."""
    return "" if value is None else as_json(value)


def as_json(value: Any) -> str:
    """A value on one line; a text as itself."""
    return value if isinstance(value, str) else json.dumps(value, ensure_ascii=False)


def plain(words: str) -> Body:
    return {"result": words, "variablesReference": 0}
