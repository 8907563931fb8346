"""An execution before the eyes of an editor: what has happened is a record, and `try` executes the rest."""
from __future__ import annotations

import codecs
import contextlib
import json
import os
import pathlib
import signal
import socket
import subprocess
import sys
import threading
from concurrent.futures import Future
from typing import Any, Callable, Union

from . import Problem
from .dap_lines import Workflow
from .dap_record import Mishap, Walker
from .dap_session import FRONT, OF_FILES, VARIABLE, Body, Session, Thing, found, plain, text
from .dap_stops import Stop
from .live_control import DESCRIPTOR, Link, connected
from .live_places import Place
from .values import Frame

PATIENCE = 15.0          # seconds until an execution that has to end is killed
LAST_LINES = 20          # of what `try` says where it refuses to execute
OF_RECORDS = {"env", "why", "explain", "values", "help", "print"}  # asks the record, apart from `print NAME`
GOING_ON = {"continue", "next", "skip", "fail"}
# of stops, by those of the control
REASONS = {"break": "breakpoint", "given": "breakpoint", "step": "step", "failed": "exception"}
GOOD = {"closed success", "closed skipped"}  # states of runs
SEEN = ("skipped", "cancelled", "displaced")  # filters of what no leg waits for
Answer = Union[Body, "Future[Body]"]


class Live(Session):
    """An execution. The client looks at its record, at the last place or before. A leg that waits at a break
    is at the last place."""

    post: Callable[[Callable[[], None]], None]      # has work done by the thread that answers
    process: subprocess.Popen[bytes] | None = None  # where the client launched the execution
    link: Link
    ready: Future[Body]                             # when something is planned
    waiting: Body | None = None                     # the leg that waits, as the control told
    looking = False                                 # the client was told that something stopped
    begun = ended = quitting = stepping = False
    is_quiet = False                                # nothing stops
    is_before = False                               # the client looks at the begin of the step that failed
    data = b""                                      # the record so far
    seen = 0                                        # the places whose mishaps were told
    counts: dict[int, int]                          # the steps of legs that have begun
    running: Future[Body] | None = None             # what executes at a break

    # The beginning and the end

    def on_launch(self, given: Body) -> Answer:  # type: ignore[override]
        if self.launched:
            raise Problem("a record was launched before")
        if given.get("record"):
            raise Problem("`live` executes a repository: leave `record` out, or `live`")
        folder = pathlib.Path(text(given, "cwd", "."))
        self.top = folder / text(given, "program", ".")
        if not self.top.is_dir():
            raise Problem(f"{self.top}: there is no such folder; `program` has to name one of the repository")
        event, job = given.get("event"), given.get("job")
        options = [*(["-j", job] if job else []), *(given.get("options") or []), *([event] if event else [])]
        self.words = ["try", "-C", str(self.top), *options]
        self.at_entry = given.get("stopOnEntry") is True and not given.get("noDebug")
        if given.get("noDebug"):
            self.filters, self.is_quiet = set(), True
        return self.execute()

    def execute(self) -> Answer:
        """Starts `try`; what is given is there when something is planned."""
        ours, theirs = socket.socketpair()
        self.ready, self.then = Future(), self.after
        self.shown: list[str] = []
        environment = {**os.environ, DESCRIPTOR: str(theirs.fileno())}
        with theirs:
            self.process = process = subprocess.Popen(
                [sys.executable, str(FRONT), *self.words], env=environment, stdin=subprocess.DEVNULL,
                stdout=subprocess.PIPE, stderr=subprocess.PIPE, pass_fds=[theirs.fileno()],
                start_new_session=True)
        self.connect(ours)
        threading.Thread(target=self.watch, args=(process,), daemon=True).start()
        return self.ready

    def watch(self, process: subprocess.Popen[bytes]) -> None:
        """Hands on what `try` prints, and its end."""
        streams = [(process.stdout, "stdout"), (process.stderr, "stderr")]
        readers = [threading.Thread(target=self.read, args=one, daemon=True) for one in streams]
        for reader in readers:
            reader.start()
        for reader in readers:
            reader.join()
        status = process.wait()
        self.post(lambda: self.over_with(process, status))

    def read(self, stream: Any, category: str) -> None:
        """Hands on what a stream has."""
        decoder = codecs.getincrementaldecoder("utf-8")("replace")
        with stream:
            while True:
                part = os.read(stream.fileno(), 1 << 16)
                words = decoder.decode(part, not part)
                self.post(lambda words=words: self.print_of(words, category))  # type: ignore[misc]
                if not part:
                    return

    def print_of(self, words: str, category: str) -> None:
        """Shows what `try` prints."""
        if category == "stderr" and not self.ready.done():
            self.shown = [*self.shown, *words.splitlines()][-LAST_LINES:]
        if words:
            self.print(words, category)

    def connect(self, connection: socket.socket) -> None:
        """Hears what the execution tells."""
        def hear(event: Body) -> None:
            self.post(lambda: self.hear(event))
        self.link = Link(connection, hear, lambda: self.post(self.leave)).open()

    def on_attach(self, given: Body) -> Answer:  # type: ignore[override]
        folder = pathlib.Path(text(given, "cwd", ".")) / pathlib.Path(text(given, "folder")).expanduser()
        self.at_entry, self.begun, self.top, self.ready = False, True, folder, Future()
        self.ready.set_result({})
        self.connect(connected(folder))
        try:
            self.take_plan()
            self.waiting = self.link.ask("state")["waiting"] or None
        except BaseException:
            self.link.close()
            raise
        return self.later(self.send, "initialized", {})

    def take_plan(self) -> None:
        """Takes what is executed: the plan, and the lines of its jobs and steps."""
        told = self.link.ask("plan")
        self.folder, self.commands = pathlib.Path(told["folder"]), told["commands"]
        self.logs = None if self.process else pathlib.Path(told["logs"])
        self.path, self.plan = self.folder / "private" / "record", told["plan"].encode() + b"\n"
        self.data = b""
        self.refresh()
        self.flows, self.files, self.lines, self.changed = {}, [], [], {}
        for run in told["runs"]:
            file = os.path.realpath(run["file"])
            with contextlib.suppress(Problem):  # (`try` reads what is no workflow any more)
                self.flows[file] = Workflow(pathlib.Path(run["file"]), self.program)
            self.files.append(file if file in self.flows else None)
            self.lines.append({(job, step): line for job, step, line in run["lines"]})
        self.alive, self.seen, self.counts, self.launched = set(), 0, {}, True
        self.hear_record(told["record"])
        self.refresh()

    def refresh(self) -> None:
        """Reads the record as it is, to its end."""
        before = self.walker if self.launched else None
        self.load(self.path, self.data or self.plan)
        if before:
            before.close()
        self.stops.forget()
        self.look_anew()

    def begin(self) -> None:
        """Lets the execution begin, or stops before that."""
        self.send_breaks()
        if self.at_entry:
            self.looking = True
            self.stop("entry")
        elif self.begun:
            self.show_waiting()
        else:
            self.go_on("continue")

    def on_restart(self, given: Body) -> Answer:  # type: ignore[override]
        if self.process is None:
            raise Problem("only what was launched here can begin again")
        self.end()
        self.waiting, self.looking, self.begun, self.ended, self.quitting = None, False, False, False, False
        return self.execute()

    def on_terminate(self, given: Body) -> Body:
        if self.ended or self.process is None:
            return self.later(self.send, "terminated", {})
        self.quitting = True
        return self.later(self.link.later, "quit")

    def on_disconnect(self, given: Body) -> Body:
        if given.get("terminateDebuggee") is True and self.process is None and not self.ended:
            self.link.ask("quit")
        self.over = True
        return {}

    def close(self) -> None:
        self.end()
        super().close()

    def end(self) -> None:
        """Ends the execution where the client launched it, and leaves it else."""
        if hasattr(self, "link"):
            self.link.close()
        process, self.process = self.process, None
        if process and process.poll() is None:
            try:  # (which ends its steps once its client has gone)
                process.wait(PATIENCE)
            except subprocess.TimeoutExpired:
                os.killpg(process.pid, signal.SIGKILL)
                process.wait()
        self.process = process

    def over_with(self, process: subprocess.Popen[bytes], status: int) -> None:
        """Takes the end of the execution that was launched."""
        if process is not self.process:
            return
        self.ended, self.waiting, self.status = True, None, status
        if not self.ready.done():
            lines = [line.removeprefix("actrun: ") for line in self.shown if line.startswith("actrun: ")]
            why = "\n".join(lines or self.shown[-1:])
            self.ready.set_exception(Problem(why or f"`try` ended with status {status}"))
        elif self.path.is_file() and status and not (self.quitting or self.is_quiet):
            self.data = self.path.read_bytes()
            self.show_end()
        else:
            self.finish()

    def leave(self) -> None:
        """Takes the end of an execution to which the client attached."""
        if self.process is None and not self.ended and self.launched:
            self.ended, self.waiting = True, None
            self.data = self.path.read_bytes() if self.path.is_file() else self.data
            walker = Walker(self.program, self.path, self.data or self.plan)
            walker.go(f"goto {walker.last}")
            self.status = int(any(run.state not in GOOD for run in walker.show().runs))
            walker.close()
            if self.status:
                self.show_end()
            elif not self.looking:
                self.finish()

    def show_end(self) -> None:
        """Stops at the end of the record, from where the client can go back."""
        self.print("the execution has ended: go back, or continue to end the session\n", "console")
        if not self.looking:
            self.looking = True
            self.refresh()
            self.stop("pause")

    def finish(self) -> None:
        """Tells the client that all is over."""
        self.send("exited", {"exitCode": self.status})
        self.send("terminated", {})

    # What the execution tells

    def hear(self, event: Body) -> None:
        """Takes an event."""
        kind = event["event"]
        if kind == "planned":
            self.hear_planned()
        elif kind == "record":
            self.hear_record(event["text"])
        elif kind == "text":
            self.print(event["text"], "console")
        elif kind == "stopped":
            self.waiting = event
            self.show_waiting()
        elif kind == "continued" and self.waiting:
            self.hear_continued()

    def hear_continued(self) -> None:
        """Takes it that somebody else let the leg go on."""
        self.waiting, self.looking = None, self.looking and not self.is_present()
        if not self.looking:
            self.send("continued", {"threadId": self.thread + 1, "allThreadsContinued": True})

    def hear_planned(self) -> None:
        """Takes a plan, and goes on where one was executed before."""
        if self.ready.done():  # (what a strategy needed was executed first)
            self.take_plan()
            self.set_again()
            self.link.ask("go")
            return
        try:
            self.take_plan()
            if self.configured:
                self.set_again()
        except Exception as fault:
            self.link.close()
            return self.ready.set_exception(fault)
        self.then.append(self.begin if self.configured else lambda: self.send("initialized", {}))
        self.ready.set_result({})

    def hear_record(self, words: str) -> None:
        """Takes lines of the record."""
        self.data += words.encode()
        for line in words.splitlines():
            entry = json.loads(line)
            event, leg = entry.get("event"), entry.get("leg", -1)
            if event in ("take", "finish", "drop") and not self.looking:
                self.tell_thread(event == "take", leg)
            elif event == "begin":
                self.counts[leg] = self.counts.get(leg, 0) + 1
            elif event == "end":  # (of an execution that prints elsewhere)
                self.print_log(leg, self.counts[leg] - 1)
        if self.filters.intersection(SEEN) and not (self.looking or self.is_quiet) and self.configured:
            self.look_for_mishaps()

    def tell_thread(self, begins: bool, leg: int) -> None:
        """Tells the client that a leg has begun or ended."""
        if begins != (leg in self.alive):
            self.alive ^= {leg}
            self.send("thread", {"reason": "started" if begins else "exited", "threadId": leg + 1})

    def print_logs(self, before: int, now: int) -> None:
        """Prints nothing on a way through what was shown while it was executed."""

    def look_for_mishaps(self) -> None:
        """Stops where something was skipped or cancelled since the last look. The execution goes on."""
        self.refresh()
        filters = self.filters.intersection(SEEN)
        known = [one for one in self.failures.result() if one.filter in filters and one.place > self.seen]
        self.seen = max([self.seen, *(one.place for one in known)])
        if known:
            first = min(known, key=lambda one: one.place)
            self.looking = True
            self.move(f"goto {first.place}", "exception", leg=self.record.focus(first.about()), hit=first)

    def show_waiting(self) -> None:
        """Stops the client at the leg that waits, unless it looks at something or no breakpoint holds."""
        told = self.waiting
        if told is None or self.looking or not self.configured:
            return
        self.refresh()
        if self.stepping:
            self.stepping = False
            self.link.ask("stop", legs=[])
        held = self.held((told["leg"], told["step"])) if told["why"] == "break" else []
        for stop in held or ():
            if stop.log:
                self.log(stop, self.place_of(told["leg"], told["step"]))
        hits = [stop.number for stop in held or () if not stop.log]
        if held is not None and told["why"] == "break" and not hits:
            self.go_on("continue")
            return
        self.walker.go(f"goto {self.walker.last}")
        self.stop_at(told, hits)

    def stop_at(self, told: Body, hits: list[int], reason: str = "") -> None:
        """Tells the client which leg waits."""
        self.looking = True
        failed = told["why"] == "failed"
        words = f"{told['title']} failed, {told['answer']}" if failed else f"before {told['title']}"
        hit = Mishap(self.walker.place, "failed", words, ("step", str(told["leg"]), str(told["step"])))
        reason = reason or REASONS[told["why"]]
        self.stop(reason, leg=told["leg"], hits=hits, hit=hit if failed else None, fact=words)

    def held(self, pair: Place) -> list[Stop] | None:
        """The breakpoints that hold at a step; None where the step has a break that is not the client's."""
        of_pair = [stop for stop in self.stops.all() if pair in stop.pairs]
        place = self.place_of(*pair)
        return [stop for stop in of_pair if self.stops.hold(stop, place)] if of_pair else None

    def place_of(self, leg: int, step: int) -> int:
        """Where a step that waits began."""
        begins = self.record.begins[leg]
        return begins[step] if step < len(begins) else self.record.last

    # Breakpoints

    def places_of(self, things: list[Thing]) -> list[int]:
        """Where the steps of a line begin, and the first steps of its jobs."""
        return self.record.places_of([(job, max(step, 0)) for job, step in things])

    def named(self, name: str) -> set[Place]:
        try:
            return {(leg, step) for leg, step in self.link.ask("places", name=name)["places"]}
        except Problem as problem:
            raise Problem(str(problem).removeprefix(f"--break {name}: ")) from None

    def send_breaks(self) -> None:
        """Tells the execution where legs have to wait."""
        if not self.ended and not self.is_quiet:
            pairs = sorted({pair for stop in self.stops.all() for pair in stop.pairs})
            self.link.ask("breaks", places=pairs, failed="failed" in self.filters)

    def on_setBreakpoints(self, given: Body) -> Body:
        owner = f"setBreakpoints {text(given.get('source') or {}, 'path')}"
        return self.keep_set(owner, given, super().on_setBreakpoints(given))

    def on_setFunctionBreakpoints(self, given: Body) -> Body:
        return self.keep_set("setFunctionBreakpoints", given, super().on_setFunctionBreakpoints(given))

    def on_setExceptionBreakpoints(self, given: Body) -> Body:
        return self.keep_set("", given, super().on_setExceptionBreakpoints(given))

    def keep_set(self, owner: str, given: Body, answer: Body) -> Body:
        """Keeps what breakpoints a client set, for another plan, and tells the execution."""
        self.set = {**getattr(self, "set", {}), **({owner: given} if owner else {})}
        if self.configured:
            self.send_breaks()
        return answer

    def set_again(self) -> None:
        """Sets the breakpoints of the client in another plan."""
        for owner, given in getattr(self, "set", {}).items():
            getattr(Session, f"on_{owner.partition(' ')[0]}")(self, given)
        self.send_breaks()

    # Moves

    def is_present(self) -> bool:
        """Whether the client looks at the last place of an execution that goes on."""
        return not self.ended and self.walker.place == self.walker.last and not self.is_before

    def go_on(self, command: str) -> None:
        """Lets the leg that waits go on by a line of the prompt, or the execution begin."""
        self.check_rest()
        told, self.waiting, self.looking = self.waiting, None, False
        if not self.begun:
            self.begun = True
            if command == "next":
                self.stepping = True
                self.link.ask("stop", legs=[leg.number for leg in self.record.legs])
            self.link.ask("go")
        elif told:
            self.link.ask(command)
        elif command == "next":
            self.link.ask("stop", legs=[self.thread])

    def past_all(self, here: int, forward: bool) -> None:
        if not forward:
            return super().past_all(here, forward)
        if self.ended and here == self.walker.last:
            return self.finish()
        if self.ended:
            return super().past_all(here, forward)
        self.to_the_present(here)

    def to_the_present(self, here: int) -> None:
        """Goes to the leg that waits, or looks no more where none does."""
        self.looking = False
        if self.waiting and here == self.walker.last and not self.is_before:
            self.go_on("continue")
        elif self.waiting:
            self.refresh()
            self.stop_at(self.waiting, [], "pause")
        else:
            self.refresh()
            self.print("all that has happened is shown; the execution goes on\n", "console")

    def check_rest(self) -> None:
        """Raises Problem while the step executes at its break."""
        if self.running and not self.running.done():
            raise Problem("the step is being executed: pause ends it")

    def on_continue(self, given: Body) -> Body:
        self.check_rest()
        followed = self.later(self.go_on, "continue") if self.is_present() else self.later(self.resume, True)
        return {**followed, "allThreadsContinued": True}

    def on_next(self, given: Body) -> Body:
        self.check_rest()
        leg = self.leg(given)
        if self.is_present():
            return self.later(self.go_on, "next")
        if self.ended and self.walker.place == self.walker.last:
            return self.later(self.finish)
        begins = self.record.begins[leg]
        if not self.ended and self.record.begun(leg, self.walker.place) == len(begins):
            return self.later(self.to_the_present, self.walker.place)
        return super().on_next(given)

    def on_stepBack(self, given: Body) -> Body:
        told, here = self.waiting, self.walker.place
        begins = self.record.begins[self.leg(given)]
        if told and told["why"] == "failed" and self.is_present() and begins[-1:] == [here]:
            return self.later(self.look_before)  # (its end has no place yet)
        return super().on_stepBack(given)

    def look_before(self) -> None:
        """Looks at the begin of the step that waits after it failed."""
        self.look_anew()
        self.is_before = True
        self.stop("step")

    def look_anew(self) -> None:
        super().look_anew()
        self.is_before = False

    def on_stepIn(self, given: Body) -> Body:
        if self.is_present() or self.ended and self.walker.place == self.walker.last:
            return self.on_next(given)
        return super().on_stepIn(given)

    def on_stepOut(self, given: Body) -> Body:
        return self.on_continue(given) if self.is_present() else super().on_stepOut(given)

    def on_pause(self, given: Body) -> Body:
        """Stops before the next step of a leg; what executes is not interrupted."""
        leg = self.leg(given)
        if self.running and not self.running.done():
            self.link.ask("interrupt")
            return {}
        if self.looking or self.ended:
            return super().on_pause(given)
        self.link.ask("stop", legs=[leg])
        self.print(f"{self.name('leg', leg)} stops before its next step\n", "console")
        return {}

    def on_restartFrame(self, given: Body) -> Answer:  # type: ignore[override]
        frame = found(self.frames, given.get("frameId"), "frame")
        told = self.waiting
        if told and self.is_present() and frame.leg == told["leg"] and frame.step in (None, told["step"]):
            return self.run_again(told)
        return super().on_restartFrame(given)

    def run_again(self, told: Body) -> Future[Body]:
        """Executes the step that waits; then the client looks at it again."""
        self.check_rest()
        self.after.append(lambda: self.show_run(told))
        self.running = self.link.later("run")
        return self.running

    def show_run(self, told: Body) -> None:
        """Stops at a step that was executed at its break."""
        if self.waiting == told:
            self.refresh()
            self.waiting = {**told, **self.link.ask("state")["waiting"]}
            self.stop_at(self.waiting, [], "restart")

    # What is seen

    def threads(self) -> list[int]:
        if not self.looking:
            return sorted(self.alive) or super().threads()
        return sorted({*super().threads(), *([self.waiting["leg"]] if self.waiting else [])})

    def title(self, frame: Frame) -> str:
        told = self.waiting
        if told and self.is_present() and (frame.leg, frame.step) == (told["leg"], told["step"]):
            until = f"after {told['answer']}" if told["answer"] else "to begin"
            return f"{self.name('step', told['leg'], told['step'])}: waits {until}"
        return super().title(frame)

    def words_of_console(self) -> list[str]:
        return list(dict.fromkeys([*super().words_of_console(), *self.commands]))

    def on_evaluate(self, given: Body) -> Answer:  # type: ignore[override]
        line = text(given, "expression").strip()
        word, _, rest = line.partition(" ")
        is_command = word in self.commands and (word not in OF_RECORDS or word == "print" and rest)
        if given.get("context") != "repl" or not is_command:
            return super().on_evaluate(given)
        told = self.waiting
        if told is None or not self.is_present():
            if word in OF_FILES:
                return super().on_evaluate(given)
            raise Problem(f"{word}: no leg waits here at a break")
        self.quitting |= word == "quit"
        if word == "shell":
            return self.open_terminal(told["title"], str(self.top.resolve()), "--shell", str(self.folder))
        if word == "run":
            done: Future[Body] = Future()
            self.run_again(told).add_done_callback(lambda run: hand_on(run, done))
            return done
        if word in GOING_ON:
            return {**self.later(self.go_on_as_asked, word), **plain("")}
        return plain(self.link.ask(line, keep=True)["text"].rstrip("\n"))

    def go_on_as_asked(self, word: str) -> None:
        """Lets the leg that waits go on by a word of the console."""
        self.go_on(word)
        self.send("continued", {"threadId": self.thread + 1, "allThreadsContinued": True})

    def variable(self, word: str, frame: Frame | None) -> Body:
        """The value that the step that waits has of a shell variable; else that of the record."""
        told, name = self.waiting, VARIABLE.match(word)
        if not (told and name and self.is_present() and (frame is None or frame.leg == told["leg"])):
            return super().variable(word, frame)
        return plain(self.link.ask(f"print {name[2]}", keep=True)["text"].rstrip("\n"))

    def on_exceptionInfo(self, given: Body) -> Body:
        told = self.waiting
        if not (told and told["why"] == "failed" and self.is_present()):
            return super().on_exceptionInfo(given)
        words = f"{told['title']} failed, {told['answer']}"
        return {"exceptionId": "failed", "description": words, "breakMode": "always"}


def hand_on(run: Future[Body], done: Future[Body]) -> None:
    """Ends what waits for a step that was executed."""
    fault = run.exception()
    if fault:
        done.set_exception(fault)
    else:
        done.set_result(plain(""))


def open_shell(folder: str) -> int:
    """Opens a shell on this terminal where the step that waits executes; gives the exit status."""
    if not os.isatty(0):
        print("actrun: dap --shell: standard input is no terminal", file=sys.stderr)
        return 2

    def show(event: Body) -> None:
        if event["event"] == "text":
            sys.stdout.write(event["text"].replace("\n", "\r\n"))  # (the terminal may be raw)
            sys.stdout.flush()
    try:
        link = Link(connected(pathlib.Path(folder)), show, lambda: None).open()
        link.later("shell", handed=0).result()
        return 0
    except Problem as problem:
        print(f"actrun: dap --shell: {problem}", file=sys.stderr)
        return 2
