"""Breaks: a leg waits before a step, or after one that failed, and a person decides how it goes on.

The connection of each step of such a leg comes here instead of going to the leg's agent. Each time that the
step is executed the agent gets its request again. The last answer goes to the shim, so the record has one
answer of each step.
"""
from __future__ import annotations

import contextlib
import errno
import functools
import marshal
import os
import re
import select
import shlex
import signal
import socket
import sys
import threading
import time
from dataclasses import dataclass, field
from typing import TYPE_CHECKING, Any, Callable, Iterator

from . import Problem
from .dap_logs import Masks, walk
from .execute import program
from .explain import near
from .live_control import DESCRIPTOR, NAME, Control
from .live_edit import Edit, changes
from .live_look import looking
from .live_places import FAILED, Known, Place, known_in, places_of, shown_steps, with_condition
from .live_prompt import Prompt, Stopped, carry, check_input, on_terminal, write_all
from .live_words import Words
from .lower_containers import DOCKER
from .prompt_words import CONTEXTS, EXPLAIN, finder, full_name, help_lines, history_file, printed
from .relay import MOST, Relay, read_all, step_of
from .values import syntax_fault
from .visible import visible_log

if TYPE_CHECKING:
    from .attempt import Trial
    from .broker import Broker

MOST_KEPT = 1 << 18     # bytes of a step's output that `log` shows
MOST_LISTED = 1 << 22   # bytes of the variables of a step
SHOWN = 10              # lines of the output that a break shows at once
WITHIN = 5.0            # seconds until a step that has to end was sent a signal
LOOK = 0.1              # seconds between two looks for that
NONE = 2 ** 32 - 1      # the length of a file that a step cannot hand on
ENDED = 130             # the status of a step that was ended at a prompt
COMMANDS = {
    "shell": "open a shell in the leg's sandbox, with the folder, the variables and the PATH of the step",
    "run (r)": "execute the step; again as often as you want, the last time counts",
    "script, edit": "print the step's script; change it in $EDITOR for `run` and `continue`",
    **EXPLAIN,
    "files [PATH]": "list what this leg changed in its workspace since the step before; the difference of a file",
    "cat PATH": "print a file of the leg's workspace",
    "log [PATTERN], /TEXT": "print what the step printed; find a text in the logs of all steps that have ended",
    "list (l), bt, info legs": "print the workflow's lines; step, job and run; the legs",
    "break PLACE (b), tbreak PLACE": "stop there, always or once: failed, a step's name or id, a job,",
    "break PLACE if EXPR": "  JOB/STEP, FILE:LINE; only where EXPR is true",
    "watch EXPR (w)": "stop before a step of this leg where the value of an expression has changed",
    "delete [N] (d), info breaks": "remove a break by its number or its text, or all; list them",
    "next (n), until PLACE (u)": "go on, and stop before the next step of this leg; before a step, once",
    "continue (c)": "go on: with the last answer of the step, or by executing it",
    "skip": "go on, as if the step had succeeded",
    "fail": "go on, as if the step had failed",
    "quit (q)": "end the execution, as Ctrl-C does elsewhere",
    "help [WORD] (h)": "print these lines"}
SHORT = {"c": "continue", "n": "next", "r": "run", "p": "print", "q": "quit", "h": "help", "b": "break",
         "d": "delete", "l": "list", "i": "info", "w": "watch", "s": "next", "step": "next", "u": "until",
         "finish": "continue", "where": "bt", "pp": "print"}
# words of the prompt of `debug`
OF_PAST = (
    "back",
    "rs",
    "reverse-step",
    "rn",
    "reverse-next",
    "rc",
    "reverse-continue",
    "goto",
    "go",
    "go-back",
    "jump",
    "j",
    "frame",
    "f",
)
# commands with an argument
TAKES = {
    "break",
    "tbreak",
    "watch",
    "until",
    "delete",
    "info",
    "print",
    "why",
    "explain",
    "values",
    "files",
    "cat",
    "log",
    "list",
    "search",
    "help",
}
# a script that does something where the script of a step would begin; also where the prelude gives up
ENTER = "exec 3>&1 >/dev/null\ntrap 'exec >&3 3>&-; {then}' EXIT\n. \"$ACTRUN_PRELUDE\"\nexit 0\n"
LIST = r'printf "\0actrun\0"; command -p env -0'


@dataclass
class Answer:
    """How a step ended, and what it hands on."""

    status: int
    left: list[bytes | None]

    def data(self) -> bytes:
        """The bytes that the shim reads."""
        lengths = [NONE if text is None else len(text) for text in self.left]
        head = self.status.to_bytes(4, "little", signed=True)
        texts = [text or b"" for text in self.left]
        return b"".join((head, *(length.to_bytes(4, "little") for length in lengths), *texts))

    def words(self) -> str:
        """How it ended."""
        return f"exit {self.status}" if self.status >= 0 else f"signal {-self.status}"


@dataclass
class Output:
    """What a step prints once: `raw` takes the bytes, `text` those after the lines with the mark."""

    mark: bytes
    raw: Callable[[bytes], Any]
    text: Callable[[bytes], Any]
    repeated: bool = False        # `raw` has had lines with the mark
    pending: bytes | None = b""   # until the first line without the mark

    def take(self, data: bytes) -> None:
        """Takes more."""
        if not self.repeated:
            self.raw(data)
        if self.pending is not None:
            data, self.pending = self.pending + data, b""
            while data.startswith(self.mark) and b"\n" in data:
                data = data.partition(b"\n")[2]
            if data.startswith(self.mark) or self.mark.startswith(data):
                self.pending = data
                return
            self.pending = None
        if self.repeated:
            self.raw(data)
        self.text(data)

    def end(self) -> None:
        """Takes what waited for more."""
        rest, self.pending = self.pending, None
        if rest and not rest.startswith(self.mark):
            if self.repeated:
                self.raw(rest)
            self.text(rest)


@dataclass
class Given:
    """A break that was set: its number, its text, the steps before which it stops, and what has to be so."""

    number: int
    text: str
    places: set[Place]
    condition: str = ""
    once: bool = False
    watched: bool = False  # it stops where the value of the condition has changed
    value: Any = None

    def names(self) -> set[str]:
        """How it can be named."""
        return {str(self.number), self.text, self.text.partition(" if ")[0], self.condition}


@dataclass
class Breaks:
    """The breaks of one execution."""

    trial: Trial
    given: list[Given]
    prompt: Prompt
    broker: Broker | None = None
    count: int = 0                                           # of the breaks that were set
    edits: list[Edit] = field(default_factory=list)          # of scripts, by hand
    next: set[int] = field(default_factory=set)              # legs that stop before their next step
    spent: dict[int, float] = field(default_factory=dict)    # leg -> seconds in breaks that are over
    since: dict[int, float] = field(default_factory=dict)    # leg -> when the break began that it is in
    by_hand: list[str] = field(default_factory=list)         # what a person did, in sentences
    sets: dict[Any, tuple[set[Place], bool]] = field(default_factory=dict)  # breaks of clients of the control
    one: threading.Lock = field(default_factory=threading.Lock)

    @functools.cached_property
    def known(self) -> Known:
        """All that may be named."""
        return known_in(self.trial)

    def add(self, text: str, once: bool = False) -> Given:
        """Sets a break. Raises Problem if its text names no step."""
        name, condition = with_condition(self.known, text)
        places = places_of(self.known, [name])
        fault = syntax_fault(program(), condition) if condition else ""
        if fault:
            raise Problem(f"--break {text}: {fault}")
        known = next((one for one in self.given if one.text == text), None)
        return known or self.given_one(text, places, condition, once)

    def given_one(self, *given: Any, **more: Any) -> Given:
        """A new break, with the next number."""
        self.count += 1
        self.given.append(Given(self.count, *given, **more))
        return self.given[-1]

    def watch(self, expression: str, place: Place, value: Any) -> Given:
        """Watches a value in the later steps of a leg. Raises Problem if it cannot be read."""
        fault = syntax_fault(program(), expression)
        if fault:
            raise Problem(f"{expression}: {fault}")
        leg, step = place
        places = {(leg, later) for later in shown_steps(self.trial, self.trial.legs[leg]) if later > step}
        return self.given_one(f"watch {expression}", places, expression, watched=True, value=value)

    def remove(self, text: str) -> bool:
        """Removes a break by its number or its text, or all of them; whether there was one."""
        found = [one for one in self.given if not text or text in one.names()]
        self.given = [one for one in self.given if one not in found]
        return bool(found)

    def set_by(self, client: Any, before: set[Place], failed: bool) -> None:
        """Takes all breaks of a client of the control."""
        self.sets = {**self.sets, client: (before, failed)}

    def commands(self) -> list[str]:
        """The first words of the lines of the prompt."""
        return [name[3:] for name in dir(Visit) if name.startswith("do_") and name != "do_search"]

    @property
    def control(self) -> Control:
        """Where clients stop legs."""
        found: Control = self.trial.stages.control
        return found

    @property
    def failed(self) -> bool:
        """Whether steps stop that failed."""
        return any(one.text == FAILED for one in self.given) or any(
            failed for _, failed in self.sets.values()
        )

    def wants(self, leg: int) -> bool:
        """Whether steps of a leg come here."""
        sets = [*(one.places for one in self.given), *(places for places, _ in self.sets.values())]
        return self.failed or leg in self.next or any(leg == place[0] for places in sets for place in places)

    def held(self, leg: int) -> float:
        """The seconds for which a leg has waited in breaks."""
        now = time.monotonic()
        return self.spent.get(leg, 0.0) + now - self.since.get(leg, now)

    def is_free(self, place: Place) -> bool:
        """Whether a step may stop: the execution goes on, and so does the leg."""
        board, trial = self.trial.board, self.trial
        return not trial.execution.signals and place not in board.quiet and not board.ender.cause(*place)

    def stops_before(self, place: Place, holds: Callable[[Given], bool]) -> str:
        """Why a step stops before it executes: `given` by a text, `break` of a client, or `step`, which was
        asked for; nothing where it does not. `holds` says whether a break at the step holds."""
        if not self.is_free(place):
            return ""
        by_next = place[0] in self.next and place[1] in shown_steps(self.trial, self.trial.legs[place[0]])
        self.next -= {place[0]} if by_next else set()
        hit = [one for one in self.given if place in one.places and holds(one)]
        self.given = [one for one in self.given if not one.once or one not in hit]
        is_set = any(place in places for places, _ in self.sets.values())
        return "given" if hit else "break" if is_set else "step" if by_next else ""

    def take(self, leg: int, connection: socket.socket, output: int, reader: int) -> None:
        """Executes the step of a connection in a thread. It prints into `output`, which is read from
        `reader`."""
        os.close(reader)  # (what the step leaves running prints elsewhere)
        threading.Thread(target=self.step, args=(leg, connection, output), daemon=True).start()

    def step(self, leg: int, connection: socket.socket, output: int) -> None:
        """Executes the step of a connection."""
        try:
            Visit.of(self, leg, connection, output).execute()
        except Problem as problem:
            if self.broker:
                self.broker.problem = self.broker.problem or problem
        except (OSError, EOFError, ValueError, TypeError, KeyError):  # (the shim says so)
            pass
        finally:
            os.close(output)
            connection.close()

    def begin(self, leg: int, data: bytes, writer: int) -> socket.socket:
        """Has a request executed, which prints into a descriptor; gives the connection with the answer."""
        relay = self.broker.relays.get(leg) if self.broker else None
        if self.broker and not relay:
            return self.broker.begin(leg, data, writer)
        ours, theirs = socket.socketpair()
        if relay:
            relay.take(theirs, writer, os.open(os.devnull, os.O_RDONLY))  # (the rest is read here)
        ours.sendall(len(data).to_bytes(8, "little") + data)
        return ours

    def relay(self, leg: int) -> Relay | None:
        """What executes the steps of a leg with a container."""
        return self.broker.relays.get(leg) if self.broker else None

    def close(self) -> None:
        """Gives the terminal back, and keeps what was done by hand."""
        self.prompt.close()
        self.trial.stages.by_hand += [*self.by_hand, *changes(self.trial, self.edits)]

    def quit(self) -> None:
        """Ends the execution as Ctrl-C does."""
        self.trial.execution.interrupt(signal.SIGINT, None)


def breaks_of(trial: Trial) -> Breaks | None:
    """The breaks of an execution, which a client may set, too; None without a sandbox. Raises Problem where
    one cannot be."""
    given = trial.options.breaks
    if trial.options.no_sandbox:
        if given or DESCRIPTOR in os.environ:
            what = f"--break {given[0]}" if given else "an execution in an editor"
            raise Problem(f"{what}: a break needs the sandbox: leave --no-sandbox out")
        return None
    stages, waits = trial.stages, any(flow.lowered.late for flow in trial.flows)
    stages.control = stages.control or Control(trial.room.private / NAME).open()
    asks = bool(given) and not stages.control.launched
    # (which may have read more than its commands)
    stages.prompt = stages.prompt or Prompt(trial.screen, asks)
    stages.prompt.history = history_file()
    found = Breaks(trial, [], stages.prompt)
    for text in given:
        try:
            found.add(text)
        except Problem as problem:
            if stages.count and not waits:
                trial.screen.tell(f"note: {problem}", "note")
            elif not waits:
                raise
    if asks and not stages.count:
        check_input(f"--break {given[0]}")
    return found


@dataclass
class Visit(Words):
    """One step of a leg with breaks."""

    breaks: Breaks
    leg: int
    connection: socket.socket
    output: int
    words: list[bytes]
    variables: dict[bytes, bytes]
    texts: dict[bytes, bytes]
    handed: list[bytes]
    folder: bytes
    kept: bytes = b""                   # the end of what the step printed
    answer: Answer | None = None
    marked: bool = False                # the output has begun
    again: bool = False                 # the step was executed before the break
    ended: bool = False                 # the step was sent a signal
    runs: int = 0                       # by hand
    shells: int = 0
    rest: bytes = b""                   # of a line that is not shown yet
    current: socket.socket | None = None  # of the request that is being executed
    old: str | None = None              # the script, before a person changed it
    paths: list[str] | None = None      # lines that print values, for completion
    title: str = ""                     # leg and step in words

    @classmethod
    def of(cls, breaks: Breaks, leg: int, connection: socket.socket, output: int) -> Visit:
        """The step that a connection brings."""
        data = read_all(connection, int.from_bytes(read_all(connection, 8), "little"))
        return cls(breaks, leg, connection, output, *marshal.loads(data))

    def __post_init__(self) -> None:
        self.step = int(step_of(self.handed).partition("-")[2])
        self.left: list[bytes] = [b"" for _ in self.handed]  # of the last time
        self.prompt, self.board = self.breaks.prompt, self.breaks.trial.board
        self.title = self.board.title(self.leg, self.step)
        self.mark = self.board.mark.encode()
        self.masks: Masks | None = None
        self.changes: list[str] = []  # of values that are watched

    def execute(self) -> None:
        """Executes the step, with its breaks, and answers."""
        place = self.leg, self.step
        why = self.breaks.stops_before(place, self.holds)
        if why:
            self.stop("before", why)
        if self.answer is None:
            self.answer = self.attempt()
            if self.answer.status and self.breaks.failed and not self.ended and self.breaks.is_free(place):
                self.stop(f"failed, {self.answer.words()}", "failed")
        if not self.marked:
            head = self.mark + f":{self.leg}-{self.step}\n".encode()
            self.print_all(head + b"(not executed: answered by hand)\n")
        self.connection.sendall(self.answer.data())

    # how the step is executed

    def request(self, words: list[bytes] | None = None, texts: dict[bytes, bytes] | None = None) -> bytes:
        """The bytes that the agent reads: of the step itself, or of other words in its place."""
        variables = self.variables
        if words is not None:
            names = (b"BASH_ENV", DOCKER.encode())
            variables = {name: value for name, value in variables.items() if name not in names}
            variables[b"ACTRUN_PIPED"] = b"1"  # (for the prelude: both streams are one)
        files = {**self.texts, **(texts or {})}
        return marshal.dumps((words or self.words, variables, files, self.handed, self.folder))

    def read_answer(self, ours: socket.socket) -> Answer:
        """The answer of the agent. Raises EOFError if the sandbox has ended."""
        head = read_all(ours, 4 + 4 * len(self.handed))
        left: list[bytes | None] = []
        for at in range(4, len(head), 4):
            length = int.from_bytes(head[at:at + 4], "little")
            is_given = length <= MOST and None not in left  # (what follows is not read)
            left.append(read_all(ours, length) if is_given else None)
        return Answer(int.from_bytes(head[:4], "little", signed=True), left)

    def perform(self, data: bytes, take: Callable[[bytes], Any]) -> Answer:
        """Has a request executed to its end, and takes what it prints."""
        reader, writer = os.pipe()
        os.set_blocking(reader, False)
        try:
            with self.breaks.begin(self.leg, data, writer) as ours:
                self.current = ours
                self.carry(ours, reader, take)
                answer = self.read_answer(ours)
            for _ in range(64):  # (what a pipe has; what the step left running may print without end)
                part = read_some(reader)
                if not part:
                    break
                take(part)
            return answer
        finally:
            self.current = None
            threading.Thread(target=drop, args=(reader,), daemon=True).start()

    def carry(self, ours: socket.socket, reader: int, take: Callable[[bytes], Any]) -> None:
        """Carries output and signals until the agent answers. Raises EOFError if the shim has ended."""
        waits = [ours, self.connection, reader]
        while True:
            ready = select.select(waits, [], [])[0]
            part = read_some(reader) if reader in ready else None
            if part:
                take(part)
            elif part == b"":
                waits.remove(reader)
            if self.connection in ready:
                letter = self.connection.recv(1)
                self.ended = True
                if not letter:
                    raise EOFError
                ours.sendall(letter)
            if ours in ready:
                return

    def attempt(self, show: bool = False) -> Answer:
        """Executes the step once."""
        def text(data: bytes) -> None:
            self.kept = (self.kept + data)[-MOST_KEPT:]
            if show:
                self.show(data)
        output = Output(self.mark, self.print_all, text, self.marked)
        summary = self.folder + f"/files/{self.leg}/summary-{self.leg}-{self.step}".encode()
        again = {summary: b""} if self.marked and not self.breaks.relay(self.leg) else {}
        self.marked = True
        answer = self.perform(self.request(texts=again), output.take)
        output.end()
        if show:
            self.show(b"\n" if self.rest else b"")
        self.left = [part or b"" for part in answer.left]
        return answer

    def print_all(self, data: bytes) -> None:
        """Prints for the log of the step."""
        while data:
            data = data[os.write(self.output, data):]

    # the prompt

    def stop(self, why: str, kind: str) -> None:
        """Asks how the step goes on, until it has an answer or is to be executed."""
        self.breaks.since[self.leg], self.again = time.monotonic(), self.marked
        self.breaks.next.discard(self.leg)  # (it has stopped)
        try:
            with self.turn(), self.breaks.control.visited(self, kind):
                self.head(why)
                while self.ask():
                    pass
        except Stopped:
            self.take_end()
        finally:
            self.breaks.spent[self.leg] = self.breaks.held(self.leg)
            del self.breaks.since[self.leg]
            self.note()

    @contextlib.contextmanager
    def turn(self) -> Iterator[None]:
        """Waits until no other leg is asked."""
        while not self.breaks.one.acquire(timeout=0.2):
            if select.select([self.connection], [], [], 0)[0]:
                raise Stopped
        try:
            if not self.breaks.is_free((self.leg, self.step)):
                raise Stopped
            with self.prompt.turn():
                yield
        finally:
            self.breaks.one.release()

    def take_end(self) -> None:
        """Answers that the step was ended, unless it was not, as one with `always()`. Raises EOFError if the
        shim has ended."""
        until, ender = time.monotonic() + WITHIN, self.board.ender
        while time.monotonic() < until:
            if select.select([self.connection], [], [], LOOK)[0]:
                if not self.connection.recv(1):
                    raise EOFError
                self.ended = True
            if self.ended or ender.cause(self.leg, self.step):
                return self.end(ENDED)

    def end(self, status: int) -> None:
        """Answers with a status, and what the step or a shell wrote last."""
        self.answer = Answer(status, list(self.left))

    def head(self, why: str) -> None:
        """Says where the leg waits."""
        trial = self.breaks.trial
        leg = trial.legs[self.leg]
        place = trial.place(leg.run, leg.job["id"], self.step)
        told = f"before {self.title}" if why == "before" else f"{self.title} {why}"
        self.tell(f"\nbreak: {told}{f'  [{place}]' if place else ''}")
        self.tell_all(self.changes)
        if self.kept:
            self.show_kept(SHOWN)
        if self.prompt.asks:
            self.tell("`help` lists the commands")

    def ask(self) -> bool:
        """Carries out one command; false where the leg goes on."""
        if not self.breaks.is_free((self.leg, self.step)):
            raise Stopped
        line = self.prompt.read(self.connection, self.lines)
        with self.prompt.answered():
            return self.carry_out(line)

    def carry_out(self, line: str | None) -> bool:
        """Carries out a line; false where the leg goes on."""
        line = line if line is not None else "continue"
        name, _, rest = f"search {line[1:]}".partition(" ") if line.startswith("/") else line.partition(" ")
        known = self.breaks.commands()
        name, rest = SHORT.get(name) or full_name(name, known), rest.strip()
        if not name:
            return True
        if name in OF_PAST:
            self.tell(f"{name}: an execution goes forward: in another terminal, "
                      f"`actrun debug {self.breaks.trial.part}` walks what has happened")
            return True
        if name not in (*known, "search"):
            self.tell(f"{name}: there is no such command{near(name, known)}; `help` lists them")
            return True
        if rest and name not in TAKES:
            self.tell(f"{name} takes no argument")
            return True
        try:
            return bool(getattr(self, f"do_{name}")(*([rest] if name in TAKES else [])))
        except Problem as problem:
            self.tell(self.hidden(str(problem).replace("--break ", f"{name} ")))
            return True
        except OSError as error:
            if error.errno in (errno.EPIPE, errno.ECONNRESET):
                raise
            self.tell(f"{name}: {error.strerror or error}")
            return True

    def do_help(self, word: str) -> bool:
        """Lists the commands, or those that a word names."""
        self.prompt.write(help_lines(COMMANDS, SHORT.get(word, word)))
        return True

    def do_continue(self) -> bool:
        """Lets the leg go on."""
        return False

    def do_next(self) -> bool:
        """Lets the leg go on to the next step."""
        self.breaks.next.add(self.leg)
        return False

    def do_until(self, text: str) -> bool:
        """Lets the leg go on to a step, or to the next one."""
        if text:
            self.breaks.add(" ".join(text.split()), True)
            return False
        return self.do_next()

    def do_skip(self) -> bool:
        """Answers success."""
        self.end(0)
        self.note("was skipped by hand: its answer is success")
        return False

    def do_fail(self) -> bool:
        """Answers a failure."""
        self.end(1)
        self.note("was made to fail by hand")
        return False

    def do_quit(self) -> bool:
        """Ends the execution."""
        self.prompt.active = False
        self.breaks.quit()
        raise Stopped

    def do_run(self) -> bool:
        """Executes the step."""
        if self.marked:
            self.print_all(b"--- run again by hand\n")
        self.runs += 1
        with self.interruptible():
            answer = self.attempt(show=True)
        if self.ended:
            raise Stopped
        self.answer = answer
        told = f"failed, {answer.words()}" if answer.status else "succeeded: `continue` goes on"
        self.tell(f"the step {told}")
        return True

    @contextlib.contextmanager
    def interruptible(self) -> Iterator[None]:
        """Lets Ctrl-C end what executes, not the execution."""
        letters = iter(b"ITT")

        def interrupt() -> None:
            if self.current is not None:
                self.current.send(bytes([next(letters, ord("K"))]))
        self.prompt.on_interrupt = interrupt
        try:
            yield
        finally:
            self.prompt.on_interrupt = None

    def do_script(self) -> bool:
        """Shows the script of the step, or its program."""
        scripts = [text for path, text in self.texts.items() if path.endswith(b".sh")]
        for text in scripts or [shlex.join(map(os.fsdecode, self.words)).encode()]:
            self.tell(self.hidden(text.decode("utf-8", "replace").rstrip("\n")))
        return True

    def do_log(self, pattern: str) -> bool:
        """Shows what the step printed, or its lines with a pattern."""
        self.show_kept(fits=finder(pattern) if pattern else None)
        return True

    def do_env(self) -> bool:
        """Shows the variables of the step."""
        for name, value in sorted(self.listed().items()):
            if not name.startswith("ACTRUN_") and name not in ("_", "SHLVL", "BASH_ENV"):
                self.tell(self.hidden(f"{name}={value}"))
        return True

    def do_print(self, text: str) -> bool:
        """Shows the value of an expression, or of a variable of the step."""
        name = text.removeprefix("$").removeprefix("env.")
        found = self.listed() if re.fullmatch(r"\w+", name) else {}
        if name in found:
            self.tell(self.hidden(found[name]))
        elif found and text.isidentifier() and not near(name, CONTEXTS):
            self.tell(f"{name}: there is no such variable{near(name, found)}")
        elif not text:
            self.tell("print: write an expression or a variable, as `print PATH` or `print matrix.os`")
        else:
            with looking(self.breaks.trial, self.hides()) as explainer:
                around = explainer.around(explainer.record.last, self.frame())
                self.tell_all(printed(around, text, explainer.masks))
        return True

    def listed(self) -> dict[str, str]:
        """The variables of the step, as its script has them."""
        text = b""

        def take(data: bytes) -> None:
            nonlocal text
            text += data[:max(0, MOST_LISTED - len(text))]
        shell = b"sh" if self.breaks.relay(self.leg) else b"bash"
        words = [shell, b"-c", ENTER.format(then=LIST).encode()]
        self.perform(self.request(words, self.files()), take)
        pairs = text.partition(b"\0actrun\0")[2].decode("utf-8", "replace").split("\0")
        return {name: value for name, equals, value in (pair.partition("=") for pair in pairs) if equals}

    def files(self) -> dict[bytes, bytes]:
        """The files that the step hands on, as they are."""
        return dict(zip(self.handed, self.left))

    # a shell

    def do_shell(self) -> bool:
        """Opens a shell where the step executes."""
        relay = self.breaks.relay(self.leg)
        if relay and (relay.container or not relay.begun):
            self.tell("this leg has containers, in which `shell` opens none: " + (
                f"{relay.engine.name} exec --interactive --tty {relay.container} sh" if relay.container
                else "they are started by the first step: `run` it, or `next`"))
            return True
        terminal = self.prompt.terminal()
        if terminal is None and self.prompt.command:
            self.tell("shell: an editor has to open a terminal for it")
            return True
        self.shells += 1
        answer = self.on_lines() if terminal is None else self.on_terminal(terminal)
        if self.ended:
            raise Stopped
        self.left = [part or b"" for part in answer.left]
        if self.answer:
            self.answer = Answer(self.answer.status, list(self.left))
        return True

    def shell_words(self, then: str) -> list[bytes]:
        """The words that start a shell after the prelude. Its own programs read what those of the step do."""
        kept = shlex.quote(os.fsdecode(self.variables.get(b"BASH_ENV", b"")))
        text = f"export BASH_ENV={kept}; {then}".replace("'", "'\\''")
        return [b"/bin/bash", b"-c", ENTER.format(then=text).encode()]

    def on_lines(self) -> Answer:
        """A shell for the lines up to `exit`, where no terminal is."""
        path = self.folder + f"/step-{self.leg}-{self.step}.hand".encode()
        words = self.shell_words(f"exec bash {shlex.quote(os.fsdecode(path))}")
        with self.interruptible():
            data = self.request(words, {**self.files(), path: self.prompt.script()})
            answer = self.perform(data, self.show)
        self.show(b"\n" if self.rest else b"")
        return answer

    def on_terminal(self, terminal: int) -> Answer:
        """A shell on a terminal of its own, to which that of the person is carried."""
        sign = re.sub(r"[^\w. ()/-]", "", self.title.partition(":")[0])[:40]
        name = shlex.quote(f"({sign}) ")
        words = self.shell_words(f"export PS1={name}'\\W$ '; exec bash --noprofile --norc -i")
        master, slave = os.openpty()
        self.tell("(a shell in the sandbox of the leg; `exit` or Ctrl-D comes back)")
        try:
            data = self.request(on_terminal(words), self.files())
            with self.breaks.begin(self.leg, data, slave) as ours:
                self.prompt.on_interrupt = functools.partial(write_all, master, b"\x03")
                carry(terminal, master, ours, self.connection)
                return self.read_answer(ours)
        finally:
            self.prompt.on_interrupt = None
            os.close(master)

    # what is shown

    def show(self, data: bytes) -> None:
        """Shows whole lines of the step."""
        *lines, self.rest = (self.rest + data).split(b"\n")
        if len(self.rest) > 1 << 16:
            lines, self.rest = [*lines, self.rest], b""
        for line in lines:
            self.show_line(line)

    def show_line(self, data: bytes) -> None:
        """Shows a line of the step, as a log has it."""
        screen = self.prompt.screen
        for shown, mask in walk([data.decode("utf-8", "replace")]):
            self.hides().add([mask] if mask else [])
            if shown is not None:
                self.prompt.write(visible_log(self.hidden(shown), screen.coloured(sys.stderr)) + "\n")

    def show_kept(self, most: int = 0, fits: Callable[[str], object] | None = None) -> None:
        """Shows the last lines of what the step printed, or all that is kept, or the lines that fit."""
        lines = self.kept.rstrip(b"\n").split(b"\n") if self.kept else []
        if most and len(lines) > most:
            self.tell(f"(the last {most} lines; `log` shows all)")
        for line in lines[-most:]:
            if not fits or fits(line.decode("utf-8", "replace")):
                self.show_line(line)
        if not lines:
            self.tell("the step has printed nothing")

    def note(self, *words: str) -> None:
        """Keeps what was done by hand."""
        runs, shells = (f"{count} time{'s' * (count != 1)}" for count in (self.runs, self.shells))
        found = [f"was run {'again ' * self.again}by hand: {runs}"] if self.runs else []
        found += [f"had a shell: {shells}"] if self.shells else []
        self.breaks.by_hand += [f"step {self.title} {text}" for text in (*found, *words)]
        self.runs = self.shells = 0


def read_some(reader: int) -> bytes | None:
    """What a pipe has; None if there is nothing yet."""
    try:
        return os.read(reader, 1 << 16)
    except BlockingIOError:
        return None


def drop(reader: int) -> None:
    """Reads what a step's programs print on after its end, and drops it."""
    try:
        while select.select([reader], [], []) and read_some(reader) != b"":
            pass
    finally:
        os.close(reader)
