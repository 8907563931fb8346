"""The control of an execution: a private socket by which editors stop legs and talk to the prompt of a break.

Each line is a JSON object. A request has `do`, and a number `seq` that its response has, too:

  plan       the plan, the file and the lines of each run, the record so far, and then what is added to it
  places     the legs and steps that `name` means, as with --break
  breaks     sets the breaks of this client: `places`, and `failed`
  stop       stops before the next step of each of `legs`; of none where these are none
  go         begins, where the client started the execution
  interrupt  ends what `run` executes
  quit       ends the execution, as Ctrl-C does
  state      the leg that waits

Any other `do` is a line of the prompt. Events: `planned`, `record`, `stopped`, `continued`, and the `text`
that a line of the prompt shows.
"""
from __future__ import annotations

import contextlib
import json
import os
import select
import socket
import threading
import time
from concurrent.futures import Future
from dataclasses import dataclass, field
from pathlib import Path
from typing import TYPE_CHECKING, Any, Callable, Dict

from . import Problem
from .live_places import places_of

if TYPE_CHECKING:
    from .live import Breaks, Visit

Body = Dict[str, Any]
DESCRIPTOR = "ACTRUN_CONTROL"   # the variable with the descriptor of the client that starts an execution
NAME = "control"                # of the socket in the private folder
MOST_LINE = 1 << 22
LOOK = 0.1                      # seconds between two looks at the record
IDLE = 1.0                      # and where nobody listens, to the end of the execution
WITHIN = 20.0                   # seconds until a client takes what it is sent
BEGUN = 3.0                     # seconds until the record has the step that waits
ANSWERED = 120.0                # seconds until a request is answered
GONE = "the execution has ended"


@dataclass(eq=False)
class Client:
    """Who talks to an execution."""

    connection: socket.socket
    launched: bool = False                    # it started the execution, which ends with it
    record: int = -1                          # the bytes of the record that it has; -1 where it wants none
    pending: bytes = b""
    handed: list[int] = field(default_factory=list)
    lock: threading.Lock = field(default_factory=threading.Lock)

    def send(self, message: Body) -> None:
        """Sends a line, if the client still listens."""
        data = json.dumps(message).encode() + b"\n"
        with self.lock, contextlib.suppress(OSError):
            try:
                self.connection.settimeout(WITHIN)
                self.connection.sendall(data)
            except OSError:  # (half a line may have gone)
                self.connection.shutdown(socket.SHUT_RDWR)

    def lines(self) -> list[bytes] | None:
        """The lines that have come; None at the end."""
        try:
            part, numbers, _, _ = socket.recv_fds(self.connection, 1 << 16, 4)
        except OSError:
            return None
        self.handed += numbers
        *lines, self.pending = (self.pending + part).split(b"\n")
        return lines if part and len(self.pending) <= MOST_LINE else None


@dataclass
class Command:
    """A line for the prompt of the leg that waits."""

    client: Client
    seq: Any
    line: str
    terminal: int | None                      # on which a shell may be opened

    def show(self, text: str) -> None:
        """Sends what the line shows."""
        self.client.send({"event": "text", "seq": self.seq, "text": text})

    def end(self, fault: str) -> None:
        """Says that the line was carried out, or why not."""
        self.client.send({"seq": self.seq, "ok": not fault, **({"error": fault} if fault else {})})
        if self.terminal is not None:
            os.close(self.terminal)


class Control:
    """Answers the clients of one execution in a thread of its own."""

    def __init__(self, place: Path) -> None:
        self.place = place
        self.clients: list[Client] = []
        self.breaks: Breaks | None = None
        self.visit: Visit | None = None       # the step that waits
        self.why = ""                         # `given`, `break`, `step` or `failed`
        self.may_begin = threading.Event()
        self.record = -1                      # its descriptor
        self.begun: dict[int, int] = {}       # steps of legs
        self.read = 0                         # bytes of the record of which `begun` has the steps
        self.guard = threading.RLock()
        self.over = self.stopped = False      # the client that started the execution has ended it

    @property
    def launched(self) -> bool:
        """Whether a client started the execution."""
        return any(client.launched for client in self.clients)

    def open(self) -> Control:
        """Begins to listen. The client that starts the execution is there already."""
        given = os.environ.pop(DESCRIPTOR, "")
        if given.isdigit():
            os.set_inheritable(int(given), False)
            self.clients.append(Client(socket.socket(fileno=int(given)), True))
        self.server = socket.socket(socket.AF_UNIX, socket.SOCK_STREAM)
        with short(self.place) as name:
            self.server.bind(name)
        self.place.chmod(0o600)
        self.server.listen(8)
        threading.Thread(target=self.serve, daemon=True).start()
        return self

    def close(self) -> None:
        """Ends the connections."""
        self.flush()
        self.over = True
        self.place.unlink(missing_ok=True)
        self.server.close()
        with self.guard:
            for client in self.clients:
                with contextlib.suppress(OSError):
                    client.connection.shutdown(socket.SHUT_RDWR)

    def serve(self) -> None:
        """Hears clients, and sends them the record as it grows, until the execution is over."""
        while not self.over:
            with contextlib.suppress(OSError, ValueError):  # (it is over meanwhile)
                connections = [client.connection for client in self.clients]
                ready = select.select([self.server, *connections], [], [], LOOK if connections else IDLE)[0]
                self.flush()
                if self.server in ready:
                    self.clients.append(Client(self.server.accept()[0]))
                for client in [client for client in self.clients if client.connection in ready]:
                    self.hear(client)

    def hear(self, client: Client) -> None:
        """Answers what a client has sent."""
        lines = client.lines()
        for line in lines or ():
            try:
                request = json.loads(line)
                self.answer(client, request if isinstance(request, dict) else {})
            except (ValueError, TypeError, LookupError, RecursionError) as fault:
                client.send({"seq": None, "ok": False, "error": f"this is no request: {fault}"})
        if lines is None:
            self.leave(client)

    def leave(self, client: Client) -> None:
        """Forgets a client, with its breaks. A leg that only it could let go on goes on."""
        self.clients.remove(client)
        client.connection.close()
        if client.launched:
            self.stop()
        elif self.breaks:
            self.breaks.set_by(client, set(), False)
            if self.visit and not self.breaks.prompt.asks and not self.clients:
                self.breaks.prompt.send(Command(client, None, "continue", None))

    def stop(self) -> None:
        """Ends the execution, also one that has not begun."""
        if self.breaks and hasattr(self.breaks.trial, "execution"):
            self.breaks.quit()
        self.stopped = True
        self.may_begin.set()

    def answer(self, client: Client, request: Body) -> None:
        """Answers one request."""
        do, seq = str(request.get("do", "")), request.get("seq")
        handler = getattr(self, f"do_{do}", None) if do.isidentifier() else None
        try:
            if self.breaks is None:
                raise Problem("nothing is planned yet")
            if handler is None:
                terminal = client.handed.pop(0) if client.handed else None
                return self.ask_prompt(self.breaks, Command(client, seq, do, terminal))
            client.send({"seq": seq, "ok": True, **handler(self.breaks, client, request)})
        except Problem as problem:
            client.send({"seq": seq, "ok": False, "error": str(problem)})

    def ask_prompt(self, breaks: Breaks, command: Command) -> None:
        """Hands a line to the prompt of the leg that waits. Raises Problem where none does."""
        busy = breaks.prompt.command
        if not self.visit:
            command.end("no leg waits at a break")
        elif command.line.split()[:1] == ["edit"]:
            command.end("edit is for the prompt of a terminal: change the file, and restart")
        elif busy:
            command.end(f"`{busy.line}` is not over: end it first")
        else:
            breaks.prompt.send(command)

    def do_state(self, breaks: Breaks, client: Client, request: Body) -> Body:
        """Which leg waits."""
        return {"waiting": self.waiting()}

    def do_plan(self, breaks: Breaks, client: Client, request: Body) -> Body:
        """What is executed."""
        trial = breaks.trial
        runs = []
        for run, flow in zip(trial.plan["runs"], trial.flows):
            lines, jobs = flow.lowered.lines, [(job, ("jobs", job["id"])) for job in run["jobs"]]
            found = [[job["number"], -1, lines[key]] for job, key in jobs if key in lines]
            found += [[job["number"], step, lines[(*key, "steps", step)]] for job, key in jobs
                      for step in range(len(job["steps"])) if (*key, "steps", step) in lines]
            runs.append({"file": str(trial.play.facts.top / flow.name), "lines": found})
        with self.guard:
            self.flush()
            record = self.since(0, self.read)
            client.record = len(record)
        plan = (trial.room.private / "plan").read_text(encoding="utf-8")
        return {"plan": plan, "runs": runs, "folder": str(trial.room.folder), "logs": str(trial.room.play),
                "commands": breaks.commands(), "record": record.decode("utf-8", "replace")}

    def do_places(self, breaks: Breaks, client: Client, request: Body) -> Body:
        """What a name means."""
        return {"places": sorted(places_of(breaks.known, [str(request["name"])]))}

    def do_breaks(self, breaks: Breaks, client: Client, request: Body) -> Body:
        """Sets the breaks of a client."""
        places = {(int(leg), int(step)) for leg, step in request.get("places", ())}
        breaks.set_by(client, places, request.get("failed") is True)
        return {}

    def do_stop(self, breaks: Breaks, client: Client, request: Body) -> Body:
        """Stops before the next step of legs."""
        legs = {int(leg) for leg in request["legs"]}
        breaks.next = breaks.next | legs if legs else set()
        return {}

    def do_go(self, breaks: Breaks, client: Client, request: Body) -> Body:
        """Begins."""
        self.may_begin.set()
        return {}

    def do_interrupt(self, breaks: Breaks, client: Client, request: Body) -> Body:
        """Ends what `run` executes."""
        if breaks.prompt.on_interrupt:
            breaks.prompt.on_interrupt()
        return {}

    def do_quit(self, breaks: Breaks, client: Client, request: Body) -> Body:
        """Ends the execution."""
        self.stop()
        return {}

    def tell(self, event: str, **more: Any) -> None:
        """Sends an event to all clients."""
        for client in list(self.clients):
            client.send({"event": event, **more})

    # the execution

    def begin(self, breaks: Breaks) -> None:
        """Takes the plan that is executed next, and waits for the client that starts it."""
        with self.guard:
            if self.record >= 0:
                os.close(self.record)
            self.record, self.read, self.begun = os.open(breaks.trial.part, os.O_RDONLY | os.O_CLOEXEC), 0, {}
            for client in self.clients:
                client.record = -1
            self.breaks = breaks
        self.may_begin.clear()
        self.tell("planned")
        if self.launched:
            self.may_begin.wait()
        if self.stopped:
            raise Problem("the editor ended it", 130)

    @contextlib.contextmanager
    def visited(self, visit: Visit, why: str) -> Any:
        """Tells clients that a leg waits, until it goes on."""
        until = time.monotonic() + BEGUN
        while self.clients and self.begun.get(visit.leg, 0) <= visit.step and time.monotonic() < until:
            time.sleep(LOOK / 10)
            self.flush()
        self.visit, self.why = visit, why
        self.tell("stopped", **self.waiting())
        try:
            yield
        finally:
            self.visit = None
            self.tell("continued", leg=visit.leg)

    def waiting(self) -> Body:
        """The leg that waits, and how its step ended where that was executed; nothing where none waits."""
        visit = self.visit
        return {"leg": visit.leg, "step": visit.step, "why": self.why, "title": visit.title,
                "answer": visit.answer.words() if visit.answer else ""} if visit else {}

    def flush(self) -> None:
        """Sends each client the whole lines of the record that it does not have."""
        with self.guard:
            size = os.fstat(self.record).st_size if self.record >= 0 and self.clients else 0
            for line in self.since(self.read, size).splitlines():
                if line.startswith(b'{"event":"begin"'):
                    leg = json.loads(line)["leg"]
                    self.begun[leg] = self.begun.get(leg, 0) + 1
            self.read += len(self.since(self.read, size))
            for client in [client for client in self.clients if 0 <= client.record < self.read]:
                text = self.since(client.record, self.read)
                client.record += len(text)
                client.send({"event": "record", "text": text.decode("utf-8", "replace")})

    def since(self, start: int, end: int) -> bytes:
        """The whole lines of a part of the record."""
        text = os.pread(self.record, end - start, start) if end > start else b""
        return text[:text.rfind(b"\n") + 1]


@contextlib.contextmanager
def short(place: Path) -> Any:
    """A name by which a socket is bound or found, however long its path is."""
    number = os.open(place.parent, os.O_DIRECTORY | os.O_PATH | os.O_CLOEXEC)
    try:
        yield f"/proc/self/fd/{number}/{place.name}"
    finally:
        os.close(number)


class Link:
    """A client's end: sends requests, and hands events on in a thread of its own."""

    def __init__(self, connection: socket.socket, hear: Callable[[Body], None],
                 gone: Callable[[], None]) -> None:
        self.connection, self.hear, self.gone = connection, hear, gone
        self.count = 0
        self.waits: dict[int, Future[Body]] = {}
        self.texts: dict[int, str] = {}       # of requests whose text is kept for the response
        self.guard = threading.Lock()

    def open(self) -> Link:
        """Begins to listen."""
        threading.Thread(target=self.read, daemon=True).start()
        return self

    def read(self) -> None:
        """Hands on what comes, until the execution has ended."""
        with contextlib.suppress(OSError, ValueError), self.connection.makefile("rb") as lines:
            for line in lines:
                self.take(json.loads(line))
        with self.guard:
            waiting, self.waits = list(self.waits.values()), {}
            self.connection.close()
        for one in waiting:
            one.set_exception(Problem(GONE))
        self.gone()

    def take(self, message: Body) -> None:
        """Takes a response or an event."""
        number = message.get("seq")
        if message.get("event") == "text" and number in self.texts:
            self.texts[number] += message["text"]
        elif "event" in message:
            self.hear(message)
        elif number in self.waits:
            waits = self.waits.pop(number)
            if message.get("ok"):
                waits.set_result({**message, "text": self.texts.pop(number, "")})
            else:
                waits.set_exception(Problem(message.get("error", GONE)))

    def later(self, do: str, handed: int | None = None, keep: bool = False, **more: Any) -> Future[Body]:
        """Sends a request, with a descriptor; gives what will have the response, or raise its Problem.
        With `keep` the response has the text, which is no event then."""
        found: Future[Body] = Future()
        try:
            with self.guard:
                self.count += 1
                self.waits[self.count] = found
                if keep:
                    self.texts[self.count] = ""
                data = json.dumps({"seq": self.count, "do": do, **more}).encode() + b"\n"
                if handed is not None:
                    socket.send_fds(self.connection, [data], [handed])
                else:
                    self.connection.sendall(data)
        except OSError:
            self.waits.pop(self.count, None)
            found.set_exception(Problem(GONE))
        return found

    def ask(self, do: str, **more: Any) -> Body:
        """The response to a request. Raises Problem where it is refused."""
        return self.later(do, **more).result(ANSWERED)

    def close(self) -> None:
        """Leaves the execution."""
        with contextlib.suppress(OSError):
            self.connection.shutdown(socket.SHUT_RDWR)


def connected(folder: Path) -> socket.socket:
    """A connection to a running `try` by its folder. Raises Problem where none is there."""
    place = folder / "private" / NAME
    connection = socket.socket(socket.AF_UNIX, socket.SOCK_STREAM)
    try:
        with short(place) as name:
            connection.connect(name)
        return connection
    except OSError:
        connection.close()
        raise Problem(f"{folder}: no `try` executes here in a sandbox: name the folder of one that does, "
                      "which is below ~/.cache/actrun/work") from None
