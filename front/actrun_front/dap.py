"""`actrun dap`: a server of the Debug Adapter Protocol, by which editors walk records and executions in
YAML."""
from __future__ import annotations

import os
import queue
import sys
import threading
from concurrent.futures import Future
from functools import partial
from typing import Any, BinaryIO, Callable, Dict, Optional

from . import Problem
from .dap_live import Live, open_shell
from .dap_session import Session
from .dap_shapes import misshapen
from .dap_wire import BadMessage, LostStream, read_message, write_message
from .unforeseen import of_system, sentence

USAGE = """usage: actrun dap
       actrun dap --shell FOLDER
       actrun dap --shell RECORD PLACE LEG
Serves the Debug Adapter Protocol over standard input and output; an editor starts it to walk a record, or to
execute a repository. With --shell it opens a shell in the sandbox of the leg that waits at a break of the
`try` with this folder; or in a copy of the workspace that a leg had at a place of a record.
editors/README.md has the lines for VS Code, Neovim, Helix and Emacs."""
Body = Dict[str, Any]


class Server:
    """Reads requests in a thread of its own, answers one after the other, and does what follows."""

    def __init__(self, source: BinaryIO, target: BinaryIO, program: str):
        self.source, self.target, self.sent = source, target, 0
        self.inbox: queue.SimpleQueue[Callable[[], Optional[int]]] = queue.SimpleQueue()
        self.asked: dict[int, Callable[[Body], None]] = {}  # of the client, by the numbers of requests
        self.session = Session(program, self.send_event)

    def send(self, kind: str, **more: Any) -> int:
        """Sends a message; gives its number."""
        self.sent += 1
        write_message(self.target, {"seq": self.sent, "type": kind, **more})
        return self.sent

    def send_event(self, event: str, body: Body) -> None:
        """Sends an event."""
        self.send("event", event=event, body=body)

    def ask_client(self, command: str, arguments: Body, then: Callable[[Body], None]) -> None:
        """Sends a request to the client, whose response is handed on."""
        self.asked[self.send("request", command=command, arguments=arguments)] = then

    def respond(self, request: Body, success: bool, **more: Any) -> None:
        """Sends a response."""
        number = request.get("seq")
        self.send("response", request_seq=number if isinstance(number, int) else 0, success=success,
                  command=str(request.get("command", "")), **more)

    def refuse(self, request: Body, words: str) -> None:
        """An error response, whose words the client shows."""
        shape = {"id": 1, "format": "{words}", "variables": {"words": words}, "showUser": True}
        self.respond(request, False, message=words, body={"error": shape})

    def read(self) -> None:
        """Hands each message on, until there are no more."""
        message: Body | None = {}
        while message is not None:
            try:
                message = read_message(self.source)
                self.inbox.put(partial(self.take, message))
            except BadMessage as fault:
                self.inbox.put(partial(self.refuse, {}, str(fault)))
            except LostStream as fault:
                self.inbox.put(partial(self.lose, f"{fault}; the session ends"))
                return

    def serve(self) -> int:
        """Answers until the client disconnects or has gone; the exit status."""
        threading.Thread(target=self.read, daemon=True).start()
        while not self.session.over:
            status = self.inbox.get()()
            if status is not None:
                return status
        return 0

    def lose(self, words: str) -> int:
        """Refuses what cannot be read any more."""
        self.refuse({}, words)
        return 2

    def take(self, message: Body | None) -> int | None:
        """Answers a message; gives the exit status where the client has gone."""
        if message is None:
            return 0
        number = message.get("request_seq")
        known = self.asked.pop(number, None) if isinstance(number, int) else None
        if message.get("type") == "request":
            self.answer(message)
        elif message.get("type") == "response" and known:
            self.follow("the terminal", [partial(known, message)])
        else:
            self.refuse(message, "only requests are answered")
        return None

    def answer(self, request: Body) -> None:
        """Answers one request, then does what follows."""
        command, given = request.get("command"), request.get("arguments")
        self.session.after = []
        try:
            body = self.handled(command, given)
        except Exception as fault:  # (the session goes on)
            return self.refuse(request, words_of(fault, str(command)))
        after = self.session.after
        if isinstance(body, Future):
            body.add_done_callback(lambda done: self.inbox.put(partial(self.finish, request, done, after)))
        else:
            self.respond(request, True, body=body)
            self.follow(str(command), after)

    def handled(self, command: Any, given: Any) -> Body | Future[Body]:
        """The body of the response to a request, or what will have it. Raises Problem where it is refused."""
        if getattr(Live, f"on_{command}", None) is None:
            raise Problem(f"`actrun dap` does not know the request {command}")
        if not isinstance(given, (dict, type(None))):
            raise Problem("the arguments have to be an object")
        given = given or {}
        wrong, session = misshapen(command, given), self.session
        if not wrong and command in ("launch", "attach") and session.initialized and not session.launched:
            self.choose(Live if command == "attach" or given.get("live") else Session)
        self.session.check(command)
        if wrong:
            raise Problem(f"{command}: {wrong}")
        return getattr(self.session, f"on_{command}")(given)  # type: ignore[no-any-return]

    def choose(self, kind: type[Session]) -> None:
        """Makes the session of a record, or of an execution."""
        before, self.session = self.session, kind(self.session.program, self.send_event)
        for name in ("initialized", "client", "base", "column"):
            setattr(self.session, name, getattr(before, name))
        self.session.ask_client = self.ask_client
        if isinstance(self.session, Live):
            self.session.post = lambda work: self.inbox.put(partial(self.follow, "the execution", [work]))

    def finish(self, request: Body, done: Future[Body], after: list[Callable[[], Any]]) -> None:
        """Answers a request that had to wait."""
        fault = done.exception()
        if fault is not None:
            return self.refuse(request, words_of(fault, str(request.get("command"))))
        self.respond(request, True, body=done.result())
        self.follow(str(request.get("command")), after)

    def follow(self, what: str, after: list[Callable[[], Any]]) -> None:
        """Does what follows. If the program has ended, the client learns that the session is over."""
        try:
            for action in after:
                action()
        except BrokenPipeError:
            raise
        except Exception as fault:  # (the client can still disconnect)
            self.session.print(f"{words_of(fault, what)}\n", "important")
            goes_on = isinstance(fault, Problem) and isinstance(self.session, Live)  # (its end is an event)
            if not goes_on:
                self.send_event("terminated", {})


def words_of(fault: BaseException, command: str) -> str:
    """What the client reads of an error."""
    if isinstance(fault, Problem):
        return str(fault)
    if isinstance(fault, OSError):
        return of_system(fault, command)
    return f"{command}: {sentence(fault, f'dap: {command}')}"


def main(arguments: list[str]) -> int:
    """Serves one client over standard input and output; the exit status."""
    if len(arguments) == 2 and arguments[0] == "--shell":
        return open_shell(arguments[1])
    if len(arguments) == 4 and arguments[0] == "--shell":
        from .kept_shell import shell_at  # (here, as it takes longer than the rest together)
        return shell_at(*arguments[1:])
    if arguments:
        asked = arguments[0] in ("-h", "--help")
        print(USAGE, file=sys.stdout if asked else sys.stderr)
        return 0 if asked else 2
    program = os.environ.get("ACTRUN_PROGRAM")
    if not program:
        print("actrun: dap: the variable ACTRUN_PROGRAM has to name the built program: "
              "call this by the script `actrun`", file=sys.stderr)
        return 3
    # (without a buffer, whose lock a thread would hold at the end)
    source: Any = open(sys.stdin.fileno(), "rb", buffering=0, closefd=False)
    server = Server(source, sys.stdout.buffer, os.path.abspath(program))
    try:
        return server.serve()
    except BrokenPipeError:
        os.dup2(os.open(os.devnull, os.O_WRONLY), sys.stdout.fileno())
        return 0
    except KeyboardInterrupt:
        return 130
    finally:
        server.session.close()


if __name__ == "__main__":
    sys.exit(main(sys.argv[1:]))
