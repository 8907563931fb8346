"""The sandboxes of an execution: one for `actrun run`, which no step sees, and one for each leg, in which its
steps are started.

`actrun run` has the plan, all secrets and the growing record. It executes in a place where there is nothing
but it, its files and the shim (shim.py), which replaces each program that it can start. The shim asks here
for the agent (agent.py) of the step's leg; the first time that leg's sandbox is made. From then on the shim
and the agent speak with each other alone.
"""
from __future__ import annotations

import errno
import importlib.machinery
import importlib.util
import marshal
import os
import select
import socket
import subprocess
import sys
import tempfile
import threading
import time
from dataclasses import dataclass
from pathlib import Path
from typing import IO, Any, Callable, Iterable, Mapping, Sequence

from . import Problem, network, sandbox, seccomp, system_faults
from .tree import Room

HERE = Path(__file__).resolve().parent
SHIM, AGENT, ONE_STREAM = HERE / "shim.py", HERE / "agent.py", HERE.parent / "stubs" / "one_stream.py"
SOCKETS, PYTHON_THERE, SHIM_THERE = "/actrun", "/p", "/shim"  # where `actrun run` executes
SHELLS = ("/usr/bin/bash", "/usr/bin/sh")
MODULES = ("_ctypes", "_socket", "array", "resource", "select")  # that may be files of their own
# (no `--dev`, which would need a second user namespace, without a right to change the places of the first)
DEVICES = (*(word for name in ("null", "zero", "random", "urandom")
             for word in ("--dev-bind", f"/dev/{name}", f"/dev/{name}")),
           "--symlink", "/proc/self/fd", "/dev/fd", "--symlink", "/proc/self/fd/0", "/dev/stdin")
FULL = (errno.ENOSPC, errno.EDQUOT)  # errors of a file system, which are none of the sandbox
# what is executed there: the shim, compiled, since each step starts it
LOADER = f"""#!{PYTHON_THERE} -ISB
import marshal
import sys
with open("{SOCKETS}/code", "rb") as file:
    one_stream, shim = marshal.load(file)
sys.modules["one_stream"] = module = type(sys)("one_stream")
exec(one_stream, module.__dict__)
exec(shim)
"""
PATIENCE = 60.0                 # seconds until a sandbox has to be there
# seconds without a step, after which a leg has ended if its sandbox is one too many
IDLE = 5.0


@dataclass
class Leg:
    """The sandbox of one leg."""

    process: subprocess.Popen[bytes]
    agent: socket.socket
    errors: IO[bytes]
    idle: float | None = None   # since when it executes no step
    scoped: bool = False        # whether abstract sockets of other programs are out of its reach
    own: network.Own | None = None  # its network, if that is not the machine's

    def end(self) -> None:
        """Ends all that executes in it."""
        self.process.kill()
        self.process.wait()
        self.agent.close()
        self.errors.close()
        if self.own:
            self.own.end()


def heard(agent: socket.socket) -> bool:
    """Whether an agent is still there, which has told something."""
    try:
        return bool(agent.recv(64))
    except OSError:
        return False


def libraries(words: Sequence[str]) -> dict[str, str]:
    """The libraries that a program loads, the loader among them: the place where each is looked for, and
    where it is."""
    answer = subprocess.run(words, env={**sandbox.CLEAN, "LD_TRACE_LOADED_OBJECTS": "1"},
                            stdin=subprocess.DEVNULL,
                            capture_output=True, check=False)
    places = (line.split(" (0x")[0].split(" => ")[-1].strip()
              for line in answer.stdout.decode("utf-8", "replace").splitlines())
    return {place: os.path.realpath(place) for place in places if place.startswith("/")}


def files_of_python() -> dict[str, str]:
    """The files that this Python needs to start: the place where each is looked for, and where it is."""
    python = os.path.realpath(sys.executable)
    found = libraries([python])
    loader = [name for name in found if os.path.basename(name).startswith("ld")][:1]
    for origin in (getattr(importlib.util.find_spec(name), "origin", None) for name in MODULES):
        if origin and os.path.isabs(origin):
            found.update({origin: origin, **libraries([*loader, origin])})
    return {python: python, os.path.dirname(os.__file__): os.path.dirname(os.__file__), **found}


def compiled(path: Path) -> Any:
    """The code of a file of Python."""
    return importlib.machinery.SourceFileLoader(path.stem, os.fspath(path)).get_code(path.stem)


class Broker:
    """The sandboxes of one execution. `words_of` gives the words of a leg's sandbox; `python` executes the
    agents there, after the words `before`. With `most` sandboxes of legs that have ended are ended where
    there are more; a leg that goes on all the same gets a new one. `told` are the files that the shim reads.
    `maker` gives legs networks of their own, but for those that the engine's containers share."""

    def __init__(self, room: Room, words_of: Callable[[int], list[str]], python: str, most: int,
                 before: Sequence[str], told: Mapping[str, bytes], maker: str = "") -> None:
        self.room, self.words_of, self.python, self.most = room, words_of, python, most
        self.before, self.told, self.maker = before, told, maker
        self.no_network = ""        # why there is none of a leg's own
        self.legs: dict[int, Leg] = {}
        self.relays: dict[int, Any] = {}  # of legs whose steps do not go to their agent alone
        self.breaks: Any = None     # has legs that wait for a person
        self.keeper: Any = None     # keeps workspaces after steps
        # answer steps that are not executed
        self.known: dict[tuple[int, int], Callable[[socket.socket, int], None]] = {}
        self.ended: list[Leg] = []  # whose agents steps have ended
        self.problem: Problem | None = None
        self.folder = room.folder / "socket"
        self.guard = threading.Lock()
        self.filter = seccomp.program()

    def __enter__(self) -> Broker:
        self.folder.mkdir(mode=0o700)
        self.shim = self.folder / "shim"
        self.shim.write_text(LOADER, encoding="utf-8")
        self.shim.chmod(0o500)
        (self.folder / "code").write_bytes(marshal.dumps((compiled(ONE_STREAM), compiled(SHIM))))
        for name, text in self.told.items():
            (self.folder / name).write_bytes(text)
        self.resolver = self.folder / "resolver"
        self.resolver.write_text(network.resolver(), encoding="utf-8")
        self.resolver.chmod(0o444)
        self.server = socket.socket(socket.AF_UNIX, socket.SOCK_STREAM)
        number = os.open(self.folder, os.O_DIRECTORY | os.O_PATH)
        self.server.bind(f"/proc/self/fd/{number}/steps")  # (a name of a socket is short)
        os.close(number)
        self.server.listen(64)
        self.wake, self.woken = socket.socketpair()
        self.thread = threading.Thread(target=self.serve, daemon=True)
        self.thread.start()
        return self

    def __exit__(self, *_: object) -> None:
        self.wake.close()
        self.thread.join()
        for leg in (*self.legs.values(), *self.ended):
            leg.end()
        for one in (self.server, self.woken):
            one.close()
        for name in ("steps", "shim", "code", *self.told, "resolver"):
            (self.folder / name).unlink()
        self.folder.rmdir()

    def leg(self, number: int) -> Leg:
        """The sandbox of a leg; the first time it is made. Raises Problem if that fails."""
        with self.guard:
            if number not in self.legs:
                try:
                    self.legs[number] = self.made(number)
                except OSError as error:
                    if error.errno in FULL:
                        raise
                    raise sandbox.no_sandbox(f"{error.filename or 'bwrap'}: {error.strerror}") from None
            return self.legs[number]

    def begin(self, number: int, data: bytes, output: int) -> socket.socket:
        """Has the agent of a leg execute a request, which prints into a descriptor that is closed here; gives
        the connection with the answer. Raises Problem if there is no sandbox."""
        ours, theirs = socket.socketpair()
        try:
            leg = self.leg(number)
            leg.idle = None
            socket.send_fds(leg.agent, [b"s"], [theirs.fileno(), output])
        finally:
            theirs.close()
            os.close(output)
        ours.sendall(len(data).to_bytes(8, "little") + data)
        return ours

    def made(self, number: int) -> Leg:
        """A leg's sandbox, with a network of its own where that can be made."""
        if self.maker and number not in self.relays:
            try:
                return self.made_apart(self.words_of(number))
            except network.NoNetwork as problem:
                self.maker, self.no_network = "", str(problem)
        return self.made_of(self.words_of(number))

    def made_apart(self, words: Sequence[str]) -> Leg:
        """A sandbox with a network of its own. Raises NoNetwork if that cannot be made."""
        told, info = os.pipe()
        at = words.index("--remount-ro")
        try:
            leg = self.made_of([*words[:at], *network.words(info, self.resolver), *words[at:]], info)
        finally:
            os.close(info)
        try:
            leg.own = network.connect(self.maker, told)
        except network.NoNetwork:
            leg.end()
            raise
        finally:
            os.close(told)
        return leg

    def made_of(self, words: Sequence[str], *keep: int) -> Leg:
        """A sandbox with its agent, which has said that it waits for steps."""
        ours, theirs = socket.socketpair(socket.AF_UNIX, socket.SOCK_SEQPACKET)
        errors = tempfile.TemporaryFile()
        ours.send(self.filter or b"-")
        command = [*self.before, self.python, "-ISB", os.fspath(AGENT), str(theirs.fileno())]
        process = sandbox.start(
            words, command, [theirs.fileno(), *keep], stdin=subprocess.DEVNULL, stdout=errors, stderr=errors
        )
        theirs.close()
        leg = Leg(process, ours, errors)
        try:
            told = ours.recv(1) if select.select([ours], [], [], PATIENCE)[0] else b""
            if told:
                leg.scoped = told == b"+"
                return leg
        except OSError:  # (it has ended)
            pass
        errors.seek(0)
        lines = errors.read(1 << 16).decode("utf-8", "replace").strip().splitlines()
        leg.end()
        raise self.why_not((lines or ["bwrap says nothing"])[-1])

    def why_not(self, line: str) -> Problem:
        """The problem of a sandbox that was not made. `line` is the last that was printed."""
        if os.strerror(errno.ENOSPC) not in line:
            return sandbox.no_sandbox(line)
        full = OSError(errno.ENOSPC, os.strerror(errno.ENOSPC), os.fspath(self.room.folder))
        return Problem(system_faults.sentence(full), 3)

    def hear(self, ready: Sequence[object]) -> None:
        """Takes what agents tell: that a step has ended, or that they have."""
        for number, leg in list(self.legs.items()):
            if leg.agent in ready:
                leg.idle = None if number in self.relays else time.monotonic()
                if not heard(leg.agent):
                    self.ended.append(self.legs.pop(number))

    def spare(self) -> None:
        """Ends the sandboxes of legs that have ended, as it seems, if there are too many."""
        waits = self.breaks.since if self.breaks else ()
        legs = ((number, leg) for number, leg in self.legs.items() if number not in waits)
        idle = sorted((leg.idle, number) for number, leg in legs if leg.idle is not None)
        for since, number in idle[:max(0, len(self.legs) - self.most)] if self.most else []:
            if time.monotonic() - since > IDLE:
                self.legs.pop(number).end()

    def serve(self) -> None:
        """Hands the connection of each shim on to the agent of its leg, until the other end of `woken` is
        closed."""
        while True:
            ready = select.select([self.server, self.woken,
                                   *(leg.agent for leg in list(self.legs.values()))], [], [])[0]
            if self.woken in ready:
                return
            with self.guard:
                self.hear(ready)
                self.spare()
            if self.server not in ready:
                continue
            connection = self.server.accept()[0]
            try:
                connection.settimeout(PATIENCE)
                self.hand_on(connection)
            except Problem as problem:
                self.problem = self.problem or problem
            except (OSError, ValueError):  # (a step has ended the agent: the shim says so)
                pass
            finally:
                connection.close()

    def hand_on(self, connection: socket.socket) -> None:
        """Hands one connection on, with the pipe for what the step prints."""
        text, numbers, _, _ = socket.recv_fds(connection, 16, 2)
        place, step = (int.from_bytes(text[at:at + 8], "little") for at in (0, 8))
        relay, breaks = self.relays.get(place), self.breaks
        known, inner = self.known.get((place, step)), connection
        try:
            if known and numbers:
                known(connection.dup(), os.dup(numbers[0]))
                return
            leg = self.leg(place)  # (here, since a sandbox ends with the thread that made it)
            leg.idle = None
            connection.settimeout(None)
            inner = self.keeper.hold(place, step, connection) if self.keeper else connection
            if breaks and breaks.wants(place) and len(numbers) == 2:
                breaks.take(place, inner.dup(), *map(os.dup, numbers))
            elif relay and len(numbers) == 2:
                relay.take(inner.dup(), *map(os.dup, numbers))
            else:
                socket.send_fds(leg.agent, [b"s"], [inner.fileno(), *numbers])
        finally:
            for number in numbers:
                os.close(number)
            if inner is not connection:
                inner.close()

    def program_words(self, words: Sequence[str], variables: dict[str, str],
                      programs: Iterable[str]) -> list[str]:
        """The words that execute `actrun run` where no step sees it. `programs` are those that it starts
        for actions."""
        private, play = self.room.private, self.room.play
        place = private / "environment"
        with open(os.open(place, os.O_WRONLY | os.O_CREAT | os.O_EXCL, 0o600), "wb") as file:
            file.write(b"\0".join(os.fsencode(f"{name}={value}") for name, value in variables.items()))
        result = [sandbox.bwrap(), "--proc", "/proc", "--unshare-pid", "--unshare-ipc",
                  "--die-with-parent", *DEVICES]
        if os.geteuid() == 0:
            result += ["--cap-drop", "ALL"]
        else:
            result.append("--unshare-user")
        result += ["--cap-add", "CAP_SYS_ADMIN", "--cap-add", "CAP_SETPCAP"]
        known = {**files_of_python(), words[0]: words[0], **libraries([words[0]])}
        for there, real in {**known, **dict.fromkeys((*SHELLS, SHIM_THERE), os.fspath(self.shim))}.items():
            result += ["--ro-bind", real, there]
        result += ["--symlink", "usr/bin", "/bin", "--symlink", os.path.realpath(sys.executable),
                   PYTHON_THERE]
        result += ["--bind", os.fspath(self.folder), SOCKETS, *sandbox.shown("--bind", (private, play))]
        for entry in os.scandir(play):
            if entry.is_dir(follow_symlinks=False):
                result += ["--tmpfs", entry.path]
        for path in programs:
            result += ["--ro-bind", os.fspath(self.shim), path]
        return [*result, "--remount-ro", "/", "--chdir", os.fspath(play), "--", PYTHON_THERE, "-ISB",
                SHIM_THERE, "--enter",
                os.fspath(place), os.fspath(play), os.fspath(private), "--", *words]

    def check(self, errors: Sequence[str]) -> None:
        """Raises the Problem of a sandbox that could not be made during the execution. `errors` are the
        last lines that were printed."""
        if (self.room.private / "environment").exists():  # (it is removed before the program starts)
            raise sandbox.no_sandbox((list(errors) or ["bwrap says nothing"])[-1])
        if self.problem:
            raise self.problem
