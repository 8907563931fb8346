"""A shell in a copy of the workspace that a leg had at a place of a record.

It is in a sandbox as that of steps, with a root of its own, and without a network. Of the execution it sees
the tools, temporary files and artifacts, which it cannot change. Copy and sandbox are removed at its end.
"""
from __future__ import annotations

import contextlib
import marshal
import os
import secrets
import shlex
import signal
import sys
from dataclasses import dataclass
from pathlib import Path
from typing import Any, Iterator, NoReturn

from . import Problem, keeping, tree as rooms
from .broker import Broker
from .dap_record import Record, Walker
from .debug_breaks import frame_of
from .environment import usual
from .execute import program
from .explained import explainer
from .kept_files import KeptFiles, Then
from .live_prompt import INPUT, carry, on_terminal
from .lower_containers import VARIABLE
from .lower_tree import RUNNER
from .machine import Machine
from .sandbox import HOME, bwrap, python_places, sandbox_words
from .snapshot_restore import restore
from .toolchains import PYTHON
from .tree import Room
from .values import Frame
from .visible import visible
from .whole import whole

FRONT = Path(__file__).resolve().parent.parent
COPIES = "copies"                              # the folder of the copies, beside those of executions
SHOWN = ("artifacts", "temp", "tools")         # of the execution, below `play`
NO_SANDBOX = "install bubblewrap (apt-get install bubblewrap), or allow user namespaces"
ENDING = (signal.SIGHUP, signal.SIGTERM)


def stop(number: int, _: Any) -> NoReturn:
    """Ends the command, so that the copy is removed."""
    raise SystemExit(128 + number)


@contextlib.contextmanager
def new_room(name: str) -> Iterator[Room]:
    """A folder for a copy, which is removed at the end, as are those that were left by force."""
    parent = rooms.make_root() / COPIES
    parent.mkdir(mode=0o700, exist_ok=True)
    with keeping.held(parent):
        for old in parent.iterdir():
            lock = keeping.lock_folder(old)
            if lock:
                with lock:
                    rooms.remove(old)
        room = rooms.fill_room(parent / secrets.token_hex(6), name, 0)
    before = [(number, signal.signal(number, stop)) for number in ENDING]
    try:
        yield room
    finally:
        for number, handler in before:
            signal.signal(number, handler)
        rooms.remove(room.folder)
        room.lock.close()


@dataclass
class Look:
    """A workspace at a place, with the variables of a frame there."""

    files: KeptFiles
    then: Then
    place: int
    frame: Frame

    def open(self, room: Room) -> int:
        """Opens the shell on the terminal of the caller; gives how it ended. Raises Problem if there is no
        sandbox."""
        bwrap()  # (before anything is copied)
        workspace = self.files.workspace(self.frame, self.place) or str(room.tree)
        restore(self.then.kept.store, self.then.tree, room.folder / "copy") if self.then.snapshot else \
            (room.folder / "copy").mkdir()
        top = Path(self.then.kept.call.top)
        machine = Machine(room, PYTHON, rooms.kept_for(top, "apt"))
        machine.prepare(True)
        words = self.words(room, workspace, top)
        with Broker(room, lambda leg: machine.words(words, leg), PYTHON, 0, machine.before(), {}) as broker:
            broker.leg(0)  # (before anything is said of it)
            own = self.files.explainer.record.legs[self.then.leg].job["env"]
            where = "outside of its container, " if VARIABLE in own else ""
            told = f"a copy of the workspace {self.when()}, {where}without a network"
            print(visible(f"({told}; `exit` or Ctrl-D removes it)"))
            sys.stdout.flush()
            return self.carry_out(broker, workspace, str(room.play / "temp"))

    def when(self) -> str:
        """Of which moment the copy is."""
        then = self.then
        if then.step is None:
            return f"of {self.files.name(then.leg)} before its first step has ended"
        return f"after {self.files.name(then.leg, then.step)}"

    def words(self, room: Room, workspace: str, top: Path) -> list[str]:
        """The words of the sandbox."""
        words = sandbox_words(room, [FRONT, *python_places(PYTHON)], [], True, top, [room.play / "temp"])
        old, named = self.then.kept.folder / "play", Path(self.then.kept.call.folder) / "play"
        more = [word for name in SHOWN for word in ("--ro-bind-try", str(old / name), str(named / name))]
        more += ["--bind", str(room.folder / "copy"), workspace]
        at = words.index("--remount-ro")
        return [*words[:at], *more, *words[at:]]

    def variables(self, temp: str) -> dict[str, str]:
        """The variables of the shell: those of the frame, without secrets."""
        around, then = self.files.explainer.around(self.place, self.frame), self.then
        given = {name: one.text for name, one in around.variables().items() if not name.startswith("ACTRUN_")}
        contexts = {**around.contexts(), "runner": RUNNER}
        found: dict[str, str] = self.files.masks(then.leg, then.step).hide({**usual(contexts), **given})
        added = then.kept.store.path(then.snapshot).decode("utf-8", "replace") if then.snapshot else ""
        path = [*filter(None, reversed(added.splitlines())), found.get("PATH", os.defpath)]
        prompt = f"({self.files.name(then.leg)[:40]} at {self.place}) \\W$ "
        return {**found, "PATH": ":".join(path), "HOME": str(HOME), "RUNNER_TEMP": temp, "PS1": prompt}

    def carry_out(self, broker: Broker, workspace: str, temp: str) -> int:
        """Carries the terminal of the caller to the shell, until that ends; gives how it ended."""
        given = self.variables(temp)
        start = f"PS1={shlex.quote(given.pop('PS1'))} exec /bin/bash --noprofile --norc -i"
        words = on_terminal([b"/bin/sh", b"-c", os.fsencode(start)])
        pairs = ((name, value) for name, value in given.items() if "\0" not in value)
        variables = {os.fsencode(name): os.fsencode(value) for name, value in pairs}
        master, slave = os.openpty()
        try:
            data = marshal.dumps((words, variables, {}, [], os.fsencode(workspace)))
            with broker.begin(0, data, slave) as ours:
                carry(INPUT, master, ours)
                return int.from_bytes(ours.recv(4), "little", signed=True)
        finally:
            os.close(master)


def open_shell(files: KeptFiles, place: int, frame: Frame) -> int:
    """Opens a shell where a frame's leg was at a place, on the terminal of the caller; gives how it ended.
    Raises Problem if there is no snapshot, no sandbox or no terminal."""
    if not os.isatty(INPUT):
        raise Problem("shell: standard input is no terminal")
    try:
        with files.then(place, frame) as then, new_room("copy") as room:
            return Look(files, then, place, frame).open(room)
    except Problem as problem:
        if problem.status == 3:
            raise Problem(f"{str(problem).partition(chr(10))[0]}: {NO_SANDBOX}", 3) from None
        raise
    except OSError as error:
        raise Problem(f"shell: {error.filename or 'the copy'}: {error.strerror or error}", 3) from None


def shell_at(record: str, place: str, leg: str) -> int:
    """Opens a shell where a leg was at a place of a record, on this terminal; gives the exit status."""
    path = Path(record)
    try:
        with whole(path) as readable:
            walker = Walker(program(), readable)
            try:
                known = explainer(walker, Record(program(), readable.read_bytes()), path)
                at = int(place) if place.isdigit() and len(place) < 12 else -1
                if not 0 <= at <= walker.last:
                    raise Problem(f"{place}: the record has the places 0 to {walker.last}")
                frame = frame_of(known, known.frame(["leg", leg]).leg, at)
                open_shell(KeptFiles(known, path.absolute()), at, frame)
                return 0
            finally:
                walker.close()
    except Problem as problem:
        print(visible(f"actrun: dap --shell: {problem}"), file=sys.stderr)
        return problem.status
