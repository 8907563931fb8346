"""The prompt of a break: reads what a person types, and carries a shell of a sandbox to the terminal."""
from __future__ import annotations

import atexit
import contextlib
import fcntl
import os
import queue
import select
import socket
import stat
import struct
import sys
import termios
import time
import tty
from typing import TYPE_CHECKING, Callable, Iterator

from . import Problem, prompt_lines
from .present import Screen
from .toolchains import PYTHON

if TYPE_CHECKING:
    from .live_control import Command

TEXT = "(break) "
MOST_HELD = 10_000      # lines of other legs until they are shown in a prompt
LOOK = 0.5              # seconds between two looks at the size of the terminal
INPUT = 0               # standard input
# in the sandbox: takes the terminal that is its output as the terminal of a session
WITH_TERMINAL = """\
import fcntl, os, sys, termios
fcntl.ioctl(1, termios.TIOCSCTTY, 0)
os.dup2(1, 0)
os.execv(sys.argv[1], sys.argv[1:])
"""


def on_terminal(words: list[bytes]) -> list[bytes]:
    """The words that start a program in the sandbox with the terminal that is its output."""
    return [os.fsencode(PYTHON), b"-ISB", b"-c", WITH_TERMINAL.encode(), *words]


class Stopped(Exception):
    """The step has to end: nobody is asked any more."""


def check_input(option: str) -> None:
    """Raises Problem if nobody can type a command."""
    try:
        found = os.fstat(INPUT)
    except OSError:
        found = None
    is_null = found is not None and stat.S_ISCHR(found.st_mode) and not os.isatty(INPUT)
    is_empty = found is not None and stat.S_ISREG(found.st_mode) and found.st_size == 0
    if found is None or is_null or is_empty or is_over():
        raise Problem(f"{option}: there is no terminal, and standard input has no commands: call `try` on a "
                      "terminal, or send it the commands of the prompt, one per line")


def is_over() -> bool:
    """Whether standard input is a pipe that has ended, with nothing in it."""
    poll = select.poll()
    poll.register(INPUT, select.POLLIN)
    return any(events & select.POLLHUP and not events & select.POLLIN for _, events in poll.poll(0))


class Prompt:
    """Reads commands on standard input, while one break has the turn. Lines of other legs wait."""

    def __init__(self, screen: Screen, asks: bool = True) -> None:
        self.screen = screen
        self.asks = asks          # reads standard input, not lines of clients alone
        self.is_terminal = asks and os.isatty(INPUT)
        self.sent: queue.SimpleQueue[Command] = queue.SimpleQueue()  # lines of clients
        self.command: Command | None = None                          # the one that is being carried out
        self.typed = b""
        self.active = False
        self.on_interrupt: Callable[[], None] | None = None  # of what executes; else the line is cancelled
        self.woken, self.wake = os.pipe()
        os.set_blocking(self.wake, False)
        self.kept = termios.tcgetattr(INPUT) if self.is_terminal else None
        self.child: prompt_lines.Child | None = None  # that reads lines on a terminal
        self.history = ""
        atexit.register(self.close)

    def close(self) -> None:
        """Gives the terminal back as it was, and ends what reads lines on it."""
        if self.child:
            self.child.close()
        self.restore()

    def restore(self) -> None:
        """Gives the terminal back as it was."""
        if self.kept is not None:
            with contextlib.suppress(termios.error, OSError):
                termios.tcsetattr(INPUT, termios.TCSANOW, self.kept)

    @contextlib.contextmanager
    def turn(self) -> Iterator[None]:
        """Holds the lines of other legs back, until the break is over."""
        if self.asks:
            self.screen.hold()
        while select.select([self.woken], [], [], 0)[0]:  # (a Ctrl-C that came when a break was over)
            os.read(self.woken, 64)
        self.active = True
        try:
            yield
        finally:
            self.active = False
            self.screen.release()
            while not self.sent.empty():
                self.sent.get().end("no leg waits at a break")

    def send(self, command: Command) -> None:
        """Takes a line of a client."""
        self.sent.put(command)
        os.write(self.wake, b"l")

    @contextlib.contextmanager
    def answered(self) -> Iterator[None]:
        """Lets the client know how its line ended."""
        fault = "the step was ended"
        try:
            yield
            fault = ""
        finally:
            command, self.command = self.command, None
            if command:
                command.end(fault)

    def terminal(self) -> int | None:
        """The terminal on which a shell can be opened."""
        return self.command.terminal if self.command else INPUT if self.is_terminal else None

    def interrupt(self) -> bool:
        """Whether Ctrl-C belongs to the prompt, which then cancels its line or ends what it executes."""
        if not self.asks:
            return False
        if self.active:
            with contextlib.suppress(OSError):
                if self.on_interrupt:
                    self.on_interrupt()
                else:
                    os.write(self.wake, b"c")
        return self.active

    def write(self, text: str) -> None:
        """Shows a text as it is."""
        if self.command:
            self.command.show(text)
            if not self.asks:
                return
        with self.screen.lock:
            sys.stderr.write(text)
            sys.stderr.flush()

    def read(self, connection: socket.socket, known: Callable[[], list[str]] = list) -> str | None:
        """The next line, where `known` gives lines that can be completed; None at the end of the input.
        Raises Stopped where the step has to end."""
        if not self.asks:
            return self.read_sent(connection)
        self.screen.flush()
        if self.is_terminal:
            with contextlib.suppress(OSError, ValueError):
                return self.typed_line(connection, known())
        return self.piped_line(connection)

    def typed_line(self, connection: socket.socket, known: list[str]) -> str | None:
        """The next line of a terminal, which a child reads. Raises OSError if it cannot."""
        self.child = self.child or prompt_lines.Child(self.history)
        answer = self.child.ask(TEXT, known)
        seen = done = 0  # Ctrl-C, here and by the child
        while True:
            ready = select.select([answer, self.woken, connection], [], [], LOOK)[0]
            if not self.sent.empty():
                self.close()
                self.write("\n")
                return self.read_sent(connection)
            if connection in ready:
                self.close()
                self.write("\n")
                raise Stopped
            if answer in ready:
                line = self.child.line()
                if not isinstance(line, bool):
                    return line.strip() if line is not None else None
                answer, done = self.child.ask(TEXT, known), max(done + 1, seen)
            if self.woken in ready:
                seen += len(os.read(self.woken, 64))
            elif seen > done and not ready:  # (it came before the child could see it)
                self.child.interrupt()
            if len(self.screen.held or ()) > MOST_HELD:
                self.write("\n")
                self.screen.flush()
                self.write(TEXT)

    def piped_line(self, connection: socket.socket) -> str | None:
        """The next line of the input. Raises Stopped if the step has to end."""
        self.write(TEXT)
        while b"\n" not in self.typed:
            ready = select.select([INPUT, self.woken, connection], [], [], LOOK)[0]
            if connection in ready:
                self.write("\n")
                raise Stopped
            if not self.sent.empty():
                return self.read_sent(connection)
            if self.woken in ready:
                os.read(self.woken, 64)
                self.typed = b""
                self.write(f"\n{TEXT}")
            elif INPUT in ready and not self.more():
                text, self.typed = self.typed, b""
                self.write("\n" if not text else "")
                return self.line(text) if text else None
            elif len(self.screen.held or ()) > MOST_HELD:
                self.write("\n")
                self.screen.flush()
                self.write(TEXT)
        line, _, self.typed = self.typed.partition(b"\n")
        return self.line(line)

    def read_sent(self, connection: socket.socket) -> str:
        """The next line of a client. Raises Stopped where the step has to end."""
        while self.sent.empty():
            ready = select.select([self.woken, connection], [], [])[0]
            if connection in ready:
                raise Stopped
            os.read(self.woken, 64)
        command = self.sent.get()
        if self.asks:
            self.write(f"{command.line}  (by an editor)\n")
        self.command = command
        return command.line

    def more(self) -> bool:
        """Reads more of the input; false at its end."""
        try:
            part = os.read(INPUT, 1 << 16)
        except OSError:
            part = b""
        self.typed += part
        return bool(part)

    def line(self, data: bytes) -> str:
        """A line that was read; one that no terminal has shown is shown."""
        text = data.decode("utf-8", "replace").strip()
        if not self.is_terminal:
            self.write(f"{text}\n")
        return text

    def script(self) -> bytes:
        """The lines until `exit` or the end, where no terminal is."""
        lines: list[bytes] = []
        while True:
            while b"\n" not in self.typed and self.more():
                pass
            line, end, self.typed = self.typed.partition(b"\n")
            if line.strip() == b"exit" or not end and not line:
                return b"".join(one + b"\n" for one in lines)
            lines.append(line)


def carry(terminal: int, master: int, answer: socket.socket, connection: socket.socket | None = None) -> None:
    """Carries what is typed at a terminal to one of a sandbox, and back, until the answer comes. Raises
    Stopped where the step of a connection has to end."""
    shape, looked, waits = b"", 0.0, [terminal, master, answer, *([connection] if connection else [])]
    shown, kept = 2 if terminal == INPUT else terminal, termios.tcgetattr(terminal)
    tty.setraw(terminal, termios.TCSANOW)
    try:
        while True:
            if time.monotonic() - looked > LOOK:
                looked, shape = time.monotonic(), same_shape(terminal, master, shape)
            ready = select.select(waits, [], [], LOOK)[0]
            if terminal in ready and not copy(terminal, master):
                waits.remove(terminal)  # (it was closed)
                answer.sendall(b"K")
            if master in ready and not copy(master, shown):
                waits.remove(master)
            if connection in ready:
                raise Stopped
            if answer in ready:
                while select.select([master], [], [], 0)[0] and copy(master, shown):
                    pass
                return
    finally:
        with contextlib.suppress(termios.error, OSError):
            termios.tcsetattr(terminal, termios.TCSANOW, kept)


def copy(source: int, target: int) -> bool:
    """Carries what one terminal has to another; false at its end."""
    try:
        part = os.read(source, 1 << 14)
    except OSError:  # (nobody has it open)
        return False
    with contextlib.suppress(OSError):
        write_all(target, part)
    return bool(part)


def write_all(number: int, data: bytes) -> None:
    """Writes bytes to a descriptor, all of them."""
    while data:
        data = data[os.write(number, data):]


def same_shape(terminal: int, master: int, known: bytes) -> bytes:
    """Gives a terminal of a sandbox the size of the person's own, unless that is known; gives the size."""
    try:
        shape = fcntl.ioctl(terminal, termios.TIOCGWINSZ, bytes(8))
        if shape != known and struct.unpack("HHHH", shape)[0]:
            fcntl.ioctl(master, termios.TIOCSWINSZ, shape)
        return shape
    except OSError:
        return known
