"""A person at the prompt of `actrun try --break`, on a pipe and on a terminal of their own."""
from __future__ import annotations

import fcntl
import os
import pty
import re
import select
import signal
import subprocess
import termios
import time
from pathlib import Path

from .try_case import TryCase

PATIENCE = 90.0  # seconds until what was expected has to be shown


class Person:
    """Types at a terminal, and reads what it shows."""

    def __init__(self, command: list[str], folder: Path, environment: dict[str, str]) -> None:
        self.master, slave = pty.openpty()

        def settle() -> None:
            os.setsid()
            fcntl.ioctl(slave, termios.TIOCSCTTY, 0)
            for number in (signal.SIGINT, signal.SIGQUIT):
                signal.signal(number, signal.SIG_DFL)
        self.child = subprocess.Popen(command, cwd=folder, env={**environment, "TERM": "dumb"}, stdin=slave,
                                      stdout=slave, stderr=slave, preexec_fn=settle)
        os.close(slave)
        self.shown, self.read = "", 0

    def more(self) -> bool:
        """Reads what the terminal shows; false at its end."""
        if not select.select([self.master], [], [], 1)[0]:
            return True
        try:
            part = os.read(self.master, 65536)
        except OSError:
            part = b""
        self.shown += part.decode("utf-8", "replace").replace("\r\n", "\n")
        return bool(part)

    def until(self, pattern: str) -> str:
        """Reads until a pattern is shown, which nobody has read; gives what was before its end."""
        end = time.monotonic() + PATIENCE
        while True:
            found = re.compile(pattern).search(self.shown, self.read)
            if found:
                text, self.read = self.shown[self.read:found.end()], found.end()
                return text
            if time.monotonic() > end or not self.more():
                raise AssertionError(f"{pattern} was not shown:\n{self.shown}")

    def type(self, text: str) -> None:
        """Types a text."""
        os.write(self.master, text.encode())

    def at(self, command: str) -> str:
        """Types a command at the next prompt; gives what was shown before it."""
        shown = self.until(r"\(break\) $")
        self.type(command + "\n")
        return shown

    def end(self) -> int:
        """Waits for the end; gives the status."""
        while self.more():
            pass
        return self.child.wait(PATIENCE)

    def close(self) -> None:
        """Ends the command."""
        self.child.kill()
        self.child.wait()
        os.close(self.master)


class LiveCase(TryCase):
    """A test with commands for the prompt."""

    def at_pipe(self, *lines: str, words: tuple[str, ...]) -> subprocess.CompletedProcess[str]:
        """Calls `try` with lines on a pipe."""
        typed = "".join(f"{line}\n" for line in lines).encode()
        done = subprocess.run(self.command(*words), cwd=self.project, env=self.environment, check=False,
                              timeout=120, input=typed, capture_output=True)
        return subprocess.CompletedProcess(done.args, done.returncode, done.stdout.decode("utf-8", "replace"),
                                           done.stderr.decode("utf-8", "replace"))

    def person(self, *words: str) -> Person:
        """Calls `try` on a terminal."""
        person = Person(self.command(*words), self.project, self.environment)
        self.addCleanup(person.close)
        return person
