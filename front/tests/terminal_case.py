"""A repository for tests of commands on a terminal."""
from __future__ import annotations

import os
import pty
import select
import subprocess
import sys
import time

from .try_case import FRONT, TryCase


class TerminalCase(TryCase):
    """A test whose commands have a terminal."""

    def on_terminal(self, *words: str, typed: bytes = b"") -> str:
        """What a command of the front shows on a terminal."""
        return self.shown_on_terminal([sys.executable, str(FRONT), *words], typed)

    def shown_on_terminal(self, command: list[str], typed: bytes = b"") -> str:
        """What a command shows on a terminal; `status` is how it ended."""
        master, slave = pty.openpty()
        child = subprocess.Popen(command, cwd=self.project, env={**self.environment, "TERM": "xterm"},
                                 stdin=slave, stdout=slave, stderr=slave, start_new_session=True)
        os.close(slave)
        shown, until = b"", time.monotonic() + 100
        if typed:
            os.write(master, typed)
        while time.monotonic() < until:
            if select.select([master], [], [], 1)[0]:
                try:
                    piece = os.read(master, 65536)
                except OSError:
                    break
                shown += piece
        self.status = child.wait(timeout=100)
        os.close(master)
        return shown.decode("utf-8", "replace")
