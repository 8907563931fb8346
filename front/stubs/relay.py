"""Executes a program, shows what it prints, and carries out the commands that GitHub's runner still knows.

`set-output` and `save-state` are carried out and not shown; `set-env` and `add-path` fail the step, as on
GitHub, unless the variable ACTIONS_ALLOW_UNSECURE_COMMANDS is `true`. All other lines are shown as they are.
`try` starts scripts that have `::set-output` in their text by this program: its arguments are the words of
the command.
"""

from __future__ import annotations

import os
import re
import select
import signal
import subprocess
import threading
from typing import Mapping

import step

COMMAND = re.compile(rb"\s*::([A-Za-z-]+)(?: ([^\n]*?))?::([^\n]*?)\r?\n?")
HIDDEN = ("add-matcher", "remove-matcher", "echo")  # commands that do nothing here
UNSAFE = {"set-env": "GITHUB_ENV", "add-path": "GITHUB_PATH"}
ALLOWED = "ACTIONS_ALLOW_UNSECURE_COMMANDS"
MARK = "ACTRUN_RELAYED"


def decoded(text: bytes, more: bool = False) -> str:
    """The text of a command's message, or with `more` of the value of a property."""
    signs = {"%25": "%", "%0D": "\r", "%0A": "\n", **({"%3A": ":", "%2C": ","} if more else {})}
    known = text.decode("utf-8", "replace")
    return re.sub("(?i)%25|%0D|%0A|%3A|%2C", lambda it: signs.get(it[0].upper(), it[0]), known)


class Commands:
    """The lines of a program: commands that are carried out here, and all others, which are shown."""

    def __init__(self) -> None:
        self.state: dict[str, str] = {}
        self.outputs: dict[str, str] = {}
        self.rest = b""         # of a line that is not whole yet and may become a command
        self.is_shown = False   # the beginning of the line that is not whole yet
        self.resumes = b""      # the word that ends `stop-commands`
        self.failed = False

    def feed(self, data: bytes) -> bytes:
        """What is shown of more output."""
        *lines, last = (self.rest + data).split(b"\n")
        shown, self.rest = b"", b""
        for line in lines:
            shown += line + b"\n" if self.is_shown else self.line(line + b"\n")
            self.is_shown = False
        if self.is_shown or last.lstrip()[:2] not in (b"", b":", b"::"):
            self.is_shown = self.is_shown or bool(last)
            return shown + last
        self.rest = last
        return shown

    def line(self, line: bytes) -> bytes:
        """What is shown of a line."""
        found = COMMAND.fullmatch(line)
        if self.resumes:
            self.resumes = b"" if line.strip() == b"::" + self.resumes + b"::" else self.resumes
            return line
        if not found:
            return line
        name = found[1].decode().lower()
        if name == "stop-commands":
            self.resumes = found[3].strip()
        pairs = [pair.strip() for pair in (found[2] or b"").split(b",")]
        key = next((decoded(pair[5:], True) for pair in pairs if pair.startswith(b"name=")), "")
        return b"" if name in HIDDEN or self.carried_out(name, key, decoded(found[3])) else line

    def carried_out(self, name: str, key: str, value: str) -> bool:
        """Carries a command out; whether it is one of these."""
        if name in ("save-state", "set-output"):
            (self.state if name == "save-state" else self.outputs).update({key: value} if key else {})
        elif name in UNSAFE and os.environ.get(ALLOWED, "").lower() == "true":
            add(UNSAFE[name], {key: value} if name == "set-env" else f"{value}\n")
        elif name in UNSAFE:
            step.warn(f"the command {name} is disabled, as on GitHub: write to the file {UNSAFE[name]}",
                      "error")
            self.failed = True
        return name in ("save-state", "set-output", *UNSAFE)

    def end(self) -> bytes:
        """What is shown of a last line without a newline; the outputs are written."""
        rest, self.rest = self.rest, b""
        shown = self.line(rest) if rest else b""
        add("GITHUB_OUTPUT", self.outputs)
        return shown


def add(variable: str, more: dict[str, str] | str) -> None:
    """Adds pairs or a text to the file that a variable names, on lines of their own."""
    if not more:
        return
    with open(os.environ[variable], "ab+") as file:
        size = file.seek(0, os.SEEK_END)
        file.seek(max(size - 1, 0))
        if file.read(1) not in (b"", b"\n"):
            file.write(b"\n")
        file.write(more.encode() if isinstance(more, str) else b"")
    for name, value in more.items() if isinstance(more, dict) else ():
        step.set_output(name, value, variable)


def show(data: bytes) -> None:
    """Writes to standard output at once."""
    while data:
        data = data[os.write(1, data):]


def relay(process: subprocess.Popen[bytes], commands: Commands) -> int:
    """Shows what a program prints until it has ended; gives its exit status. Programs left behind keep their
    output."""
    assert process.stdout is not None
    output = process.stdout.fileno()
    woken, wake = os.pipe()
    threading.Thread(target=lambda: (process.wait(), os.write(wake, b".")), daemon=True).start()
    ended = False
    while True:
        ready = select.select([output] if ended else [output, woken], [], [], 0 if ended else None)[0]
        if output in ready:
            data = os.read(output, 65536)
            if not data:
                break
            show(commands.feed(data))
        elif ended:
            subprocess.Popen(["cat"], stdin=output, stdout=subprocess.DEVNULL, stderr=subprocess.DEVNULL,
                             start_new_session=True)
            break
        else:
            ended = True
    show(commands.end())
    return process.wait()


def execute(words: list[str], environment: Mapping[str, str], commands: Commands) -> int:
    """Executes a command, and gives the status of the step: its own, or 1 where a command failed."""
    process = subprocess.Popen(words, env=environment, stdin=subprocess.DEVNULL, stdout=subprocess.PIPE,
                               stderr=subprocess.STDOUT)
    for number in (signal.SIGINT, signal.SIGTERM):  # (it may tidy up before it ends)
        signal.signal(number, lambda it, _: process.send_signal(it))
    status = relay(process, commands)
    return 1 if status == 0 and commands.failed else status if status >= 0 else 128 - status


def main(*words: str) -> None:
    """Executes a command."""
    raise SystemExit(execute(list(words), {**os.environ, MARK: "1"}, Commands()))


if __name__ == "__main__":
    step.start(main)
