"""Executes a plan by `actrun run`, hands its lines on as they come, and ends the steps at a signal."""
from __future__ import annotations

import contextlib
import os
import re
import signal
import subprocess
import threading
from dataclasses import dataclass, field
from pathlib import Path
from typing import IO, Any, Callable, Iterable, Iterator

from . import Problem
from .tied import tied

PATIENCE = 3.0
# that end the steps, and what a person calls them
SIGNALS: dict[int, str] = {signal.SIGINT: "Ctrl-C", signal.SIGQUIT: "Ctrl-\\", signal.SIGTERM: "SIGTERM",
           signal.SIGHUP: "SIGHUP"}
PROGRESS = re.compile(r"leg (\d+) \(.*?\) step (\d+) of \d+ (?:started: .*|refused: (?P<refusal>.*)|(?P<end>exit (?P<code>\d+)|bad output|not started: .* \((?P<why>.*)\))"
                      r"(?: in (?P<seconds>[\d.]+) s)?, \d+ of \d+ steps)")
REFUSALS = {
    "NotUtf8": "it is no UTF-8",
    "NoName": "a line is neither NAME=VALUE nor NAME<<DELIMITER, or a name has a sign that is not allowed",
    "OpenBlock": "the line that ends a NAME<<DELIMITER is missing",
    "TooMany": "it has more than 256 names, a name of more than 256 bytes or a value of more than 65,536",
}


def program() -> str:
    """The built program."""
    path = os.environ.get("ACTRUN_PROGRAM", "")
    if not path or not os.access(path, os.X_OK):
        raise Problem(
            "the variable ACTRUN_PROGRAM names no program: call this by the script `actrun`, which sets it", 3
        )
    return os.path.abspath(path)


def ask(*words: str | os.PathLike[str]) -> subprocess.CompletedProcess[str]:
    """The answer of a command that executes no steps."""
    return subprocess.run(
        [program(), *words],
        stdin=subprocess.DEVNULL,
        capture_output=True,
        encoding="utf-8",
        errors="replace",
        check=False,
    )


def lines_of(text: str) -> list[str]:
    """The lines of a record, or of what the program prints: newlines alone end them, and values have other
    marks."""
    return text.removesuffix("\n").split("\n") if text else []


def read_progress(line: str) -> tuple[int, int, str, str, str] | None:
    """Leg, step, state (`started`, `refused`, `success`, `failure`), why it failed, and seconds of a line of
    --progress; None of another."""
    found = PROGRESS.fullmatch(line)
    if not found:
        return None
    if found["refusal"]:
        name = found["refusal"].rpartition(": ")[2]
        return (
            int(found[1]),
            int(found[2]),
            "refused",
            f"{found['refusal']}{f', {REFUSALS[name]}' if name in REFUSALS else ''}",
            "",
        )
    state = "started" if not found["end"] else "success" if found["code"] == "0" else "failure"
    reason = (
        f"exit {found['code']}"
        if found["code"]
        else f"not started: {found['why']}"
        if found["why"]
        else "its outputs or variables cannot be read"
    )
    return int(found[1]), int(found[2]), state, reason if state == "failure" else "", found["seconds"] or ""


def session(leader: int | None) -> dict[int, int]:
    """The processes of a session, or all for None, each with its parent, as /proc has them."""
    found = {}
    for path in Path("/proc").glob("[0-9]*/stat"):
        try:
            fields = path.read_text(encoding="utf-8", errors="replace").rpartition(")")[2].split()
        except OSError:
            continue
        if leader in (None, int(fields[3])):
            found[int(path.parent.name)] = int(fields[1])
    return found


@contextlib.contextmanager
def heeded() -> Iterator[None]:
    """Lets programs that are started here heed SIGINT and SIGQUIT, also where the caller ignores these."""
    both = (signal.SIGINT, signal.SIGQUIT)
    ignored = [number for number in both if signal.getsignal(number) is signal.SIG_IGN]
    for number in ignored:
        signal.signal(number, lambda *_: None)  # (a program that is started has the default instead)
    try:
        yield
    finally:
        for number in ignored:
            signal.signal(number, signal.SIG_IGN)


def send(number: int, processes: Iterable[int]) -> None:
    """Sends a signal to processes that may have ended."""
    for process in processes:
        try:
            os.kill(process, number)
        except OSError:
            continue


def each_line(stream: Iterable[bytes] | None, take: Callable[[str], None]) -> None:
    """Hands on each line of a stream."""
    for line in stream or ():
        take(line.decode("utf-8", "replace").removesuffix("\n"))


@dataclass
class Execution:
    """One `actrun run`. The first signal stops its legs, and the program writes what it knows; the second
    ends it."""

    ender: Any                                  # stops legs
    board: Any                                  # takes lines of progress, and says that a signal was seen
    signals: list[int] = field(default_factory=list)
    child: Any = None
    prompt: Any = None                          # takes Ctrl-C while a person is asked

    def run(self, words: list[str], environment: dict[str, str], plan: Path) -> int:
        """Executes the plan to its end; gives the status of `run`, or 3 where a signal ended it, also in the
        sandbox."""
        # (what the caller ignores stays ignored, as by `nohup`)
        kept = {
            number: signal.signal(number, self.interrupt)
            for number in SIGNALS
            if signal.getsignal(number) is not signal.SIG_IGN
        }
        try:
            waits, held = os.pipe()  # (this process alone keeps `held` open)
            with open(held, "wb"), open(waits, "rb") as end:
                return self.execute(tied(words, plan, plan.with_name("record.part")), environment, end)
        finally:
            self.end()
            for number, handler in kept.items():
                signal.signal(number, handler)

    def execute(self, words: list[str], environment: dict[str, str], end: IO[bytes]) -> int:
        """Starts the words, hands on their lines of progress, and gives their status."""
        with heeded():
            # (standard output has the logs, which were shown already, and results, which are in the record)
            self.child = child = subprocess.Popen(
                words,
                stdin=end,
                stdout=subprocess.DEVNULL,
                env=environment,
                stderr=subprocess.PIPE,
                start_new_session=True,
            )
        end.close()
        reader = threading.Thread(target=each_line, args=(child.stderr, self.board.progress), daemon=True)
        reader.start()
        status = child.wait()
        reader.join(PATIENCE)
        return status if 0 <= status < 128 else 3

    def interrupt(self, number: int, _: Any) -> None:
        """What a signal does."""
        if number == signal.SIGINT and self.prompt and self.prompt.interrupt():
            return
        self.signals.append(number)
        if self.child is None:
            raise Problem(f"stopped by {SIGNALS[number]}", 128 + number)
        if len(self.signals) > 1:
            self.end()
            return
        for work in (self.board.stop, self.ender.stop_all):  # (not here: this thread may be writing a line)
            threading.Thread(target=work, args=(SIGNALS[number],), daemon=True).start()

    def end(self) -> None:
        """Ends the program and all that is left of its session."""
        if self.child is not None:
            self.child.kill()
            send(signal.SIGKILL, session(self.child.pid))
