"""Lines that a person types, with completion and a history. The prompt of a break, which has to watch its
step meanwhile, has
this program as a child, which reads for it.
"""
from __future__ import annotations

import contextlib
import json
import os
import signal
import socket
import subprocess
import sys
from typing import Callable, Iterable, List

MOST = 1000  # lines of the history


def next_words(lines: Iterable[str], typed: str, begun: str) -> list[str]:
    """The words that can follow what was typed up to one that is begun; `lines` are all that may be typed."""
    before = "".join(f"{word} " for word in typed[:len(typed) - len(begun)].split())
    rests = (line[len(before):] for line in lines if line.startswith(before + begun))
    return list(dict.fromkeys(rest.split(" ")[0] + " " for rest in rests if rest))


def prepare(lines: Callable[[], List[str]], history: str) -> None:
    """Gives `input` completion and a history, if this Python has readline."""
    try:
        import readline
    except ImportError:
        return
    found: list[str] = []

    def complete(begun: str, at: int) -> str | None:
        if at == 0:
            found[:] = next_words(lines(), readline.get_line_buffer()[:readline.get_endidx()], begun)
        return found[at] if at < len(found) else None
    readline.set_completer(complete)
    readline.set_completer_delims(" ")
    for setting in ("tab: complete", "set enable-bracketed-paste off", "set show-all-if-ambiguous on"):
        readline.parse_and_bind(setting)
    readline.set_history_length(MOST)
    with contextlib.suppress(OSError):
        readline.read_history_file(history)


def save(history: str) -> None:
    """Keeps the history, for its owner alone."""
    if not history:
        return
    kept = os.umask(0o077)
    try:
        import readline
        readline.write_history_file(history)
        os.chmod(history, 0o600)
    except (ImportError, OSError):
        pass
    finally:
        os.umask(kept)


class Child:
    """A program that reads lines on this terminal, one for each time that it is asked."""

    def __init__(self, history: str) -> None:
        self.history = history
        self.process: subprocess.Popen[bytes] | None = None
        self.ours: socket.socket | None = None

    def ask(self, prompt: str, lines: list[str]) -> socket.socket:
        """Has a line read; gives what becomes readable when there is one."""
        if self.process is None or self.process.poll() is not None:
            self.close()
            self.ours, theirs = socket.socketpair()
            with theirs:
                words = [sys.executable, "-ISB", os.path.abspath(__file__), str(theirs.fileno()),
                         self.history]
                self.process = subprocess.Popen(words, stdout=2, pass_fds=[theirs.fileno()])
        assert self.ours is not None
        self.ours.sendall(json.dumps([prompt, lines]).encode() + b"\n")
        return self.ours

    def line(self) -> str | bool | None:
        """The line that was typed; None at the end of the input, False if Ctrl-C threw it away. Raises
        OSError if the program has ended."""
        data = b""
        while not data.endswith(b"\n"):
            part = self.ours.recv(1 << 16) if self.ours else b""
            if not part:
                raise OSError("what reads lines has ended")
            data += part
        found: str | bool | None = json.loads(data)
        return found

    def interrupt(self) -> None:
        """Throws the line away, where Ctrl-C came before readline could see it."""
        if self.process is not None:
            self.process.send_signal(signal.SIGINT)

    def close(self) -> None:
        """Ends the program."""
        if self.process is not None and self.ours is not None:
            self.process.kill()
            self.process.wait()
            self.ours.close()
            self.process = self.ours = None


def main(arguments: list[str]) -> None:
    """Reads lines for the process at the other end of a socket, until that is closed."""
    signal.signal(signal.SIGINT, signal.SIG_IGN)
    known: list[str] = []
    prepare(lambda: known, arguments[1])
    with socket.socket(fileno=int(arguments[0])) as asked, asked.makefile("rb") as requests:
        for request in requests:
            prompt, known[:] = json.loads(request)
            line = read(prompt)
            asked.sendall(json.dumps(line).encode() + b"\n")
            save(arguments[1])


def read(prompt: str) -> str | bool | None:
    """The next line; None at the end of the input, False where Ctrl-C threw it away."""
    try:
        signal.signal(signal.SIGINT, signal.default_int_handler)
        return input(prompt)
    except KeyboardInterrupt:
        print(file=sys.stderr)
        return False
    except EOFError:
        return None
    finally:
        signal.signal(signal.SIGINT, signal.SIG_IGN)


if __name__ == "__main__":
    main(sys.argv[1:])
