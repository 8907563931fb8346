"""Starts the program of a step with one pipe for standard output and error, and copies it on in order.

GitHub's runner does so, too. A step that opens /dev/stderr again, as `tee /dev/stderr` does, then cuts
nothing off. What the program left behind when it ended may hold the pipe: it is read as far as it is filled,
and not waited for. A byte that is no UTF-8 becomes U+FFFD, since it would hide the whole log.

With a sandbox the shim (shim.py) reads that pipe, by the class `Stream` from here. (Each step starts one of
both: few modules are loaded.)
"""

import _signal
import codecs
import os
import select
import stat
import sys
from _collections_abc import Callable  # (which os has loaded)

SIZE = 1 << 16
MOST_LEFT = 64     # pieces that are read of a pipe whose program has ended
LOOKED_BACK = 4096  # bytes in which a cut log looks for the end of a line
LONGEST = 1 << 17  # of a line that is looked at: the program refuses the value of a longer one
PLAIN = b"ABCDEFGHIJKLMNOPQRSTUVWXYZabcdefghijklmnopqrstuvwxyz0123456789_-"
BLOCKED = b"NODE_OPTIONS"  # a variable that no step sets for those behind it
# the variables of GitHub's runner that a step sets for those behind it, and a workflow in `env`, without
# effect
KEPT = frozenset(f"{kind}_{name}".encode() for kind, names in (
    ("GITHUB", "ACTION ACTOR ACTOR_ID API_URL BASE_REF EVENT_NAME EVENT_PATH GRAPHQL_URL HEAD_REF JOB REF REF_NAME "
     "REF_PROTECTED REF_TYPE REPOSITORY REPOSITORY_ID REPOSITORY_OWNER REPOSITORY_OWNER_ID RETENTION_DAYS RUN_ATTEMPT "
     "RUN_ID RUN_NUMBER SERVER_URL SHA TRIGGERING_ACTOR WORKFLOW WORKFLOW_REF WORKFLOW_SHA WORKSPACE"),
    ("RUNNER", "ARCH ENVIRONMENT NAME OS TEMP TOOL_CACHE WORKSPACE")) for name in names.split())
STAYS = b"::error::Can't store NODE_OPTIONS output parameter using '$GITHUB_ENV' command.\n"
DISABLED = {"set-env": "GITHUB_ENV", "add-path": "GITHUB_PATH"}
REFUSED = ("\n::error::Unable to process command '::{name}' successfully. The `{name}` command is disabled. "
           "Write to the file that {file} names, or set the variable ACTIONS_ALLOW_UNSECURE_COMMANDS to "
           "true.\n")


def pairs_of(data: bytes) -> "list[tuple[bytes, bytes]]":
    """The pairs of a file of outputs or variables: the name, if the line has one, and what is behind it."""
    found: "list[tuple[bytes, list[bytes]]]" = []
    delimiter = b""
    for line in data.split(b"\n"):
        if delimiter:
            found[-1][1].append(line)
            delimiter = b"" if line == delimiter else delimiter
            continue
        name = line.partition(b"=")[0].partition(b"<<")[0]
        if line[len(name):len(name) + 2] == b"<<":
            delimiter = line[len(name) + 2:]
        found.append((b"", [line]) if name == line else (name, [line[len(name):]]))
    return [(name, b"\n".join(lines)) for name, lines in found]


def plain_names(data: bytes) -> bytes:
    """A file of outputs with names as the program takes them: other signs than letters, digits, _ and - are
    their numbers."""
    signs = {sign: bytes([sign]) if sign in PLAIN else b"_x%02x_" % sign for sign in range(256)}
    return b"\n".join(b"".join(map(signs.__getitem__, name)) + rest for name, rest in pairs_of(data))


def unblocked(data: bytes) -> "tuple[bytes, bool]":
    """A file of variables without what GitHub takes from no step, and whether it says so."""
    if BLOCKED not in data.upper() and b"GITHUB_" not in data and b"RUNNER_" not in data:
        return data, False
    pairs = pairs_of(data)
    kept = [(name, rest) for name, rest in pairs if name.upper() != BLOCKED]
    text = b"\n".join(name + rest for name, rest in kept if name not in KEPT)
    return text, len(kept) < len(pairs)


def decoded(text: str) -> str:
    """The value of a command."""
    return text.replace("%0D", "\r").replace("%0A", "\n").replace("%25", "%")


class Commands:
    """Looks for `set-output`, and for commands that GitHub has disabled: a step that prints such a one
    fails."""

    def __init__(self, allowed: bool) -> None:
        self.rest = b""     # of the last line, which is not whole yet
        self.resumes = ""   # the line that ends `stop-commands`
        self.allowed, self.failed = allowed, False
        self.outputs: dict[str, str] = {}

    def seen(self, data: bytes) -> bytes:
        """What is added behind more output."""
        data, added = self.rest + data, ""
        at = data.find(b"::")
        while at >= 0:
            end = data.find(b"\n", at)
            if end < 0:
                break
            if not at or not 32 < data[at - 1] < 128:  # (nothing but spaces can be before it in its line)
                added += self.line(data[data.rfind(b"\n", 0, at) + 1:end].decode("utf-8", "replace").lstrip())
            at = data.find(b"::", end)
        begin = data.rfind(b"\n") + 1
        self.rest = data[begin:begin + LONGEST]
        return added.encode()

    def line(self, line: str) -> str:
        """What is added behind a line."""
        if self.resumes:
            self.resumes = "" if line.rstrip() == self.resumes else self.resumes
        elif line.startswith("::stop-commands::"):
            self.resumes = f"::{line[17:].rstrip()}::"
        elif line.startswith("::"):
            head, ends, value = line[2:].partition("::")
            name, _, given = head.partition(" ")
            if ends and name.lower() in DISABLED and not self.allowed:
                self.failed = True
                return REFUSED.format(name=name.lower(), file=DISABLED[name.lower()])
            if ends and name.lower() == "set-output":
                pairs = [pair.strip().partition("=") for pair in given.split(",")]
                names = [text for key, _, text in pairs if key.lower() == "name" and text]
                self.outputs.update((one, decoded(value.rstrip("\r"))) for one in names[:1])
        return ""

    def pairs(self) -> bytes:
        """The outputs that were set, as lines of the file GITHUB_OUTPUT."""
        end = os.urandom(16).hex()
        return "".join(f"{name}<<{end}\n{value}\n{end}\n" for name, value in self.outputs.items()).encode()


class Stream:
    """What a step prints, on its way to a descriptor: UTF-8 alone, and not more than a limit.

    `most` bytes are written, or all where it is 0; beyond that `note` ends the log. `allowed` is the value of
    the variable ACTIONS_ALLOW_UNSECURE_COMMANDS.
    """

    def __init__(self, target: int, allowed: str, most: int = 0, note: bytes = b"") -> None:
        self.target, self.limited, self.left, self.note = target, most > 0, most, note
        self.commands = Commands(allowed.lower() == "true")
        self.text = codecs.getincrementaldecoder("utf-8")("replace")
        self.is_whole = True  # the last character
        self.is_cut = False
        self.at_line = True   # whether a line begins here

    def copy(self, reader: int) -> bool:
        """Copies what a pipe has; whether it had something."""
        try:
            data = os.read(reader, SIZE)
        except BlockingIOError:
            return False
        self.take(data)
        return bool(data)

    def finish(self, reader: int) -> None:
        """Copies what a pipe still has. (It does not block; what was left running may print without end.)"""
        for _ in range(MOST_LEFT):
            if not self.copy(reader):
                break
        self.take(b"", True)

    def take(self, data: bytes, last: bool = False) -> None:
        """Copies more output."""
        if last or not self.is_whole or not data.isascii():
            data = self.text.decode(data, last).encode()
            self.is_whole = not self.text.getstate()[0]
        had_failed = self.commands.failed
        added = self.commands.seen(data + b"\n" if last else data)
        self.put(data if self.fits(data) else self.cut(data))
        if not had_failed or self.fits(added):  # (why a step fails is always said)
            self.put(added)

    def fits(self, data: bytes) -> bool:
        """Whether bytes are below the limit."""
        if self.limited:
            self.left -= len(data)
        return self.left >= 0

    def cut(self, data: bytes) -> bytes:
        """What is written of bytes that do not fit: the first time whole lines, or of a long line whole
        characters, and the note."""
        if self.is_cut:
            return b""
        self.is_cut = True
        end = len(data) + self.left
        line = data.rfind(b"\n", max(end - LOOKED_BACK, 0), end) + 1
        kept = data[:line] if line else data[:end].decode("utf-8", "ignore").encode()
        at_line = kept.endswith(b"\n") if kept else self.at_line
        return kept + (b"" if at_line else b"\n") + self.note

    def put(self, data: bytes) -> None:
        """Writes bytes."""
        rest = memoryview(data)
        while rest:
            rest = rest[os.write(self.target, rest):]
        self.at_line = data.endswith(b"\n") if data else self.at_line


class Lossy(Stream):
    """What cannot be written is lost, as the step's own writes would be."""

    def put(self, data: bytes) -> None:
        try:
            super().put(data)
        except OSError:
            pass


def start(words: list[str], writer: int) -> int:
    """Starts the program with the pipe for both streams; gives its number. A signal that ends steps reaches
    the program too, which decides: it is ignored here from the start. (The prelude ignores SIGINT for
    this.)"""
    ends = (_signal.SIGINT, _signal.SIGTERM, _signal.SIGHUP)
    kept = [number for number in ends if _signal.signal(number, _signal.SIG_IGN) == _signal.SIG_IGN]
    streams: "tuple[int, ...]" = (1, 2)
    try:
        child = os.fork()
        if child:
            return child
    except OSError:  # (the system has no more processes: this one becomes the program, without the pipe)
        streams = ()
    try:
        for number in (_signal.SIGPIPE, _signal.SIGXFSZ, *ends):  # (Python ignores the first two)
            is_kept = number in kept and number != _signal.SIGINT
            _signal.signal(number, _signal.SIG_IGN if is_kept else _signal.SIG_DFL)
        for stream in streams:
            os.dup2(writer, stream)
        os.execvp(words[0], words)
    except OSError as error:
        os.write(2, f"{words[0]}: {error.strerror}\n".encode())
    finally:
        os._exit(127)


def settle(variable: str, change: "Callable[[bytes], bytes]") -> None:
    """Changes the file that a variable names."""
    try:
        number = os.open(os.environ.get(variable, ""), os.O_RDWR | os.O_NOFOLLOW | os.O_NONBLOCK)
    except OSError:  # (the step removed it)
        return
    with open(number, "rb+") as file:
        old = file.read() if stat.S_ISREG(os.fstat(number).st_mode) else b""
        new = change(old)
        if new != old:
            file.seek(0)
            file.truncate()
            file.write(new)


def main(words: list[str]) -> int:
    """Starts the program; gives how it ended."""
    reader, writer = os.pipe()
    bell, ringer = os.pipe()
    for end in (bell, ringer):
        os.set_blocking(end, False)
    _signal.signal(_signal.SIGCHLD, lambda *_: None)
    _signal.set_wakeup_fd(ringer)
    child = start(words, writer)
    os.close(writer)
    waiting, ended, status = [reader, bell], 0, 0
    stream = Lossy(1, os.environ.get("ACTIONS_ALLOW_UNSECURE_COMMANDS", ""))
    while not ended:
        ready, _, _ = select.select(waiting, [], [])
        if reader in ready and not stream.copy(reader):
            waiting.remove(reader)
        if bell in ready:
            os.read(bell, SIZE)
            ended, status = os.waitpid(child, os.WNOHANG)
    os.set_blocking(reader, False)
    stream.finish(reader)
    # (the file outweighs commands)
    settle("GITHUB_OUTPUT", lambda old: plain_names(stream.commands.pairs() + old))
    says: "list[bool]" = []

    def taken(old: bytes) -> bytes:
        new, is_said = unblocked(old)
        says.append(is_said)
        return new
    settle("GITHUB_ENV", taken)
    if any(says):
        stream.put(STAYS)
    return 1 << 8 if stream.commands.failed and status == 0 else status


if __name__ == "__main__":
    how = main(sys.argv[1:])
    if os.WIFSIGNALED(how):
        if os.WTERMSIG(how) != _signal.SIGKILL:
            _signal.signal(os.WTERMSIG(how), _signal.SIG_DFL)
        os.kill(os.getpid(), os.WTERMSIG(how))
    os._exit(os.WEXITSTATUS(how) if os.WIFEXITED(how) else 255)
