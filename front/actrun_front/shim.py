#!/p -ISB
"""Replaces `bash`, `sh` and the programs of actions where `actrun run` executes: none of them can be there,
nor anything a step wrote.

A step's program is started by a leg's agent (agent.py), in the sandbox of that leg. This one brings the agent
what the step needs, copies what the step prints, writes into the step's own files what the step handed on,
and ends as the step ended. The step has one pipe to print into, with its output and its errors in order.
(broker.py starts this with the module `one_stream`.)

As `shim.py --enter VARIABLES FOLDER.. -- PROGRAM..` it starts `actrun run` itself: with the variables of a
file, after it made folders such that nothing in them can be executed, and without capabilities.
"""
from __future__ import annotations

import _signal
import _socket
import marshal
import os
import select
import sys

from one_stream import STAYS, Stream, plain_names, unblocked

TYPE_CHECKING = False
if TYPE_CHECKING:  # (`typing` takes longer to import than all else here)
    import ctypes
    from typing import NoReturn

PLACE = "/actrun/steps"         # the socket of the front
# the bytes that a step may print, 0 for all, and behind a space the note beyond
LIMIT = "/actrun/limit"
VEILS = "/actrun/veils"         # secrets and what the program has in their place (veils.py)
MOST = 32 * 1024 * 1024
MOST_VALUE = 65_536             # bytes; the program rejects files with a longer value
# of the files of outputs and variables; the program rejects files with more than 256 names
MOST_LINES = 2048
# seconds in which `actrun run` ends, if it was the front that ended, and no step after this one begins
PATIENCE = 3.0
BEGIN = "\ue000".encode()        # which begins a veil
SHELLS = ("bash", "sh")
BIND, REMOUNT, NO_SETUID, NO_DEVICES, NO_EXECUTION, READ_ONLY = 4096, 32, 2, 4, 8, 1
DROP, AMBIENT, CLEAR_ALL = 24, 47, 4


def read_file(path: str | bytes) -> bytes:
    """The bytes of a file."""
    with open(path, "rb", buffering=0) as file:
        parts: list[bytes] = []
        while True:
            part = file.read(1 << 20)
            if not part:
                return b"".join(parts)
            parts.append(part)


def variables_of(path: str) -> dict[bytes, bytes]:
    """The variables of a file that has each as NAME=VALUE before a zero byte."""
    pairs = (part.partition(b"=") for part in read_file(path).split(b"\0"))
    return {name: value for name, equals, value in pairs if equals}


def read_all(connection: _socket.socket, length: int) -> bytes:
    """That many bytes of a connection."""
    parts = []
    while length:
        part = connection.recv(min(length, 1 << 20))
        if not part:
            raise EOFError("the sandbox of this leg has ended")
        parts.append(part)
        length -= len(part)
    return b"".join(parts)


def write_all(number: int, data: bytes) -> None:
    """Writes bytes to a descriptor, all of them."""
    view = memoryview(data)
    while view:
        view = view[os.write(number, view):]


def fail(text: str) -> NoReturn:
    """Ends the step with a sentence."""
    os.write(2, f"actrun: {text}\n".encode("utf-8", "replace"))
    sys.exit(1)


def veiled(value: bytes, pairs: list[tuple[bytes, bytes]]) -> bytes:
    """A value with a veil in place of each secret, the longest one at each place; only the beginning of one
    that is too long."""
    places = {secret: value.find(secret) for secret, _ in pairs}
    made: list[bytes] = []
    begin = size = 0
    while size <= MOST_VALUE:
        found = [(places[secret], at) for at, (secret, _) in enumerate(pairs) if places[secret] >= 0]
        if not found:
            return b"".join([*made, value[begin:]])
        place, at = min(found)
        secret, veil = pairs[at]
        made += [value[begin:place], veil]
        size += place - begin + len(veil)
        begin = place + len(secret)
        for other, before in places.items():
            if 0 <= before < begin:
                places[other] = value.find(other, begin)
    return b"".join(made)


def veiled_file(text: bytes, pairs: list[tuple[bytes, bytes]]) -> bytes:
    """A file of outputs or variables with veils in its values: of `NAME=VALUE`, and of `NAME<<DELIMITER` the
    lines until the delimiter."""
    if not any(secret in text for secret, _ in pairs):
        return text
    made: list[bytes] = []
    lines, at = text.split(b"\n"), 0
    while at < len(lines) and len(made) < MOST_LINES:
        name, equals, value = lines[at].partition(b"=")
        head, block, delimiter = lines[at].partition(b"<<")
        at += 1
        if block and len(head) < len(name):
            try:
                last = lines.index(delimiter, at)
            except ValueError:  # (the program rejects the file)
                last = len(lines)
            made += [lines[at - 1], *([veiled(b"\n".join(lines[at:last]), pairs)] if last > at else [])]
            at = last
        else:
            made.append(name + equals + veiled(value, pairs))
    return b"\n".join([*made, *lines[at:]])


def unveiled(data: bytes, pairs: list[tuple[bytes, bytes]]) -> bytes:
    """Text with the secrets in place of their veils."""
    for secret, veil in pairs if BEGIN in data else ():
        data = data.replace(veil, secret)
    return data


def request(
    output: bytes, variables: dict[bytes, bytes], own: list[tuple[bytes, bytes]]
) -> tuple[bytes, list[bytes]]:
    """What the agent needs of a step. `own` are the secrets of its job, with their veils."""
    words = [os.fsencode(word) for word in sys.argv]
    if os.path.basename(sys.argv[0]) in SHELLS:
        words[0] = os.fsencode(os.path.basename(sys.argv[0]))
    folder = os.path.dirname(output)
    variables = {name: unveiled(value, own) for name, value in variables.items()}
    variables[b"ACTRUN_PIPED"] = b"1"  # (for the prelude: both streams are one)
    handed = [output, variables[b"GITHUB_ENV"]]
    files = dict.fromkeys(handed, b"")
    files.update(
        (word, unveiled(read_file(word), own))
        for word in words[1:]
        if word.startswith(folder + b"/step-") and word.endswith(b".sh")
    )
    return marshal.dumps((words, variables, files, handed, folder)), handed


def stream_of(variables: dict[bytes, bytes]) -> Stream:
    """Where what the step prints goes: to the own standard output, up to the limit."""
    most, note = read_file(LIMIT).split(b" ", 1)
    return Stream(1, os.fsdecode(variables.get(b"ACTIONS_ALLOW_UNSECURE_COMMANDS", b"")), int(most), note)


def copy_until(connection: _socket.socket, reader: int, stream: Stream) -> None:
    """Copies what the step prints until the connection has an answer, then what is still there."""
    waits = [connection.fileno(), reader]
    while True:
        ready = select.select(waits, [], [])[0]
        if reader in ready and not stream.copy(reader):
            waits.remove(reader)  # (nobody prints any more)
        if connection.fileno() in ready:
            break
    stream.finish(reader)


def step() -> NoReturn:
    """Has the agent execute the step."""
    variables = variables_of("/proc/self/environ")
    output = variables[b"GITHUB_OUTPUT"]
    place = [int(part) for part in os.path.basename(output)[:-len(".out")].split(b"-")[1:]]  # leg and step
    pairs, of_legs = marshal.loads(read_file(VEILS))
    data, handed = request(
        output, variables, [pair for pair in pairs if pair[0] in of_legs.get(place[0], ())]
    )
    connection = _socket.socket(_socket.AF_UNIX, _socket.SOCK_STREAM)
    connection.connect(PLACE)
    stream = stream_of(variables)
    reader, writer = os.pipe()
    os.set_blocking(reader, False)
    numbers = b"".join(number.to_bytes(4, sys.byteorder) for number in (writer, reader))
    connection.sendmsg(
        [b"".join(number.to_bytes(8, "little") for number in place)],
        [(_socket.SOL_SOCKET, _socket.SCM_RIGHTS, numbers)],
    )

    def stop(number: int, _: object) -> None:
        try:
            connection.send(b"I" if number == _signal.SIGINT else b"T")
        except OSError:
            pass
    for number in (_signal.SIGTERM, _signal.SIGINT, _signal.SIGHUP):
        _signal.signal(number, stop)
    os.close(writer)
    connection.sendall(len(data).to_bytes(8, "little") + data)
    copy_until(connection, reader, stream)
    head = read_all(connection, 4 + 4 * len(handed))
    status = int.from_bytes(head[:4], "little", signed=True) or int(stream.commands.failed)
    lengths = [int.from_bytes(head[at:at + 4], "little") for at in range(4, len(head), 4)]
    for path, length in zip(handed, lengths):
        if length > MOST:
            fail(f"{os.fsdecode(os.path.basename(path))}: a step has to hand on a file of at most {MOST >> 20} MiB, "
                 "no link and nothing else")
        number = os.open(path, os.O_RDWR | os.O_NOFOLLOW)
        added = os.read(number, MOST)  # (by the front: ending.py)
        os.ftruncate(number, 0)
        os.lseek(number, 0, os.SEEK_SET)
        data = read_all(connection, length)
        # (the file outweighs commands)
        names = (plain_names(stream.commands.pairs() + data), False)
        given, says = names if path == output else unblocked(data)
        if says:
            stream.put(STAYS)
        write_all(number, veiled_file(given, pairs) + added)
        os.close(number)
    if status < 0:  # the program is to see the signal, too
        if -status not in (_signal.SIGKILL, _signal.SIGSTOP):
            _signal.signal(-status, _signal.SIG_DFL)
        import resource
        resource.setrlimit(resource.RLIMIT_CORE, (0, 0))
        os.kill(os.getpid(), -status)
        status = 128 - status
    sys.exit(status)


def without_execution(libc: ctypes.CDLL, folder: str) -> None:
    """Makes a folder in which nothing can be executed, and no library loaded."""
    there = os.statvfs(folder).f_flag & (READ_ONLY | NO_SETUID | NO_DEVICES)
    flags = BIND | REMOUNT | NO_SETUID | NO_DEVICES | NO_EXECUTION | there
    if libc.mount(None, os.fsencode(folder), None, flags,
                  None) != 0 or not os.statvfs(folder).f_flag & NO_EXECUTION:
        sys.exit(f"actrun: {folder}: this kernel does not make it a place where nothing is executed")


def drop_capabilities(libc: ctypes.CDLL) -> None:
    """Gives up all capabilities, also for programs that root starts."""
    import ctypes
    for number in range(64):
        if libc.prctl(DROP, number, 0, 0, 0) != 0:
            break
    libc.prctl(AMBIENT, CLEAR_ALL, 0, 0, 0)
    head, none = (ctypes.c_uint32 * 2)(0x20080522, 0), (ctypes.c_uint32 * 6)()
    if libc.capset(head, none) != 0:
        sys.exit("actrun: the capabilities cannot be given up")


def enter(place: str, *words: str) -> NoReturn:
    """Starts the program."""
    import ctypes
    end = words.index("--")
    libc = ctypes.CDLL(None, use_errno=True)
    for folder in words[:end]:
        without_execution(libc, folder)
    drop_capabilities(libc)
    variables = variables_of(place)
    os.unlink(place)
    os.umask(0o077)
    for number in (_signal.SIGPIPE, _signal.SIGXFSZ):  # (which Python ignores)
        _signal.signal(number, _signal.SIG_DFL)
    os.execve(words[end + 1], list(words[end + 1:]), variables)


if __name__ == "__main__":
    if sys.argv[1:2] == ["--enter"]:
        enter(*sys.argv[2:])
    try:
        step()
    except (EOFError, OSError, KeyError, ValueError):
        select.select([], [], [], PATIENCE)
        fail("the step was not executed to its end: the sandbox of its leg has ended")
