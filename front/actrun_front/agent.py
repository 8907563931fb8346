"""Starts the steps of one leg inside the leg's sandbox: `agent.py SOCKET`.

SOCKET is the number of a descriptor. The first message is a filter of system calls. For each step a message
comes by it, with descriptors: the connection of the shim that `actrun run` started in place of the step's
program (shim.py), one for what the step prints, and one from which that is read, if it is a pipe. The shim
reads it until the step has ended; then the agent does, since what a step leaves running may print on. The
connection brings the program with its arguments, variables and files, and takes back how the step ended and
what it wrote into the files that it hands on. A letter of the connection is a signal to the step; the end of
the connection is the end of the step, at once.

What starts here is started with the filter, without new privileges, and where the kernel can do that
(Landlock, from Linux 6.12 on) without the abstract sockets of other programs. It has plain signals, whatever
`try` was started with.
"""
from __future__ import annotations

import _socket
import array
import ctypes
import marshal
import os
import select
import signal
import sys

MOST = 32 * 1024 * 1024         # bytes that a step may hand on in one file
NO_NEW_PRIVILEGES, SECCOMP, WITH_FILTER = 38, 22, 2
CREATE_RULES, RESTRICT = 444, 446
NOT_FOUND, NOT_EXECUTABLE = 127, 126
# that the front sends to a step, by the letter that the shim sends
SIGNALS = {b"I": signal.SIGINT, b"T": signal.SIGTERM}


class Program(ctypes.Structure):
    """The kernel's `sock_fprog`."""

    _fields_ = [("length", ctypes.c_ushort), ("code", ctypes.c_void_p)]


def confine(code: bytes) -> bool:
    """Takes from this process and all that it starts: new privileges, abstract sockets from outside, and
    the calls of the filter."""
    libc = ctypes.CDLL(None, use_errno=True)
    if libc.prctl(NO_NEW_PRIVILEGES, 1, 0, 0, 0) != 0:
        raise OSError(ctypes.get_errno(), "no_new_privs cannot be set")
    rules = array.array("Q", [0, 0, 1])  # no files, no network; the scope of abstract sockets
    number = libc.syscall(CREATE_RULES, ctypes.c_void_p(rules.buffer_info()[0]), ctypes.c_size_t(24), 0)
    scoped: bool = number >= 0 and libc.syscall(RESTRICT, number, 0) == 0
    if number >= 0:
        os.close(number)
    if code:
        text = ctypes.create_string_buffer(code, len(code))
        program = Program(len(code) // 8, ctypes.addressof(text))
        if libc.prctl(SECCOMP, WITH_FILTER, ctypes.byref(program), 0, 0) != 0:
            raise OSError(ctypes.get_errno(), "the filter of system calls cannot be set")
    return scoped


def received(sock: _socket.socket) -> list[int]:
    """The descriptors of the next message; none if the other side is closed."""
    numbers = array.array("i")
    text, more, _, _ = sock.recvmsg(1, _socket.CMSG_SPACE(3 * numbers.itemsize), _socket.MSG_CMSG_CLOEXEC)
    for level, kind, data in more:
        if (level, kind) == (_socket.SOL_SOCKET, _socket.SCM_RIGHTS):
            numbers.frombytes(data[:len(data) - len(data) % numbers.itemsize])
    return list(numbers) if text else []


def read_all(number: int, length: int) -> bytes:
    """That many bytes of a descriptor; fewer at its end."""
    parts = []
    while length:
        part = os.read(number, min(length, 1 << 20))
        if not part:
            break
        parts.append(part)
        length -= len(part)
    return b"".join(parts)


def write_all(number: int, data: bytes) -> None:
    """Writes bytes to a descriptor, all of them."""
    view = memoryview(data)
    while view:
        view = view[os.write(number, view):]


def found(name: bytes, variables: dict[bytes, bytes]) -> list[bytes]:
    """The places of a program by the variable PATH of a step, as the C library tries them."""
    if b"/" in name:
        return [name]
    return [os.path.join(folder, name) for folder in variables.get(b"PATH", b"/bin:/usr/bin").split(b":")]


def start(words: list[bytes], variables: dict[bytes, bytes], folder: bytes, output: int) -> int:
    """Starts a program in a session of its own; gives its process."""
    process = os.fork()
    if process:
        return process
    status = NOT_FOUND
    try:
        os.setsid()
        null = os.open("/dev/null", os.O_RDONLY)
        for stream, number in ((null, 0), (output, 1), (output, 2)):
            os.dup2(stream, number)
        for number in set(signal.Signals) - {signal.SIGKILL, signal.SIGSTOP}:
            if signal.getsignal(number) is not signal.SIG_DFL:
                signal.signal(number, signal.SIG_DFL)
        signal.pthread_sigmask(signal.SIG_SETMASK, ())
        os.chdir(folder)
        for place in found(words[0], variables):
            try:
                os.execve(place, words, variables)
            except PermissionError:
                status = NOT_EXECUTABLE
            except (FileNotFoundError, NotADirectoryError):
                continue
        os.write(2, words[0] + b": the program is not there, or not executable\n")
    except OSError as error:
        os.write(2, f"{os.fsdecode(words[0])}: {error.strerror}\n".encode("utf-8", "replace"))
    finally:
        os._exit(status)


def end(leader: int, number: int) -> None:
    """Sends a signal to all processes in the session of a step."""
    for name in os.listdir("/proc"):
        try:
            if name.isdigit() and os.getsid(int(name)) == leader:
                os.kill(int(name), number)
        except OSError:
            continue


def drop(pipes: list[int], ready: list[int]) -> None:
    """Reads what earlier steps' programs print on, and drops it."""
    for number in [one for one in pipes if one in ready]:
        try:
            if os.read(number, 1 << 16):
                continue
        except BlockingIOError:
            continue
        except OSError:
            pass
        pipes.remove(number)
        os.close(number)


def waited(process: int, connection: int, pipes: list[int]) -> int:
    """How a step ended: its exit status, or the number of the signal below zero."""
    handle = os.pidfd_open(process)
    while True:
        ready = select.select([handle, connection, *pipes], [], [])[0]
        drop(pipes, ready)
        if connection in ready:
            asked = os.read(connection, 1)
            end(process, SIGNALS.get(asked, signal.SIGKILL))
            if not asked:
                ready = [handle]
                select.select(ready, [], [])
        if handle in ready:
            os.close(handle)
            return os.waitstatus_to_exitcode(os.waitpid(process, 0)[1])


def left(path: bytes) -> bytes | None:
    """What a step left in a file that it hands on: a file alone, no link and no pipe, of a length that can
    be read."""
    try:
        number = os.open(path, os.O_RDONLY | os.O_NOFOLLOW | os.O_NONBLOCK | os.O_CLOEXEC)
    except OSError:
        return None
    try:
        is_file = os.fstat(number).st_mode & 0o170000 == 0o100000
        data = read_all(number, MOST + 1) if is_file else None
        return None if data is None or len(data) > MOST else data
    finally:
        os.close(number)


def step(pipes: list[int], connection: int, output: int, *readers: int) -> None:
    """Executes one step that a connection brings."""
    length = int.from_bytes(read_all(connection, 8), "little")
    words, variables, files, handed, folder = marshal.loads(read_all(connection, length))
    for path, text in files.items():
        try:
            os.unlink(path)
        except FileNotFoundError:
            pass
        number = os.open(path, os.O_WRONLY | os.O_CREAT | os.O_EXCL | os.O_CLOEXEC, 0o600)
        write_all(number, text)
        os.close(number)
    process = start(words, variables, folder, output)
    os.close(output)
    status = waited(process, connection, pipes)
    answers = [left(path) for path in handed]
    head = status.to_bytes(4, "little", signed=True)
    heads = b"".join((2 ** 32 - 1 if text is None else len(text)).to_bytes(4, "little") for text in answers)
    write_all(connection, head + heads + b"".join(text or b"" for text in answers))
    if readers:
        os.read(connection, 1)  # (until the shim has read all and ended)
    pipes.extend(readers)
    os.close(connection)


def told(sock: _socket.socket) -> None:
    """Tells the front that a step has ended."""
    try:
        sock.send(b"e", _socket.MSG_DONTWAIT)
    except OSError:
        pass


def main() -> None:
    """Takes steps until nobody hands on any more."""
    sock = _socket.socket(fileno=int(sys.argv[1]))
    os.set_inheritable(sock.fileno(), False)
    os.umask(0o022)
    code = sock.recv(1 << 16)
    sock.send(b"+" if confine(code if code != b"-" else b"") else b"-")
    pipes: list[int] = []
    while True:
        ready = select.select([sock.fileno(), *pipes], [], [])[0]
        drop(pipes, ready)
        if sock.fileno() not in ready:
            continue
        numbers = received(sock)
        if not numbers:
            return
        try:
            step(pipes, *numbers)
        except (OSError, ValueError, EOFError, TypeError):
            for number in numbers:  # (the shim says that the step did not end by itself)
                try:
                    os.close(number)
                except OSError:
                    pass
        told(sock)


if __name__ == "__main__":
    main()
