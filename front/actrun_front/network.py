"""The network of steps: one of their own, made by slirp4netns, else that of this machine.

With one of its own a leg reaches other machines, and nothing that listens on this machine for its own
programs: neither servers of the loopback addresses nor abstract sockets.
"""
from __future__ import annotations

import fcntl
import ipaddress
import json
import os
import select
import socket
import struct
import subprocess
import tempfile
from dataclasses import dataclass
from pathlib import Path

from .sandbox import private_mounts

LISTENS = "0A"                   # the state of a server's socket in /proc/net
MOST_NAMED = 5
# where slirp4netns is looked for, as bwrap is (sandbox.py)
PLACES = (
    "/usr/bin/slirp4netns",
    "/usr/local/bin/slirp4netns",
    "/bin/slirp4netns",
    "/run/current-system/sw/bin/slirp4netns",
)
NAMES_SERVER = "10.0.2.3"        # where that program answers for the machine's servers of names
RESOLVER = "/etc/resolv.conf"
OWNER = 0xb701                   # the request of ioctl for the owner of a namespace (NS_GET_USERNS)
WORDS = ("--configure", "--mtu=65520", "--disable-host-loopback", "--enable-seccomp")
NONE = "apt-get install slirp4netns gives each job one of its own"
PATIENCE = 10.0                  # seconds until a network has to be there
CLEAN = {"PATH": "/usr/sbin:/usr/bin:/sbin:/bin", "LC_ALL": "C"}


class NoNetwork(Exception):
    """No network of its own can be made for a sandbox, and why."""


@dataclass
class Own:
    """The network of one sandbox: the program that carries it, and the pipe whose end ends that program."""

    program: subprocess.Popen[bytes]
    held: int

    def end(self) -> None:
        """Takes the network away."""
        os.close(self.held)
        self.program.kill()
        self.program.wait()


def maker() -> str:
    """The program that makes networks; nothing if there is none."""
    return next((place for place in PLACES if os.access(place, os.X_OK)), "")


def resolver() -> str:
    """The text by which names are looked up in such a network: as on this machine, but by another server."""
    try:
        lines = Path(RESOLVER).read_text(encoding="utf-8", errors="replace").splitlines()
    except OSError:
        lines = []
    kept = [line for line in lines if line.startswith(("search ", "domain ", "options "))]
    return "\n".join([f"nameserver {NAMES_SERVER}", *kept, ""])


def words(info: int, file: Path) -> list[str]:
    """The words for a sandbox that is to have a network of its own, and says by a descriptor which process it
    is."""
    return ["--unshare-net", "--info-fd", str(info), "--ro-bind", os.fspath(file), os.path.realpath(RESOLVER)]


def opened(info: int) -> list[int]:
    """The network of the sandbox that has told which process it is, and the namespace of users that owns this
    network if it is not that of the front. Raises NoNetwork."""
    try:
        process = int(json.loads(os.read(info, 4096))["child-pid"])
        found = os.open(f"/proc/{process}/ns/net", os.O_RDONLY)
        owner = fcntl.ioctl(found, OWNER)
    except (OSError, ValueError, KeyError, TypeError) as error:
        raise NoNetwork(f"bwrap does not show its network: {error}") from None
    if os.path.samestat(os.fstat(owner), os.stat("/proc/self/ns/user")):
        os.close(owner)
        return [found]
    return [found, owner]


def connect(program: str, info: int) -> Own:
    """Gives a sandbox that is there a network. Raises NoNetwork. (Before, slirp4netns and bwrap would both
    set up the loopback device, and one of them would fail.)"""
    places = opened(info)
    ready, told = os.pipe()
    ends, held = os.pipe()
    of_users = [f"--userns-path=/proc/self/fd/{number}" for number in places[1:]]
    # (its own sandbox needs user 0, and mounts of its own: what it unmounts there would be unmounted here,
    # too)
    apart = private_mounts() if not of_users else ()
    of_users += ["--enable-sandbox"] if apart else []
    with tempfile.TemporaryFile() as errors:
        started = subprocess.Popen(
            [
                *apart,
                program,
                *WORDS,
                *of_users,
                f"--ready-fd={told}",
                f"--exit-fd={ends}",
                "--netns-type=path",
                f"/proc/self/fd/{places[0]}",
                "tap0",
            ],
            pass_fds=(told, ends, *places),
            env=CLEAN,
            stdin=subprocess.DEVNULL,
            stdout=subprocess.DEVNULL,
            stderr=errors,
            start_new_session=True,
        )
        for number in (told, ends, *places):
            os.close(number)
        there = bool(select.select([ready], [], [], PATIENCE)[0]) and os.read(ready, 1) != b""
        os.close(ready)
        if there:
            return Own(started, held)
        Own(started, held).end()
        errors.seek(0)
        lines = errors.read(1 << 16).decode("utf-8", "replace").splitlines()
    causes = [line for line in lines if line.strip() and not line.startswith("child failed")]
    raise NoNetwork(f"slirp4netns fails: {(causes or ['it says nothing'])[-1]}")


def address(text: str) -> tuple[str, int]:
    """The address and port that /proc/net spells in hexadecimal digits, by words of the machine's byte
    order."""
    digits, _, port = text.partition(":")
    words = struct.unpack(f">{len(digits) // 8}I", bytes.fromhex(digits))
    data = struct.pack(f"={len(words)}I", *words)
    return socket.inet_ntop(socket.AF_INET if len(data) == 4 else socket.AF_INET6, data), int(port, 16)


def local_servers() -> list[str]:
    """The servers that only programs of this machine reach, as `127.0.0.1:6379`."""
    found = []
    for name in ("/proc/net/tcp", "/proc/net/tcp6"):
        try:
            with open(name, encoding="ascii") as table:
                rows = [line.split() for line in table][1:]
        except (OSError, UnicodeDecodeError):
            continue
        for host, port in (address(row[1]) for row in rows if len(row) > 3 and row[3] == LISTENS):
            if ipaddress.ip_address(host).is_loopback:
                found.append(f"[{host}]:{port}" if ":" in host else f"{host}:{port}")
    return list(dict.fromkeys(found))


def note(scoped: bool, whose: str = "steps", more: str = "") -> str:
    """What is said of the shared network, or nothing: it names servers of this machine, and abstract
    sockets where they are in reach."""
    servers = local_servers()
    named = ", ".join(servers[:MOST_NAMED]) + (f" and {len(servers) - MOST_NAMED} more"
                                               if len(servers) > MOST_NAMED else "")
    reached = [*([f"its servers at {named}"] if servers else []),
               *([] if scoped else ["the abstract sockets of its programs, as of X11"])]
    if not reached:
        return ""
    return f"note: {whose} share the network of this machine, and reach {' and '.join(reached)}: --offline takes it away{more}"
