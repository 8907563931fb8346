"""The filter of system calls that a step's sandbox has: a program for the kernel, and the calls that it
refuses.

It is built here, without a library: the numbers of the refused calls stand below, by machine. A refused call
fails with EPERM, so a program sees what it sees in a container.
"""
from __future__ import annotations

import platform
import struct

EPERM, ENOSYS = 1, 38
ALLOW, ERRNO = 0x7FFF0000, 0x00050000
# BPF: word at, jump if equal, return, and, jump if not less
LOAD, EQUAL, RETURN, AND, GREATER_EQUAL = 0x20, 0x15, 0x06, 0x54, 0x35
NUMBER, ARCH, ARGUMENTS = 0, 4, 16                # places in the kernel's description of a call
X32 = 0x40000000                                  # the bit of calls of x86's third set, which nothing needs
AF_VSOCK, TIOCSTI, TIOCLINUX = 40, 0x5412, 0x541C
# requests of ptrace that begin with a process of somebody else
ATTACH, SEIZE = 16, 0x4206
CALLS = (
    "keyctl", "add_key", "request_key", "bpf", "userfaultfd", "perf_event_open", "mount", "umount2",
         "pivot_root", "move_mount",
    "open_tree", "fsopen", "fsconfig", "fsmount", "fspick", "mount_setattr", "open_tree_attr",
         "process_vm_readv", "process_vm_writev",
    "kexec_load", "init_module", "finit_module", "delete_module", "open_by_handle_at", "swapon", "swapoff",
         "reboot", "acct", "quotactl",
    "settimeofday", "clock_settime", "pidfd_getfd", "io_uring_setup")
NEW = {"open_tree": 428, "move_mount": 429, "fsopen": 430, "fsconfig": 431, "fsmount": 432, "fspick": 433,
       "mount_setattr": 442,
       "pidfd_getfd": 438, "io_uring_setup": 425, "open_tree_attr": 467}  # the same everywhere
MACHINES = {  # the kernel's number of each, and its own numbers in the order of OLD
    "x86_64": (0xC000003E, (250, 248, 249, 321, 323, 298, 165, 166, 155, 310, 311, 246, 175, 313, 176, 304,
                            167, 168, 169, 163, 179, 164, 227,
                            41, 16, 101)),
    "i386": (0x40000003, (288, 286, 287, 357, 374, 336, 21, 52, 217, 347, 348, 283, 128, 350, 129, 342, 87,
                          115, 88, 51, 131, 79, 264,
                          359, 54, 26)),
    "aarch64": (0xC00000B7, (219, 217, 218, 280, 282, 241, 40, 39, 41, 270, 271, 104, 105, 273, 106, 265,
                             224, 225, 142, 89, 60, 170, 112,
                             198, 29, 117)),
    "arm": (0x40000028, (311, 309, 310, 386, 388, 364, 21, 52, 218, 376, 377, 347, 128, 379, 129, 371, 87,
                         115, 88, 51, 131, 79, 262,
                         281, 54, 26)),
    "riscv64": (0xC00000F3, (219, 217, 218, 280, 282, 241, 40, 39, 41, 270, 271, 104, 105, 273, 106, 265,
                             224, 225, 142, 89, 60, 170, 112,
                             198, 29, 117))}
OLD = [*(name for name in CALLS if name not in NEW), "socket", "ioctl", "ptrace"]
ALSO = {"x86_64": "i386", "aarch64": "arm"}       # the smaller machine whose programs a machine executes, too


def numbers(machine: str) -> dict[str, int]:
    """The numbers of the calls on a machine."""
    return {**dict(zip(OLD, MACHINES[machine][1])), **NEW}


def word(code: int, value: int, yes: int = 0, no: int = 0) -> bytes:
    """One instruction; the jumps count the instructions that are passed over."""
    return struct.pack("=HBBI", code, yes, no, value)


def refused_if(number: int, argument: int, values: tuple[int, ...]) -> list[bytes]:
    """Refuses a call whose argument is one of some values; afterwards the call's number is loaded."""
    tests = [word(EQUAL, value, len(values) - at + 1, 0) for at, value in enumerate(values)]
    inner = [word(LOAD, ARGUMENTS + 8 * argument), *tests, word(LOAD, NUMBER), word(EQUAL, number, 1, 0),
             word(RETURN, ERRNO | EPERM)]
    # (a value that fits jumps to the return at the end; the others load the number, which is equal, and pass
    # over it)
    return [word(EQUAL, number, 0, len(inner)), *inner]


def part(machine: str) -> list[bytes]:
    """The instructions for the calls of one machine."""
    known = numbers(machine)
    result = [word(LOAD, NUMBER)]
    if machine == "x86_64":
        result += [word(GREATER_EQUAL, X32, 0, 1), word(RETURN, ERRNO | ENOSYS)]
    for name in CALLS:
        result += [word(EQUAL, known[name], 0, 1), word(RETURN, ERRNO | EPERM)]
    for name, argument, values in (("socket", 0, (AF_VSOCK,)), ("ioctl", 1, (TIOCSTI, TIOCLINUX)),
                                   ("ptrace", 0, (ATTACH, SEIZE))):
        result += refused_if(known[name], argument, values)
    return [*result, word(RETURN, ALLOW)]


def program(machine: str = "") -> bytes:
    """The whole filter for a machine; nothing for one that is not known here."""
    machine = machine or platform.machine()
    if machine not in MACHINES:
        return b""
    result = [word(LOAD, ARCH)]
    for name in filter(None, (machine, ALSO.get(machine))):
        inner = part(name)
        if len(inner) > 255:
            raise ValueError("a jump passes over 255 instructions at most")
        result += [word(EQUAL, MACHINES[name][0], 0, len(inner)), *inner, word(LOAD, ARCH)]
    return b"".join([*result, word(RETURN, ERRNO | ENOSYS)])
