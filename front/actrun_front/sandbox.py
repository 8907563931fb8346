"""The sandbox of steps: which parts of the machine are in it, and how a command is started in it.

A sandbox is made by `bwrap`. It has the system, read-only: programs and libraries, and of `/etc` what
everybody may read. It has its own processes, an empty home folder, and of the folder of the execution what is
for steps. All else is not there: other users' folders, the working tree, media, and what servers keep.
"""
from __future__ import annotations

import functools
import os
import stat
import subprocess
import sys
import tempfile
from pathlib import Path
from typing import Any, Iterable, Sequence

from . import Problem
from .tree import Room, cache_root

# root keeps what changes files and persons inside, and nothing by which it could leave
ROOT_KEEPS = ("CHOWN", "DAC_OVERRIDE", "FOWNER", "FSETID", "KILL", "SETGID", "SETUID", "SETPCAP",
              "NET_BIND_SERVICE", "SYS_CHROOT")
# the home folder of steps, as on GitHub
HOME = Path("/home/runner")
# parts of /proc in which root could change the machine
PROC = ("sys", "sysrq-trigger", "irq", "bus", "fs", "scsi", "acpi", "mtrr")
# and those that show the whole machine
PROC_HIDDEN = ("kcore", "keys", "key-users", "kmsg", "kpageflags", "kpagecount", "sched_debug",
               "timer_list", "latency_stats")
# of /run, which has the sockets of servers outside, only what names are looked up by and some systems'
# programs
RUN = ("/run/systemd/resolve", "/run/resolvconf", "/run/nscd", "/run/current-system", "/run/wrappers",
       "/run/opengl-driver")
# where `bwrap` is looked for: never by PATH, which a repository's options may name
PLACES = ("/usr/bin/bwrap", "/usr/local/bin/bwrap", "/bin/bwrap", "/run/current-system/sw/bin/bwrap")
# what the system is: folders at the top, or links to others of these
SYSTEM = ("/usr", "/bin", "/sbin", "/lib", "/lib32", "/lib64", "/libx32", "/libo32", "/etc", "/nix/store",
          "/gnu/store")
# and what programs of the system read elsewhere, as the lists of packages
ALSO = ("/var/lib/dpkg", "/var/lib/apt", "/var/lib/rpm", "/var/lib/pacman", "/var/cache/fontconfig",
        "/opt/hostedtoolcache",
        "/sys/devices/system", "/sys/fs/cgroup")
# of /etc, what nobody but root reads; with root in the sandbox all else too that others may not read
SECRET = ("shadow", "shadow-", "gshadow", "gshadow-", "sudoers", "sudoers.d", "ssl/private", "krb5.keytab")
# folders that stand there in any case
FOLDERS = ("/home", "/opt", "/srv", "/mnt", "/media", "/sys", "/sys/fs", "/tmp", "/var", "/var/lib",
           "/var/cache", "/var/log", "/var/tmp")
# what the front wrote below `play` for steps to read
OF_FRONT = ("bin", "stubs")
# the folders below `play` in which each leg has one of its own
OF_LEGS = ("files", "legs", "temp")
OF_NO_LEG = ("path", "summary")  # files that programs without the prelude write
REMEDY = ("install bubblewrap (apt-get install bubblewrap), or allow user namespaces (sysctl "
          "kernel.unprivileged_userns_clone=1; kernel.apparmor_restrict_unprivileged_userns=0); without a "
          "sandbox every step would have your rights, and could change this machine: only `--no-sandbox` executes so")
CLEAN = {"PATH": "/usr/bin:/bin", "LC_ALL": "C"}


def no_sandbox(cause: str) -> Problem:
    """The problem that ends `try` where steps cannot be kept in a sandbox: the cause in one line, the
    remedy in another."""
    return Problem(f"the sandbox cannot be made: {cause}\nactrun: {REMEDY}", 3)


def bwrap() -> str:
    """The program that makes sandboxes: the system's alone. Raises Problem if there is none."""
    found = next((place for place in PLACES if os.access(place, os.X_OK)), None)
    if found is None:
        looked = ", ".join(map(os.path.dirname, PLACES[:3]))
        raise no_sandbox(f"bwrap is not installed: it is in none of {looked}")
    return found


def secret_places(etc: str = "/etc") -> list[str]:
    """The files and folders of /etc that steps do not see. Root reads all in the sandbox too, so there the
    modes decide."""
    found = [f"{etc}/{name}" for name in SECRET]
    try:
        found += [entry.path for entry in os.scandir(f"{etc}/ssh") if entry.name.endswith("_key")]
    except OSError:
        pass
    if os.geteuid() == 0:
        waiting = [etc]
        for folder in waiting:
            for entry in os.scandir(folder):
                mode = entry.stat(follow_symlinks=False).st_mode
                is_folder = stat.S_ISDIR(mode)
                if not stat.S_ISLNK(mode) and not mode & (stat.S_IXOTH if is_folder else stat.S_IROTH):
                    found.append(entry.path)
                elif is_folder:
                    waiting.append(entry.path)
    return [path for path in dict.fromkeys(found) if os.path.lexists(path) and not os.path.islink(path)]


def system_words() -> list[str]:
    """The words that show the system, read-only."""
    result: list[str] = []
    for place in SYSTEM:
        if os.path.islink(place):
            result += ["--symlink", os.readlink(place), place]
        elif os.path.isdir(place):
            result += ["--ro-bind", place, place]
    for place in filter(os.path.isdir, ALSO):
        result += ["--ro-bind", place, place]
    for place in secret_places():
        result += ["--tmpfs", place] if os.path.isdir(place) else ["--ro-bind", "/dev/null", place]
    return result


def process_words() -> list[str]:
    """The words for devices and processes of the sandbox's own."""
    result = ["--dev", "/dev", "--proc", "/proc", "--unshare-pid", "--unshare-ipc", "--unshare-uts",
              "--die-with-parent"]
    if os.geteuid() == 0:
        result += ["--cap-drop", "ALL",
                   *(word for name in ROOT_KEEPS for word in ("--cap-add", f"CAP_{name}"))]
    for name in PROC:
        if os.path.exists(f"/proc/{name}"):
            result += ["--ro-bind", f"/proc/{name}", f"/proc/{name}"]
    for name in PROC_HIDDEN:
        if os.path.exists(f"/proc/{name}"):
            result += ["--ro-bind", "/dev/null", f"/proc/{name}"]
    return result


def shown(kind: str, paths: Iterable[str | Path]) -> list[str]:
    """The words that show places of the machine where they are."""
    return [word for path in paths for word in (kind, os.fspath(path), os.fspath(path))]


def hidden_folders(room: Room, top: Path) -> list[Path]:
    """The folders that would be seen as a part of the system, and are the user's."""
    home = Path.home()
    folders = {home, home.resolve(), cache_root(), room.folder, top} - {Path("/")}
    return sorted((folder for folder in folders if folder.is_dir() or folder == home),
                  key=lambda path: len(path.parts))


def sandbox_words(room: Room, readable: Sequence[Path], writable: Sequence[Path], offline: bool,
                  top: Path | None = None, own: Sequence[Path] = ()) -> list[str]:
    """The words before the command that executes inside. Of the machine it has the system, of the folder
    of the execution the folders below `play` that legs share and its own, and what is named readable or
    writable. `top` is the working tree. If a leg has a copy of the tree, nobody changes the one it is made
    from."""
    result = [bwrap(), *(word for place in FOLDERS for word in ("--dir", place)), *system_words(),
              *process_words()]
    result += ["--unshare-net"] if offline else []
    for folder in hidden_folders(room, top or room.folder):
        result += ["--tmpfs", os.fspath(folder)]
    result += ["--tmpfs", "/run", "--tmpfs", os.fspath(HOME)]
    for path in (*RUN, *(name for name in [os.path.realpath("/etc/resolv.conf")]
                         if name.startswith("/run/"))):
        result += ["--ro-bind-try", path, path]
    for place in ("/tmp", "/var/tmp"):
        result += ["--bind", os.fspath(room.play / "tmp"), place]
    result += shown("--bind", dict.fromkeys(writable)) + shown("--ro-bind", dict.fromkeys(readable))
    for link in room.objects.glob("*"):
        if link.is_dir():
            result += ["--ro-bind", os.path.realpath(link), os.fspath(link)]
    result += ["--tmpfs", os.fspath(room.play)]
    result += shown("--bind", sorted(Path(entry.path) for entry in os.scandir(room.play)
                                     if entry.is_dir(follow_symlinks=False) and entry.name not in OF_LEGS))
    result += shown("--bind", own)
    for name in sorted(entry.name for entry in os.scandir(room.play / "files") if entry.is_file()):
        result += shown("--bind" if name in OF_NO_LEG else "--ro-bind", [room.play / "files" / name])
    of_front = (*OF_FRONT, *["tree"] * os.path.isdir(room.play / "legs"))
    result += shown("--ro-bind", filter(os.path.lexists, (room.play / name for name in of_front)))
    return [*result, "--remount-ro", "/", "--chdir", os.fspath(room.play), "--"]


@functools.lru_cache(maxsize=None)
def private_mounts() -> tuple[str, ...]:
    """The words by which `bwrap` is started, so that what is mounted on the machine later is not seen in
    the sandbox; none if that is not possible."""
    found = next((place for place in ("/usr/bin/unshare", "/bin/unshare") if os.access(place, os.X_OK)), None)
    if found is None:
        return ()
    own = [] if os.geteuid() == 0 else ["--user", "--map-current-user"]
    words = (found, *own, "--mount", "--propagation", "private", "--")
    probe = [*words, bwrap(), "--ro-bind", "/", "/", "--proc", "/proc", "--unshare-pid", "true"]
    return words if subprocess.run(probe, env=CLEAN, stdin=subprocess.DEVNULL, capture_output=True,
                                   check=False).returncode == 0 else ()


def start(words: Sequence[str], command: Sequence[str], keep: Sequence[int] = (),
          **more: Any) -> subprocess.Popen[bytes]:
    """Starts a command in the sandbox of some words, which end with `--`. The words go by a file, so that
    their number has no limit; nothing of the caller's environment goes along. `keep` are descriptors that
    the command gets."""
    with tempfile.TemporaryFile() as file:
        file.write(b"".join(os.fsencode(word) + b"\0" for word in words[1:-1]))
        file.seek(0)
        numbers = (file.fileno(), *keep)
        return subprocess.Popen([*private_mounts(), words[0], "--args", str(file.fileno()), "--",
                                 *command], env=CLEAN, pass_fds=numbers,
                                start_new_session=True, **more)


def python_places(python: str) -> list[Path]:
    """What a Python outside of the system needs in the sandbox."""
    is_of_system = any(os.path.realpath(python).startswith(f"{place}/") for place in SYSTEM)
    return [] if is_of_system else [Path(sys.base_prefix), Path(python)]


def why_no_sandbox(sandbox: Sequence[str]) -> str | None:
    """Why the sandbox of these words cannot be used; None if it works."""
    process = start(sandbox, ["/bin/sh", "-c", ":"], stdin=subprocess.DEVNULL, stdout=subprocess.DEVNULL,
                    stderr=subprocess.PIPE)
    answer = process.communicate()[1].decode("utf-8", "replace").strip().splitlines()
    return None if process.returncode == 0 else "bwrap fails: " + (answer or ["it says nothing"])[-1]
