"""The root of a leg: the system's folders below writable layers, and folders of the leg's own. Executed
inside the leg's sandbox.

    python3 root.py FOLDER:.. SUDO PROGRAM WORD..

puts that root together, makes it the root, and goes on as the program there, without the rights that this
needs. The sandbox shows the folder of the leg at LEG, and packages that were downloaded before at APT. Where
no root can be made, the file `none` of the leg says why, and the program is executed without one. Of the
system, each FOLDER is below a layer. SUDO becomes `sudo`.

It is a program of its own, since the sandbox starts it for each leg: it imports little, so that it starts
quickly.
"""
from __future__ import annotations

import ctypes
import errno
import os
import signal
import stat
import sys

LEG, APT = "/.leg", "/.apt"
NOTES = "/run/actrun"                     # what `sudo` reads
ROOT_THERE = f"{NOTES}/user"
NEWNS, NEWUSER = 0x20000, 0x10000000      # of `unshare`
BIND, MOVE, REC = 4096, 8192, 16384       # of `mount`
SET_DUMPABLE, DROP, AMBIENT, CLEAR_ALL = 4, 24, 47, 4  # of `prctl`
CAPABILITIES = 0x20080522                 # the version of the kernel's description of capabilities
MAY_MOUNT = 21                            # the number of CAP_SYS_ADMIN
# the rights that root has in the root of a leg: they are those of its namespace, and mount nothing
KEPT = {"chown": 0, "dac_override": 1, "fowner": 3, "fsetid": 4, "kill": 5, "setgid": 6, "setuid": 7,
        "setpcap": 8, "net_bind_service": 10,
        "sys_chroot": 18, "setfcap": 31}
# the leg's own folders; what the sandbox shows below them is shown there again
OWN = {"/tmp": "tmp", "/var/tmp": "tmp", "/run": "run", "/home": "home", "/home/runner": "home/runner",
       "/root": "person"}
# what others than root cannot read, and installing packages needs
UNREADABLE = ("/var/lib/dpkg/lock", "/var/lib/dpkg/lock-frontend", "/var/lib/dpkg/triggers/Lock",
              "/var/lib/apt/lists/lock",
              "/var/lib/apt/lists/partial", "/etc/.pwd.lock")
# folders that programs of packages expect
EXPECTED = ("var/cache/apt/archives/partial", "var/cache/debconf", "var/cache/ldconfig", "var/cache/man",
            "var/log/apt", "var/lib/misc",
            "var/lib/systemd", "var/mail", "var/spool", "mnt", "media", "srv", "opt", "usr/local/bin")
ARCHIVES, PACKAGES = "var/cache/apt/archives", "packages"
PLACES = ("/usr/bin", "/bin", "/usr/sbin", "/sbin", "/usr/local/bin", "/run/current-system/sw/bin")
LIBC = ctypes.CDLL(None, use_errno=True)


def which(name: str) -> str:
    """The place of a program of the system; nothing if there is none."""
    return next((f"{place}/{name}" for place in PLACES if os.access(f"{place}/{name}", os.X_OK)), "")


def call(name: str, *words: str | int | None) -> None:
    """Calls a function of the C library. Raises OSError if it fails."""
    given = [os.fsencode(word) if isinstance(word, str) else word for word in words]
    if getattr(LIBC, name)(*given) < 0:
        number = ctypes.get_errno()
        raise OSError(number, f"{name} {' '.join(map(str, words[1:3]))}: {os.strerror(number)}")


def mount(source: str, target: str, kind: str | None = None, flags: int = 0,
          options: str | None = None) -> None:
    """Mounts something. Raises OSError."""
    call("mount", source, target, kind, flags, options)


def mount_layer(target: str, options: str) -> None:
    """Mounts a layer of the kernel, which writes nothing to the disk at its end, where the kernel knows that.
    Raises OSError."""
    try:
        mount("overlay", target, "overlay", 0, options + ",volatile")
    except OSError:
        mount("overlay", target, "overlay", 0, options)


def read(path: str) -> str:
    """The text of a file."""
    with open(path, encoding="utf-8", errors="surrogateescape") as file:
        return file.read()


def write(path: str, text: str) -> None:
    """Writes a file."""
    with open(path, "w", encoding="utf-8") as file:
        file.write(text)


def mount_points() -> list[str]:
    """Where something is mounted, the outer before the inner."""
    found = []
    for line in read("/proc/self/mountinfo").splitlines():
        path = line.split(" ")[4]
        for code in ("040", "011", "012", "134"):  # (as the kernel writes blanks and `\\`)
            path = path.replace("\\" + code, chr(int(code, 8)))
        found.append(path)
    return found


def is_below(path: str, folders: list[str]) -> bool:
    """Whether a path is one of the folders, or below one."""
    return any(path == folder or path.startswith(folder + "/") for folder in folders)


class Root:
    """The root of a leg while it is put together, below the folder of the leg."""

    def __init__(self, leg: str, is_root: bool, layered: list[str]) -> None:
        self.leg, self.is_root, self.layered = leg, is_root, layered
        self.root = f"{leg}/root"
        self.done: list[str] = []      # what is there already, with all that is mounted below

    def folders(self, name: str) -> tuple[str, str]:
        """The two folders of a writable layer, from the leg's folder."""
        for kind in ("up", "work"):
            os.makedirs(f"{self.leg}/{kind}{name}", exist_ok=True)
        return f"up{name}", f"work{name}"

    def build(self, sudo: str) -> None:
        """Puts the root together in the mount namespace of this process, and makes it the root. Raises
        OSError."""
        points = [point for point in dict.fromkeys(mount_points()) if not is_below(point, [LEG, APT])
                  and point not in ("/", *OWN)]
        os.mkdir(self.root)
        os.chdir(self.leg)  # (the options of `mount` have no way to name a folder with a comma)
        if self.is_root:
            mount("root", "root", None, BIND)
            self.copy_tops()
        else:
            self.mount_fuse()
        self.own_folders()
        for point in points:
            if not is_below(point, self.done) and os.path.lexists(point):
                self.show(point)
        for name in EXPECTED:
            os.makedirs(f"{self.root}/{name}", exist_ok=True)
        self.put_sudo(sudo)
        self.put_packages()
        os.chdir("root")
        mount(".", "/", None, MOVE)
        os.chroot(".")
        os.chdir("/")
        os.mkdir(NOTES)

    def copy_tops(self) -> None:
        """Makes the folders and links that are at the top of the sandbox."""
        for entry in os.scandir("/"):
            if entry.is_symlink():
                os.symlink(os.readlink(entry.path), f"{self.root}/{entry.name}")
            elif entry.is_dir() and entry.path not in (LEG, APT):
                os.mkdir(f"{self.root}/{entry.name}")

    def mount_fuse(self) -> None:
        """Mounts a root by fuse-overlayfs, in which an ordinary user owns all files. Raises OSError with the
        remedy."""
        program = which("fuse-overlayfs")
        if not program:
            raise OSError(errno.ENOENT, "fuse-overlayfs is not installed (apt-get install fuse-overlayfs)")
        if os.path.exists("/dev/fuse") and not os.access("/dev/fuse", os.R_OK | os.W_OK):
            raise OSError(errno.EACCES, "you cannot open /dev/fuse (sudo chmod 666 /dev/fuse)")
        upper, work = self.folders("")
        self.put_readable(f"{self.leg}/{upper}")
        words = [program, "-o", f"lowerdir=/,upperdir={upper},workdir={work},squash_to_root", "root"]
        said = os.open(f"{self.leg}/said", os.O_RDWR | os.O_CREAT | os.O_TRUNC, 0o600)
        nothing = os.open(os.devnull, os.O_RDONLY)
        number = os.posix_spawn(program, words, os.environ,
                                file_actions=[(os.POSIX_SPAWN_DUP2, nothing, 0), *(
            (os.POSIX_SPAWN_DUP2, said, one) for one in (1, 2))], setsid=True)
        for one in (said, nothing):
            os.close(one)
        if os.waitpid(number, 0)[1] != 0:
            lines = read(f"{self.leg}/said").strip().splitlines()
            raise OSError(errno.EIO, f"fuse-overlayfs: {lines[-1] if lines else 'it says nothing'}")

    def put_readable(self, upper: str) -> None:
        """Puts empty files and folders into a layer in place of those that an ordinary user cannot read, or
        that the sandbox hides."""
        for name in (LEG, APT):  # (below them is the root itself)
            write(f"{upper}/.wh.{name[1:]}", "")
        closed = [point for point in UNREADABLE if os.path.exists(point) and not os.access(point, os.R_OK)]
        for point in [*closed, *filter(is_hidden, mount_points())]:
            place = upper + point
            os.makedirs(os.path.dirname(place), exist_ok=True)
            if os.path.isdir(point):
                os.makedirs(place, exist_ok=True)
                write(f"{place}/.wh..wh..opq", "")  # (nothing of the folder below is to be seen)
            else:
                write(place, hidden_text(point))

    def own_folders(self) -> None:
        """Mounts the folders that no other leg has."""
        for place, name in OWN.items():
            os.makedirs(f"{self.leg}/{name}", exist_ok=True)
            os.chmod(f"{self.leg}/{name}", 0o1777 if name == "tmp" else 0o755)
            os.makedirs(self.root + place, exist_ok=True)
            mount(f"{self.leg}/{name}", self.root + place, None, BIND)

    def show(self, point: str) -> None:
        """Shows in the root what is mounted at a place of the sandbox: the system below a layer, the rest as
        it is."""
        target = self.root + point
        if point in self.layered:
            if self.is_root:
                os.makedirs(target, exist_ok=True)
                upper, work = self.folders(f"-{self.layered.index(point)}")
                mount_layer(target, f"lowerdir={point},upperdir={upper},workdir={work}")
        elif is_hidden(point):
            if self.is_root:
                if os.path.lexists(target):
                    os.unlink(target)
                write(target, hidden_text(point))
        else:
            make_place(target, point)
            mount(point, target, None, BIND | REC)
            self.done.append(point)

    def put_packages(self) -> None:
        """Shows apt the packages that were downloaded earlier; new ones go into a layer above them."""
        upper, work = self.folders(PACKAGES)
        options = f"lowerdir={APT},upperdir={upper},workdir={work}"
        try:
            mount_layer(f"{self.root}/{ARCHIVES}", options if self.is_root else options + ",userxattr")
        except OSError:
            pass  # (all the same, apt can download)
        os.makedirs(f"{self.root}/{ARCHIVES}/partial", exist_ok=True)

    def put_sudo(self, sudo: str) -> None:
        """Puts `sudo` to the programs of the system."""
        place = f"{self.root}/usr/bin/sudo"
        if os.path.lexists(place):
            os.unlink(place)
        os.symlink(sudo, place)


def is_hidden(point: str) -> bool:
    """Whether the sandbox hides what is at a place: there is no file, but a device."""
    return point.startswith("/etc/") and stat.S_ISCHR(os.stat(point).st_mode)


def hidden_text(point: str) -> str:
    """The text of a file in place of a hidden one; programs that add persons need a line for each in
    /etc/shadow."""
    if point != "/etc/shadow":
        return ""
    return "".join(line.partition(":")[0] + ":!:19000:0:99999:7:::\n"
                   for line in read("/etc/passwd").splitlines())


def make_place(target: str, like: str) -> None:
    """Makes the file or folder on which something like that can be mounted."""
    if os.path.isdir(like):
        os.makedirs(target, exist_ok=True)
    elif not os.path.lexists(target):
        os.makedirs(os.path.dirname(target), exist_ok=True)
        write(target, "")


def write_maps(process: int | str, maps: dict[str, str]) -> None:
    """Writes the ids of the user namespace of a process."""
    for name, text in maps.items():
        write(f"/proc/{process}/{name}", text)


def same_ids() -> dict[str, str]:
    """Maps by which a new user namespace has all ids that there are."""
    maps = {name: map(str.split, read(f"/proc/self/{name}").splitlines()) for name in ("uid_map", "gid_map")}
    return {name: "".join(f"{inner} {inner} {count}\n" for inner, _, count in lines) for name,
            lines in maps.items()}


def with_all_ids() -> None:
    """Moves this process into a user namespace with all ids that there are, and a copy of its mounts. A child
    writes the maps."""
    ready, tell = os.pipe()
    writer = os.fork()
    if writer == 0:
        os.close(tell)
        os.read(ready, 1)
        try:
            write_maps(os.getppid(), same_ids())
        except OSError:
            os._exit(1)
        os._exit(0)
    call("unshare", NEWUSER | NEWNS)
    os.write(tell, b".")
    if os.waitpid(writer, 0)[1] != 0:
        raise OSError(errno.EPERM, "the ids of a user namespace cannot be written")
    for one in (ready, tell):
        os.close(one)


def with_one_id(inner: tuple[int, int], outer: tuple[int, int], more: int = 0) -> None:
    """Moves this process into a user namespace with one person and one group."""
    call("unshare", NEWUSER | more)
    write_maps("self", {"setgroups": "deny", "uid_map": f"{inner[0]} {outer[0]} 1",
                        "gid_map": f"{inner[1]} {outer[1]} 1"})


def kept_root(person: tuple[int, int]) -> int:
    """A process that is root in a user namespace of its own, and keeps that; gives its number. Raises
    OSError."""
    ready, tell = os.pipe()
    number = os.fork()
    if number == 0:
        try:
            with_one_id((0, 0), person)
            call("prctl", SET_DUMPABLE, 1, 0, 0, 0)  # (else its namespace cannot be named)
            os.write(tell, b".")
        finally:
            os.closerange(3, 4096)
        while True:
            signal.pause()
    os.close(tell)
    done = os.read(ready, 1)
    os.close(ready)
    if not done:
        raise OSError(errno.EPERM, "a user namespace cannot be made in another")
    return number


def with_person(person: tuple[int, int]) -> None:
    """Makes this process, which is root in a user namespace, the person that it is outside, in another. The
    file ROOT_THERE becomes the name of a third, in which `sudo` is root: for the first one, which has the
    mounts, both are one person. Raises OSError."""
    write(ROOT_THERE, "")
    ready, tell = os.pipe()
    namer = os.fork()
    if namer == 0:  # (it stays in the first)
        try:
            mount(f"/proc/{int(os.read(ready, 20))}/ns/user", ROOT_THERE, None, BIND)
        except (OSError, ValueError):
            os._exit(1)
        os._exit(0)
    with_one_id(person, (0, 0))
    os.write(tell, str(kept_root(person)).encode())
    if os.waitpid(namer, 0)[1] != 0:
        raise OSError(errno.EPERM, "a user namespace cannot be named")
    for one in (ready, tell):
        os.close(one)


def keep_rights(numbers: tuple[int, ...]) -> None:
    """Gives up all rights but some, for this process and what it starts. Raises OSError."""
    for number in range(64):
        if number not in numbers and LIBC.prctl(DROP, number, 0, 0,
                                                0) != 0 and ctypes.get_errno() == errno.EINVAL:
            break
    LIBC.prctl(AMBIENT, CLEAR_ALL, 0, 0, 0)
    low = sum(1 << number for number in numbers)
    head, data = (ctypes.c_uint32 * 2)(CAPABILITIES, 0), (ctypes.c_uint32 * 6)(low, low, 0, 0, 0, 0)
    if LIBC.capset(head, data) != 0:
        raise OSError(ctypes.get_errno(), "capset: the rights cannot be given up")


def enter(layered: list[str], sudo: str) -> None:
    """Makes the root of the leg that of this process, without the rights that this took. Raises OSError."""
    person, is_root, to_root = (os.geteuid(), os.getegid()), may_mount(), ""
    if is_root:
        call("unshare", NEWNS)
        try:
            Root(LEG, is_root, layered).build(sudo)
        except OSError:  # (in a container, the leg's folder may be in layers itself, which can hold none)
            mount("tmpfs", LEG, "tmpfs", 0, "mode=755")
            Root(LEG, is_root, layered).build(sudo)
        with_all_ids()
    else:
        nsenter, setpriv = which("nsenter"), which("setpriv")
        if not nsenter or not setpriv:
            raise OSError(errno.ENOENT, "nsenter or setpriv is not installed (apt-get install util-linux)")
        with_one_id((0, 0), person, NEWNS)
        Root(LEG, is_root, layered).build(sudo)
        with_person(person)
        kept = ",".join(["-all", *(f"+{name}" for name in KEPT)])
        to_root = (f"{nsenter} --user={ROOT_THERE} --preserve-credentials -- "
                   f"{setpriv} --bounding-set={kept} --inh-caps=-all --ambient-caps=-all --")
    write(f"{NOTES}/root", to_root + "\n")
    write(f"{NOTES}/apt.conf", 'APT::Sandbox::User "root";\n' if to_root else "")
    keep_rights(tuple(KEPT.values()) if is_root else ())


def may_mount() -> bool:
    """Whether this process is root with the right to mount."""
    rights = next((line for line in read("/proc/self/status").splitlines() if line.startswith("CapEff")), "0")
    return os.geteuid() == 0 and bool(int(rights.split()[-1], 16) >> MAY_MOUNT & 1)


def go_on(program: list[str]) -> None:
    """Goes on as the program: one of Python is executed by this process, so that it starts quickly."""
    if os.path.basename(program[0]).startswith("python") and program[1] == "-ISB":
        sys.argv = program[2:]
        with open(program[2], "rb") as file:
            code = compile(file.read(), program[2], "exec")
        exec(code, {"__name__": "__main__", "__file__": program[2]})
        sys.exit(0)
    os.execv(program[0], program)


def main(layered: str, sudo: str, *program: str) -> None:
    """Executes the program in the root of the leg, or without one if it cannot be made. This process waits
    for it."""
    ready, tell = os.pipe()  # (closed as soon as the program starts)
    number = os.fork()
    if number == 0:
        os.close(ready)
        try:
            enter(layered.split(":"), sudo)
        except OSError as error:
            os.write(tell, str(error.strerror or error).encode("utf-8", "replace")[:4000])
            os._exit(1)
        os.close(tell)
        go_on(list(program))
    os.close(tell)
    why = os.read(ready, 4096)
    if not why:
        for one in range(3, 64):
            if one not in (ready,):
                close_quietly(one)
        sys.exit(os.waitstatus_to_exitcode(os.waitpid(number, 0)[1]) & 255)
    os.waitpid(number, 0)
    write(f"{LEG}/none", why.decode("utf-8", "replace") + "\n")
    if os.geteuid() == 0:
        keep_rights(tuple(number for name, number in KEPT.items() if name != "setfcap"))
    go_on(list(program))


def close_quietly(number: int) -> None:
    """Closes a descriptor, if it is open."""
    try:
        os.close(number)
    except OSError:
        pass


if __name__ == "__main__":
    main(*sys.argv[1:])
