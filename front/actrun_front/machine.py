"""The machine of a leg: a root of its own, in which its steps may change the system. `root.py` makes it,
inside the leg's sandbox."""
from __future__ import annotations

import contextlib
import errno
import fcntl
import os
import re
import secrets
import shutil
import stat
import threading
from dataclasses import dataclass, field
from pathlib import Path
from typing import Any, Iterable, Iterator, Sequence

from . import sandbox, tree as rooms
from .broker import Broker
from .containers import EXECUTION, Engine, find
from .files import open_folder, read_below
from .lower_containers import VARIABLE
from .present import Leg, Screen, one_line
from .relay import Ended, Shared, relays_of
from .root import APT, LEG as LEG_THERE, PACKAGES
from .sudo import write_sudo
from .tree import Room

ROOT = Path(__file__).resolve().with_name("root.py")
# what making a root takes, beside what the sandbox leaves to root: `root.py` alone has it, steps have not
RIGHTS = ("SYS_ADMIN", "SETFCAP", "MKNOD")
# what packages keep of themselves, beside the lists of packages
OF_PACKAGES = ("/var/lib/ucf", "/var/lib/pam")
ROOTS = "roots"             # the folder of roots that are kept, beside `machine`
HOME_THERE = "home/runner"
OF_LEG = ("tmp", "home", "person")  # with the layers, what is kept of a root
MOST_WHY = 4096             # bytes of the reason why there is no root
LEAST_BYTES = 64 * 1024     # that are free on a disk which is not full
MOST_BYTES = 2 * 1024 ** 3  # of the packages that are kept for a repository


def layered() -> list[str]:
    """The folders of the system that the sandbox shows, and that a leg has below a layer."""
    places = [place for place in (*sandbox.SYSTEM, *sandbox.ALSO, *OF_PACKAGES)
              if not place.startswith(("/sys/", "/nix/", "/gnu/"))]
    return [place for place in places if os.path.isdir(place) and not os.path.islink(place)]


def shown_below(words: list[str], folder: Path, without: Path) -> list[tuple[str, str]]:
    """What of this machine a sandbox shows below a folder, but for what is below another."""
    shown = [(words[at + 1], words[at + 2]) for at, word in enumerate(words) if word == "--ro-bind"]
    return [(source, target) for source, target in shown if folder in Path(target).parents
            and without not in (Path(target), *Path(target).parents)]


@dataclass
class Machine:
    """The roots of the legs of one execution."""

    room: Room
    python: str
    apt: Path     # packages that earlier executions downloaded
    engine: Engine | None = None
    ended: Ended | None = None  # the legs that have ended, where containers may be needed
    places: dict[int, Any] = field(default_factory=dict)  # of legs with a container, what their sandbox shows
    made: dict[int, Path] = field(default_factory=dict)   # the folders of legs
    earlier: dict[int, Path] = field(default_factory=dict)  # roots that legs go on with

    @property
    def folder(self) -> Path:
        """The folder of all roots."""
        return self.room.folder / "machine"

    def prepare(self, offline: bool) -> None:
        """Makes the folder of all roots, with packages that are kept, and the program `sudo`."""
        packages = self.folder / "apt"
        packages.mkdir(parents=True, exist_ok=True)
        packages.chmod(0o755)
        self.apt.mkdir(parents=True, exist_ok=True)
        for package in self.apt.glob("*.deb"):
            try:
                os.link(package, packages / package.name)
            except FileExistsError:
                continue
            except OSError:  # (--keep may name another file system)
                shutil.copyfile(package, packages / package.name)
        write_sudo(self.room.play / "bin", Path(LEG_THERE, "none"), offline)

    def watch(self, legs: Sequence[Leg], part: Path) -> None:
        """Opens the record as it grows, if a leg has a container or services."""
        if any(VARIABLE in leg.job["env"] for leg in legs):
            self.ended = Ended(part)

    def fresh(self, leg: int) -> Path:
        """A new folder for a leg. (An execution in several stages may have legs of the same number.)"""
        for count in range(1000):
            folder = self.folder / (f"{leg}-{count}" if count else str(leg))
            try:
                folder.mkdir(mode=0o755)
            except FileExistsError:
                continue
            self.made[leg] = folder
            return folder
        raise FileExistsError(errno.EEXIST, os.strerror(errno.EEXIST), os.fspath(self.folder))

    def words(self, words: list[str], leg: int) -> list[str]:
        """The words of a leg's sandbox, and those of its root."""
        folder = self.fresh(leg)  # (that of its containers is another, which no step sees whole)
        if leg in self.earlier:
            go_on_with(self.earlier.pop(leg), folder)
        more = [word for name in (RIGHTS if os.geteuid() == 0 else ())
                for word in ("--cap-add", f"CAP_{name}")]
        more += [*sandbox.shown("--ro-bind-try", OF_PACKAGES), "--dev-bind-try", "/dev/fuse", "/dev/fuse"]
        more += ["--bind", str(folder), LEG_THERE, "--ro-bind", str(self.folder / "apt"), APT]
        if leg in self.places:
            self.places[leg].make()
            self.places[leg].readable = shown_below(words, self.room.folder, self.room.play)
            more += self.places[leg].in_sandbox()
        at = words.index("--remount-ro")
        return [*words[:at], *more, *words[at:]]

    def before(self) -> list[str]:
        """The words before the program that executes in the root of a leg."""
        return [self.python, "-ISB", str(ROOT), ":".join(layered()), str(self.room.play / "bin" / "sudo")]

    @contextlib.contextmanager
    def containers(self, broker: Broker, legs: Sequence[Leg], base: dict[str, str], options: Any,
                   top: Path | None, mark: str) -> Iterator[None]:
        """Has steps of jobs with containers or services executed by the engine, and removes all of them at
        the end."""
        engine = find(options.engine) if any(VARIABLE in leg.job["env"] for leg in legs) else ""
        if isinstance(engine, str):
            yield
            return
        # (folders of --keep may have the same name)
        self.engine, engine.execution = engine, f"{self.room.folder.name[-40:]}-{secrets.token_hex(3)}"
        engine.sweep()
        assert self.ended is not None
        shared = Shared(self.ended)
        broker.relays = relays_of(legs, engine, self.room, self.fresh, len(legs) > 1 and top is None, top,
                                  lambda leg: {
            "offline": bool(options.offline), "agent": lambda: broker.leg(leg).agent, "base": base,
            "shared": shared, "mark": mark})
        self.places = {leg: relay.place for leg, relay in broker.relays.items()}
        try:
            yield
        finally:
            self.ended.file.close()
            engine.remove(EXECUTION, engine.execution)

    def why_none(self, leg: str) -> str:
        """Why a leg has no root, if so: the first line of its file `none`, which a step may have written."""
        try:
            return one_line(read_below(self.folder, leg, "none", most=MOST_WHY).decode("utf-8", "replace"))
        except OSError:
            return ""

    def finish(self, screen: Screen, kept: Iterable[int] = ()) -> None:
        """Keeps the packages that steps downloaded, and the roots of some legs; says why there were no roots,
        if that is so."""
        why = next(filter(None, map(self.why_none, sorted(os.listdir(self.folder)))),
                   "") if self.folder.is_dir() else ""
        if why:
            screen.tell(f"note: steps saw the system read-only: {why}", "note")
        for place in self.places.values():
            if place.own and place.work.is_dir() and not os.path.lexists(place.workspace.parent):
                place.work.rename(place.workspace.parent)  # (where the person finds it)
        for leg in self.folder.glob("[0-9]*/"):
            try:
                at = open_folder(self.folder, (leg.name, f"up{PACKAGES}"))
                keep_packages(at, self.apt)
                os.close(at)
            except OSError:
                continue
        left = os.statvfs(self.room.folder)
        if left.f_bavail * left.f_frsize < LEAST_BYTES:
            screen.tell(f"note: {rooms.cache_root()}: {os.strerror(errno.ENOSPC)}: make room there, or name "
                        "another place by the variable "
                        "XDG_CACHE_HOME", "warning")
        self.keep(kept)
        self.remove()

    def keep(self, legs: Iterable[int]) -> None:
        """Keeps the roots of legs for an execution that goes on with them."""
        kept = self.room.folder / ROOTS
        for leg in {*legs} & {*self.made} - {*self.places}:
            if (self.made[leg] / HOME_THERE).is_dir() and not (self.made[leg] / "none").exists():
                kept.mkdir(mode=0o700, exist_ok=True)
                self.made[leg].rename(kept / str(leg))

    def remove(self) -> None:
        """Removes the roots, while the result is shown."""
        gone = self.folder / f".gone-{secrets.token_hex(4)}"
        try:
            gone.mkdir()
            for leg in self.folder.glob("[0-9]*"):
                leg.rename(gone / leg.name)
        except OSError:  # (`remove_all` does it)
            return
        removals.append(threading.Thread(target=self.remove_folder, args=(gone,), daemon=True))
        removals[-1].start()

    def remove_folder(self, folder: Path) -> None:
        """Removes a folder, also what other persons of a container own, whom an ordinary user's podman knows
        alone."""
        rooms.remove(folder)
        if folder.exists() and self.engine and self.engine.name == "podman" and os.geteuid():
            self.engine.ask("unshare", "rm", "-rf", "--", str(folder))


def kept_root(folder: Path, leg: int) -> Path | None:
    """The root that a leg of an execution left; also that of one which was ended by force."""
    places = (folder / ROOTS / str(leg), folder / "machine" / str(leg))
    return next(
        (place for place in places if (place / HOME_THERE).is_dir() and not (place / "none").exists()), None
    )


def go_on_with(old: Path, folder: Path) -> None:
    """Moves what a leg left of its root into the folder of another: layers, home folder and temporary
    files."""
    for name in os.listdir(old):
        if name.startswith("up") or name in OF_LEG:
            os.rename(old / name, folder / name)


removals: list[threading.Thread] = []  # that may be at work


def remove_all(room: Room) -> None:
    """Waits until all roots of an execution are removed."""
    for removal in removals:
        removal.join()
    rooms.remove(room.folder / "machine")


def keep_packages(at: int, kept: Path) -> None:
    """Moves packages that a leg downloaded from an open folder to those that are kept, as long as they have
    room there."""
    total = sum(file.stat().st_size for file in kept.glob("*.deb"))
    for name in os.listdir(f"/proc/self/fd/{at}"):
        found = os.stat(name, dir_fd=at, follow_symlinks=False)
        fresh = re.fullmatch(r"[A-Za-z0-9][\w.+~%-]*\.deb", name) and not (kept / name).exists()
        if fresh and stat.S_ISREG(found.st_mode) and total + found.st_size <= MOST_BYTES:
            os.rename(name, kept / name, src_dir_fd=at)
            (kept / name).chmod(0o644)
            total += found.st_size


def clean(work: Path) -> None:
    """Removes the roots that executions left which were ended by force."""
    for folder in work.glob("*/machine"):
        try:
            with open(folder.parent / "lock", "a", encoding="utf-8") as lock:
                fcntl.flock(lock, fcntl.LOCK_EX | fcntl.LOCK_NB)
                rooms.remove(folder)
        except OSError:
            continue
