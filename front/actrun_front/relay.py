"""Steps of a job with a container or services: the engine is asked outside of the sandbox, for what is
written here alone.

The connection of each step comes here instead of going to the leg's agent. A script goes into the container
of the job, if there is one; all else, as the programs of actions, goes to the agent. The container shows the
folders of the leg at the places that GitHub has, and at those that scripts and variables name. Nothing that a
step wrote becomes a word of the engine's.
"""
from __future__ import annotations

import errno
import json
import marshal
import os
import re
import select
import shlex
import shutil
import socket
import stat
import subprocess
import threading
from collections import Counter
from dataclasses import dataclass, field
from pathlib import Path
from typing import Any, Callable, Sequence

from . import Problem, files
from .containers import HARMLESS, Engine, EngineError, env_file, options_of, ports_of
from .lower_containers import DOCKER, VARIABLE
from .output_limits import pairs
from .sandbox import OF_NO_LEG
from .tree import Room

MOST_OF_ACTION = 1024 ** 3       # bytes of the folder of a Docker action
MOST_OF_FILE = 1024 ** 2         # bytes of a Dockerfile
MOST = 32 * 1024 * 1024          # bytes that a step may hand on in one file
SHELLS = (b"bash", b"sh")
# of the variables of a step, what belongs to this machine; those that a workflow gives another value go along
OF_MACHINE = re.compile("PATH|HOME|USER|LOGNAME|SHELL|LANG|LANGUAGE|LC_.*|TZ|TERM|TMPDIR|SSL_CERT_(FILE|DIR)")
# the script that starts a step in the container: variables, prelude, then the shell; without a bash, sh
# means the default shell
ENTRY = """\
exec 2>&1
. "$1" || exit 1
echo $$ >"$1.pid"
rm -f "$1"
shift
[ -z "${ACTRUN_PRELUDE-}" ] || . "$ACTRUN_PRELUDE"
if [ "$1 $2" = "bash -e" ] && ! command -v bash >/dev/null; then shift; set -- sh "$@"; fi
exec "$@"
"""
SHAPES = {"image": str, "folder": str, "entrypoint": str, "args": list, "env": dict}  # of an action
# what an engine may give to a part of a build beside what the sandbox of a step has
OF_MACHINE_BUILD = re.compile(rb"(?im)^[^\S\n]*(?:onbuild[^\S\n]+)?run[^\S\n]+(?:--\S+[^\S\n]+)*"
                              rb"--(network|security|device)\b")
NAME = re.compile(r"actrun-[0-9a-f]{12}-\d+")  # of the network of a leg
PAUSE = 0.2                      # seconds between two looks whether another leg has ended
VOLUME = re.compile(r"(?:([^:]+):)?(/[^:]*)(?::(ro|rw))?")


def in_texts(value: Any) -> Any:
    """A value of JSON in which all but maps and lists are texts, as GitHub makes them."""
    if isinstance(value, dict):
        return {name: in_texts(one) for name, one in value.items()}
    if isinstance(value, list):
        return [in_texts(one) for one in value]
    return value if isinstance(value, str) else "" if value is None else json.dumps(value)


def read_all(connection: socket.socket, length: int) -> bytes:
    """That many bytes of a connection. Raises EOFError at its end."""
    parts = []
    while length:
        part = connection.recv(min(length, 1 << 20))
        if not part:
            raise EOFError
        parts.append(part)
        length -= len(part)
    return b"".join(parts)


@dataclass
class Place:
    """The folders of a leg, and where they are in its container. The engine follows links, so it gets only
    folders that no step can replace: the tree, which a step can, is seen in the folder above it."""

    leg: int
    folder: Path      # of the front's, for this leg
    play: Path        # where steps find files, by their variables
    workspace: Path   # the tree of the leg, by its variables
    temp: Path        # RUNNER_TEMP, by its variables
    own: bool = True  # whether the tree is in a folder of this leg's, not where all trees are copied from
    top: Path | None = None  # the working tree, where that is used itself
    # what else of the room steps see, and where
    readable: list[tuple[str, str]] = field(default_factory=list)

    @property
    def name(self) -> str:
        """The name of the repository."""
        return self.workspace.name

    def make(self) -> None:
        """Makes the folders that are shown."""
        for name in ("work", "temp", "steps", "github/home", "github/workflow", "volumes"):
            (self.folder / name).mkdir(parents=True, exist_ok=True)
        link = self.folder / "github" / "workspace"
        if not os.path.lexists(link):
            link.symlink_to(f"/__w/{self.name}/{self.name}")

    @property
    def files(self) -> Path:
        """Where files of the leg's steps are, as GITHUB_PATH."""
        return self.play / "files" / str(self.leg)

    @property
    def work(self) -> Path:
        """The folder of the tree on this machine."""
        return self.folder / "work" if self.own else self.workspace.parent

    def in_sandbox(self) -> list[str]:
        """The words for the leg's sandbox, which shows the same tree and RUNNER_TEMP."""
        tree = ["--bind", str(self.work), str(self.workspace.parent)] if self.own else []
        return [*tree, "--bind", str(self.folder / "temp"), str(self.temp)]

    def volumes(self) -> list[str]:
        """The words that show the folders in the container."""
        shown = [(self.folder / "steps", self.play), (self.files, self.files),
                 (self.work, self.workspace.parent),
                 (self.work, f"/__w/{self.name}"), (self.folder / "temp", self.temp),
                 (self.folder / "temp", "/__w/_temp"),
                 (self.folder / "github", "/github"),
                 *((place, f"{place}{'' if place.name in OF_NO_LEG else ':ro'}")
                   for place in (self.play / "files").iterdir() if place.is_file()),
                 *([(self.top, self.top)] if self.top else []),
                 *((source, f"{target}:ro") for source, target in self.readable)]
        return [word for source, target in shown for word in ("--volume", f"{source}:{target}")]

    def variables(self) -> dict[str, str]:
        """The variables that name folders as GitHub does in containers."""
        workspace = f"/__w/{self.name}/{self.name}"
        return {"HOME": "/github/home", "GITHUB_WORKSPACE": workspace, "RUNNER_TEMP": "/__w/_temp",
                "RUNNER_WORKSPACE": f"/__w/{self.name}",
                "GITHUB_EVENT_PATH": "/github/workflow/event.json"}


class Ended:
    """The legs that have ended, by the record as it grows."""

    def __init__(self, part: Path) -> None:
        self.file, self.rest = part.open("rb"), b""
        self.legs: set[int] = set()

    def read(self) -> set[int]:
        """These legs."""
        *lines, self.rest = (self.rest + self.file.read()).split(b"\n")
        self.legs.update(json.loads(line)["leg"] for line in lines if line.startswith(b'{"event":"finish"'))
        return self.legs


@dataclass
class Shared:
    """What legs share: the ports of this machine. A leg waits until those with one of its ports have
    ended."""

    ended: Ended
    owners: dict[str, Relay] = field(default_factory=dict)  # by port and protocol
    begun: list[Relay] = field(default_factory=list)
    guard: threading.Lock = field(default_factory=threading.Lock)

    def take(self, relay: Relay, ports: set[str], connection: socket.socket) -> None:
        """Waits until a leg may have ports, and removes the containers of legs that have ended. Raises
        EngineError if its step is stopped before."""
        while not self.taken(relay, ports):
            if select.select([connection], [], [], PAUSE)[0]:
                raise EngineError(
                    f"the step was stopped while another leg had its ports: {', '.join(sorted(ports))}"
                )

    def taken(self, relay: Relay, ports: set[str]) -> bool:
        """Whether a leg has the ports from now on."""
        with self.guard:
            ended = self.ended.read()
            for other in [other for other in self.begun if other.number in ended]:
                self.begun.remove(other)
                other.end()
            busy = [port for port in ports if self.owners.get(port, relay) in self.begun]
            if not busy:
                self.begun.append(relay)
                self.owners.update(dict.fromkeys(ports, relay))
            return not busy


@dataclass(eq=False)
class Relay:
    """A leg whose job has a container or services."""

    number: int
    engine: Engine
    place: Place
    offline: bool
    agent: Callable[[], socket.socket]     # of the leg's sandbox
    base: dict[str, str]                   # the variables of steps, without those of workflows
    shared: Shared
    mark: str = ""                         # the word that begins the first line of each step
    states: dict[str, dict[str, str]] = field(default_factory=dict)  # what Docker actions saved, by their use
    images: dict[str, str] = field(default_factory=dict)             # and their images
    made: list[str] = field(default_factory=list)  # the names of containers
    network: str = ""
    container: str = ""
    problem: str = ""
    begun: bool = False
    guard: threading.Lock = field(default_factory=threading.Lock)

    def take(self, connection: socket.socket, output: int, reader: int) -> None:
        """Executes the step of a connection in a thread. `output` and `reader` are its own: both ends of the
        pipe for what it prints."""
        threading.Thread(target=self.step, args=(connection, output, reader), daemon=True).start()

    def step(self, connection: socket.socket, output: int, reader: int) -> None:
        """Executes the step of a connection."""
        try:
            length = int.from_bytes(read_all(connection, 8), "little")
            words, variables, texts, handed, folder = marshal.loads(read_all(connection, length))
            spec = variables.pop(VARIABLE.encode(), b"{}")
            with self.guard:
                if not self.begun:
                    self.begun = True
                    self.begin(in_texts(json.loads(spec)), variables, connection)
            if self.problem:
                os.write(output, f"{self.mark}:{step_of(handed)}\n::error::{self.problem}\n".encode())
                connection.sendall((1).to_bytes(4, "little")
                                   + b"".join((0).to_bytes(4, "little") for _ in handed))
            elif DOCKER.encode() in variables:
                DockerAction(self, connection, output, (words, variables, texts, handed)).execute()
            elif self.container and os.path.basename(words[0]) in SHELLS:
                InContainer(self, connection, output, (words, variables, texts, handed)).execute()
            else:
                self.hand_on(
                    connection, marshal.dumps((words, variables, texts, handed, folder)), output, reader
                )
        except (OSError, EOFError, ValueError, TypeError, KeyError, Problem) as error:
            try:
                os.write(output, f"actrun: the step cannot be executed: {error}\n".encode("utf-8", "replace"))
            except OSError:
                pass
        finally:
            for number in (output, reader):
                os.close(number)
            connection.close()

    def hand_on(self, connection: socket.socket, data: bytes, *streams: int) -> None:
        """Has the agent execute a step, and carries what both sides say."""
        ours, theirs = socket.socketpair()
        socket.send_fds(self.agent(), [b"s"], [theirs.fileno(), *streams])
        theirs.close()
        with ours:
            ours.sendall(len(data).to_bytes(8, "little") + data)
            carry(connection, ours)

    def begin(self, spec: dict[str, Any], variables: dict[bytes, bytes], connection: socket.socket) -> None:
        """Starts services and the container of the leg. If that fails, all its steps do, and say why."""
        try:
            self.network = spec["name"]
            if not NAME.fullmatch(self.network):
                raise EngineError(f"{self.network} is no name of a network")
            self.shared.take(self, published(spec), connection)
            self.copy_tree(variables)
            self.start(spec)
        except EngineError as error:
            self.problem = str(error)
        except (OSError, subprocess.SubprocessError, KeyError, TypeError, AttributeError) as error:
            self.problem = f"the containers of the job cannot be started: {error}"

    def end(self) -> None:
        """Removes the network of the leg and what is in it."""
        for name in self.made:  # (podman removes none if it does not know one of them)
            self.engine.discard([name], [])
        self.engine.discard([], [self.network])

    def copy_tree(self, variables: dict[bytes, bytes]) -> None:
        """Has the prelude of a step make the tree of the leg, in the sandbox: what is in the container may
        lack the programs for it."""
        ours, theirs = socket.socketpair()
        nothing = os.open(os.devnull, os.O_WRONLY)
        socket.send_fds(self.agent(), [b"s"], [theirs.fileno(), nothing])
        theirs.close()
        os.close(nothing)
        words = [b"/bin/sh", b"-c", b'. "$ACTRUN_PRELUDE"']
        data = marshal.dumps((words, variables, {}, [], os.fsencode(self.place.play)))
        with ours:
            ours.sendall(len(data).to_bytes(8, "little") + data)
            while ours.recv(64):
                pass

    def start(self, spec: dict[str, Any]) -> None:
        """Starts services, then the container of the job. Raises EngineError."""
        engine, label = self.engine, self.engine.labels()
        container, services = spec.get("container") or {}, spec.get("services") or {}
        has_container = bool(container.get("image"))
        if services and not has_container and self.offline:
            raise EngineError("services of a job without a container are reached by the network, "
                              "and --offline took it away")
        internal = ["--internal"] if self.offline else []
        engine.need("a network cannot be made", "network", "create", *internal, *label, self.network)
        waiting = []
        for service, parts in services.items():
            if parts.get("image"):
                waiting.append(self.service(service, parts, [*label, "--network", self.network],
                                            has_container))
        if has_container:
            self.job_container(container, [*label, "--network", self.network])
        for number, what, options in waiting:
            try:
                engine.await_health(number, what, options)
            except EngineError as error:
                raise EngineError(f"{error}\n{engine.logs(number)}") from None

    def service(self, name: str, parts: dict[str, Any], words: list[str],
                has_container: bool) -> tuple[str, str, list[str]]:
        """Starts a service; gives its container, what it is called, and its options. Raises EngineError."""
        what, options = f"service {name}", options_of(parts.get("options", ""), f"service {name}")
        image = self.engine.bring(parts["image"], self.offline, parts.get("credentials") or {},
                                  self.place.folder)
        self.made.append(f"{self.network}.{name}")
        words = ["run", "--detach", "--name", self.made[-1], *words, "--network-alias", name,
                 *env_file(self.place.folder / "service.env", parts.get("env") or {}, what),
                 *self.mounts(parts, what), *options]
        for here, inside, kind in ports_of(parts.get("ports") or [], what) if not has_container else ():
            words += ["--publish", f"127.0.0.1:{here or inside}:{inside}/{kind}"]
        return self.engine.need(f"{what} cannot be started", *words, image), what, options

    def job_container(self, parts: dict[str, Any], words: list[str]) -> None:
        """Starts the container of the job, in which nothing executes yet. Raises EngineError."""
        what, place = "the container of the job", self.place
        options = options_of(parts.get("options", ""), what)
        image = self.engine.bring(parts["image"], self.offline, parts.get("credentials") or {}, place.folder)
        event = place.folder / "github" / "workflow" / "event.json"
        name = os.path.basename(self.base.get("GITHUB_EVENT_PATH", "event-0.json"))
        event.write_bytes(files.read_below(place.play / "files", name))
        variables = {**place.variables(), "CI": "true", "GITHUB_ACTIONS": "true", **(parts.get("env") or {})}
        self.made.append(f"{self.network}.job")
        words = ["run", "--detach", "--name", self.made[-1], *words,
                 *env_file(place.folder / "container.env", variables, what),
                 *place.volumes(), *self.mounts(parts, what),
                 "--workdir", f"/__w/{place.name}", "--entrypoint", "tail", *options]
        self.container = self.engine.need(f"{what} cannot be started", *words, image, "-f", "/dev/null")

    def mounts(self, parts: dict[str, Any], what: str) -> list[str]:
        """The words for the volumes of a container. A folder of the machine is one of the leg's. Raises
        EngineError."""
        result = []
        for volume in parts.get("volumes") or []:
            found = VOLUME.fullmatch(volume)
            if not found or ".." in volume.split(":")[0].split("/"):
                raise EngineError(f"{what} has the volume {volume}: "
                                  "write it as NAME:/DIR or /DIR:/DIR")
            name = re.sub(r"[^A-Za-z0-9._-]+", "_", found[1] or found[2]).strip(".") or "_"
            source = self.place.folder / "volumes" / name
            source.mkdir(exist_ok=True)
            result += ["--volume", f"{source}:{found[2]}{':' + found[3] if found[3] else ''}"]
        return result


def published(spec: dict[str, Any]) -> set[str]:
    """The ports of this machine that the services of a leg get. Raises EngineError."""
    if (spec.get("container") or {}).get("image"):
        return set()
    services = [(name, parts) for name, parts in (spec.get("services") or {}).items() if parts.get("image")]
    return {f"{here or inside}/{kind}" for name, parts in services
            for here, inside, kind in ports_of(parts.get("ports") or [], f"service {name}")}


def relays_of(legs: Sequence[Any], engine: Engine, room: Room, fresh: Callable[[int], Path], own_trees: bool,
              top: Path | None,
              rest: Callable[[int], dict[str, Any]]) -> dict[int, Relay]:
    """The relays of the legs whose job has a container or services. `rest` gives what else a relay has."""
    found: dict[int, Relay] = {}
    indices: Counter[tuple[int, int]] = Counter()
    for leg in legs:
        job = leg.run, leg.job["number"]
        index, indices[job] = indices[job], indices[job] + 1
        if VARIABLE in leg.job["env"]:
            tree = room.play / "legs" / f"{leg.job['number']}-{index}" / room.name if own_trees else room.tree
            place = Place(leg.number, fresh(leg.number), room.play, tree,
                          room.play / "temp" / f"{leg.job['number']}-{index}", own_trees, top)
            found[leg.number] = Relay(leg.number, engine, place, **rest(leg.number))
    return found


def step_of(handed: list[bytes]) -> str:
    """Leg and step, by the files that a step hands on."""
    return os.path.basename(handed[0]).decode()[len("step-"):-len(".out")]


def pump(source: socket.socket, target: socket.socket) -> None:
    """Carries bytes until the end of one side, which the other is then to see."""
    try:
        while True:
            part = source.recv(64)
            if not part:
                break
            target.sendall(part)
        target.shutdown(socket.SHUT_RDWR)
    except OSError:
        pass


def carry(connection: socket.socket, ours: socket.socket, before: Callable[[], None] = lambda: None) -> None:
    """Carries what both sides of a step say; `before` is called before the answer goes on."""
    back = threading.Thread(target=pump, args=(connection, ours), daemon=True)
    back.start()
    part = ours.recv(1 << 16)
    if part:
        before()
    while part:
        connection.sendall(part)
        part = ours.recv(1 << 16)
    try:
        connection.shutdown(socket.SHUT_RDWR)
    except OSError:  # (the shim has ended)
        pass
    back.join()


class InContainer:
    """One step in the container of its job."""

    def __init__(
        self, relay: Relay, connection: socket.socket, output: int, request: tuple[Any, ...]
    ) -> None:
        self.relay, self.connection, self.output = relay, connection, output
        self.words, self.variables, self.texts, self.handed = request
        self.ended, self.use = False, ""
        self.name = f"environment-{os.path.basename(self.handed[0]).decode()}"

    def execute(self) -> None:
        """Executes the step and answers how it ended, with what it hands on."""
        for path, text in self.texts.items():
            self.put(os.path.basename(path).decode(), text)
        for path in self.handed:
            self.put(os.path.basename(path).decode(), b"")
        self.put(self.name, self.environment().encode("utf-8", "surrogateescape"))
        play = self.relay.place.play
        words = ["exec", "--workdir", "/", self.relay.container, "sh", "-c", ENTRY, "sh",
                 str(play / self.name), *map(os.fsdecode, self.words)]
        process = self.relay.engine.start(*words, stdin=subprocess.DEVNULL, stdout=self.output,
                                          stderr=self.output)
        asked = threading.Thread(target=self.await_end, daemon=True)
        asked.start()
        self.answer(process.wait())

    def answer(self, status: int) -> None:
        """Answers how the step ended, with what it hands on."""
        self.ended = True
        answers = [self.left(os.path.basename(path).decode()) for path in self.handed]
        heads = b"".join((2 ** 32 - 1 if text is None else len(text)).to_bytes(4, "little")
                         for text in answers)
        self.connection.sendall(status.to_bytes(4, "little", signed=True) + heads
                                + b"".join(text or b"" for text in answers))

    def put(self, name: str, text: bytes) -> None:
        """Writes a file for the step, in a folder that steps write."""
        at = files.open_folder(self.relay.place.folder, ("steps",))
        try:
            try:
                os.unlink(name, dir_fd=at)
            except FileNotFoundError:
                pass
            with open(os.open(name, os.O_WRONLY | os.O_CREAT | os.O_EXCL, 0o600, dir_fd=at), "wb") as file:
                os.fchmod(file.fileno(), 0o666)  # (a container may have another person)
                file.write(text)
        finally:
            os.close(at)

    def left(self, name: str) -> bytes | None:
        """What the step left in a file that it hands on; nothing for a link, another kind of file, or too
        many bytes."""
        try:
            return files.read_below(self.relay.place.folder, "steps", name, most=MOST)
        except OSError:
            return None

    def environment(self) -> str:
        """The commands that set the variables of the step in the container."""
        place, lines = self.relay.place, []
        given = {os.fsdecode(name): os.fsdecode(value) for name, value in self.variables.items()}
        for name, value in {**given, **{name: value for name, value in place.variables().items()
                                        if name in given}}.items():
            of_machine = OF_MACHINE.fullmatch(name) and given.get(name) == self.relay.base.get(name)
            if name == "HOME" and of_machine or not of_machine and re.fullmatch(r"[A-Za-z_]\w*", name):
                lines.append(f"export {name}={shlex.quote(value)}\n")
        return "".join(lines)

    def await_end(self) -> None:
        """Ends the step when the connection asks for that, or ends."""
        signal_name = None
        while True:
            try:
                part = self.connection.recv(64)
            except OSError:
                return
            if self.ended:
                return
            signal_name = "TERM" if part and signal_name is None else "KILL"
            self.end(signal_name)
            if not part:
                return

    def end(self, name: str) -> None:
        """Sends the processes of the step a signal."""
        number = (self.left(self.name + ".pid") or b"").strip().decode("ascii", "replace")
        if number.isdigit():
            script = f"kill -{name} -- -{number} || kill -{name} {number}"
            self.relay.engine.ask("exec", self.relay.container, "sh", "-c", script, patience=60)


class DockerAction(InContainer):
    """One step that uses a Docker action, in a container of its own."""

    def execute(self) -> None:
        """Executes the action and answers how it ended, with what it hands on."""
        relay = self.relay
        spec = in_texts(json.loads(self.variables.pop(DOCKER.encode())))
        for path in self.handed:
            self.put(os.path.basename(path).decode(), b"")
        step = step_of(self.handed)
        self.container = f"{relay.network}-{step}"
        os.write(self.output, f"{relay.mark}:{step}\n".encode())
        cause = self.refusal(step)
        if cause:
            self.put(f"step-{step}.env", b"ACTRUN_STOPPED=true\n")
            os.write(self.output, f"{cause}\n".encode())
            return self.answer(130)
        try:
            words, variables = self.words_of(spec, step)
        except EngineError as error:
            os.write(self.output, f"::error::{error}\n".encode())
            return self.answer(1)
        process = relay.engine.start(*words, variables=variables, stdin=subprocess.DEVNULL,
                                     stdout=self.output, stderr=self.output)
        threading.Thread(target=self.await_end, daemon=True).start()
        status = process.wait()
        self.keep_state(step)
        return self.answer(status)

    def refusal(self, step: str) -> str:
        """Why the action does not start, if its leg was stopped; nothing if it may."""
        place = self.relay.place
        try:
            cause, *allowed = (
                (place.play.parent / "told" / f"stopped-{place.leg}").read_text(encoding="utf-8").splitlines()
            )
        except FileNotFoundError:
            return ""
        return "" if step.partition("-")[2] in allowed else cause

    def keep_state(self, step: str) -> None:
        """Keeps what the action wrote into GITHUB_STATE, for its later phases."""
        try:
            data = files.read_below(self.relay.place.files, f"state-{step}.new", most=MOST)
        except OSError:
            return
        self.relay.states.setdefault(self.use, {}).update(
            (name, value.decode("utf-8", "replace")) for name, value in pairs(data) if value is not None)

    def words_of(self, spec: dict[str, Any], step: str) -> tuple[list[str], dict[str, str]]:
        """The words that start the container of an action, and the variables that they name. Raises
        EngineError."""
        relay, place = self.relay, self.relay.place
        check_action(spec)
        given = {os.fsdecode(name): os.fsdecode(value) for name, value in self.variables.items()}
        self.use = given.get("ACTRUN_STATE", "")
        image = relay.images.get(self.use) or self.image(spec)
        if self.use:
            relay.images[self.use] = image
        for name in (f"path-{place.leg}", f"summary-{step}", f"state-{step}.new"):
            os.close(os.open(place.files / name, os.O_CREAT | os.O_NONBLOCK | os.O_NOFOLLOW, 0o600))
        of_action = {"HOME": "/github/home", "GITHUB_WORKSPACE": "/github/workspace",
                     "PWD": "/github/workspace", "RUNNER_TEMP": "/github/runner_temp",
                     "GITHUB_EVENT_PATH": "/github/workflow/event.json",
                     "GITHUB_PATH": f"{place.files}/path-{place.leg}",
                     "GITHUB_STEP_SUMMARY": f"{place.files}/summary-{step}",
                     "GITHUB_STATE": f"{place.files}/state-{step}.new",
                     **{f"STATE_{name}": value for name, value in relay.states.get(self.use, {}).items()},
                     **(spec.get("env") or {})}
        variables = {**{name: value for name, value in given.items()
                        if not (OF_MACHINE.fullmatch(name) and value == relay.base.get(name))
                        and not name.startswith(("ACTRUN_", "BASH_ENV"))}, **of_action}
        long = {name: value for name, value in variables.items() if "\n" in value
                and HARMLESS.fullmatch(name)}
        short = {name: value for name, value in variables.items() if name not in long}
        words = ["run", "--rm", "--name", self.container, *relay.engine.labels(), "--network", relay.network,
                 *place.volumes(), "--volume", f"{place.folder / 'temp'}:/github/runner_temp",
                 *env_file(place.folder / "action.env", short, "the action"),
                 *(word for name in long for word in ("--env", name)),
                 "--workdir", "/github/workspace"]
        entry = given.get("INPUT_ENTRYPOINT") or spec.get("entrypoint") or ""
        try:
            args = shlex.split(given["INPUT_ARGS"]) if given.get("INPUT_ARGS") else spec.get("args") or []
        except ValueError:
            raise EngineError("the action has args with a quote that does not end: "
                              f"{given['INPUT_ARGS']}") from None
        return [*words, *([f"--entrypoint={entry}"] if entry else []), image, *args], long

    def image(self, spec: dict[str, Any]) -> str:
        """The image of the action, which is built from a Dockerfile, or brought. Raises EngineError."""
        relay, place = self.relay, self.relay.place
        if spec["image"].startswith("docker://"):
            return relay.engine.bring(spec["image"], relay.offline, {}, place.folder)
        folder, fetched = place.folder / f"build-{self.name}", "fetched" in spec
        base, above = (
            (place.play, "actions") if fetched else (place.top, "") if place.top else (place.work, place.name)
        )
        copy_plain(base, spec["folder"], folder, above)
        parts = spec["image"].split("/")
        # (the copy has no links)
        if parts[0] == "" or ".." in parts or not (folder / spec["image"]).is_file():
            more = "" if fetched else " in the tree: is actions/checkout before it?"
            raise EngineError(f"the action {spec['folder']} has no file {spec['image']}{more}")
        parts = os.path.normpath(spec["image"]).split("/")
        check_build(files.read_below(folder, *parts, most=MOST_OF_FILE), spec["folder"])
        words = ["build", "--quiet", *relay.engine.labels(),
                 *(["--network", "none"] if relay.offline else []), "--file", str(folder / spec["image"])]
        return relay.engine.need(f"the image of {spec['folder']} cannot be built", *words,
                                 str(folder)).splitlines()[-1]

    def end(self, name: str) -> None:
        """Sends the processes of the step a signal."""
        self.relay.engine.ask("kill", "--signal", name, self.container, patience=60)


def check_action(spec: Any) -> None:
    """Raises EngineError if the parts of an action are not texts, and lists or maps of texts."""
    parts = spec if isinstance(spec, dict) else {}
    wrong = [key for key, kind in SHAPES.items() if not isinstance(parts.get(key, kind()), kind)]
    inner = [] if wrong else [*parts.get("args", ()), *parts.get("env", {}).values()]
    wrong += ["args or env"] * any(not isinstance(one, str) for one in inner) + ["image"] * (
        not parts.get("image")
    )
    if wrong:
        raise EngineError(f"{wrong[0]} of the action has the wrong form: write image and entrypoint as strings, args as a list and "
                          "env as a mapping of strings")


def check_build(text: bytes, action: str) -> None:
    """Raises EngineError for a Dockerfile that asks for rights or the network of this machine."""
    lines = re.sub(rb"(?m)^[ \t]*#.*\n?", b"", text)
    found = OF_MACHINE_BUILD.search(re.sub(rb"[\\`][ \t]*\r?\n(?:[ \t\r]*\n)*", b"", lines))
    if found:
        raise EngineError(f"the action {action} builds by RUN --{found[1].decode().lower()}, which could reach this machine: "
                          "leave it out")


def copy_plain(base: Path, folder: str, target: Path, above: str = "") -> None:
    """Copies the plain files of a folder below `base`, or `above` in it, where steps write; links are left
    out. Raises EngineError where it cannot."""
    parts = tuple(part for part in (above, *folder.split("/")) if part not in ("", "."))
    try:
        if ".." in parts:
            raise OSError(errno.ENOENT, "it leads out of it")
        at = files.open_folder(base, parts)
        try:
            copy_folder(at, target, [MOST_OF_ACTION], 32)
        finally:
            os.close(at)
    except OSError as error:
        raise EngineError(f"the action {folder} cannot be read in the tree ({error.strerror}): "
                          "is actions/checkout before it?") from None


def copy_folder(at: int, target: Path, left: list[int], depth: int) -> None:
    """Copies the plain files of an open folder, down to a depth, as long as bytes are left. Raises
    OSError."""
    target.mkdir()
    for name in os.listdir(f"/proc/self/fd/{at}"):
        found = os.stat(name, dir_fd=at, follow_symlinks=False)
        if stat.S_ISDIR(found.st_mode) and depth:
            inner = os.open(name, os.O_RDONLY | os.O_DIRECTORY | os.O_NOFOLLOW, dir_fd=at)
            try:
                copy_folder(inner, target / name, left, depth - 1)
            finally:
                os.close(inner)
        elif stat.S_ISREG(found.st_mode):
            left[0] -= found.st_size
            if left[0] < 0:
                raise OSError(errno.EFBIG, os.strerror(errno.EFBIG))
            with open(os.open(name, os.O_RDONLY | os.O_NOFOLLOW | os.O_NONBLOCK, dir_fd=at),
                      "rb") as source, open(target / name, "wb") as copy:
                shutil.copyfileobj(source, copy)
            (target / name).chmod(found.st_mode & 0o755)
