"""The engine for containers, podman or docker: which one there is, and how images are brought, containers
started and removed.

All containers and networks of an execution have its name as a label, and another that says which process
started them. So the next execution removes what one left that was ended by force.
"""
from __future__ import annotations

import functools
import os
import re
import shlex
import subprocess
import time
from dataclasses import dataclass, field
from pathlib import Path
from typing import Any, Iterable, Sequence

ENGINES = ("podman", "docker")
# where an engine is looked for: never by PATH, which a repository's options may name
PLACES = ("/usr/bin", "/usr/local/bin", "/bin", "/run/current-system/sw/bin")
# what an engine gets of the caller's environment
PASSED = re.compile("HOME|USER|LANG|XDG_(RUNTIME|CONFIG|DATA)_(DIR|HOME)|CONTAINERS_.*|DOCKER_.*|"
                    "(?i:(https?|no|all)_proxy)|DBUS_SESSION_BUS_ADDRESS")
HARMLESS = re.compile(r"(INPUT|GITHUB)_\w*")  # variables that mean nothing to an engine
OWNER, EXECUTION = "actrun.owner", "actrun.execution"
PATIENCE = 600          # seconds for one answer of an engine; an image may be large
HEALTHY_WITHIN = 300    # seconds in which a service has to be healthy, at least
# options of `docker create` that a workflow may give: none shows or changes something of this machine. The
# numbers are of their values
OPTIONS = {
    **dict.fromkeys(
        (
            "--health-cmd",
            "--health-interval",
            "--health-retries",
            "--health-timeout",
            "--health-start-period",
            "--hostname",
            "--cpus",
            "--cpu-shares",
            "--memory",
            "--memory-swap",
            "--pids-limit",
            "--shm-size",
            "--tmpfs",
            "--ulimit",
            "--workdir",
            "--user",
            "--env",
            "--label",
            "--entrypoint",
            "--cap-drop",
            "--stop-signal",
            "--stop-timeout",
            "--name",
            "--network-alias",
            "--add-host",
            "--dns",
            "--expose",
            "--mac-address",
            "--platform",
            "-h",
            "-m",
            "-w",
            "-u",
            "-e",
            "-l",
        ),
        1,
    ),
    **dict.fromkeys(
        (
            "--init",
            "--read-only",
            "--no-healthcheck",
            "--rm",
            "--tty",
            "--interactive",
            "-t",
            "-i",
            "-it",
            "-ti",
        ),
        0,
    ),
}
LEFT_OUT = ("--name", "--rm", "--tty", "--interactive", "-t", "-i", "-it", "-ti")  # they would disturb


# the name of an image: registry, path, tag, digest
IMAGE = re.compile(r"(docker://)?[A-Za-z0-9][\w.-]*(:\d+)?(/[\w.-]+)*(:\w[\w.-]*)?(@sha256:[0-9a-f]{64})?")


class EngineError(Exception):
    """The engine refused something; the text says what, and what it printed."""


def started(process: int | str = "self") -> str:
    """When a process started, by the clock of the kernel; nothing if there is none."""
    try:
        return Path(f"/proc/{process}/stat").read_text(encoding="utf-8",
                                                       errors="replace").rpartition(")")[2].split()[19]
    except (OSError, IndexError):
        return ""


def owner() -> str:
    """The name of this process, which no other ever has."""
    boot = Path("/proc/sys/kernel/random/boot_id").read_text(encoding="utf-8").strip()[:8]
    return f"{os.getpid()}.{started()}.{boot}"


def is_alive(name: str) -> bool:
    """Whether the process of such a name is there."""
    number, _, rest = name.partition(".")
    return number.isdigit() and rest == f"{started(number)}.{owner().rpartition('.')[2]}"


def options_of(text: str, what: str) -> list[str]:
    """The options of a container by its key `options`. Raises EngineError if one would reach this
    machine."""
    try:
        words, result = shlex.split(text), []
    except ValueError:
        raise EngineError(f"the options of {what} have a quote that does not end: {text}") from None
    while words:
        name, equals, value = words.pop(0).partition("=")
        if name not in OPTIONS:
            raise EngineError(f"{what} has the option {name}, which could reach this machine: leave it out")
        if OPTIONS[name] and not equals:
            if not words:
                raise EngineError(f"{what} has the option {name} without a value")
            value = words.pop(0)
        of_label = name in ("-l", "--label") and value.startswith("actrun")
        if of_label or name in ("-e", "--env") and "=" not in value:
            raise EngineError(f"{what} has the option {name} {value}: write {name} NAME=VALUE, "
                              "with another name than actrun's")
        if name not in LEFT_OUT:
            joined = [f"{name}={value}"] if name.startswith("--") else [name, value]
            result += joined if OPTIONS[name] else [name]
    return result


def seconds(text: str) -> float:
    """The seconds of a time such as `1m30s`."""
    units = {"h": 3600, "m": 60, "s": 1, "ms": 0.001, "us": 0.000001, "ns": 0.000000001}
    return sum(float(number) * units[unit] for number, unit in re.findall(r"([\d.]+)(ms|us|ns|h|m|s)", text))


@dataclass
class Engine:
    """An engine that works here."""

    name: str
    path: str
    execution: str = ""
    images: set[str] = field(default_factory=set)  # that are there for sure

    def start(self, *words: str, variables: dict[str, str] | None = None,
              **more: Any) -> subprocess.Popen[bytes]:
        """Starts the engine with some words. Of a workflow's variables it gets only those that no program of
        it reads."""
        environment = {name: value for name, value in (variables or {}).items() if HARMLESS.fullmatch(name)}
        environment.update((name, value) for name, value in os.environ.items() if PASSED.fullmatch(name))
        environment["PATH"] = ":".join((*PLACES, "/usr/sbin", "/sbin", "/usr/local/sbin"))
        return subprocess.Popen([self.path, *words], env=environment, cwd="/", start_new_session=True, **more)

    def ask(self, *words: str, text: str = "",
            patience: float = PATIENCE) -> subprocess.CompletedProcess[str]:
        """What the engine answers."""
        process = self.start(*words, stdin=subprocess.PIPE, stdout=subprocess.PIPE, stderr=subprocess.PIPE)
        try:
            output, errors = process.communicate(text.encode(), timeout=patience)
        except subprocess.TimeoutExpired:
            process.kill()
            process.communicate()
            return subprocess.CompletedProcess(words, 124, "",
                                               f"{self.name} does not answer within {patience} s")
        return subprocess.CompletedProcess(words, process.returncode, output.decode("utf-8", "replace"),
                                           errors.decode("utf-8", "replace"))

    def need(self, what: str, *words: str, text: str = "") -> str:
        """What the engine prints, without the last newline. Raises EngineError if it fails."""
        answer = self.ask(*words, text=text)
        if answer.returncode != 0:
            lines = answer.stderr.strip().splitlines() or [f"{self.name} says nothing"]
            raise EngineError(f"{what}: {lines[-1]}")
        return answer.stdout.rstrip("\n")

    def labels(self) -> list[str]:
        """The words for the labels of this execution."""
        return ["--label", f"{EXECUTION}={self.execution}", "--label", f"{OWNER}={owner()}"]

    def bring(self, image: str, offline: bool, credentials: dict[str, str], folder: Path) -> str:
        """The number of an image, which is pulled if it is not there. Raises EngineError if that fails."""
        if not IMAGE.fullmatch(image):
            raise EngineError(f"the image {image} has no name of an image: "
                              "write it as debian:12 or ghcr.io/owner/name:tag")
        image = image.removeprefix("docker://")
        if image not in self.images and self.ask("image", "inspect", image).returncode != 0:
            self.pull(image, offline, credentials, folder)
        self.images.add(image)
        return self.need(f"the image {image} cannot be used", "image", "inspect", "--format", "{{.Id}}",
                         image)

    def pull(self, image: str, offline: bool, credentials: dict[str, str], folder: Path) -> None:
        """Pulls an image. Raises EngineError if that fails."""
        if offline:
            raise EngineError(f"the image {image} is not there, and --offline took the network away: "
                              f"{self.name} pull {image}")
        before: list[str] = []
        after: list[str] = []
        if credentials.get("username"):
            host = image.partition("/")[0] if re.match(r"[^/]*[.:][^/]*/|localhost/", image) else "docker.io"
            before, after = (["--config", str(folder)],
                             []) if self.name == "docker" else ([], [f"--authfile={folder / 'auth.json'}"])
            self.need(f"the login at {host}", *before, "login", *after, "--username", credentials["username"],
                      "--password-stdin", host,
                      text=credentials.get("password", ""))
        # (no other transport, which could read files here)
        source = image if self.name == "docker" else f"docker://{image}"
        self.need(f"the image {image} cannot be brought", *before, "pull", "--quiet", *after, source)

    def is_running(self, container: str) -> bool:
        """Whether a container executes."""
        return self.ask("inspect", "--format", "{{.State.Running}}", container).stdout.strip() == "true"

    def logs(self, container: str) -> str:
        """The last lines that a container printed."""
        answer = self.ask("logs", "--tail", "50", container)
        return (answer.stdout + answer.stderr).rstrip("\n")

    def await_health(self, container: str, what: str, options: Sequence[str]) -> None:
        """Waits until a container is healthy that says how to ask for that. Raises EngineError if it is
        not in time."""
        check = self.ask("inspect", "--format", "{{json .Config.Healthcheck}}", container).stdout.strip()
        if check in ("", "null", "<no value>", "{}"):
            return
        given = dict(option.split("=", 1) for option in options if option.startswith("--health-"))
        wanted = seconds(given.get("--health-start-period",
                                   "")) + (seconds(given.get("--health-interval", "")) or 30) * (
            int(given["--health-retries"]) if given.get("--health-retries", "").isdigit() else 3)
        end, pause = time.monotonic() + max(HEALTHY_WITHIN, wanted), 0.1
        while time.monotonic() < end:
            if not self.is_running(container):
                raise EngineError(f"{what} has ended before it was healthy")
            if self.name == "podman":  # (its timer needs systemd)
                state = "healthy" if self.ask("healthcheck", "run", container).returncode == 0 else "starting"
            else:
                state = self.ask("inspect", "--format", "{{.State.Health.Status}}", container).stdout.strip()
            if state == "healthy":
                return
            if state == "unhealthy":
                break
            time.sleep(pause)
            pause = min(pause * 1.5, 2)
        raise EngineError(f"{what} is not healthy: its --health-cmd fails")

    def remove(self, name: str, value: str) -> None:
        """Removes all containers, networks and images with a label, and what they kept."""
        label = f"label={name}={value}"
        self.discard(self.ask("ps", "--all", "--quiet", "--filter", label).stdout.split(),
                     self.ask("network", "ls", "--quiet", "--filter", label).stdout.split())
        images = self.ask("images", "--quiet", "--filter", label).stdout.split()
        if images:
            self.ask("rmi", "--force", *dict.fromkeys(images))

    def discard(self, containers: list[str], networks: list[str]) -> None:
        """Removes containers with their volumes, then networks."""
        if containers:
            self.ask("rm", "--force", "--volumes", *(["--time", "0"] if self.name == "podman" else []),
                     *containers)
        if networks:
            self.ask("network", "rm", *networks)

    def sweep(self) -> None:
        """Removes what executions left whose process is not there any more."""
        found = "".join(self.ask(*words, "--filter", f"label={OWNER}", "--format", "{{.Labels}}").stdout
                        for words in (("ps", "--all"), ("network", "ls")))
        for name in dict.fromkeys(re.findall(re.escape(OWNER) + r"[=:]([\w.]+)", found)):
            if not is_alive(name):
                self.remove(OWNER, name)


@functools.lru_cache(maxsize=None)
def find(wanted: str | None) -> Engine | str:
    """The engine that is wanted, else the first that works; why there is none, if so."""
    whys = []
    for name in [wanted] if wanted in ENGINES else ENGINES if wanted is None else ():
        path = next((f"{place}/{name}" for place in PLACES if os.access(f"{place}/{name}", os.X_OK)), None)
        if path is None:
            whys.append(f"{name} is not installed")
            continue
        engine = Engine(name, path)
        asked = {
            "podman": ("info", "{{.Host.OCIRuntime.Name}}"),
            "docker": ("version", "{{.Server.Version}}"),
        }[name]
        answer = engine.ask(asked[0], "--format", asked[1], patience=60)
        if answer.returncode == 0:
            return engine
        whys.append(f"{name}: {(answer.stderr.strip().splitlines() or ['it says nothing'])[-1]}")
    return ", ".join(whys) or "--engine none"


def env_file(path: Path, variables: dict[str, str], what: str) -> list[str]:
    """Writes the variables of a container into a private file; gives the words that name it. Raises
    EngineError."""
    wrong = next((name for name, value in variables.items() if "\n" in value
                  or not re.fullmatch(r"[^\s=#][^\s=]*", name)), None)
    if wrong is not None:
        raise EngineError(f"{what} has the variable {wrong}, whose value has several lines: "
                          "an engine cannot take it")
    path.unlink(missing_ok=True)  # (of another container)
    with open(os.open(path, os.O_WRONLY | os.O_CREAT | os.O_EXCL | os.O_NOFOLLOW, 0o600), "w",
              encoding="utf-8") as file:
        file.writelines(f"{name}={value}\n" for name, value in variables.items())
    return ["--env-file", str(path)]


def ports_of(ports: Iterable[str], what: str) -> list[tuple[str, str, str]]:
    """Ports as `8080:80/tcp`, each as port of this machine (or nothing), of the container, and protocol.
    Raises EngineError."""
    result = []
    for port in ports:
        found = re.fullmatch(r"(?:(\d{1,5}):)?(\d{1,5})(?:/(tcp|udp))?", port)
        if not found:
            raise EngineError(f"{what} has the port {port}: write it as 6379, 16379:6379 or 53:53/udp")
        result.append((found[1] or "", found[2], found[3] or "tcp"))
    return result


def lacks(options: Any) -> str:
    """Why no engine executes containers with these options of `try`; empty if one does."""
    engine = "the sandbox, which --no-sandbox leaves out" if options.no_sandbox else find(options.engine)
    return engine if isinstance(engine, str) else ""


def missing(why: str) -> str:
    """The end of the sentence that refuses a job which needs an engine, if there is none."""
    return (f"needs podman or docker ({why}): apt-get install podman, "
            "or --lenient executes its steps on this machine, without it")
