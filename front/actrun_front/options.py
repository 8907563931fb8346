"""The options of `actrun try`: the command line, the files `.actrunrc`, and the files of names and values."""
from __future__ import annotations

import argparse
import functools
import getpass
import os
import re
import sys
from pathlib import Path
from typing import Any, Callable, Iterable, Sequence

from . import Problem, read_json, step_log
from .actions import IN_COPY
from .explain import near
from .files import parts_inside, read_inside

MOST_WORKERS = 16
RC_NAME = ".actrunrc"
# what the file of a repository may decide for its reader: neither rights of steps nor what they see of the
# machine, and not that
# nothing is executed
IN_REPOSITORY = (
    "-j",
    "--job",
    "--env",
    "--input",
    "--var",
    "--matrix",
    "--stub",
    "--lenient",
    "--any-system",
    "--workers",
)
FLAGS_IN_REPOSITORY = ("--lenient", "--any-system")
LONG = {
    "-s": "--secret",
    "-l": "--list",
    "-n": "--dryrun",
    "-g": "--graph",
    "-W": "--workflows",
    "-C": "--directory",
    "-e": "--eventpath",
}
# of the command line alone, not of that of an earlier execution
OF_LINE = (
    "from_step",
    "resume",
    "record",
    "keep",
    "breaks",
    "list",
    "dryrun",
    "graph",
    "directory",
    "watch",
    "quiet",
    "verbose",
)
MOST_RC = 1_000_000  # bytes of that file
PAIR = re.compile(r"""[ \t]*(?:export[ \t]+)?([A-Za-z_][\w.-]*)[ \t]*=[ \t]*
    (?:"((?:[^"\\]|\\.)*)"|'([^']*)'|(?![ \t"'])([^\n]*?))[ \t]*(?:(?<=[ \t])\#[^\n]*)?(?:\n|\Z)|[ \t]*(?:\#[^\n]*)?(?:\n|\Z)""", re.VERBOSE | re.DOTALL)
FLAG: dict[str, Any] = {"action": "store_const", "const": True}
ABOUT = """\
Finds the workflows of the repository, plans them for EVENT, executes them on a copy of
the working tree in a sandbox, and explains what did not succeed."""
END = f"""\
Options can also be in {RC_NAME} of ~/.config/actrun/, one per line. That of the repository
holds only --job, --env, --input, --var, --matrix, --stub, --lenient, --any-system and
--workers.

Exit status: 0 all runs succeeded, 1 a run failed or was cancelled, 2 an option or a file
is wrong, 3 the system failed, 4 a run is not closed, 130 Ctrl-C."""
ESCAPES = {"n": "\n", "r": "\r", "t": "\t"}


class Parser(argparse.ArgumentParser):
    """A parser whose errors are problems with a remedy."""

    place = ""  # of the words, before each error

    def error(self, message: str) -> None:  # type: ignore[override]
        raise Problem(f"{self.place}{message}: `actrun try --help` lists the options")


class Once(argparse.Action):
    """An option with one value, which the words of a parser have once at most."""

    given = False

    def __call__(
        self,
        reader: argparse.ArgumentParser,
        found: argparse.Namespace,
        value: Any,
        option: str | None = None,
    ) -> None:
        if self.given:
            reader.error(f"{option} is given twice: give it once")
        self.given = True
        setattr(found, self.dest, value)


def pair(text: str) -> tuple[str, str | None]:
    """Name and value of an option; None without a value."""
    name, equals, value = text.partition("=")
    return name, value if equals else None


MANY: dict[str, Any] = {"action": "append", "default": [], "type": pair}


def matrix(text: str) -> tuple[tuple[str, str], Any]:
    """Job, variable and value of `JOB.VARIABLE=JSON`."""
    found = re.fullmatch(r"([\w-]+)\.([^=]+)=(.*)", text, re.DOTALL)
    try:
        return (found[1], found[2]), read_json(found[3])  # type: ignore[index]
    except (TypeError, ValueError):
        raise Problem(f"--matrix {text}: write --matrix JOB.VARIABLE=JSON, such as --matrix 'test.python=[\"3.11\", \"3.12\"]'") from None


def unknown_matrix(given: Iterable[tuple[tuple[str, str], Any]], known: Iterable[tuple[str, str]]) -> str:
    """The error of the first --matrix that no job asks for, or nothing."""
    names = [".".join(place) for place in known]
    wrong = next((name for name in (".".join(place) for place, _ in given) if name not in names), None)
    return f"--matrix {wrong}: no job has this variable in its matrix{near(wrong, names)}" if wrong else ""


def log_limit(text: str) -> int:
    """The bytes that --log-limit names."""
    try:
        return step_log.size(text)
    except ValueError:
        expected = "a number of bytes was expected, as 500M or 1G; 0 is no limit"
        raise Problem(f"--log-limit {text}: {expected}") from None


def stub(base: Path, text: str) -> tuple[str, str]:
    """Action and program of `ACTION=PROGRAM`; a program with a slash is looked for from `base`."""
    action, _, program = text.partition("=")
    if not action or not program:
        raise Problem(
            f"--stub {text}: write --stub ACTION=PROGRAM, such as --stub codecov/codecov-action=/usr/bin/true"
        )
    if program.startswith(IN_COPY):
        return action, program
    return action, str(base / program) if "/" in program else program


def place_of(base: Path, text: str) -> Path:
    """A place of the machine that steps are to see, as it really is."""
    place = Path(os.path.realpath(base / os.path.expanduser(text)))
    if not place.exists() or place == Path("/"):
        raise Problem(
            f"--bind {text}: "
            + (
                "the whole machine cannot be named"
                if place == Path("/")
                else "there is no such file or directory"
            )
        )
    return place


def action(base: Path, text: str) -> tuple[str, Path]:
    """Action and folder of `ACTION=DIR`; the folder is looked for from `base`."""
    name, _, folder = text.partition("=")
    if not re.fullmatch(r"[\w.-]+/[\w.-]+(/[^@=]*)?(@.+)?", name) or not folder:
        raise Problem(f"--action {text}: write --action OWNER/NAME=DIR or --action OWNER/NAME@REF=DIR")
    return name, base / folder


def parser(base: Path = Path(), place: str = "") -> Parser:
    """The parser of the command line and of the lines of `.actrunrc`; files are looked for from `base`."""
    result = Parser(
        prog="actrun try",
        allow_abbrev=False,
        formatter_class=argparse.RawDescriptionHelpFormatter,
        description=ABOUT,
        epilog=END,
    )
    result.place = place
    file = {"metavar": "FILE", "type": lambda text: base / text, "action": Once}
    for add_some in (add_choices, add_values, add_ways):
        add_some(result.add_argument, base, file)
    return result


def add_choices(add: Callable[..., Any], _: Path, file: dict[str, Any]) -> None:
    """The options that say what is done, and with which workflows."""
    add(
        "event",
        nargs="?",
        metavar="EVENT",
        help="the event, such as push, pull_request or workflow_dispatch (default: push)",
    )
    add("-l", "--list", help="list the jobs of all workflows, or those of EVENT, and execute nothing", **FLAG)
    add("-n", "--dryrun", help="print runs, jobs, legs and steps as a tree, and execute nothing", **FLAG)
    add(
        "-g",
        "--graph",
        help="print the diagram of the plan in DOT, for `| dot -Tsvg`, and execute nothing",
        **FLAG,
    )
    add("-j", "--job", metavar="ID", action=Once, help="execute this job and those that it needs")
    add(
        "-W",
        "--workflows",
        metavar="PATH",
        action=Once,
        help="file or directory of workflows (default: .github/workflows)",
    )
    add(
        "-C",
        "--directory",
        metavar="DIR",
        action=Once,
        help="a directory of the repository (default: the current one)",
    )
    add("-e", "--eventpath", help="JSON file with the event's payload, which becomes github.event", **file)


def add_values(add: Callable[..., Any], _: Path, file: dict[str, Any]) -> None:
    """The options that give steps values."""
    add(
        "-s",
        "--secret",
        metavar="NAME[=VALUE]",
        help="a secret; if VALUE is omitted, it is read from the environment, or you are prompted",
        **MANY,
    )
    add("--secret-file", help="file of secrets, one NAME=VALUE per line", **file)
    add("--var", metavar="NAME=VALUE", help="a variable of the context vars", **MANY)
    add("--var-file", help="file of variables of the context vars", **file)
    add("--input", metavar="NAME=VALUE", help="an input of workflow_dispatch or workflow_call", **MANY)
    add("--input-file", help="file of inputs", **file)
    add(
        "--env",
        metavar="NAME[=VALUE]",
        help="an environment variable of all steps; if VALUE is omitted, it is read from the environment",
        **MANY,
    )
    add("--env-file", help="file of environment variables", **file)
    add(
        "--matrix",
        metavar="JOB.VARIABLE=JSON",
        help="the values of a matrix variable that is known only during execution",
        **{**MANY, "type": matrix},
    )


def add_ways(add: Callable[..., Any], base: Path, file: dict[str, Any]) -> None:
    """The options that say how steps are executed."""
    add("--break", metavar="PLACE", action="append", default=[], dest="breaks",
        help="stop at a prompt before a step (its name, its id, JOB/STEP or FILE:LINE), before a job, "
        "or, with `failed`, where a step failed")
    add("--from", metavar="JOB/STEP", action=Once, dest="from_step",
        help="execute the last execution again from this step (or `failed`), with the workspace as it was before it")
    add(
        "--resume",
        help="go on with the last execution, which was ended: steps that ended are not executed again",
        **FLAG,
    )
    add("--record", help="the record of another execution for --from and --resume", **file)
    add(
        "--watch",
        help="execute again when files of the repository change, from the first step that can see it",
        **FLAG,
    )
    add(
        "--snapshots",
        help="keep the workspace after each step, also if it has more than 20,000 files",
        **FLAG,
    )
    add("--no-snapshots", help="keep no workspaces after steps", **FLAG)
    add("--workers", metavar="N", type=int, choices=range(1, MOST_WORKERS + 1), action=Once,
        help="legs that execute at once (default: the processors, at most 16; with --in-place 1)")
    add(
        "--stub",
        metavar="ACTION=PROGRAM",
        help="a program that replaces an action",
        **{**MANY, "type": functools.partial(stub, base)},
    )
    add("--stubs", help="JSON file, an object of such programs", **file)
    add("--engine", metavar="NAME", choices=("podman", "docker", "none"), action=Once,
        help="the engine for containers and services: podman, docker or none (default: the first that works)")
    add(
        "--action",
        metavar="ACTION=DIR",
        help="a directory with the files of an action OWNER/NAME or OWNER/NAME@REF",
        **{**MANY, "type": functools.partial(action, base)},
    )
    add("--actions-url", metavar="URL", action=Once,
        help="fetch actions from URL/OWNER/NAME (default: https://github.com)")
    add("--real", metavar="ACTION", action="append", default=[],
        help="execute this action itself, not what replaces it")
    add("--no-fetch", help="fetch no actions, use those that are kept", **FLAG)
    add("--lock", help="write the commits of the actions into actrun.lock, which pins them", **FLAG)
    add("--lenient", help="skip actions that cannot be executed, take other versions of tools, and execute what GitHub rejects, with warnings",
        **FLAG)
    add("--any-system", help="execute the legs for Windows and macOS here", **FLAG)
    add("--workspace", metavar="HOW", choices=("checkout", "full"), action=Once,
        help="checkout: empty until actions/checkout fills it (default); full: a copy of the working tree from the start")
    add("--in-place", help="execute in the working tree itself, not in a copy", **FLAG)
    add(
        "--keep",
        metavar="DIR",
        action=Once,
        help="put the copy, the logs and the record into this new directory",
    )
    add("--log-limit", metavar="SIZE", type=log_limit, action=Once,
        help="discard what a step prints beyond SIZE, such as 500M (default: 1G); 0 keeps all")
    add("--no-sandbox", help="execute steps without a sandbox, with all rights of the caller", **FLAG)
    add("--offline", help="execute without network (needs the sandbox)", **FLAG)
    add(
        "--host-network",
        help="let steps share the network of this machine, with what listens on its loopback addresses",
        **FLAG,
    )
    place = {"metavar": "PATH", "action": "append", "default": [], "type": functools.partial(place_of, base)}
    add("--bind", help="let steps read this file or directory of the machine", **place)
    add("--bind-rw", help="let steps read and change this file or directory of the machine", **place)
    add("--writable-git", help="let steps change .git with --in-place", **FLAG)
    add(
        "--follow",
        help="print each line of a step when the step prints it, behind the names of leg and step "
        "if legs execute at once",
        **FLAG,
    )
    add("--json", help="print events and the result as JSON, an object per line, on standard output", **FLAG)
    add("-v", "--verbose", help="print each note of what was rewritten, with its place", **FLAG)
    add("-q", "--quiet", help="print only the results of the workflows", **FLAG)


def rc_words(file: Path) -> list[str]:
    """The words of a file with one option a line."""
    words: list[str] = []
    for number, line in enumerate(read_text(file, "").splitlines() if file.is_file() else [], 1):
        if line.strip().startswith("-"):
            words += line.strip().split(None, 1)
        elif line.strip() and not line.strip().startswith("#"):
            raise Problem(f"{file}:{number}: an option was expected, such as --workers 4")
    return words


def repository_words(file: Path) -> list[str]:
    """The words of the file of a repository, which holds options that are harmless to its reader; every other
    is refused by its line."""
    words: list[str] = []
    if not os.path.lexists(file):
        return words
    try:
        text = read_inside(file.parent, file, MOST_RC).decode("utf-8-sig")
    except (OSError, UnicodeDecodeError) as error:
        raise Problem(
            f"{file}: this file cannot be read ({getattr(error, 'strerror', None) or 'it is not UTF-8'})"
        ) from None
    for number, line in enumerate(text.splitlines(), 1):
        if "\0" in line:
            raise Problem(f"{file}:{number}: this line has a zero byte: remove it")
        if line.strip() and not line.strip().startswith("#"):
            words += repository_line(f"{file}:{number}: ", line.strip(), file.parent)
    return words


def repository_line(place: str, line: str, top: Path) -> list[str]:
    """The words of one line of that file."""
    if not line.startswith("-"):
        raise Problem(f"{place}an option was expected, such as --workers 4")
    first, *rest = line.split(None, 1)
    name, equals, value = first.partition("=") if first.startswith("--") else (first[:2], "", first[2:])
    given = [value] if equals or value else rest
    if name not in IN_REPOSITORY:
        raise Problem(f"{place}{LONG.get(name, name)} cannot be in a file of the repository, whose author would decide it for its reader: "
                      f"write it on the command line or into ~/.config/actrun/{RC_NAME}")
    if (
        name in FLAGS_IN_REPOSITORY
        and (equals or rest)
        or name not in FLAGS_IN_REPOSITORY
        and (len(given) != 1 or (equals or value) and rest)
    ):
        raise Problem(f"{place}write one option per line, such as --workers 4 or --lenient")
    if name == "--env" and "=" not in given[0]:
        raise Problem(f"{place}--env {given[0]}: a value has to be given there, as --env {given[0]}=VALUE")
    if name == "--stub":
        given = [stub_inside(place, given[0], top)]
    return [name] if name in FLAGS_IN_REPOSITORY else [name if name.startswith("--") else "--job", given[0]] \
        if not given[0].startswith("-") else [f"{name if name.startswith('--') else '--job'}={given[0]}"]


def stub_inside(place: str, text: str, top: Path) -> str:
    """The value of a --stub whose program is in the repository, and is started from its copy."""
    action, program = stub(top, text)
    try:
        parts = parts_inside(top, program)[1] if "/" in program else ()
    except OSError:
        parts = ()
    if not parts:
        raise Problem(f"{place}--stub {text}: only a program of the repository can be named there, as --stub {action}=./PROGRAM")
    return f"{action}={IN_COPY}{'/'.join(parts)}"


def complete(
    words: list[str], here: Path, top: Path, before: Sequence[tuple[str, list[str]]] = ()
) -> argparse.Namespace:
    """The options of the command line over those of the files, with secrets, variables and the like as maps.
    `before` are command lines of earlier executions, with their folders."""
    user = Path(os.environ.get("XDG_CONFIG_HOME") or Path.home() / ".config") / "actrun" / RC_NAME
    own = top / RC_NAME
    options = parser(user.parent, f"{user}: ").parse_args(rc_words(user))
    options = parser(top, f"{own}: ").parse_args(repository_words(own), options)
    for folder, line in (*((Path(folder), line) for folder, line in before), (here, words)):
        event = options.event
        options = parser(folder).parse_args(line, options)
        options.event = options.event or event
    if options.in_place and options.workspace == "checkout":
        raise Problem("--workspace checkout: with --in-place the workspace is the working tree: leave one of the two out")
    # (without those of the files, which may be for other workflows)
    options.line = parser(here).parse_args(words)
    for name in OF_LINE:
        setattr(options, name, getattr(options.line, name))
    if (options.from_step or options.resume) and (options.no_sandbox or options.in_place):
        raise Problem("--from and --resume need a sandbox and a copy: leave --no-sandbox and --in-place out")
    if options.watch and (options.no_sandbox or options.in_place or options.keep):
        name = "--keep" if options.keep else "--no-sandbox and --in-place"
        raise Problem(
            f"--watch: each execution takes the folder of the one before it, in a sandbox: leave {name} out"
        )
    if options.snapshots and (options.no_snapshots or options.no_sandbox or options.in_place):
        raise Problem("--snapshots: none are kept with --no-snapshots, --no-sandbox or --in-place: leave one of the two out")
    for option in ("var", "input", "secret", "env"):
        for name, value in getattr(options, option):
            if not re.fullmatch(r"[^\s\"']+", name):
                raise Problem(f"--{option} {name}: a name without blanks and quotes was expected, as --{option} NAME=VALUE")
            if value is None and option in ("var", "input"):
                raise Problem(f"--{option} {name}: write --{option} {name}=VALUE")
    options.secrets = {
        **named_values(options.secret_file, "--secret-file"),
        **{name: secret(name, value) for name, value in options.secret},
    }
    options.vars = {**named_values(options.var_file, "--var-file"), **dict(options.var)}
    options.inputs = {**named_values(options.input_file, "--input-file"), **dict(options.input)}
    options.variables = {**named_values(options.env_file, "--env-file"), **{
        name: os.environ.get(name, "") if value is None else value for name, value in options.env}}
    options.matrices = dict(options.matrix)
    options.named_stubs = {**named_stubs(options.stubs), **dict(options.stub)}
    options.log_limit = step_log.USUAL if options.log_limit is None else options.log_limit
    # the legs of --in-place share one tree
    options.workers = options.workers or (1 if options.in_place else min(MOST_WORKERS, os.cpu_count() or 1))
    return options


@functools.lru_cache(maxsize=None)  # (--watch asks once)
def secret(name: str, value: str | None) -> str:
    """The secret's value: the given one, that of the environment, or what the person types."""
    value = os.environ.get(name) if value is None else value
    if value is None and not sys.stdin.isatty():
        raise Problem(
            f"--secret {name}: there is no such variable in the environment and no terminal to ask at: "
            f"write {name}=VALUE into a file and name that by --secret-file"
        )
    return getpass.getpass(f"secret {name}: ") if value is None else value


def named_stubs(file: Path | None) -> dict[str, str]:
    """The programs that the file of --stubs names, by action; those with a slash are looked for from its
    folder."""
    try:
        value = read_json(read_text(file, "--stubs")) if file else {}
    except ValueError as error:
        raise Problem(f"--stubs {file}: this is not JSON ({error})") from None
    if not isinstance(value, dict) or not all(isinstance(program, str) for program in value.values()):
        raise Problem(
            f'--stubs {file}: an object of strings was expected, such as {{"owner/action": "/usr/bin/true"}}'
        )
    return dict(
        parser(file.parent)
        .parse_args([f"--stub={action}={program}" for action, program in value.items()])
        .stub
        if file
        else []
    )


def read_text(file: Path, option: str) -> str:
    """The text of a file that an option names, without a byte order mark."""
    try:
        return file.read_text(encoding="utf-8-sig")
    except (OSError, UnicodeDecodeError) as error:
        why = error.strerror if isinstance(error, OSError) else "it is not UTF-8"
        raise Problem(
            f"{option} {file}: this file cannot be read ({why}): name another, or change its rights".strip()
        ) from None


def named_values(file: Path | None, option: str) -> dict[str, str]:
    """The pairs of a file of lines NAME=VALUE; values in quotes may have several lines, and `#` begins a
    comment."""
    result: dict[str, str] = {}
    text, at = (read_text(file, option) if file else ""), 0
    while at < len(text):
        found = PAIR.match(text, at)
        if not found:
            number = text.count("\n", 0, at) + 1
            raise Problem(f"{option} {file}:{number}: a line NAME=VALUE was expected; a quote that begins VALUE has to end it")
        name, double, single, plain = found.groups()
        if double is not None:
            double = re.sub(r"\\(.)", lambda match: ESCAPES.get(match[1], match[1]), double, flags=re.DOTALL)
        if name:
            result[name] = next(value for value in (double, single, plain) if value is not None)
        at = found.end()
    return result
