"""A person's words after the program's error line: the place, the sentence, the remedy.

The program's line has an error's name alone (`actrun: plan Cycle`). Of a workflow `actrun lint` has place and
sentence, and the line of the YAML file stands before it where that is known. What lint does not see is here:
arguments, files, records, and choices.
"""
from __future__ import annotations

import difflib
import json
import os
import pathlib
import re
import shlex
import subprocess
import sys
from typing import Dict, Iterable, Iterator, Tuple, Union

from .visible import unfailing, visible
from .yaml_reader import read_document, text_of

LEAST_SPACE = 1 << 20
Lines = Dict[Tuple[Union[str, int], ...], int]  # of each place in a JSON file
Origins = Dict[str, Tuple[str, Lines]]  # JSON file -> YAML file, and its lines

SENTENCES = {
    "memory": "the memory of this machine or of its limits (ulimit -v) is used up; nothing was changed",
    "load NotJson": "its first line is not JSON: `actrun plan FLOW.. > FILE` makes a plan, `actrun run --record FILE PLAN` a record",
    "load Version": "its first line is an object whose `version` is missing or neither 1 nor 2: is it a workflow? `actrun plan` makes a plan of it",
    "load NotPlan": "its first line has a version but breaks a rule of plans: make it again with `actrun plan`",
    "line NotEntry": "the line is no entry: it was cut short or edited; the lines before it are whole",
    "line NoSuch": "the entry names a run, job or leg that the plan does not have: plan and entries belong to different runs",
    "line WrongState": "the entry cannot follow the lines before it: a line is missing, doubled or out of order",
    "line OtherWorker": "the leg runs with another worker than the entry names",
    "line NeedsOpen": "what the entry ends or judges still waits for a job that has not ended",
    "line SlotsFull": "the job has as many legs under way as its `max-parallel` allows",
    "line Stopping": "the run or leg was told to stop, so it cannot go on",
    "line NotStopping": "the run or leg was not told to stop, so it cannot be dropped or closed",
    "line StepsLeft": "the leg has steps left, so it cannot finish",
    "line BadAnswer": "the answer's code, outputs or variables are out of bounds: a code of 0 to 255, at most 256 pairs, values to 65,536 bytes",
    "plan NoWorkflow": "no workflow is started by that event",
    "plan UnknownJob": "no workflow has that job: case counts, and ids are not names",
    "plan TooMany": "more than 64 workflows, 256 jobs, 256 steps of a job or 4,096 legs: plan fewer files at once, or choose with --job",
    "expr UnclosedText": "a single quote is not closed",
    "expr BadNumber": "expressions support integers only: write another number as a string, in single quotes",
    "expr BadChar": "unexpected character: strings take single quotes, and the equality operator is `==`",
    "expr Unexpected": "another token belongs there, or the expression ends too early",
    "expr UnknownName": "this is no context, function or literal: strings take single quotes",
    "expr UnknownFunction": "there is no such function; `hashFiles` is known to `actrun try` and `from-yaml --lower`",
    "expr ArgumentCount": "the function takes a different number of arguments",
    "expr TooDeep": "the expression nests deeper than 50",
    "expr TooLong": "the expression has more than 20,000 bytes",
    "value NotWhole": "a number has a fraction or an exponent, or is out of range: compare it as a string",
    "value NoIdentity": "lists and mappings cannot be compared by `==`: compare their parts, or toJSON of them",
    "value BadFormat": "a brace of `format` fits no argument: write {0}, {1} .., and {{ or }} for a brace itself",
    "value BadJson": "the argument of `fromJSON` is not JSON",
    "value TooLarge": "a string has more than 1,048,576 bytes",
}


def remedies(errors: Iterable[str]) -> Iterator[str]:
    """A line for each of these errors of values, in the order in which they came."""
    yield from (
        f"{name}: {SENTENCES[f'value {name}']}"
        for name in dict.fromkeys(errors)
        if f"value {name}" in SENTENCES
    )


def near(word: str, known: Iterable[str]) -> str:
    """The question whether a word that is alike was meant, or nothing."""
    match = difflib.get_close_matches(word, list(known), 1)
    return f"; did you mean {match[0]}?" if match else ""


def usages() -> dict[str, str]:
    """The usage of each command, as docs/commands.txt has it."""
    top = pathlib.Path(os.environ.get("ACTRUN_TOP") or pathlib.Path(__file__).resolve().parents[2])
    file = top / "docs" / "commands.txt"
    texts = file.read_text(encoding="utf-8").strip().split("\n\n") if file.is_file() else []
    return {text.split()[2]: text for text in texts}


def take_apart(command: str, arguments: list[str]) -> tuple[dict[str, str], list[str], list[str]]:
    """The options and operands of a command by its usage, and what is wrong with them."""
    known = dict(re.findall(r"(--\w+)( [A-Z]+)?", usages().get(command, "").partition("\n")[0]))
    options: dict[str, str] = {}
    operands: list[str] = []
    wrong: list[str] = []
    rest = list(arguments)
    while rest:
        word = rest.pop(0)
        name, equals, value = word.partition("=")
        if word == "--":
            operands, rest = operands + rest, []
        elif not word.startswith("-") or word == "-" or command == "eval" and not rest:
            operands.append(word)
        elif name not in known:
            wrong.append(f"{command} has no option {name}{near(name, known)}")
        elif equals and not known[name]:
            wrong.append(f"{name} takes no value")
        elif name in options or known[name] and not equals and not rest:
            wrong.append(f"{name} is given twice" if name in options else f"a value is missing after {name}")
        else:
            options[name] = value if equals or not known[name] else rest.pop(0)
    return options, operands, [*wrong, *misfits(command, options, operands)]


def misfits(command: str, options: dict[str, str], operands: list[str]) -> Iterator[str]:
    """What is wrong with the number of operands, with two options together, and with a number."""
    if command == "table":
        yield from (
            f"table reads standard input: actrun table < {shlex.quote(operand)}" for operand in operands[:1]
        )
    elif not operands:
        yield f"{command} needs {'an expression' if command == 'eval' else 'a file'}"
    elif command == "eval" and operands[1:]:
        yield "eval takes one expression: put it in quotes"
    elif command in ("run", "replay", "graph", "timeline", "debug") and operands[1:]:
        yield f"{command} takes one file: {operands[1]} is too many"
    elif (
        command == "why"
        and operands[1:]
        and not re.fullmatch(r"(run|job|leg) \d+|step \d+ \d+", " ".join(operands[1:]))
    ):
        yield f"{' '.join(operands[1:])} is not run R, job J, leg L or step L S with their numbers"
    if command == "why" and "--each" in options and ("--json" not in options or operands[1:]):
        record = shlex.quote(operands[0]) if operands else "RECORD"
        yield f"--each prints every part as JSON: actrun why --json --each {record}"
    for one, other in (("--event", "--job"), ("--settled", "--changes")):
        if one in options and other in options:
            yield f"{one} and {other} are not taken together"
    if options.get("--workers", "1") not in map(str, range(1, 17)):
        yield f"--workers takes 1 to 16, not {options['--workers']}"


def unreadable(file: str) -> str | None:
    """Why a file cannot be read, with the remedy; None if it can."""
    place = pathlib.Path(file)
    if not file:
        return "the name of a file is empty: write one"
    if place.is_dir():
        return f"{file} is a directory: name a file in it"
    if place.exists():
        return None if os.access(file, os.R_OK) else f"{file} may not be read: chmod +r it"
    if not place.parent.is_dir():
        return f"the directory {place.parent} of {place.name} does not exist"
    return f"{file} does not exist{near(file, map(str, place.parent.iterdir()))}"


def kept_part(record: str) -> str:
    """How far FILE.part has a record that could not be written; nothing if it has none of this run."""
    part = f"{record}.part"
    if not record or not os.path.isfile(part) or not os.access(part, os.W_OK):
        return ""
    done = subprocess.run(
        [os.environ.get("ACTRUN_PROGRAM") or "false", "replay", "--", part], capture_output=True, check=False
    )
    if done.stdout and done.returncode in (0, 1):
        return f"{part} has the whole record: mv {shlex.quote(part)} NAME keeps it"
    with open(part, "rb") as file:
        last = sum(1 for _ in file)
    return f"{part} ends at line {last}, before all runs are closed: actrun why {shlex.quote(part)} explains it so far" if done.returncode == 4 else ""


def unwritable(record: str) -> str | None:
    """Why no file can be written where a record should be, with the remedy; None if one can."""
    folder = os.path.dirname(record) or "."
    if os.path.isdir(record):
        return f"the record {record} is a directory: name a file in it"
    if not os.path.isdir(folder):
        return f"the directory {folder} of the record does not exist: mkdir -p it"
    return (
        None
        if os.access(folder, os.W_OK)
        else f"the directory {folder} of the record may not be written: chmod +w it, or name another"
    )


def explain_io(files: list[str], work: str, record: str) -> str:
    """Which file or folder cannot be opened, in the order in which a command opens them; else that a stream
    failed."""
    reason = next(filter(None, map(unreadable, files)), None)
    if reason or not work:
        return reason or "--work '' names no directory: write one"
    reason = unwritable(record) if record else None
    for folder in filter(os.path.isdir, (work, os.path.dirname(record) or ".")):
        space = os.statvfs(folder)
        if not reason and space.f_blocks and space.f_bavail * space.f_frsize < LEAST_SPACE:
            reason = (
                f"{folder}: No space left on device: make room there, or name another place, and start again"
            )
    reason = reason or "all files that are named can be opened, so a read or a write failed: is the disk full, or standard output closed?"
    return "\n".join(filter(None, (reason, kept_part(record))))


def origin_of(file: str) -> tuple[str, Lines]:
    """The YAML file from which `from-yaml` made a JSON file, and the line of each place; else the file
    itself."""
    for yaml in (pathlib.Path(file).with_suffix(end) for end in (".yml", ".yaml")):
        if yaml.is_file() and file.endswith(".json"):
            document = read_document(yaml.read_bytes())
            if text_of(document.value).encode() == pathlib.Path(file).read_bytes().strip():
                return str(yaml), document.lines
    return file, {}


def is_plan(file: str) -> bool:
    """Whether the first line of a file is a plan."""
    try:
        with open(file, "rb") as it:
            first = json.loads(it.readline())
        return isinstance(first, dict) and "runs" in first and "version" in first
    except (OSError, ValueError, RecursionError):
        return False


def lint(files: list[str], error: str, origins: Origins) -> str:
    """What the program's `lint` says of an error in files, or of any for an empty one, with its place in
    YAML."""
    found = []
    for file in filter(os.path.isfile, files):
        if is_plan(file):
            found.append(f"{file} is a plan or a record, and no workflow: actrun table < {shlex.quote(file)} shows what it has")
            continue
        done = subprocess.run(
            [os.environ.get("ACTRUN_PROGRAM") or "false", "lint", "--", file],
            capture_output=True,
            text=True,
            errors="replace",
            check=False,
        )
        name, lines = origins.get(file) or origin_of(file)
        numbers = {".".join(map(str, path)): f":{line}" for path, line in lines.items()}
        for line in done.stdout.splitlines():
            match = re.match(f"(.*?): refused, {re.escape(error) or '[^:]*'}: ", line[len(file) + 2:])
            refused, place = match is not None, match[1] if match else ""
            sentence = line[len(file) + 2 + match.end():] if match else ""
            outer = [place[:end] for end in range(len(place), 0, -1) if place[end:end + 1] in ("", ".")]
            if refused:
                found.append(f"{name}{next((numbers[part] for part in outer if part in numbers), '')}: {place}: {sentence}")
    return "\n".join(found)


def explain_choice(error: str, asked: str, files: list[str]) -> str:
    """That no workflow in JSON has the event or the job that is asked for, and which there are."""
    there: list[str] = []
    for file in filter(os.path.isfile, files):
        try:
            found = json.loads(pathlib.Path(file).read_text(encoding="utf-8"))[
                "on" if error == "NoWorkflow" else "jobs"
            ]
            there += [found] if isinstance(found, str) else found
        except (OSError, ValueError, RecursionError, LookupError, TypeError):
            continue
    names = ", ".join(dict.fromkeys(map(str, there)))
    return SENTENCES[f"plan {error}"] + (
        f": {asked}{near(asked, map(str, there))}\nthere are: {names}" if there else ""
    )


def json_fault(file: str) -> str:
    """The place in a file from which on it is no JSON; nothing if that is not known."""
    try:
        json.loads(pathlib.Path(file).read_text(encoding="utf-8")) if os.path.isfile(file) else None
    except json.JSONDecodeError as fault:
        return f":{fault.lineno}:{fault.colno}"
    except (OSError, ValueError, RecursionError):
        pass
    return ""


def explain(line: str, command: str, arguments: list[str], origins: Origins | None = None) -> str | None:
    """What a person gets after the program's error line, or None where the line says it all."""
    match = re.fullmatch(r"actrun: (\w+)(?: (.*))?", line.rstrip("\n"), re.DOTALL)
    if match is None:
        return None
    kind, rest = match[1], match[2] or ""
    options, operands, wrong = take_apart(command, arguments)
    operand, named = "".join(operands[:1]), [
        options[name] for name in ("--contexts", "--stubs") if name in options
    ]
    if kind == "words":
        known = [*(name for name in usages() if name[0] != "-"), "try", "from-yaml", "dap"]
        more = [*wrong[:1], usages().get(command) or f"actrun {command} --help shows its arguments"]
        return "\n".join(
            more
            if command in known
            else [f"there is no command {command}{near(command, known)}", "actrun --help shows all commands"]
        )
    if kind == "io":
        read = operands[:{"eval": 0, "table": 0, "plan": None, "list": None, "lint": None}.get(command, 1)]
        return explain_io([*named, *read], options.get("--work", "."), options.get("--record", ""))
    if kind in ("pool", "why"):
        return f"--workers takes 1 to 16, not {options.get('--workers', '')}" if kind == "pool" else \
            f"the record has no {' '.join(operands[1:])}: actrun table < {shlex.quote(operand)} shows what it has"
    if rest in ("NoWorkflow", "UnknownJob"):
        return explain_choice(rest, options.get("--event", "") or options.get("--job", ""), operands)
    file, _, error = rest.rpartition(" ") if kind == "flow" else ("", "", rest)
    if file in named:
        return f"{file}{json_fault(file)}: this is not a JSON object of the kind that the option takes: strings, integers, lists and objects"
    if error == "NotJson" and file.endswith((".yml", ".yaml")):
        made = os.path.splitext(file)[0] + ".json"
        return f"{file} is YAML: actrun from-yaml {shlex.quote(file)} writes {made}, which this command reads; actrun try needs none"
    if kind == "flow" or kind == "plan" and rest != "TooMany":
        return (
            lint([file] if file else operands, error, origins or {})
            or f"actrun lint {file or 'FILE'} names the place, and what to write there"
        )
    number, name, at = re.fullmatch(r"(\d*) ?(\w*)(?: at (\d+))?.*", rest, re.DOTALL).groups()  # type: ignore[union-attr]
    sentence = SENTENCES.get(f"{kind} {name}".strip())
    if sentence and kind in ("load", "line"):
        keeps = (
            f": head -n {int(number) - 1} {shlex.quote(operand) if operand else 'FILE'} > RECORD"
            if name == "NotEntry"
            else ""
        )
        return f"{operand or 'standard input'}{':' * bool(number)}{number}: {sentence}{keeps}"
    if at and operand.encode(errors="replace")[int(at):].startswith(b"${{"):
        sentence = "the expression is written without ${{ and }}"
    marked = (
        at
        and operand.isprintable()
        and f"\n  {operand}\n  {' ' * len(operand.encode()[:int(at)].decode(errors='ignore'))}^"
    )
    return f"{sentence}{marked or ''}" if sentence else None


def main(arguments: list[str]) -> int:
    """`explain STATUS STDERR_FILE COMMAND ARG..`: explains the last error line in a file, on standard
    error."""
    text = pathlib.Path(arguments[1]).read_text(encoding="utf-8", errors="surrogateescape")
    start = max(text.rfind("\nactrun: ") + 1, 0)
    if text.startswith("actrun: ", start):
        show(text[start:], arguments[2], arguments[3:])
    return 0


def show(line: str, command: str, arguments: list[str]) -> None:
    """Explains an error line, on standard error."""
    words = explain(line, command, arguments)
    if words:
        unfailing(sys.stderr, "backslashreplace")
        print("  " + visible(words).replace("\n", "\n  "), file=sys.stderr)
