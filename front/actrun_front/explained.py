"""`actrun explain`: which values a run, job, leg or step had at a place of a record.

The prompts of `debug` and of breaks, and the page of `report`, show the same.
"""
from __future__ import annotations

import contextlib
import json
import os
import re
import sys
from dataclasses import dataclass, field
from pathlib import Path
from typing import Any, Callable, Iterator

from . import Problem
from .dap_logs import COMMAND, Masks, plan_masks, read_log, walk
from .dap_record import Board, Record, Walker
from .execute import program
from .expressions import (PIECE, EvaluationError, Program, condition_expression, has_expression, literal,
                          template_expression)
from .files import read_below
from .kept_flows import KeptFlows, kept_flows
from .late_hashes import with_calls
from .names import as_in_file, as_text
from .values import Frame, Part, Read, Surroundings
from .visible import unfailing, visible
from .whole import whole

USAGE = """usage: actrun explain [--json] RECORD|--last PLACE run R | job J | leg L | step L S
Explains which values a part had at a place: names that do not exist, its condition
by its parts, what it reads, its variables and where they come from, its script.
PLACE is the number of events before it, as `debug` shows it, or end.
  --json   print one JSON object
"""
OF_FRONT = re.compile(r"(ACTRUN|GITHUB|RUNNER)_\w+")  # variables that the front adds
KINDS = {"run": 1, "job": 1, "leg": 1, "step": 2}
# the script of a step with another shell or a limit of time, as `lower` writes it
WRAPPED = re.compile(r"""(?s)cat >"\$\{0%\.sh\}\.script" <<'(\w+)'\n(.*?\n)\1\n.*""")
ANNOTATION = re.compile(r"[ \t]*::[A-Za-z-]+ (.*?)::")
OF_JOB = "env of the job"
MOST_LINES = 400
MOST_PARTS = 40  # of a page
PAGE = ("annotations", "missing", "condition")
BRIEF = ("annotations", "missing", "condition", "script", "around")
VALUES = ("missing", "reads", "env", "contexts")
ALL = ("annotations", "missing", "condition", "reads", "env", "contexts", "script", "around")


@dataclass
class Explainer:
    """Answers which values the parts of a record had. `board_at` gives the board of a place."""
    record: Record
    masks: Masks
    board_at: Callable[[int], Board]
    flows: KeptFlows
    logs: Path | None = None
    untrue: frozenset[str] = frozenset()  # parts whose conditions did not hold, by their words
    boards: dict[int, Board] = field(default_factory=dict)

    def __post_init__(self) -> None:
        self.program = Program(self.record.program)
        self.texts = self.flows.texts_of_outputs()

    def board(self, place: int) -> Board:
        """The board of a place; the last few are kept."""
        if place not in self.boards:
            self.boards = {**dict(list(self.boards.items())[-3:]), place: self.board_at(place)}
        return self.boards[place]

    def around(self, place: int, frame: Frame) -> Surroundings:
        """What a frame sees after the events of a place."""
        return Surroundings(self.record, self.board(place), self.program, self.masks, frame, True, self.texts)

    def frame(self, words: list[str]) -> Frame:
        """The frame of `run R`, `job J`, `leg L` or `step L S`. Raises Problem."""
        kind, *given = words or [""]
        if KINDS.get(kind) != len(given) or not all(word.isdigit() and len(word) < 10 for word in given):
            raise Problem(f"{' '.join(words) or 'nothing'}: write run R, job J, leg L or step L S with their "
                          "numbers")
        numbers = [int(word) for word in given]
        counted = {"run": len(self.record.plan["runs"]), "job": len(self.record.jobs)}
        count, of = counted.get(kind, len(self.record.legs)), kind if kind in counted else "leg"
        if numbers[0] >= count:
            raise Problem(f"the record has no {' '.join(words)}: its last {of} is {count - 1}")
        if kind == "run":
            return Frame(numbers[0])
        legs = self.record.legs_of[numbers[0]] if kind == "job" else numbers[:1]
        if not legs:
            return Frame(self.record.jobs[numbers[0]][0])
        leg = self.record.legs[legs[0]]
        if kind == "step" and numbers[1] >= len(leg.job["steps"]):
            count = len(leg.job["steps"])
            raise Problem(f"the record has no {' '.join(words)}: leg {leg.number} has {count} steps, from 0")
        return Frame(leg.run, leg.number, numbers[1] if kind == "step" else None)

    def seen_at(self, place: int, frame: Frame, kind: str) -> int:
        """The place whose values a part saw: a step before it began, a job before it was judged."""
        if frame.step is not None and frame.leg is not None:
            begun = self.record.begins[frame.leg][frame.step:frame.step + 1]
            return begun[0] - 1 if begun and begun[0] <= place else place
        if kind == "job" and frame.leg is not None:
            judged = self.record.judged.get(self.record.legs[frame.leg].job["number"], place + 1)
            return judged - 1 if judged <= place else place
        return place

    def explain(self, place: int, words: list[str], sections: tuple[str, ...] = ALL) -> dict[str, Any]:
        """The answer about a part at a place, with all secrets hidden; of `sections` alone. Raises
        Problem."""
        frame, kind = self.frame(words), words[0]
        seen = self.seen_at(place, frame, kind)
        around = self.around(seen, frame)
        makers: dict[str, Callable[[], Any]] = {
            "annotations": lambda: self.annotations(frame, place),
            "condition": lambda: self.parts(around, kind, False if " ".join(words) in self.untrue else None),
            "reads": lambda: [*self.reads(around, kind), *self.outputs(place, frame)],
            "env": lambda: self.env(around), "contexts": lambda: self.contexts(around, frame),
            "script": lambda: self.script(around, frame)}
        wanted = {"reads" if name == "missing" else name for name in sections}
        made = {name: make() for name, make in makers.items() if name in wanted}
        if "reads" in made:
            made["missing"] = [shown_read(read) for read in made["reads"] if any(read.faults())]
            made["reads"] = [shown_read(read) for read in made["reads"]]
        found = {"part": " ".join(words), "place": place, "seen": seen, **self.title(place, frame, kind),
                 **self.written(frame), **made}
        hidden: dict[str, Any] = self.masks.hide(found)
        return hidden

    def env(self, around: Surroundings) -> list[dict[str, str]]:
        """The variables, with where they come from."""
        shown = {name: one for name, one in around.variables().items() if not name.startswith("ACTRUN_")}
        return [{"name": name, "value": one.text, "from": self.origin(around.frame, name, one.origin)}
                for name, one in shown.items()]

    def origin(self, frame: Frame, name: str, origin: str) -> str:
        """Where a variable comes from, as it is written."""
        if OF_FRONT.fullmatch(name):
            return "actrun"
        job = self.record.legs[frame.leg].job["id"] if frame.leg is not None else ""
        if origin.startswith(OF_JOB) and self.flows.is_of_workflow(frame.run, job, name):
            return f"env of the workflow{origin[len(OF_JOB):]}"
        return origin

    # What is written in the workflow

    def condition(self, frame: Frame, kind: str) -> str | None:
        """The condition of a job or step, as it is written where the front changed it."""
        if frame.leg is None:
            return None
        job = self.record.legs[frame.leg].job
        owner = job if kind == "job" or frame.step is None else job["steps"][frame.step]
        return None if owner["condition"] is None else as_in_file(owner["condition"])

    def parts(self, around: Surroundings, kind: str, held: bool | None) -> dict[str, Any] | None:
        """The condition of a job or a step by its parts; None of anything else. It may be known whether it
        held."""
        if kind not in ("job", "step") or around.frame.leg is None:
            return None
        frame, found = around.frame, shown_part(around.condition(self.condition(around.frame, kind), held))
        written = self.flows.condition(around.leg.number, frame.step) if frame.step is not None else ""
        return {**found, "written": written} if written else found

    def title(self, place: int, frame: Frame, kind: str) -> dict[str, str]:
        """Name and state of a part."""
        board, name = self.board(place), self.record.name
        if frame.leg is None:
            return {"name": name("run", frame.run), "state": str(board.runs[frame.run])}
        stand, number = board.legs[frame.leg], self.record.legs[frame.leg].job["number"]
        if kind == "job":
            result = self.around(place, frame).result(number)
            return {"name": name("job", number), "state": result or str(board.jobs[number])}
        if frame.step is None:
            return {"name": name("leg", frame.leg), "state": str(stand)}
        state = "running" if self.record.begun(frame.leg, place) > frame.step else "not begun"
        state = str(stand.steps[frame.step]) if frame.step < len(stand.steps) else state
        return {"name": f"{name('step', frame.leg, frame.step)} of {name('leg', frame.leg)}", "state": state}

    def written(self, frame: Frame) -> dict[str, Any]:
        """File and line of a part, the text around the line, and whether the file was changed since."""
        flows = self.flows
        file, line = "".join(flows.runs[frame.run:frame.run + 1]), 1
        if frame.leg is not None:
            file, line = flows.place(frame.leg, frame.step)
        around = flows.around(file, line)
        return {"file": file, "line": line if file else 0, "around": [list(one) for one in around],
                "changed": bool(around) and flows.changed(file)}

    def annotations(self, frame: Frame, place: int) -> list[dict[str, Any]]:
        """The errors, warnings and notices that a step reported with `::error::` and the like."""
        if frame.leg is None or frame.step is None or self.logs is None \
                or not self.record.answered(frame.leg, frame.step, place):
            return []
        return annotations_of(self.logs, frame.leg, frame.step, Masks(self.masks.texts))

    # What is read

    def reads(self, around: Surroundings, kind: str) -> list[Read]:
        """What the texts of a part read, each name once; of `env` around it only names that do not exist."""
        frame = around.frame
        own, *outer = around.envs() if kind != "job" else [{}]
        condition = self.condition(frame, kind) if kind in ("job", "step") else None
        expressions = [condition_expression(condition) or ""] if condition else []
        if frame.step is not None:
            work = around.job["steps"][frame.step]["work"]
            texts = [work.get("run"), work.get("dir"), *(work.get("with") or {}).values()]
            expressions += [one for text in texts for one in PIECE.findall(str(text or ""))]
        found = around.reads(expressions + expressions_of([own]))
        more = around.reads(expressions_of(outer))
        return found + [read for read in more if any(read.faults()) and read not in found]

    def outputs(self, place: int, frame: Frame) -> list[Read]:
        """What the outputs of a job that has ended read, in the last leg."""
        if frame.leg is None or frame.step is not None:
            return []
        board, job = self.board(place), self.record.legs[frame.leg].job
        ended = [leg for leg in board.ends if leg in self.record.legs_of[job["number"]]]
        if not ended:
            return []
        around, found = self.around(place, Frame(frame.run, ended[-1])).of_leg(ended[-1]), []
        for name, text in job["outputs"].items():
            written = self.texts.get((frame.run, job["id"], name), str(text))
            value = board.legs[ended[-1]].outputs.get(name, "")
            said = f"output `{name}`: {written}{self.flows.output(frame.run, job['id'], name)}"
            reads = around.reads(PIECE.findall(written))
            said += "" if value else around.withheld(written)
            found.append(Read(f"jobs.{job['id']}.outputs.{name}", value, said, reads))
        return found

    def contexts(self, around: Surroundings, frame: Frame) -> dict[str, Any]:
        """The contexts of a part that differ by jobs and steps, and the inputs of an action."""
        contexts = around.contexts()
        found = {name: contexts[name] for name in ("matrix", "needs", "steps") if contexts.get(name)}
        if frame.step is not None:
            given = (around.job["steps"][frame.step]["work"].get("with") or {}).items()
            filled = {name: self.filled(around, str(value)) for name, value in given}
            found.update({"with": filled} if filled else {})
        return found

    def filled(self, around: Surroundings, text: str) -> str:
        """A text with the values of its expressions; why it has none where one fails."""
        if not has_expression(text):
            return text
        try:
            return as_text(around.evaluate(template_expression(text))[0])
        except EvaluationError as fault:
            return f"(no value: {fault})"

    def script(self, around: Surroundings, frame: Frame) -> dict[str, str] | None:
        """The script of a step as it is written and as it was executed."""
        text = around.job["steps"][frame.step]["work"].get("run") if frame.step is not None else None
        if text is None:
            return None
        wrapped = WRAPPED.fullmatch(text)
        own = wrapped[2] if wrapped else text
        return {"template": with_calls(as_in_file(own), around.job["steps"]),
                "executed": self.filled(around, own)}


def expressions_of(envs: list[dict[str, Any]]) -> list[str]:
    """The expressions in `env` of the user."""
    texts = (str(value) for env in envs for name, value in env.items() if not OF_FRONT.fullmatch(name))
    return [one for text in texts for one in PIECE.findall(text)]


def annotations_of(logs: Path, leg: int, step: int, masks: Masks) -> list[dict[str, Any]]:
    """The annotations of a step in the folder of the logs, as they are shown."""
    for before in range(step):
        read_log(logs / f"step-{leg}-{before}.log", masks)
    try:
        lines = read_below(logs, f"step-{leg}-{step}.log").decode("utf-8").split("\n")
    except (OSError, UnicodeDecodeError):
        return []
    found = []
    for line, (shown, mask) in zip(lines, walk(iter(lines))):
        masks.add([mask] if mask else [])
        command = COMMAND.fullmatch(line)
        kind = command[1].lower() if command and shown is not None and shown != line else ""
        if kind in ("error", "warning", "notice"):
            given = ANNOTATION.match(line)
            pairs = dict(pair.partition("=")[::2] for pair in (given[1] if given else "").split(","))
            known = {key.strip(): value.strip() for key, value in pairs.items()}
            found.append(masks.hide({"kind": kind, "file": known.get("file", ""),
                                     "line": known.get("line", ""),
                                     "text": str(shown).partition(": ")[2]}))
    return found


def shown_part(part: Part) -> dict[str, Any]:
    """A part of a condition as JSON has it."""
    value = {"value": part.value} if part.known else {"fault": part.fault} if part.fault else {}
    filled = {"filled": part.filled} if part.filled and part.filled != part.text else {}
    return {"text": part.text, **filled, **value,
            **({"parts": [shown_part(one) for one in part.parts]} if part.parts else {})}


def shown_read(read: Read) -> dict[str, Any]:
    """What is read as JSON has it."""
    return {"name": read.name, "value": read.value, **({"said": read.said} if read.said else {}),
            **({"inside": [shown_read(one) for one in read.inside]} if read.inside else {})}


# As text

def text_of(found: dict[str, Any], sections: tuple[str, ...] = ALL) -> Iterator[str]:
    """An answer as lines for a person: these sections, as far as there is something in them."""
    place = f"  [{found['file']}:{found['line']}]" if found["file"] else ""
    yield f"{found['name']}: {found['state']}{place}"
    makers: dict[str, Callable[[dict[str, Any]], Iterator[str]]] = {
        "annotations": annotation_lines, "missing": missing_lines, "condition": condition_lines,
        "reads": read_section,
        "env": env_lines, "contexts": context_lines, "script": script_lines, "around": around_lines}
    for section in sections:
        yield from makers[section](found)


def annotation_lines(found: dict[str, Any]) -> Iterator[str]:
    """The annotations of a step, with file and line first."""
    for one in found["annotations"]:
        place = ":".join(filter(None, (one["file"], one["line"])))
        yield f"  {one['kind']}: {place + ': ' if place else ''}{one['text']}"


def missing_lines(found: dict[str, Any]) -> Iterator[str]:
    """The names that do not exist, each below what reads it."""
    yield from ["names that do not exist:"] if found["missing"] else []
    for read in found["missing"]:
        yield from read_lines(read, "  ")


def read_lines(read: dict[str, Any], indent: str) -> Iterator[str]:
    """What is read, and below it what its value comes from."""
    said = f": {read['said']}" if read.get("said") else ""
    yield f"{indent}{read['name']} = {one_value(read['value'])}{said}"
    for one in read.get("inside", ()):
        yield from read_lines(one, indent + "  ")


def one_value(value: Any) -> str:
    """A value on one line."""
    text = literal(value) if isinstance(value, str) else json.dumps(value, ensure_ascii=False)
    return text.replace("\n", "\\n")


def condition_lines(found: dict[str, Any]) -> Iterator[str]:
    """A condition with its parts; nothing if there is only the default one, and it holds."""
    condition = found["condition"]
    if condition and (condition["text"] != "success()" or condition.get("value") is not True):
        yield f"condition, written as {condition['written']}:" if condition.get("written") else "condition:"
        yield from part_lines(condition, "  ")


def part_lines(part: dict[str, Any], indent: str) -> Iterator[str]:
    """A part of a condition: its text, that with values, its value."""
    known = f": it has no value: {part['fault']}" if "fault" in part else ": not evaluated"
    value = one_value(part["value"]) if "value" in part else ""
    known = f" \u2192 {value}" if value else known
    filled = f" \u2192 {part['filled']}" if part.get("filled", value) != value else ""
    yield f"{indent}{' '.join(part['text'].split())}{filled}{known}"
    for one in part.get("parts", ()):
        yield from part_lines(one, indent + "  ")


def read_section(found: dict[str, Any]) -> Iterator[str]:
    """All that is read."""
    shown = [read for read in found["reads"] if read not in found["missing"]]
    yield from ["reads:"] if shown else []
    for read in shown:
        yield from read_lines(read, "  ")


def env_lines(found: dict[str, Any]) -> Iterator[str]:
    """The variables, with where they come from; without those that `actrun` itself sets."""
    shown = [one for one in found["env"] if one["from"] != "actrun"]
    yield from ["env:"] if shown else []
    for one in shown:
        yield f"  {one['name']}={one['value']}    ({one['from']})".replace("\n", "\\n")


def context_lines(found: dict[str, Any]) -> Iterator[str]:
    """The contexts, each with its members."""
    for name, value in found["contexts"].items():
        yield f"{name}:"
        yield from member_lines(value, "  ")


def member_lines(value: dict[str, Any], indent: str) -> Iterator[str]:
    """The members of a map, those of inner maps below them."""
    for name, inner in value.items():
        if isinstance(inner, dict) and inner:
            yield f"{indent}{name}:"
            yield from member_lines(inner, indent + "  ")
        else:
            yield f"{indent}{name} = {one_value(inner)}"


def script_lines(found: dict[str, Any]) -> Iterator[str]:
    """The script as it was executed, below each line that differs as it is written."""
    script = found["script"]
    if script is None:
        return
    template, executed = (script[key].rstrip("\n").split("\n") for key in ("template", "executed"))
    differs, begun = template != executed, found["state"] not in ("not begun", "skipped")
    how = "as it was executed" if begun else "as it would be executed"
    yield f"script (- as it is written, + {how}):" if differs else "script:"
    if differs and len(template) != len(executed):
        rows = [*(("-", line) for line in template), *(("+", line) for line in executed)]
    else:
        rows = [row for one, other in zip(template, executed)
                for row in ([(" ", one)] if one == other else [("-", one), ("+", other)])]
    yield from (f"  {sign} {line}" for sign, line in rows[:MOST_LINES])
    yield from [f"  ({len(rows) - MOST_LINES} lines more)"] if len(rows) > MOST_LINES else []


def around_lines(found: dict[str, Any]) -> Iterator[str]:
    """The text of the workflow around the line."""
    if found["around"]:
        changed = ", as it was: the file has changed since" if found["changed"] else ""
        yield f"{found['file']}{changed}:"
        for number, text in found["around"]:
            yield f"  {'>' if number == found['line'] else ' '} {number:>4}  {text}"


# For the page of a record

def brief(explainer: Explainer, place: int) -> dict[str, str]:
    """What the page says of jobs and steps that did not succeed at a place, by the words by which `why` is
    asked: annotations, names that do not exist, and the parts of conditions that did not hold."""
    board = explainer.board(place)
    states = {f"job {job}": row.state.partition(" ")[2] for job, row in enumerate(board.jobs)}
    states.update({f"step {leg} {step}": done.outcome for leg, row in enumerate(board.legs)
                   for step, done in enumerate(row.steps)})
    wanted = sorted((words for words, state in states.items() if state in ("failure", "skipped")),
                    key=lambda words: states[words])
    found: dict[str, str] = {}
    for explainer.program.collects in (True, False):
        explainer.program.ask_together(explainer.program.noted)
        for words in wanted[:MOST_PARTS]:
            parts, skipped = words.split(), states[words] == "skipped"
            if skipped and not explainer.condition(explainer.frame(parts), parts[0]):
                continue
            sections = PAGE if skipped else PAGE[:2]
            sections = sections[1:] if explainer.program.collects else sections  # (the logs are read once)
            with contextlib.suppress(Problem):  # (it saw what is before the page)
                lines = list(text_of(explainer.explain(place, parts, sections), sections))[1:]
                found.update({words: "\n".join(lines)} if lines else {})
    return found


# The command

def logs_of(record: Path) -> Path | None:
    """The folder of the logs of a record of `try` or of `run`; None if there is none."""
    folders = [record.parent.parent / "play"] if record.parent.name == "private" else []
    found = (folder for folder in (*folders, record.parent) if next(folder.glob("step-*-*.log"), None))
    return next(found, None)


def explainer(walker: Walker, record: Record, path: Path) -> Explainer:
    """What answers questions about a record that a walker walks."""
    return Explainer(record, plan_masks(record.plan), walker.board_at, kept_flows(path, record.legs),
                     logs_of(path))


def main(arguments: list[str]) -> int:
    """The exit status of `actrun explain ARGUMENTS`."""
    if arguments[:1] in (["-h"], ["--help"]):
        print(USAGE, end="")
        return 0
    words = [word for word in arguments if word != "--json"]
    if len(words) < 4 or any(word.startswith("-") for word in words):
        print("actrun: words\n" + USAGE, end="", file=sys.stderr)
        return 2
    path = Path(words[0])
    with whole(path) as readable:
        walker = Walker(program(), readable)
        try:
            found = answer(walker, Record(program(), readable.read_bytes()), path, words[1:])
        finally:
            walker.close()
    unfailing(sys.stdout, "backslashreplace")
    lines = [json.dumps(found)] if "--json" in arguments else map(visible, text_of(found))
    try:
        print("\n".join(lines))
        sys.stdout.flush()
    except BrokenPipeError:
        os.dup2(os.open(os.devnull, os.O_WRONLY), sys.stdout.fileno())
    return 0


def answer(walker: Walker, record: Record, path: Path, words: list[str]) -> dict[str, Any]:
    """The answer to PLACE and part. Raises Problem."""
    place = int(words[0]) if words[0].isdigit() and len(words[0]) < 12 else -1
    place = walker.last if words[0] == "end" else place
    if not 0 <= place <= walker.last:
        raise Problem(f"{words[0]}: the record has the places 0 to {walker.last}, or write end")
    return explainer(walker, record, path).explain(place, words[1:])
