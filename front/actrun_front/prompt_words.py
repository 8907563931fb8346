"""What the prompts of `debug` and of a break have in common: words, completion of names, and how values are
printed."""
from __future__ import annotations

import re
from typing import Any, Callable, Iterable, Iterator

from . import Problem
from .dap_logs import Masks, shown_logs
from .execute import lines_of
from .explain import near
from .explained import Explainer, one_value
from .expressions import EvaluationError, condition_expression
from .live_places import places_of
from .tree import make_root
from .values import Frame, Surroundings

EXPLAIN = {
    "explain [PART]": "say why the step here is as it is: names that do not exist, its condition, its script",
    "values [PART]": "print which values the step sees; PART as in `values job 0` or `values build`",
    "print EXPR (p), env": "print the value of an expression or a variable; all variables",
    "why [PART]": "print why things are so here, as `actrun why` does"}
CONTEXTS = ("github", "env", "vars", "job", "steps", "secrets", "strategy", "matrix", "needs", "inputs",
            "runner")
PARTS = ("run", "job", "leg", "step")
LEAST = 3        # letters by which a command is known, where it alone begins with them
MOST_FOUND = 50  # lines of logs


def as_table(rows: dict[str, Any]) -> str:
    """Commands and what they do."""
    width = max(map(len, rows))
    return "".join(f"  {name.ljust(width)}  {text}\n" for name, text in rows.items())


def full_name(word: str, known: Iterable[str]) -> str:
    """A command by its first letters; the word itself if none or several begin so."""
    found = {name for name in known if name.startswith(word)} if len(word) >= LEAST else set()
    return found.pop() if len(found) == 1 and word not in found else word


def help_lines(rows: dict[str, str], word: str) -> str:
    """Commands and what they do: all, or those that a word names."""
    asked = {key: text for key, text in rows.items() if word in re.findall(r"[\w/-]+", key)}
    if word and not asked:
        return f"{word}: there is no such command; `help` lists them\n"
    return as_table(asked if word else rows)


def stack_lines(explainer: Explainer, place: int, frame: Frame) -> Iterator[str]:
    """The step of a frame, its leg, its job and its run, each with its state."""
    record = explainer.record
    numbers = [] if frame.leg is None else [["leg", str(frame.leg)],
                                            ["job", str(record.legs[frame.leg].job["number"])]]
    steps = [] if frame.step is None else [["step", str(frame.leg), str(frame.step)]]
    for depth, words in enumerate([*steps, *numbers, ["run", str(frame.run)]]):
        kind, inner = words[0], explainer.frame(words)
        title, written = explainer.title(place, inner, kind), explainer.written(inner)
        where = f"  [{written['file']}:{written['line']}]" if written["file"] and kind != "leg" else ""
        yield f"  #{depth} {title['name']}: {title['state']}{where}"


def leg_lines(explainer: Explainer, place: int, leg: int | None) -> Iterator[str]:
    """All legs, with a mark at one."""
    for number, row in enumerate(explainer.board(place).legs):
        yield f"{'*' if number == leg else ' '} {explainer.record.name('leg', number)}: {row}"


def search_lines(explainer: Explainer, masks: Masks, text: str) -> Iterator[str]:
    """The lines of all logs with a text, each with the place where its step ended."""
    logs, record, fits, count = explainer.logs, explainer.record, finder(text), 0
    if logs is None or not text:
        yield "/: write a text, as /error" if logs else "no log is here"
        return
    for leg, done in enumerate(record.done):
        for step, ((log, _), place) in enumerate(zip(shown_logs(logs, leg, masks), done)):
            for line in filter(fits, lines_of(log)):
                count += 1
                if count <= MOST_FOUND:
                    yield f"  {place}: {record.name('step', leg, step)} of {record.name('leg', leg)}: {line}"
    if count > MOST_FOUND:
        yield f"  ({count - MOST_FOUND} more)"
    if not count:
        yield f"no log has {text}"


def finder(pattern: str) -> Callable[[str], object]:
    """What says whether a line has a pattern, or a text that is no pattern; case does not count."""
    try:
        return re.compile(pattern, re.IGNORECASE).search
    except re.error:
        return re.compile(re.escape(pattern), re.IGNORECASE).search


def part_of(explainer: Explainer, text: str, otherwise: list[str]) -> list[str]:
    """The words of a part as `why` takes them: those that are typed, those of a step that is named, else
    others. Raises Problem."""
    words = text.split()
    if not words or words[0] in PARTS:
        return words or otherwise
    leg, step = min(places_of(explainer.flows.known, [text]))
    return ["step", str(leg), str(step)]


def printed(around: Surroundings, text: str, masks: Masks) -> Iterator[str]:
    """The value of an expression or of a variable in a frame, and what is said of names that do not exist.
    Raises Problem."""
    variables = around.variables()
    name = text.removeprefix("$").removeprefix("env.")
    if name in variables:
        yield masks.hide(variables[name].text)
        return
    try:
        value, notes = around.evaluate(text)
    except EvaluationError as fault:
        is_name = bool(re.fullmatch(r"\$?\w+", text))
        said = f"there is no such variable{near(name, variables)}" if is_name else str(fault)
        raise Problem(f"{text}: {said}") from None
    yield masks.hide(one_value(value))
    yield from (f"  ({note})" for note in notes)
    for read in around.reads([condition_expression(text) or ""]):
        yield from (masks.hide(f"  {one.name}: {one.said}") for one in [read, *read.inside] if one.said)


def paths_of(contexts: dict[str, Any], before: str = "") -> Iterator[str]:
    """The names of all values in contexts, but those of the event."""
    for name, value in contexts.items():
        if isinstance(value, dict) and value and before + name != "github.event":
            yield from paths_of(value, f"{before}{name}.")
        else:
            yield before + name


def value_lines(around: Surroundings) -> list[str]:
    """The lines that print values of a frame."""
    try:
        paths = [*paths_of(around.all_contexts()), *around.variables()]
    except EvaluationError:
        return []
    return [f"{word} {path}" for word in ("print", "p", "watch", "w") for path in paths]


def name_lines(words: Iterable[str], names: Iterable[str]) -> list[str]:
    """The lines of words that take a name."""
    known = list(dict.fromkeys(names))[:2000]
    return [f"{word} {name}" for word in words for name in known]


def history_file() -> str:
    """The file of the history of prompts; nothing if none can be kept."""
    try:
        return str(make_root() / "history")
    except (Problem, OSError):
        return ""
