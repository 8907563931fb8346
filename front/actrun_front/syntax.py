"""Finds what GitHub refuses in a workflow before it starts anything: keys, values, events, ids, contexts.

`syntax.json` has the published syntax: `kinds` of values, `events` with their keys and activity types, and
the `contexts` that texts at a place may name. A kind has `keys` (key -> kind), `others` (the kind of all
other keys), `list` (the kind of items) and `scalar` (a form of texts, or the words that are allowed). `KIND
@PLACE` allows expressions over the contexts of the place. Where the published syntax leaves doubt, nothing is
refused.
"""
from __future__ import annotations

import functools
import json
import re
from pathlib import Path
from typing import Any, Callable, Iterable

from .explain import near
from .expressions import LITERALS, PIECE, has_expression, references
from .lower_tree import part, texts
from .yaml_reader import Document, Note, members, short, text_of

ID = re.compile("[A-Za-z_][A-Za-z0-9_-]*")
FILTERS = ("branches", "tags", "paths")
OWNERS = {"action step": "a step with `uses`", "script step": "a step with `run`",
          "call": "a job with `uses`"}
OF_STEPS = ("step", "step-if")  # places that know hashFiles
NUMBER = re.compile(r"[-+]?(\d+\.?\d*|\.\d+)([eE][-+]?\d+)?")
WORDS = LITERALS | {"nan", "infinity"}
FIELDS = (("minute", 0, 59, ""), ("hour", 0, 23, ""), ("day of the month", 1, 31, ""),
          ("month", 1, 12, "jan feb mar apr may jun jul aug sep oct nov dec"),
          ("day of the week", 0, 7, "sun mon tue wed thu fri sat"))


@functools.lru_cache(maxsize=None)
def tables() -> dict[str, Any]:
    """The published syntax."""
    found: dict[str, Any] = json.loads((Path(__file__).parent / "syntax.json").read_text(encoding="utf-8"))
    return found


def faults(document: Document) -> list[Note]:
    """What GitHub refuses in a workflow, by lines."""
    checker = Checker(document)
    checker.found += [
        Note(line, "GitHub knows anchors and aliases, but no merge key `<<`: write the keys out")
        for line in document.merges
    ]
    checker.walk(document.value, "workflow", ())
    jobs = part(document.value, "jobs")
    checker.check_once(("jobs",), [(name, name) for name in jobs], "the id of a job")
    for name, job in jobs.items():
        steps = members(job.get("steps")) if isinstance(job, dict) else ()
        steps = [(at, step) for at, step in steps if isinstance(step, dict)]
        ids = [(at, step["id"]) for at, step in steps if isinstance(step.get("id"), str)]
        checker.check_once(("jobs", name, "steps"), ids, "the id of a step of this job")
        for at, text in ids:
            if text.startswith("__"):
                checker.refuse(("jobs", name, "steps", at, "id"),
                               f"the id {short(text)} begins with __, which GitHub reserves")
    return sorted(dict.fromkeys(checker.found), key=lambda note: note.line)


def why_no_cron(text: str) -> str:
    """What is wrong with the time of a schedule, or nothing."""
    parts = text.split()
    if len(parts) != len(FIELDS):
        return "a time has five fields: minute, hour, day of the month, month, day of the week"
    for part_of_time, (name, least, most, words) in zip(parts, FIELDS):
        known = {word: str(least + at) for at, word in enumerate(words.split())}
        for one in part_of_time.lower().split(","):
            span, _, step = one.partition("/")
            ends = [known.get(end, end) for end in span.split("-")] if span != "*" else []
            if "/" in one and not re.fullmatch("[1-9][0-9]*", step) or len(ends) > 2 or \
                    not all(re.fullmatch("[0-9]{1,2}", end) and least <= int(end) <= most for end in ends):
                return f"the {name} {part_of_time} is none of {least}-{most}, `*`, lists, ranges and `*/N`"
    return ""


class Checker:
    """Walks a workflow, and keeps what is wrong."""

    def __init__(self, document: Document) -> None:
        self.document = document
        self.found: list[Note] = []
        self.kinds, self.events, self.contexts = (tables()[name] for name in ("kinds", "events", "contexts"))
        self.forms: dict[str, Callable[[str, tuple[Any, ...]], None]] = {
            "id": self.check_id, "event": self.check_event, "cron": self.check_cron,
            "action reference": self.check_action, "workflow reference": self.check_workflow}

    def refuse(self, path: tuple[Any, ...], text: str) -> None:
        """Keeps a fault of a place."""
        fronts = (path[:end] for end in range(len(path), -1, -1))
        line = next((self.document.lines[front] for front in fronts if front in self.document.lines), 1)
        self.found.append(Note(line, f"{'.'.join(map(str, path))}: {text}" if path else text))

    def walk(self, value: Any, kind: str, path: tuple[Any, ...], place: str = "") -> None:
        """Checks a value of a kind, and what is in it."""
        name, _, own = kind.partition(" @")
        place, rule = own or place, self.kinds[name]
        if "choose" in rule:
            keys = value if isinstance(value, dict) else rule["choose"]
            inner = next(inner for key, inner in rule["choose"].items() if not key or key in keys)
            self.walk(value, inner, path, place)
        elif "any" in rule:
            self.check_texts(value, place, path)
        elif isinstance(value, str) and has_expression(value) and place:
            self.check_text(value, place, path)
        elif isinstance(value, dict) and {"keys", "others", "events"} & set(rule):
            self.check_map(value, name, rule, path, place)
        elif isinstance(value, list) and "list" in rule:
            for at, one in enumerate(value):
                self.walk(one, rule["list"] if rule["list"] in self.kinds else name, (*path, at), place)
        elif isinstance(value, (dict, list)):
            what = "mapping" if isinstance(value, dict) else "list"
            self.refuse(path, f"GitHub expects {self.wanted(rule)} here, not a {what}")
        elif value is None:
            if name in ("jobs", "own job", "steps", "no step", "runs-on", "on"):
                self.refuse(path, f"a value is missing: GitHub expects {self.wanted(rule)}")
        elif "scalar" in rule:
            self.check_scalar(value, rule["scalar"], path, place)
        else:
            self.refuse(path, f"GitHub expects {self.wanted(rule)} here, not {short(text_of(value))}")

    @staticmethod
    def wanted(rule: dict[str, Any]) -> str:
        """The forms of a kind in words."""
        forms = ["a mapping"] if {"keys", "others", "events", "choose"} & set(rule) else []
        forms += ["a list"] if "list" in rule else []
        one = rule.get("scalar")
        if isinstance(one, list):
            forms.append(f"one of {', '.join(one)}")
        elif one:
            forms.append({"truth": "true or false", "number": "a number"}.get(one, "a string"))
        return " or ".join(forms)

    def check_map(self, value: dict[str, Any], name: str, rule: dict[str, Any], path: tuple[Any, ...],
                  place: str = "") -> None:
        """Checks the keys of a map, and what they hold."""
        keys = rule.get("keys", {})
        for key in rule.get("required", ()):
            if key not in value:
                where = "" if path else ": write it at the top of the file"
                self.refuse(path, f"`{key}` is missing{where}")
        for key, inner in value.items():
            if "events" in rule:
                self.check_events(key, inner, (*path, key))
            elif key in keys:
                self.walk(inner, keys[key], (*path, key), place)
            elif "others" in rule:
                if rule.get("names") == "id":
                    self.check_id(key, (*path, key))
                self.walk(inner, rule["others"], (*path, key), place)
            elif not (name == "no step" and path):
                self.refuse((*path, key), self.unknown(key, name, keys))

    def unknown(self, key: str, name: str, keys: Iterable[str]) -> str:
        """The sentence about a key that GitHub does not know at its place."""
        if name == "action step" and key == "run":
            return "a step has `run` or `uses`, not both"
        others = ("script step", "action step", "own job")
        if name in OWNERS and any(key in self.kinds[other]["keys"] for other in others):
            return f"GitHub knows no key `{short(key)}` of {OWNERS[name]}"
        return f"GitHub knows no key `{short(key)}` here{near(key, keys) or '; there are ' + ', '.join(keys)}"

    def check_events(self, event: str, value: Any, path: tuple[Any, ...]) -> None:
        """Checks an event and its filters."""
        if event not in self.events:
            self.check_event(event, path)
            return
        rule = self.events[event]
        if "kind" in rule:
            self.walk(value, rule["kind"], path)
            return
        if value is None:
            return
        if not isinstance(value, dict):
            self.refuse(path, "GitHub expects a mapping or nothing here")
            return
        self.check_map(value, "event", rule, path, "")
        for key in FILTERS:
            if key in value and f"{key}-ignore" in value:
                self.refuse((*path, f"{key}-ignore"), f"an event has `{key}` or `{key}-ignore`, not both: "
                            f"write ! before names in `{key}`")
        for one in texts(value.get("types")) if "types" in rule else ():
            if one not in rule["types"]:
                guess = near(one, rule["types"])
                self.refuse((*path, "types"), f"{event} has no activity `{short(one)}`{guess}")

    def check_scalar(self, value: Any, form: Any, path: tuple[Any, ...], place: str) -> None:
        """Checks a scalar without an expression, or a condition."""
        text = value if isinstance(value, str) else text_of(value)
        if form == "condition":
            is_text = isinstance(value, str) and text.strip()
            self.check_text("${{" + text + "}}" if is_text else "", place, path)
        elif isinstance(form, list):
            if text.lower() not in form:
                self.refuse(path, f"`{short(text)}` is none of {', '.join(form)}{near(text, form)}")
        elif form == "truth" and text not in ("true", "false"):
            self.refuse(path, f"GitHub expects true, false or an expression here, not {short(text)}")
        elif form == "number" and (isinstance(value, bool) or not NUMBER.fullmatch(text)):
            self.refuse(path, f"GitHub expects a number here, not {short(text)}")
        elif form in self.forms:
            self.forms[form](text, path)

    def check_id(self, text: str, path: tuple[Any, ...]) -> None:
        """Checks an id of a job or a step."""
        if not ID.fullmatch(text):
            self.refuse(path, f"the id `{short(text)}` has a character that GitHub rejects: an id has "
                              "letters, digits, - and _, and begins with a letter or _")

    def check_event(self, text: str, path: tuple[Any, ...]) -> None:
        """Checks the name of an event."""
        if text not in self.events:
            self.refuse(path, f"GitHub knows no event `{short(text)}`{near(text, self.events)}")

    def check_cron(self, text: str, path: tuple[Any, ...]) -> None:
        """Checks the time of a schedule."""
        why = why_no_cron(text)
        if why:
            self.refuse(path, f"`{short(text)}` is no time of a schedule: {why}")

    def check_action(self, text: str, path: tuple[Any, ...]) -> None:
        """Checks what a step uses."""
        if has_expression(text):
            self.refuse(path, "GitHub evaluates no expression here: write the action's name and ref")
        elif not text.startswith((".", "docker://")) and not re.fullmatch(r"[^/@\s]+/[^@\s]+@\S+", text):
            remedy = f": write {short(text)}@REF, as @v4" if re.fullmatch(r"[^/@\s]+/[^@\s]+", text) else ""
            forms = "OWNER/NAME[/PATH]@REF, ./PATH or docker://IMAGE"
            self.refuse(path, f"`{short(text)}` does not have the form {forms}{remedy}")

    def check_workflow(self, text: str, path: tuple[Any, ...]) -> None:
        """Checks which workflow a job calls."""
        if has_expression(text):
            self.refuse(path, "GitHub evaluates no expression here: write the workflow's file and ref")
        elif text.startswith("./") and re.search(r"\.ya?ml@", text):
            self.refuse(path, "a workflow of the repository is called without @REF")
        elif not text.startswith("./") and not re.fullmatch(r"[^/@\s]+/[^/@\s]+/[^@\s]+@\S+", text):
            self.refuse(path, f"`{short(text)}` does not have the form OWNER/NAME/PATH@REF or ./PATH")

    def check_texts(self, value: Any, place: str, path: tuple[Any, ...]) -> None:
        """Checks the expressions in all texts of a value."""
        for key, inner in members(value):
            self.check_texts(inner, place, (*path, key))
        if isinstance(value, str) and place and has_expression(value):
            self.check_text(value, place, path)

    def check_text(self, text: str, place: str, path: tuple[Any, ...]) -> None:
        """Checks the contexts that a text names, and that hashFiles is at a step."""
        known, all_known = self.contexts[place], {name for names in self.contexts.values() for name in names}
        for expression in PIECE.findall(text):
            accesses, calls = references(expression)
            for name in dict.fromkeys(it.context for it in accesses if it.context not in {*known, *WORDS}):
                what = f"the context `{name}` has no value here"
                if name not in all_known:
                    what = f"GitHub knows no context `{name}` here{near(name, known)}"
                self.refuse(path, f"{what}; there are {', '.join(known)}")
            if "hashfiles" in calls and place not in OF_STEPS:
                self.refuse(path, "hashFiles can only be called in a step")

    def check_once(self, path: tuple[Any, ...], names: list[tuple[Any, str]], what: str) -> None:
        """Checks that no two ids are the same but for their case."""
        seen: dict[str, str] = {}
        for key, name in names:
            other = seen.setdefault(name.lower(), name)
            if other is not name:
                more = f" and {short(name)}" if other != name else ""
                self.refuse((*path, key), f"{what} is there twice: {short(other)}{more}")
