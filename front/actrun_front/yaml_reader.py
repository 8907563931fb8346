"""Reads a workflow in YAML as GitHub reads it: its value, and the line of each place in it.

The core schema of YAML 1.2 holds: `on`, `yes`, `2024-01-01` and `12:30:45` are strings; `true`, `True` and
`TRUE` are booleans; `null`, `~` and nothing are null; `8`, `010`, `0x1f` and `0o17` are the integers 8, 10,
31 and 15. A fraction, or an integer that is too great for `actrun`, becomes the string as it is written.
"""
from __future__ import annotations

import itertools
import json
import re
from dataclasses import dataclass, field
from typing import Any, Callable, Dict, Iterator, List, NamedTuple, Tuple, Union

Path = Tuple[Union[str, int], ...]

DEEPEST = 127
GREATEST = 9007199254740991
MOST_REPORTED = 20
MOST_PLACES = 200_000  # as many values as a workflow may have, once its aliases are written out
MOST_BYTES = 10_000_000
TAG = "tag:yaml.org,2002:"
CORE = re.compile(r"""(?P<null>~|null|Null|NULL|) | (?P<bool>true|True|TRUE|false|False|FALSE)
    | (?P<int>[-+]?[0-9]+|0o[0-7]+|0x[0-9a-fA-F]+) | (?P<float>[-+]?(?:\.[0-9]+|[0-9]+(?:\.[0-9]*)?)(?:[eE][-+]?[0-9]+)?)
    | (?P<infinite>[-+]?(?:\.inf|\.Inf|\.INF)|\.nan|\.NaN|\.NAN) | (?P<str>.*)""", re.VERBOSE | re.DOTALL)

REMEDIES = {  # by a part of what the library says
    r"'\t'": "write spaces in place of the tab",
    "cannot start any token": "write a string that begins so in quotes",
    "while parsing a flow": "within { } or [ ], write a string with `${{ }}` in quotes",
    "mapping values are not allowed": "write a string with `: ` in it in quotes, and the keys of one mapping in one column"}


class Note(NamedTuple):
    """A sentence about a line of a file, counted from 1."""
    line: int
    text: str


class Number(str):
    """A number that is no integer, by its text in YAML, and what was said of it."""
    note: Any = None


class Refused(Exception):
    """A workflow cannot be used: the line of its file, and a sentence with the remedy."""

    def __init__(self, line: int, text: str):
        super().__init__(text)
        self.line, self.text = line, text


class Mark(NamedTuple):
    """A line of the workflow, and for a part that comes from another file also that file's name and line."""
    line: int
    inside: str = ""


class Node:
    """What lists and maps of YAML have next to their members: a mark, and the marks of keys and places."""
    known_as = ""  # of a job GITHUB_JOB, of a step GITHUB_ACTION
    user: Any = None  # of a step or job that the front made: the one that used an action or called a workflow
    written = ""  # and its condition in that file
    inside = ""  # and of a job its id there

    def __init__(self, inner: Any = (), mark: Mark = Mark(1)):
        super().__init__(inner)  # type: ignore[call-arg]
        self.mark = mark
        self.marks: Dict[Any, Mark] = {}


class Map(Node, Dict[Any, Any]):
    """A map of YAML."""


class Sequence(Node, List[Any]):
    """A list of YAML."""


@dataclass
class Document:
    """What one file of YAML holds. With faults the value is not to be used."""
    value: Any = None
    lines: Dict[Path, int] = field(default_factory=dict)  # of each place in the value
    faults: List[Note] = field(default_factory=list)
    notes: List[Note] = field(default_factory=list)
    merges: List[int] = field(default_factory=list)       # lines with `<<`
    text: str = ""


def members(node: Any) -> List[Tuple[Any, Any]]:
    """The members of a map or a list, each with its key or place."""
    return list(node.items() if isinstance(node, dict) else enumerate(node) if isinstance(node, list) else ())


def mark_of(node: Any, key: Any = None) -> Mark:
    """Where a member is in YAML: its own mark, else that of the list or map, else that of the whole."""
    return (node.marks.get(key) or node.mark) if isinstance(node, Node) else Mark(1)


def lines_of(tree: Any) -> Dict[Path, int]:
    """The line of each place in a tree, the outermost places first. Raises Refused if aliases make the tree
    too deep or too big."""
    lines: Dict[Path, int] = {(): mark_of(tree).line}
    waiting: List[Tuple[Path, Any]] = [((), tree)]
    for path, node in waiting:
        if len(path) >= DEEPEST or len(lines) > MOST_PLACES:
            raise Refused(
                lines[path[:1]],
                f"values nest deeper than {DEEPEST}"
                if len(path) >= DEEPEST
                else f"the file has more than {MOST_PLACES} values once its aliases are written out",
            )
        marks = getattr(node, "marks", {})
        for key, inner in members(node):
            lines[path + (key,)] = marks[key].line if key in marks else lines[path]
            if isinstance(inner, (dict, list)):
                waiting.append((path + (key,), inner))
    return lines


def copied(tree: Any, change: Callable[[Mark], Mark] = lambda mark: mark) -> Any:
    """A copy of a tree, with all its marks changed. What aliases share becomes parts of their own."""
    if not isinstance(tree, Node):
        return tree
    inner = [(key, copied(one, change)) for key, one in members(tree)]
    mark = change(tree.mark)
    made: Any = Map(inner, mark) if isinstance(tree, dict) else Sequence([one for _, one in inner], mark)
    made.marks = {key: change(mark) for key, mark in tree.marks.items()}
    made.user, made.written, made.inside = tree.user, tree.written, tree.inside
    return made


def text_of(value: Any) -> str:
    """The JSON of a value."""
    return json.dumps(value, ensure_ascii=False, separators=(",", ":"))


def beginning(value: Any) -> str:
    """The JSON of a value, or a beginning of it that is too long for a line: with aliases the whole can be
    enormous."""
    text = ""
    for part in json.JSONEncoder(ensure_ascii=False, separators=(",", ":")).iterencode(value):
        text += part
        if len(text) > 100:
            break
    return text


def number_text(text: str) -> str:
    """What GitHub prints of a number."""
    return format(float(text), ".15g").replace("e", "E").replace("inf", "infinity")


def short(text: str) -> str:
    """A text that is not too long for a line."""
    return text if len(text) <= 60 else text[:60] + "..."


def kind_of(text: str) -> str:
    """The kind that a text without quotes has by that schema."""
    found = CORE.fullmatch(text)
    return found.lastgroup or "str" if found else "str"


def plain_value(text: str) -> Any:
    """The value of a text without quotes, by the core schema of YAML 1.2; the text itself where `actrun` has
    no such number."""
    kind = kind_of(text)
    digits, base = text.lstrip("+-0ox") or "0", {"0o": 8, "0x": 16}.get(text[:2], 10)
    if kind == "int" and len(digits) <= 18 and int(digits, base) <= GREATEST:
        return int(digits, base) * (-1 if text[0] == "-" else 1)
    return text.lower() == "true" if kind == "bool" else None if kind in ("null", "infinite") else text


class Reader:
    """Builds one value from the events of a text, and keeps faults and notes."""

    def __init__(self, text: str):
        import ruamel.yaml
        self.kinds = ruamel.yaml.events
        self.events = self.lined(ruamel.yaml.YAML(typ="safe", pure=True).parse(text))
        self.faults: List[Note] = []
        self.notes: List[Note] = []
        self.anchors: Dict[str, Any] = {}
        self.merges: List[int] = []
        self.line = 1
        self.count = 0  # of values, those that `<<` brings too

    def document(self) -> Any:
        """The value of the text."""
        values: List[Any] = []
        for event in self.events:
            if isinstance(event, self.kinds.DocumentStartEvent) and values:
                raise Refused(self.line, "a second document begins here, but a file holds one workflow")
            if isinstance(event, self.kinds.NodeEvent):
                values.append(self.node(event))
        if not values:
            raise Refused(self.line, "the file is empty")
        return values[0]

    def lined(self, events: Iterator[Any]) -> Iterator[Any]:
        """The events; the line of the last one is kept."""
        for event in events:
            self.line = event.start_mark.line + 1
            yield event

    def inside(self) -> Iterator[Any]:
        """The first event of each member of a list, or of each key of a map."""
        return itertools.takewhile(
            lambda event: not isinstance(event, self.kinds.CollectionEndEvent), self.events
        )

    def refuse(self, text: str, line: int = 0) -> None:
        """Keeps a fault, after which the rest can still be read."""
        self.faults.append(Note(line or self.line, text))

    def add(self, number: int = 1) -> None:
        """Counts values. Raises Refused if there are too many."""
        self.count += number
        if self.count > MOST_PLACES:
            raise Refused(
                self.line, f"the file has more than {MOST_PLACES} values once its `<<` are written out"
            )

    def node(self, event: Any) -> Any:
        """The value that begins with an event."""
        name = event.anchor
        self.add()
        if isinstance(event, self.kinds.AliasEvent):
            if self.anchors.get(name, self) is self:
                raise Refused(
                    self.line,
                    f"the alias *{short(name)} "
                    + (
                        "is inside the value that it names"
                        if name in self.anchors
                        else f"has no anchor &{short(name)} before it"
                    ),
                )
            return self.anchors[name]
        if name is not None:
            self.anchors[name] = self  # until the value is whole
        value: Any
        if isinstance(event, self.kinds.ScalarEvent):
            value = self.scalar(event)
        elif isinstance(event, self.kinds.MappingStartEvent):
            value = self.pairs(event)
        else:
            value = Sequence(mark=Mark(self.line))
            self.check_tag(event, "seq")
            for inner in self.inside():
                value.marks[len(value)] = Mark(self.line)
                value.append(self.node(inner))
        if self.anchors.get(name) is self:  # else the value had another one of that name inside
            self.anchors[name] = value
        return value

    def pairs(self, event: Any) -> Map:
        """A map. The pairs of `<<` come last, and only where their keys are missing."""
        self.check_tag(event, "map")
        made, seen = Map(mark=Mark(self.line)), set()
        merged: List[Any] = []
        for start in self.inside():
            line, key = self.line, self.node(start)
            if not isinstance(key, str):
                text = beginning(key)
                self.refuse(f"a key must be a string, and this one is {short(text)}; write a number or the like in quotes", line)
                key = text
            elif key in seen:
                self.refuse(f"the key {text_of(short(key))} occurs twice in one mapping", line)
            seen.add(key)
            inner = self.node(next(self.events))
            if key == "<<" and getattr(start, "style", None) is None:
                self.merges.append(line)
                merged = inner if isinstance(inner, list) else Sequence([inner])
                if not all(isinstance(one, Map) for one in merged):
                    raise Refused(line, "the value of << must be a mapping or a list of mappings")
            else:
                made[key], made.marks[key] = inner, Mark(line)
        for one in merged:
            self.add(len(one))
            for key in one:
                if key not in made:
                    made[key], made.marks[key] = one[key], one.marks[key]
        return made

    def scalar(self, event: Any) -> Any:
        """The value of a text that is written plain or in quotes, maybe with a tag."""
        text = event.value
        kind = kind_of(text) if event.style is None and event.tag != TAG + "str" else "str"
        self.check_tag(event, kind)
        if kind == "infinite":
            self.refuse(f"JSON has no number {text}; write a string in quotes")
        if kind == "str":
            try:  # joins the halves of characters, as `\ud83d\ude00`
                return text.encode("utf-16-le", "surrogatepass").decode("utf-16-le")
            except UnicodeDecodeError:
                self.refuse("a string has an unpaired surrogate")
                return ""
        value = plain_value(text)
        if value == text and text[1:2] not in ("o", "x"):
            number, value = number_text(text), Number(text)
            if number != text:
                value.note = Note(
                    self.line,
                    f"GitHub reads {short(text)} as the number {number}, but here it stays {short(text)}; "
                    "write the one you mean in quotes",
                )
                self.notes.append(value.note)
        return value

    def check_tag(self, event: Any, kind: str) -> None:
        """Refuses a tag that does not fit the kind of value."""
        if event.tag not in (None, TAG + kind) and (event.tag, kind) != (TAG + "float", "int"):
            tag = short(ascii("!!" + event.tag[len(TAG):] if event.tag.startswith(TAG) else event.tag)[1:-1])
            self.refuse(f"the tag {tag} does not fit this value; write a string that begins with ! in quotes")


def read_document(data: bytes) -> Document:
    """The document of a file's bytes. Faults say why there is no value; notes say where GitHub reads another
    value."""
    from ruamel.yaml.reader import ReaderError
    if len(data) > MOST_BYTES:
        return Document(faults=[Note(1, f"the file has more than {MOST_BYTES // 1_000_000} MB")])
    text = data.decode("utf-8-sig", "replace")
    reader, document = Reader(text), Document(text=text)
    try:
        data.decode()
        document.value = reader.document()
        document.lines = lines_of(document.value)
    except Refused as fault:
        reader.refuse(fault.text, fault.line)
    except UnicodeDecodeError as fault:
        reader.refuse("the file is not UTF-8", data.count(b"\n", 0, fault.start) + 1)
    except ReaderError as fault:
        reader.refuse(
            f"the character U+{fault.character:04X} is not allowed in YAML",
            text.count("\n", 0, fault.position) + 1,
        )
    except RecursionError:
        reader.refuse(f"values nest deeper than {DEEPEST}")
    except Exception as fault:  # the library does not foresee every text, as `"\UFFFFFFFF"`
        mark = getattr(fault, "problem_mark", None) or getattr(fault, "context_mark", None)
        told = ", ".join(
            filter(None, (getattr(fault, "context", None), getattr(fault, "problem", None)))
        ) or str(fault)
        remedy = next((f": {remedy}" for part, remedy in REMEDIES.items() if part in told), "")
        reader.refuse(
            "this is not valid YAML: " + told.replace("\n", " ") + remedy,
            mark.line + 1 if mark else reader.line,
        )
    document.merges = reader.merges
    document.faults, document.notes = (
        sorted(kept, key=lambda note: note.line)[:MOST_REPORTED] for kept in (reader.faults, reader.notes)
    )
    return document
