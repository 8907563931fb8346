"""What is never shown: the forms of a secret that GitHub's runner masks, and the masker of texts."""
from __future__ import annotations

import base64
import bisect
import functools
import html
import json
import re
import urllib.parse
from typing import Any, Dict, Iterable, Iterator, TypeVar, cast
from xml.sax.saxutils import escape

BEGINNING = 4  # characters by which masks are found
FEW = 64  # beginnings whose pattern is made again after each new mask
MANY = 4096  # beginnings that one pattern finds
MOST = 200_000  # forms; of further secrets only the text itself is hidden
LEAST = 8  # characters of a part of base64 that is masked as a secret
URI_KEEPS = ("-_.~", "-_.~!'()*")  # of .NET and Python, of JavaScript
# a veil is what the program has in place of a secret in values (veils.py)
BEGIN, END, DIGITS = "\ue000", "\ue001", [chr(0xE010 + digit) for digit in range(16)]
VEIL = re.compile(f"{BEGIN}[{DIGITS[0]}-{DIGITS[-1]}]{{32}}{END}")
Tree = Dict[str, Any]
T = TypeVar("T")


def texts(value: Any) -> Iterator[str]:
    """The texts in a value, also those inside lists and maps."""
    if isinstance(value, str):
        yield value
    elif isinstance(value, (list, dict)):
        for inner in value.values() if isinstance(value, dict) else value:
            yield from texts(inner)


@functools.lru_cache(maxsize=8192)
def forms(value: str) -> frozenset[str]:
    """The forms of a secret: its value, its lines, and what programs make of these."""
    plain = {value, value.rstrip("\r\n"), *(line for line in re.split(r"[\r\n]+", value) if line.strip())}
    plain |= {text[1:-1] for text in plain if len(text) > 2 and text[0] == text[-1] and text[0] in "'\""}
    found = plain.union(*(encoded(text) for text in plain if text))
    return frozenset(text for text in found if text.strip("*\r\n"))


def encoded(text: str) -> Iterator[str]:
    """A text as base64, and as it is escaped for an address, JSON, a shell, an expression and XML."""
    yield from in_base64(text.encode("utf-8", "replace"))
    data = text.encode("utf-8", "replace")
    yield from (urllib.parse.quote(data, safe=keeps) for keeps in URI_KEEPS)
    yield urllib.parse.quote_plus(data)
    yield from (json.dumps(text, ensure_ascii=ascii)[1:-1] for ascii in (False, True))
    yield from in_shell(text)
    yield text.replace("'", "''")
    yield from (escape(text, {'"': "&quot;", "'": quote}) for quote in ("&apos;", "&#39;", "'"))
    yield from (html.escape(text), escape(text))


def in_base64(data: bytes) -> Iterator[str]:
    """The base64 of a text as GitHub has it, also without its first bytes; and its part inside another."""
    made = []
    for offset in range(3):
        made.append(base64.b64encode(data[offset:] or data).decode())
        inside = base64.b64encode(bytes(offset) + data).decode()
        first, last = (offset * 8 + 5) // 6, (offset + len(data)) * 8 // 6
        parts = (inside[first:], inside[first:].rstrip("="), inside[first:last])
        made += [text for text in parts if len(text) >= LEAST]
    yield from made
    yield from (text.translate({43: "-", 47: "_"}) for text in made)


def in_shell(text: str) -> Iterator[str]:
    """A text inside quotes of a shell, and as `printf %q` and `set -x` show it."""
    yield from (text.replace("'", quote) for quote in ("'\\''", "'\"'\"'", "\\'"))
    yield text.replace('"', '\\"')
    yield re.sub(r'(["\\$`])', r"\\\1", text)
    yield from (re.sub(rf"([^\w@%+=:./{more}-])", r"\\\1", text) for more in ("", ","))
    lines = {"\\": "\\\\", "'": "\\'", "\n": "\\n", "\t": "\\t", "\r": "\\r", "\x1b": "\\E"}
    yield "".join(lines.get(sign, sign) for sign in text)


def tree_of(words: Iterable[str]) -> Tree:
    """Words by their characters, each map those of one place; a word that begins another matches for both."""
    root: Tree = {}
    for word in sorted(words):
        node, at = root, 0
        while at < len(word) and (at == 0 or node):
            if word[at] not in node:
                for sign in word[at:]:
                    node[sign] = node = {}
                break
            node, at = node[word[at]], at + 1
    return root


def pattern_of(tree: Tree) -> str:
    """A pattern of the words of a tree."""
    branches = [re.escape(sign) + pattern_of(below) for sign, below in tree.items()]
    return branches[0] if len(branches) == 1 else f"(?:{'|'.join(branches)})" if branches else ""


class Masks:
    """Texts that are not shown, in all their forms."""

    def __init__(self, found: Iterable[str] = ()):
        self.texts: set[str] = set()  # as they were given
        self.forms: set[str] = set()
        self.beginnings: set[str] = set()
        self.signs: set[str] = set()  # that begin these
        self.lengths: dict[int, dict[str, set[int]]] = {}  # of the forms with a beginning, which is so long
        self.made: re.Pattern[str] | None = None
        self.exact = True  # it finds beginnings, else signs alone
        self.ordered: list[str] | None = None  # the forms, in their order, once these are asked for
        self.most = 0  # characters of the longest of these
        self.rounds = 0
        self.add(found)

    def add(self, found: Iterable[str]) -> None:
        """Hides more texts from here on."""
        new = {text for text in found if text} - self.texts
        self.texts |= new
        for text in new:
            self.hide_forms(set(forms(text)) if text.strip("*") and len(self.forms) < MOST else {text})

    def hide_forms(self, found: set[str]) -> None:
        """Hides texts as they are from here on."""
        for text in found - self.forms:
            start = text[:BEGINNING]
            self.lengths.setdefault(len(start), {}).setdefault(start, set()).add(len(text))
            if start not in self.beginnings and (self.exact or start[0] not in self.signs):
                self.made = None
            self.beginnings.add(start)
            self.signs.add(start[0])
        self.forms |= found
        self.ordered = None

    @property
    def pattern(self) -> re.Pattern[str] | None:
        """What finds where a form may begin; None if nothing is hidden."""
        if self.made is None and self.beginnings:
            self.rounds += len(self.beginnings) > FEW
            self.exact = len(self.beginnings) <= FEW or len(self.beginnings) <= MANY and self.rounds <= FEW
            signs = f"[{''.join(map(re.escape, sorted(self.signs)))}]"
            self.made = re.compile(pattern_of(tree_of(self.beginnings)) if self.exact else signs)
        return self.made

    def hide(self, value: T) -> T:
        """The value with `***` for the longest form at each place of its texts, from the left."""
        hidden: Any = value
        if isinstance(value, dict):
            hidden = {self.hide(key): self.hide(inner) for key, inner in value.items()}
        elif isinstance(value, list):
            hidden = [self.hide(inner) for inner in value]
        elif self.beginnings and isinstance(value, str):
            hidden = self.hidden(value)
        return cast(T, hidden)

    def hidden(self, text: str) -> str:
        """The text with `***` for the longest form at each place, from the left."""
        text = VEIL.sub("***", text) if BEGIN in text else text
        pattern = self.made or self.pattern
        place = pattern.search(text) if pattern else None
        if place is None:
            return text
        shown, end = [], 0
        while place:
            at = place.start()
            length = self.longest(text, at)
            if length:
                shown += [text[end:at], "***"]
                end = at + length
            place = pattern.search(text, at + max(length, 1))  # type: ignore[union-attr]
        return "".join([*shown, text[end:]])

    def touches(self, text: str) -> bool:
        """Whether a form may be in a text."""
        pattern = self.made or self.pattern
        return pattern is not None and pattern.search(text) is not None

    def settled(self, text: str) -> tuple[str, int]:
        """The hidden beginning of a text that goes on, and how long that is in the text: whatever follows,
        nothing of the beginning is hidden otherwise."""
        opens = self.first_open(text, 0)
        shown, end = [], 0
        place = self.pattern.search(text) if self.pattern else None
        while place and place.start() < opens:
            at = place.start()
            length = self.longest(text, at)
            if length:
                shown += [text[end:at], "***"]
                end = at + length
                opens = opens if opens >= end else self.first_open(text, end)
            place = self.pattern.search(text, at + max(length, 1))  # type: ignore[union-attr]
        return "".join([*shown, text[end:opens]]), max(opens, end)

    def first_open(self, text: str, begin: int) -> int:
        """The first place from `begin` on where a form may begin that goes beyond the text; else its end."""
        if self.ordered is None:
            self.ordered = sorted(self.forms)
            self.most = max(map(len, self.ordered), default=0)
        for at in range(max(begin, len(text) - self.most), len(text)):
            if text[at] in self.signs:
                end = text[at:]
                place = bisect.bisect_left(self.ordered, end)
                if place < len(self.ordered) and self.ordered[place].startswith(end):
                    return at
        return len(text)

    def longest(self, text: str, at: int) -> int:
        """How long the longest form at a place of a text is; 0 if none is there."""
        sizes = self.lengths.items()
        found = (length for size, starts in sizes for length in starts.get(text[at:at + size], ()))
        return max((length for length in found if text[at:at + length] in self.forms), default=0)


def secrets_of(plan: dict[str, Any]) -> Iterator[str]:
    """The secrets of a plan: the texts of its secrets, and the token of `github`."""
    for run in plan["runs"]:
        yield from filter(None, texts([run["roots"]["secrets"], run["roots"]["github"].get("token")]))


def plan_masks(plan: dict[str, Any]) -> Masks:
    """The masks of a plan."""
    return Masks(secrets_of(plan))
