"""Numbers with a fraction, which the program does not have, are compared before planning, as IEEE doubles.

A number of YAML becomes an integer, or the string that GitHub prints. A comparison of constants, or
of a value of the matrix, is decided for each value. Of a value that only the execution knows, `x > 10.5`
becomes `x > 10`, and `x == 10.5` a comparison that is an error where x is a text with a fraction in another
spelling: no comparison is false because fractions are missing.
"""
from __future__ import annotations

import json
import math
import operator
import re
from dataclasses import dataclass, field
from typing import Any, Callable, Dict, List, NamedTuple, Optional, Tuple

from .expressions import (PIECE, TEXT, TOKEN, EvaluationError, access_of, has_expression, literal, lone_text,
                          unquoted)
from .lower_tree import Lowering, part, shown
from .yaml_reader import GREATEST, Mark, Number, Note, mark_of, members, number_text, text_of

RELATIONS = {"<": operator.lt, "<=": operator.le, ">": operator.gt, ">=": operator.ge, "==": operator.eq,
             "!=": operator.ne}
TURNED = {"<": ">", "<=": ">=", ">": "<", ">=": "<=", "==": "==", "!=": "!="}
LEVELS = (("||",), ("&&",), ("==", "!="), ("<", "<=", ">", ">="))
DECIMAL = re.compile(r"[-+]?([0-9]+\.?[0-9]*|\.[0-9]+)([eE][-+]?[0-9]+)?")
WHOLE = re.compile("-?(0|[1-9][0-9]*)")
# texts that GitHub reads as numbers of 32 bits
OF_BASE = {16: re.compile("0x([0-9a-fA-F]{1,8})"), 8: re.compile("0o([0-7]{1,10})")}
INFINITE = {"Infinity": math.inf, "-Infinity": -math.inf}
MOST_VALUES = 64
CASE = re.compile(r"case\s*\(", re.IGNORECASE)
TRUE = re.compile(r"'(?:[^']|'')+'|true|-?[1-9][0-9]*")  # literals that are true
FROM_JSON = re.compile(rf"fromJSON\s*\(\s*({TEXT})\s*\)", re.IGNORECASE)


def settle(node: Any, lowering: Lowering, notes: List[Note]) -> None:
    """Puts what GitHub prints of them in place of a tree's numbers; `notes` loses what the reader said of
    these."""
    for key, value in members(node):
        if isinstance(value, Number):
            node[key] = settled(value)
            if value.note in notes:
                notes.remove(value.note)
                lowering.note(Mark(value.note.line),
                              f"{value} is the number {node[key]}, as GitHub reads it; "
                                                     "write a string in quotes")
        else:
            settle(value, lowering, notes)


def settled(text: str) -> Any:
    """A number of YAML as the program can hold it: whole, or the text that GitHub prints."""
    number = float(text)
    return int(number) if number.is_integer() and abs(number) <= GREATEST else Number(number_text(text))


@dataclass
class Part:
    """A part of an expression: where it is, a constant's value, or the operator between two parts."""

    start: int
    end: int
    constant: Optional[Tuple[Any]] = None
    compares: str = ""
    parts: List[Part] = field(default_factory=list)


class Token(NamedTuple):
    """A token with its place."""

    kind: str
    text: str
    start: int
    end: int


class Unread(Exception):
    """An expression is none; the planner says so."""


class Parser:
    """Reads an expression by the grammar of REFERENCE, as far as comparisons need it."""

    def __init__(self, text: str) -> None:
        found = (Token(str(it.lastgroup), it[0], it.start(), it.end()) for it in TOKEN.finditer(text))
        self.tokens = [token for token in found if token.kind != "space"]
        self.at = 0

    def whole(self) -> Part:
        """The part that is the whole expression."""
        found = self.binary(0)
        if self.at < len(self.tokens):
            raise Unread
        return found

    def takes(self, *texts: str) -> str:
        """The next token, if it is one of these."""
        if self.at < len(self.tokens) and self.tokens[self.at].text in texts:
            self.at += 1
            return self.tokens[self.at - 1].text
        return ""

    def binary(self, level: int) -> Part:
        """A part of one level of operators, from the left."""
        if level == len(LEVELS):
            return self.unary()
        found = self.binary(level + 1)
        while True:
            sign = self.takes(*LEVELS[level])
            if not sign:
                return found
            other = self.binary(level + 1)
            found = Part(found.start, other.end, None, sign if sign in RELATIONS else "", [found, other])

    def unary(self) -> Part:
        """A part with or without `!` before it."""
        start = self.tokens[self.at].start if self.at < len(self.tokens) else 0
        if self.takes("!"):
            inner = self.unary()
            return Part(start, inner.end, None, "", [inner])
        return self.chain()

    def chain(self) -> Part:
        """A literal, context, call or part in parentheses, and the properties after it."""
        found = self.primary()
        while self.at < len(self.tokens):
            token = self.tokens[self.at]
            if token.kind == "property":
                self.at += 1
                found = Part(found.start, token.end, None, "", [found])
            elif self.takes("["):
                inner = [] if self.takes("*") else [self.binary(0)]
                if not self.takes("]"):
                    raise Unread
                found = Part(found.start, self.tokens[self.at - 1].end, None, "", [found, *inner])
            else:
                break
        return found

    def primary(self) -> Part:
        """What stands before properties."""
        if self.at >= len(self.tokens):
            raise Unread
        token = self.tokens[self.at]
        self.at += 1
        if token.kind in ("text", "fraction", "number"):
            return Part(token.start, token.end, (constant(token.kind, token.text),))
        if token.kind == "access":
            word = {"true": True, "false": False, "null": None}
            name = token.text.lower()
            return Part(token.start, token.end, (word[name],) if name in word else None)
        if token.kind == "call" and token.text.endswith(")"):
            return Part(token.start, token.end)
        if token.text != "(" and token.kind != "call":
            raise Unread
        inner = [self.binary(0)]
        while self.takes(","):
            inner.append(self.binary(0))
        if not self.takes(")") or token.text == "(" and len(inner) != 1:
            raise Unread
        value = inner[0].constant if token.text == "(" else None
        return Part(token.start, self.tokens[self.at - 1].end, value, "", inner)


def constant(kind: str, text: str) -> Any:
    """The value of a literal: a text, or a number as a double."""
    if kind == "text":
        return unquoted(text)
    whole = re.fullmatch("(0[xX])([0-9a-fA-F]+)|(0[oO])([0-7]+)", text)
    if not whole and not DECIMAL.fullmatch(text):
        raise Unread
    number = float(text) if not whole else float(int(whole[2], 16) if whole[1] else int(whole[4], 8))
    if not math.isfinite(number):
        raise Unread
    return number


def as_number(value: Any) -> float:
    """The number that GitHub compares: not-a-number of a text that is none."""
    if value is None:
        return 0.0
    if not isinstance(value, str) or isinstance(value, Number):
        return float(value)
    text = value.strip()
    if not text or DECIMAL.fullmatch(text):
        return float(text or 0)
    for base, form in OF_BASE.items():
        found = form.fullmatch(text)
        if found:
            number = int(found[1], base)
            return float(number - (number >> 31 << 32))
    return INFINITE.get(text, math.nan)


def is_fraction(value: Any) -> bool:
    """Whether a value is a number that the program does not have."""
    if not isinstance(value, (float, Number)):
        return False
    return not float(value).is_integer() or abs(float(value)) > GREATEST


def plain(value: Any) -> Any:
    """A value as a plan holds it."""
    return settled(repr(value)) if isinstance(value, float) else value


@dataclass
class Side:
    """A side of a comparison: how it is written, and the values that it may have, where they are known."""

    text: str
    values: List[Any] = field(default_factory=list)
    is_constant: bool = False   # it has the one value of `values`, whatever the leg


def constant_side(value: Any) -> Side:
    """The side that a value is."""
    return Side("", [value], True)


class Folder:
    """Rewrites the expressions of one job. `side` gives the values of a context, where these are known."""

    def __init__(self, side: Callable[[str], Side]) -> None:
        self.side = side
        self.changes: List[Tuple[str, str]] = []

    def fold(self, text: str) -> str:
        """The expression, with integers only."""
        try:
            tree = Parser(text).whole()
            return text[:tree.start] + self.written(tree, text) + text[tree.end:]
        except (Unread, RecursionError):  # (the program rejects what is too deep)
            return text

    def written(self, tree: Part, text: str) -> str:
        """A part as it is written."""
        own = text[tree.start:tree.end]
        if CASE.match(own) and len(tree.parts) > 2 and len(tree.parts) % 2:
            return chosen([self.written(inner, text) for inner in tree.parts])
        if tree.compares:
            left, right = (self.side_of(inner, text) for inner in tree.parts)
            if needs_values(left, right) or needs_values(right, left):
                self.changes.append((own, decided(tree.compares, left, right)))
                return self.changes[-1][1]
        if not tree.parts:
            is_whole = WHOLE.fullmatch(own) or re.fullmatch("0x[0-9a-fA-F]+", own)
            if tree.constant is None or not isinstance(tree.constant[0], float) or is_whole:
                return parsed(own)
            return literal(plain(tree.constant[0]))
        found, at = "", tree.start
        for inner in tree.parts:
            found, at = found + text[at:inner.start] + self.written(inner, text), inner.end
        return found + text[at:tree.end]

    def side_of(self, tree: Part, text: str) -> Side:
        """A part as a side of a comparison."""
        if tree.constant is not None:
            return constant_side(tree.constant[0])
        own = text[tree.start:tree.end].strip("() ")
        token = TOKEN.fullmatch(own)
        side = self.side(own) if token and token["access"] else Side("")
        found = self.written(tree, text).strip()
        side.text = f"({found})" if tree.parts and not found.startswith("(") else found
        return side


def chosen(parts: List[str]) -> str:
    """The expression of `case(condition, value, .., other)`, which the program lacks. Where a value may be
    false, the values are in lists, which are true."""
    conditions, values, other = parts[:-1:2], parts[1::2], parts[-1]
    if all(TRUE.fullmatch(one.strip()) for one in values):
        ways = [f"({condition}) && {value.strip()}" for condition, value in zip(conditions, values)]
        return f"({' || '.join([*ways, f'({other.strip()})'])})"
    lists = [f"fromJSON(format('[{{0}}]', toJSON({value.strip()})))" for value in (*values, other)]
    ways = [f"({condition}) && {value}" for condition, value in zip(conditions, lists)]
    return f"({' || '.join([*ways, lists[-1]])})[0]"


def parsed(call: str) -> str:
    """A call of fromJSON with a text whose numbers have fractions: these become what GitHub prints of
    them."""
    found, fractions = FROM_JSON.fullmatch(call), []

    def fraction(text: str) -> Any:
        fractions.append(text)
        return settled(text)
    try:
        value = json.loads(unquoted(found[1]), parse_float=fraction) if found else None
    except (ValueError, RecursionError):
        return call
    return literal(value) if fractions else call


def needs_values(side: Side, other: Side) -> bool:
    """Whether a side has a number that the program does not have, or a text beside one that it reads
    otherwise."""
    if any(map(is_fraction, side.values)):
        return True
    if not side.is_constant or not other.is_constant or isinstance(other.values[0], str):
        return False
    value = side.values[0]
    is_read = value == "" or isinstance(value, str) and WHOLE.fullmatch(value)
    return isinstance(value, str) and not is_read and not math.isnan(as_number(value))


def decided(sign: str, left: Side, right: Side) -> str:
    """A comparison by the values of its sides. Raises EvaluationError if it cannot be decided."""
    if left.is_constant and right.is_constant:
        return text_of(compared(sign, left.values[0], right.values[0]))
    if left.values and not left.is_constant:
        if len(left.values) > MOST_VALUES:
            raise EvaluationError(f"{left.text} has more than {MOST_VALUES} values")
        found: Dict[str, List[Any]] = {}
        for value in left.values:
            found.setdefault(decided(sign, constant_side(value), right), []).append(plain(value))
        found.pop("false", None)
        ways = [f"contains({literal(same)}, {left.text})" + ("" if result == "true" else f" && ({result})")
                for result, same in found.items()]
        return "(" + " || ".join(ways) + ")" if ways else "false"
    if right.values and not right.is_constant:
        return decided(TURNED[sign], right, left)
    if left.is_constant:
        return against(TURNED[sign], right.text, left.values[0])
    if right.is_constant:
        return against(sign, left.text, right.values[0])
    return f"{left.text} {sign} {right.text}"


def compared(sign: str, one: Any, other: Any) -> bool:
    """What GitHub gives for two known values: texts are compared as texts, all else as numbers."""
    if all(isinstance(value, str) and not isinstance(value, Number) for value in (one, other)):
        return bool(RELATIONS[sign](one.lower(), other.lower()))
    return bool(RELATIONS[sign](as_number(one), as_number(other)))


def against(sign: str, operand: str, value: Any) -> str:
    """`OPERAND SIGN value` for an operand that only the execution knows."""
    if not is_fraction(value):
        return f"{operand} {sign} {literal(plain(value))}"
    number = float(value)
    if not math.isfinite(number):
        raise EvaluationError(f"{value} is too great")
    if sign in ("==", "!="):
        text = literal(number_text(repr(number)))
        equal = f"(format('{{0}}', {operand}) == {text} || {operand} == 0 && false)"
        return equal if sign == "==" else f"!{equal}"
    bound = math.floor(number) if sign in (">", ">=") else math.ceil(number)
    return f"{operand} {sign[0]} {max(-GREATEST, min(GREATEST, bound))}"


def sides_of_job(lowering: Lowering, job: Any) -> Callable[[str], Side]:
    """What contexts may be in a job: values of its matrix, and numbers of `inputs` and `github`."""
    matrix = part(part(job, "strategy"), "matrix")
    variables = {key: ones for key, ones in matrix.items() if key not in ("include", "exclude")}
    rows = [{key: one} for key, ones in variables.items() if isinstance(ones, list) for one in ones]
    rows += [entry for entry in matrix.get("include") or () if isinstance(entry, dict)]

    def side(text: str) -> Side:
        access, _ = access_of(text)
        if not access.keys:
            return Side(text)
        if access.context == "matrix":
            found = [follow(row, access.keys) for row in rows]
            found = [value for value in found if value is not None and not isinstance(value, (list, dict))]
            values = list({(type(value), value): value for value in found}.values())
            return Side(text, values if any(map(is_fraction, values)) else [])
        value = follow(lowering.contexts.get(access.context) or {}, access.keys)
        return constant_side(value) if isinstance(value, Number) else Side(text)
    return side


def follow(value: Any, keys: Tuple[str, ...]) -> Any:
    """What is at a path of properties, ignoring case; None if there is nothing."""
    for key in keys:
        if not isinstance(value, dict):
            return None
        value = next((inner for name, inner in value.items() if name.lower() == key.lower()), None)
    return value


def fold_numbers(lowering: Lowering, node: Any, side: Callable[[str], Side], whole: bool = True) -> None:
    """Rewrites the texts of a workflow without its jobs, of a job without its steps, of a step, or of a part
    of them."""
    for key, value in members(node):
        is_condition = whole and key == "if"
        if isinstance(value, str) and (is_condition or has_expression(value)):
            node[key] = fold_text(lowering, value, side, mark_of(node, key), is_condition)
        elif not isinstance(value, str) and (not whole or key not in ("jobs", "steps")):
            fold_numbers(lowering, value, side, False)


def fold_text(lowering: Lowering, text: str, side: Callable[[str], Side], mark: Mark,
              is_condition: bool) -> str:
    """A text with integers only. Raises Refused if a comparison cannot be decided."""
    folder = Folder(side)

    def piece(found: re.Match[str]) -> str:
        new = folder.fold(found[1])
        alone = lone_text(new) if new != found[1] and not is_condition else None
        if new == found[1]:
            return found[0]
        return "${{" + new + "}}" if alone is None or "$" in alone or "{" in alone else alone
    try:
        new = PIECE.sub(piece, text) if has_expression(text) else folder.fold(text)
    except EvaluationError as fault:
        why = f"{shown(text)} has a comparison with a fraction that cannot be decided: {fault}"
        raise lowering.refuse(mark, why) from None
    for own, put in folder.changes:
        lowering.note(mark, f"`{shown(own.strip())}` compares numbers with fractions: {shown(put)} takes its "
                            "place")
    return new


def fold_job(lowering: Lowering, job: Any, steps: List[Any]) -> None:
    """Rewrites the texts of a job and its steps."""
    side = sides_of_job(lowering, job)
    scripts = [step.get("run") for step in steps]
    for node in (job, *steps):
        fold_numbers(lowering, node, side)
    for step, script in zip(steps, scripts):
        # (a step without a name is called by its script)
        if step.get("run") != script and isinstance(script, str) and not step.get("name"):
            step["name"] = next((line.strip() for line in script.splitlines() if line.strip()), "")


def no_values(text: str) -> Side:
    """A context that is unknown."""
    return Side(text)


def number_of(value: Any) -> Any:
    """A number of JSON as a plan can hold it."""
    return settled(value) if DECIMAL.fullmatch(value) else value


def loads(text: str) -> Any:
    """The value of a JSON text, its fractions as GitHub prints them."""
    return json.loads(text, parse_float=number_of)
