"""Takes expressions and templates apart, rewrites contexts and calls in them, and asks the program for
values."""
from __future__ import annotations

import functools
import json
import re
import subprocess
from dataclasses import dataclass, field
from typing import Any, Callable, Dict, Iterable, Iterator, List, NamedTuple, Optional, Set, Tuple

NAME, TEXT = r"[A-Za-z_][A-Za-z0-9_-]*", r"'(?:[^']|'')*'"
KEY = rf"\s*\.\s*({NAME})|\s*\[\s*({TEXT})\s*\]"  # a property that is written out
TOKEN = re.compile(
    rf"""(?P<text>{TEXT}) | (?P<fraction>[-+]?(?:[0-9]+\.[0-9]*|\.[0-9]+)(?![\w.+-])) | (?P<number>[-+]?\.?[0-9][\w.+-]*)
    | (?P<call>{NAME}\s*\((?:\s*(?:{TEXT}\s*(?:,\s*{TEXT}\s*)*)?\))?) | (?P<access>{NAME}(?:{KEY})*) | (?P<property>\.\s*(?:\*|{NAME}))
    | (?P<operator><=|>=|==|!=|&&|\|\||[][(),*!<>.]) | (?P<space>\s+) | (?P<wrong>.)""",
    re.VERBOSE | re.ASCII,
)
ONE_PIECE = re.compile(r"\$\{\{((?:'[^']*'|[^'}]|\}(?!\}))*)\}\}")
STATUS = {"success", "failure", "always", "cancelled"}
LITERALS = {"true", "false", "null"}
EVAL = ["eval", "--contexts", "/dev/stdin", "--"]  # before an expression


class Pieces:
    """The expressions in templates. They are found in time linear in the text: where one is not closed, no
    later one is that begins after an even number of quotes."""

    def finditer(self, text: str) -> Iterator[re.Match[str]]:
        """Each `${{ .. }}`, with what is inside as its group."""
        failed: Set[int] = set()
        quotes, counted, place = 0, 0, text.find("${{")
        while place >= 0 and len(failed) < 2:
            quotes, counted = quotes + text.count("'", counted, place), place
            found = None if quotes % 2 in failed else ONE_PIECE.match(text, place)
            if found:
                yield found
            else:
                failed.add(quotes % 2)
            place = text.find("${{", found.end() if found else place + 1)

    def search(self, text: str) -> re.Match[str] | None:
        """The first one."""
        return next(self.finditer(text), None)

    def fullmatch(self, text: str) -> re.Match[str] | None:
        """The one that is the whole text."""
        found = self.search(text)
        return found if found and found[0] == text else None

    def findall(self, text: str) -> List[str]:
        """What is inside of each."""
        return [found[1] for found in self.finditer(text)]

    def split(self, text: str) -> List[str]:
        """The text around them, and what is inside of them, interleaved."""
        made, at = [], 0
        for found in self.finditer(text):
            made += [text[at:found.start()], found[1]]
            at = found.end()
        return [*made, text[at:]]

    def sub(self, new: Callable[[re.Match[str]], str], text: str) -> str:
        """The text with others in place of them."""
        made, at = [], 0
        for found in self.finditer(text):
            made += [text[at:found.start()], new(found)]
            at = found.end()
        return "".join([*made, text[at:]])


PIECE = Pieces()


class EvaluationError(Exception):
    """An expression has no value: the text says why."""


class Access(NamedTuple):
    """A context in an expression, in small letters, and the properties after it that are written out."""
    context: str
    keys: Tuple[str, ...]


# what replaces an access, and how many keys it takes in; None leaves it as it is
Replacement = Optional[Tuple[str, int]]


@dataclass
class Rules:
    """What replaces contexts, calls by their arguments (None if one is no string in quotes), and
    fractions."""
    contexts: Dict[str, Callable[[Access], Replacement]] = field(default_factory=dict)
    calls: Dict[str, Callable[[Optional[List[str]]], str]] = field(default_factory=dict)
    fraction: Optional[Callable[[str], str]] = None
    mark: Any = None  # where the text is that is being rewritten
    condition: bool = False  # and whether it is a condition


def known_keys(
    values: Dict[str, str], missing: Optional[str] = None, whole: Optional[str] = None
) -> Callable[[Access], Replacement]:
    """The rule for a context: the expressions of properties, of any other property, and of the context as a
    whole. None stays as it is."""
    small = {key.lower(): value for key, value in values.items()}

    def rule(access: Access) -> Replacement:
        found = small.get(access.keys[0].lower(), missing) if access.keys else whole
        return None if found is None else (found, len(access.keys[:1]))
    return rule


def tokens(expression: str) -> List[Tuple[str, str]] | None:
    """The kinds and texts of an expression's tokens. None where it has a character or a quote that begins
    none."""
    found = [(str(match.lastgroup), match.group()) for match in TOKEN.finditer(expression)]
    return None if any(kind == "wrong" for kind, _ in found) else found


def unquoted(text: str) -> str:
    return text[1:-1].replace("''", "'")


def access_of(text: str) -> Tuple[Access, List[int]]:
    """What a token reads, and where in it each key ends."""
    keys = list(re.finditer(KEY, text))
    name = re.match(NAME, text)
    assert name is not None  # (as a token is read)
    return Access(name[0].lower(), tuple(key[1] or unquoted(key[2]) for key in keys)), [
        key.end() for key in keys
    ]


def rewrite(expression: str, rules: Rules) -> str:
    """The expression after the rules; one that cannot be read stays as it is."""
    def new(match: re.Match[str]) -> str:
        text, rule = match[0], rules.calls.get((match["call"] or "").partition("(")[0].strip().lower())
        if rule:
            return rule([unquoted(one) for one in re.findall(TEXT, text)] if text.endswith(")") else None)
        if match["access"]:
            access, ends = access_of(text)
            given = rules.contexts[access.context](access) if access.context in rules.contexts else None
            return (
                given[0] + text[ends[given[1] - 1] if given[1] else len(access.context) :] if given else text
            )
        return rules.fraction(text) if match["fraction"] and rules.fraction else text
    return expression if tokens(expression) is None else TOKEN.sub(new, expression)


def split(template: str) -> List[Tuple[bool, str]]:
    """The pieces of a template, each with whether it is an expression. A `${{` that is not closed is text."""
    return [(at % 2 == 1, piece) for at, piece in enumerate(PIECE.split(template)) if piece or at % 2]


def has_expression(value: Any) -> bool:
    return isinstance(value, str) and PIECE.search(value) is not None


def literal(value: Any) -> str:
    """The expression that has a value: a literal, or `fromJSON` of a list or a map."""
    if isinstance(value, str):
        return "'" + value.replace("'", "''") + "'"
    text = json.dumps(value, ensure_ascii=False, separators=(",", ":"))
    return f"fromJSON({literal(text)})" if isinstance(value, (list, dict, float)) else text


def lone_text(expression: str) -> str | None:
    """The text that an expression is, in quotes and maybe in parentheses; None if it is anything else."""
    match = re.fullmatch(rf"[\s(]*({TEXT})[\s)]*", expression)
    return unquoted(match[1]) if match else None


def rewrite_template(template: str, rules: Rules) -> str:
    """The template after the rules. An expression that becomes a lone text is written out, unless that could
    begin an expression."""
    def piece(match: re.Match[str]) -> str:
        new = rewrite(match[1], rules)
        text = lone_text(new) if new != match[1] else None
        return (
            match[0]
            if new == match[1]
            else "${{ " + new.strip() + " }}"
            if text is None or "$" in text or "{" in text
            else text
        )
    return PIECE.sub(piece, template)


def rewrite_condition(condition: str, rules: Rules) -> str:
    """The condition after the rules: an expression, or a template where `${{` is in it."""
    return (
        PIECE.sub(lambda it: "${{" + rewrite(it[1], rules) + "}}", condition)
        if has_expression(condition)
        else rewrite(condition, rules)
    )


def template_expression(template: str) -> str:
    """The one expression that has the value of a template."""
    pieces = PIECE.split(template)
    given = [text.strip() for text in pieces[1::2]]
    if len(given) == 1 and pieces[::2] == ["", ""]:
        return given[0]
    shape = "".join(
        text.replace("{", "{{").replace("}", "}}") + f"{{{at}}}" for at, text in enumerate(pieces[::2])
    )
    return (
        "format(" + ", ".join([literal(shape[: shape.rindex("{")]), *given]) + ")"
        if given
        else literal(template)
    )


def expression_of(value: Any) -> str:
    """The expression of a text that may hold templates, or of any other value of YAML."""
    return template_expression(value) if isinstance(value, str) else literal(value)


def grouped(expression: str) -> str:
    """The expression as a part of another one."""
    return expression if lone_text(expression) is not None else f"({expression})"


def as_text(expression: str) -> str:
    """The expression of the text of a value."""
    return (
        expression
        if lone_text(expression) is not None or expression.startswith("format(")
        else f"format('{{0}}', {expression})"
    )


def condition_expression(condition: Any) -> str | None:
    """The expression of a condition, without `${{`; None if there is no condition. A text around `${{ }}`
    makes it a template."""
    if isinstance(condition, bool):
        return "true" if condition else "false"
    if not isinstance(condition, str) or not condition.strip():
        return None
    return template_expression(condition.strip()) if has_expression(condition) else condition.strip()


def conjunction(*conditions: str | None) -> str | None:
    """The expression that holds where all conditions hold."""
    given = [one for one in conditions if one is not None]
    return given[0] if len(given) == 1 else " && ".join(f"({one})" for one in given) or None


def references(expression: str) -> Tuple[List[Access], Set[str]]:
    """The contexts that an expression reads, and the names of the functions that it calls, in small
    letters."""
    parts = tokens(expression) or []
    accesses = [
        access_of(text)[0] for kind, text in parts if kind == "access" and text.lower() not in LITERALS
    ]
    return accesses, {text.partition("(")[0].strip().lower() for kind, text in parts if kind == "call"}


def names_status(expression: str | None) -> bool:
    """Whether an expression calls success, failure, always or cancelled."""
    return expression is not None and bool(references(expression)[1] & STATUS)


def reads_only(expression: str, contexts: Iterable[str]) -> bool:
    """Whether an expression can be evaluated from these contexts alone."""
    accesses, calls = references(expression)
    return (
        tokens(expression) is not None
        and not calls & (STATUS | {"hashfiles"})
        and {it.context for it in accesses} <= set(contexts)
    )


def inner_condition(own: str | None, began: str, success: str, failure: str) -> str:
    """The condition of a part of something that began, where success() and failure() have a meaning of their
    own."""
    rules = Rules({}, {"success": lambda _: success, "failure": lambda _: failure})
    inner = rewrite(own, rules) if own and names_status(own) else conjunction(success, own)
    return f"{'always()' if 'always' in references(own or '')[1] else '!cancelled()'} && {began} && ({inner})"


def below(place: str, access: Access) -> Replacement:
    """A context at another place."""
    return f"{place}.{access.context}", 0


class Program:
    """The built program `actrun`, asked for the values of expressions and the combinations of matrices."""

    def __init__(self, program: str):
        self.program = program
        self.answers: Dict[Tuple[str, ...], Any] = {}
        self.collects = False  # notes what is to be evaluated, for one question about all of it
        self.noted: List[Tuple[str, dict[str, Any]]] = []

    def answer(self, given: List[str], data: str) -> Any:
        """The JSON that the program prints. Raises EvaluationError with its reason."""
        key = (*given, data)
        if key not in self.answers:
            try:
                ran = subprocess.run(
                    [self.program, *given], input=data.encode(), capture_output=True, check=False
                )
                if ran.returncode != 0:
                    raise EvaluationError(
                        ran.stderr.decode("utf-8", "replace").strip().replace("actrun: ", "", 1)
                    )
                self.answers[key] = json.loads(ran.stdout)
            except (OSError, ValueError) as fault:
                raise EvaluationError(f"{self.program} cannot be started: {fault}") from None
        return self.answers[key]

    def evaluate(self, expression: str, contexts: dict[str, Any]) -> Any:
        """The value of an expression. Raises EvaluationError."""
        given, data = [*EVAL, expression], json.dumps(contexts)
        if self.collects and (*given, data) not in self.answers:
            self.noted += [] if (expression, contexts) in self.noted else [(expression, contexts)]
            raise EvaluationError("it is evaluated later")
        return self.answer(given, data)

    def ask_together(self, asked: List[Tuple[str, dict[str, Any]]]) -> None:
        """Evaluates expressions in their contexts by as few questions as possible. One that has no value is
        asked about by itself later."""
        if not asked or self.collects:
            return
        contexts, texts = {}, []
        for at, (expression, given) in enumerate(asked):
            contexts[f"c{at}"] = given
            rule = functools.partial(below, f"inputs.c{at}")
            texts.append(f"toJSON({rewrite(expression, Rules(dict.fromkeys(given, rule)))})")
        shape = ",".join(f"{{{at}}}" for at in range(len(asked)))
        try:
            whole = f"fromJSON(format('[{shape}]', {', '.join(texts)}))"
            values = self.answer([*EVAL, whole], json.dumps({"inputs": contexts}))
            for (expression, given), value in zip(asked, values):
                self.answers[(*EVAL, expression, json.dumps(given))] = value
        except EvaluationError:
            half = len(asked) // 2
            for part in (asked[:half], asked[half:]) if half else ():
                self.ask_together(part)

    def legs(self, matrix: Any) -> List[dict[str, Any]]:
        """The combinations of a matrix, one for each leg. Raises EvaluationError if the planner refuses
        it."""
        job = {"steps": [], "strategy": {"matrix": matrix}}
        plan = self.answer(["plan", "/dev/stdin"], json.dumps({"on": "push", "jobs": {"legs": job}}))
        legs: List[dict[str, Any]] = plan["runs"][0]["jobs"][0]["legs"]
        return legs
