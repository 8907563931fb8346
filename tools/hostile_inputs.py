"""The inputs of hostile.py: texts of the repository, garbled in many ways, by a source of chance.

`made` is what hostile.py calls. All that it makes follows from the state of the source that it is given.
"""
import copy
import glob
import json
import os
import re

TOP = os.path.join(os.path.dirname(os.path.abspath(__file__)), "..")
COMMANDS = ("eval", "plan", "list", "lint", "table", "replay", "graph", "timeline", "why", "debug", "words")
WEIGHTS = (22, 15, 4, 10, 8, 10, 6, 8, 12, 12, 6)
LONGEST_WORD = 131000
# a changed text has fewer bytes
MOST = 4 << 20

EVENTS = {"open": "run", "close": "run", "cancel": "run", "judge": "job"}
EVENTS.update(dict.fromkeys(("ask", "drop", "take", "begin", "end", "finish"), "leg"))
CONTEXTS = "github env vars job jobs steps runner secrets strategy matrix needs inputs".split()
FUNCTIONS = "contains startsWith endsWith format join toJSON fromJSON success failure cancelled always".split()
NUMBERS = (
    "0 1 2 16 255 256 257 4096 65536 65537 -0 -1 00 007 1.0 1e0 1E400 1e999 -1e999 0.1 1. .5 0x10 0xg +1 9007199254740991 9007199254740992 "
    "-9007199254740991 -9007199254740992 4294967296 9223372036854775807 9223372036854775808 18446744073709551615 18446744073709551616"
).split() + ["9" * 40, "1" + "0" * 309, "1" * 5000]
TOKENS = (
    "( ) [ ] . , * ! < <= > >= == != && || & | = $ ${{ }} ${{}} ' '' \" 'a' 'A' '' null true false TRUE nope hashFiles a _b a-b 1.x "
    "{ } : \\ \\u0000 \\ud800 {0} {{ }}} {1} {99999999999999999999} '{0}{0}' 'é' '😀' \t \n \r #"
).split(" ") + CONTEXTS + FUNCTIONS + NUMBERS + [" "]
BYTES = (b"", b"\x00", b"\xff", b"\xc3", b"\xed\xa0\x80", b"\xef\xbb\xbf", b"\n", b"\r", b"\t", b" ", b'"', b"\\", b",", b":", b"{", b"}", b"[", b"]",
         b"null", b"true", b"-", b"0", b"1e999", b"\\ud800", b"\\u0000", b"${{", b"}}", b"'", b"\xe2\x80\xa8", b"\xf0\x9f\x98\x80")
LITERALS = ("null", "true", "false", "''", "'a'", "'it''s'", "'1.5'", "'-0'", "'[1,2]'", "'{\"a\":[1]}'", "'1e999'")
DEREFERENCES = (".a", ".event", ".labels", ".*", "[*]", "[0]", "[-1]", "['a']", "['A']", "['0']", "[github]", "[1.5]", "[9007199254740991]")
SHORT = (None, True, False, 0, 1, 2, 3, [], {}, [[]], [{}], "", " ", "true", "TRUE", "push", "a", "b", "default", "bash", "pwsh")
RAW = ('"\\ud800"', '"\\ud83d\\ude00"', '"\\u0000"', '"\\x"', '"', "nul", "True", "NaN", "Infinity", "// c\n1", "1 2", '{"a":1,"a":2}', "")
DEBUG_LINES = (
    "step back go go-back show", "goto", "break failed", "clear failed", "break leg", "clear leg", "break ends", "clear ends", "break step",
    "clear step",
)
DEEP = (1, 5, 49, 50, 51, 99, 100, 101, 126, 127, 128, 129, 1000, 20000, 200000)
LENGTHS = (1, 2, 255, 256, 257, 65536, 65537, 1048576, 1048577)
KEYS = (
    "name on env defaults concurrency jobs needs if strategy matrix include exclude fail-fast max-parallel continue-on-error outputs steps "
    "uses container services id run shell working-directory with group cancel-in-progress github inputs secrets vars runs version event flow "
    "roots condition fail_fast legs max_parallel number tolerate work kind dir cancel worker leg job answer code true a b"
).split() + ["", "=", "\x00", "\n", "a\nb", "\x1b[2J\x7f", "é", "a b", "<<", "__proto__"]


class Tried:
    """An input: the words, the files beside it, and standard input. It is free where words and files need not fit."""

    def __init__(self, words, files=None, given=b"", free=False):
        self.words = [it.replace(b"\x00", b"")[:LONGEST_WORD] for it in words]
        self.files, self.given, self.free = files or {}, given, free
        first = self.words[0].decode("utf-8", "replace") if self.words else ""
        self.command = first if first in COMMANDS and first != "words" else "words"

    def has_strange_words(self):
        """Whether its words may be refused."""
        names_nothing = self.command == "why" and not is_subject(self.words[2:])
        return self.free or names_nothing or self.words[-1].startswith(b"-") or any(it.decode("utf-8", "replace").encode() != it for it in self.words)


def is_subject(words):
    """Whether words name what `why` may be asked about, or there are none."""
    counts = {b"run": 1, b"job": 1, b"leg": 1, b"step": 2}
    return not words or len(words) - 1 == counts.get(words[0]) and all(it.isdigit() for it in words[1:])


class Seeds:
    """The texts that inputs are built from."""

    def __init__(self):
        self.flows, self.plans, self.records, self.contexts, self.expressions, self.entries = [], [], [], [], [], []
        for name in sorted(glob.glob(os.path.join(TOP, "examples", "**", "*.*"), recursive=True)):
            with open(name, "rb") as it:
                self.add_example(name, it.read())
        for name in sorted(glob.glob(os.path.join(TOP, "crates/conformance/data/*.cases"))):
            with open(name, "rb") as it:
                for line in it.read().split(b"\n"):
                    self.add_case(line)
        for text in self.flows + self.plans:
            self.expressions += re.findall(rb"\$\{\{(.{1,300}?)\}\}", text)
        for kind in ("flows", "plans", "contexts", "expressions", "entries"):
            setattr(self, kind, sorted(set(getattr(self, kind))))

    def add_example(self, name, text):
        if name.endswith(".record"):
            self.records.append(text)
        elif name.endswith(".plan"):
            self.plans.append(text.rstrip(b"\n"))
        elif name.endswith("contexts.json"):
            self.contexts.append(text)
        elif name.endswith((".json", ".yml")):
            self.flows.append(text)

    def add_case(self, line):
        """Keeps the text of a line of a case, where it is of a kind that is known."""
        mark, text = line[:2], line[2:]
        if mark == b": ":
            text = text.partition(b" ")[2]
        if mark == b"$ ":
            if not text.startswith((b"eval", b"plan", b"list", b"table", b"run")):
                self.expressions.append(text)
        elif mark in (b": ", b"| ", b"< "):
            if b'"worker"' in text:
                self.entries.append(text)
            elif b'"runs"' in text:
                self.plans.append(text)
            elif b'"jobs"' in text:
                self.flows.append(text)
            elif re.search(rb'\{"(github|vars|inputs|secrets)"', text):
                self.contexts.append(text)


SEEDS = Seeds()


# bytes

def garbled(chance, text):
    """A text with some of its bytes changed, cut, doubled or moved."""
    text = bytearray(text)
    for _ in range(chance.choice((1, 1, 2, 5, 30))):
        at = chance.randrange(len(text) + 1)
        end = min(len(text), at + chance.choice((0, 0, 1, 1, 2, 8, 64, 1000)))
        way = chance.randrange(6)
        if way == 0:
            text[at:end] = chance.choice(BYTES)
        elif way == 1:
            text[at:end] = bytes(chance.randrange(256) for _ in range(end - at))
        elif way == 2:
            text[at:at] = text[at:end] * chance.choice((1, 2, 10))
        elif way == 3:
            text[at:end] = chance.choice(TOKENS).encode()
        elif way == 4:
            del text[at:end]
        else:
            to = chance.randrange(len(text) + 1)
            text[to:to] = text[at:end]
    if chance.random() < 0.1:
        del text[chance.randrange(len(text) + 1):]
    return bytes(text)


def sometimes_garbled(chance, text, often=0.25):
    return garbled(chance, text) if chance.random() < often else text


# expressions

def expression(chance):
    """A text that may be an expression."""
    way = chance.randrange(7)
    if way == 0:
        text = chance.choice(SEEDS.expressions).decode("utf-8", "replace")
    elif way == 1:
        text = chance.choice(("", " ")).join(chance.choice(TOKENS) for _ in range(chance.choice((1, 3, 8, 30, 300))))
    elif way == 2:
        text = nested_expression(chance)
    elif way == 3:
        text = grown_expression(chance)
    elif way == 4:
        part = chance.choice(("||1", "&&1", "==1", ".a", ".*", "[0]", "[*]", "!", "<'a'", ",1", " "))
        text = "1" + part * chance.choice((1, 10, 48, 49, 50, 60, 1000, 6666, 9999, 10000, 20000))
    else:
        text = spelled_expression(chance, chance.choice((1, 2, 3, 4, 6)))
    if chance.random() < 0.3:
        at = chance.randrange(len(text) + 1)
        text = text[:at] + chance.choice(TOKENS) + text[at + chance.choice((0, 1, 2)):]
    return text


def nested_expression(chance):
    before, after = chance.choice((("(", ")"), ("!", ""), ("[", "]"), ("github[", "]"), ("toJSON(", ")"), ("fromJSON(", ")"), ("join(", ",',')"),
                                   ("format('{0}',", ")"), ("contains(1,", ")"), ("1==(", ")"), ("(", ""), ("", ")"), ("github.*[", "]")))
    count = chance.choice((1, 5, 23, 24, 25, 47, 48, 49, 50, 51, 100, 5000, 19990))
    return before * count + chance.choice(("1", "'a'", "github", "null", "", "github.*")) + after * count


def grown_expression(chance):
    """An expression whose value grows with each level."""
    text = chance.choice(("'0123456789'", "toJSON(github)", "github", "'{0}'", "'\"\\'", "github.*.*"))
    for _ in range(chance.choice((2, 5, 10, 20, 24, 48))):
        way = chance.randrange(3)
        if way == 0:
            text = f"format('{'{0}' * chance.choice((1, 2, 10, 50))}',{text})"
        elif way == 1:
            text = f"toJSON({text})"
        else:
            text = f"join(fromJSON(format('[\"{{0}}\",\"{{0}}\"]',{text})),{chance.choice(TOKENS[:40])})"
        if len(text) > 30000:
            break
    return text


def spelled_expression(chance, depth):
    """A text that the grammar has."""
    def inner():
        return spelled_expression(chance, depth - 1)
    way = chance.randrange(9) if depth else chance.randrange(3)
    if way == 0:
        return chance.choice(LITERALS + tuple(NUMBERS[:20]))
    if way in (1, 2):
        text = chance.choice(CONTEXTS)
        for _ in range(chance.choice((0, 1, 2, 4))):
            text += chance.choice(DEREFERENCES)
        return text
    if way == 3:
        return "(" + inner() + ")" + chance.choice(("", ".a", ".*", "[0]"))
    if way == 4:
        return "!" + inner()
    if way in (5, 6):
        return inner() + chance.choice((" == ", "!=", "<", " >= ", "&&", " || ", ">", "<=")) + inner()
    name = chance.choice(FUNCTIONS)
    if chance.random() < 0.3:
        name = "".join(chance.choice((it.upper(), it.lower())) for it in name)
    return f"{name}({', '.join(inner() for _ in range(chance.choice((0, 1, 1, 2, 2, 3))))})"


def template(chance):
    """A text that may have expressions inside."""
    parts = []
    for _ in range(chance.choice((1, 1, 2, 5))):
        parts.append(chance.choice(("", " ", "x", "}}", "'", "$", "a: ${", "\n", "\x00", "é")))
        parts.append("${{" + chance.choice(("", " ")) + expression(chance)[:3000] + chance.choice((" }}", "}}", "}", "")))
    return "".join(parts)


# JSON

class Raw:
    """JSON text that is in a value as it is."""

    def __init__(self, text):
        self.text = text


def spelled(value):
    """The JSON of a value, in which there may be raw text."""
    raws = []

    def lay(raw):
        raws.append(raw.text)
        return f"@@raw {len(raws) - 1}@@"
    text = json.dumps(value, default=lay, separators=(",", ":"), ensure_ascii=False)
    if raws:
        text = re.sub(r'"@@raw ([0-9]+)@@"', lambda it: raws[int(it[1])], text)
    return text.encode("utf-8", "surrogatepass")


def strange_value(chance):
    """A value that may be out of place."""
    way = chance.randrange(9)
    if way == 0:
        return Raw(chance.choice(NUMBERS))
    if way == 1:
        return copy.deepcopy(chance.choice(SHORT))
    if way == 2:
        return template(chance)
    if way == 3:
        return expression(chance)
    if way == 4:
        before, after = chance.choice((("[", "]"), ('{"a":', "}"), ("[1,", "]"), ("[", ""), ('{"":[', "]}")))
        count = chance.choice(DEEP)
        return Raw(before * count + "1" + after * count)
    if way == 5:
        return chance.choice(("x", "é", "\x00", "\n", "😀", "${{", "'", "\ufeff", "=")) * chance.choice(LENGTHS)
    if way == 6:
        return [strange_value(chance) for _ in range(chance.choice((0, 1, 2, 4)))]
    if way == 7:
        return {chance.choice(KEYS): strange_value(chance) for _ in range(chance.choice((0, 1, 2, 4)))}
    return Raw(chance.choice(RAW))


def places(value, limit=4000):
    """The lists and maps inside a value, itself one of them."""
    found, at = [value], 0
    while at < len(found) < limit:
        inner = found[at].values() if isinstance(found[at], dict) else found[at]
        found += [it for it in inner if isinstance(it, (dict, list))]
        at += 1
    return found


def change(chance, value):
    """Changes something in a list or a map."""
    place = chance.choice(places(value))
    if isinstance(place, dict):
        key = chance.choice(sorted(place)) if place and chance.random() < 0.8 else chance.choice(KEYS)
        if chance.random() < 0.2:
            place.pop(key, None)
        elif chance.random() < 0.15 and key in place:
            place[chance.choice(KEYS)] = place.pop(key)
        else:
            place[key] = strange_value(chance)
    elif chance.random() < 0.3 and place:
        del place[chance.randrange(len(place))]
    elif chance.random() < 0.3 and place:
        again, count = chance.choice(place), chance.choice((1, 2, 16, 255, 256))
        # (copies, so that what is changed next grows in one place alone)
        place += [copy.deepcopy(again) for _ in range(count if count * len(spelled(again)) < MOST else 1)]
    else:
        place.insert(chance.randrange(len(place) + 1), strange_value(chance))


def changed_json(chance, text, often=0.25):
    """A JSON text, changed as a value and maybe as bytes."""
    count = chance.choice((0, 1, 1, 1, 2, 3, 8))
    try:
        value = json.loads(text)
    except (ValueError, RecursionError):
        return garbled(chance, text)
    if count and isinstance(value, (dict, list)):
        try:
            for _ in range(count):
                change(chance, value)
            made = spelled(value)
        except MemoryError:
            return garbled(chance, text)
        text = made if len(made) < MOST else text
    return sometimes_garbled(chance, text, often)


# workflows and contexts

def flow(chance):
    """A text that may be a workflow."""
    way = chance.randrange(10)
    if way < 7:
        return changed_json(chance, chance.choice(SEEDS.flows))
    if way == 7:
        return spelled(wide_flow(chance))
    if way == 8:
        return changed_json(chance, spelled({"on": "push", "jobs": {"a": {"strategy": {"matrix": matrix(chance)}, "steps": []}}}), 0.1)
    return spelled({"on": "push", "env": {"A": template(chance)}, "jobs": {"a": {"if": expression(chance), "steps": [
        {"run": template(chance), "if": expression(chance), "env": {"B": template(chance)}, "continue-on-error": template(chance)}]}}})


def wide_flow(chance):
    """A workflow of many jobs or steps."""
    count, steps = chance.choice((1, 5, 64, 255, 256, 257)), chance.choice((0, 1, 2, 255, 256, 257))
    if count > 64 and steps > 2:
        steps = 1
    jobs, done = {}, [{"run": "true", "id": f"s{it}"} for it in range(steps)]
    for number in range(count):
        few = chance.choice((0, 1, 1, 2, 8, number))
        needs = [f"j{chance.randrange(number + (chance.random() < 0.002))}" for _ in range(few)] if number else []
        if chance.random() < 0.3 and number:
            needs = f"j{number - 1}"
        jobs[f"j{number}"] = {"needs": needs, "steps": done}
    return {"on": chance.choice(("push", ["push", "push"], {}, [])), "jobs": jobs}


def matrix(chance):
    """What may be a matrix."""
    def pairs():
        return {chance.choice("abcd"): chance.choice((1, 2, "x", None, [1], {"k": 1}, True, 0)) for _ in range(chance.choice((0, 1, 1, 2, 4)))}

    def values():
        return [chance.choice((it, it, 1, "x", [1], {"k": 1}, True)) for it in range(chance.choice((0, 1, 2, 4, 16, 41, 256, 257)))]
    made_of = {chance.choice("abcdefgh"): values() for _ in range(chance.choice((0, 1, 2, 3, 4, 8)))}
    for name in ("include", "exclude"):
        if chance.random() < 0.5:
            made_of[name] = [pairs() for _ in range(chance.choice((0, 1, 3, 20, 256, 300)))]
    return made_of


def contexts(chance):
    return changed_json(chance, chance.choice(SEEDS.contexts))


# records

def entry(chance):
    """A line that may be an entry."""
    if chance.random() < 0.3:
        return changed_json(chance, chance.choice(SEEDS.entries), 0.1)
    event = chance.choice(sorted(EVENTS))
    number = chance.choice((0, 0, 0, 1, 1, 2, 3, 9, 9007199254740991))
    value = {"event": event, EVENTS[event]: number, "worker": chance.choice((0, 0, 0, 1, 2, 15, 16))}
    if event == "end":
        value["answer"] = chance.choice((
            {"kind": "not-started"}, {"kind": "bad-output"}, {"kind": "exit", "code": chance.choice((0, 0, 1, 255, 256, -1)), "outputs": {}},
            {"kind": "exit", "code": 0, "outputs": {chance.choice(KEYS): chance.choice(("", "x", "x" * 65536, "x" * 65537))}},
            {"kind": "exit", "code": chance.choice((0, 1)), "outputs": {}, "env": {chance.choice((*KEYS, "a=b", "\0", "")): chance.choice(
                ("", "x", "{", "\0", "x" * 65536, "x" * 65537))}}))
    return spelled(value)


def record(chance):
    """A text that may be a record."""
    lines = chance.choice(SEEDS.records).rstrip(b"\n").split(b"\n")
    way = chance.randrange(8)
    if way == 0:
        lines = [chance.choice(SEEDS.plans)] + [chance.choice(SEEDS.entries) for _ in range(chance.choice((0, 1, 3, 10, 40)))]
    elif way == 1:
        lines[0] = changed_json(chance, lines[0], 0.1)
    for _ in range(chance.choice((0, 0, 1, 1, 2, 5))):
        change_lines(chance, lines)
    text = b"\n".join(lines) + chance.choice((b"\n", b"\n", b"", b"\n\n", b"\r\n"))
    return sometimes_garbled(chance, text, 0.1)


def change_lines(chance, lines):
    """Changes some lines of a record, its first one seldom."""
    at = chance.randrange(0 if chance.random() < 0.05 else 1, len(lines) + 1)
    way = chance.randrange(8)
    if way == 0:
        lines.insert(at, entry(chance))
    elif way == 1:
        del lines[at:at + chance.choice((1, 1, 3, 1000))]
    elif way == 2:
        lines[at:at] = lines[at:at + chance.choice((1, 3))]
    elif way == 3:
        part = lines[at:at + chance.choice((2, 4, 1000))]
        chance.shuffle(part)
        lines[at:at + len(part)] = part
    elif way == 4 and at < len(lines):
        lines[at] = changed_json(chance, lines[at])
    elif way == 5 and at < len(lines):
        lines[at] = re.sub(rb"[0-9]+", lambda it: chance.choice(NUMBERS[:6]).encode() if chance.random() < 0.3 else it[0], lines[at])
    elif way == 6:
        lines += [entry(chance) for _ in range(chance.choice((1, 5, 20)))]
    else:
        lines.insert(at, chance.choice((b"", b" ", b"\r", b"null", b"{}", b"[]", b"\xff")))
    if not lines:
        lines.append(b"")


def questions(chance):
    """Lines that may ask the debugger."""
    asked = []
    for _ in range(chance.choice((0, 1, 3, 10, 40))):
        word = chance.choice(chance.choice(DEBUG_LINES).split() if chance.random() < 0.6 else DEBUG_LINES[1:])
        if word == "goto" or word.endswith((" leg", " ends", " step")):
            for _ in range(1 + word.endswith("step")):
                word += " " + chance.choice(("0", "1", "2", "3", "8", "007", "99", "x", "", "-1", *NUMBERS))
        asked.append(sometimes_garbled(chance, word.encode(), 0.08))
    return b"\n".join(asked) + chance.choice((b"\n", b"\n", b"", b"\n\n"))


# the commands

def made_eval(chance):
    words = [b"eval"]
    files = {}
    if chance.random() < 0.5:
        words += [b"--contexts", b"contexts.json"]
        files["contexts.json"] = contexts(chance)
    return Tried(words + [sometimes_garbled(chance, expression(chance).encode("utf-8", "surrogatepass"), 0.08)], files)


def made_plan(chance):
    words, files = [b"plan"], {"a.json": flow(chance)}
    way = chance.randrange(6)
    if way == 0:
        words += [b"--event", chance.choice((b"push", b"push", b"pull_request", b"", b"\xff"))]
    elif way == 1:
        words += [b"--job", chance.choice((b"a", b"b", b"build", b"test", b"", b"j255"))]
    if chance.random() < 0.3:
        words += [b"--contexts", b"contexts.json"]
        files["contexts.json"] = contexts(chance)
    words.append(b"a.json")
    if chance.random() < 0.1:
        files["b.json"] = flow(chance)
        words += [b"b.json"] * chance.choice((1, 1, 2, 63, 64, 65))
    return Tried(words, files)


def made_list(chance):
    return Tried([b"list"] + [b"a.json"] * chance.choice((1, 1, 1, 2, 64, 65)), {"a.json": flow(chance)})


def made_lint(chance):
    words, files = [b"lint"], {"a.json": flow(chance)}
    words += [b"a.json"] * chance.choice((1, 1, 1, 1, 2, 8))
    if chance.random() < 0.1:
        files["b.json"] = flow(chance)
        words.append(b"b.json")
    return Tried(words, files)


def made_table(chance):
    return Tried([b"table"], given=record(chance))


def made_replay(chance):
    option = chance.choice(([], [], [b"--settled"], [b"--changes"]))
    return Tried([b"replay", *option, b"record"], {"record": record(chance)})


def made_graph(chance):
    text = record(chance)
    if chance.random() < 0.3:
        text = changed_json(chance, chance.choice(SEEDS.plans), 0.1) + chance.choice((b"", b"\n"))
    return Tried([b"graph", b"record"], {"record": text})


def made_timeline(chance):
    return Tried([b"timeline", b"record"], {"record": record(chance)})


def subject(chance):
    """Words that may name what `why` is asked about."""
    words = [chance.choice(("run", "job", "leg", "step", "step"))]
    for _ in range(1 + (words[0] == "step")):
        words.append(chance.choice(("0", "0", "0", "1", "1", "2", "3", "4", "7", "16")) if chance.random() < 0.8 else chance.choice(NUMBERS))
    words = [sometimes_garbled(chance, it.encode(), 0.04) for it in words]
    way = chance.randrange(20)
    if way == 0:
        del words[chance.randrange(len(words))]
    elif way == 1:
        words.insert(chance.randrange(len(words) + 1), chance.choice((b"0", b"1", b"-1", b"run", b"leg", b"Step", b"group", b"", b" ", b"\xff")))
    elif way == 2:
        words = [b" ".join(words)]
    return words


def made_why(chance):
    return Tried([b"why", b"record"] + (subject(chance) if chance.random() < 0.6 else []), {"record": record(chance)})


def made_debug(chance):
    return Tried([b"debug", b"record"], {"record": record(chance)}, questions(chance))


def made_words(chance):
    """Words at random. `run` is none of them, since it starts programs."""
    some = (b"eval", b"table", b"plan", b"list", b"lint", b"replay", b"graph", b"timeline", b"why", b"debug", b"job", b"leg", b"step", b"0",
            b"--settled", b"--changes", b"--contexts", b"--event", b"--job", b"--workers", b"--stubs", b"--record", b"--work", b"--", b"-", b"-h", b"--help",
            b"--version", b"help", b"", b" ", b"1", b"push", b"a", b"a.json", b"record", b"contexts.json", b"missing.json",
            b"--contexts=contexts.json", b"--event=push", b"--job=a", b"-1", b"\xff", b"--contexts=", b"/", b".", b"x" * 300)
    words = [chance.choice(some) for _ in range(chance.choice((0, 1, 1, 2, 3, 4, 6)))]
    files = {"a.json": chance.choice(SEEDS.flows), "record": chance.choice(SEEDS.records), "contexts.json": chance.choice(SEEDS.contexts)}
    return Tried(words, files, chance.choice(SEEDS.records), free=True)


def made(chance):
    """An input."""
    return globals()["made_" + chance.choices(COMMANDS, WEIGHTS)[0]](chance)
