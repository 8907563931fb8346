#!/usr/bin/env python3
"""Feeds the program hostile inputs, and looks whether each answer is one that docs/REFERENCE.md allows.

usage: tools/hostile.py NUMBER SEED [PROGRAM]      PROGRAM is crates/actrun/out/actrun if none is named

Inputs 0 to NUMBER - 1 of the seed are tried, for all commands but `run`. An input is built from the examples and of the texts of the
cases: bytes garbled, lines shuffled, texts cut, tokens at random, values exchanged, brackets nested deep, numbers huge. Input I
of a seed is always the same, whatever NUMBER is.

Of each answer it is asked that
- the program ended by itself within 60 seconds of a processor, with a status from 0 to 4, and 1 and 4 only from `replay`, `graph`
  and `timeline`;
- standard error is empty where the status is 0, 1 or 4, and where `lint` refuses a file; else it is one line that REFERENCE.md has, of
  that status;
- standard output is empty next to an error, and else is what the command prints: a value, a plan, jobs by stages, what is to be known of
  the files that `lint` is given, in lines without a control character, a board, a graph, a picture that a reader of XML takes,
  which names nothing outside of it, a tree of reasons, answers of the debugger;
- out of memory is never reported, since there is memory;
- a plan that was printed is read again by `table`;
- a file that `lint` names alone is refused by it exactly where `plan` refuses it, by the same name;
- `replay`, `graph`, `timeline` and `why` refuse a record exactly where `table` does, by the same line, but for one that is no entry:
  `table` may refuse one before it, since it plays each before it reads the next;
- the status of `replay` fits its board, which is that of `table`, and to which the places of `--changes` lead; those of `graph`, whose
  braces and quotes are closed, and of `timeline` fit it too, and a row of `timeline` says how far the board has what it is for;
- `why` refuses words that name nothing of what it knows, and where the plan has not what they name it says so; else that is its
  root; without such words it reports each run and each leg that ended, where that did not succeed, and no other is a root;
- `debug` answers each line once.

As many inputs are tried side by side as there are processors for this program (`taskset` lessens them). What offends is kept: each
input in a folder of its own, named after its number, with `why`. The last line has the figures; the status is 1 where one offends.
"""
import json
import multiprocessing
import os
import random
import re
import resource
import shlex
import shutil
import signal
import subprocess
import sys
import tempfile
import time
from collections import Counter
from xml.etree import ElementTree

import hostile_inputs

TOP = os.path.join(os.path.dirname(os.path.abspath(__file__)), "..")
SECONDS = 60
MEMORY = 4 << 30
SVG = "{http://www.w3.org/2000/svg}"

LOAD = "NotJson|Version|NotPlan"
EVENT = "NoSuch|WrongState|OtherWorker|NeedsOpen|SlotsFull|Stopping|NotStopping|StepsLeft|BadAnswer"
FLOW = "NotJson|NotWhole|Missing|WrongShape|BadId|LeftOut|UnknownShell"
EXPR = "UnclosedText|BadNumber|BadChar|Unexpected|UnknownName|UnknownFunction|ArgumentCount|TooDeep|TooLong"
VALUE = "NotWhole|NoIdentity|BadFormat|BadJson|TooLarge"
RECORD_LINE = rf"load ({LOAD})|line [1-9][0-9]* (NotEntry|{EVENT})"
NOT_THERE = b"actrun: why NoSuch\n"
PLAN_LINE = (
    rf"flow [^\n]+ ({FLOW})|plan (NoWorkflow|UnknownJob|TooMany|UnknownNeed|Cycle)|plan Matrix (EmptyVariable|NoCombination|TooMany)"
    rf"|plan Expr ({EXPR}|UnclosedTemplate|StatusHere) at [0-9]+"
)
# the lines of status 2 of each command
REFUSALS = {
    "eval": rf"flow [^\n]+ ({FLOW})|expr ({EXPR}) at [0-9]+|value ({VALUE})",
    "plan": PLAN_LINE,
    "list": PLAN_LINE,
    "table": RECORD_LINE,
    "replay": RECORD_LINE,
    "graph": RECORD_LINE,
    "timeline": RECORD_LINE,
    "why": rf"{RECORD_LINE}|why NoSuch",
    "debug": RECORD_LINE,
}

RESULT = "success|failure|cancelled|skipped"
STOP_AND_GROUP = r'( stop)?( group "([^"\\]|\\.)*")?'
BOARD_LINE = re.compile(
    rf"run [0-9]+ (new|waiting|going|closed ({RESULT})){STOP_AND_GROUP}|job [0-9]+ (unjudged|open|shut ({RESULT}))"
    rf"|leg [0-9]+ (fresh|waiting|admitted|running [0-9]+ (idle|call)|ended (failure tolerated|{RESULT})){STOP_AND_GROUP}"
    rf"|step [0-9]+ ({RESULT}) ({RESULT}) \{{[^\n]*\}}|(out|set) \{{[^\n]+\}}|ends( [0-9]+)*"
)
SHOWN = r"[^\x00-\x1f\x7f]*"
NAMED = rf"[0-9]+ \({SHOWN}\)"
MEMBER = rf"(run|leg) {NAMED}"
AT, SINCE, FAULTED = " at line [0-9]+", " since line [0-9]+", rf"has no value: ({VALUE})"
WAITS = rf"waits{SINCE} for the group {SHOWN} behind {MEMBER}"
STOPPED = rf"it was told to stop|leg {NAMED} failed, and the job fails fast|its run was told to stop"
UNTRUE = rf"its condition is not true: {SHOWN}"
TEXT = "a variable of its workflow|a variable of its job|a variable of its own|its condition|a text of what it does"
REASONS = {
    "run": rf"is new|{WAITS}|is going{SINCE}(, when {MEMBER} left its group)?|(succeeded|failed|was cancelled){AT}"
           rf"|was cancelled{AT}: {MEMBER} took its place in the group|failed{AT}: the name of its group {FAULTED}",
    "job": rf"was not judged|is open{SINCE}|succeeded|failed|was cancelled|was cancelled{AT}: its run was told to stop"
           rf"|was skipped{AT}: ((it has no condition|its condition names no status function), so all that it needs has to succeed|{UNTRUE})"
           rf"|failed{AT}: its condition {FAULTED}",
    "leg": rf"has not asked|{WAITS}|was admitted{AT}(, when {MEMBER} left its group)?|runs{SINCE} by worker [0-9]+|ended success{AT}"
           rf"|ended failure{AT}(, which is tolerated|: the name of its group {FAULTED})?"
           rf"|ended cancelled{AT}: ({MEMBER} took its place in the group|its own run holds its group|{STOPPED})",
    "step": rf"has not begun|runs{SINCE}|succeeded{AT}|was skipped{AT}: (step [0-9]+ counts as a failure|{STOPPED}|{UNTRUE})"
            rf"|failed{AT}: (the program ended with [0-9]+|it was not started|what it gave could not be read|({TEXT}) {FAULTED})"
            rf"(, which is passed over)?",
}
TOLD_TO_STOP = rf"{MEMBER} was told to stop({AT} by (cancel|{MEMBER}, a newer member of its group)| \(above\))"
REASON_LINE = re.compile("|".join([TOLD_TO_STOP, *(rf"{kind} {NAMED} (\(above\)|{said})" for kind, said in REASONS.items())]))
# how a row of a timeline says what the board says in another word
STANDS = {"new": ("not begun",), "unjudged": ("not begun",), "fresh": ("not begun",), "open": ("going", "success", "failure", "cancelled")}
DEBUG_LINE = re.compile(r"place [0-9]+ of [0-9]+|debug (AtEnd|AtStart|NoPlace|NoBreak)|break set|cleared|no such break|unknown command")
LINT_REST = re.compile(r": [^\x00-\x1f\x7f]+: [^\x00-\x1f\x7f]+")
REFUSED_LINE = re.compile(r"a\.json: \S.*?: refused, ([A-Za-z]+(?: [A-Za-z]+)?(?: at [0-9]+)?): .+")
QUOTED = re.compile(r'"(?:[^"\\]|\\.)*"', re.DOTALL)
TABLE = hostile_inputs.Tried([b"table"])
PLAN = hostile_inputs.Tried([b"plan", b"a.json"])
OF_A_RECORD = ([b"replay", b"record"], [b"replay", b"--settled", b"record"], [b"replay", b"--changes", b"record"], [b"graph", b"record"],
               [b"timeline", b"record"], [b"why", b"record"])
LIST_LINE = re.compile(r"stage [0-9]+|job [0-9]+ run [0-9]+ [A-Za-z_][A-Za-z0-9_-]*")


def used():
    """The processor seconds of the programs that ended."""
    found = resource.getrusage(resource.RUSAGE_CHILDREN)
    return found.ru_utime + found.ru_stime


class Answer:
    """What a program wrote and told, and its status."""

    def __init__(self, program, words, given, room):
        began, pipe = used(), subprocess.PIPE
        with subprocess.Popen([program, *words], stdin=pipe, stdout=pipe, stderr=pipe, cwd=room, close_fds=False) as ran:
            # (on a busy machine a second of a processor may take many; with a `timeout` the end would be looked for every few ms)
            signal.alarm(20 * SECONDS)
            try:
                self.out, self.err = ran.communicate(given)
                self.status = ran.returncode
            except TimeoutError:
                ran.kill()
                self.status, self.out, self.err = None, b"", b""
            signal.alarm(0)
        self.seconds = used() - began


def lines_of(text):
    """The lines of a text, if each ends with a newline."""
    if text and not text.endswith("\n"):
        return None
    return text.split("\n")[:-1]


def is_board(lines):
    """Whether lines are the text of a board."""
    return bool(lines) and lines[-1].startswith("ends") and all(BOARD_LINE.fullmatch(it) for it in lines)


def answers_of(out):
    """How many answers of the debugger, a board among them, are in what it printed."""
    return sum(it.startswith("ends") or DEBUG_LINE.fullmatch(it) is not None for it in lines_of(out.decode()))


def status_of_board(lines):
    """The status with which `replay` reports a board."""
    runs = [it.split(" ") for it in lines if it.startswith("run ")]
    if any(it[2] != "closed" for it in runs):
        return 4
    return 0 if all(it[3] == "success" for it in runs) else 1


def is_lint_line(tried, line):
    """Whether a line tells something of a place of a file that the words name."""
    names = [it for it in tried.files if it.encode() in tried.words]
    return any(line.startswith(it) and LINT_REST.fullmatch(line[len(it):]) for it in names)


def wrong_text(tried, text):
    """What is wrong with the text that a command printed, or nothing."""
    command, lines = tried.command, lines_of(text)
    if lines is None:
        return "its text does not end with a newline"
    if command in ("eval", "plan"):
        try:
            value = json.loads(text)
        except (ValueError, RecursionError):
            return "it printed no JSON"
        if len(lines) != 1 or command == "plan" and value.get("version") != 2:
            return "it printed no line with a value"
    elif command == "list":
        if not lines or not all(LIST_LINE.fullmatch(it) for it in lines):
            return "it printed no jobs by stages"
    elif command == "lint":
        if not all(is_lint_line(tried, it) for it in lines):
            return "it printed what is no line of lint"
    elif command == "graph":
        if not is_graph(text):
            return "it printed no graph"
    elif command == "timeline":
        if not is_picture(text):
            return "it printed no picture"
    elif command == "why":
        if not is_tree(lines):
            return "it printed no tree of reasons"
    elif command == "debug":
        if not all(BOARD_LINE.fullmatch(it) or DEBUG_LINE.fullmatch(it) for it in lines):
            return "it printed no answers of the debugger"
    elif not is_board(last_board(lines)):
        return "it printed no board"
    return None


def without_settled(lines):
    """The lines of a board, without the last if that says whether it is settled."""
    return lines[:-1] if lines and lines[-1] in ("settled yes", "settled no") else lines


def last_board(lines):
    """The lines of the board that `replay` printed: of places that of the last one."""
    return board_of_places(lines) if lines[:1] == ["place 0"] else without_settled(lines)


def board_of_places(lines):
    """The board at the last place, by the board at place 0 and what each later place changes; nothing if places are misnumbered."""
    places = [it for it in lines if it.startswith("place ")]
    if places != [f"place {at}" for at in range(len(places))]:
        return []
    blocks, block = {}, []
    for line in lines:
        kind, *rest = line.split(" ")
        if kind in ("run", "job", "leg"):
            block = blocks.setdefault((kind, rest[0]), [])
            block[:] = [line, *(it for it in block[1:] if not it.startswith("out "))]
        elif kind == "ends":
            blocks["ends"] = [" ".join([*blocks.get("ends", ["ends"]), *rest])]
        elif kind != "place":
            block.append(line)
    return [line for block in blocks.values() for line in block]


def is_graph(text):
    """Whether a text is a graph: what stands between quotes aside, its braces are closed, and it has nothing but nodes and edges."""
    bare = QUOTED.sub('""', text)
    own = r"\t*(digraph plan \{|subgraph cluster_\d+ \{|\}|rankdir=LR;|fontname=Helvetica;|node \[[^\]]*\];|label=\"\";" \
          r"|j\d+ \[label=\"\"( fillcolor=[a-z]+)?\];|j\d+ -> j\d+;)"
    return bare.count("{") == bare.count("}") and all(re.fullmatch(own, it) for it in bare.split("\n")[:-1])


def is_picture(text):
    """Whether a text is a picture in SVG: XML of a title, a style, bars with a title and labels, whose attributes are classes and numbers."""
    try:
        top = ElementTree.fromstring(text)
    except ElementTree.ParseError:
        return False
    if top.tag != f"{SVG}svg" or [it.tag for it in top][:2] != [f"{SVG}title", f"{SVG}style"]:
        return False
    return all(is_shape(it) for it in list(top)[2:])


def is_shape(it):
    """Whether an element is a bar or a label, with a text that has no control character."""
    numbers = {f"{SVG}rect": ("x", "y", "width", "height"), f"{SVG}text": ("x", "y")}.get(it.tag)
    if numbers is None or sorted(it.keys()) != sorted(("class", *numbers)) or not all(it.get(key).isdecimal() for key in numbers):
        return False
    inner = list(it)
    if it.tag == f"{SVG}rect":
        if [title.tag for title in inner] != [f"{SVG}title"]:
            return False
        it, inner = inner[0], list(inner[0])
    return not inner and not re.search(r"[\x00-\x1f\x7f]", it.text or "")


def is_tree(lines):
    """Whether lines are reasons, each at most two blanks deeper than the one before it, and nothing below what was told already."""
    most = 0
    for line in lines:
        bare = line.lstrip(" ")
        blanks = len(line) - len(bare)
        if blanks % 2 or blanks > most or not REASON_LINE.fullmatch(bare):
            return False
        most = blanks if bare.endswith(" (above)") else blanks + 2
    return True


def wrong_fault(tried, answer, line):
    """What is wrong with an answer that is a fault, or nothing."""
    if answer.out:
        return "it printed something beside a fault"
    told = re.fullmatch(r"actrun: ([^\n]*)\n", line)
    if not told:
        return "standard error is not one line of the program's"
    if told[1] == "memory":
        return "it reported out of memory"
    if told[1] in ("io", "words"):
        fits = answer.status == 3 and tried.free if told[1] == "io" else answer.status == 2 and tried.has_strange_words()
        return None if fits else f"it told {told[1]}, for which there is no reason"
    fits = answer.status == 2 and re.fullmatch(REFUSALS.get(tried.command, "words"), told[1])
    return None if fits else "its line is none that REFERENCE.md has for the command and the status"


def wrong(tried, answer):
    """What is wrong with an answer, or nothing."""
    command = tried.command
    if answer.status is None or answer.seconds > SECONDS:
        return f"it did not end within {SECONDS} seconds of a processor"
    if answer.status not in range(5):
        return f"it ended with {answer.status}"
    try:
        out, err = answer.out.decode(), answer.err.decode()
    except UnicodeDecodeError:
        return "it wrote what is no UTF-8"
    if command == "why" and not tried.free and tried.has_strange_words() and err != "actrun: words\n":
        return "it takes words that name nothing"
    if answer.status == 3 or answer.status == 2 and (command != "lint" or err):
        return wrong_fault(tried, answer, err)
    if err:
        return "it told a fault, and its status is that of none"
    if answer.status in (1, 4) and command not in ("replay", "graph", "timeline"):
        return "only replay, graph and timeline have this status"
    found = wrong_text(tried, out)
    if found is None and command == "replay" and status_of_board(last_board(lines_of(out))) != answer.status:
        found = "its status is not that of the board"
    return found


def wrong_together(tried, answer, program, room):
    """What is wrong with an answer, compared with that of another command; or nothing."""
    if tried.command == "plan" and answer.status == 0:
        other = Answer(program, ["table"], answer.out, room)
        return wrong(TABLE, other) or (None if other.status == 0 else "the plan that it printed is refused by table")
    if tried.words == [b"debug", b"record"] and answer.status == 0:
        asked = tried.given.count(b"\n") + (tried.given[-1:] not in (b"", b"\n"))
        return None if asked == answers_of(answer.out) else "it answered more lines than it was asked, or fewer"
    if tried.words == [b"lint", b"a.json"] and answer.status in (0, 2):
        return wrong_beside_plan(answer, Answer(program, ["plan", "a.json"], b"", room))
    is_asked = tried.command == "why" and not tried.has_strange_words()
    if (tried.words in OF_A_RECORD or is_asked) and answer.status != 3:
        return wrong_beside_table(tried, answer, Answer(program, ["table"], tried.files["record"], room))
    return None


def wrong_beside_plan(answer, other):
    """What is wrong with an answer of `lint`, compared with that of `plan`; or nothing."""
    found = wrong(PLAN, other)
    if found or (other.status == 2) != (answer.status == 2):
        return found or "plan refuses what lint lets pass, or the other way round"
    refused = REFUSED_LINE.match(answer.out.decode().split("\n")[0])
    told = re.fullmatch(r"actrun: (?:plan|flow a\.json) (.*)\n", other.err.decode())
    if answer.status == 2 and not (refused and told and refused[1] == told[1]):
        return "lint refuses by another name than plan"
    return None


def wrong_beside_table(tried, answer, other):
    """What is wrong with an answer, compared with that of `table`; or nothing."""
    found, is_refused = wrong(TABLE, other), answer.status == 2 and answer.err != NOT_THERE
    if found is None and (other.status == 2) != is_refused:
        found = f"table refuses what {tried.command} plays, or the other way round"
    if found is None and is_refused and not is_same_refusal(answer, other):
        found = f"{tried.command} refuses it for another reason than table"
    if found or is_refused:
        return found
    board = lines_of(other.out.decode())
    if tried.command == "replay":
        return wrong_replay(tried, answer, board)
    if tried.command == "why":
        return wrong_reasons(tried, answer, board)
    # (a plan alone is drawn by `graph` with status 0)
    is_alone = tried.command == "graph" and b"\n" not in tried.files["record"].rstrip(b"\n")
    if not is_alone and answer.status != status_of_board(board):
        return "its status is not that of the board"
    return wrong_rows(answer, board) if tried.command == "timeline" else None


def is_same_refusal(answer, other):
    """Whether a record is refused as `table` refuses it, which plays each line before it reads the next."""
    told, beside = (re.fullmatch(rb"actrun: line ([0-9]+) ([A-Za-z]+)\n", it.err) for it in (answer, other))
    is_read_first = told and beside and told[2] == b"NotEntry" and int(told[1]) > int(beside[1])
    return answer.err == other.err or is_read_first


def wrong_replay(tried, answer, board):
    """What is wrong with the text of `replay`, compared with a board; or nothing."""
    told = lines_of(answer.out.decode())
    lines = last_board(told)
    if (told[-1:] in (["settled yes"], ["settled no"])) != (b"--settled" in tried.words):
        return "it tells whether the board is settled, and is not asked, or the other way round"
    if (told[:1] == ["place 0"]) != (b"--changes" in tried.words):
        return "it reports places, and is not asked, or the other way round"
    return None if lines == board else "table prints another board than replay"


def wrong_reasons(tried, answer, board):
    """What is wrong with an answer of `why`, compared with a board; or nothing."""
    lines, subject = lines_of(answer.out.decode()), [it.decode() for it in tried.words[2:]]
    roots = [it for it in lines if not it.startswith(" ")]
    if subject:
        if has_subject(tried, subject) != (answer.status == 0):
            return "it reports what is not there, or the other way round"
        begins = f"{subject[0]} {number_of(subject[-1])} ("
        return None if answer.status or len(roots) == 1 and roots[0].startswith(begins) else "its root is not what the words name"
    told, first = members_of(it.lstrip(" ") for it in lines), members_of(roots)
    for kind, number, state, *result in (it.split(" ") for it in board if it.startswith(("run ", "leg "))):
        # (the result stands behind `closed` of a run, and behind `ended` of a leg)
        has_succeeded = result[:1] == ["success"]
        if (kind == "run" or state == "ended") and not has_succeeded and (kind, number) not in told:
            return f"it does not report {kind} {number}"
        if has_succeeded and (kind, number) in first:
            return f"{kind} {number} succeeded, and is a root"
    return None if answer.status == 0 else "it tells that nothing is there, and was asked about nothing"


def members_of(lines):
    """What lines of reasons report: kinds and numbers."""
    return {tuple(it.split(" ", 2)[:2]) for it in lines}


def number_of(digits):
    """The number that digits write, or, where they are many, a great one."""
    return int(digits.lstrip("0")[:20] or "0")


def has_subject(tried, subject):
    """Whether the plan of a record has what words name."""
    plan = json.loads(tried.files["record"].split(b"\n")[0].decode())
    jobs = [job for run in plan["runs"] for job in run["jobs"]]
    legs = [job for job in jobs for _ in job["legs"]]
    first, last = number_of(subject[1]), number_of(subject[-1])
    if subject[0] == "step":
        return first < len(legs) and last < len(legs[first]["steps"])
    return last < len({"run": plan["runs"], "job": jobs, "leg": legs}[subject[0]])


def wrong_rows(answer, board):
    """What is wrong with the rows of a chart, compared with a board; or nothing."""
    rows = [it[0].text for it in ElementTree.fromstring(answer.out) if it.get("class") == "lane"]
    members = [it.split(" ") for it in board if it.startswith(("run ", "job ", "leg "))]
    for row, (kind, number, state, *result) in zip(rows, members):
        stands = STANDS.get(state, (state,))
        if state in ("closed", "ended", "shut"):
            stand = "failure tolerated" if result[:2] == ["failure", "tolerated"] else result[0]
            stands = (f"shut, {stand}" if state == "shut" else stand,)
        if not (row.startswith(f"{kind} {number} (") and row.endswith(tuple(f"): {it}" for it in stands))):
            return f"the row of {kind} {number} is not as the board has it"
    return None if len(rows) == len(members) else "its rows are not those of the board"


def keep(folder, number, tried, answer, why):
    """Keeps an input that offends."""
    place = os.path.join(folder, str(number))
    os.makedirs(place, exist_ok=True)
    texts = dict(tried.files)
    texts["why"] = f"{why}\nstatus {answer.status}, {answer.seconds:.1f} s\n".encode()
    texts["words"] = b" ".join(shlex.quote(os.fsdecode(it)).encode("utf-8", "surrogateescape") for it in tried.words) + b"\n"
    texts.update({"input": tried.given, "out": answer.out, "err": answer.err})
    for name, text in texts.items():
        with open(os.path.join(place, name), "wb") as it:
            it.write(text)


def look(share):
    """Tries a share of the inputs, and returns what is counted of it."""
    seed, numbers, program, folder = share
    counted, slowest, offending = Counter(), (0.0, 0), []
    room = tempfile.mkdtemp()
    for number in numbers:
        tried = hostile_inputs.made(random.Random(f"{seed} {number}"))
        for name, text in tried.files.items():
            with open(os.path.join(room, name), "wb") as it:
                it.write(text)
        answer = Answer(program, tried.words, tried.given, room)
        why = wrong(tried, answer) or wrong_together(tried, answer, program, room)
        if why:
            keep(folder, number, tried, answer, why)
            offending.append((number, why))
        counted[tried.command] += 1
        counted[answer.status] += 1
        slowest = max(slowest, (answer.seconds, number))
        for name in tried.files:
            os.remove(os.path.join(room, name))
    shutil.rmtree(room)
    return counted, slowest, offending


def is_late(*_):
    """What is done where a program takes too long."""
    raise TimeoutError


def start():
    """What holds for a process of this program and for those that it starts."""
    signal.signal(signal.SIGALRM, is_late)
    resource.setrlimit(resource.RLIMIT_AS, (MEMORY, MEMORY))
    resource.setrlimit(resource.RLIMIT_CORE, (0, 0))


def main():
    words = sys.argv[1:]
    if len(words) not in (2, 3) or not words[0].isdecimal():
        print(__doc__.strip(), file=sys.stderr)
        return 2
    number, seed = int(words[0]), words[1]
    program = os.path.abspath(words[2] if len(words) == 3 else os.path.join(TOP, "crates/actrun/out/actrun"))
    if not os.access(program, os.X_OK):
        print(f"hostile.py: {program} is no program; ./actrun --prove builds it", file=sys.stderr)
        return 2
    folder = tempfile.mkdtemp(prefix=f"hostile-{re.sub('[^A-Za-z0-9]', '_', seed)}-")
    shares = [(seed, range(at, min(at + 100, number)), program, folder) for at in range(0, number, 100)]
    counted, slowest, offending, began = Counter(), (0.0, 0), 0, time.monotonic()
    with multiprocessing.Pool(len(os.sched_getaffinity(0)), start) as pool:
        for more, slow, found in pool.imap(look, shares):
            counted += more
            slowest = max(slowest, slow)
            offending += len(found)
            for at, why in found:
                print(f"input {at}: {why}", flush=True)
    commands = ", ".join(f"{it} {counted[it]}" for it in hostile_inputs.COMMANDS)
    statuses = ", ".join(f"{counted[it]} of status {it}" for it in range(5))
    kept = f"kept in {folder}" if offending else "nothing kept"
    print(f"{number} inputs of seed {seed} in {time.monotonic() - began:.0f} s ({commands}): {statuses}; the slowest, input {slowest[1]}, "
          f"took {slowest[0]:.2f} s; {offending} offend, {kept}")
    if not offending:
        os.rmdir(folder)
    return 1 if offending else 0


if __name__ == "__main__":
    sys.exit(main())
