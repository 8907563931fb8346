#!/usr/bin/env python3
"""Feeds the front hostile inputs, and looks whether each answer is one that a person can read.

usage: tools/hostile_front.py NUMBER SEED [PROGRAM]      PROGRAM is that of ACTRUN_PROGRAM if none is named

Inputs 0 to NUMBER - 1 of the seed are tried: records, times, logs, workflows in YAML, contexts, stubs, payloads, files
of options and secrets, and messages of the Debug Adapter Protocol, garbled as hostile_inputs.py garbles them, for
`report`, `timeline`, `debug`, `dap`, `try -n`, `from-yaml`, `explain` and `explain-error`. Nothing of them is executed.

Each answer has to come within 120 seconds of the clock, with a status that REFERENCE.md has. Standard error has no
traceback, and calls no error unforeseen. What `dap` sends are messages. What offends is kept, each input in a folder of
its own. The last line has the figures; the status is 1 where one offends.
"""
from __future__ import annotations

import importlib
import json
import multiprocessing
import os
import random
import re
import shlex
import shutil
import signal
import sys
import tempfile
import time
from collections import Counter
from pathlib import Path
from typing import Any, Callable

import hostile_inputs as inputs

TOP = Path(__file__).resolve().parent.parent
SECONDS = 120
LONGEST = 100_000  # bytes of a workflow: a reader in Python takes a second for that many
MODULES = {"try": "attempt", "from-yaml": "from_yaml", "debug": "debug", "dap": "dap", "report": "report",
           "timeline": "timeline",
           "explain": "explained", "explain-error": "explain"}
REQUESTS = ("setBreakpoints setExceptionBreakpoints dataBreakpointInfo setDataBreakpoints configurationDone threads "
            "stackTrace scopes variables evaluate continue reverseContinue next stepBack stepIn stepOut gotoTargets "
            "goto pause exceptionInfo setFunctionBreakpoints completions loadedSources restart restartFrame attach").split()
ARGUMENTS = ("source path breakpoints line lines filters filterOptions filterId variablesReference name dataId threadId "
             "granularity startFrame levels targetId frameId start count expression context condition hitCondition "
             "logMessage text column folder").split()
YAML = (b"- ", b": ", b"&a ", b"*a", b"<<: ", b"|\n", b">-\n", b"? ", b"!!str ", b"!x ", b"%YAML 1.1\n",
        b"---\n", b"...\n", b"\t", b"  ", b"@", b"`",
        b"{", b"}", b"[", b"]", b"'", b'"', b"# x\n", b"0o17", b".inf", b".nan", b"-0", b"1_000", b"yes",
        b"~", b"=")


class Input:
    """A command with its words, the files in its folder, and standard input."""

    def __init__(self, *words: str, files: dict[str, bytes] | None = None, given: bytes = b"") -> None:
        self.words, self.files, self.given = list(words), files or {}, given


def workflow(chance: random.Random) -> bytes:
    """A text that may be a workflow in YAML."""
    text = inputs.flow(chance) if chance.random() < 0.5 else chance.choice(inputs.SEEDS.flows)
    for _ in range(chance.choice((0, 1, 3, 10))):
        at = chance.randrange(len(text) + 1)
        text = text[:at] + chance.choice(YAML) + text[at + chance.choice((0, 0, 1, 5)):]
    return inputs.sometimes_garbled(chance, text)[:LONGEST]


def times(chance: random.Random) -> bytes:
    """A text that may be a file of times."""
    count = chance.choice((0, 1, 5, 20, 60))
    numbers = [1700000000000, *sorted(chance.randrange(100000) for _ in range(count))]
    return inputs.sometimes_garbled(chance, b"".join(b"%d\n" % number for number in numbers), 0.3)


def logs(chance: random.Random) -> dict[str, bytes]:
    """Files that may be logs of steps."""
    lines = [b"text\n", b"::add-mask::x\n", b"::error::%0A%25\n", b"::stop-commands::e\n", b"::group::\n",
             b"\xff\n", b"\x1b[31m\x00\r\n", b"actrun-0:0-0\n"]
    return {f"logs/step-{leg}-{step}.log": inputs.sometimes_garbled(chance,
                                                                    b"".join(chance.choices(lines, k=5)))
            for leg in range(3) for step in range(3) if chance.random() < 0.5}


def made_report(chance: random.Random) -> Input:
    words, files = ["report", "--seconds", "2", "r"], {"r": inputs.record(chance), "times": times(chance),
                                                       "logs/x": b"", **logs(chance)}
    for more in (["--times", "times"], ["--logs", "logs"], ["--around", chance.choice(inputs.NUMBERS)[:20]]):
        words += more if chance.random() < 0.4 else []
    return Input(*words, files=files)


def made_timeline(chance: random.Random) -> Input:
    return Input("timeline", "--times", "times", "r", files={"r": inputs.record(chance),
                                                             "times": times(chance)})


ASKED = ("step,back,next,reverse-next,continue,reverse-continue,go,go-back,until 3,until a,finish,goto 2,jump failed,jump skipped,break failed,"
         "break a,break a/0 if true,tbreak leg 0,break ci.yml:3,watch steps.a,watch env.A,delete,delete 1,info legs,info b,frame leg 1,"
         "frame step 0 1,show,bt,list,explain,explain job 0,values,values run 0,print matrix,print $A,env,log,log (,/a,why,why leg 0,"
         "why step 0 0,why run,why x\udcff,help,clear failed,files,files 0/1 a,files 9/9,files a/0,cat a,cat ../a,shell").split(",")


def made_debug(chance: random.Random) -> Input:
    words = [*chance.choices(ASKED, k=chance.choice((0, 3, 15))), f"print {inputs.expression(chance)[:200]}".replace("\n", " ")]
    asked = inputs.questions(chance) + "".join(f"{word}\n" for word in words).encode("utf-8", "surrogateescape")
    return Input("debug", "r", files={"r": inputs.record(chance)}, given=asked)


def made_explain(chance: random.Random) -> Input:
    part = chance.choice(("run 0", "job 0", "job 1", "leg 0", "leg 2", "step 0 0", "step 0 1", "step 1 2", "step x", "leg -1")).split()
    words = [*chance.choice(([], ["--json"])), "r", chance.choice(("end", "end", "0", "3", "99", "x")), *part]
    return Input("explain", *words, files={"r": inputs.record(chance), "workflows.json": chance.choice((b"", b"{}", b"[]", b'{"legs": 1}')),
                                           "step-0-0.log": b"::error file=a,line=1::b\n::add-mask::c\n\xff"})


def frame(message: Any) -> bytes:
    """A message with its header."""
    body = message if isinstance(message, bytes) else inputs.spelled(message)
    return b"Content-Length: %d\r\n\r\n" % len(body) + body


def arguments(chance: random.Random) -> Any:
    """What may be the arguments of a request."""
    numbers = (0, 1, 1, 2, 3, 7, -1, 1 << 70)
    usual = {"threadId": 1, "frameId": chance.choice(numbers), "variablesReference": chance.choice(numbers),
             "targetId": chance.choice(numbers),
             "expression": chance.choice(("place", "why", "why leg 0", "goto 3", "env.A", "explain", "values job 0", "$A",
                                          inputs.expression(chance)[:500])), "line": 4,
             "context": chance.choice(("hover", "repl")), "source": {"path": "ci.yml"},
             "breakpoints": [{"line": chance.choice(numbers), "name": chance.choice(("a", "test/1", "x")),
                              "condition": chance.choice(("", "true", inputs.expression(chance)[:500])),
                              "hitCondition": chance.choice(("", "2", "% 2", ">")),
                              "logMessage": chance.choice(("", "{env.A} {", "x"))}],
             "text": chance.choice(("steps.", "$", "why ", "")), "column": chance.choice(numbers),
             "filters": ["failed", "skipped"]}
    for _ in range(chance.choice((0, 0, 1, 1, 3))):
        usual[chance.choice(ARGUMENTS)] = inputs.strange_value(chance)
    return inputs.strange_value(chance) if chance.random() < 0.05 else usual


def made_dap(chance: random.Random) -> Input:
    requests: list[tuple[str, Any]] = [("initialize", {}),
                                       ("launch", {"record": "r", "workflows": ["ci.yml"], "logs": "logs"})]
    requests += [("configurationDone", {})] if chance.random() < 0.8 else []
    requests += [(chance.choice(REQUESTS), arguments(chance)) for _ in range(chance.choice((1, 5, 20)))]
    if chance.random() < 0.2:
        chance.shuffle(requests)
    messages = [{"seq": number, "type": "request", "command": command, "arguments": given} for number,
                (command, given) in enumerate(requests)]
    frames = [frame(inputs.garbled(chance, inputs.spelled(message))) if chance.random() < 0.03
              else frame(message) for message in messages]
    record = chance.choice(inputs.SEEDS.records) if chance.random() < 0.7 else inputs.record(chance)
    return Input("dap", files={"r": record, "ci.yml": workflow(chance), "logs/x": b"", **logs(chance)},
                 given=inputs.sometimes_garbled(chance, b"".join(frames), 0.05))


def pairs(chance: random.Random) -> bytes:
    """A text that may be a file of names and values."""
    return inputs.sometimes_garbled(chance, b"A=1\nB='x y'\n# c\nC=\"a\\nb\"\nexport D=2 # e\n", 0.5)


def made_try(chance: random.Random) -> Input:
    words = ["try", "-n", *chance.choice(([], ["push"], ["pull_request"], ["-j", "a"], ["-j", "test"],
                                          ["workflow_dispatch", "--input", "x=1"]))]
    files = {".github/workflows/ci.yml": workflow(chance),
             "stubs.json": inputs.changed_json(chance, b'{"a/b":"/bin/true","c/d@v1":"true"}'),
             "event.json": inputs.changed_json(chance,
                                               b'{"action":"opened","pull_request":{"head":{"ref":"x"}},"inputs":{"a":1}}'), "pairs": pairs(chance)}
    files.update({".github/workflows/b.yml": workflow(chance)} if chance.random() < 0.3 else {})
    if chance.random() < 0.2:
        files[".actrunrc"] = inputs.garbled(chance, b"--workers 2\n--lenient\n# x\n--matrix a.b=[1]\n")
    if chance.random() < 0.2:
        files["action.yml"] = inputs.garbled(chance,
                                             b"runs:\n  using: composite\n  steps:\n    - run: echo\n      shell: bash\n")
    for option, value in (("--stubs", "stubs.json"), ("-e", "event.json"), ("--secret-file", "pairs"),
                          ("--var-file", "pairs"), ("--env-file", "pairs"),
                          ("--input-file", "pairs"), ("--matrix", f"a.b={chance.choice(inputs.NUMBERS)}")):
        words += [option, value] if chance.random() < 0.25 else []
    return Input(*words, "-C", ".", files=files)


def made_yaml(chance: random.Random) -> Input:
    words, files = ["from-yaml", "--force"], {"ci.yml": workflow(chance),
                                              "contexts.json": inputs.contexts(chance)}
    if chance.random() < 0.6:
        words += ["--lower", *chance.choice(([], ["--contexts", "contexts.json"], ["--any-system"],
                                             ["--matrix", f"a.b={chance.choice(inputs.NUMBERS)}"]))]
    return Input(*words, *chance.choice((["ci.yml"], ["-o", "-", "ci.yml"], ["-"])), files=files,
                 given=files["ci.yml"])


def made_error(chance: random.Random) -> Input:
    lines = [b"actrun: line 3 NotEntry\n", b"actrun: flow ci.json NotJson\n", b"actrun: plan NoWorkflow\n",
             b"actrun: expr BadChar at 2\n", b"actrun: io\n",
             b"actrun: words\n", b"actrun: load NotPlan\n", b"actrun: why NoSuch\n",
             b"actrun: pool Workers\n", b"actrun: plan UnknownJob\n"]
    words = chance.choice((["plan", "ci.json"], ["table"], ["replay", "r"], ["eval", "a b"],
                           ["why", "r", "leg", "9"], ["lint", "ci.json"], ["run", "--record",
                           "x/y", "r"], ["plan", "--job", "x", "ci.json"], ["debug", "--x"]))
    return Input("explain-error", "2", "err", *words, files={"err": inputs.sometimes_garbled(chance,
        chance.choice(lines), 0.4), "r": inputs.record(chance),
                                                       "ci.json": inputs.flow(chance)[:LONGEST],
                                                       "ci.yml": workflow(chance)})


MADE: tuple[Callable[[random.Random], Input], ...] = (made_report, made_timeline, made_debug, made_dap,
                                                      made_dap, made_try, made_try, made_yaml, made_yaml,
                                                      made_explain, made_error)


def answer(tried: Input, room: Path, program: str) -> tuple[int | None, bytes, bytes]:
    """Status and outputs of the front, in a process that is forked; the status is None where it takes too long."""
    child = os.fork()
    if child == 0:
        os.setsid()
        os.chdir(room / "in")
        for number, name in enumerate(("given", "out", "err")):
            os.dup2(os.open(room / name, os.O_RDONLY if number == 0
                            else os.O_WRONLY | os.O_CREAT | os.O_TRUNC), number)
        sys.stdin, sys.stdout, sys.stderr = (open(number, "rw"[number > 0], encoding="utf-8", closefd=False)
                                             for number in range(3))
        os.environ.update(ACTRUN_PROGRAM=program, ACTRUN_TOP=str(TOP), HOME=str(room),
                          XDG_CACHE_HOME=str(room / "cache"))
        from actrun_front.unforeseen import guarded
        os._exit(guarded(tried.words[0],
                         lambda: importlib.import_module(f"actrun_front.{MODULES[tried.words[0]]}").main(tried.words[1:])))
    end = time.monotonic() + SECONDS
    found, status = os.waitpid(child, os.WNOHANG)
    while not found and time.monotonic() < end:
        time.sleep(0.005)
        found, status = os.waitpid(child, os.WNOHANG)
    if not found:
        os.killpg(child, signal.SIGKILL)
        os.waitpid(child, 0)
        return None, (room / "out").read_bytes(), (room / "err").read_bytes()
    return os.waitstatus_to_exitcode(status), (room / "out").read_bytes(), (room / "err").read_bytes()


def wrong(tried: Input, status: int | None, out: bytes, err: bytes) -> str:
    """Why an answer offends; nothing if it does not."""
    if status is None:
        return f"no answer came in {SECONDS} s"
    if status not in (0, 1, 2, 3, 4):
        return f"the status is {status}"
    if b"Traceback" in err or b"unforeseen" in err or b"unforeseen" in out:
        return "an error is unforeseen"
    if status in (2, 3) and not err and tried.words[0] != "dap":
        return "nothing says what is wrong"
    return wrong_messages(out) if tried.words[0] == "dap" else ""


def wrong_messages(out: bytes) -> str:
    """What is wrong with the messages that the debug adapter sent."""
    while out:
        head = re.match(rb"Content-Length: (\d+)\r\n\r\n", out)
        if head is None:
            return "what is sent is no message"
        body, out = out[head.end():head.end() + int(head[1])], out[head.end() + int(head[1]):]
        message = json.loads(body)
        if message["type"] not in ("response", "event"):
            return "a message is neither a response nor an event"
    return ""


def look(share: tuple[str, range, str, str]) -> tuple[Counter, tuple[float, int], list[tuple[int, str]]]:
    """Tries a share of the inputs, and returns what is counted of it."""
    seed, numbers, program, folder = share
    counted, slowest, offending = Counter(), (0.0, 0), []
    for number in numbers:
        chance = random.Random(f"front {seed} {number}")
        tried = chance.choice(MADE)(chance)
        room, began = Path(tempfile.mkdtemp(prefix="hostile-front-")), time.monotonic()
        for name, text in tried.files.items():
            (room / "in" / name).parent.mkdir(parents=True, exist_ok=True)
            (room / "in" / name).write_bytes(text)
        (room / "in").mkdir(exist_ok=True)
        (room / "given").write_bytes(tried.given)
        status, out, err = answer(tried, room, program)
        why = wrong(tried, status, out, err)
        slowest = max(slowest, (time.monotonic() - began, number))
        counted[tried.words[0]] += 1
        counted[status] += 1
        if why:
            offending.append((number, f"{shlex.join(tried.words)}: {why}"))
            shutil.copytree(room, os.path.join(folder, str(number)), symlinks=True)
        shutil.rmtree(room, ignore_errors=True)
    return counted, slowest, offending


def prepare() -> None:
    """Reads the front once, for all processes that are forked."""
    sys.path.insert(0, str(TOP / "front"))
    for name in MODULES.values():
        importlib.import_module(f"actrun_front.{name}")


def main(words: list[str]) -> int:
    """Tries as many inputs as the words say; the exit status."""
    program = os.path.abspath(words[2] if len(words) == 3 else os.environ.get("ACTRUN_PROGRAM") or "/nowhere")
    if len(words) not in (2, 3) or not words[0].isdecimal() or not os.access(program, os.X_OK):
        print(__doc__.strip(), file=sys.stderr)
        return 2
    number, seed = int(words[0]), words[1]
    prepare()
    folder = tempfile.mkdtemp(prefix=f"hostile-front-{re.sub('[^A-Za-z0-9]', '_', seed)}-")
    shares = [(seed, range(at, min(at + 20, number)), program, folder) for at in range(0, number, 20)]
    counted, slowest, offending, began = Counter(), (0.0, 0), 0, time.monotonic()
    with multiprocessing.Pool(min(len(os.sched_getaffinity(0)),
                                  int(os.environ.get("ACTRUN_SIDE_BY_SIDE", "4")))) as pool:
        for more, slow, found in pool.imap(look, shares):
            counted += more
            slowest = max(slowest, slow)
            offending += len(found)
            for at, why in found:
                print(f"input {at}: {why}", flush=True)
    commands = ", ".join(f"{it} {counted[it]}" for it in MODULES)
    print(f"{number} inputs of seed {seed} in {time.monotonic() - began:.0f} s ({commands}): "
          + ", ".join(f"{counted[it]} of status {it}" for it in range(5))
          + f"; the slowest, input {slowest[1]}, took {slowest[0]:.1f} s; {offending} offend, {f'kept in {folder}' if offending else 'nothing kept'}")
    if not offending:
        os.rmdir(folder)
    return 1 if offending else 0


if __name__ == "__main__":
    sys.exit(main(sys.argv[1:]))
