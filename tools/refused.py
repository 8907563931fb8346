#!/usr/bin/env python3
"""Refuses each growth of memory in turn, one per run, and compares the result.

  tools/refused.py ACTRUN CONFORMANCE [WORD]

ACTRUN and CONFORMANCE are the built programs (`rt ci` leaves them in crates/actrun/out and crates/conformance/out); with a WORD
only the examples with that word in their name are played. Of each, for the Nth growth, N of 1 up to all that the program asks for:

  commands    what is printed is what is printed with memory enough, or `actrun: memory` with status 3; `out` is empty then, but that
              `debug` has its answers so far and `run` the text so far; a record that `run` wrote can be replayed
  insist      an event that is refused when out of memory, on the plain board and on the flat one, by `apply` and by
              `apply_with_undo`, is answered when it is played again as with memory enough, and so is all that follows
  posts       also what is posted, begun and ended under the lock, where each event is posted twice, and the moves of a clerk,
              who is asked more often than there are moves: the replies, the history and the board at the end are the same; an
              end that is refused gives the call back
  alone,      one thread, and one worker: the play is what it is with memory enough, or `Memory`; its history is a beginning of
  pool        that play then, and lawful

Where the program that plays the example has no memory for what it is to read or tell itself, which it says, that is no answer
of what is played, and nothing is asked of it.

A growth is what the program asks of the C library; a small library, made here by a C compiler and loaded before it, refuses the
Nth, and is not handed on to programs that are started. It prints a line an example; the last line is `N passed, M failed`, and
the status 1 where anything else came out, or nothing was played.
"""
import concurrent.futures
import glob
import os
import re
import shutil
import subprocess
import sys
import tempfile

TOP = os.path.dirname(os.path.dirname(os.path.abspath(__file__)))
MEMORY = b"actrun: memory\n"
# (without headers, which the compiler of the toolchain has not)
LIBRARY = r"""
typedef __SIZE_TYPE__ size_t;
void *__libc_malloc(size_t), *__libc_realloc(void *, size_t), *__libc_memalign(size_t, size_t);
char *getenv(const char *);
int unsetenv(const char *), open(const char *, int, ...), *__errno_location(void);
long atol(const char *), write(int, const void *, size_t);
void abort(void);
static long asked, refused;
static int tally = -1;
__attribute__((constructor)) static void start(void) {
    const char *number = getenv("REFUSE"), *count = getenv("COUNT");
    if (count) tally = open(count, %d, 0600);
    unsetenv("LD_PRELOAD");
    unsetenv("REFUSE");
    unsetenv("COUNT");
    asked = 0;
    refused = number ? atol(number) : 0;
}
static int refuses(void) {
    if (tally >= 0 && write(tally, "x", 1) != 1) abort();
    if (++asked != refused) return 0;
    *__errno_location() = 12;
    return 1;
}
void *malloc(size_t size) { return refuses() ? 0 : __libc_malloc(size); }
void *realloc(void *block, size_t size) { return refuses() ? 0 : __libc_realloc(block, size); }
void *aligned_alloc(size_t by, size_t size) { return refuses() ? 0 : __libc_memalign(by, size); }
""" % (os.O_WRONLY | os.O_CREAT | os.O_TRUNC | os.O_CLOEXEC)
EXAMPLES = f"{TOP}/examples"
DATA = f"{TOP}/crates/conformance/data"
DEBUGGED = "step\nstep\nbreak failed\nbreak leg 1\ngo\nshow\nback\ngoto 3\nshow\nbreaks\nclear failed\ngo\ngoto 1\nplace\n"
# the examples of the table whose events are played again after each refusal, by the file that has them
EVENTS = {
    "evaluation": ["outcome-and-conclusion", "env-most-specific-wins", "condition-fault-at-begin", "faulting-output-left-out"],
    "groups-table": ["group-cancel-in-progress"],
    "variables": ["env-pairs-carried-on", "which variable stands"],
}
# what a program says that lacks memory for what it reads or tells itself
OWN = ("memory allocation failed", "no memory", "the plain board: ", "the flat board: ", "one board tells more than the other")
NOT_HELD = "no call is held"


class Wrong(Exception):
    """What came out that may not."""


def compilers():
    """The words of each C compiler that there may be, that of the toolchain last."""
    yield from ([it] for it in ("cc", "gcc", "clang") if shutil.which(it))
    page = subprocess.run(["rt", "doc"], capture_output=True, text=True, check=False).stdout.strip() if shutil.which("rt") else ""
    tools = f"{os.path.dirname(page)}/toolchain/bin"
    if os.access(f"{tools}/clang", os.X_OK):
        yield [f"{tools}/clang", "--target=x86_64-linux-gnu", "-nostdlib", "-fuse-ld=lld", f"-B{tools}"]


def made(folder):
    """The library that refuses, in the folder."""
    source, library, said = f"{folder}/refuse.c", f"{folder}/refuse.so", ["no C compiler made the library"]
    with open(source, "w", encoding="utf-8") as it:
        it.write(LIBRARY)
    for words in compilers():
        ran = subprocess.run([*words, "-shared", "-fPIC", "-O1", "-fno-builtin", "-o", library, source], capture_output=True, text=True, check=False)
        if ran.returncode == 0:
            return library
        said.append(f"{words[0]}: {ran.stderr.strip()}")
    raise OSError("\n".join(said))


class Programs:
    """The two programs, and the folder in which all is made."""

    def __init__(self, actrun, conformance, folder):
        self.actrun, self.conformance, self.folder = os.path.abspath(actrun), os.path.abspath(conformance), folder
        self.library = made(folder)

    def run(self, words, text=b"", number=None, count=None):
        """What a program answers with its growth of that number refused: its status, `out` and `err`."""
        env = dict(os.environ)
        if number is not None:
            env |= {"LD_PRELOAD": self.library, "REFUSE": str(number), **({"COUNT": count} if count else {})}
        found = subprocess.run(words, input=text, capture_output=True, env=env, cwd=self.folder, timeout=60, check=False)
        return found.returncode, found.stdout, found.stderr

    def growths(self, words, text=b""):
        """How many growths a program asks for: it adds a byte to a file for each."""
        handle, count = tempfile.mkstemp(dir=self.folder)
        os.close(handle)
        self.run(words, text, 0, count)
        asked = os.path.getsize(count)
        os.remove(count)
        if not asked:
            raise Wrong("no growth was counted")
        return asked


def told(programs, words, text, number, whole, is_told_early):
    """Whether a command told its one line when out of memory; nothing but that and what it tells else may come out."""
    found = programs.run(words, text, number)
    if found == whole:
        return False
    status, out, err = found
    if (status, err) == (3, MEMORY) and (out == b"" or is_told_early and whole[1].startswith(out)):
        return True
    raise Wrong(f"growth {number}: {found}")


def command(programs, words, text=b"", is_told_early=False):
    words = [programs.actrun, *words]
    whole = programs.run(words, text)
    count = programs.growths(words, text)
    return count, sum(told(programs, words, text, it, whole, is_told_early) for it in range(1, count + 1))


def played(programs, plan):
    """`run` by one worker, whose record can be replayed where there is one."""
    work = tempfile.mkdtemp(dir=programs.folder)
    record = f"{work}/record"
    words = [programs.actrun, "run", "--work", work, "--stubs", f"{EXAMPLES}/stubs.json", "--record", record, plan]
    whole = programs.run(words)
    count, refused = programs.growths(words), 0
    for number in range(1, count + 1):
        if os.path.exists(record):
            os.remove(record)
        refused += told(programs, words, b"", number, whole, True)
        # (it is empty if there is no memory for its text)
        if os.path.exists(record) and os.path.getsize(record):
            status, _, err = programs.run([programs.actrun, "replay", record])
            if status not in (0, 1, 4) or err:
                raise Wrong(f"growth {number}: the record is not replayed: {err}")
    return count, refused


def blocks_of(file):
    """The named texts of a file of cases, and its cases with the names under which they stand."""
    with open(f"{DATA}/{file}.cases", encoding="utf-8") as it:
        blocks = it.read().split("\n\n")
    named, cases, name = [], [], ""
    for block in blocks:
        lines = block.split("\n")
        named += [it for it in lines if it.startswith((": ", "| "))]
        for line in lines:
            name = line[2:] if line.startswith("# ") else name
        if any(it.startswith("? ") for it in lines):
            cases.append((name, "\n".join(it for it in lines if re.match(r"[?~<&+*-] ", it))))
    return "\n".join(named), cases


def text_in(named, name):
    """The text of a name among those of a file."""
    return next(it.split(" ", 2)[2] for it in named.split("\n") if it.startswith(f": {name} "))


def lines_of(answer):
    """The lines of what the only case of a file answered, which is printed since the case wants something else; none if the
    program says that it had no memory for them."""
    status, out, err = answer
    found = re.search(rb"\nfound, status (\d+):\n((?s:.*))\n0 cases agree, 1 differ\n", out)
    if not found or found[1] != b"0" or err or status != 1:
        if status == 1 and (found or b"memory" in err or not out):
            return None
        raise Wrong(f"{answer}")
    return found[2].decode().rstrip("\n").split("\n")


def asked(programs, name, text):
    """The words that have the program play a case."""
    path = f"{programs.folder}/{name}.cases"
    with open(path, "w", encoding="utf-8") as it:
        # (a line that no case prints, so that it tells what it found)
        it.write(f"{text}\n> nothing of the kind\n")
    return [programs.conformance, path]


def swept(programs, name, text, judged):
    """Plays a case with each growth refused. `judged` is asked of each answer that is not the whole one: whether a call was
    refused there; it raises what may not be."""
    words = asked(programs, name, text(programs))
    wanted, count, refused = lines_of(programs.run(words)), programs.growths(words), 0
    for number in range(1, count + 1):
        lines = lines_of(programs.run(words, number=number))
        if lines in (None, wanted, ["Memory"]):
            continue
        try:
            refused += judged(lines, wanted)
        except Wrong:
            if not any(own in line for own in OWN for line in lines):
                raise Wrong(f"growth {number}: {lines}") from None
    if not refused:
        raise Wrong("no call was refused")
    return count, refused


def is_insisted(lines, wanted):
    """Whether the answers are those that are wanted, but for one refusal before what it was refused for."""
    if [it for it in lines if it != "refused Memory"] != wanted:
        raise Wrong
    return True


def is_posted(lines, wanted):
    """Whether what is posted, with its replies, is what is wanted. A refusal adds nothing, and neither does what was posted
    before or a clerk that has no move."""
    is_refused = any(it.startswith("Memory") for it in lines)
    if not is_refused and (lines.count(NOT_HELD) > wanted.count(NOT_HELD) or lines == wanted[:-1] + ["another board"]):
        # (who holds the calls gives one up where it has no memory to keep it; a board is compared by its text)
        return False
    idle = ("Event WrongState", NOT_HELD, "Idle", "Done")

    def replies(all_lines):
        return [it for it in all_lines if not it.startswith("Memory") and it not in idle]
    if replies(lines) != replies(wanted):
        raise Wrong
    return is_refused


def is_alone(lines, wanted):
    """Whether a play stopped when out of memory after a beginning of the play that is wanted; or there is none for its host."""
    if re.fullmatch(r"\d+ Memory", lines[-1]):
        return False
    if lines[-1] != "Memory" or lines[:-1] != wanted[: len(lines) - 1]:
        raise Wrong
    return True


def is_pooled(lines, wanted):
    """Whether a play stopped when out of memory, with a history that can be played again; or there is none for its host, or to
    tell the board."""
    if re.fullmatch(r"\d+ Memory", lines[0]) or (lines[0] == wanted[0] and (lines[1] == "another board" or lines[-1] != wanted[-1])):
        return False
    if lines[0] != "Memory" or not all(re.fullmatch(r"leg \d+ call", it) for it in lines[1:]):
        raise Wrong
    return True


def of_the_lock():
    """Two jobs by two workers: the moves of a clerk, who is asked more often than there are moves, and each event of a leg twice."""
    named, _ = blocks_of("pools")
    exits = '{"code":0,"env":{},"kind":"exit","outputs":{}}'

    def events(leg):
        return [f'{{{answer}"event":"{event}","leg":{leg},"worker":{leg}}}' for event, answer in (
            ("take", ""), ("begin", ""), ("end", f'"answer":{exits},'), ("finish", ""))]
    lines = ["clerk 0"] * 6 + [it for leg in (0, 1) for it in events(leg) for _ in range(2)] + ["clerk 1"] * 2
    return "\n".join(["? posts 2", *(f"< {it}" for it in [text_in(named, "two"), *lines])])


def recorded(programs, name, verb):
    """A play of a plan over the answers of the history that one thread makes of it."""
    named, _ = blocks_of("pools")
    plan = text_in(named, name)
    zeros = [text_in(named, f"zero-{leg}") for leg in (0, 1)]
    played_once = asked(programs, name, "\n".join(["? alone", *(f"< {it}" for it in [plan, *zeros])]))
    history = lines_of(programs.run(played_once))[:-1]
    return "\n".join([f"? {verb} recorded", *(f"< {it}" for it in [plan, *history])])


def cases():
    """What is played by the program of the cases: its name, what makes the text of the case, and what is asked of its answers."""
    for file, names in EVENTS.items():
        named, blocks = blocks_of(file)
        for place, (name, block) in enumerate(blocks):
            if name in names and block.startswith("? apply\n"):
                for board, call in ((board, call) for board in ("plain", "flat") for call in ("apply", "undo")):
                    case = f"{named}\n\n{block.replace('? apply', f'? insist {board} {call}')}"
                    yield f"insist {name} {place} {board} {call}", lambda _, case=case: case, is_insisted
    yield "posts two-jobs-two-workers", lambda _: of_the_lock(), is_posted
    for name in ("two", "crossed"):
        yield f"alone {name}", lambda programs, name=name: recorded(programs, name, "alone"), is_alone
    yield "pool two", lambda programs: recorded(programs, "two", "pool 1"), is_pooled


def tasks():
    """What is played: a name, and a call that is given the programs."""
    for name, text, judged in cases():
        yield name, lambda it, name=name, text=text, judged=judged: swept(it, name.replace(" ", "-"), text, judged)
    for name in ("greet.plan", "version.plan"):
        yield f"run {name}", lambda it, name=name: played(it, f"{EXAMPLES}/{name}")
    for path in sorted(glob.glob(f"{EXAMPLES}/*.record")):
        name = os.path.basename(path)
        with open(path, "rb") as it:
            text = it.read()
        yield f"table {name}", lambda it, text=text: command(it, ["table"], text)
        yield f"replay {name}", lambda it, path=path: command(it, ["replay", path])
        yield f"changes {name}", lambda it, path=path: command(it, ["replay", "--changes", path])
        yield f"graph {name}", lambda it, path=path: command(it, ["graph", path])
        yield f"timeline {name}", lambda it, path=path: command(it, ["timeline", path])
        yield f"why {name}", lambda it, path=path: command(it, ["why", path])
        yield f"debug {name}", lambda it, path=path: command(it, ["debug", path], DEBUGGED.encode(), True)
    for path in sorted(glob.glob(f"{EXAMPLES}/*.json") + glob.glob(f"{EXAMPLES}/refused/*.json")):
        name = os.path.basename(path)
        yield f"plan {name}", lambda it, path=path: command(it, ["plan", path])
        yield f"list {name}", lambda it, path=path: command(it, ["list", path])
    contexts = ["--contexts", f"{EXAMPLES}/contexts.json"]
    for text in ("format('{0}-{1}', github.ref, toJSON(github))", "contains(github.ref, 'main') && fromJSON('[1,{}]')", "a.*.b", "'"):
        yield f"eval {text}", lambda it, text=text: command(it, ["eval", *contexts, text])


def play(programs, name, call):
    try:
        count, refused = call(programs)
        return name, count, refused, None
    except (Wrong, subprocess.SubprocessError, OSError, ValueError, StopIteration) as why:
        return name, 0, 0, str(why)


def main(words):
    if len(words) not in (2, 3):
        sys.exit(__doc__)
    folder = tempfile.mkdtemp(prefix="refused-")
    try:
        programs = Programs(words[0], words[1], folder)
        chosen = [it for it in tasks() if words[2:] == [] or words[2] in it[0]]
        with concurrent.futures.ThreadPoolExecutor(len(os.sched_getaffinity(0))) as pool:
            ended = list(pool.map(lambda it: play(programs, *it), chosen))
    except OSError as why:
        print(f"refused.py: {why}\n0 passed, 1 failed")
        return 1
    finally:
        shutil.rmtree(folder)
    for name, count, refused, why in ended:
        print(f"{name}: WRONG: {why}" if why else f"{name}: {count} growths, {refused} told as memory")
    wrong = sum(why is not None for *_, why in ended)
    print(f"refused: {len(ended)} examples, {sum(it[1] for it in ended)} growths")
    print(f"{len(ended) - wrong} passed, {wrong if ended else 1} failed")
    return 1 if wrong or not ended else 0


if __name__ == "__main__":
    sys.exit(main(sys.argv[1:]))
