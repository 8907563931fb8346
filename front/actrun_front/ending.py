"""Ends running steps as GitHub's runner does: at limits of time, where the board stops legs, and at
Ctrl-C."""
from __future__ import annotations

import contextlib
import functools
import heapq
import itertools
import json
import os
import re
import signal
import stat
import threading
import time
from pathlib import Path
from typing import Any, Callable, Iterable

from . import Problem
from .execute import PATIENCE, program, send, session
from .expressions import Access, Rules, condition_expression, references, rewrite_condition, rewrite_template
from .names import SEEN
from .present import legs_of, step_name
from .reasons import Part, parts_of

# the signals to a step that has to end, each after that many seconds
LADDER = ((0.0, signal.SIGINT), (7.5, signal.SIGTERM), (10.0, signal.SIGKILL), (12.5, signal.SIGKILL))
GRACE = 300.0                             # seconds for the steps that still execute in a leg that was stopped
TICK = 0.2
NUMBER = r"[0-9]*\.?[0-9]+"               # of minutes
# variables by which a plan gives limits of time
MINUTES, JOB_MINUTES = "ACTRUN_MINUTES", "ACTRUN_JOB_MINUTES"


def see_stops(plan: dict[str, Any]) -> None:
    """Lets `cancelled()` and `job.status` of steps see that their leg was stopped from outside the board."""
    def status(access: Access) -> tuple[str, int] | None:
        is_status = [key.lower() for key in access.keys[:1]] == ["status"]
        return (SEEN["job.status"], 1) if is_status else None
    rules = Rules({"job": status}, {"cancelled": lambda _: SEEN["cancelled()"]})

    def seen(value: Any) -> Any:
        if isinstance(value, dict):
            return {name: seen(text) for name, text in value.items()}
        reads = isinstance(value, str) and "status" in value.lower()
        return rewrite_template(value, rules) if reads else value
    for step in (step for run in plan["runs"] for job in run["jobs"] for step in job["steps"]):
        if re.search("cancelled|status", step["condition"] or "", re.IGNORECASE):
            step["condition"] = rewrite_condition(step["condition"], rules)
        name, was = step_name(step), step["work"].get("run")
        step["env"] = seen(step["env"])
        step["work"].update((key, seen(step["work"][key])) for key in ("run", "with") if key in step["work"])
        if step["work"].get("run") != was:
            step["name"] = name  # (a step without a name is called by its script)


def failed_legs(parts: dict[str, Part]) -> dict[int, int]:
    """The legs that failed, each with the line of a record where it ended."""
    failed = (part for part in parts.values() if part.kind == "leg" and part.failed)
    return {part.numbers["leg"]: part.line or 0 for part in failed}


def goes_on(condition: str | None) -> bool:
    """Whether a condition may hold in what was stopped: it names `always`, or `cancelled` without `!`."""
    calls = references(condition_expression(condition) or "")[1]
    negated = re.search(r"!\s*\(?\s*cancelled", condition or "", re.IGNORECASE)
    return "always" in calls or "cancelled" in calls and not negated


def below(roots: Iterable[int], known: dict[int, int]) -> set[int]:
    """Processes with all that descend from them."""
    children: dict[int, list[int]] = {}
    for number, parent in known.items():
        children.setdefault(parent, []).append(number)
    found, left = set(), list(roots)
    while left:
        number = left.pop()
        if number not in found:
            found.add(number)
            left += children.get(number, [])
    return found


def started_by_program(leader: int, known: dict[int, int]) -> list[int]:
    """The processes that the program started which a process started, directly or not: those of steps."""
    level = [leader]
    while level:
        found = [number for number in level if command_of(number) == os.fsencode(program())]
        level = [number for number, parent in known.items() if parent in (found[:1] or level)]
        if found:
            return level
    return []


def command_of(number: int) -> bytes:
    """The first word of a process."""
    try:
        return Path(f"/proc/{number}/cmdline").read_bytes().split(b"\0")[0]
    except OSError:
        return b""


def environment_of(number: int) -> dict[bytes, bytes]:
    """The variables that a process was started with."""
    try:
        text = Path(f"/proc/{number}/environ").read_bytes()
    except OSError:
        return {}
    pairs = (entry.partition(b"=") for entry in text.split(b"\0"))
    return {name: value for name, equals, value in pairs if equals}


def write_told(path: Path, text: str) -> None:
    """Writes a file that steps may read at any time, at once. On a full disk there is none: a step then
    starts."""
    with contextlib.suppress(OSError):
        new = path.with_name(path.name + ".new")
        new.write_text(text, encoding="utf-8")
        new.replace(path)


def add_line(path: Path, line: str, root: str = "/", done: set[tuple[int, int]] | None = None) -> None:
    """Adds a line to a file of a step below a root, unless that is in `done`. No link is followed, and no
    file with a second name is changed."""
    opened: list[int] = []
    done = set() if done is None else done
    with contextlib.suppress(OSError):
        opened.append(os.open(root, os.O_RDONLY | os.O_DIRECTORY | os.O_CLOEXEC))
        *folders, name = path.relative_to("/").parts
        for folder in folders:
            how = os.O_RDONLY | os.O_DIRECTORY | os.O_NOFOLLOW | os.O_CLOEXEC
            opened.append(os.open(folder, how, dir_fd=opened[-1]))
        how = os.O_WRONLY | os.O_APPEND | os.O_NOFOLLOW | os.O_NONBLOCK | os.O_CLOEXEC
        opened.append(os.open(name, how, dir_fd=opened[-1]))
        found = os.fstat(opened[-1])
        if stat.S_ISREG(found.st_mode) and found.st_nlink == 1 and (found.st_dev, found.st_ino) not in done:
            done.add((found.st_dev, found.st_ino))
            os.write(opened[-1], f"\n{line}\n".encode())
    for number in opened:
        os.close(number)


class Growing:
    """The record of an execution as it grows: which legs have to stop, as the program's board has it."""

    def __init__(self, plan: dict[str, Any], part: Path) -> None:
        jobs = [(run, job) for run, entry in enumerate(plan["runs"]) for job in entry["jobs"]]
        self.job_of = [(run, job) for run, job in jobs for _ in job["legs"]]
        self.legs = legs_of(plan)
        groups = [part["group"] for part in (*plan["runs"], *(job for _, job in jobs)) if part["group"]]
        self.entering = ("ask", "open") if any(group["cancel"] is not False for group in groups) else ()
        self.needed = bool(self.entering) or any(job["fail_fast"] and len(job["legs"]) > 1 for _, job in jobs)
        self.file = os.open(part, os.O_RDONLY | os.O_CLOEXEC) if self.needed else -1
        self.read = 0                         # bytes
        self.begun: dict[int, int] = {}       # leg -> the steps that began
        self.failed: set[int] = set()         # legs with a step that failed, until they end
        self.marked: set[int] = set()         # legs that have to stop

    def close(self) -> None:
        """Closes the file."""
        if self.file >= 0:
            os.close(self.file)
        self.file = -1

    def stops(self) -> dict[int, tuple[int, str]]:
        """The legs that have to stop by what was written since the last call, with their step then, and
        why."""
        asked: tuple[int, dict[int, int]] | None = None  # after the last entry that may stop legs
        size = os.fstat(self.file).st_size if self.file >= 0 else 0
        text = os.pread(self.file, size - self.read, self.read) if size > self.read else b""
        for line in text[:text.rfind(b"\n") + 1].splitlines(keepends=True):
            first, self.read = self.read == 0, self.read + len(line)
            entry = {} if first else json.loads(line)
            event, leg = entry.get("event"), entry.get("leg", -1)
            if event == "begin":
                self.begun[leg] = self.begun.get(leg, 0) + 1
            elif event in self.entering or \
                    event == "finish" and leg in self.failed and self.job_of[leg][1]["fail_fast"]:
                asked = self.read, dict(self.begun)
            if event == "finish":
                self.failed.discard(leg)
        if asked is None:
            return {}
        stopped = {leg: cause for leg, cause in self.ask(asked[0]).items() if leg not in self.marked}
        self.marked |= stopped.keys()
        return {leg: (asked[1].get(leg, 0) - 1, cause) for leg, cause in stopped.items()}

    def ask(self, size: int) -> dict[int, str]:
        """The legs that have to stop on the board after that many bytes of the record, and why."""
        try:
            parts = parts_of(program(), os.pread(self.file, size, 0))
        except Problem:
            return {}
        stops = [part.numbers for part in parts.values() if part.kind == "stop"]
        found = {stop["leg"]: "a newer member of its group cancels it" for stop in stops if "leg" in stop}
        fast: dict[int, int] = {}             # job -> its first leg that failed
        failed = failed_legs(parts)
        for leg in sorted(failed, key=lambda leg: failed[leg]):
            fast.setdefault(self.job_of[leg][1]["number"], leg)
        for leg, (run, job) in enumerate(self.job_of):
            if f"stop run {run}" in parts and not references(condition_expression(job["condition"]) or "")[1]:
                found[leg] = "a newer member of its run's group cancels it"
            elif job["fail_fast"] and fast.get(job["number"], leg) != leg:
                found.setdefault(leg, f"{self.legs[fast[job['number']]].name} failed, and the job fails fast")
        return found


class Ender:
    """Ends the steps of one execution that have to end, and knows why. Its thread waits for what is due."""

    def __init__(self, plan: dict[str, Any], play: Path, told: Path, part: Path) -> None:
        self.play, self.told, self.growing = play, told, Growing(plan, part)
        self.jobs = [job for _, job in self.growing.job_of]    # by leg
        self.execution: Any = None                             # whose processes these are
        self.change = threading.Condition(threading.RLock())
        self.due: list[tuple[float, int, Callable[[], None]]] = []
        self.numbers = itertools.count()
        self.running: dict[int, int] = {}                      # leg -> step
        self.ended: dict[int, int] = {}                        # leg -> step that ended last
        self.begun: set[int] = set()                           # legs
        self.limited: set[int] = set()                         # legs whose job's limit is known
        self.late: set[int] = set()                            # legs whose time is over
        self.wanted: dict[tuple[int, int], str] = {}           # leg and step -> why it has to end
        self.causes: dict[tuple[int, int], str] = {}           # leg and step -> why it was ended
        self.known: set[tuple[int, int]] = set()               # legs and steps whose answer is given again
        self.stopped: dict[int, tuple[str, list[int]]] = {}    # leg -> why, and steps that may start, or had ended
        # seconds for which a leg has waited for a person
        self.held: Callable[[int], float] = lambda leg: 0.0
        self.timed_out = self.looking = False
        self.over = False

    def start(self) -> Ender:
        """Begins to watch."""
        self.thread = threading.Thread(target=self.watch, daemon=True)
        self.thread.start()
        return self

    def close(self) -> None:
        """Ends the watch."""
        with self.change:
            self.over = True
            self.change.notify()
        self.thread.join(LADDER[-1][0])
        self.growing.close()

    def watch(self) -> None:
        """Does what is due, until the execution is over."""
        with self.change:
            while not self.over:
                while self.due and self.due[0][0] <= time.monotonic():
                    work = heapq.heappop(self.due)[2]
                    with contextlib.suppress(OSError, ValueError):  # (the system is short of something)
                        work()
                self.change.wait(max(0.0, self.due[0][0] - time.monotonic()) if self.due else None)

    def after(self, seconds: float, work: Callable[[], None]) -> None:
        """Has work done later."""
        heapq.heappush(self.due, (time.monotonic() + seconds, next(self.numbers), work))
        self.change.notify()

    def progress(self, leg: int, step: int, state: str) -> None:
        """What a line of progress says: a step started or ended."""
        with self.change:
            if state != "started":
                self.running.pop(leg, None)
                self.ended[leg] = step
                if state == "failure":
                    self.growing.failed.add(leg)
            else:
                self.running[leg] = step
                self.begun.add(leg)
                self.limit(leg, step)
                refusal = self.refusal(leg, step)
                if (leg, step) in self.wanted:  # (it had begun before this was known)
                    self.end(leg, step, self.wanted[leg, step])
                elif refusal:  # (the prelude ends it, unless it had begun before)
                    self.timed_out |= leg in self.late
                    self.after(PATIENCE, lambda: self.end(leg, step, refusal))
            if self.growing.needed and not self.looking:
                self.looking = True
                self.after(0.0, self.look)

    def look(self) -> None:
        """Ends the steps of legs that have to stop. The record grows after lines of progress: this looks
        again."""
        self.looking = False
        for leg, (step, cause) in self.growing.stops().items():
            if step >= 0 and not goes_on(self.jobs[leg]["steps"][step]["condition"]):
                self.wanted[leg, step] = cause
                self.end(leg, step, cause)
        self.looking = bool(self.running) and bool(self.growing.failed or self.growing.entering)
        if self.looking:
            self.after(TICK, self.look)

    def limit(self, leg: int, step: int) -> None:
        """Sets the limits of a step that started, and of its job with the first one."""
        texts = {MINUTES: self.jobs[leg]["steps"][step]["env"].get(MINUTES)}
        if leg not in self.limited:
            texts[JOB_MINUTES] = self.jobs[leg]["env"].get(JOB_MINUTES)
        given = {name: str(text) for name, text in texts.items() if text is not None}
        late = [name for name, text in given.items() if not self.set_limit(leg, step, name, text)]
        if late:
            self.after(TICK, lambda: self.find_limits(leg, step, late))

    def find_limits(self, leg: int, step: int, names: list[str], tries: int = 50) -> None:
        """Sets limits that the step's own variables have, as soon as there is a process with them."""
        known = map(environment_of, self.processes(leg, step))
        given: dict[bytes, bytes] = next((found for found in known if found.get(b"GITHUB_OUTPUT")), {})
        texts = {name: os.fsdecode(given[name.encode()]) for name in names if name.encode() in given}
        for name, text in texts.items():
            self.set_limit(leg, step, name, text, TICK)
        if not texts and tries and self.running.get(leg) == step:
            self.after(TICK, lambda: self.find_limits(leg, step, names, tries - 1))

    def set_limit(self, leg: int, step: int, name: str, text: str, late: float = 0.0) -> bool:
        """Whether a text is a number of minutes, which is the limit from now on."""
        if not re.fullmatch(NUMBER, text):
            return False
        cause, seconds = f"timed out after {text} minute{'s' * (text != '1')}", 60 * float(text) - late
        if name == MINUTES:
            self.after_held(leg, seconds, lambda: self.end(leg, step, cause))
        else:
            self.limited.add(leg)
            self.after_held(leg, seconds, lambda: self.stop_timed_out(leg, f"the job {cause}"))
        return True

    def after_held(self, leg: int, seconds: float, work: Callable[[], None]) -> None:
        """Has work done later. The time in which the leg waits for a person does not count."""
        known = self.held(leg)

        def due() -> None:
            more = self.held(leg) - known
            if more > 0:
                self.after_held(leg, max(more, TICK), work)
            else:
                work()
        self.after(seconds, due)

    def stop_timed_out(self, leg: int, cause: str) -> None:
        """Stops a leg whose time is over. If it ended before, nothing changes."""
        self.late.add(leg)
        self.timed_out |= leg in self.running
        self.stop(leg, cause)

    def stop_all(self, by: str) -> None:
        """Stops all legs but those of jobs whose condition holds in a run that was cancelled."""
        with self.change:
            for leg, job in enumerate(self.jobs):
                if not goes_on(job["condition"]):
                    self.stop(leg, f"stopped by {by}")

    def stop(self, leg: int, cause: str) -> None:
        """Ends the step of a leg. Later ones start if they name `always` or `cancelled`, and it had begun."""
        with self.change:
            if leg in self.stopped:
                return
            steps = self.jobs[leg]["steps"] if leg in self.begun else []
            over = self.ended.get(leg, -1)
            allowed = [number for number, step in enumerate(steps) if number <= over or goes_on(step["condition"])]
            self.stopped[leg] = cause, allowed
            write_told(self.told / f"stopped-{leg}", "".join(f"{line}\n" for line in (cause, *allowed)))
            step = self.running.get(leg)
            if step is not None and step not in allowed:
                self.mark(leg, step)
                self.end(leg, step, cause)
            self.after(GRACE, lambda: self.stop_at_last(leg))

    def mark(self, leg: int, step: int) -> None:
        """Sets the variable of a leg that was stopped, in the step's file here and where the step sees
        another."""
        done: set[tuple[int, int]] = set()
        for root in ("/", *(f"/proc/{number}/root" for number in self.processes(leg, step))):
            add_line(self.play / f"step-{leg}-{step}.env", "ACTRUN_STOPPED=true", root, done)

    def stop_at_last(self, leg: int) -> None:
        """Ends what still executes in a leg that was stopped long ago."""
        cause = f"{self.stopped[leg][0]}, and its last steps took more than {GRACE / 60:.0f} minutes"
        write_told(self.told / f"stopped-{leg}", f"{cause}\n")
        if leg in self.running:
            self.end(leg, self.running[leg], cause)

    def end(self, leg: int, step: int, cause: str) -> None:
        """Ends a step by one signal after the other."""
        with self.change:
            if self.running.get(leg) != step or (leg, step) in self.causes or (leg, step) in self.known:
                return
            self.causes[leg, step] = cause
            write_told(self.told / f"ended-{leg}-{step}", f"{cause}\n")
            for seconds, number in LADDER:
                self.after(seconds, functools.partial(self.signal, leg, step, number))

    def signal(self, leg: int, step: int, number: int) -> None:
        """Sends a signal to all processes of a step that is still running."""
        if self.running.get(leg) == step:
            send(number, self.processes(leg, step))

    def processes(self, leg: int, step: int) -> list[int]:
        """The processes of a step: those that have its GITHUB_OUTPUT, and what descends from them. Where a
        step threw its variables away, those that belong to no other step. What the program started only
        replaces the step, if this process started the step elsewhere."""
        child = self.execution.child if self.execution else None
        if child is None:
            return []
        known = session(None)
        names = {
            number: environment_of(number).get(b"GITHUB_OUTPUT") for number in below([os.getpid()], known)
        }
        wanted = os.fsencode(self.play / f"step-{leg}-{step}.out")
        found = below([number for number, name in names.items() if name == wanted], known)
        started = below(started_by_program(child.pid, known), known)
        if not found:
            others = below([number for number, name in names.items() if name and name != wanted], known)
            return sorted(started - others)
        return sorted(found - started or found)

    def refusal(self, leg: int, step: int) -> str:
        """Why a step does not start; nothing if it may."""
        cause, allowed = self.stopped.get(leg, ("", []))
        return "" if step in allowed else cause

    def cause(self, leg: int, step: int) -> str:
        """Why a step ended, or did not start; nothing if it was left alone."""
        with self.change:
            return self.causes.get((leg, step)) or self.refusal(leg, step)
