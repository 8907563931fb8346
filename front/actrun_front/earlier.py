"""`try --from`, `--resume` and `--watch`: an earlier execution, of which steps keep their answers.

The new execution takes the folder of the earlier one, since outputs and files of steps name places in it; the
earlier one gets another name. A kept step is not started: the broker gives its recorded answer and log. If a
leg goes on behind kept steps, its workspace is written from the snapshot after the last of these.
"""
from __future__ import annotations

import argparse
import contextlib
import errno
import marshal
import os
import re
import socket
import threading
from dataclasses import dataclass, field
from functools import partial
from pathlib import Path
from typing import IO, TYPE_CHECKING, Any, Callable, Dict, Iterator, List, Set, Tuple

from . import Problem, files, keeping, tree as rooms
from .dap_record import Record, board_of
from .execute import program
from .job_outputs import finders
from .last import LACKS, Call, begun, call_of, note_call, write
from .late import KEPT, MOST_LOG, Answer, Stages, pairs, places, waits_for
from .live import Answer as Given
from .live_places import FAILED, known_in, places_of
from .machine import kept_root
from .present import Leg
from .relay import read_all
from .snapshot_restore import restore
from .snapshot_store import Place, new_execution, store_of
from .snapshots import MOST_ASKED, MOST_FILES, Keeper, Spot
from .tree import Room, copy

if TYPE_CHECKING:
    from .attempt import Trial
    from .broker import Broker

MARKS = re.compile(rb"\A(?:actrun-[0-9a-f]{16}[:+-][^\n]*\n)*")  # before a step's output
SHARED = ("artifacts", "tools")
MOST_NAMED = 3               # files that are missing
NOT_KEPT = ("note: workspaces are as they were then, without later changes of the repository; artifacts, "
            "RUNNER_TEMP and tools are as that execution left them")
Find = Callable[[Dict[bytes, bytes]], Answer]  # the answer of a step, by its variables
Key = Tuple[str, str, int]   # workflow, job's id, number of the leg in the job


@dataclass
class EarlierLeg:
    """A leg of the earlier execution."""

    number: int
    values: Dict[str, Any]
    steps: List[Dict[str, Any]]
    begun: int = 0                                            # steps
    answers: Dict[int, Dict[str, Any]] = field(default_factory=dict)
    finished: bool = False
    cancelled: bool = False


@dataclass
class Earlier:
    """An earlier execution of a repository."""

    place: Path                       # where it is
    call: Call
    option: str                       # that asks for it, as a person writes it
    wanted: str = ""                  # the step from which all is executed again; nothing for --resume
    seen: Callable[[Leg], int] | None = None                  # of --watch: the first step that sees a change
    locks: List[IO[str]] = field(default_factory=list)
    aside: Path | None = None         # where what was in the folder is now, which the new execution takes
    legs: Dict[Key, EarlierLeg] = field(default_factory=dict)
    closed: bool = False              # all its runs
    cuts: Dict[int, int] = field(default_factory=dict)        # leg -> its first step that is executed again
    copied: bool = False              # what it left beside workspaces
    written: Set[Key] = field(default_factory=set)            # legs with a workspace
    going_on: Set[int] = field(default_factory=set)           # legs that do not begin with their first step

    @property
    def folder(self) -> Path:
        """Where it was when it was executed, which is where the new one is."""
        return Path(self.call.folder)

    def read(self) -> None:
        """Reads its record."""
        record = self.place / "private" / "record"
        try:
            self.read_entries(Record(program(), record.read_bytes()))
            board = board_of(record)
        except (OSError, ValueError, KeyError, IndexError, TypeError):
            why = "has no record that can be read"
            raise Problem(f"{self.option}: the execution in {self.place} {why}") from None
        for leg in self.legs.values():
            leg.cancelled = board.legs[leg.number].state == "ended cancelled"

    def read_entries(self, record: Record) -> None:
        """Reads its plan, and what happened."""
        finished = {entry["leg"] for entry in record.entries if entry["event"] == "finish"}
        for leg in record.legs:
            entries = enumerate(record.entries[place] for place in record.done[leg.number])
            answers = {step: entry["answer"] for step, entry in entries if entry["event"] == "end"}
            key = self.call.files[leg.run], leg.job["id"], record.legs_of[leg.job["number"]].index(leg.number)
            self.legs[key] = EarlierLeg(
                leg.number,
                leg.values,
                leg.job["steps"],
                len(record.begins[leg.number]),
                answers,
                leg.number in finished,
            )
        closed = sum(entry["event"] == "close" for entry in record.entries)
        self.closed = closed == len(record.plan["runs"])

    def lock(self, folder: Path) -> None:
        """Keeps others from removing an execution. Raises Problem where that goes on."""
        lock = keeping.lock_folder(folder)
        if lock is None:
            raise Problem(f"{self.option}: the execution in {folder} still goes on")
        self.locks.append(lock)

    def take_over(self) -> None:
        """Gives what is in the folder, which is this execution or a later one, another name."""
        if not self.folder.is_dir():
            return
        if self.folder != self.place:
            self.lock(self.folder)
        names = (f"{self.folder.name}~{count}" for count in range(1, 10_000))
        aside = next(place for place in map(self.folder.with_name, names) if not os.path.lexists(place))
        self.folder.rename(aside)
        self.aside, self.place = aside, aside if self.folder == self.place else self.place

    def give_back(self) -> None:
        """Gives the folder back where nothing was executed."""
        if self.aside and not os.path.lexists(self.folder):
            self.aside.rename(self.folder)
        for lock in self.locks:
            lock.close()

    # what is kept

    def known(self, trial: Trial) -> Dict[Place, Answer]:
        """The answers of steps that are not executed again, by numbers of today's plan. Raises Problem if the
        workflow has changed before the step."""
        keys = {leg.number: key for key, leg in places(trial.flows, trial.legs)}
        firsts = self.firsts(trial, keys)
        self.cuts = Cuts(self, trial, keys, firsts).all()
        result: Dict[Place, Answer] = {}
        store, execution = trial.stages.store, self.call.execution
        for number, cut in self.cuts.items():
            leg = self.legs.get(keys[number])
            for step, answer in (leg.answers.items() if leg else ()):
                if leg and step < cut:
                    name = f"step-{leg.number}-{step}.log"
                    log = files.first_bytes(self.place, "play", name, most=MOST_LOG)
                    snapshot = store.find(execution, (leg.number, step)) if store else None
                    result[number, step] = Answer(answer, MARKS.sub(b"", log), "", snapshot or b"")
        return result

    def firsts(self, trial: Trial, keys: Dict[int, Key]) -> Dict[int, int]:
        """The steps that are asked for, by legs."""
        if self.seen:
            return {leg.number: self.seen(leg) for leg in trial.legs}
        found: Dict[int, int] = {}
        if self.wanted == FAILED:
            for number, key in keys.items():
                earlier = self.legs.get(key)
                bad = [step for step, answer in (earlier.answers.items() if earlier else ())
                       if answer["kind"] != "exit" or answer["code"]]
                found.update({number: min(bad)} if bad else {})
        elif self.wanted:
            waits = any(flow.lowered.late for flow in trial.flows)
            try:
                steps = places_of(known_in(trial), [self.wanted], "--from")
            except Problem:
                if not waits:
                    raise
                steps = set()  # (of a job that is planned later)
            for leg, step in steps:
                found[leg] = min(step, found.get(leg, step))
            return found
        if self.wanted and not found:
            raise Problem(f"{self.option}: no step of that execution failed")
        return found

    def ended(self, leg: EarlierLeg, step: int) -> bool:
        """Whether a step ended by itself."""
        told = self.place / "told"
        if leg.answers[step]["kind"] == "not-started" or (told / f"ended-{leg.number}-{step}").exists():
            return False
        with contextlib.suppress(OSError):  # (the prelude refused it)
            lines = (told / f"stopped-{leg.number}").read_text(encoding="utf-8").splitlines()
            return leg.answers[step].get("code") != 130 or str(step) in lines[1:]
        return True

    def was_stopped(self) -> bool:
        """Whether it was ended from outside."""
        return not self.closed or any((self.place / "told").glob("stopped-*"))

    # what is written

    def restore(self, trial: Trial, known: Dict[Place, Answer], spot_of: Callable[[int], Spot]) -> None:
        """Writes what steps find: workspaces, GITHUB_PATH, states, artifacts and tools."""
        keys = {leg.number: key for key, leg in places(trial.flows, trial.legs)}
        new = {self.legs[keys[number]].number: number for number in self.cuts if keys[number] in self.legs}
        going_on = {number: steps for number, steps in self.steps_of(trial, known).items()
                    if keys[number] not in self.written}
        if not self.copied:  # (before any step, which could put a link there)
            self.copied = True
            self.copy_files(trial.room, new)
            for name in (*SHARED, *(f"temp/{leg_folder(trial, number)}" for number in going_on)):
                self.copy_folder(trial, Path(name))
        missing: List[str] = []
        self.going_on = set(going_on)
        for number, steps in going_on.items():
            self.written.add(keys[number])
            root = kept_root(self.place, self.legs[keys[number]].number)
            trial.machine.earlier.update({number: root} if root else {})
            missing += self.write_leg(trial, number, known[number, max(steps)].snapshot, spot_of(number))
        for text in missing[:MOST_NAMED]:
            trial.screen.tell(f"note: {text} was not kept in the snapshot: it is not there", "warning")
        if len(missing) > MOST_NAMED:
            trial.screen.tell(f"note: {len(missing) - MOST_NAMED} other files were not, too", "warning")

    def steps_of(self, trial: Trial, known: Dict[Place, Answer]) -> Dict[int, List[int]]:
        """The kept steps of legs that go on behind them."""
        cuts = {leg: cut for leg, cut in self.cuts.items() if cut < len(trial.legs[leg].job["steps"])}
        found = {leg: [step for one, step in known if one == leg and step < cut] for leg, cut in cuts.items()}
        return {leg: steps for leg, steps in found.items() if steps}

    def write_leg(self, trial: Trial, number: int, snapshot: bytes, spot: Spot) -> List[str]:
        """Writes what a leg finds that goes on: its workspace, with large files, which no snapshot has, from
        where they still are as they were; gives what is missing. No step sees it before it is whole."""
        store, room = trial.stages.store, trial.room
        if not store or not snapshot:
            return []
        path = store.path(snapshot).decode("utf-8", "replace")
        files.write_new(room.play, "files", str(number), f"path-{number}", text=path, mode=0o644)
        new = room.folder / "restored"
        rooms.remove(new)
        missing = restore(store, store.trees(snapshot)[0], new)
        old = self.place / spot.base.relative_to(room.folder)
        left = [os.fsdecode(name) for name, (_, when) in missing
                if not copy_large(old, spot.parts, new, os.fsdecode(name), when)]
        spot.base.mkdir(parents=True, exist_ok=True)
        files.move_below(new, spot.base, *spot.parts)
        return left

    def copy_files(self, room: Room, new: Dict[int, int]) -> None:
        """Copies the files of steps that are kept, such as summaries and states."""
        play = self.place / "play"
        for old, number in new.items():
            for name in files.names(play, "files", str(old)):
                found = KEPT.fullmatch(name)
                if (
                    not found
                    or not found[3]
                    or int(found[2]) != old
                    or int(found[3][1:]) >= self.cuts.get(number, 0)
                ):
                    continue
                with contextlib.suppress(OSError):
                    text = files.read_below(play, "files", str(old), name, most=MOST_LOG).decode(
                        "utf-8", "replace"
                    )
                    files.write_new(
                        room.play,
                        "files",
                        str(number),
                        f"{found[1]}-{number}{found[3]}",
                        text=text,
                        mode=0o644,
                    )

    def copy_folder(self, trial: Trial, name: Path) -> None:
        """Copies a folder that the earlier execution left, with links as links."""
        source, target = self.place / "play" / name, trial.room.play / name
        with contextlib.suppress(OSError):
            os.close(files.open_folder(self.place / "play", name.parts))
            target.mkdir(exist_ok=True)
            try:
                copy(source, ["cp", "-a", "--reflink=auto", "--", "./.", target])
            except Problem:
                trial.screen.tell(f"note: {source} cannot be copied whole", "warning")


def copy_large(old: Path, parts: Tuple[str, ...], new: Path, name: str, when: int) -> bool:
    """Copies a file that is still as it was; whether it is."""
    try:
        with open(files.open_file(old, *parts, *name.split("/")), "rb") as source:
            found = os.fstat(source.fileno())
            if found.st_mtime_ns != when:
                return False
            with open(os.open(new / name, os.O_WRONLY | os.O_CREAT | os.O_EXCL, 0o600), "wb") as target:
                os.fchmod(target.fileno(), found.st_mode & 0o1777)
                copy_data(source.fileno(), target.fileno(), found.st_size)
                os.utime(target.fileno(), ns=(when, when))
        return True
    except OSError:
        return False


def copy_data(source: int, target: int, whole: int) -> None:
    """Copies a file of some length, but for its holes, which take no room on the disk."""
    os.ftruncate(target, whole)
    at = 0
    while at < whole:
        try:
            at = os.lseek(source, at, os.SEEK_DATA)
        except OSError as error:
            if error.errno != errno.ENXIO:
                raise
            return  # (the rest is a hole)
        end = min(os.lseek(source, at, os.SEEK_HOLE), whole)
        while at < end:
            at += os.copy_file_range(source, target, end - at, at, at) or whole


def leg_folder(trial: Trial, number: int) -> str:
    """The name of a leg's folders: its job's number, and its own in the job."""
    job = trial.legs[number].job
    before = sum(leg.job is job for leg in trial.legs[:number])
    return f"{job['number']}-{before}"


@dataclass
class Cuts:
    """Looks for the first step of each leg that is executed again."""

    earlier: Earlier
    trial: Trial
    keys: Dict[int, Key]
    firsts: Dict[int, int]
    cuts: Dict[int, int] = field(default_factory=dict)
    whole: Dict[int, bool] = field(default_factory=dict)     # by jobs: nothing of them is executed again

    def all(self) -> Dict[int, int]:
        """The first step that is executed again, by legs."""
        self.jobs = {leg.job["number"]: leg.job for leg in self.trial.legs}
        self.before: set[int] = set()                        # the jobs that those of the asked steps need
        asked = [self.trial.legs[leg].job["number"] for leg in self.firsts] if not self.earlier.seen else []
        for job in asked:
            self.add_before(job)
        for job in self.jobs:
            self.visit(job)
        return self.cuts

    def add_before(self, job: int) -> None:
        """Adds what a job needs."""
        for need in self.jobs[job]["needs"] if job in self.jobs else ():
            if need not in self.before:
                self.before.add(need)
                self.add_before(need)

    def visit(self, job: int) -> bool:
        """Whether nothing of a job is executed again."""
        if job not in self.whole:
            self.whole[job] = True  # (needs have no circle)
            needs = all([self.visit(need) for need in self.jobs[job]["needs"] if need in self.jobs])
            legs = [leg for leg in self.trial.legs if leg.job["number"] == job]
            then = [self.earlier.legs.get(self.keys[leg.number]) for leg in legs]
            skipped = self.earlier.closed and not any(leg and leg.begun for leg in then)
            for leg in legs:
                self.cuts[leg.number] = self.cut(leg) if needs and not skipped else 0
            is_whole = all(self.cuts[leg.number] == len(leg.job["steps"]) for leg in legs)
            self.whole[job] = needs and (skipped or is_whole)
        return self.whole[job]

    def cut(self, leg: Leg) -> int:
        """The first step of a leg that is executed again."""
        earlier, strict = self.earlier.legs.get(self.keys[leg.number]), leg.job["number"] in self.before
        asked = self.firsts.get(leg.number)
        if any(waits_for(leg.job["id"], late) for late in self.trial.flows[leg.run].lowered.late):
            return 0  # (a later stage has its legs)
        if not earlier or earlier.values != leg.values:
            if strict or asked and not self.earlier.seen:
                why = f"that execution has no {leg.name}"
                raise Problem(f"{self.earlier.option}: {why}: --from {leg.job['id']}")
            return 0
        steps = leg.job["steps"]
        limit = len(steps) if asked is None else asked
        count = 0
        while count < limit:
            if count >= len(earlier.steps) or steps[count] != earlier.steps[count]:
                if strict or asked and not self.earlier.seen:
                    raise self.unfit(leg, count)
                break
            if count in earlier.answers and not self.earlier.ended(earlier, count):
                break
            is_last = not earlier.finished and count + 1 >= earlier.begun
            if count not in earlier.answers and (is_last or earlier.cancelled):
                break
            count += 1
        return self.with_snapshot(leg, earlier, count, asked)

    def unfit(self, leg: Leg, step: int) -> Problem:
        """The error of a step that has changed."""
        title = self.trial.board.title(leg.number, step)
        return Problem(f"{self.earlier.option}: step {step} ({title}) is not as it was in that execution: "
                       f"--from {leg.job['id']}/{step} executes it, too")

    def with_snapshot(self, leg: Leg, earlier: EarlierLeg, count: int, asked: int | None) -> int:
        """That step, if a snapshot of the workspace before it is kept, or none is needed."""
        executed = [step for step in earlier.answers if step < count]
        if not executed or count == len(leg.job["steps"]):
            return count
        store, execution = self.trial.stages.store, self.earlier.call.execution
        if store and execution and store.find(execution, (earlier.number, max(executed))):
            return count
        if asked and not self.earlier.seen:
            title = self.trial.board.title(leg.number, max(executed))
            raise Problem(f"{self.earlier.option}: no snapshot of the workspace after {title} is kept: "
                          f"--from {leg.job['id']}/0 executes the job, --snapshots keeps large workspaces")
        return 0


# what the broker does with steps that are kept

def giver(find: Find, place: Place, mark: str) -> Callable[[socket.socket, int], None]:
    """What gives a connection the answer of a step that is not executed, and its output the log."""
    def give(connection: socket.socket, output: int) -> None:
        words = find, place, mark, connection, output
        threading.Thread(target=hand_over, args=words, daemon=True).start()
    return give


def hand_over(find: Find, place: Place, mark: str, connection: socket.socket, output: int) -> None:
    """Gives a connection the answer of a step."""
    try:
        with connection, open(output, "wb") as log:
            length = int.from_bytes(read_all(connection, 8), "little")
            variables = marshal.loads(read_all(connection, length))[1]
            answer = find(variables)
            log.write(f"{mark}:{place[0]}-{place[1]}\n".encode())
            for sign, name in ((b"+", b"ACTRUN_JOB_NAME"), (b"-", b"ACTRUN_NAME")):
                if variables.get(name):
                    log.write(mark.encode() + sign + variables[name].split(b"\n")[0] + b"\n")
            log.write(answer.log)
            log.flush()
            connection.sendall(as_given(answer).data())
    except (OSError, EOFError, ValueError, TypeError):  # (the shim has ended)
        return


def recorded(answer: Answer, _: dict[bytes, bytes]) -> Answer:
    """The answer of a record, whatever variables its step has."""
    return answer


def as_given(answer: Answer) -> Given:
    """A recorded answer as an agent gives it."""
    if answer.answer["kind"] != "exit":
        return Given(1, [b"\xff\n", b""])
    texts = (pairs(answer.answer.get(name, {})).encode() for name in ("outputs", "env"))
    return Given(answer.answer["code"], list(texts))


@contextlib.contextmanager
def around(trial: Trial, broker: Broker) -> Iterator[None]:
    """Has the broker keep the workspaces of legs, and answer steps that are not executed again."""
    stages, known = trial.stages, trial.known
    common = Spot(trial.room.play, ("tree", trial.room.name))

    def spot_of(leg: int) -> Spot:
        relay, room = broker.relays.get(leg), trial.room
        if relay and relay.place.own:
            return Spot(relay.place.work, (relay.place.name,))
        return Spot(room.play, ("legs", leg_folder(trial, leg), room.name)) if trial.own_trees else common

    def path_of(leg: int) -> bytes:
        with contextlib.suppress(OSError):
            return files.read_below(trial.room.play, "files", str(leg), f"path-{leg}", most=MOST_LOG)
        return b""
    given: Dict[Place, Find] = {place: partial(recorded, answer) for place, answer in known.items()}
    found = {**finders(trial), **given}
    broker.known = {place: giver(find, place, trial.board.mark) for place, find in found.items()}
    if stages.earlier:
        stages.earlier.restore(trial, known, spot_of)
        for text in kept_lines(trial, stages.earlier):
            trial.screen.tell(text, "note")
    if not stages.call.execution:
        yield
        return
    most = MOST_ASKED if trial.options.snapshots else MOST_FILES
    start = common if trial.options.workspace == "full" else None
    keeper = broker.keeper = Keeper(stages.store, stages.call.execution, spot_of, path_of, most, start)
    keeper.begin({place: answer.snapshot for place, answer in known.items() if answer.snapshot})
    yield
    trial.snapshots = keeper.kept
    write(trial.room.private / LACKS, keeper.lacks())
    for text in keeper.notes(lambda leg: trial.legs[leg].name):
        trial.screen.tell(f"note: {text}", "note")


def kept_lines(trial: Trial, earlier: Earlier) -> Iterator[str]:
    """What is kept of an earlier execution, and what is not."""
    again, kept = [], []
    for number, cut in earlier.cuts.items():
        leg = trial.legs[number]
        count = sum(place[0] == number for place in trial.known)
        steps = f"{count} step{'s' * (count != 1)}"
        if count:
            kept.append(f"{leg.name} ({steps})")
            again += [trial.board.title(number, cut)] if cut < len(leg.job["steps"]) else []
    place = "" if earlier.seen else f", which is in {earlier.place} now"
    if kept:
        yield f"kept from the last execution{place}: {', '.join(kept)}"
    if again:
        yield f"goes on at: {', '.join(again)}"
    if again and not earlier.seen:
        rest = [trial.legs[leg].name for leg in sorted(earlier.going_on - trial.machine.earlier.keys())]
        also = "HOME, /tmp, /etc and /usr are too" if len(rest) < len(earlier.going_on) else ""
        new = f"HOME, /tmp and the system of {', '.join(rest)} are new"
        new = new if rest else "the rest of the system is new"
        yield "; ".join(filter(None, (NOT_KEPT, also, new)))


def open_store(trial: Trial) -> None:
    """Opens the store of snapshots, if some are read or kept, and notes how this execution was called."""
    stages, options = trial.stages, trial.options
    kept = not (options.no_sandbox or options.in_place or options.no_snapshots)
    if stages.store is None and (kept or stages.earlier):
        try:
            stages.store = store_of(trial.play.facts.top)
            stages.call.execution = new_execution() if kept else ""
        except Problem as problem:
            if options.snapshots or stages.earlier:
                raise
            trial.screen.tell(f"note: {problem}", "note")
    stages.call.folder = str(trial.room.folder)
    stages.call.files = [flow.name for flow in trial.flows]
    note_call(trial.room.folder, stages.call)


def make_room(earlier: Earlier | None, work: Path, name: str, keep: Path | None) -> Room:
    """The folder of a new execution: that of the earlier one, if there is one."""
    if not earlier:
        return rooms.make_room(work, name, keep)
    earlier.take_over()
    try:
        return rooms.make_room(work, name, None, earlier.folder)
    except BaseException:
        earlier.give_back()
        raise


def close(stages: Stages) -> None:
    """Gives back what an execution had of an earlier one and of the store."""
    if stages.earlier:
        stages.earlier.give_back()
        if stages.earlier.seen and stages.earlier.aside:  # (the watch goes on from the new one)
            rooms.remove(stages.earlier.aside)
    if stages.store:
        stages.store.close()
        with contextlib.suppress(OSError):
            stages.store.bound()


# which execution is meant

def find(line: argparse.Namespace, top: Path, first: Callable[[Leg], int] | None = None) -> Earlier | None:
    """The earlier execution that the command line asks for; None without --from and --resume. With `first` it
    is the last one of --watch."""
    wanted, record = line.from_step, line.record
    if first:
        earlier = of_folder(begun(top, "--watch"), "--watch", top)
        earlier.seen = first
        return earlier
    if not wanted and not line.resume:
        if record:
            raise Problem(f"--record {record}: this is for --from JOB/STEP and --resume")
        return None
    for name in ("no_sandbox", "in_place", "keep"):
        if getattr(line, name):
            why = "steps execute in a sandbox, in the folder of the earlier execution"
            raise Problem(f"--{name.replace('_', '-')}: with --from and --resume {why}: leave it out")
    if wanted and line.resume:
        raise Problem(f"--from {wanted} and --resume both say where to go on: leave one of the two out")
    option = f"--from {wanted}" if wanted else "--resume"
    if record and record.name != "record":
        raise Problem(f"--record {record}: name the file `record` of an execution, whose place `try` prints")
    folder = Path(record).resolve().parent.parent if record else begun(top, option)
    earlier = of_folder(folder, option, top)
    earlier.wanted = wanted or ""
    if not wanted and not earlier.was_stopped():
        why = "the last execution came to its end by itself"
        raise Problem(f"--resume: {why}: --from JOB/STEP executes a part again")
    return earlier


def of_folder(folder: Path, option: str, top: Path) -> Earlier:
    """The execution of a folder. Raises Problem where it is gone, or of another repository."""
    call = call_of(folder, option)
    if Path(call.top) != top:
        raise Problem(f"{option}: {folder} is an execution of {call.top}: name that by --directory")
    earlier = Earlier(folder, call, option)
    earlier.lock(folder)
    keeping.recover(folder / "private")
    earlier.read()
    return earlier
