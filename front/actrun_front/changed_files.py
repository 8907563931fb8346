"""`actrun files`: what a step added, changed and deleted in the workspace of its leg, by the snapshots."""
from __future__ import annotations

import argparse
import contextlib
import json
import os
import sys
from dataclasses import dataclass
from pathlib import Path
from typing import Any, Dict, Iterator, List, Tuple

from . import Problem
from .last import LACKS, Call, call_of
from .log_masks import LogMasks
from .masks import Masks, secrets_of
from .snapshot_store import EMPTY, MOST_EXECUTIONS, Place, Store
from .tree import kept_for
from .visible import picture, visible

MOST_STEPS, MOST_LISTED = 1000, 100   # in a page
MOST_SHOWN = 4 * 1024 ** 2     # bytes of a difference
ABOUT = """\
Prints what a step added (A), changed (M) and deleted (D) in the workspace of its leg, one file
per line; with PATH, the difference of that file. `.git` is left out."""
END = """\
RECORD can be --last, the last `try` of this repository. LEG and STEP are numbers, as `debug` and
`why` print them. `try` keeps snapshots unless the workspace has more than 20,000 files
(--snapshots) or --no-snapshots is given."""


@dataclass
class Step:
    """A step with a snapshot after it, and the trees before and after."""

    store: Store
    before: bytes
    after: bytes

    def changes(self) -> List[Tuple[str, bytes]]:
        """What it added, changed and deleted."""
        return self.store.changes(self.before, self.after)

    def difference(self, path: str) -> str:
        """The difference of a file."""
        data = self.store.difference(self.before, self.after, os.fsencode(path))
        text, more = data[:MOST_SHOWN].decode("utf-8", "replace"), len(data) - MOST_SHOWN
        return text if more <= 0 else f"{text}\n(the difference is cut here: {more} bytes follow)\n"


@dataclass
class Kept:
    """The snapshots of an execution, which nobody removes meanwhile."""

    folder: Path      # of the execution
    call: Call
    store: Store

    def find(self, place: Place) -> bytes:
        """The snapshot after a step. Raises Problem that says why none is kept, and the remedy."""
        found, (leg, step) = self.store.find(self.call.execution, place), place
        if found is None:
            raise Problem(f"the workspace after step {step} of leg {leg} is not kept: {self.why_none(leg)}")
        return found

    def why_none(self, leg: int) -> str:
        """Why a leg has no snapshot of a step, and the remedy."""
        why, known = self.lacks(leg)[0], self.store.places(self.call.execution)
        steps = ", ".join(str(number) for one, number in sorted(known) if one == leg)
        legs = ", ".join(map(str, sorted({one for one, _ in known})))
        there = (
            f"of leg {leg} there are those of steps {steps}" if steps else f"there are those of legs {legs}"
        )
        gone = f"only the last {MOST_EXECUTIONS} executions are: `actrun try` executes again"
        return why or (there if known else gone)

    def lacks(self, leg: int) -> Tuple[str, Dict[str, str]]:
        """Why no more snapshots of a leg were made, and what these are without."""
        with contextlib.suppress(OSError, ValueError, LookupError, TypeError):
            why, left = json.loads((self.folder / "private" / LACKS).read_bytes())[str(leg)]
            return str(why), {str(path): str(reason) for path, reason in left.items()}
        return "", {}

    def step(self, place: Place) -> Step:
        """A step of the execution. Raises Problem if no snapshot of it is kept."""
        after, (leg, step) = self.find(place), place
        known = self.store.places(self.call.execution)
        earlier = [number for one, number in known if one == leg and number < step]
        before = self.store.find(self.call.execution, (leg, max(earlier)) if earlier else None)
        return Step(self.store, *self.store.trees(before, after))


@contextlib.contextmanager
def kept_of(record: Path) -> Iterator[Kept]:
    """The snapshots of the execution of a record. Raises Problem if it kept none."""
    call = call_of(record.parent.parent, str(record))
    if not call.execution:
        without = "--no-snapshots, --in-place or --no-sandbox"
        raise Problem(f"{record}: this execution kept no snapshots: leave {without} out")
    store = Store(kept_for(Path(call.top), "snapshots")).open()
    try:
        yield Kept(record.parent.parent, call, store)
    finally:
        store.close()


def of_record(record: Path) -> Dict[str, List[Tuple[str, str]]]:
    """What the steps of an execution changed, by leg and step; nothing if there are no snapshots or too
    many."""
    try:
        call = call_of(record.parent.parent, str(record))
        store = Store(kept_for(Path(call.top), "snapshots"))
        known = sorted(store.places(call.execution)) if call.execution else []
        if not known or len(known) > MOST_STEPS:
            return {}
        store.open()
    except (Problem, OSError):
        return {}
    try:
        ids = {place: store.find(call.execution, place) or EMPTY for place in known}
        start = store.find(call.execution, None) or EMPTY
        last: Dict[int, bytes] = {}
        pairs = []
        for (leg, _), number in ids.items():
            pairs.append((last.get(leg, start), number))
            last[leg] = number
        found = zip(known, store.all_changes(pairs))
        return {f"{leg}-{step}": few(changes) for (leg, step), changes in found}
    except OSError:
        return {}
    finally:
        store.close()


def few(changes: List[Tuple[str, bytes]]) -> List[Tuple[str, str]]:
    """The first changes of the workspace in two snapshots."""
    below = b"tree/"
    found = [(kind, path[len(below):]) for kind, path in changes if path.startswith(below)]
    lines = [(kind, path.decode("utf-8", "replace")) for kind, path in found[:MOST_LISTED]]
    return lines + ([("\u2026", f"and {len(found) - MOST_LISTED} more")] if len(found) > MOST_LISTED else [])


def masks_of(record: Path, place: Place) -> Masks:
    """What is hidden in what a step left."""
    with open(record, encoding="utf-8") as file:
        plan = json.loads(file.readline())
    return LogMasks(list(secrets_of(plan)), record.parent.parent / "play").until(*place)


def answer(options: argparse.Namespace) -> Any:
    """What is asked for, as JSON has it."""
    record, place = Path(options.record).resolve(), (options.leg, options.step)
    with kept_of(record) as kept:
        step, hide = kept.step(place), masks_of(record, place).hide
        changes = step.changes()
        kinds = {os.fsdecode(path): kind for kind, path in changes}
        if options.path is None:
            files = [{"change": kind, "path": hide(shown(path))} for path, kind in kinds.items()]
            return {"leg": place[0], "step": place[1], "files": files}
        path = os.path.normpath(options.path)
        return {"leg": place[0], "step": place[1], "path": path, "change": kinds.get(path),
                "difference": hide(step.difference(path)) if path in kinds else ""}


def shown(path: str) -> str:
    """A path in UTF-8."""
    return os.fsencode(path).decode("utf-8", "replace")


def line_of(path: str) -> str:
    """A path as it is shown, on one line."""
    return visible(path).replace("\n", picture("\n"))


def text_of(found: Any) -> str:
    """The answer for a person."""
    if "difference" in found:
        return visible(found["difference"] or f"the step did not change {found['path']}\n")
    return "".join(f"{file['change']} {line_of(file['path'])}\n" for file in found["files"])


def main(arguments: list[str]) -> int:
    """The exit status of `actrun files ARGUMENTS`."""
    reader = argparse.ArgumentParser(prog="actrun files", allow_abbrev=False, description=ABOUT, epilog=END,
                                     formatter_class=argparse.RawDescriptionHelpFormatter)
    reader.add_argument("record", metavar="RECORD|--last")
    reader.add_argument("leg", metavar="LEG", type=int)
    reader.add_argument("step", metavar="STEP", type=int)
    reader.add_argument("path", metavar="PATH", nargs="?", help="a file, by its path in the workspace")
    reader.add_argument("--json", action="store_true", help="print JSON")
    options = reader.parse_args(arguments)
    try:
        found = answer(options)
    except ValueError as fault:
        raise Problem(f"{options.record}: {fault}", 3) from None
    sys.stdout.write(json.dumps(found) + "\n" if options.json else text_of(found))
    return 0
