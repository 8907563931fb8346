"""The files of legs as they were at a place of a record, by the snapshots: for the prompt of `debug`, and for
editors."""
from __future__ import annotations

import contextlib
import os
import re
from dataclasses import dataclass
from pathlib import Path
from typing import Iterator, Tuple

from . import Problem
from .changed_files import MOST_SHOWN, Kept, kept_of, line_of, shown
from .explain import near
from .explained import Explainer
from .live_places import Place, of_name
from .log_masks import LogMasks
from .masks import Masks, secrets_of
from .snapshot_store import ABOUT, EMPTY, FOLDER, LINK, entries_of
from .values import Frame
from .visible import visible

STEP = re.compile(r"(\d{1,6})/(\d{1,6})")
MOST_NAMES = 2000
NO_PATH = "write the path of a file in the workspace, as `cat README.md`"


@dataclass
class Then:
    """The workspace of a leg at a place: its snapshot, which is the one after the step that ended last."""

    kept: Kept
    leg: int
    step: int | None           # nothing if none has ended
    snapshot: bytes | None     # nothing of an empty workspace

    @property
    def tree(self) -> bytes:
        """The id of the workspace's tree."""
        return self.kept.store.trees(self.snapshot)[0] if self.snapshot else EMPTY


@dataclass
class KeptFiles:
    """Answers what the files of legs were at the places of a record. All texts are without secrets."""

    explainer: Explainer
    path: Path                 # of the record

    def last(self, leg: int, place: int) -> int | None:
        """The step of a leg that ended last up to a place."""
        record = self.explainer.record
        steps = range(record.begun(leg, place))
        return max((step for step in steps if record.answered(leg, step, place)), default=None)

    def masks(self, leg: int, step: int | None) -> Masks:
        """What is hidden in what a leg had after a step."""
        found = LogMasks(list(secrets_of(self.explainer.record.plan)), self.path.parent.parent / "play")
        return found.until(leg, -1 if step is None else step)

    def name(self, leg: int, step: int | None = None) -> str:
        """How a leg or a step is called."""
        record = self.explainer.record
        return record.name("leg", leg) if step is None else \
            f"{record.name('step', leg, step)} of {record.name('leg', leg)}"

    def workspace(self, frame: Frame, place: int) -> str:
        """Where the steps of a frame have their workspace."""
        around = self.explainer.around(place, frame)
        own = around.variables().get("GITHUB_WORKSPACE")
        return own.text if own else str(around.run["roots"]["github"].get("workspace") or "")

    # What a step changed

    def named(self, text: str, leg: int) -> Place | None:
        """The step that LEG/STEP or JOB/STEP means. Raises Problem for a number that there is not."""
        numbers = STEP.fullmatch(text)
        if numbers:
            self.explainer.frame(["step", *numbers.groups()])
            return int(numbers[1]), int(numbers[2])
        found = of_name(self.explainer.flows.known, text) if "/" in text else set()
        return min((one for one in found if one[0] == leg), default=min(found, default=None))

    def meant(self, text: str, leg: int) -> Tuple[Place | None, str]:
        """The step that a text begins with, and the path behind it."""
        first, _, rest = text.partition(" ")
        for head, path in ((text, ""), (first, rest.strip())):  # (names of steps may have blanks)
            found = self.named(head, leg)
            if found:
                return found, path
        return None, text

    def changes(self, place: int, frame: Frame, text: str, step: int | None = None) -> Iterator[str]:
        """What a step changed, by default the one that ended last in the frame's leg; of a path the
        difference. Raises Problem if there is no snapshot."""
        leg = self.leg(frame)
        given, path = self.meant(text, leg)
        leg, step = given or (leg, self.last(leg, place) if step is None else step)
        if step is None:
            raise Problem(f"no step of {self.name(leg)} has ended here: `next` goes on")
        if not self.explainer.record.answered(leg, step, place):
            state = self.explainer.title(place, Frame(frame.run, leg, step), "step")["state"]
            raise Problem(f"{self.name(leg, step)} has changed nothing here: {state}")
        with kept_of(self.path) as kept:
            found, hide = kept.step((leg, step)), self.masks(leg, step).hide
            kinds = {os.fsdecode(name): kind for kind, name in found.changes()}
            if path:
                path = path_in(self.workspace(frame, place), path)
                text = found.difference(path) if path in kinds else ""
                yield from hide(text).rstrip("\n").split("\n") if text else \
                    [f"{hide(self.name(leg, step))} did not change {path}"]
                return
            yield hide(f"{self.name(leg, step)}{'' if kinds else ' changed nothing'}")
            yield from (hide(f"  {kind} {line_of(shown(name))}") for name, kind in kinds.items())

    # What is in the workspace

    def leg(self, frame: Frame) -> int:
        """The leg of a frame. Raises Problem if it has none."""
        if frame.leg is None:
            raise Problem("the record has no leg")
        return frame.leg

    @contextlib.contextmanager
    def then(self, place: int, frame: Frame) -> Iterator[Then]:
        """The workspace of a frame's leg. Raises Problem if there is no snapshot."""
        leg = self.leg(frame)
        step = self.last(leg, place)
        with kept_of(self.path) as kept:
            start = kept.store.find(kept.call.execution, None)
            yield Then(kept, leg, step, start if step is None else kept.find((leg, step)))

    def lines(self, place: int, frame: Frame) -> list[str]:
        """The lines of a prompt that name a file or a step; those of files only if there is a snapshot."""
        record, found = self.explainer.record, []
        for leg, done in enumerate(record.done):
            found += [f"files {leg}/{step}" for step in range(len(done)) if record.answered(leg, step, place)]
        with contextlib.suppress(Problem, OSError), self.then(place, frame) as then:
            text = then.kept.store.git("ls-tree", "-r", "-z", "--name-only", then.tree.hex())
            names = [shown(os.fsdecode(name)) for name in text.split(b"\0")
                     if not {ABOUT, b".git"} & {*name.split(b"/")}]
            found += [f"cat {name}" for name in names[:MOST_NAMES] if name and visible(name) == name]
        return found

    def content(self, place: int, frame: Frame, path: str) -> Iterator[str]:
        """The lines of a file; of a folder what it has. Raises Problem if it was not there."""
        if not path:
            raise Problem(f"cat: {NO_PATH}")
        path = path_in(self.workspace(frame, place), path)
        with self.then(place, frame) as then:
            hide = self.masks(then.leg, then.step).hide
            try:
                yield from (hide(line) for line in lines_in(then, path))
            except Problem as problem:
                raise Problem(hide(str(problem))) from None


def path_in(workspace: str, path: str) -> str:
    """A path from a workspace, also where it is written as steps see it. Raises Problem if it leads out."""
    path = os.path.normpath(path)
    path = os.path.relpath(path, workspace) if path.startswith(f"{workspace}/") else path.lstrip("/")
    if path.partition("/")[0] == "..":
        raise Problem(f"{path}: this leads out of the workspace")
    return path


def lines_in(then: Then, path: str) -> Iterator[str]:
    """The lines of what has a path in a workspace. Raises Problem if nothing has."""
    store = then.kept.store
    entry = store.entry(then.tree, os.fsencode(path if path != "." else ""))
    if entry is None:
        raise Problem(f"{path}: {why_missing(then, path)}")
    mode, number = entry
    data = store.object(number)
    if mode == FOLDER:
        inner = [(mode, name) for mode, _, name in entries_of(data) if name != ABOUT]
        yield from (line_of(shown(os.fsdecode(name))) + "/" * (mode == FOLDER) for mode, name in inner)
    elif mode == LINK:
        yield f"{path} is a link to {shown(os.fsdecode(data))}"
    else:
        yield from text_lines(path, data)


def text_lines(path: str, data: bytes) -> Iterator[str]:
    """The lines of a file, if it is a text."""
    if b"\0" in data[:8192]:
        yield f"{path} is no text: {len(data):,} bytes"
        return
    text = data[:MOST_SHOWN].decode("utf-8", "replace")
    yield from text.removesuffix("\n").split("\n") if text else ()
    yield from [f"({len(data) - MOST_SHOWN:,} bytes more)"] if len(data) > MOST_SHOWN else []


def why_missing(then: Then, path: str) -> str:
    """Why a workspace has nothing with a path."""
    left = then.kept.lacks(then.leg)[1]
    if path in left:
        return f"snapshots are without it: {left[path]}"
    if not then.snapshot:
        return f"the workspace of leg {then.leg} is empty here, since no step of it has ended"
    folder, _, name = path.rpartition("/")
    entry = then.kept.store.entry(then.tree, os.fsencode(folder))
    inner = entries_of(then.kept.store.object(entry[1])) if entry and entry[0] == FOLDER else ()
    names = [shown(os.fsdecode(one)) for _, _, one in inner if one != ABOUT]
    return f"the workspace of leg {then.leg} has no such file here{near(name, names)}"
