"""The commands of a break's prompt that look and change nothing that executes now: values, reasons, breaks;
and `edit`."""
from __future__ import annotations

import contextlib
import os
from typing import TYPE_CHECKING, Any, Iterable

from . import Problem
from .dap_logs import Masks
from .debug_breaks import shown
from .explained import BRIEF, VALUES, text_of
from .expressions import EvaluationError
from .files import read_below
from .kept_files import NO_PATH, path_in, text_lines
from .live_edit import Edit, edited, inner
from .live_look import looking, reasons
from .live_places import known_names
from .prompt_words import leg_lines, name_lines, part_of, search_lines, stack_lines, value_lines
from .values import Frame
from .visible import visible

if TYPE_CHECKING:
    from .live import Breaks, Given
    from .live_prompt import Prompt

NO_SNAPSHOTS = "no snapshots are kept: leave --no-snapshots out"


class Words:
    """These commands, for the step at a break."""

    breaks: Breaks
    prompt: Prompt
    board: Any
    leg: int
    step: int
    title: str
    texts: dict[bytes, bytes]
    masks: Masks | None
    old: str | None
    paths: list[str] | None
    changes: list[str]

    def tell(self, text: str) -> None:
        """Shows a line."""
        self.prompt.write(visible(text) + "\n")

    def hides(self) -> Masks:
        """What hides the secrets that are known up to this step."""
        if self.masks is None:
            self.masks = self.board.masks.until(self.leg, self.step)
        return self.masks

    def hidden(self, text: str) -> str:
        """A text without secrets."""
        shown: str = self.hides().hide(text)
        return shown

    # what the record says so far

    def frame(self) -> Frame:
        """The step, as the record names it."""
        return Frame(self.breaks.trial.legs[self.leg].run, self.leg, self.step)

    def evaluate(self, expression: str) -> Any:
        """The value of an expression, as the step sees it. Raises Problem or EvaluationError."""
        with looking(self.breaks.trial, self.hides()) as explainer:
            return explainer.around(explainer.record.last, self.frame()).evaluate(expression)[0]

    def holds(self, one: Given) -> bool:
        """Whether a break before the step holds: its condition is true, or has no value, which is shown; or
        the value has changed that it watches."""
        if one.watched:
            before, one.value = one.value, self.value(one.condition)
            told = f"  break {one.number}: {one.condition}: {shown(before)} \u2192 {shown(one.value)}"
            self.changes += [told] if before != one.value else []
            return bool(before != one.value)
        try:
            return not one.condition or self.evaluate(f"!({one.condition})") is False
        except (Problem, EvaluationError) as fault:
            self.breaks.trial.screen.tell(f"note: break {self.title} if {one.condition}: {fault}", "note")
            return True

    def value(self, expression: str) -> Any:
        """The value of an expression, as the step sees it; why it has none."""
        try:
            return self.evaluate(expression)
        except (Problem, EvaluationError) as fault:
            return f"(no value: {fault})"

    def tell_part(self, text: str, sections: tuple[str, ...]) -> bool:
        """Shows what is known of a part."""
        with looking(self.breaks.trial, self.hides()) as explainer:
            part = part_of(explainer, text, ["step", str(self.leg), str(self.step)])
            self.tell_all(text_of(explainer.explain(explainer.record.last, part, sections), sections))
        return True

    def tell_all(self, lines: Iterable[str]) -> None:
        """Shows lines without secrets."""
        for line in lines:
            self.tell(self.hidden(line))

    def do_explain(self, text: str) -> bool:
        """Shows why a part is as it is."""
        return self.tell_part(text, BRIEF)

    def do_values(self, text: str) -> bool:
        """Shows which values a part sees."""
        return self.tell_part(text, VALUES)

    def do_list(self, text: str) -> bool:
        """Shows the lines of the workflow."""
        return self.tell_part(text, ("around",))

    def do_bt(self) -> bool:
        """Shows the step, its leg, its job and its run."""
        with looking(self.breaks.trial, self.hides()) as explainer:
            self.tell_all(stack_lines(explainer, explainer.record.last, self.frame()))
        return True

    def do_search(self, text: str) -> bool:
        """Shows the lines of all logs with a text."""
        with looking(self.breaks.trial, self.hides()) as explainer:
            self.tell_all(search_lines(explainer, self.hides(), text))
        return True

    def do_why(self, text: str) -> bool:
        """Shows why things are so."""
        with looking(self.breaks.trial, self.hides()) as explainer:
            self.tell_all(reasons(self.breaks.trial, explainer, text.split()))
        return True

    # files of the workspace

    def keeper(self) -> Any:
        """What keeps snapshots; None if nothing does."""
        return self.breaks.broker.keeper if self.breaks.broker else None

    def do_files(self, path: str) -> bool:
        """Shows what the leg changed since the step before."""
        keeper = self.keeper()
        found = keeper.changed(self.leg) if keeper else NO_SNAPSHOTS
        if isinstance(found, str):
            self.tell(f"files: {found}")
            return True
        before, after = found
        lines = [f"{kind} {os.fsdecode(name)}" for kind, name in keeper.store.changes(before, after)]
        if path:
            text = keeper.store.difference(before, after, os.fsencode(path)).decode("utf-8", "replace")
            lines = text.rstrip("\n").split("\n") if text else [f"{path}: nothing of this file was changed"]
        for line in lines or ["nothing was changed"]:
            self.tell(self.hidden(line))
        return True

    def do_cat(self, path: str) -> bool:
        """Shows a file of the leg's workspace."""
        keeper = self.keeper()
        if not keeper or not path:
            self.tell(f"cat: {NO_PATH if keeper else NO_SNAPSHOTS}")
            return True
        spot = keeper.place_of(self.leg)
        path = path_in(os.path.join(spot.base, *spot.parts), path)
        try:
            data = read_below(spot.base, *spot.parts, *path.split("/"))
        except OSError as error:
            raise Problem(f"{path}: {(error.strerror or str(error)).lower()}") from None
        self.tell_all(text_lines(path, data))
        return True

    # breaks, and the script

    def do_break(self, text: str, once: bool = False) -> bool:
        """Sets a break, or lists them."""
        if not text:
            return self.do_info("breaks")
        one = self.breaks.add(" ".join(text.split()), once)
        is_over = one.places and all(leg == self.leg and step <= self.step for leg, step in one.places)
        self.tell("break set" + (": its step has begun already" if is_over else ""))
        return True

    def do_tbreak(self, text: str) -> bool:
        """Sets a break that holds once."""
        return self.do_break(text, True)

    def do_watch(self, text: str) -> bool:
        """Stops where a value has changed."""
        if not text:
            self.tell("watch: write an expression, as `watch steps.build.outputs.version`")
            return True
        one = self.breaks.watch(text, (self.leg, self.step), self.value(text))
        end = "" if one.places else "; no later step of this leg can change it"
        leg = self.breaks.trial.legs[self.leg].name
        self.tell(self.hidden(f"watching {text} in {leg}: {shown(one.value)}{end}"))
        return True

    def do_delete(self, text: str) -> bool:
        """Removes a break, or all of them."""
        self.tell("cleared" if self.breaks.remove(text) else "no such break: `info breaks` lists them")
        return True

    def do_info(self, text: str) -> bool:
        """Lists the legs or the breaks."""
        if text and "legs".startswith(text):
            with looking(self.breaks.trial, self.hides()) as explainer:
                self.tell_all(leg_lines(explainer, explainer.record.last, self.leg))
            return True
        if not text or not "breaks".startswith(text):
            self.tell("info: write `info legs` or `info breaks`")
            return True
        for one in self.breaks.given:
            self.tell(f"  {one.number}  {one.text}{', once' if one.once else ''}")
        if not self.breaks.given:
            self.tell("no break is set")
        return True

    def do_edit(self) -> bool:
        """Changes the script of the step."""
        path = next((path for path in self.texts if path.endswith(b".sh")), None)
        if path is None:
            self.tell("edit: this step has no script: it uses an action")
            return True
        script = self.texts[path].decode("utf-8", "replace")
        first, last = inner(script)
        self.prompt.on_interrupt = lambda: None  # (Ctrl-C is the editor's)
        try:
            new = edited(script[first:last], self.breaks.trial.room.private)
        finally:
            self.prompt.on_interrupt = None
            self.prompt.restore()
        if new == script[first:last]:
            self.tell("the script is as it was")
            return True
        self.old = script[first:last] if self.old is None else self.old
        self.texts[path] = f"{script[:first]}{new}{script[last:]}".encode()
        kept = [one for one in self.breaks.edits if (one.leg, one.step) != (self.leg, self.step)]
        self.breaks.edits = [*kept, Edit(self.leg, self.step, f"step {self.title}", self.old, new)]
        self.tell("the script is changed for this execution: `run` executes it; the workflow's file stays "
                  "as it is")
        return True

    def lines(self) -> list[str]:
        """All lines that may be typed here."""
        if self.paths is None:
            self.paths = []
            with contextlib.suppress(Problem), looking(self.breaks.trial, self.hides()) as explainer:
                self.paths = value_lines(explainer.around(explainer.record.last, self.frame()))
        parts = [f"step {self.leg} {step}"
                 for step in range(len(self.breaks.trial.legs[self.leg].job["steps"]))]
        found = self.breaks.commands()
        found += name_lines(("break", "b", "tbreak", "until"), known_names(self.breaks.known))
        found += name_lines(("why", "explain", "values", "list"), [f"leg {self.leg}", *parts])
        found += [f"delete {text}" for one in self.breaks.given for text in (str(one.number), one.text)]
        return [*found, "info breaks", "info legs", *self.paths]
