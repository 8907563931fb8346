"""`actrun debug` on a terminal: a prompt with the words of debuggers. The program walks."""
from __future__ import annotations

import re
import sys
from dataclasses import dataclass
from pathlib import Path
from typing import Callable, Iterator

from . import Problem, prompt_lines
from .dap_logs import plan_masks, shown_log
from .dap_record import PLACE, Record, Walker
from .debug_breaks import OWN, Breaks, frame_of, shown
from .execute import ask, lines_of, program
from .explain import near, show
from .explained import BRIEF, VALUES, explainer, text_of
from .expressions import EvaluationError
from .kept_files import KeptFiles
from .live_places import FAILED, known_names
from .present import Screen
from .prompt_words import (
    EXPLAIN,
    finder,
    full_name,
    help_lines,
    history_file,
    leg_lines,
    name_lines,
    part_of,
    printed,
    search_lines,
    stack_lines,
    value_lines,
)
from .report_data import Texts
from .values import Frame
from .visible import unfailing, visible
from .whole import whole

COMMANDS = {
    "step (s), back (rs)": "one event forwards; one back, from the end of a failed step to its beginning",
    "next (n), reverse-next (rn)": "to the leg's next step; to the one before; `n 3`: three times",
    "continue (c), reverse-continue (rc)": "forwards, back, to where a break holds; else to the end, start",
    "go, go-back": "the same, but stay where no break holds",
    "until PLACE (u), finish": "forwards to a place or a step; to the end of this leg",
    "goto K, jump PLACE (j)": "to place K; to a failure (`jump failed`) or a step",
    "break PLACE (b), tbreak PLACE": "stop there, always or once: failed, a step's name or id, a job,",
    "break PLACE if EXPR": "  JOB/STEP, FILE:LINE, leg L, step L S, ends L; only where EXPR is true",
    "watch EXPR (w)": "stop where the value of an expression changes, forwards and back",
    "delete [N] (d), info breaks": "remove a break by its number or its text (`clear`), or all; list them",
    "info legs (i), frame leg L (f)": "list the legs; look at another leg or step, as in `frame step 0 1`",
    "show, bt, list (l)": "print the board; step, job and run; the workflow's lines",
    **EXPLAIN,
    "log [PATTERN], /TEXT": "print what the step printed; find a text in all logs",
    "files [LEG/STEP] [PATH]": "list what the step that ended last changed, or another; the difference of a file",
    "cat PATH, shell": "print a file of the leg as it was here; open a shell in a copy of its workspace",
    "help [WORD] (h), quit (q)": "print these lines; end, as Ctrl-D does"}
SHORT = {"s": "step", "n": "next", "rs": "back", "rn": "reverse-next", "reverse-step": "back",
         "c": "continue", "rc": "reverse-continue", "b": "break", "d": "delete", "u": "until", "l": "list",
         "where": "bt", "p": "print", "pp": "print", "w": "watch", "i": "info",
         "h": "help", "q": "quit", "exit": "quit", "f": "frame", "j": "jump"}
REMEDIES = {"debug NoBreak": "no break holds further on: `break failed` sets one where a step fails",
            "debug NoPlace": "the places are 0 to {last}",
            "debug AtEnd": "this is the last place", "debug AtStart": "this is the first place",
            "unknown command": "`help` lists the commands"}
KINDS = re.compile(r"\b(success|failure|cancelled|skipped)\b")
# words that move, and take how often
COUNTED = ("step", "back", "next", "reverse-next", "continue", "reverse-continue", "go", "go-back")
MOST_TIMES = 10_000
# words of the prompt of a break
LIVE = ("run", "r", "start", "script", "edit", "skip", "fail")


def main(arguments: list[str]) -> int:
    """The exit status of `actrun debug RECORD`."""
    path = Path(arguments[0])
    try:
        with whole(path) as readable:
            return walk(path, readable)
    except Problem as problem:
        print(visible(f"actrun: debug: {problem}"), file=sys.stderr)
        return 3


def walk(path: Path, readable: Path) -> int:
    """Walks a record that programs read by another path; gives the exit status. Raises Problem."""
    try:
        walker = Walker(program(), readable)
    except Problem:
        return refusal([str(readable)])
    try:
        prompt = Prompt(walker, Record(program(), readable.read_bytes()), changes_of(readable), path)
        for stream in (sys.stdin, sys.stdout):
            unfailing(stream, "backslashreplace")
        print(visible(f"{path}: {walker.last} event{'s' * (walker.last != 1)}; `help` lists the commands"))
        prompt.talk()
        return 0
    except KeyboardInterrupt:  # (not at the prompt)
        return 130
    finally:
        walker.close()


def refusal(arguments: list[str]) -> int:
    """Shows what the program says of a record that it refuses, and what explains it; gives its exit
    status."""
    done = ask("debug", *arguments)
    sys.stderr.buffer.write(done.stderr.encode(errors="surrogateescape"))
    show(done.stderr, "debug", arguments)
    return done.returncode


def changes_of(path: Path) -> list[list[str]]:
    """The lines of the board that each event of a record changes, by places."""
    done = ask("replay", "--changes", "--", path)
    if done.returncode not in (0, 1, 4):
        raise Problem(done.stderr.strip().removeprefix("actrun: "), done.returncode)
    found: list[list[str]] = []
    for line in done.stdout.split("\n")[:-1]:
        if line == f"place {len(found)}":
            found.append([])
        else:
            found[-1].append(line)
    return found


@dataclass
class Prompt:
    """A person's way through a record."""
    walker: Walker
    record: Record
    changes: list[list[str]]
    path: Path

    def __post_init__(self) -> None:
        self.masks = plan_masks(self.record.plan)
        self.texts = Texts(self.masks)
        self.explainer = explainer(self.walker, self.record, self.path)
        self.breaks = Breaks(self.walker, self.explainer)
        self.files = KeptFiles(self.explainer, self.path.absolute())
        self.screen = Screen()
        self.leg: int | None = 0 if self.record.legs else None  # that is looked at
        self.chosen: int | None = None                          # and its step, where one was named

    def talk(self) -> None:
        """Answers the lines of a person until there are no more."""
        history = history_file()
        prompt_lines.prepare(self.lines, history)
        last, here = "help", 0
        try:
            while True:
                here = self.walker.place
                try:
                    last = input(f"{self.walker.place}/{self.walker.last}> ").strip() or last
                    if SHORT.get(last, last) == "quit":
                        return
                    for line in self.answers(last):
                        print(self.painted(visible(line)))
                except KeyboardInterrupt:  # (the line is thrown away, or what takes long is ended)
                    print()
                    self.walker.settle(here)
                except EOFError:
                    print()
                    return
        finally:
            prompt_lines.save(history)

    def painted(self, line: str) -> str:
        """A line in colours, where the terminal has them: places stand out, results have theirs."""
        if not self.screen.coloured(sys.stdout):
            return line
        if PLACE.fullmatch(line):
            return self.screen.paint(line, "head", sys.stdout)
        if not line.startswith("  "):
            return line
        return KINDS.sub(lambda found: self.screen.paint(found[0], found[0], sys.stdout), line)

    def answers(self, line: str) -> Iterator[str]:
        """What is shown after a line: the program's answer to its own words, else that of the front."""
        name, _, rest = line.partition(" ")
        if line.startswith("/"):
            name, rest = "/", line[1:]
        name, rest = SHORT.get(name) or full_name(name, self.words()), rest.strip()
        try:
            if name in COUNTED and rest.isdigit():
                yield from self.often(name, int(rest[:9]))
            elif name in LIVE:
                yield (f"{name}: nothing of a record is executed: `actrun try --from STEP` executes again, "
                       "`try --break STEP` stops there")
            else:
                yield from self.answer(name, rest)
        except (Problem, EvaluationError) as problem:
            yield self.masks.hide(str(problem).replace("--break ", f"{name} "))

    def answer(self, name: str, rest: str) -> Iterator[str]:
        """What is shown after a word and what it takes. Raises Problem or EvaluationError."""
        method = "do_search" if name == "/" else f"do_{name.replace('-', '_')}"
        found: Callable[[str], Iterator[str]] | None = getattr(self, method, None)
        return found(rest) if found else self.own(" ".join([name, *rest.split()]))

    def often(self, name: str, count: int) -> Iterator[str]:
        """What is shown after the last of some moves; fewer are made where no more can be."""
        found = list(self.answer(name, ""))
        for _ in range(min(count, MOST_TIMES) - 1):
            before, more = self.walker.place, list(self.answer(name, ""))
            if self.walker.place == before:
                break
            found = more
        yield from found

    # Moves: the program walks

    def own(self, line: str) -> Iterator[str]:
        """The program's answer to its own words, and after a move the event that led to its place and what
        that changed."""
        answer, place = self.walker.ask(line), self.walker.place
        if answer == "unknown command":
            yield f"{answer}{near(line.partition(' ')[0], self.words())}: {REMEDIES[answer]}"
        else:
            remedy = f": {REMEDIES[answer].format(last=self.walker.last)}" if answer in REMEDIES else ""
            yield answer + remedy
        if PLACE.fullmatch(answer):
            about = self.record.about(place)
            found = self.record.focus(about) if about else None
            self.leg, self.chosen = self.leg if found is None else found, None
        if PLACE.fullmatch(answer) and place:
            yield f"  {self.masks.hide(self.record.happened(place))}"
            yield from (f"    {self.texts.hidden(change)}" for change in self.changes[place])

    def goto(self, place: int, leg: int | None = None) -> Iterator[str]:
        """Moves to a place, and looks at a leg there."""
        yield from self.own(f"goto {place}")
        self.leg = self.leg if leg is None else leg

    def do_back(self, rest: str) -> Iterator[str]:
        """One event back; from the end of a failed step to its beginning."""
        place = self.walker.place
        entry = self.record.entries[place]
        if not rest and entry["event"] == "end" and entry["answer"].get("code") != 0:
            leg: int = entry["leg"]
            yield from self.goto(self.record.begins[leg][self.record.begun(leg, place) - 1])
        else:
            yield from self.own(f"back {rest}".strip())

    def do_next(self, _: str) -> Iterator[str]:
        """To the beginning of the leg's next step, else to the end of the leg."""
        leg = self.here()
        places = self.record.begins[leg][self.record.begun(leg, self.walker.place):]
        yield from self.goto(places[0], leg) if places else self.do_finish("")

    def do_reverse_next(self, _: str) -> Iterator[str]:
        """To the beginning of this step of the leg, or from there to that of the step before."""
        leg = self.here()
        places = [place for place in self.record.begins[leg] if place < self.walker.place]
        yield from self.goto(places[-1] if places else 0, leg)

    def do_finish(self, _: str) -> Iterator[str]:
        """To the end of the leg, or of the record."""
        leg = self.here()
        yield from self.goto(self.walker.end_of(leg) or self.walker.last, leg)

    def do_continue(self, _: str) -> Iterator[str]:
        """To the next break, or to the end."""
        yield from self.to_break(True) or self.goto(self.walker.last)

    def do_reverse_continue(self, _: str) -> Iterator[str]:
        """To the break before, or to the beginning."""
        yield from self.to_break(False) or self.goto(0)

    def do_go(self, rest: str) -> Iterator[str]:
        """To the next break."""
        yield from (None if rest else self.to_break(True)) or self.own(f"go {rest}".strip())

    def do_go_back(self, rest: str) -> Iterator[str]:
        """To the break before."""
        yield from (None if rest else self.to_break(False)) or self.own(f"go-back {rest}".strip())

    def to_break(self, forward: bool) -> list[str] | None:
        """What is shown at the nearest break; None if none holds."""
        found = self.breaks.find(forward)
        if found is None:
            return None
        place, hits = found
        told = [f"  break {one.number}: {self.masks.hide(said)}" for one, said in hits if said != one.text]
        watched = hits[0][0].watched
        return [*self.goto(place, watched.leg if watched else None), *told]

    def do_until(self, text: str) -> Iterator[str]:
        """Forwards to a place, or to where a step begins; to the leg's next step where none is named."""
        if not text:
            yield from self.do_next("")
        else:
            yield from self.jump(text, [place for place in self.places(text) if place > self.walker.place])

    def do_jump(self, text: str) -> Iterator[str]:
        """To where a step begins or a failure is, the next one from here, or else the first."""
        found = self.places(text or FAILED)
        yield from self.jump(text, [place for place in found if place > self.walker.place] or found)

    def jump(self, text: str, places: list[int]) -> Iterator[str]:
        """Moves to the first of some places."""
        yield from self.goto(places[0]) if places else [f"{text}: there is no such place from here on"]

    def places(self, text: str) -> list[int]:
        """The places that a text means: a number, a kind of mishap, or what `break` takes. Raises Problem."""
        if text.isdigit():
            return [int(text[:12])]
        if text in ("failed", "cancelled", "skipped", "displaced"):
            return sorted({one.place for one in self.breaks.mishaps if one.filter == text})
        return self.breaks.places(text)

    # Breaks

    def do_break(self, text: str, once: bool = False) -> Iterator[str]:
        """Sets a break, or lists them."""
        if not text:
            yield from self.do_info("breaks")
            return
        one = self.breaks.add(" ".join(text.split()), once)
        yield "break set" + ("" if one.places else ": it holds nowhere in this record")

    def do_tbreak(self, text: str) -> Iterator[str]:
        """Sets a break that holds once."""
        yield from self.do_break(text, True)

    def do_clear(self, text: str) -> Iterator[str]:
        """Removes a break by what was typed."""
        if OWN.fullmatch(text) or text == FAILED or text and self.breaks.named(text):
            yield "cleared" if self.breaks.remove(text) else "no such break"
        else:
            yield self.walker.ask(f"clear {text}".strip())

    def do_delete(self, text: str) -> Iterator[str]:
        """Removes a break by its number or its text, or all of them."""
        yield "cleared" if self.breaks.remove(text) else "no such break: `info breaks` lists them"

    def do_watch(self, text: str) -> Iterator[str]:
        """Sets a break where a value changes."""
        if not text:
            yield "watch: write an expression, as `watch steps.build.outputs.version`"
        else:
            frame = self.frame()
            value = self.masks.hide(shown(self.breaks.watch(text, frame).value))
            where = "" if frame.leg is None else f" in {self.name('leg', frame.leg)}"
            yield f"watching {text}{where}: {value}"

    def do_info(self, text: str) -> Iterator[str]:
        """Lists the legs or the breaks."""
        if text and "legs".startswith(text):
            yield from map(self.hidden, leg_lines(self.explainer, self.walker.place, self.leg))
        elif text and "breaks".startswith(text):
            for one in self.breaks.breaks:
                count = "" if one.watched else f"  (places: {len(one.places)})"
                yield f"  {one.number}  {one.text}{', once' if one.once else ''}{count}"
            if not self.breaks.breaks:
                yield "no break is set: `break failed` sets one where a step fails"
        else:
            yield "info: write `info legs` or `info breaks`"

    # What is here

    def here(self) -> int:
        """The leg that is looked at. Raises Problem if the record has none."""
        if self.leg is None:
            raise Problem("the record has no leg")
        return self.leg

    def frame(self) -> Frame:
        """The step that is looked at, or the leg or run around it."""
        found = frame_of(self.explainer, self.leg, self.walker.place)
        return found if self.chosen is None else Frame(found.run, found.leg, self.chosen)

    def part(self, text: str) -> list[str]:
        """The words of a part as `why` takes them, by default of what is looked at: of a leg in which nothing
        has begun those of its job. Raises Problem."""
        frame = self.frame()
        here = ["run", str(frame.run)]
        if frame.leg is not None:
            is_fresh = self.explainer.board(self.walker.place).legs[frame.leg].state == "fresh"
            job = self.record.legs[frame.leg].job["number"]
            here = ["job", str(job)] if is_fresh else ["leg", str(frame.leg)]
        if frame.step is not None:
            here = ["step", str(frame.leg), str(frame.step)]
        return part_of(self.explainer, text, here)

    def hidden(self, text: str) -> str:
        """A text without secrets."""
        found: str = self.masks.hide(text)
        return found

    def name(self, kind: str, number: int, step: int | None = None) -> str:
        """A part as `why` names it, without secrets."""
        name: str = self.masks.hide(self.record.name(kind, number, step))
        return name

    def do_frame(self, text: str) -> Iterator[str]:
        """Looks at another leg or step."""
        if text:
            words = self.part(f"leg {text}" if text.isdigit() else text)
            frame = self.explainer.frame(words)
            self.leg, self.chosen = frame.leg, frame.step if words[0] == "step" else None
        yield from self.do_bt("")

    def do_bt(self, _: str) -> Iterator[str]:
        """The step, its leg, its job and its run, each with its state."""
        yield from map(self.hidden, stack_lines(self.explainer, self.walker.place, self.frame()))

    def do_list(self, text: str) -> Iterator[str]:
        """The lines of the workflow around the step; its steps where no text was kept."""
        found = self.explainer.explain(self.walker.place, self.part(text), ())
        if found["around"]:
            yield from text_of(found, ("around",))
            return
        frame = self.explainer.frame(found["part"].split())
        yield from text_of(found, ())
        steps = len(self.record.legs[frame.leg].job["steps"]) if frame.leg is not None else 0
        for step in range(steps):
            yield f"  {'>' if step == frame.step else ' '} {self.name('step', self.here(), step)}"

    def told(self, text: str, sections: tuple[str, ...]) -> Iterator[str]:
        """Some sections of the answer about a part."""
        return text_of(self.explainer.explain(self.walker.place, self.part(text), sections), sections)

    def do_explain(self, text: str) -> Iterator[str]:
        """Why a part is as it is: annotations, names that do not exist, condition, script, workflow."""
        yield from self.told(text, BRIEF)

    def do_values(self, text: str) -> Iterator[str]:
        """Which values a step, leg or job sees."""
        yield from self.told(text, VALUES)

    def do_print(self, text: str) -> Iterator[str]:
        """The value of an expression or of a variable."""
        if not text:
            yield "print: write an expression or a variable, as `print matrix.os`"
            return
        yield from printed(self.explainer.around(self.walker.place, self.frame()), text, self.masks)

    def do_env(self, _: str) -> Iterator[str]:
        """The variables, with where they come from."""
        for one in self.explainer.env(self.explainer.around(self.walker.place, self.frame())):
            yield self.masks.hide(f"  {one['name']}={one['value']}    ({one['from']})".replace("\n", "\\n"))

    def do_show(self, rest: str) -> Iterator[str]:
        """The board."""
        yield from self.own(f"show {rest}") if rest else map(self.texts.hidden, self.walker.board_lines())

    def do_why(self, text: str) -> Iterator[str]:
        """What `actrun why` says of the record up to the place."""
        try:
            yield self.masks.hide(self.record.why(self.walker.place, text.split()))
        except Problem as problem:
            yield str(problem)

    def do_log(self, pattern: str) -> Iterator[str]:
        """What the step printed, or its lines with a pattern."""
        frame, logs = self.frame(), self.explainer.logs
        if logs is None:
            yield "no log is here: the folder of the record has no step-L-S.log"
        elif frame.leg is None or frame.step is None:
            yield "no step of this leg has begun here"
        elif not self.record.answered(frame.leg, frame.step, self.walker.place):
            yield f"{self.name('step', frame.leg, frame.step)} has no log here: its program has not ended"
        else:
            lines = lines_of(shown_log(logs, frame.leg, frame.step, self.masks))
            fits = finder(pattern)
            found = [line for line in lines if fits(line)]
            yield from found or [f"no line has {pattern}" if pattern else "the step printed nothing"]

    def do_search(self, text: str) -> Iterator[str]:
        """The lines of all logs with a text, each with the place where its step ended."""
        yield from map(self.hidden, search_lines(self.explainer, self.masks, text))

    # Files as they were

    def do_files(self, text: str) -> Iterator[str]:
        """What a step changed, or the difference of a file."""
        yield from self.files.changes(self.walker.place, self.frame(), text, self.chosen)

    def do_cat(self, path: str) -> Iterator[str]:
        """A file of the leg as it was here."""
        yield from self.files.content(self.walker.place, self.frame(), path)

    def do_shell(self, text: str) -> Iterator[str]:
        """A shell in a copy of the leg's workspace as it was here."""
        if text:
            raise Problem("shell takes no argument")
        from .kept_shell import open_shell  # (here, as it takes longer than the rest together)
        open_shell(self.files, self.walker.place, self.frame())
        yield "(the copy is removed)"

    def do_help(self, word: str) -> Iterator[str]:
        """Lists the commands, or those that a word names."""
        yield help_lines(COMMANDS, SHORT.get(word, word)).rstrip("\n")
        yield from [] if word else ["An empty line repeats the last one, Tab completes."]

    # Completion

    def words(self) -> list[str]:
        """The words of all commands."""
        methods = (name[3:].replace("_", "-") for name in dir(self) if name.startswith("do_"))
        return ["step", "goto", *(name for name in methods if name != "search")]

    def lines(self) -> list[str]:
        """All lines that may be typed here."""
        numbers = [*(f"leg {leg}" for leg in range(len(self.record.legs))),
                   *(f"job {job}" for job in range(len(self.record.jobs))),
                   *(f"step {leg} {step}" for leg, row in enumerate(self.record.begins)
                     for step in range(len(row)))]
        own = [one for one in numbers if not one.startswith("job")]
        own += [f"ends {leg}" for leg in range(len(self.record.legs))]
        names = [*known_names(self.explainer.flows.known), *own]
        found = self.words() + name_lines(("break", "b", "tbreak", "until", "jump"), names)
        found += name_lines(("why", "explain", "values", "frame", "list"), numbers)
        found += [f"delete {one.number}" for one in self.breaks.breaks]
        found += [f"clear {one.text}" for one in self.breaks.breaks]
        found += ["clear failed", "info legs", "info breaks", "why all", "jump cancelled", "jump skipped"]
        found += [f"goto {one.place}" for one in self.breaks.__dict__.get("mishaps", ())][:200]
        found += self.files.lines(self.walker.place, self.frame())
        return found + value_lines(self.explainer.around(self.walker.place, self.frame()))
