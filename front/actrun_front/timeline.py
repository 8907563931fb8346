"""`actrun timeline --times FILE RECORD`: the program's chart of a record, each bar moved from its lines to
the times of these lines."""
from __future__ import annotations

import contextlib
import copy
import itertools
import os
import pathlib
import re
import subprocess
from dataclasses import dataclass
from datetime import datetime, timedelta
from typing import Iterator
from xml.etree import ElementTree

from . import Problem
from .dap_record import PICTURES
from .execute import program
from .explain import show, take_apart
from .report_data import read_times

SVG = "http://www.w3.org/2000/svg"
RECT, TITLE = (f"{{{SVG}}}{name}" for name in ("rect", "title"))
LINES = re.compile(r", line (\d+)(?: to (\d+|the end))?\Z")  # what ends the text of a bar or a mark
LEFT, RIGHT, MARK = 430, 1330, 4  # the ends of the lanes; how wide a mark is
SECOND, MINUTE, HOUR = 1000, 60_000, 3_600_000
STEPS = [
    1,
    2,
    5,
    10,
    20,
    50,
    100,
    200,
    500,
    *(SECOND * it for it in (1, 2, 5, 10, 15, 30)),
    *(MINUTE * it for it in (1, 2, 5, 10, 15, 30)),
    *(HOUR * it for it in (1, 2, 3, 6, 12)),
]
MOST_STEPS = 10


def title_of(shape: ElementTree.Element) -> str:
    """The text of a shape."""
    return shape.findtext(TITLE) or ""


def name_shape(shape: ElementTree.Element, text: str) -> None:
    """Gives a shape that has a text another one."""
    for title in shape.iter(TITLE):
        title.text = text
        return


@dataclass
class Clock:
    """When the lines of a record came, and where moments are in a chart."""
    start: int           # in milliseconds since 1970
    moments: list[int]   # of each line, in milliseconds since the start

    def place(self, moment: int) -> int:
        """Where a moment is. The last line is so far before the end of the lanes that its marks end there."""
        return LEFT + moment * (RIGHT - MARK - LEFT) // max(self.moments[-1], 1)

    def move(self, bar: ElementTree.Element) -> None:
        """Moves a bar or a mark to the times of the lines that its text names, and adds these to the text;
        the keys name no lines."""
        title = title_of(bar)
        lines = LINES.search(title)
        if lines is None:
            return
        begin, is_bar, goes_on = self.moments[int(lines[1]) - 1], lines[2] is not None, lines[2] == "the end"
        title += f", {spelled(begin)}"
        bar.set("x", str(self.place(begin)))
        if is_bar:
            end = 0 if goes_on else self.moments[int(lines[2]) - 1]
            title += " to the end" if goes_on else f" to {spelled(end)}"
            bar.set("width", str(max((RIGHT if goes_on else self.place(end)) - self.place(begin), 1)))
        name_shape(bar, title)

    def ticks(self) -> range:
        """The moments that the scale names."""
        doubled = (24 * HOUR << power for power in itertools.count())
        return range(
            0,
            self.moments[-1] + 1,
            next(it for it in itertools.chain(STEPS, doubled) if self.moments[-1] // it <= MOST_STEPS),
        )

    def scale(self, line: ElementTree.Element, label: ElementTree.Element) -> Iterator[ElementTree.Element]:
        """The clock of the start and the scale of time, like a line of the record and its label."""
        yield like(label, 8, f"start: {self.wall()}")
        for moment in self.ticks():
            for it in (line, label):
                yield like(it, self.place(moment), spelled(moment) if moment else "0 s")

    def wall(self) -> str:
        """The clock of the start."""
        return f"{datetime(1970, 1, 1) + timedelta(milliseconds=self.start):%Y-%m-%d %H:%M:%S}.{self.start % 1000:03} UTC"


def spelled(moment: int) -> str:
    """Milliseconds as a person writes them: `80 ms`, `1.24 s`, `2 min 3.5 s`, `1 h 30 min`."""
    if moment < SECOND:
        return f"{moment} ms"
    seconds = f"{moment % MINUTE // SECOND}.{moment % SECOND:03}".rstrip("0").rstrip(".")
    parts = ((str(moment // HOUR), "h"), (str(moment % HOUR // MINUTE), "min"), (seconds, "s"))
    return " ".join(f"{count} {unit}" for count, unit in parts if count != "0")


def like(shape: ElementTree.Element, left: int, text: str) -> ElementTree.Element:
    """A copy of a bar or a label at another place with another text."""
    found = copy.deepcopy(shape)
    found.set("x", str(left))
    *_, inner = found.iter()
    inner.text = text
    return found


def by_time(chart: bytes, times: pathlib.Path, ended: bool) -> str:
    """A chart of the program by the times in a file; `ended` says whether all runs of its record are
    closed."""
    root = ElementTree.fromstring(chart)
    shapes = list(root)
    # (each line of the record is followed by its label; the third of them is the last line)
    lines = [at for at, it in enumerate(shapes) if it.get("class") == "line"]
    found = read_times(times, int(title_of(shapes[lines[-1]]).split()[1]) - 1, ended)
    clock = Clock(found["start"], [0, *found["entries"]])
    for at in lines:
        root.remove(shapes[at])
        root.remove(shapes[at + 1])
    for bar in root.iter(RECT):
        clock.move(bar)
    root.extend(clock.scale(*shapes[lines[0]:lines[0] + 2]))
    name_shape(root, f"timeline from {clock.wall()}")
    ElementTree.register_namespace("", SVG)
    return ElementTree.tostring(root, encoding="unicode") + "\n"


def put(stream: int, text: str) -> None:
    """Writes a text to a standard stream."""
    data = text.encode("utf-8", "surrogateescape")
    while data:
        data = data[os.write(stream, data):]


def draw(arguments: list[str]) -> int:
    """Prints the chart that the arguments ask for, and gives the status of the program."""
    options, operands, wrong = take_apart("timeline", arguments)
    if wrong or "--times" not in options:
        raise Problem("words")
    done = subprocess.run(
        [program(), "timeline", "--", *operands], stdout=subprocess.PIPE, stderr=subprocess.PIPE, check=False
    )
    if done.returncode not in (0, 1, 4):
        line = done.stderr.decode("utf-8", "replace").strip()
        raise Problem(line, done.returncode) if done.returncode > 0 else Problem(
            f"signal {-done.returncode} ended the program", 3
        )
    put(1, by_time(done.stdout, pathlib.Path(options["--times"]), done.returncode != 4))
    return done.returncode


def main(arguments: list[str]) -> int:
    """The exit status of `actrun timeline ARGUMENTS`, among which is --times."""
    try:
        return draw(arguments)
    except Problem as problem:
        line, status = f"actrun: {str(problem).removeprefix('actrun: ').translate(PICTURES)}", problem.status
    except OSError:
        line, status = "actrun: io", 3
    except KeyboardInterrupt:
        return 130
    with contextlib.suppress(OSError):
        put(2, line + "\n")
        if os.isatty(2):
            show(line, "timeline", arguments)
    return status
