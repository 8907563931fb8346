"""Tests of `actrun timeline --times`: where bars and marks are, what the scale says, and which files of times are rejected."""
from __future__ import annotations

import os
import pty
import random
import re
import shutil
import subprocess
import tempfile
import unittest
from pathlib import Path
from xml.etree import ElementTree

from actrun_front.timeline import Clock, spelled

from .dap_case import EXAMPLES, FRONT, NEEDS_PROGRAM, PROGRAM, PYTHON

SVG = "{http://www.w3.org/2000/svg}"
SKIPPED = EXAMPLES / "skipped.record"  # (of ten lines)
START = 1795800000123
TIMES = [START, 0, 5, 5, 20, 100, 1240, 3020, 3020, 4000]
# each bar and mark of that record: its class, its text, and the milliseconds at which it begins and ends; a mark ends nowhere
BARS = [
    ("going", "run 0 (ci): going, line 2 to 10, 0 ms to 4 s", 0, 4000),
    ("failure", "run 0 (ci): failure, line 10, 4 s", 4000, None),
    ("going", "job 0 (a): going, line 3 to 8, 5 ms to 3.02 s", 5, 3020),
    ("failure", "job 0 (a): failure, line 8, 3.02 s", 3020, None),
    ("going", "leg 0 (a): with its worker, line 5 to 8, 20 ms to 3.02 s", 20, 3020),
    ("admitted", "leg 0 (a): admitted, line 4 to 5, 5 ms to 20 ms", 5, 20),
    ("failure", "leg 0 (a): step 0 (false): failure, line 6 to 7, 100 ms to 1.24 s", 100, 1240),
    ("failure", "leg 0 (a): failure, line 8, 3.02 s", 3020, None),
    ("skipped", "job 1 (b): shut, skipped, line 9, 3.02 s", 3020, None),
]


def place(moment: int, length: int) -> int:
    """Where a moment of a record that is so long is, by the rule of docs/REFERENCE.md."""
    return 430 + moment * 896 // length if length else 430


def written(times: list) -> str:
    return "".join(f"{it}\n" for it in times)


def bars(chart: str) -> list[tuple]:
    """Class, text, place and size of each bar and mark of the rows."""
    shapes = [it for it in ElementTree.fromstring(chart).iter(f"{SVG}rect") if it.get("class") not in ("lane", "line") and int(it.get("y")) >= 62]
    return [(it.get("class"), it.find(f"{SVG}title").text, *(int(it.get(name)) for name in ("x", "width", "y", "height"))) for it in shapes]


def others(chart: str) -> list[tuple]:
    """All other bars and labels but those of the scale."""
    found = [it for it in ElementTree.fromstring(chart) if it.get("class") != "line" and it.get("y") != "58"]
    return [(it.tag, *sorted(it.items()), "".join(it.itertext())) for it in found
            if it.tag == f"{SVG}style" or it.get("class") == "lane" or it.tag == f"{SVG}text" or it.get("y") and int(it.get("y")) < 62]


def scale(chart: str) -> tuple[list, list]:
    """The lines and the labels of the scale, each its place and text."""
    root = ElementTree.fromstring(chart)
    lines = [(int(it.get("x")), it.find(f"{SVG}title").text) for it in root.iter(f"{SVG}rect") if it.get("class") == "line"]
    return lines, [(int(it.get("x")), it.text) for it in root.iter(f"{SVG}text") if it.get("y") == "58"]


class Words(unittest.TestCase):
    def test_times_are_spelled_exactly(self) -> None:
        spelled_so = {0: "0 ms", 999: "999 ms", 1000: "1 s", 1240: "1.24 s", 1001: "1.001 s", 20_000: "20 s", 60_000: "1 min", 62_500: "1 min 2.5 s",
                      3_600_000: "1 h", 5_400_000: "1 h 30 min", 86_400_000: "24 h", 3_601_001: "1 h 1.001 s"}
        self.assertEqual({it: spelled(it) for it in spelled_so}, spelled_so)

    def test_the_steps_of_the_scale_are_round(self) -> None:
        steps = {0: 1, 1: 1, 10: 1, 11: 2, 354: 50, 5000: 500, 5999: 1000, 12_000: 2000, 99_000: 10_000, 149_000: 15_000, 600_000: 60_000,
                 1_700_000: 300_000, 7_000_000: 900_000, 86_400_000: 10_800_000, 864_000_000: 86_400_000, 99_999_999_999_999: 11_324_620_800_000}
        self.assertEqual({it: Clock(0, [0, it]).ticks().step for it in steps}, steps)
        chance = random.Random(1)
        for length in (int(10 ** chance.uniform(0, 14)) for _ in range(2000)):
            ticks = Clock(0, [0, length]).ticks()
            self.assertEqual((ticks[0], length - ticks[-1] < ticks.step), (0, True))
            self.assertIn(len(ticks), range(5, 12) if length > 10 else range(length + 1, length + 2))
            places = [place(it, length) for it in ticks]
            # (a sign is 7 wide, and the chart ends at 1410)
            ends = [at + 7 * len(spelled(it)) for at, it in zip(places, ticks)]
            self.assertTrue(all(end < at for end, at in zip(ends, [*places[1:], 1410])), length)


@NEEDS_PROGRAM
class Drawn(unittest.TestCase):
    def setUp(self) -> None:
        self.room = Path(tempfile.mkdtemp(prefix="actrun-timeline-"))
        self.addCleanup(shutil.rmtree, self.room, ignore_errors=True)
        self.times = self.room / "times"

    def ask(self, *words: object, **more) -> subprocess.CompletedProcess[str]:
        """What the command answers."""
        return subprocess.run([PYTHON, FRONT, "timeline", *map(str, words)], capture_output=True, text=True, check=False, cwd=self.room,
                              env={**os.environ, "ACTRUN_PROGRAM": PROGRAM}, **more)

    def by_line(self, *words: object) -> subprocess.CompletedProcess[str]:
        """What the program answers without times."""
        return subprocess.run([PROGRAM, "timeline", *map(str, words)], capture_output=True, text=True, check=False, cwd=self.room)

    def chart(self, record: Path, times: list[int], status: int) -> str:
        """The chart of a record by these times."""
        self.times.write_text(written(times), encoding="utf-8")
        done = self.ask("--times", self.times, record)
        self.assertEqual((done.returncode, done.stderr), (status, ""))
        return done.stdout

    def assert_rejected(self, record: Path, says: str) -> None:
        """One line on standard error names the file of times, and where it does not fit."""
        done = self.ask(record, "--times", "times")
        self.assertEqual((done.returncode, done.stdout), (2, ""))
        self.assertRegex(done.stderr, rf"\Aactrun: --times times: {says}: name [^\n]*\n\Z")

    def test_bars_and_marks_are_at_their_times(self) -> None:
        found = bars(self.chart(SKIPPED, TIMES, 1))
        wanted = [(kind, text, place(begin, 4000), 4 if end is None else max(place(end, 4000) - place(begin, 4000), 1))
                  for kind, text, begin, end in BARS]
        self.assertEqual([it[:4] for it in found], wanted)
        self.assertEqual([it[4:] for it in found], [it[4:] for it in bars(self.by_line(SKIPPED).stdout)])

    def test_the_scale_is_one_of_time(self) -> None:
        chart = self.chart(SKIPPED, TIMES, 1)
        lines, labels = scale(chart)
        words = ["0 s", "500 ms", "1 s", "1.5 s", "2 s", "2.5 s", "3 s", "3.5 s", "4 s"]
        self.assertEqual(lines, [(place(500 * at, 4000), text) for at, text in enumerate(words)])
        self.assertEqual(labels, [(8, "start: 2026-11-27 17:20:00.123 UTC"), *lines])
        self.assertEqual(ElementTree.fromstring(chart).find(f"{SVG}title").text, "timeline from 2026-11-27 17:20:00.123 UTC")
        self.assertNotIn(">line ", chart)

    def test_all_else_is_as_the_program_draws_it(self) -> None:
        chances = random.Random(2)
        for name in ("nightly", "deploy", "cancelled", "cancel-in-progress", "displaced-leg", "fail-fast", "by-order"):
            with self.subTest(name):
                before = self.by_line(EXAMPLES / f"{name}.record")
                lines = (EXAMPLES / f"{name}.record").read_bytes().count(b"\n")
                moments = sorted(chances.choices(range(chances.choice([1, 5, 3000, 10 ** 7])), k=lines - 1))
                chart = self.chart(EXAMPLES / f"{name}.record", [START, *moments], before.returncode)
                self.assertEqual(others(chart), others(before.stdout))
                self.assertEqual(chart, self.ask(EXAMPLES / f"{name}.record", "--times", self.times).stdout)
                moments = [0, *moments]
                wanted = []
                for kind, text, _, width, *rest in bars(before.stdout):
                    begin, end = re.search(r"line (\d+)(?: to (.+))?\Z", text).groups()
                    left = place(moments[int(begin) - 1], moments[-1])
                    right = 1330 if end == "the end" else place(moments[int(end) - 1], moments[-1]) if end else None
                    wanted.append((kind, left, width if right is None else max(right - left, 1), *rest))
                self.assertEqual([(kind, *more) for kind, _, *more in bars(chart)], wanted)

    def test_a_bar_of_no_time_is_seen(self) -> None:
        for moment in (0, 77):
            found = bars(self.chart(SKIPPED, [START, *[moment] * 9], 1))
            left = 1326 if moment else 430
            self.assertEqual([it[2:4] for it in found], [(left, 4 if text.count("ms") == 1 else 1) for _, text, *_ in found])

    def test_what_goes_on_reaches_the_end(self) -> None:
        self.times.write_text(written(TIMES), encoding="utf-8")
        record = self.room / "r.part"
        record.write_bytes(b"".join(SKIPPED.read_bytes().splitlines(keepends=True)[:6]))
        done = self.ask(record, "--times", self.times)
        self.assertEqual((done.returncode, done.stderr), (4, ""))
        found = [it[:4] for it in bars(done.stdout)]
        self.assertIn(("calling", "leg 0 (a): step 0 (false): not answered, line 6 to the end, 100 ms to the end", 1326, 4), found)
        self.assertIn(("going", "job 0 (a): going, line 3 to the end, 5 ms to the end", place(5, 100), 1330 - place(5, 100)), found)

    def test_a_plan_alone_has_a_chart(self) -> None:
        record = self.room / "r.part"
        record.write_bytes(SKIPPED.read_bytes().splitlines(keepends=True)[0])
        chart = self.chart(record, [START], 4)
        self.assertEqual((bars(chart), scale(chart)[0]), ([], [(430, "0 s")]))

    def test_names_are_written_again_as_they_are(self) -> None:
        plan, *entries = SKIPPED.read_text(encoding="utf-8").splitlines(keepends=True)
        record = self.room / "r"
        record.write_text(plan.replace('"flow":"ci"', '"flow":"<&>\\"\'\\u0007 ]]>, line 3\\uffff"') + "".join(entries), encoding="utf-8")
        name = "run 0 (<&>\"'\u2407 ]]>, line 3\ufffd)"
        chart = self.chart(record, TIMES, 1)
        self.assertEqual([it[1] for it in bars(chart)[:2]],
                         [f"{name}: going, line 2 to 10, 0 ms to 4 s", f"{name}: failure, line 10, 4 s"])
        self.assertIn(f"{name}: failure", [it[-1] for it in others(chart)])

    def test_times_that_do_not_fit_are_rejected(self) -> None:
        some, strange = "1795800000123\n0\n", "is no number of milliseconds"
        for text, says in (("", "line 1 is missing, since the record has 10 lines"),
                           (written(TIMES[:9]), "line 10 is missing, since the record has 10 lines"),
                           (written([*TIMES, 4000]), "line 11 is too many, since the record has 10 lines"),
                           (written([*TIMES[:5], 19, *TIMES[6:]]), "line 6 is less than line 5"),
                           (written([START, 7, *TIMES[2:]]), "line 3 is less than line 2"),
                           ("ten\n", f"line 1 {strange}"), ("123456789012345\n" + some, f"line 1 {strange}"), (some + "\n5\n", f"line 3 {strange}"),
                           (some + "-5\n", f"line 3 {strange}"), (some + "1.5\n", f"line 3 {strange}"), (some + "1 2\n", f"line 3 {strange}")):
            with self.subTest(text):
                self.times.write_text(text, encoding="utf-8")
                self.assert_rejected(SKIPPED, says)
        self.times.write_bytes(b"1795800000123\n0\n5\n\xff\xfe\n")
        self.assert_rejected(SKIPPED, "line 4 is no number of milliseconds")
        self.times.write_bytes(written(TIMES).replace("\n", "\r\n").encode())
        self.assertEqual(self.ask(SKIPPED, "--times", "times").returncode, 1)
        self.times.unlink()
        self.assert_rejected(SKIPPED, "No such file or directory")
        self.times.mkdir()
        self.assert_rejected(SKIPPED, "Is a directory")
        self.assertEqual(self.ask(SKIPPED, "--times", "a\nb").stderr.count("\n"), 1)

    def test_errors_are_those_of_the_program(self) -> None:
        self.times.write_text(written(TIMES), encoding="utf-8")
        for name, status in (("refused.record", 2), ("ci.json", 2), ("none", 3), ("first", 3)):
            with self.subTest(name):
                done, wanted = self.ask("--times", self.times, EXAMPLES / name), self.by_line(EXAMPLES / name)
                self.assertEqual((done.returncode, done.stdout, done.stderr), (status, "", wanted.stderr))
                self.assertEqual(wanted.returncode, status)
        for words in (["--times", "times"], ["--times"], ["r", "r", "--times", "times"], ["r", "--times", "times", "--times", "times"], ["r"],
                      ["r", "--times", "times", "--help"], ["r", "--time", "times"], ["--", "r", "--times", "times"]):
            with self.subTest(words):
                done = self.ask(*words)
                self.assertEqual((done.returncode, done.stdout, done.stderr), (2, "", "actrun: words\n"))
        shutil.copy(SKIPPED, self.room / "-r")
        self.assertEqual(self.ask("--times=times", "--", "-r").returncode, 1)
        self.assertEqual(self.ask("--times", "times", "/dev/stdin", input=SKIPPED.read_text(encoding="utf-8")).returncode, 1)

    def test_a_chart_that_cannot_be_written(self) -> None:
        self.times.write_text(written(TIMES), encoding="utf-8")
        words = [PYTHON, FRONT, "timeline", "--times", self.times, SKIPPED]
        with open("/dev/full", "wb") as full:
            done = subprocess.run(words, stdout=full, stderr=subprocess.PIPE, check=False, env={**os.environ, "ACTRUN_PROGRAM": PROGRAM})
        self.assertEqual((done.returncode, done.stderr), (3, b"actrun: io\n"))

    def test_a_terminal_gets_an_explanation(self) -> None:
        reader, writer = pty.openpty()
        done = subprocess.run([PYTHON, FRONT, "timeline", "--times", "times", "none"], stdout=subprocess.PIPE, stderr=writer, check=False,
                              cwd=self.room, env={**os.environ, "ACTRUN_PROGRAM": PROGRAM})
        os.close(writer)
        self.assertEqual((done.returncode, done.stdout), (3, b""))
        self.assertEqual(os.read(reader, 4096).decode().replace("\r\n", "\n"), "actrun: io\n  none does not exist\n")
        os.close(reader)

    def test_a_run_is_drawn_by_its_times(self) -> None:
        work, record = self.room / "work", self.room / "record"
        shutil.copytree(EXAMPLES / "first", work)
        planned = [PROGRAM, "plan", "--event", "push", "--contexts", work / "contexts.json", work / "ci.json"]
        (self.room / "plan").write_bytes(subprocess.run(planned, check=True, capture_output=True).stdout)
        run = [PROGRAM, "run", "--workers", "2", "--work", work, "--stubs", work / "stubs.json", "--record", record, "--times", self.times]
        done = subprocess.run([*run, self.room / "plan"], capture_output=True, check=False)
        chart = self.ask("--times", self.times, record)
        self.assertEqual((done.returncode, chart.returncode, chart.stderr), (1, 1, ""))
        moments = [0, *map(int, self.times.read_text(encoding="utf-8").split()[1:])]
        before = bars(self.by_line(record).stdout)
        self.assertEqual(len(moments), record.read_bytes().count(b"\n"))
        self.assertGreater(len(before), 20)
        for (_, text, *_), (_, by_time, left, width, *_) in zip(before, bars(chart.stdout)):
            begin, end = (int(it) if it else None for it in re.search(r"line (\d+)(?: to (\d+))?\Z", text).groups())
            self.assertEqual(by_time, f"{text}, {spelled(moments[begin - 1])}" + (f" to {spelled(moments[end - 1])}" if end else ""))
            self.assertEqual(left, place(moments[begin - 1], moments[-1]))
            self.assertEqual(width, max(place(moments[end - 1], moments[-1]) - left, 1) if end else 4)


if __name__ == "__main__":
    unittest.main()
