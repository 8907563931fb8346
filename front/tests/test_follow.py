"""What `try` shows of steps while they execute: whole lines, masked as the program masks them, each once."""
from __future__ import annotations

import contextlib
import io
import json
import os
import random
import re
import select
import signal
import subprocess
import tempfile
import time
import unittest
import unittest.mock
from pathlib import Path
from typing import Any, Iterator
from unittest import mock

from actrun_front import keeping, streaming
from actrun_front.dap_logs import walk
from actrun_front.log_masks import LogMasks
from actrun_front.present import Board, Event, Screen, legs_of
from actrun_front.step_log import Limits
from actrun_front.streaming import Printed, Stream
from actrun_front.visible import Parts, cells, visible_log
from actrun_front.voice import Live, Prefixed, Running, at_once

from .terminal_case import TerminalCase
from .try_case import NEEDS_PROGRAM, PROGRAM, TryCase, sandbox_works, unprefixed

PIECES = ("a", "b", "c", "ab", "abc", "bcd", " ", "\n", "\n", "::", "::add-mask::", "::add-mask::cd\n",
          "::notice::x%0Ay\n", "::stop-commands::tok\n", "::tok::\n", "\u00e9", "::debug::z\n", ":", "tok", "::group::g\n", "%20")
SECONDS = 60
LEGS = """\
on: push
jobs:
  one:
    runs-on: ubuntu-latest
    strategy: {fail-fast: false, matrix: {n: [1, 2]}}
    steps:
"""


def streamed(masks: LogMasks, data: bytes, sizes: Iterator[int], parts: Iterator[bool]) -> Iterator[str]:
    """What is shown of a log that comes in pieces; `parts` says where lines are shown that are not whole."""
    stream, at = Stream(masks, "MARK", 0, Path("log")), 0
    while at < len(data):
        size = next(sizes)
        yield stream.take(data[at:at + size])
        if next(parts):
            yield stream.part()
        at += size
    yield stream.end()


def whole(masks: LogMasks, text: str) -> str:
    """What is shown of a whole log."""
    found = ""
    for shown, mask in walk(text.removesuffix("\n").split("\n") if text else []):
        found += "" if shown is None else masks.of(0).hide(shown) + "\n"
        if mask:
            masks.add(0, mask)
    return found


class Lines(unittest.TestCase):
    """The stream of one step."""

    def masks(self, secrets: list[str], unknown: list[str]) -> LogMasks:
        """The masks of an execution."""
        masks = LogMasks(secrets, None)
        masks.hide_too(unknown)
        return masks

    def test_pieces_are_shown_as_the_whole(self) -> None:
        rand = random.Random(7)
        for _ in range(3000):
            text = "".join(rand.choice(PIECES) for _ in range(rand.randrange(25)))
            secrets = ["".join(rand.choices("abcd ", k=rand.randrange(1, 5))) for _ in range(rand.randrange(3))]
            unknown = ["".join(rand.choices("abcd", k=rand.randrange(1, 4))) for _ in range(rand.randrange(2))]
            wanted, shown = whole(self.masks(secrets, unknown), text), ""
            sizes, parts = iter(lambda: rand.randrange(1, 7), 0), iter(lambda: rand.random() < .5, 2)
            pieces = streamed(self.masks(secrets, unknown), text.encode(), sizes, parts)
            for piece in pieces:
                shown += piece
                self.assertTrue(wanted.startswith(shown), (text, secrets, unknown, shown, wanted))
            self.assertEqual(shown, wanted, (text, secrets, unknown))

    def test_a_part_ends_before_a_mask_that_may_begin(self) -> None:
        for text, shown in (("ask: sec", "ask: "), ("ask: secret", "ask: "), ("ask: secrets", "ask: ***"),
                            (":", ""), (" ::", ""), ("::add-mask::x", ""), ("::a:b", "::a:b"),
                            ("a::b", "a::b"), ("::add-mask x", ""), ("x", "x"),
                            ("MAR", ""), ("MARK:0-0", ""), ("", "")):
            stream = Stream(self.masks(["secret"], []), "MARK", 0, Path("log"))
            self.assertEqual(stream.take(text.encode()) + stream.part(), shown, text)
        stream = Stream(self.masks([], []), "MARK", 0, Path("log"))
        self.assertEqual(stream.take(b"a\xc3") + stream.part() + stream.take(b"\xa9\n"), "a\u00e9\n")

    def test_lines_without_end(self) -> None:
        """They are shown in parts, with the masks of the whole; what may be a command is left out."""
        piece = b"xsecret" * 37449  # (the length of a piece)
        began, length, kept = time.process_time(), 0, b""
        stream = Stream(self.masks(["secret"], []), "MARK", 0, Path("log"))
        for _ in range(20):
            data, kept = (kept + piece)[:streaming.PIECE], (kept + piece)[streaming.PIECE:]
            shown = stream.take(data)
            self.assertNotIn("s", shown)
            length += len(shown)
            self.assertLess(stream.size, streaming.MOST_LINE + streaming.PIECE)
        self.assertGreater(length, 20 * 37449 * 4 - 2 * streaming.MOST_LINE)
        self.assertLess(time.process_time() - began, 20)
        stream = Stream(self.masks([], []), "MARK", 0, Path("log"))
        shown = stream.take(b"::add-mask::hidden-word")
        shown += "".join(stream.take(b" " * streaming.PIECE) for _ in range(20))
        self.assertEqual(shown, "(a line of more than 1048576 bytes that may be a command is left out: "
                                "log has it, unmasked)\n")
        self.assertEqual(stream.take(b"x\nnext\n"), "next\n")
        self.assertEqual(stream.size, 0)

    def test_what_is_no_text(self) -> None:
        stream = Stream(self.masks([], []), "MARK", 0, Path("/w/log"))
        shown = "".join(map(stream.take, (b"MARK:0-0\nfirst\n", b"a\xff\n", b"more\n")))
        self.assertEqual(shown + stream.part() + stream.end(), "first\n(output is not UTF-8: /w/log has it, unmasked)\n")

    def test_names_that_come_late(self) -> None:
        stream = Stream(self.masks([], []), "MARK", 0, Path("log"))
        self.assertEqual(stream.take(b"MARK:0-0\nMARK+job 2\nMARK-step 2\nx\n"), "x\n")
        self.assertEqual(stream.names, {"MARK:": "0-0", "MARK+": "job 2", "MARK-": "step 2"})

    def test_colours_in_parts(self) -> None:
        rand = random.Random(3)
        signs = ["a", "\n", "\r", "\x1b", "[", "3", "m", "\x1b[31m", "\x1b[0m", "\x07"]
        for _ in range(2000):
            text = "".join(rand.choice(signs) for _ in range(rand.randrange(30))) + "\n"
            for coloured in (True, False):
                parts, shown, at = Parts(coloured), "", 0
                while at < len(text):
                    size = rand.randrange(1, 6)
                    shown, at = shown + parts.take(text[at:at + size]), at + size
                self.assertEqual(shown, visible_log(text, coloured), text)

    def test_cells(self) -> None:
        for text, most, shown in (("abc", 3, "abc"), ("abcd", 3, "ab\u2026"), ("\u6f22\u5b57", 4, "\u6f22\u5b57"),
                                  ("\u6f22\u5b57x", 4, "\u6f22\u2026"), ("\u6f22\u5b57", 3, "\u6f22\u2026"),
                                  ("e\u0301x", 2, "e\u0301x")):
            self.assertEqual(cells(text, most), shown, (text, most))


class Files(unittest.TestCase):
    """Where the bytes of a step come from."""

    def setUp(self) -> None:
        room = tempfile.TemporaryDirectory()
        self.addCleanup(room.cleanup)
        self.room = Path(room.name)
        self.limits = Limits(0, self.room, lambda: None)

    def hold(self, kind: str, data: bytes) -> int:
        """A file without a name that the program has open."""
        file = os.open(self.room / f"step-0-0.std{kind}", os.O_RDWR | os.O_CREAT)
        os.unlink(self.room / f"step-0-0.std{kind}")
        self.limits.held.setdefault((0, 0), {})[kind] = file
        os.write(file, data)
        return file

    def all(self, printed: Printed) -> bytes:
        """All that there is."""
        return b"".join(iter(printed.more, b""))

    def test_files_then_the_log(self) -> None:
        file, printed = self.hold("out", b"one\n"), Printed(self.limits, 0, 0)
        self.hold("err", b"errors\n")
        self.assertEqual(self.all(printed), b"one\n")
        os.write(file, b"two")
        self.assertEqual(self.all(printed), b"two")
        (self.room / "step-0-0.log").write_bytes(b"one\ntwo\nerrors\n")
        printed.ended = True
        self.assertEqual(self.all(printed), b"\nerrors\n")
        printed.close()
        self.assertEqual(self.limits.held, {})

    def test_a_program_that_was_ended_before_the_step(self) -> None:
        self.hold("out", b"one\n" * 100_000)
        self.hold("err", b"errors\n")
        (self.room / "secret").write_text("secret")
        (self.room / "step-0-0.log").symlink_to("secret")
        printed = Printed(self.limits, 0, 0)
        self.assertEqual(len(self.all(printed)), 400_000)
        printed.save()
        self.assertEqual((self.room / "step-0-0.log").read_bytes(), b"one\n" * 100_000 + b"errors\n")
        self.assertEqual((self.room / "secret").read_text(), "secret")

    def test_a_log_that_is_cut_before_what_was_shown(self) -> None:
        for shown in (150, 199, 200, 230, 300):
            for is_late in (False, True):  # the cut is seen when the step has ended
                self.limits = Limits(200, self.room, lambda: None)
                file, printed = self.hold("out", b"one\n" * 75), Printed(self.limits, 0, 0)
                self.addCleanup(printed.close)
                with unittest.mock.patch("actrun_front.streaming.PIECE", shown):
                    got = printed.more()
                self.limits.begin((0, 0), {"out": f"/proc/self/fd/{file}"}, {"out": 300})
                os.ftruncate(file, self.limits.cuts[0, 0].ends["out"])
                (self.room / "step-0-0.log").write_bytes(os.pread(file, 1000, 0))
                if is_late:
                    self.limits.cuts.clear()
                    printed.ended = True
                got += self.all(printed)
                printed.ended = True
                got += self.all(printed)
                with self.subTest(shown=shown, is_late=is_late):
                    self.assertEqual(got.count(self.limits.note[1:]), 1, got[-200:])
                    self.assertTrue(got.endswith(b"\n" + self.limits.note[1:]), got[-200:])

    def test_a_log_that_is_lost(self) -> None:
        self.hold("out", b"one")
        self.hold("err", b"errors\n")
        printed = Printed(self.limits, 0, 0, ended=True, lost=True)
        self.assertEqual(self.all(printed), b"one\nerrors\n")

    def test_what_a_step_leaves_in_place_of_its_log(self) -> None:
        printed = Printed(self.limits, 0, 0, ended=True)
        self.assertEqual(self.all(printed), b"")
        (self.room / "secret").write_text("secret")
        (self.room / "step-0-0.log").symlink_to("secret")
        printed = Printed(self.limits, 0, 0, ended=True)
        self.assertEqual(self.all(printed), b"(the log cannot be read: a link is not followed here)\n")

    def test_a_log_has_another_name_until_the_execution_has_ended(self) -> None:
        (self.room / "private").mkdir()
        play = self.room / "play"
        play.mkdir()
        (play / "step-0-0.log").write_text("::add-mask::word\n")
        keeping.put_aside(play, 0, 0)
        keeping.put_aside(play, 0, 1)
        self.assertEqual(os.listdir(play), ["step-0-0.shown"])
        printed = Printed(Limits(0, play, lambda: None), 0, 0, ended=True)
        self.assertEqual(self.all(printed), b"::add-mask::word\n")
        printed.close()
        self.assertEqual(LogMasks([], play).until(0, 1).hide("a word"), "a ***")
        keeping.recover(self.room / "private")  # (as the next `try` does where this one was killed)
        self.assertEqual(os.listdir(play), ["step-0-0.log"])

    def test_a_log_that_was_cut_where_it_is_shown(self) -> None:
        self.hold("out", b"one\ntwo\n")
        printed = Printed(self.limits, 0, 0)
        self.all(printed)
        (self.room / "step-0-0.log").write_bytes(b"one\n")
        printed.ended = True
        self.assertIn(b"(the log is cut here: ", self.all(printed))


class Forms(unittest.TestCase):
    """How steps are shown."""

    def test_legs_at_once(self) -> None:
        def plan(*jobs: tuple[int, list[int], int]) -> dict[str, Any]:
            made = [{"number": number, "needs": needs, "legs": [{}] * count} for number, needs, count in jobs]
            return {"runs": [{"jobs": made}]}
        for jobs, wanted in (([(0, [], 1)], False), ([(0, [], 2)], True),
                             ([(0, [], 1), (1, [0], 1), (2, [1], 1)], False),
                             ([(1, [0], 1), (0, [], 1)], False), ([(0, [], 1), (1, [0], 1), (2, [0], 1)], True),
                             ([(0, [], 1), (1, [], 1)], True)):
            made = plan(*jobs)
            self.assertEqual(at_once(made, legs_of(made), 2), wanted, jobs)
            self.assertFalse(at_once(made, legs_of(made), 1))

    def test_more_legs_than_lines_of_a_terminal(self) -> None:
        screen = Screen()
        screen.live = True
        size = mock.patch.dict(os.environ, COLUMNS="10", LINES="4")
        with contextlib.redirect_stderr(io.StringIO()) as shown, size:
            screen.view([f"leg {number} of many" for number in range(9)])
            screen.view([])
        self.assertEqual(shown.getvalue(), "\r\x1b[Jleg 0 of…\nleg 1 of…\n… 7 more\r\x1b[2A\x1b[J")

    def running(self) -> tuple[Board, Running]:
        """A step that executes."""
        job = {"name": "j", "legs": [{}], "steps": [{"name": "it", "work": {}}], "number": 0, "needs": []}
        board = Board(Screen(), legs_of({"runs": [{"jobs": [job]}]}), "mark")
        printed = Printed(Limits(0, Path("/none"), lambda: None), 0, 0)
        return board, Running(printed, Stream(board.masks, "mark", 0, Path("log")), "j: it", Parts(False))

    def test_a_line_behind_names_is_whole(self) -> None:
        board, step = self.running()
        form = Prefixed(board)
        with contextlib.redirect_stdout(io.StringIO()) as out:
            for text, view in (("one\ntw", ["j: it | tw"]), ("o", [": it | two"]), ("\n\nthree\n", []),
                               ("x" * (1 << 20), ["x" * 10]), ("y", []), ("z\n", [])):
                form.print(step, text)
                self.assertEqual([line[-10:] for line in form.view([step])], view)
        lines = ["one", "two", "", "three", "x" * (1 << 20) + "y", "z"]
        self.assertEqual(out.getvalue(), "".join(f"j: it | {line}\n" for line in lines))

    def test_a_live_view_keeps_a_part(self) -> None:
        board, step = self.running()
        form = Live(board)
        form.print(step, "first\n")
        self.assertRegex(form.view([step])[0], r"^j: it  0 s  first$")
        form.print(step, "sec")
        form.print(step, "ond\nthird\n")
        self.assertRegex(form.view([step])[0], r"^j: it  0 s  third$")
        for _ in range(30):
            form.print(step, ("x" * 99 + "\n") * 1000)
        self.assertLess(sum(map(len, step.kept)), (1 << 20) + 1)
        out, errors = io.StringIO(), io.StringIO()
        with contextlib.redirect_stdout(out), contextlib.redirect_stderr(errors):
            form.ended(step, Event("exit 1", 0, 0, "failure", "failure", "exit 1", "0.1"))
        self.assertRegex(out.getvalue(), r"\A\n--- j: it\n\(the last \d+ characters; /none/step-0-0.log has all, "
                                         r"unmasked\)\nx")
        self.assertRegex(errors.getvalue(), r"j: it, exit 1, 0\.1 s\n\Z")


@NEEDS_PROGRAM
class Program(TryCase):
    """The program's own display of logs."""

    def test_it_shows_the_same(self) -> None:
        rand = random.Random(5)
        texts = ["".join(rand.choice(PIECES) for _ in range(rand.randrange(60))) for _ in range(20)]
        for number, text in enumerate(texts):
            self.write(f"text-{number}", text)
        steps = [{"run": f"cat '{self.project}/text-{number}'"} for number in range(len(texts))]
        (self.room / "flow.json").write_text(json.dumps({"on": "push", "jobs": {"a": {"steps": steps}}}))
        (self.room / "contexts.json").write_text(json.dumps({"secrets": {"A": "bcd", "B": "ab"}}))
        plan = subprocess.run([PROGRAM, "plan", "--contexts", "contexts.json", "flow.json"], cwd=self.room,
                              capture_output=True, check=True)
        work = self.room / "work"
        work.mkdir()
        done = subprocess.run([PROGRAM, "run", "--work", str(work), "/dev/stdin"], input=plan.stdout, cwd=self.room,
                              capture_output=True, check=True)
        more = mock.patch("actrun_front.log_masks.MOST", 0)  # (the front hides no other forms)
        more.start()
        self.addCleanup(more.stop)
        masks, shown = LogMasks(["bcd", "ab"], work), ""
        for number in range(len(texts)):
            data = (work / f"step-0-{number}.log").read_bytes()
            stream = Stream(masks, "MARK", 0, work / "log")
            for at in range(0, len(data), 5):
                shown += stream.take(data[at:at + 5])
            shown += stream.end()
        self.assertEqual(shown + "run 0 success\n", done.stdout.decode())


@NEEDS_PROGRAM
@unittest.skipUnless(sandbox_works(), "bwrap is not installed or does not work here")
class Streams(TerminalCase):
    """Whole executions."""

    def setUp(self) -> None:
        super().setUp()
        self.flags = self.room / "flags"
        self.flags.mkdir()

    def wait(self, name: str) -> str:
        """A command of a step that waits until the test goes on."""
        return f"until [ -e '{self.flags}/{name}' ]; do sleep 0.02; done"

    def start(self, *words: str) -> subprocess.Popen[bytes]:
        """An execution that is read while it goes on."""
        child = subprocess.Popen(self.command("--bind", str(self.flags), *words), cwd=self.project,
                                 env=self.environment, stdin=subprocess.DEVNULL, stdout=subprocess.PIPE,
                                 stderr=subprocess.PIPE)
        self.addCleanup(child.wait)
        self.addCleanup(child.kill)
        self.addCleanup(child.stdout.close)  # type: ignore[union-attr]
        self.addCleanup(child.stderr.close)  # type: ignore[union-attr]
        return child

    def read_until(self, child: subprocess.Popen[bytes], wanted: str) -> str:
        """What is shown until a text comes."""
        shown, end = b"", time.monotonic() + SECONDS
        while wanted.encode() not in shown:
            if not select.select([child.stdout], [], [], max(0.0, end - time.monotonic()))[0]:
                self.fail(f"{wanted!r} does not come: {shown!r}")
            piece = os.read(child.stdout.fileno(), 65536)  # type: ignore[union-attr]
            if not piece:
                self.fail(f"{wanted!r} does not come: {shown!r} {child.stderr.read()!r}")  # type: ignore[union-attr]
            shown += piece
        return shown.decode()

    def go_on(self, name: str) -> None:
        """Lets a step go on."""
        (self.flags / name).touch()

    def test_a_line_is_seen_while_its_step_executes(self) -> None:
        self.workflow(f"- run: |\n    echo first; {self.wait('a')}\n    echo '::warning::careful'\n"
                      f"    printf 'ask: hid'; {self.wait('b')}\n    echo den\n- run: echo last; exit 3")
        child = self.start("-s", "KEY=hidden", "--env", "A=1")
        shown = self.read_until(child, "first\n").rpartition("\n--- ")[2]
        self.assertEqual(shown.partition("\n")[2], "first\n")
        self.go_on("a")
        shown = self.read_until(child, "ask: ")
        self.assertEqual(shown, "warning: careful\nask: ")
        self.go_on("b")
        out, err = child.communicate(timeout=SECONDS)
        self.assertEqual(child.returncode, 1, err)
        self.assertTrue(out.decode().startswith("***\n\n--- one: echo last; exit 3\nlast\n"), out)
        self.assertEqual(out.count(b"\nlast\n"), 1)

    def test_lines_of_several_legs_are_whole(self) -> None:
        self.workflow("- name: prints\n  run: |\n    echo ::add-mask::word-${{ matrix.n }}\n"
                      "    for i in $(seq 20000); do echo \"line $i of word-${{ matrix.n }} and word-1\"; done\n"
                      "    printf end", LEGS)
        done = self.attempt("--workers", "2")
        self.assert_status(done, 0)
        lines = done.stdout.splitlines()
        for leg, other in ((1, "***"), (2, "word-1")):
            printed = [line for line in lines if line.startswith(f"one ({leg}): prints | ")]
            wanted = [f"line {number} of *** and {other}" for number in range(1, 20001)] + ["end"]
            self.assertEqual([line.partition(" | ")[2] for line in printed], wanted)
        rest = [line for line in lines if not line.startswith("one (")]
        self.assertRegex("\n".join(rest), r"\A\n\S+ \.github/workflows/ci\.yml: success\n\nlogs  ")

    def test_quiet_shows_no_summary(self) -> None:
        self.workflow("- run: echo of the summary >> $GITHUB_STEP_SUMMARY; echo of the log")
        done = self.attempt("-q")
        self.assertEqual((done.returncode, done.stdout), (0, "\u2713 .github/workflows/ci.yml: success\n"))
        self.assertIn("of the summary", self.attempt().stdout)

    def test_the_forms_on_a_terminal(self) -> None:
        flags = f"{self.flags}/${{{{ matrix.n }}}}"
        self.workflow(f"- name: fine\n  run: echo in fine ${{{{ matrix.n }}}}; touch {flags};"
                      f" until [ -e {self.flags}/1 ] && [ -e {self.flags}/2 ]; do sleep 0.02; done; sleep 0.7\n"
                      "- name: bad\n  run: echo in bad ${{ matrix.n }}; exit $(( ${{ matrix.n }} - 1 ))", LEGS)
        words = ("try", "--bind-rw", str(self.flags), *self.workspace, "--workers")
        shown = self.on_terminal(*words, "2").replace("\r\n", "\n")
        self.assertRegex(shown, r"\x1b\[90mone \(1\): fine  \d+ s  in fine 1\x1b\[0m\n"
                                r"\x1b\[90mone \(2\): fine  \d+ s  in fine 2\x1b")
        left = re.sub(r"\r(\x1b\[\d+A)?\x1b\[J|\x1b\[90mone \(\d\): \w+  \d+ s  .*?\x1b\[0m\n?", "", shown)
        self.assertRegex(left, r"\n\n\x1b\[1m--- one \(2\): bad\x1b\[0m\nin bad 2\n"
                               r"\x1b\[31m.\x1b\[0m one \(2\): bad, exit 1")
        self.assertNotIn("--- one (1): bad", left)
        self.assertNotIn("in fine", left)
        self.assertIn("all lines actrun try --follow", left)
        shown = self.on_terminal(*words, "2", "--follow").replace("\r\n", "\n")
        self.assertRegex(shown, r"(?m)^\x1b\[36mone \(1\): fine \| \x1b\[0min fine 1$")
        self.assertNotIn("--- one", shown)
        shown = self.on_terminal(*words, "1").replace("\r\n", "\n")
        self.assertRegex(shown, r"--- one \(1\): fine\x1b\[0m\nin fine 1\n")
        done = self.attempt("--quiet", *words[1:3])
        self.assertEqual(done.stdout, "\u2717 .github/workflows/ci.yml: failure\n")

    def test_who_reads_no_more(self) -> None:
        self.workflow("- run: |\n    while :; do echo line; done\n- run: echo never\n  if: always()")
        child = self.start()
        self.read_until(child, "line\n")
        child.stdout.close()  # type: ignore[union-attr]
        self.assertEqual(child.wait(timeout=SECONDS), 3)
        self.assertIn(b"actrun: standard output was closed before the end\n", child.stderr.read())  # type: ignore[union-attr]

    def test_names_of_what_the_front_made(self) -> None:
        self.write("act/action.yml", "runs:\n  using: composite\n  steps:\n"
                                     "    - {name: hello, shell: bash, run: echo hello}\n"
                                     "    - {shell: bash, run: exit 4}\n")
        called = "on: workflow_call\njobs:\n  in: {runs-on: x, steps: [{run: exit 5}]}\n"
        self.write(".github/workflows/called.yml", called)
        self.workflow("- {name: Greet, uses: ./act, if: always()}",
                      "on: push\njobs:\n  call: {uses: ./.github/workflows/called.yml}\n"
                      "  one:\n    runs-on: x\n    container: debian:12\n    steps:\n")
        done = self.attempt("--engine", "none", "--lenient", "-W", ".github/workflows/ci.yml")
        self.assert_status(done, 1)
        lines = [line for line in done.stderr.splitlines() if not line.startswith("note: ")]
        shown = sorted(re.sub(r"^\S+ (.*), \S+ s$", r"\1", line) for line in lines)
        self.assertEqual(shown, ["call / in: exit 5, exit 5", "one: Greet (./act) / exit 4, exit 4",
                                 "one: Greet (./act) / hello"])
        self.assertRegex(done.stdout, r"step \d \(Greet \(\./act\) / exit 4\) failed at line")
        self.assertIn("\n  one: executed on this machine, without its container\n", done.stdout)
        self.assertNotIn("did not succeed", done.stdout)
        self.assertIn("\nhello\n", unprefixed(done.stdout))


@NEEDS_PROGRAM
@unittest.skipUnless(sandbox_works(), "bwrap is not installed or does not work here")
class Objects(TryCase):
    """`--json`."""

    def objects(self, *words: str, status: int = 0) -> list[dict[str, Any]]:
        """The objects that an execution prints."""
        done = self.attempt("--json", *words)
        self.assert_status(done, status)
        found = [json.loads(line) for line in done.stdout.splitlines()]
        self.assertTrue(all(value["version"] == 1 for value in found))
        return found

    def test_events_and_the_result(self) -> None:
        self.workflow("- name: first\n  run: echo ::add-mask::word; echo a word\n- id: bad\n  run: exit 3\n"
                      "  continue-on-error: ${{ matrix.n == 1 }}\n- run: echo last", LEGS)
        *events, result = self.objects(status=1)
        self.assertEqual({value["event"] for value in events}, {"begin", "end"})
        shown = sorted((value["leg"], value["step"], value["event"]) for value in events)
        steps = [(0, 0), (0, 1), (0, 2), (1, 0), (1, 1)]
        self.assertEqual(shown, sorted((*place, event) for place in steps for event in ("begin", "end")))
        ended = {(value["leg"], value["step"]): value for value in events if value["event"] == "end"}
        first = ended[0, 0]
        keys = ("run", "job", "leg_name", "step_name", "result", "exit", "why")
        self.assertEqual([first[key] for key in keys], [0, "one", "one (1)", "first", "success", 0, None])
        self.assertEqual([ended[1, 1][key] for key in keys[3:]], ["exit 3", "failure", 3, "exit 3"])
        self.assertGreaterEqual(first["milliseconds"], 0)
        self.assertEqual(set(result), {"version", "runs", "record", "page", "logs"})
        run = result["runs"][0]
        self.assertEqual((run["file"], run["result"], run["jobs"][0]["job"], run["jobs"][0]["result"]),
                         (".github/workflows/ci.yml", "failure", "one", "failure"))
        legs = run["jobs"][0]["legs"]
        self.assertEqual([(leg["leg"], leg["matrix"], leg["result"]) for leg in legs],
                         [(0, {"n": 1}, "success"), (1, {"n": 2}, "failure")])
        self.assertEqual([(step["step"], step["result"], step["exit"]) for step in legs[1]["steps"]],
                         [(0, "success", 0), (1, "failure", 3), (2, "skipped", None)])
        self.assertIsInstance(legs[0]["steps"][0]["milliseconds"], int)
        self.assertTrue(all(Path(result[name]).exists() for name in ("record", "page", "logs")))

    def test_lines_of_output(self) -> None:
        self.workflow("- name: first\n  run: |\n    echo ::add-mask::word; echo a word\n"
                      "    printf '\\302\\2332J\\177\\033\\n'; printf end")
        values = [value for value in self.objects("--follow") if value.get("event") == "output"]
        self.assertEqual([(value["leg"], value["step"], value["line"]) for value in values],
                         [(0, 0, "a ***"), (0, 0, "\x9b2J\x7f\x1b"), (0, 0, "end")])
        self.assertEqual(set(re.findall("[^\\n -~]", self.attempt("--json", "--follow").stdout)), set())
        self.assertEqual(len(self.objects("--quiet")), 1)

    def test_errors(self) -> None:
        self.workflow("- run: 'true'")
        self.assertEqual(self.objects("-l", status=2), [{"version": 1, "status": 2, "error":
                         "--json: only an execution has events and a result: leave --json out, or -l, -n and -g"}])
        self.assertIn("no workflow has that job", self.objects("-j", "none", status=2)[0]["error"])
        self.assertEqual(self.objects("release", status=2)[-1].get("runs", []), [])

    def test_an_interrupted_step(self) -> None:
        self.workflow("- name: long\n  run: echo begun; sleep 100")
        reset = ("import os, signal, sys; signal.signal(signal.SIGINT, signal.default_int_handler); "
                 "os.execv(sys.argv[1], sys.argv[1:])")
        command = self.command("--json", "--follow")
        child = subprocess.Popen([command[0], "-c", reset, *command], cwd=self.project, env=self.environment,
                                 text=True, stdin=subprocess.DEVNULL, stdout=subprocess.PIPE,
                                 stderr=subprocess.PIPE, start_new_session=True)
        self.addCleanup(child.kill)
        values = []
        for line in child.stdout or ():
            values.append(json.loads(line))
            if values[-1].get("event") == "output":
                os.killpg(child.pid, signal.SIGINT)
        child.communicate(timeout=SECONDS)
        self.assertEqual(child.returncode, 130)
        self.assertEqual([(value["event"], value.get("line"), value.get("result")) for value in values[:-1]],
                         [("begin", None, None), ("output", "begun", None), ("end", None, "interrupted")])
        step = values[-1]["runs"][0]["jobs"][0]["legs"][0]["steps"][0]
        self.assertEqual((step["result"], step["cause"]), ("interrupted", "stopped by Ctrl-C"))


if __name__ == "__main__":
    unittest.main()
