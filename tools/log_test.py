"""Tests of logs of great length: what `run` takes of memory and time to show them.

The environment variable ACTRUN_PROGRAM names a built program; `tools/unit_tests.py` is started with it by `tools/test`.
Where ACTRUN_ALL_TESTS is set, the logs are greater: up to 1 GB.
"""
from __future__ import annotations

import json
import os
import re
import shutil
import signal
import subprocess
import sys
import tempfile
import unittest
from pathlib import Path

ALL = bool(os.environ.get("ACTRUN_ALL_TESTS"))
# the most memory that `run` may take, without the longest line of a log
MOST_BYTES = 32 << 20
# executes the words after the first two, with what they print at the file that the second names, and prints the status, the most memory
# and the seconds of a processor that they took; a program that takes more such seconds than the first says is ended by SIGXCPU
MEASURE = """
import resource, subprocess, sys
seconds = int(sys.argv[1])
resource.setrlimit(resource.RLIMIT_CPU, (seconds, seconds + 1))
with open(sys.argv[2], "wb") as out:
    status = subprocess.run(sys.argv[3:], stdin=subprocess.DEVNULL, stdout=out, check=False).returncode
used = resource.getrusage(resource.RUSAGE_CHILDREN)
print(status, used.ru_maxrss * 1024, used.ru_utime + used.ru_stime)
"""


def program() -> str:
    """The program that the tests use."""
    named = os.environ.get("ACTRUN_PROGRAM")
    if not named:
        raise RuntimeError("ACTRUN_PROGRAM has to name a built program: start these tests by tools/test python")
    return str(Path(named).resolve())


class LongLogs(unittest.TestCase):
    """Plans whose steps print much."""

    def setUp(self) -> None:
        self.room = Path(tempfile.mkdtemp(prefix="actrun-log-")).resolve()
        self.addCleanup(shutil.rmtree, self.room, ignore_errors=True)
        self.shown = self.room / "shown"
        (self.room / "work").mkdir()

    def execute(self, *scripts: str, legs: int = 1, seconds: int = 300) -> tuple[int, float]:
        """The most memory, in bytes, and the seconds of a processor that `run` takes of a plan of one job with these steps."""
        matrix = {"strategy": {"matrix": {"leg": list(range(legs))}}} if legs > 1 else {}
        flow = {"on": "push", "jobs": {"job": {"runs-on": "x", "steps": [{"run": it} for it in scripts], **matrix}}}
        (self.room / "flow.json").write_text(json.dumps(flow), encoding="utf-8")
        planned = subprocess.run([program(), "plan", self.room / "flow.json"], check=True, stdout=subprocess.PIPE)
        (self.room / "plan").write_bytes(planned.stdout)
        words = [program(), "run", "--work", self.room / "work", self.room / "plan"]
        words = [sys.executable, "-c", MEASURE, str(seconds), self.shown, *words]
        status, most, took = subprocess.run(words, stdout=subprocess.PIPE, check=True, text=True).stdout.split()
        self.assertNotEqual(int(status), -signal.SIGXCPU, f"more than {seconds} s of a processor")
        self.assertEqual(int(status), 0)
        return int(most), float(took)

    def test_short_lines(self) -> None:
        """A log is made and shown in pieces, whatever its length."""
        count = 500_000_000 if ALL else 1_000_000
        most, _ = self.execute(f"yes | head -n {count}")
        self.assertEqual(self.shown.stat().st_size, 2 * count + len("run 0 success\n"))
        self.assertLess(most, MOST_BYTES)

    def test_errors_begin_on_a_line_of_their_own(self) -> None:
        """Between the two streams of a step stands a newline where the first does not end in one, whatever its length."""
        for length in (1, 8_191, 8_192, 8_193, 100_000):
            self.execute(f"head -c {length} /dev/zero | tr '\\0' x; echo error >&2", "echo out; echo error >&2")
            self.assertEqual(self.shown.read_bytes(), b"x" * length + b"\nerror\nout\nerror\nrun 0 success\n")

    def test_one_long_line(self) -> None:
        """A line is shown whole, and takes its own length once."""
        length = 200_000_000 if ALL else 16_000_000
        most, _ = self.execute(f"head -c {length} /dev/zero | tr '\\0' x; echo; echo end")
        self.assertEqual(self.shown.read_bytes(), b"x" * length + b"\nend\nrun 0 success\n")
        self.assertLess(most, MOST_BYTES + length)

    def test_masks_and_characters_where_a_long_line_is_cut(self) -> None:
        """A long line is shown as a short one, wherever its masks and its characters of several bytes stand."""
        masks = ["secret", "secret key", "\u00e4\u00f6"]
        texts = ["secret key", "secret secret", "\u00e4\u00f6\u00e4", "\U0001d11e"]
        lines = ["x" * (1_048_576 - len(it) // 2) + it + "end" for it in texts]
        for border in (65_536, 131_072):
            lines += ["x" * (border - before) + it + "end" for it in texts for before in range(1 + len(it.encode()))]
        lines += ["secret" * 50_000, "\U0001d11e" * 50_000, "x" * 65_536, "x" * 65_537, "", " :" + "x" * 200_000]
        # the first is no command, and the others are commands
        lines += ["::" + "x" * 200_000 + "secret", "::notice::" + "x" * 200_000 + "secret", "::debug::" + "x" * 200_000, "end"]
        log = self.room / "log"
        log.write_text("\n".join([*(f"::add-mask::{it}" for it in masks), *lines]) + "\n", encoding="utf-8")
        self.execute(f"cat {log}")
        wanted = [re.sub("^::notice::", "notice: ", it) for it in lines if not it.startswith("::debug::")]
        text = re.sub("|".join(sorted(masks, key=len, reverse=True)), "***", "\n".join(wanted))
        self.assertTrue(self.shown.read_text(encoding="utf-8") == text + "\nrun 0 success\n", "what is shown differs")

    def test_bytes_that_are_no_text_at_the_end(self) -> None:
        """The whole log is one line then, as for bytes at its beginning."""
        self.execute("yes | head -n 100000; printf '\\377\\n'", "printf '\\377'; echo shown")
        self.assertEqual(self.shown.read_bytes(), b"(output is not UTF-8)\n" * 2 + b"run 0 success\n")

    def take_masks(self, masks: int, seconds: int) -> float:
        """The seconds of a processor that `run` takes of a log of that many masks and five times as many lines."""
        script = f"seq -f '::add-mask::secret-%.0f' 1000000 {999_999 + masks}; seq -f 'a secret-%.0f b' 1000000 {999_999 + 5 * masks}"
        most, took = self.execute(script, seconds=seconds)
        shown = self.shown.read_text().splitlines()
        self.assertEqual(shown[:masks], ["a *** b"] * masks)
        self.assertEqual(shown[masks], f"a secret-{1_000_000 + masks} b")
        self.assertEqual(len(shown), 5 * masks + 1)
        self.assertLess(most, 8 * MOST_BYTES)
        return took

    def test_many_masks(self) -> None:
        """Ten times the masks and the lines take some ten times as long, and would take up to a hundred if each line met each mask."""
        masks = 10_000 if ALL else 1_000
        most = 25 * self.take_masks(masks, 300)
        self.assertLess(self.take_masks(10 * masks, int(most) + 1), most)

    def test_masks_are_those_of_the_leg(self) -> None:
        """Each of many legs adds masks, which its own later steps are masked by, and no other leg's."""
        self.execute("echo '::add-mask::mask-${{ matrix.leg }}-'", "echo 'own mask-${{ matrix.leg }}- first mask-0-'", legs=40)
        shown = self.shown.read_text().splitlines()
        self.assertEqual(shown.count("own *** first ***"), 1)
        self.assertEqual(shown.count("own *** first mask-0-"), 39)


if __name__ == "__main__":
    unittest.main()
