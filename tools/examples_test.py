"""Tests of tools/examples.py: which texts fit what a document has."""
from __future__ import annotations

import subprocess
import sys
import tempfile
import unittest
from pathlib import Path

TOOL = Path(__file__).resolve().parent / "examples.py"


class Examples(unittest.TestCase):
    def differ(self, command: str, wanted: str, *words: str) -> tuple[int, str]:
        """How many examples of a document differ, and the document afterwards."""
        with tempfile.TemporaryDirectory() as room:
            document = Path(room, "text.md")
            document.write_text(f"```\n$ {command}\n{wanted}```\n", encoding="utf-8")
            done = subprocess.run([sys.executable, TOOL, *words, document], capture_output=True, text=True,
                                  check=False)
            self.assertEqual(done.returncode, 0 if " 0 differ" in done.stdout or words else 1, done.stdout)
            after = document.read_text(encoding="utf-8").split("\n", 2)[2]
            return int(done.stdout.splitlines()[-1].split()[3]), after.removesuffix("```\n")

    def test_dots_stand_for_lines_and_for_parts_of_lines(self) -> None:
        command = r"printf 'one\ntook 1.5 s (a*b)\n\nlast\n'"
        for wanted in ("one\ntook 1.5 s (a*b)\n\nlast\n", "one\ntook ... s (a*b)\n\nlast\n", "...\nlast\n",
                       "one\n...\n", "one\n...\nlast\n...\n", "...\ntook ...\n...\n"):
            self.assertEqual(self.differ(command, wanted)[0], 0, wanted)
        for wanted in ("", "one\n", "one\ntook 1.5 s (aab)\n\nlast\n", "...\nnone\n", "...\nlast\nmore\n",
                       "one ...\n...\n", "...\ntook ...\n"):
            self.assertEqual(self.differ(command, wanted)[0], 1, wanted)

    def test_only_what_differs_is_written(self) -> None:
        self.assertEqual(self.differ("echo took 2 s", "took ... s\n", "--write"), (0, "took ... s\n"))
        self.assertEqual(self.differ("echo took 2 s", "none ...\n", "--write"), (1, "took 2 s\n"))


if __name__ == "__main__":
    unittest.main()
