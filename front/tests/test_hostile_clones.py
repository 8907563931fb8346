"""A few of the random clones of tools/hostile_clones.py."""
from __future__ import annotations

import os
import shutil
import subprocess
import sys
import unittest
from pathlib import Path

from .try_case import NEEDS_PROGRAM

TOOL = Path(__file__).resolve().parent.parent.parent / "tools" / "hostile_clones.py"
COUNT, SEED = 120, 20261130


@NEEDS_PROGRAM
@unittest.skipUnless(shutil.which("git") and TOOL.exists(), "git is not installed, or the tools are not here")
class Clones(unittest.TestCase):
    """Clones that try to hurt their reader."""

    def test_none_does_harm(self) -> None:
        done = subprocess.run([sys.executable, str(TOOL), str(COUNT), str(SEED)], capture_output=True,
                              text=True, check=False,
                              env={**os.environ, "PYTHONDONTWRITEBYTECODE": "1"})
        self.assertEqual((done.returncode, done.stdout), (0, f"{COUNT} clones, 0 did harm\n"), done.stderr)


if __name__ == "__main__":
    unittest.main()
