"""A share of what hostile_front.py feeds the front, in the gate's test. ACTRUN_PROGRAM names a built program."""
from __future__ import annotations

import os
import subprocess
import sys
import unittest
from pathlib import Path

TOOL = Path(__file__).resolve().parent / "hostile_front.py"


class Hostile(unittest.TestCase):
    """Hostile inputs of the front."""

    def test_no_input_ends_with_a_traceback(self) -> None:
        environment = {**os.environ, "ACTRUN_SIDE_BY_SIDE": "2"}
        done = subprocess.run([sys.executable, "-B", str(TOOL), "200", "gate"], env=environment,
                              capture_output=True, text=True, check=False, timeout=800)
        self.assertEqual((done.returncode, done.stderr), (0, ""), done.stdout)
        self.assertIn("; 0 offend, nothing kept", done.stdout)


if __name__ == "__main__":
    unittest.main()
