"""What the tests of the lowerings share: a folder with files, and the lowered workflow of a text."""
import json
import os
import pathlib
import subprocess
import tempfile
import unittest

from actrun_front.lower import Refused, Setting, lower
from actrun_front.yaml_reader import read_document

ACTRUN = os.environ.get("ACTRUN_PROGRAM", "")
needs_program = unittest.skipUnless(ACTRUN, "ACTRUN_PROGRAM names no program")


class LowerCase(unittest.TestCase):
    def setUp(self):
        room = tempfile.TemporaryDirectory()
        self.addCleanup(room.cleanup)
        self.top = pathlib.Path(room.name) / "tree"
        self.top.mkdir()
        self.contexts = {}

    def write(self, name, text):
        (self.top / name).parent.mkdir(parents=True, exist_ok=True)
        (self.top / name).write_text(text, encoding="utf-8")

    def lower(self, text, **given):
        """The lowered workflow, whose lines and notes are kept."""
        document = read_document(text.encode())
        self.assertEqual(document.faults, [])
        self.lowered = lower(document, "ci.yml", Setting(self.top, self.contexts, **given))
        return self.lowered.value

    def job(self, text, **given):
        """The job `a` of a workflow whose text is that of the job, from line 2 on."""
        return self.lower("on: push\njobs: {a: {" + text + "}}" if "\n" not in text else "jobs:\n  a:\n" + text + "on: push\n", **given)["jobs"]["a"]

    def step(self, text, **given):
        """The one step of a job."""
        return self.job("runs-on: ubuntu-latest, steps: [{" + text + "}]", **given)["steps"][0]

    def notes(self):
        return [(note.line, note.text) for note in self.lowered.notes]

    def note(self):
        """The text of the one note."""
        (note,) = self.lowered.notes
        return note.text

    def refused(self, text, **given):
        with self.assertRaises(Refused) as caught:
            self.lower(text, **given)
        return caught.exception.line, caught.exception.text

    def run_plan(self, status=0):
        """What the program prints when it executes the lowered workflow."""
        room = self.top.parent
        (room / "work").mkdir(exist_ok=True)
        (room / "ci.json").write_text(json.dumps(self.lowered.value), encoding="utf-8")
        (room / "contexts.json").write_text(json.dumps(self.contexts), encoding="utf-8")
        plan = subprocess.run([ACTRUN, "plan", "--contexts", room / "contexts.json", room / "ci.json"], capture_output=True, check=False)
        self.assertEqual((plan.returncode, plan.stderr), (0, b""))
        (room / "plan.json").write_bytes(plan.stdout)
        ran = subprocess.run([ACTRUN, "run", "--work", room / "work", room / "plan.json"], capture_output=True, check=False, text=True)
        self.assertEqual(ran.returncode, status, ran.stdout + ran.stderr)
        return ran.stdout.splitlines()[:-1]
