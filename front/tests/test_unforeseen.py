"""What a person reads of unforeseen errors, of full streams, and of Ctrl-C at any moment."""
from __future__ import annotations

import os
import re
import signal
import subprocess
import sys
import tempfile
import time
import unittest
from pathlib import Path

from .try_case import FRONT, NEEDS_PROGRAM, PROGRAM, WORKFLOW, TryCase

TOP = FRONT.parent
COMMANDS = {"try": "attempt", "from-yaml": "from_yaml", "lint": "lint", "debug": "debug", "dap": "dap", "report": "report",
            "timeline": "timeline", "explain": "explained", "explain-error": "explain", "last": "last", "open": "open_page",
            "files": "changed_files"}
# starts the front with a command that fails
FAILS = """\
import importlib, runpy, sys
front, command, module, error = sys.argv[1:5]
sys.path.insert(0, front)
def fail(arguments):
    raise eval(error)
importlib.import_module("actrun_front." + module).main = fail
sys.argv = [front, command]
runpy.run_path(front, run_name="__main__")
"""
SCRIPT = 'set -u; top=$1 program=$2; shift 2; . "$top/tools/dispatch.sh"; answer "$@"'
HELLO = b'{"seq":1,"type":"request","command":"initialize"}'


class Errors(TryCase):
    """The one place of each entry that takes what is unforeseen."""

    def fail(self, command: str, error: str, **environment: str) -> subprocess.CompletedProcess[str]:
        """What the front answers where a command raises an error."""
        return subprocess.run(["/usr/bin/python3" if os.path.exists("/usr/bin/python3") else sys.executable,
                               "-B", "-c", FAILS, str(FRONT), command,
                               COMMANDS[command], error], env={**self.environment, **environment},
                              cwd=self.project, stdin=subprocess.DEVNULL,
                              capture_output=True, text=True, check=False, timeout=60)

    def test_an_unforeseen_error_is_one_line(self) -> None:
        for command in COMMANDS:
            done = self.fail(command, "KeyError('sesame')")
            self.assertEqual((done.returncode, done.stdout), (3, ""), done.stderr)
            told = re.fullmatch(rf"actrun: {command}: unforeseen: KeyError at <string>:5; please report it, .*: (/.+\.txt)\n", done.stderr)
            self.assertTrue(told, done.stderr)
            place = Path(told[1])
            self.assertEqual((place.parent, place.stat().st_mode & 0o777),
                             (self.home / ".cache" / "actrun" / "faults", 0o600))
            self.assertIn("KeyError: 'sesame'", place.read_text(encoding="utf-8"))

    def test_an_interrupt_while_a_class_is_made(self) -> None:
        given = "type('Made', (), {'it': type('Part', (), {'__set_name__': lambda *_: __import__('actrun_front.stopping').stopping.stop(2, None)})()})"
        done = self.fail("report", given)
        self.assertEqual((done.returncode, done.stderr), (130, "actrun: stopped by Ctrl-C\n"))

    def test_only_the_last_ones_are_kept(self) -> None:
        folder = self.home / ".cache" / "actrun" / "faults"
        folder.mkdir(parents=True)
        for number in range(25):
            (folder / f"{number:02}.txt").touch()
            os.utime(folder / f"{number:02}.txt", (number, number))
        self.fail("report", "ZeroDivisionError()")
        names = sorted(path.name for path in folder.iterdir())
        self.assertEqual((len(names), [f"{number:02}.txt" for number in range(25)
                                       if f"{number:02}.txt" not in names]),
                         (21, [f"{number:02}.txt" for number in range(5)]))

    def test_where_nothing_can_be_kept_it_is_said(self) -> None:
        done = self.fail("report", "ZeroDivisionError()", XDG_CACHE_HOME="/proc/nowhere")
        self.assertEqual(done.returncode, 3)
        self.assertRegex(done.stderr,
                         r"^actrun: report: unforeseen: ZeroDivisionError at .*: \(no file: No such file or directory\)\n$")

    def test_errors_of_the_system_have_their_names(self) -> None:
        for error, status, told in (("MemoryError()", 3,
                                     "actrun: dap: out of memory: give it more, or take a smaller file\n"),
                                    ("OSError(28, 'No space left on device', '/x/y')", 3,
                                     "actrun: dap: /x/y: No space left on device\n"),
                                    ("OSError(24, 'Too many open files')", 3,
                                     "actrun: dap: a file or a stream: Too many open files\n"),
                                    ("KeyboardInterrupt()", 130, "actrun: stopped by Ctrl-C\n"),
                                    ("SystemExit(4)", 4, "")):
            done = self.fail("dap", error)
            self.assertEqual((done.returncode, done.stdout, done.stderr), (status, "", told))

    def test_a_thread_has_no_traceback_either(self) -> None:
        done = self.fail("report",
                         "__import__('threading').Thread(target=lambda: 1 / 0).run() or SystemExit(0)")
        self.assertNotIn("Traceback", done.stderr)
        code = ("import sys, threading; sys.path.insert(0, sys.argv[1]); from actrun_front.unforeseen import guarded\n"
                "def work():\n    it = threading.Thread(target=lambda: 1 / 0); it.start(); it.join(); return 0\n"
                "sys.exit(guarded('try', work))")
        done = subprocess.run([sys.executable, "-B", "-c", code, str(FRONT)], env=self.environment,
                              capture_output=True, text=True, check=False)
        self.assertEqual(done.returncode, 0)
        self.assertRegex(done.stderr,
                         r"^actrun: unforeseen: ZeroDivisionError at <string>:3; please report it, .*\.txt\n$")


@NEEDS_PROGRAM
class Streams(TryCase):
    """Streams that cannot be written."""

    def test_a_full_standard_output_is_one_line(self) -> None:
        self.workflow("- run: 'true'")
        record = TOP / "examples" / "p1.record"
        for words, given in ((["from-yaml", "--help"], b""), (["try", "--help"], b""),
                             (["report", "--help"], b""), (["try", "-l"], b""), (["try"], b""),
                             (["dap"], b"Content-Length: %d\r\n\r\n%b" % (len(HELLO), HELLO)),
                             (["report", "-o", str(self.room / "page"), str(record)], b""),
                             (["from-yaml", "-"], b"on: push\n"), (["debug", str(record)], b"")):
            with open("/dev/full", "wb") as full:
                done = subprocess.run([sys.executable, str(FRONT), *words], input=given, stdout=full,
                                      stderr=subprocess.PIPE, cwd=self.project,
                                      env=self.environment, check=False, timeout=60)
            self.assertEqual(done.returncode, 3, (words, done.stderr))
            self.assertRegex(done.stderr.decode(), r"(?m)^\S+: .*\b(standard output|stream): No space left on device\n\Z", words)
            self.assertNotIn("Traceback", done.stderr.decode())


class Keys(TryCase):
    """Ctrl-C."""

    def setUp(self) -> None:
        super().setUp()
        # (also where the tests are started in the background)
        self.addCleanup(signal.signal, signal.SIGINT, signal.signal(signal.SIGINT,
                                                                    signal.default_int_handler))

    @NEEDS_PROGRAM
    def test_ctrl_c_at_any_moment_shows_no_traceback(self) -> None:
        self.workflow("- run: 'true'")
        self.commit()
        statuses = []
        for number in range(32):
            words = ["bash", "-c", SCRIPT, "actrun", str(TOP), PROGRAM, "try",
                     *(["-n"] if number % 2 else [])]
            child = subprocess.Popen(words, cwd=self.project, env=self.environment, stdin=subprocess.DEVNULL,
                                     stdout=subprocess.PIPE,
                                     stderr=subprocess.PIPE, start_new_session=True)
            time.sleep(number * 0.02)
            os.killpg(child.pid, signal.SIGINT)
            out, err = child.communicate(timeout=60)
            self.assertNotIn(b"Traceback", err)
            self.assertIn(child.returncode, (130, -signal.SIGINT, 0), (number, err))
            self.assertLessEqual(err.count(b"stopped by Ctrl-C"), 1)
            statuses.append(child.returncode)
        self.assertNotEqual(set(statuses), {0})


@NEEDS_PROGRAM
class Records(unittest.TestCase):
    """Records that `report` is given."""

    def test_a_record_without_its_contexts_is_refused(self) -> None:
        text = (TOP / "examples" / "p1.record").read_bytes()
        with tempfile.TemporaryDirectory() as room:
            record = Path(room, "r")
            for was, now in ((b'"github":', b'"gith":'), (b'"github":{}', b'"github":[]'),
                             (b'"secrets":', b'"secret":'), (b'"roots":', b'"root":'),
                             (b'"legs":[{}', b'"legs":[[]')):
                self.assertIn(was, text)
                record.write_bytes(text.replace(was, now, 1))
                done = subprocess.run([sys.executable, str(FRONT), "report", str(record)],
                                      env={**os.environ, "XDG_CACHE_HOME": room},
                                      capture_output=True, text=True, check=False, timeout=60)
                self.assertEqual((done.returncode, done.stdout), (2, ""), done.stderr)
                self.assertRegex(done.stderr,
                                 rf"^actrun: report: (load NotPlan: )?{re.escape(str(record))}.*\n$")
                self.assertEqual([path.name for path in Path(room).iterdir()], ["r"])


class Overwriting(unittest.TestCase):
    """The JSON beside a workflow."""

    def test_another_file_beside_a_workflow_is_kept(self) -> None:
        with tempfile.TemporaryDirectory() as room:
            yaml, made = Path(room, "ci.yml"), Path(room, "ci.json")

            def convert(*words: str) -> subprocess.CompletedProcess[str]:
                return subprocess.run([sys.executable, str(FRONT), "from-yaml", *words, str(yaml)],
                                      capture_output=True, text=True, check=False, timeout=60)
            yaml.write_text("on: push\n", encoding="utf-8")
            made.write_text('{"mine": 1}\n', encoding="utf-8")
            done = convert()
            told = f"from-yaml: {made} exists, with other contents: --force replaces it, -o OUT names another place\n"
            self.assertEqual((done.returncode, done.stdout, done.stderr, made.read_text(encoding="utf-8")),
                             (2, "", told, '{"mine": 1}\n'))
            for words in (["--force"], [], ["-o", str(made)]):
                self.assertEqual((convert(*words).returncode, made.read_text(encoding="utf-8")),
                                 (0, '{"on":"push"}\n'))
            yaml.write_text(WORKFLOW, encoding="utf-8")
            self.assertEqual(convert().returncode, 2)
            made.write_bytes(b"")
            self.assertEqual(convert().returncode, 0)


if __name__ == "__main__":
    unittest.main()
