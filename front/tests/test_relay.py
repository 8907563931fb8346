"""The program that executes a command and carries out `set-output` and the like. Expected values are from GitHub's
documents on workflow commands."""
from __future__ import annotations

import os
import pathlib
import signal
import subprocess
import sys
import tempfile
import unittest

from actrun_front.actions import STUBS
from tests.stub_case import pairs


class Relay(unittest.TestCase):
    def setUp(self) -> None:
        room = tempfile.TemporaryDirectory(prefix="actrun relay ")
        self.addCleanup(room.cleanup)
        self.room = pathlib.Path(room.name)
        for name in ("output", "env", "path"):
            (self.room / name).touch()

    def run_it(self, script: str, **variables: str) -> tuple[int, bytes]:
        """Status and output of a script of Python behind the program."""
        files = {f"GITHUB_{name.upper()}": str(self.room / name) for name in ("output", "env", "path")}
        words = [sys.executable, "-EsB", str(STUBS / "relay.py"), sys.executable, "-c", script]
        done = subprocess.run(words, env={"PATH": os.environ["PATH"], **files, **variables},
                              stdin=subprocess.DEVNULL,
                              capture_output=True, check=False, timeout=120)
        self.assertEqual(done.stderr, b"")
        return done.returncode, done.stdout

    def outputs(self) -> dict[str, str]:
        return pairs(self.room / "output")

    def test_outputs_are_set_and_not_shown(self) -> None:
        status, shown = self.run_it(r"""
import sys
print("before")
print("::set-output name=a::one%0Atwo%25::three")
print("  ::SET-OUTPUT name=b,other=x::")
print("::set-output name=c%2Cd::windows\r")
print("::set-output::no name")
print("text ::set-output name=x::y")
print("::debug::kept\n::add-matcher::m.json\n::echo::on")
sys.stdout.flush()
sys.stderr.write("::set-output name=e::of standard error\nerror\n")
sys.exit(7)""")
        self.assertEqual((status, shown), (7, b"before\ntext ::set-output name=x::y\n::debug::kept\nerror\n"))
        self.assertEqual(self.outputs(), {"a": "one\ntwo%::three", "b": "", "c,d": "windows",
                                          "e": "of standard error"})

    def test_a_command_may_come_in_parts(self) -> None:
        status, shown = self.run_it("""
import os, time
for part in (b"be", b"fore\\n:", b":set-out", b"put name=a::b", b"\\nrest", b" ::set-output name=x::y\\n", b"  ", b"::set-output name=c::d"):
    os.write(1, part)
    time.sleep(0.02)""")
        self.assertEqual((status, shown), (0, b"before\nrest ::set-output name=x::y\n"))
        self.assertEqual(self.outputs(), {"a": "b", "c": "d"})

    def test_commands_stop_and_resume(self) -> None:
        shown = self.run_it("print('::stop-commands::word\\n::set-output name=a::1\\n::word::\\n::set-output name=b::2')")[1]
        self.assertEqual(shown, b"::stop-commands::word\n::set-output name=a::1\n::word::\n")
        self.assertEqual(self.outputs(), {"b": "2"})

    def test_a_file_that_lacks_its_last_newline(self) -> None:
        self.run_it("open(__import__('os').environ['GITHUB_OUTPUT'], 'a').write('x=y'); print('::set-output name=a::b')")
        self.assertEqual(self.outputs(), {"x": "y", "a": "b"})

    def test_set_env_and_add_path_fail_unless_they_are_allowed(self) -> None:
        script = "print('::set-env name=a::b\\n::add-path::/c')"
        status, shown = self.run_it(script)
        self.assertEqual((status, shown.count(b"is disabled, as on GitHub")), (1, 2))
        self.assertEqual(((self.room / "env").read_bytes(), (self.room / "path").read_bytes()), (b"", b""))
        self.assertEqual(self.run_it(script, ACTIONS_ALLOW_UNSECURE_COMMANDS="true"), (0, b""))
        self.assertEqual(pairs(self.room / "env"), {"a": "b"})
        self.assertEqual((self.room / "path").read_text(encoding="utf-8"), "/c\n")

    def test_any_bytes_and_much_of_them(self) -> None:
        status, shown = self.run_it("import os\nos.write(1, b'\\xff\\xfe::\\n' + b'x' * 3000000 + b'\\n::set-output name=a::\\xff\\n')")
        self.assertEqual((status, shown), (0, b"\xff\xfe::\n" + b"x" * 3000000 + b"\n"))
        self.assertEqual(self.outputs(), {"a": "\ufffd"})

    def test_it_ends_with_its_program_and_not_with_those_left_behind(self) -> None:
        status, shown = self.run_it("""
import os, subprocess, sys
print(subprocess.Popen(["sleep", "300"]).pid, flush=True)
os.kill(os.getpid(), 15)""")
        os.kill(int(shown), signal.SIGKILL)
        self.assertEqual(status, 128 + 15)


if __name__ == "__main__":
    unittest.main()
