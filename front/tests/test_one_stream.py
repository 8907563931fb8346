"""Standard output and error of a step: one stream, in the order in which it was written."""
from __future__ import annotations

import os
import signal
import subprocess
import sys
import time
import unittest

from .try_case import FRONT, NEEDS_PROGRAM, WORKFLOW, TryCase

RELAY = [sys.executable, "-ISB", str(FRONT / "stubs" / "one_stream.py")]


def with_usual_signals() -> None:
    """Signals have their usual effect, also where the tests are started in the background."""
    for number in (signal.SIGINT, signal.SIGHUP):
        signal.signal(number, signal.SIG_DFL)


class Relay(unittest.TestCase):
    """The program between a step and its log."""

    def ran(self, script: str) -> subprocess.CompletedProcess[str]:
        """A script of bash behind the relay."""
        return subprocess.run([*RELAY, "bash", "-c", script], stdin=subprocess.DEVNULL, capture_output=True,
                              text=True, check=False, timeout=60)

    def test_order_and_status(self) -> None:
        done = self.ran("for n in 1 2 3; do echo out $n; echo err $n >&2; done; echo again | tee "
                        "/dev/stderr; echo end > /dev/stderr; exit 7")
        self.assertEqual((done.returncode, done.stderr), (7, ""))
        lines = done.stdout.splitlines()
        self.assertEqual(lines[:6], ["out 1", "err 1", "out 2", "err 2", "out 3", "err 3"])
        self.assertEqual(lines[6:], ["again", "again", "end"])

    def test_much_and_bytes_that_are_no_text(self) -> None:
        done = subprocess.run([*RELAY, "sh", "-c", "head -c 3000000 /dev/zero; printf '\\377'"],
                              capture_output=True, check=False, timeout=60)
        self.assertEqual(done.stdout, bytes(3000000) + "\ufffd".encode())

    def test_characters_are_whole(self) -> None:
        done = self.ran("printf '\\342\\202'; sleep 0.3; printf '\\254'; printf '\\342'; sleep 0.3; printf "
                        "'x\\303'")
        self.assertEqual(done.stdout, "\u20ac\ufffdx\ufffd")

    def test_what_a_program_leaves_behind_is_not_waited_for(self) -> None:
        begun = time.monotonic()
        done = self.ran("echo before; sleep 300 & echo $!")
        self.assertLess(time.monotonic() - begun, 100)
        self.assertEqual(done.stdout.splitlines()[0], "before")
        os.kill(int(done.stdout.splitlines()[1]), signal.SIGKILL)

    def test_disabled_commands_fail_a_step(self) -> None:
        why = "::error::Unable to process command '::set-env' successfully. The `set-env` command is disabled. "
        for script, status in (("echo '  ::set-env name=A::b'; echo on", 1),
                               ("printf '::set'; sleep 0.2; printf -- '-env name=A::b'", 1),
                               ("echo '::add-path::/x'; exit 3", 3),
                               ("echo 'a ::set-env name=A::b'; echo ::set-env", 0),
                               ("echo ::stop-commands::t; echo ::set-env name=A::b; echo ::t::", 0),
                               ("echo ::stop-commands::t; echo ::t::; echo ::set-env name=A::b", 1)):
            done = self.ran(script)
            self.assertEqual((done.returncode, why in done.stdout), (status, status == 1),
                             (script, done.stdout))
        done = subprocess.run([*RELAY, "echo", "::set-env name=A::b"],
                              env={"ACTIONS_ALLOW_UNSECURE_COMMANDS": "true", "PATH": os.environ["PATH"]},
                              capture_output=True, check=False, timeout=60)
        self.assertEqual(done.returncode, 0)

    def test_signals(self) -> None:
        self.assertEqual(self.ran("kill -TERM $$").returncode, -signal.SIGTERM)
        self.assertEqual(self.ran("kill -KILL $$").returncode, -signal.SIGKILL)
        self.assertEqual(self.ran("kill -TERM $PPID; echo goes on").stdout, "goes on\n")
        ignored = ["sh", "-c", "trap '' HUP; exec \"$@\"", "sh", *RELAY, "sh", "-c",
                   "kill -HUP $$; kill -INT $$; echo unseen"]
        done = subprocess.run(ignored, capture_output=True, text=True, check=False, timeout=60,
                              preexec_fn=with_usual_signals)
        self.assertEqual((done.stdout, done.returncode), ("", -signal.SIGINT))

    def test_a_closed_pipe_ends_a_program_as_without_it(self) -> None:
        self.assertEqual(self.ran("yes | head -n 1; echo ${PIPESTATUS[0]}").stdout, "y\n141\n")

    def test_a_program_that_is_not_there(self) -> None:
        done = subprocess.run([*RELAY, "/nowhere"], capture_output=True, text=True, check=False, timeout=60)
        self.assertEqual((done.returncode, done.stdout), (127, "/nowhere: No such file or directory\n"))


@NEEDS_PROGRAM
class Tried(TryCase):
    """The streams of steps."""

    def test_all_shells_and_actions(self) -> None:
        action = self.write("act", "#!/bin/sh\necho one; echo two >&2; echo three; exit 3\n", 0o755)
        say = "echo one; echo two >&2; echo three | tee /dev/stderr; echo \"options $- $(basename $0) $#\"; exit 3"
        self.workflow("".join(f"- run: {say}\n  continue-on-error: true\n{shell}" for shell in ("", "  shell: bash\n", "  shell: sh\n"))
                      + "- shell: python\n  run: |\n    import sys, os\n    print('one', flush=True); "
                        "print('two', file=sys.stderr, flush=True); print('three')\n"
                      "- uses: a/b@v1\n  continue-on-error: true\n- run: '[ -z \"${ACTRUN_PIPED+x}\" ]; "
                      "false | true; echo last'\n  shell: sh\n")
        self.commit()
        done = self.attempt("--stub", f"a/b={action}")
        self.assert_status(done, 0)
        self.assertEqual(done.stdout.count("\none\ntwo\nthree\nthree\noptions "), 3, done.stdout)
        self.assertEqual(done.stdout.count("\none\ntwo\nthree\n"), 5, done.stdout)
        self.assertEqual(done.stderr.count(", exit 3, "), 4)
        for number, options in ((0, "ehB"), (1, "ehB"), (2, "e")):
            self.assertIn(f"options {options} step-0-{number}.sh 0\n", done.stdout)
        self.assertIn("last\n", done.stdout)

    def test_a_server_that_a_step_leaves_holds_nothing(self) -> None:
        self.workflow("- run: |\n    sleep 100 &\n    echo begun\n- run: echo after")
        begun = time.monotonic()
        done = self.attempt()
        self.assert_status(done, 0)
        self.assertIn("begun\n\n--- one: echo after\nafter\n", done.stdout)
        self.assertLess(time.monotonic() - begun, 90)

    def test_a_disabled_command(self) -> None:
        self.write("say.sh", "echo '::set-env name=A::b'\n")
        self.workflow("- run: sh say.sh\n- run: echo unseen")
        done = self.attempt()
        self.assert_status(done, 1)
        self.assertIn("error: Unable to process command '::set-env' successfully. The `set-env` command is "
                      "disabled. Write to the file that "
                      "GITHUB_ENV names, or set the variable ACTIONS_ALLOW_UNSECURE_COMMANDS to true.\n",
                      done.stdout)
        self.assertNotIn("\nunseen", done.stdout)

    def test_an_old_command_of_a_program(self) -> None:
        self.write("say.sh", "printf '  ::set-output name=a::one%%0Atwo %%25 \\r\\n::set-output name=b::old\\n x ::set-output name=c::no\\n'\n"
                             "echo ::stop-commands::t; echo ::set-output name=d::no; echo ::t::; echo b=new >> $GITHUB_OUTPUT\n")
        self.workflow("- run: sh say.sh\n  id: s\n- run: echo \"${{ toJSON(steps.s.outputs) }}\" | tr -d '\\n'")
        for more in ((), ("--no-sandbox",)):
            done = self.attempt(*more)
            self.assert_status(done, 0)
            self.assertIn("\n{  a: onentwo % ,  b: new}\n", done.stdout)

    def test_variables_of_the_runner_stay(self) -> None:
        self.workflow("- run: printf 'GITHUB_REF=no\\nRUNNER_OS<<E\\nno\\nE\\nGITHUB_TOKEN=t\\nCI=mine\\n' >> $GITHUB_ENV\n"
                      "- run: echo \"$GITHUB_REF $RUNNER_OS $GITHUB_TOKEN $CI\"\n"
                      "- run: echo \"own $GITHUB_REF\"\n  env: {GITHUB_REF: no}")
        self.commit()
        for more in ((), ("--no-sandbox",)):
            done = self.attempt(*more)
            self.assert_status(done, 0)
            self.assertIn("\nrefs/heads/main Linux t mine\n", done.stdout)
            self.assertIn("\nown refs/heads/main\n", done.stdout)
            self.assertNotIn("Can't store", done.stdout)

    def test_a_variable_that_no_step_sets(self) -> None:
        self.workflow("- run: printf 'A=1\\nNode_Options=--x\\nNODE_OPTIONS<<E\\nB=no\\nE\\nC=2\\n' >> $GITHUB_ENV\n"
                      "- run: echo \"$A [$NODE_OPTIONS] [$B] $C\"")
        for more in ((), ("--no-sandbox",)):
            done = self.attempt(*more)
            self.assert_status(done, 0)
            self.assertIn("\n1 [] [] 2\n", done.stdout)
            self.assertIn("error: Can't store NODE_OPTIONS output parameter using '$GITHUB_ENV' command.\n", done.stdout)

    def test_one_byte_that_is_no_text_hides_nothing(self) -> None:
        self.workflow("- run: printf 'before \\xff after\\n'; echo whole; echo \"::warning::it is "
                      "caf\\xe9\"\n- run: echo next", WORKFLOW)
        done = self.attempt()
        self.assert_status(done, 0)
        self.assertIn("before \ufffd after\nwhole\n", done.stdout)


if __name__ == "__main__":
    unittest.main()
