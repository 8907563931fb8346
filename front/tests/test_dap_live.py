"""`actrun dap` executes a repository, and attaches to a `try`: breaks, moves over the past, a shell, and every end."""
from __future__ import annotations

import contextlib
import json
import os
import pty
import re
import select
import signal
import stat
import subprocess
import sys
import time
import unittest
from pathlib import Path
from typing import Any

from actrun_front.live_control import MOST_LINE, connected

from .dap_case import COMMAND, FRONT, Client
from .live_case import PATIENCE, Person
from .try_case import NEEDS_PROGRAM, PROGRAM, WORKFLOW, TryCase, sandbox_works

STEPS = """\
- name: first
  id: first
  run: |
    echo begins
    echo "TONE=light" >>"$GITHUB_ENV"
    echo "value=7" >>"$GITHUB_OUTPUT"
- name: make the file
  id: make
  env:
    COLOUR: blue
  run: |
    echo "reads $COLOUR $TONE"
    cat missing.txt
- name: use it
  run: echo "got $(cat missing.txt)"
"""
FIRST, MAKE, USE = 6, 12, 19  # lines of the file with these steps
STRATEGY = "    strategy:\n      fail-fast: false\n      matrix:\n        n: [1, 2, 3]\n"
MATRIX = WORKFLOW.replace("    steps:", f"{STRATEGY}    steps:")
WAITS = "- name: a\n  run: |\n    touch started\n    until [ -e go ]; do sleep 0.1; done\n    echo went\n"
SKIPS = """\
- name: first
  if: false
  run: echo never
- name: second
  run: echo twice
"""


@NEEDS_PROGRAM
@unittest.skipUnless(sandbox_works(), "bwrap cannot make a room here")
class ExecutionCase(TryCase):
    """A test with a client that executes the project."""

    def client(self) -> Client:
        """A client, whose server has the home folder of the test."""
        path = os.pathsep.join(filter(None, [str(FRONT), os.environ.get("PYTHONPATH")]))
        client = Client({**self.environment, "PYTHONPATH": path})
        self.addCleanup(client.close)
        return client

    @property
    def yaml(self) -> str:
        """The workflow."""
        return str(self.project / ".github/workflows/ci.yml")

    def launched(self, *options: str, **more: Any) -> Client:
        """A client that launched the project and may set breakpoints."""
        client = self.client()
        client.ask("initialize", supportsRunInTerminalRequest=True)
        client.ask("launch", live=True, program=str(self.project), options=[*self.workspace, *options],
                   **more)
        client.event("initialized")
        return client

    def started(self, *breakpoints: dict[str, Any], **more: Any) -> Client:
        """A client whose execution has begun, with breakpoints of the file."""
        client = self.launched(**more)
        client.ask("setBreakpoints", source={"path": self.yaml}, breakpoints=list(breakpoints))
        client.ask("configurationDone")
        return client

    def stop(self, client: Client) -> tuple[str, str]:
        """Reason of the next stop, and what is said of it."""
        body = client.event("stopped")
        return body["reason"], body["text"]

    def top(self, client: Client, thread: int = 1) -> str:
        """The name of the frame at the top of a thread."""
        return str(client.ask("stackTrace", threadId=thread)["stackFrames"][0]["name"])

    def say(self, client: Client, expression: str, context: str = "repl", **more: Any) -> str:
        """What the console answers."""
        return str(client.ask("evaluate", expression=expression, context=context, **more)["result"])

    def work(self) -> Path:
        """The folder of the only execution."""
        [folder] = (self.home / ".cache/actrun/work").iterdir()
        return folder

    def end(self, client: Client) -> tuple[int, str]:
        """Exit status of the execution, and what was shown until then."""
        shown = ""
        while True:
            message = client.events.pop(0) if client.events else client.next()
            if message["event"] == "exited":
                return message["body"]["exitCode"], shown
            shown += message["body"].get("output", "")

    def answers(self) -> list[int]:
        """The statuses of the steps in the record, which the program accepts."""
        record = self.work() / "private" / "record"
        done = subprocess.run([PROGRAM, "replay", str(record)], capture_output=True, check=False)
        self.assertIn(done.returncode, (0, 1), done.stderr)
        entries = map(json.loads, record.read_text(encoding="utf-8").splitlines()[1:])
        return [entry["answer"].get("code") for entry in entries if entry["event"] == "end"]


class Launch(ExecutionCase):
    """An execution that the client starts."""

    def test_a_failed_step_is_repaired_in_a_terminal_and_run_again(self) -> None:
        self.workflow(STEPS)
        client = self.started()
        self.assertEqual(self.stop(client), ("exception", "one: make the file failed, exit 1"))
        self.assertEqual(self.top(client), "step 1 (make the file): waits after exit 1")
        self.assertIn("one: make the file failed, exit 1",
                      client.ask("exceptionInfo", threadId=1)["description"])
        self.say(client, "shell")
        asked = client.request()
        self.assertEqual((asked["command"], asked["arguments"]["kind"], asked["arguments"]["cwd"]),
                         ("runInTerminal", "integrated", str(self.project)))
        client.reply(asked, body={"processId": 1})
        self.type(asked["arguments"]["args"], client, "echo 42 >missing.txt; exit\n")
        client.ask("restartFrame", frameId=client.ask("stackTrace", threadId=1)["stackFrames"][0]["id"])
        self.assertEqual(self.stop(client)[0], "restart")
        self.assertEqual(self.top(client), "step 1 (make the file): waits after exit 0")
        client.ask("continue", threadId=1)
        status, shown = self.end(client)
        self.assertEqual((status, self.answers()), (0, [0, 0, 0]))
        self.assertIn("got 42", shown)
        self.assertIn("step one: make the file was run again by hand: 1 time\n", shown)
        self.assertIn("step one: make the file had a shell: 1 time\n", shown)
        self.assertEqual(client.event("terminated"), {})

    def type(self, command: list[str], client: Client, text: str) -> None:
        """Executes the command of a terminal, and types at its shell. Meanwhile the client cannot let the leg go on."""
        master, slave = pty.openpty()
        child = subprocess.Popen(command, stdin=slave, stdout=slave, stderr=slave, env=self.environment,
                                 start_new_session=True)
        os.close(slave)
        shown, until, typed = "", time.monotonic() + PATIENCE, False
        while child.poll() is None and time.monotonic() < until:
            if select.select([master], [], [], 0.2)[0]:
                try:
                    shown += os.read(master, 4096).decode("utf-8", "replace")
                except OSError:
                    break
            if not typed and re.search(r"\(one\) .*\$ $", shown):
                self.assertIn("`shell` is not over: end it first",
                              client.refused("evaluate", {"expression": "log", "context": "repl"}))
                os.write(master, text.encode())
                typed = True
        self.assertEqual(child.wait(PATIENCE), 0, shown)
        self.assertTrue(typed, shown)
        os.close(master)

    def test_breakpoints_in_lines_of_steps_and_scripts(self) -> None:
        self.workflow(STEPS)
        client = self.launched()
        body = client.ask("setBreakpoints", source={"path": self.yaml},
                          breakpoints=[{"line": 10}, {"line": USE}, {"line": 99}])
        self.assertEqual([(one["verified"], one.get("line")) for one in body["breakpoints"]],
                         [(True, FIRST), (True, USE), (False, None)])
        client.ask("setExceptionBreakpoints", filters=[])
        client.ask("configurationDone")
        self.assertEqual(self.stop(client), ("breakpoint", "before one: first"))
        frame = client.ask("stackTrace", threadId=1)["stackFrames"][0]
        self.assertEqual((frame["name"], frame["line"], frame["source"]["path"]),
                         ("step 0 (first): waits to begin", FIRST, self.yaml))
        client.ask("continue", threadId=1)
        self.assertEqual(self.stop(client)[0], "pause")  # (at the end, since a step failed)
        self.assertEqual(self.answers(), [0, 1])
        client.ask("continue", threadId=1)
        self.assertEqual(self.end(client)[0], 1)

    def test_conditions_counts_and_logs_hold_while_it_executes(self) -> None:
        self.workflow("- name: a\n  run: echo ${{ matrix.n }}\n- name: b\n  run: echo b", head=MATRIX)
        client = self.launched("--workers", "1")
        a, b = 10, 12
        client.ask("setBreakpoints", source={"path": self.yaml}, breakpoints=[
            {"line": a, "condition": "matrix.n == 2"}, {"line": b, "logMessage": "b of {matrix.n}"}])
        client.ask("setFunctionBreakpoints", breakpoints=[{"name": "b", "hitCondition": "3"}])
        client.ask("configurationDone")
        self.assertEqual(self.stop(client), ("breakpoint", "before one (2): a"))
        client.ask("continue", threadId=1)
        self.assertEqual(self.stop(client), ("breakpoint", "before one (3): b"))
        client.ask("continue", threadId=1)
        status, shown = self.end(client)
        self.assertEqual(status, 0)

    def test_logs_are_told(self) -> None:
        self.workflow("- name: b\n  run: echo b", head=MATRIX)
        client = self.launched("--workers", "1")
        client.ask("setBreakpoints", source={"path": self.yaml},
                   breakpoints=[{"line": 10, "logMessage": "b of {matrix.n}"}])
        client.ask("configurationDone")
        shown = self.end(client)[1]
        self.assertEqual(re.findall("b of .", shown), ["b of 1", "b of 2", "b of 3"])

    def test_nothing_stops_without_debugging(self) -> None:
        self.workflow(STEPS)
        client = self.started({"line": FIRST}, noDebug=True, stopOnEntry=True)
        self.assertEqual(self.end(client)[0], 1)

    def test_stop_on_entry_and_steps(self) -> None:
        self.workflow(STEPS)
        client = self.started(stopOnEntry=True)
        self.assertEqual(self.stop(client)[0], "entry")
        for text in ("before one: first", "before one: make the file"):
            client.ask("next", threadId=1)
            self.assertEqual(self.stop(client), ("step", text))
        client.ask("next", threadId=1)
        self.assertEqual(self.stop(client), ("exception", "one: make the file failed, exit 1"))
        self.say(client, "skip")
        self.assertEqual(client.event("continued")["threadId"], 1)
        self.assertEqual(self.end(client)[0], 0)
        self.assertEqual(self.answers(), [0, 0, 0])

    def test_back_and_forward_over_what_has_happened(self) -> None:
        self.workflow(STEPS)
        client = self.started({"line": FIRST})
        self.assertEqual(self.stop(client), ("breakpoint", "before one: first"))
        client.ask("continue", threadId=1)
        self.assertEqual(self.stop(client)[0], "exception")
        frame = client.ask("stackTrace", threadId=1)["stackFrames"][0]["id"]
        for words, value in (("steps.first.outputs.value", "7"), ("env.TONE", "light"),
                             ("print TONE", "light"),
                             ("why", "step 1 (make the file) runs since line")):
            self.assertIn(value, self.say(client, words, frameId=frame))
        self.assertEqual(self.say(client, "${COLOUR}", "hover", frameId=frame), "blue")
        client.ask("stepBack", threadId=1)
        self.stop(client)
        self.assertEqual(self.top(client), "step 1 (make the file): running")
        client.ask("continue", threadId=1)
        self.assertEqual(self.stop(client), ("pause", "one: make the file failed, exit 1"))
        for name in ("step 1 (make the file): running", "step 0 (first): running"):
            client.ask("stepBack", threadId=1)
            self.assertEqual(self.stop(client)[0], "step")
            self.assertEqual(self.top(client), name)
        self.assertIn("no leg waits here",
                      client.refused("evaluate", {"expression": "skip", "context": "repl"}))
        client.ask("reverseContinue", threadId=1)
        self.assertEqual(self.stop(client)[0], "entry")
        client.ask("continue", threadId=1)
        self.assertEqual(self.stop(client)[0], "breakpoint")
        client.ask("continue", threadId=1)
        self.assertEqual(self.stop(client), ("pause", "one: make the file failed, exit 1"))
        client.ask("continue", threadId=1)
        self.assertEqual(self.stop(client)[0], "pause")
        for name in ("step 2 (use it): skipped", "step 1 (make the file): running"):
            client.ask("stepBack", threadId=1)
            self.stop(client)
            self.assertEqual(self.top(client), name)
        client.ask("terminate")
        self.assertEqual(client.event("terminated"), {})

    def test_files_as_they_were_while_it_executes(self) -> None:
        self.workflow("- run: echo 1 >a\n- run: echo 2 >a\n- run: 'false'")
        client = self.started()
        self.stop(client)
        self.assertEqual(self.say(client, "files"), "nothing was changed")
        for _ in range(2):  # (to the beginning of the step, and to that of the one before)
            client.ask("stepBack", threadId=1)
            self.stop(client)
        self.assertEqual(self.top(client), "step 1 (echo 2 >a): running")
        self.assertEqual(self.say(client, "cat a"), "1")
        self.assertEqual(self.say(client, "files"), "step 0 (echo 1 >a) of leg 0 (one)\n  A a")
        self.say(client, "shell")
        words = client.request()["arguments"]["args"]
        self.assertEqual(words[-4:], ["--shell", str(self.work() / "private" / "record.part"), "7", "0"])

    def test_pause_stops_before_the_next_step(self) -> None:
        self.workflow(WAITS + "- name: b\n  run: echo two")
        client = self.started()
        tree, until = self.work() / "play/tree/project", time.monotonic() + PATIENCE
        while not (tree / "started").exists() and time.monotonic() < until:
            time.sleep(0.05)
        self.assertEqual(client.event("thread"), {"reason": "started", "threadId": 1})
        client.ask("pause", threadId=1)
        (tree / "go").write_text("")
        self.assertEqual(self.stop(client), ("step", "before one: b"))
        client.ask("continue", threadId=1)
        self.assertEqual(self.end(client)[0], 0)

    def test_pause_ends_what_is_run_at_a_break(self) -> None:
        self.workflow("- name: a\n  run: |\n    echo started\n    sleep 600")
        client = self.started({"line": 6})
        self.stop(client)
        client.send("evaluate", {"expression": "run", "context": "repl"})
        while "started" not in client.event("output")["output"]:
            pass
        self.assertIn("the step is being executed: pause ends it",
                      client.refused("continue", {"threadId": 1}))
        client.ask("pause", threadId=1)
        self.assertTrue(client.response()["success"])
        self.stop(client)
        self.assertRegex(self.top(client), "waits after (exit|signal)")
        self.say(client, "fail")
        self.stop(client)
        self.assertEqual(self.answers(), [1])

    def test_filters_of_what_no_leg_waits_for(self) -> None:
        self.workflow(SKIPS)
        client = self.launched()
        client.ask("setExceptionBreakpoints", filters=["skipped"])
        client.ask("configurationDone")
        reason, words = self.stop(client)
        self.assertEqual((reason, words), ("exception", "step 0 (first) of leg 0 (one): skipped"))
        client.ask("continue", threadId=1)
        self.assertEqual(self.end(client)[0], 0)

    def test_restart_begins_again_with_the_same_breakpoints(self) -> None:
        self.workflow(STEPS)
        client = self.started({"line": MAKE})
        self.assertEqual(self.stop(client), ("breakpoint", "before one: make the file"))
        client.ask("restart")
        self.assertEqual(self.stop(client), ("breakpoint", "before one: make the file"))
        client.ask("disconnect")
        self.assertEqual(client.status(), 0)
        self.assertEqual(len(list((self.home / ".cache/actrun/work").iterdir())), 2)

    def test_what_a_strategy_needs_is_executed_first(self) -> None:
        head = WORKFLOW + ("      - id: pick\n        run: echo 'list=[\"x\", \"y\"]' >>$GITHUB_OUTPUT\n"
                           "    outputs:\n"
                           "      list: ${{ steps.pick.outputs.list }}\n  two:\n    needs: one\n"
                           "    runs-on: ubuntu-latest\n    strategy:\n      matrix:\n"
                           "        leg: ${{ fromJSON(needs.one.outputs.list) }}\n    steps:\n")
        self.workflow("- name: a\n  run: echo of ${{ matrix.leg }}", head=head)
        client = self.started({"line": 17, "condition": "matrix.leg == 'y'"})
        self.assertEqual(self.stop(client), ("breakpoint", "before two (y): a"))
        client.ask("continue", threadId=1)
        self.assertEqual(self.end(client)[0], 0)

    def test_terminate_ends_the_steps(self) -> None:
        self.workflow("- name: a\n  run: sleep 600\n- name: b\n  if: always()\n  run: echo cleans up")
        client = self.started({"line": 6})
        self.stop(client)
        client.ask("terminate")
        status, shown = self.end(client)
        self.assertEqual(status, 130)
        self.assertIn("cleans up", shown)

    def test_disconnect_and_a_client_that_is_gone_end_the_execution(self) -> None:
        self.workflow("- name: a\n  run: sleep 600")
        for entry, gone in ((False, False), (True, False), (False, True)):
            client = self.started({"line": 6}, stopOnEntry=entry)
            self.stop(client)
            [child] = [number for number in client.children()
                       if b"try" in Path(f"/proc/{number}/cmdline").read_bytes()]
            if gone:
                client.process.send_signal(signal.SIGKILL)
            else:
                client.ask("disconnect")
                self.assertEqual(client.status(), 0)
            until = time.monotonic() + PATIENCE
            while self.is_there(child) and time.monotonic() < until:
                time.sleep(0.05)
            self.assertFalse(self.is_there(child))

    def is_there(self, number: int) -> bool:
        """Whether a process executes."""
        try:
            return Path(f"/proc/{number}/stat").read_text().rpartition(")")[2].split()[0] != "Z"
        except OSError:
            return False

    def test_what_cannot_be_launched_is_refused_with_a_reason(self) -> None:
        client = self.client()
        client.ask("initialize")
        self.workflow("- run: echo fine")
        for given, words in [({"program": "/nowhere"}, "/nowhere: there is no such folder"),
                             ({"program": 3}, "`program` has to be a text"),
                             ({"record": "x"}, "`live` executes a repository: leave `record` out"),
                             ({"options": ["--bad"]}, "unrecognized arguments: --bad"),
                             ({"options": "x"}, "`options` has to be a list"),
                             ({"options": ["--no-sandbox"]},
                              "an execution in an editor: a break needs the sandbox"),
                             ({"job": "two"}, "two")]:
            self.assertIn(words,
                          client.refused("launch", {"live": True, "program": str(self.project), **given}),
                          given)
        self.workflow("- run: echo ${{ nothing.a }}")
        self.assertIn("no workflow can be read",
                      client.refused("launch", {"live": True, "program": str(self.project)}))
        self.workflow("- run: echo fine")
        client.ask("launch", live=True, program=str(self.project), options=list(self.workspace))
        client.event("initialized")
        client.ask("configurationDone")
        self.assertEqual(self.end(client)[0], 0)

    def test_secrets_are_masked(self) -> None:
        self.workflow("- name: a\n  env:\n    TOKEN: ${{ secrets.TOKEN }}\n  run: |\n"
                      "    echo of $TOKEN\n    exit 3")
        client = self.launched("-s", "TOKEN=topsecret")
        client.ask("configurationDone")
        self.stop(client)
        frame = client.ask("stackTrace", threadId=1)["stackFrames"][0]["id"]
        self.assertEqual(self.say(client, "print TOKEN"), "***")
        self.assertEqual(self.say(client, "$TOKEN", "hover", frameId=frame), "***")
        self.say(client, "run")
        for scope in client.ask("scopes",
                                frameId=client.ask("stackTrace",
                                                   threadId=1)["stackFrames"][0]["id"])["scopes"]:
            client.ask("variables", variablesReference=scope["variablesReference"])
        client.ask("continue", threadId=1)
        self.stop(client)
        self.assertIn(b"of ***", client.all)
        self.assertNotIn(b"topsecret", client.all)


class Kept(ExecutionCase):
    """The record of an execution whose workflow is changed afterwards."""

    def test_frames_are_in_the_text_that_was_executed(self) -> None:
        self.workflow(STEPS.replace("$TONE", "${{ steps.first.outputs.vaule }}"))
        self.attempt()
        before = Path(self.yaml).read_text(encoding="utf-8")
        for text, changed in ((before, False), (f"# a line\n{before}", True)):
            Path(self.yaml).write_text(text, encoding="utf-8")
            client = self.client()
            client.ask("initialize")
            client.ask("launch", record="--last", cwd=str(self.project), workflows=[self.yaml])
            self.assertEqual(f"{self.yaml} has changed; what was executed is" in client.outputs_until("initialized"), changed)
            [bound] = client.ask("setBreakpoints", source={"path": self.yaml},
                                 breakpoints=[{"line": FIRST}])["breakpoints"]
            self.assertEqual((bound["verified"], "this file has changed" in bound.get("message", "")),
                             (not changed, changed))
            client.ask("configurationDone")
            if not changed:
                self.assertEqual(self.stop(client)[0], "breakpoint")
                client.ask("continue", threadId=1)
            self.assertEqual(self.stop(client)[0], "exception")
            frame = client.ask("stackTrace", threadId=1)["stackFrames"][0]
            executed = Path(frame["source"]["path"])
            self.assertEqual((str(executed) == self.yaml, frame["line"]), (not changed, MAKE))
            self.assertEqual(executed.read_text(encoding="utf-8"), before)
            self.assertIn("value", self.say(client, "explain", frameId=frame["id"]))
            self.assertIn("COLOUR", self.say(client, "values", frameId=frame["id"]))
            self.assertIn("the record has no",
                          client.refused("evaluate", {"expression": "values step 9 9", "context": "repl"}))


class Attach(ExecutionCase):
    """A `try` that somebody started."""

    def running(self, *words: str) -> subprocess.Popen[bytes]:
        """A `try` without a terminal, whose first step waits for a file."""
        self.workflow(WAITS + "- name: b\n  run: echo two\n- name: c\n  run: echo three")
        child = subprocess.Popen(self.command(*words), cwd=self.project, env=self.environment,
                                 stdin=subprocess.DEVNULL,
                                 stdout=subprocess.PIPE, stderr=subprocess.STDOUT)
        self.addCleanup(child.stdout.close)  # type: ignore[union-attr]
        self.addCleanup(child.wait)
        self.addCleanup(child.kill)
        self.tree = self.home / ".cache/actrun/work"
        until = time.monotonic() + PATIENCE
        while not list(self.tree.glob("*/play/tree/project/started")) and time.monotonic() < until:
            time.sleep(0.05)
        return child

    def attached(self) -> Client:
        """A client that attached, with a breakpoint at the last step."""
        client = self.client()
        client.ask("initialize")
        client.ask("attach", folder=str(self.work()))
        client.event("initialized")
        client.ask("setFunctionBreakpoints", breakpoints=[{"name": "c"}])
        client.ask("configurationDone")
        return client

    def test_a_client_stops_a_leg_and_lets_it_go_on(self) -> None:
        child = self.running()
        socket = self.work() / "private/control"
        self.assertEqual((stat.S_IMODE(socket.stat().st_mode), stat.S_IMODE(socket.parent.stat().st_mode)),
                         (0o600, 0o700))
        client = self.attached()
        (self.work() / "play/tree/project/go").write_text("")
        shown = client.outputs_until("stopped")
        self.assertIn("--- step 0 (a) of leg 0 (one)\nwent\n", shown)
        self.assertEqual(self.top(client), "step 2 (c): waits to begin")
        client.ask("continue", threadId=1)
        self.assertEqual(client.event("terminated"), {})
        self.assertEqual(child.wait(PATIENCE), 0)
        self.assertFalse(socket.exists())

    def test_what_is_no_request_is_refused(self) -> None:
        child = self.running()
        link = connected(self.work())
        lines = link.makefile("rb")
        self.addCleanup(link.close)
        self.addCleanup(lines.close)
        for data, said in [(b"{\n", "this is no request"), (b"[1]\n", "no leg waits at a break"),
                           (b"\xff\n", "this is no request"),
                           (b'{"do":"breaks","places":[1],"seq":7}\n', "this is no request"),
                           (b'{"do":"stop"}\n', "this is no request"),
                           (b'{"do":"places","name":"x"}\n', "no step, id or job has this name"),
                           (b'{"do":"continue"}\n', "no leg waits at a break"),
                           (b'{"do":"__init__"}\n', "no leg waits at a break")]:
            link.sendall(data)
            answer = json.loads(lines.readline())
            self.assertFalse(answer["ok"])
            self.assertIn(said, answer["error"], data)
        link.sendall(b'{"do":"state"}\n')
        self.assertEqual(json.loads(lines.readline()), {"seq": None, "ok": True, "waiting": {}})
        other = connected(self.work())
        self.addCleanup(other.close)
        with contextlib.suppress(OSError):
            other.sendall(b"x" * (MOST_LINE + (1 << 17)))
        with contextlib.suppress(ConnectionResetError):
            self.assertEqual(other.recv(1), b"")
        (self.work() / "play/tree/project/go").write_text("")
        self.assertEqual(child.wait(PATIENCE), 0)

    def test_the_prompt_of_a_terminal_and_a_client_let_the_same_leg_go_on(self) -> None:
        self.workflow("- name: a\n  run: echo one\n- name: b\n  run: echo two")
        person = Person(self.command("--break", "a", "--break", "b"), self.project, self.environment)
        self.addCleanup(person.close)
        person.until(r"\(break\) $")
        client = self.client()
        client.ask("initialize")
        client.ask("attach", folder=str(self.work()))
        client.event("initialized")
        client.ask("configurationDone")
        self.assertEqual(self.stop(client), ("breakpoint", "before one: a"))
        self.assertIn("echo one", self.say(client, "script"))
        person.until("script  \\(by an editor\\)\necho one\n")
        client.ask("continue", threadId=1)
        self.assertEqual(self.stop(client), ("breakpoint", "before one: b"))
        person.at("continue")
        self.assertEqual(client.event("terminated"), {})
        self.assertEqual(person.end(), 0)

    def test_a_client_goes_back_from_the_end_of_what_failed(self) -> None:
        child = self.running()
        client = self.attached()
        (self.work() / "play/tree/project/go").write_text("")
        self.assertEqual(self.stop(client)[0], "breakpoint")
        self.say(client, "fail")
        self.assertEqual(self.stop(client)[0], "pause")
        self.assertEqual(child.wait(PATIENCE), 1)
        client.ask("stepBack", threadId=1)
        self.stop(client)
        self.assertEqual(self.top(client), "step 2 (c): running")
        for reason in ("exception", "pause"):
            client.ask("continue", threadId=1)
            self.assertEqual(self.stop(client)[0], reason)
        client.ask("continue", threadId=1)
        self.assertEqual(self.end(client)[0], 1)

    def test_a_client_that_leaves_takes_its_breaks_along(self) -> None:
        child = self.running()
        client = self.attached()
        (self.work() / "play/tree/project/go").write_text("")
        client.event("stopped")
        client.ask("disconnect")
        self.assertEqual(child.wait(PATIENCE), 0)

    def test_a_client_ends_the_execution_if_it_says_so(self) -> None:
        child = self.running()
        client = self.attached()
        client.ask("disconnect", terminateDebuggee=True)
        self.assertEqual(child.wait(PATIENCE), 130)

    def test_a_folder_without_an_execution_is_refused(self) -> None:
        client = self.client()
        client.ask("initialize")
        for given, words in [({}, "`folder` has to be a text"),
                             ({"folder": "/nowhere"}, "/nowhere: no `try` executes here"),
                             ({"folder": str(self.project)}, "no `try` executes here in a sandbox")]:
            self.assertIn(words, client.refused("attach", given))

    def test_the_shell_of_a_terminal_says_what_is_wrong(self) -> None:
        for words, status, said in [(["--shell", "/nowhere"], 2, "standard input is no terminal"),
                                    (["--shell"], 2, "usage: actrun dap")]:
            done = subprocess.run([*COMMAND, *words], env={**self.environment, "PYTHONPATH": str(FRONT)},
                                  capture_output=True, text=True,
                                  stdin=subprocess.DEVNULL, check=False)
            self.assertEqual(done.returncode, status)
            self.assertIn(said, done.stderr)


if __name__ == "__main__":
    sys.exit(unittest.main())
