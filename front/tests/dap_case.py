"""A client of `actrun dap` for tests: it sends requests, keeps the events, and never waits longer than a deadline."""
from __future__ import annotations

import importlib.util
import json
import os
import queue
import subprocess
import sys
import tempfile
import threading
import unittest
from pathlib import Path
from typing import Any

from actrun_front.yaml_reader import read_document

FRONT = Path(__file__).resolve().parent.parent
TOP = FRONT.parent
EXAMPLES = TOP / "examples"
PROGRAM = os.environ.get("ACTRUN_PROGRAM", "")
NEEDS_PROGRAM = unittest.skipUnless(PROGRAM, "the variable ACTRUN_PROGRAM names no built program")
PYTHON = sys.executable if importlib.util.find_spec("ruamel.yaml") else "/usr/bin/python3"
COMMAND = [PYTHON, "-m", "actrun_front.dap"]
DEADLINE = 300.0


def surroundings() -> dict[str, str]:
    """The variables of the server."""
    path = os.pathsep.join(filter(None, [str(FRONT), os.environ.get("PYTHONPATH")]))
    return {**os.environ, "PYTHONPATH": path, "ACTRUN_PROGRAM": PROGRAM}


class Client:
    """One server and the messages that it sent."""

    def __init__(self, given: dict[str, str] | None = None, folder: Path | None = None) -> None:
        self.process = subprocess.Popen(COMMAND, stdin=subprocess.PIPE, stdout=subprocess.PIPE,
                                        stderr=subprocess.PIPE, cwd=folder,
                                        env=surroundings() if given is None else given)
        self.sequence, self.events, self.all = 0, [], b""
        self.requests: list[dict[str, Any]] = []  # of the server
        self.messages: queue.Queue[Any] = queue.Queue()
        self.reader = threading.Thread(target=self.read, daemon=True)
        self.reader.start()

    def read(self) -> None:
        """Hands on each message; None at the end."""
        while True:
            head = b""
            while not head.endswith(b"\r\n\r\n"):
                byte = self.process.stdout.read(1)
                if not byte:
                    self.messages.put(None)
                    return
                head += byte
            body = self.process.stdout.read(int(head.split(b":")[1]))
            self.all += body
            self.messages.put(json.loads(body))

    def send_bytes(self, data: bytes) -> None:
        self.process.stdin.write(data)
        self.process.stdin.flush()

    def send(self, command: Any, arguments: Any) -> None:
        self.sequence += 1
        body = json.dumps({"seq": self.sequence, "type": "request", "command": command, "arguments": arguments}).encode()
        self.send_bytes(b"Content-Length: %d\r\n\r\n" % len(body) + body)

    def next(self) -> Any:
        """The next message that is no request."""
        message = self.messages.get(timeout=DEADLINE)
        while message is not None and message["type"] == "request":
            self.requests.append(message)
            message = self.messages.get(timeout=DEADLINE)
        return message

    def request(self) -> dict[str, Any]:
        """The next request of the server; events before it are kept."""
        while not self.requests:
            message = self.messages.get(timeout=DEADLINE)
            if message is None:
                raise EOFError("the server ended without a request")
            (self.requests if message["type"] == "request" else self.events).append(message)
        return self.requests.pop(0)

    def reply(self, request: dict[str, Any], **more: Any) -> None:
        """Answers a request of the server."""
        self.sequence += 1
        body = json.dumps({"seq": self.sequence, "type": "response", "request_seq": request["seq"],
                           "command": request["command"], "success": True, **more}).encode()
        self.send_bytes(b"Content-Length: %d\r\n\r\n" % len(body) + body)

    def response(self) -> dict:
        """The next response; events before it are kept."""
        while True:
            message = self.next()
            if message is None:
                raise EOFError("the server ended without a response")
            if message["type"] == "response":
                return message
            self.events.append(message)

    def ask(self, command: Any, **arguments: Any) -> dict:
        """The body of a response; a refusal fails the test."""
        self.send(command, arguments)
        answer = self.response()
        if not answer["success"] or answer["request_seq"] != self.sequence or answer["command"] != command:
            raise AssertionError(f"{command} {arguments}: {answer}")
        return answer["body"]

    def refused(self, command: Any, arguments: Any) -> str:
        """The words of an error response."""
        self.send(command, arguments)
        answer = self.response()
        if answer["success"] or answer["body"]["error"]["variables"]["words"] != answer["message"]:
            raise AssertionError(f"{command} was not refused: {answer}")
        return answer["message"]

    def event(self, name: str) -> dict:
        """The body of the next event of that name; others before it are kept."""
        for at, kept in enumerate(self.events):
            if kept["event"] == name:
                del self.events[:at + 1]
                return kept["body"]
        while True:
            message = self.next()
            if message is None:
                raise EOFError(f"the server ended without the event {name}")
            self.events.append(message)
            if message["event"] == name:
                self.events.clear()
                return message["body"]

    def outputs_until(self, name: str) -> str:
        """What is put out before the next event of that name."""
        shown = ""
        while True:
            message = self.events.pop(0) if self.events else self.next()
            if message["event"] == name:
                return shown
            shown += message["body"].get("output", "")

    def children(self) -> list[int]:
        """The processes that the server started."""
        place = Path(f"/proc/{self.process.pid}/task/{self.process.pid}/children")
        return [int(word) for word in place.read_text().split()]

    def status(self) -> int:
        return self.process.wait(timeout=DEADLINE)

    def close(self) -> None:
        self.process.kill()
        self.process.wait()
        self.reader.join(DEADLINE)
        for stream in (self.process.stdin, self.process.stdout, self.process.stderr):
            try:
                stream.close()
            except OSError:
                pass


class DapCase(unittest.TestCase):
    """A test with a folder of its own, and clients that are ended after it."""

    @classmethod
    def setUpClass(cls) -> None:
        cls.room = Path(tempfile.mkdtemp(prefix="actrun-dap-", dir=os.environ.get("ACTRUN_TEST_FOLDER")))
        cls.addClassCleanup(subprocess.run, ["rm", "-rf", str(cls.room)], check=False)

    @classmethod
    def play(cls, name: str, workflow: str, contexts: dict, stubs: dict | None = None) -> Path:
        """The folder of a play of a workflow in YAML: ci.yml, record, and the logs."""
        folder = cls.room / name
        folder.mkdir()
        (folder / "ci.yml").write_text(workflow, encoding="utf-8")
        for file, value in {"ci.json": read_document(workflow.encode()).value, "contexts": contexts, "stubs": stubs or {}}.items():
            (folder / file).write_text(json.dumps(value), encoding="utf-8")
        words = [PROGRAM, "plan", "--event", "push", "--contexts", "contexts", "ci.json"]
        plan = subprocess.run(words, cwd=folder, check=True, capture_output=True)
        (folder / "plan").write_bytes(plan.stdout)
        subprocess.run([PROGRAM, "run", "--stubs", "stubs", "--record", "record", "plan"], cwd=folder, check=False, capture_output=True)
        return folder

    def client(self) -> Client:
        client = Client()
        self.addCleanup(client.close)
        return client

    def launched(self, record: Path, **more: Any) -> Client:
        """A client that launched a record and may set breakpoints."""
        client = self.client()
        client.ask("initialize", adapterID="actrun")
        client.ask("launch", record=str(record), **more)
        client.event("initialized")
        return client

    def at_entry(self, record: Path, **more: Any) -> Client:
        """A client at place 0."""
        client = self.launched(record, stopOnEntry=True, **more)
        client.ask("configurationDone")
        self.assertEqual(client.event("stopped")["reason"], "entry")
        return client

    def moved(self, client: Client, command: str, **arguments: Any) -> tuple[str, str, int]:
        """Reason, description and thread of the stop after a request."""
        client.ask(command, **arguments)
        body = client.event("stopped")
        return body["reason"], body["description"], body["threadId"]

    def top(self, client: Client, thread: int) -> dict:
        """The frame at the top of a thread."""
        return client.ask("stackTrace", threadId=thread)["stackFrames"][0]

    def scope(self, client: Client, frame: int, name: str) -> dict[str, dict]:
        """The variables of a scope of a frame by their names."""
        scopes = {one["name"]: one["variablesReference"] for one in client.ask("scopes", frameId=frame)["scopes"]}
        return self.inside(client, scopes[name])

    def inside(self, client: Client, number: int) -> dict[str, dict]:
        return {one["name"]: one for one in client.ask("variables", variablesReference=number)["variables"]}
