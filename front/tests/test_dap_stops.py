"""Breakpoints of `actrun dap` with conditions, counts, names and logs; completion, restarts, threads, any arguments."""
from __future__ import annotations

import itertools
import json
import subprocess
import time
import unittest
from typing import Any

from actrun_front.dap_shapes import SHAPES
from actrun_front.dap_session import Session

from .dap_case import NEEDS_PROGRAM, PROGRAM, Client, DapCase

MATRIX = """\
name: Matrix
on: push
env:
  WIDE: all
jobs:
  try:
    runs-on: ubuntu-latest
    strategy:
      fail-fast: false
      matrix:
        n: [1, 2, 3, 4]
    env:
      N: ${{ matrix.n }}
    steps:
      - id: set
        name: set it
        run: |
          echo "OWN=own $N" >> "$GITHUB_ENV"
          echo "number=$N" >> "$GITHUB_OUTPUT"
      - name: use it
        run: test "$OWN" != "own 3"
      - run: echo after
  last:
    runs-on: ubuntu-latest
    needs: try
    if: always()
    steps:
      - name: tell
        run: echo ${{ needs.try.result }}
"""
SET, USE, AFTER = 15, 20, 22  # lines of the workflow
KINDS: tuple[Any, ...] = (None, True, -1, 0, 7, 2 ** 60, 1.5, 1e300, "", "x", "\0", "\ud800", [], [1], [None],
                          {}, {"a": 1}, [{}], [{"line": None}], {"path": 3})


@NEEDS_PROGRAM
class Stops(DapCase):
    """Breakpoints of a record."""

    @classmethod
    def setUpClass(cls) -> None:
        super().setUpClass()
        cls.folder = cls.play("matrix", MATRIX, {"github": {"ref_name": "main"}})
        cls.yaml = str(cls.folder / "ci.yml")

    def start(self) -> Client:
        """A client at the beginning, which no exception stops."""
        client = self.at_entry(self.folder / "record", workflows=[self.yaml])
        client.ask("setExceptionBreakpoints", filters=[])
        return client

    def set(self, client: Client, *breakpoints: dict[str, Any]) -> list[dict[str, Any]]:
        """Sets breakpoints of the file."""
        return list(client.ask("setBreakpoints", source={"path": self.yaml},
                               breakpoints=list(breakpoints))["breakpoints"])

    def legs(self, client: Client, command: str = "continue") -> list[int]:
        """The legs at which breakpoints stop, one after the other."""
        found = []
        while True:
            client.ask(command, threadId=1)
            stop = client.event("stopped")
            if stop["reason"] != "breakpoint":
                return found
            found.append(stop["threadId"] - 1)

    def test_conditions_see_the_step(self) -> None:
        client = self.start()
        for condition, legs in [("matrix.n > 2", [2, 3]), ("${{ env.OWN == 'own 2' }}", [1]),
                                ("env.N == '1' || matrix.n == 4", [0, 3]),
                                ("steps.set.outputs.number == 3", [2]), ("github.ref_name", [0, 1, 2, 3]),
                                ("false", []), ("''", [])]:
            self.assertTrue(self.set(client, {"line": USE, "condition": condition})[0]["verified"])
            self.assertEqual(self.legs(client), legs, condition)
            self.assertEqual(self.legs(client, "reverseContinue"), legs[::-1], condition)

    def test_a_condition_that_cannot_be_read_or_has_no_value(self) -> None:
        client = self.start()
        bad = self.set(client, {"line": USE, "condition": "1 +"})[0]
        self.assertFalse(bad["verified"])
        self.assertIn("1 +: expr", bad["message"])
        condition = "fromJSON(env.N == '2' && '{' || '1')"
        self.assertTrue(self.set(client, {"line": USE, "condition": condition})[0]["verified"])
        client.ask("continue", threadId=1)
        shown = client.outputs_until("stopped")
        self.assertNotIn("has no value", shown)
        client.ask("continue", threadId=1)
        self.assertIn("the breakpoint's condition fromJSON(", client.outputs_until("stopped"))

    def test_counts(self) -> None:
        client = self.start()
        for hits, legs in [("2", [1]), ("== 3", [2]), (">= 3", [2, 3]), ("<2", [0]), ("<= 2", [0, 1]),
                           ("> 3", [3]), ("% 2", [1, 3])]:
            self.assertTrue(self.set(client, {"line": USE, "hitCondition": hits})[0]["verified"])
            self.assertEqual(self.legs(client), legs, hits)
            self.assertEqual(self.legs(client, "reverseContinue"), legs[::-1], hits)
        self.set(client, {"line": USE, "hitCondition": "2", "condition": "matrix.n > 1"})
        self.assertEqual(self.legs(client), [2])
        for hits in ("x", "0", "3 4", "=> 3"):
            bad = self.set(client, {"line": USE, "hitCondition": hits})[0]
            self.assertIn(f"{hits} is no count of hits: write 3", bad["message"])

    def test_names(self) -> None:
        client = self.start()
        every = [0, 1, 2, 3]  # (also where a step is skipped, it begins)
        for name, legs in [("use it", every), ("set", every), ("try/echo after", every), ("last", [4]),
                           ("last/tell", [4]), ("try (3)", [2])]:
            body = client.ask("setFunctionBreakpoints", breakpoints=[{"name": name}])
            self.assertTrue(body["breakpoints"][0]["verified"], body)
            self.assertEqual(self.legs(client), legs, name)
            client.ask("goto", threadId=1, targetId=0)
            client.event("stopped")
        body = client.ask("setFunctionBreakpoints",
                          breakpoints=[{"name": "use its"}, {"name": "set", "condition": "matrix.n == 2"}])
        self.assertEqual([one["verified"] for one in body["breakpoints"]], [False, True])
        self.assertIn("did you mean use it?", body["breakpoints"][0]["message"])
        self.assertEqual(self.legs(client), [1])

    def test_logs_stop_nowhere(self) -> None:
        client = self.start()
        self.set(client,
                 {"line": USE,
                  "logMessage": "n is {matrix.n} of {env.OWN}, {format('{0}', 1)} {nothing} {fromJSON('{')}",
                          "condition": "matrix.n != 2"})
        client.ask("continue", threadId=1)
        shown = client.outputs_until("stopped")
        self.assertEqual([line.partition(",")[0] for line in shown.splitlines() if line.startswith("n is")],
                         ["n is 1 of own 1", "n is 3 of own 3", "n is 4 of own 4"])
        self.assertIn("n is 1 of own 1, 1 {nothing: ", shown)

    def test_threads_begin_and_end_with_their_legs(self) -> None:
        client = self.start()
        self.set(client, {"line": SET})
        client.events.clear()
        for _ in range(2):
            client.ask("continue", threadId=1)
            client.event("stopped")
        self.assertEqual([one["name"] for one in client.ask("threads")["threads"]], ["leg 1 (try, n 2)"])
        client.ask("goto", threadId=2, targetId=0)
        told: list[tuple[str, int]] = []
        while True:
            message = client.events.pop(0) if client.events else client.next()
            if message["event"] == "stopped":
                break
            if message["event"] == "thread":
                told.append((message["body"]["reason"], message["body"]["threadId"]))
        self.assertEqual(told, [])  # (a client always has the thread that it looks at)

    def test_stepping_back_from_a_failed_step_goes_to_its_beginning(self) -> None:
        client = self.launched(self.folder / "record", workflows=[self.yaml])
        client.ask("configurationDone")
        stop = client.event("stopped")
        self.assertEqual((stop["reason"], stop["threadId"]), ("exception", 3))
        self.assertEqual(self.top(client, 3)["name"], "step 1 (use it): failure")
        self.moved(client, "stepBack", threadId=3)
        self.assertEqual((self.top(client, 3)["name"], self.top(client, 3)["line"]),
                         ("step 1 (use it): running", USE))
        self.moved(client, "stepBack", threadId=3)
        self.assertEqual(self.top(client, 3)["name"], "step 0 (set it): running")

    def test_a_shell_variable_under_the_mouse_has_its_value(self) -> None:
        client = self.start()
        self.set(client, {"line": USE, "condition": "matrix.n == 3"})
        client.ask("continue", threadId=1)
        frame = self.top(client, client.event("stopped")["threadId"])["id"]
        for word, value in [("$OWN", "own 3"), ("${OWN}", "own 3"), ("OWN", "own 3"), ("$N", "3"),
                            ("${WIDE}", "all"), ("${OWN:-x}", None)]:
            given = {"expression": word, "frameId": frame, "context": "hover"}
            if value:
                self.assertEqual(client.ask("evaluate", **given)["result"], value, word)
        self.assertIn("OWNS is set by no `env` and no step before; did you mean OWN?",
                      client.refused("evaluate",
                                     {"expression": "$OWNS", "frameId": frame, "context": "hover"}))

    def test_completions(self) -> None:
        client = self.start()
        self.set(client, {"line": USE, "condition": "matrix.n == 3"})
        client.ask("continue", threadId=1)
        frame = self.top(client, client.event("stopped")["threadId"])["id"]

        def labels(text: str) -> list[str]:
            body = client.ask("completions", frameId=frame, text=text, column=len(text) + 1)
            return [one["label"] for one in body["targets"]]
        self.assertEqual(labels("steps."), ["set"])
        self.assertEqual(labels("1 == steps.set.outputs.nu"), ["number"])
        self.assertEqual(labels("matrix.N"), ["n"])
        self.assertEqual(labels("test $O"), ["$OWN"])
        self.assertEqual(labels("why l"), ["leg"])
        self.assertEqual(labels("g"), ["goto", "github"])
        self.assertEqual(labels("steps.nothing."), [])
        one = client.ask("completions", frameId=frame, text="steps.se", column=9)["targets"][0]
        self.assertEqual((one["start"], one["length"]), (7, 2))

    def test_sources_restart_and_a_frame_again(self) -> None:
        client = self.start()
        self.assertEqual(client.ask("loadedSources")["sources"], [{"name": "ci.yml", "path": self.yaml}])
        self.set(client, {"line": AFTER, "condition": "matrix.n == 2"})
        client.ask("continue", threadId=1)
        thread = client.event("stopped")["threadId"]
        stack = client.ask("stackTrace", threadId=thread)["stackFrames"]
        self.assertEqual(self.moved(client, "restartFrame", frameId=stack[1]["id"])[0], "restart")
        self.assertEqual(self.top(client, thread)["name"], "step 0 (set it): running")
        self.assertIn("there is no frame", client.refused("restartFrame", {"frameId": stack[1]["id"]}))
        self.assertEqual(self.moved(client, "restart")[:2], ("entry", f"place 0 of {self.last()}"))

    def last(self) -> int:
        """The last place of the record."""
        return len((self.folder / "record").read_bytes().splitlines()) - 1

    def test_arguments_of_any_kind_are_answered(self) -> None:
        client = self.start()
        frame = self.top(client, 1)["id"]
        for command, shape in SHAPES.items():
            if command in ("initialize", "disconnect"):
                continue
            good = {"threadId": 1, "frameId": frame, "expression": "1", "source": {"path": self.yaml},
                    "line": 1, "column": 1,
                    "breakpoints": [], "targetId": 1, "text": "a"}
            for name, value in itertools.product((key.rstrip("!") for key in shape), KINDS):
                client.send(command,
                            {**{key: one for key, one in good.items() if key in shape or key + "!" in shape},
                             name: value})
                answer = client.response()
                self.assertNotRegex(answer.get("message", ""), "unforeseen|Error|Traceback",
                                    (command, name, value))
        names = [name[3:] for name in dir(Session) if name.startswith("on_")]
        for command, value in itertools.product(names, KINDS):
            if command not in ("disconnect", "terminate"):
                client.send(command, value)
                self.assertNotRegex(client.response().get("message", ""), "unforeseen|Error|Traceback",
                                    (command, value))

    def test_launches_of_any_kind_are_answered(self) -> None:
        client = self.client()
        client.ask("initialize")
        for name, value in itertools.product(SHAPES["launch"], KINDS):
            for base in ({"live": True, "program": "/nowhere"}, {"record": "/nowhere"}):
                message = client.refused("launch",
                                         {**base, name: value} if name != "program"
                                         else {**base, "options": value})
                self.assertNotRegex(message, "unforeseen|Error|Traceback", (base, name, value))
        for value in KINDS:
            self.assertNotRegex(client.refused("attach", {"folder": value}), "unforeseen|Error|Traceback",
                                value)

    def test_5000_entries_are_launched_in_a_second_or_a_little_more_than_the_program_takes(self) -> None:
        big = {"name": "big", "on": "push",
               "jobs": {"a": {"strategy": {"matrix": {"n": list(range(100))}}, "steps": [{"run": ":"}] * 24}}}
        folder = self.room / "big"
        folder.mkdir()
        (folder / "ci.json").write_text(json.dumps(big), encoding="utf-8")
        plan = subprocess.run([PROGRAM, "plan", "--event", "push", "ci.json"], cwd=folder, check=True,
                              capture_output=True).stdout
        entries = self.entries(24, 100)
        record = folder / "record"
        record.write_bytes(plan.rstrip(b"\n") + b"\n" + b"".join(json.dumps(one).encode() + b"\n"
                                                                 for one in entries))
        began = time.monotonic()
        for words in (["why", "record"], ["debug", "record"]):
            subprocess.run([PROGRAM, *words], cwd=folder, check=True, capture_output=True,
                           stdin=subprocess.DEVNULL)
        alone = time.monotonic() - began
        client = self.client()
        client.ask("initialize")
        began = time.monotonic()
        client.ask("launch", record=str(record))
        self.assertLess(time.monotonic() - began, max(1.0, 3 * alone))

    def entries(self, steps: int, legs: int) -> list[dict[str, Any]]:
        """The entries of a run of one job whose legs all succeed."""
        answer = {"kind": "exit", "code": 0, "outputs": {}}
        found: list[dict[str, Any]] = [{"event": "open", "run": 0}, {"event": "judge", "job": 0}]
        found += [{"event": "ask", "leg": leg} for leg in range(legs)]
        for leg in range(legs):
            each = [{"event": "begin", "leg": leg}, {"event": "end", "leg": leg, "answer": answer}]
            found += [{"event": "take", "leg": leg}, *each * steps, {"event": "finish", "leg": leg}]
        return [{**one, "worker": 0} for one in (*found, {"event": "close", "run": 0})]


if __name__ == "__main__":
    unittest.main()
