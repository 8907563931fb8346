"""Tests of `actrun dap` by a client: every request, in good and in bad order, on the example records and on records of `run`."""
from __future__ import annotations

import json
import os
import signal
import subprocess
import time
import unittest
from pathlib import Path

from actrun_front.dap_session import FILTERS
from actrun_front.dap_record import Record, Walker

from .dap_case import COMMAND, DEADLINE, EXAMPLES, NEEDS_PROGRAM, PROGRAM, Client, DapCase, surroundings

FIRST = (EXAMPLES / "first/ci.yml").read_text(encoding="utf-8")
CONTEXTS = json.loads((EXAMPLES / "first/contexts.json").read_text(encoding="utf-8"))
STUBS = json.loads((EXAMPLES / "first/stubs.json").read_text(encoding="utf-8"))
RELEASE = """\
name: Release
on: push
env:
  CHANNEL: stable
  TOKEN: Bearer ${{ secrets.TOKEN }}
jobs:
  publish:
    runs-on: ubuntu-latest
    env:
      VERSION: 1.4.${{ github.run_number }}
      BROKEN: ${{ fromJSON('{') }}
    steps:
      - name: good
        run: echo fine
  channel:
    runs-on: ubuntu-latest
    env:
      VERSION: 1.4.${{ github.run_number }}
    steps:
      - id: choose
        name: choose the channel
        # the branch decides
        run: |

          echo "CHANNEL=nightly" >> "$GITHUB_ENV"
          echo "channel=nightly" >> "$GITHUB_OUTPUT"
          echo "::add-mask::hidden-word"

      - run: echo "hidden-word of $TOKEN"
        continue-on-error: true
      # a comment of its own
      - name: publish
        env:
          CHANNEL: ${{ env.CHANNEL }}-1
        run: test "$CHANNEL" = stable
      - name: announce
        run: echo "published"
"""
HOSTILE = """\
on: push
jobs:
  a:
    name: "x) ended cancelled at line 3: ("
    runs-on: ubuntu-latest
    strategy:
      matrix:
        v: ["<b>", "t\\nx", [1, "b"]]
    steps:
      - run: exit 1
"""


@NEEDS_PROGRAM
class Orders(DapCase):
    """Requests that are out of order, unknown, or of the wrong shape."""

    def test_capabilities_are_those_that_are_served(self) -> None:
        body = self.client().ask("initialize", adapterID="actrun")
        self.assertEqual([one["filter"] for one in body["exceptionBreakpointFilters"]], ["failed", "skipped", "cancelled", "displaced"])
        self.assertEqual([one["default"] for one in body["exceptionBreakpointFilters"]], [True, False, False, False])
        for name in ("StepBack", "EvaluateForHovers", "GotoTargetsRequest", "ConfigurationDoneRequest", "TerminateRequest"):
            self.assertIs(body["supports" + name], True)
        for name in ("ConditionalBreakpoints", "HitConditionalBreakpoints", "FunctionBreakpoints",
                     "LogPoints", "CompletionsRequest",
                     "LoadedSourcesRequest", "RestartRequest", "RestartFrame"):
            self.assertIs(body["supports" + name], True)

    def test_each_early_request_is_refused_and_the_session_goes_on(self) -> None:
        client = self.client()
        self.assertEqual(client.refused("launch", {"record": "x"}), "send initialize first")
        client.ask("initialize")
        self.assertEqual(client.refused("initialize", {}), "initialize was sent before")
        for command in ("setBreakpoints", "setExceptionBreakpoints", "configurationDone", "threads", "stackTrace", "scopes", "variables",
                        "next", "stepBack", "stepIn", "stepOut", "continue", "reverseContinue", "pause", "gotoTargets", "goto", "evaluate",
                        "exceptionInfo", "dataBreakpointInfo", "setDataBreakpoints"):
            self.assertEqual(client.refused(command, {}), "send launch with a `record` first", command)
        client.ask("launch", record=str(EXAMPLES / "p1.record"))
        client.event("initialized")
        self.assertEqual(client.refused("launch", {"record": str(EXAMPLES / "p1.record")}), "a record was launched before")
        for command in ("stackTrace", "next", "stepBack", "continue", "evaluate", "goto", "pause"):
            self.assertEqual(client.refused(command, {"threadId": 1}), "send configurationDone first", command)
        self.assertEqual(client.ask("threads")["threads"], [{"id": 1, "name": "leg 0 (a)"}])
        client.ask("configurationDone")
        self.assertEqual(client.refused("configurationDone", {}), "configurationDone was sent before")

    def test_unknown_requests_and_wrong_arguments_are_refused(self) -> None:
        client = self.at_entry(EXAMPLES / "p1.record")
        for command in ("x", "", "__init__", "_launch", None, 7, ["next"]):
            self.assertIn("does not know the request", client.refused(command, {}))
        for command, given, words in [
                ("next", [], "the arguments have to be an object"), ("next", {}, "there is no thread None"),
                ("next", {"threadId": 2}, "there is no thread 2: the threads 1 to 1 are the legs"),
                ("stackTrace", {"threadId": 0}, "there is no thread 0"), ("stepIn", {"threadId": "1"}, "stepIn: `threadId` has to be a whole number"),
                ("scopes", {"frameId": 77}, "there is no frame 77"), ("variables", {}, "there is no variables None"),
                ("goto", {"targetId": 99}, "there is no place 99: the record has the places 0 to 8"),
                ("goto", {"targetId": -1}, "there is no place -1"), ("evaluate", {}, "`expression` has to be a text"),
                ("evaluate", {"expression": "place", "frameId": 5}, "there is no frame 5"),
                ("setBreakpoints", {}, "`path` has to be a text"), ("setBreakpoints", {"source": 3}, "setBreakpoints: `source` has to be an object"),
                ("setBreakpoints", {"source": {"path": "/x"}, "breakpoints": [{"line": "4"}]},
                 "setBreakpoints: `breakpoints[0].line` has to be a whole number"),
                ("setExceptionBreakpoints", {"filterOptions": [1]}, "setExceptionBreakpoints: `filterOptions[0]` has to be an object"),
                ("variables", {"variablesReference": {}}, "variables: `variablesReference` has to be a whole number"),
                ("exceptionInfo", {"threadId": 1}, "the record is at no exception")]:
            self.assertIn(words, client.refused(command, given), (command, given))
        self.assertEqual(self.moved(client, "stepIn", threadId=1), ("step", "place 1 of 8", 1))

    def test_launch_names_what_is_wrong(self) -> None:
        client = self.client()
        client.ask("initialize")
        os.mkfifo(self.room / "pipe")
        for given, words in [
                ({}, "`record` has to be a text"), ({"record": ""}, "`record` has to be a text"),
                ({"record": 3}, "`record` has to be a text"),
                ({"record": "/nowhere/record"}, "/nowhere/record: there is no such file"),
                ({"record": str(self.room / "pipe")}, "there is no such file"), ({"record": "a\0b"}, "`record` has to be a text"),
                ({"record": str(EXAMPLES / "refused.record")}, "line 2 WrongState: "),
                ({"record": str(EXAMPLES / "cut.record")}, "cut.record > RECORD"),
                ({"record": str(EXAMPLES / "ci.json")}, "ci.json: its first line is not JSON"),
                ({"record": str(EXAMPLES / "p1.record"), "workflows": "ci.yml"}, "`workflows` has to be a list"),
                ({"record": str(EXAMPLES / "p1.record"), "workflows": ["/nowhere/ci.yml"]}, "/nowhere/ci.yml: No such file"),
                ({"record": str(EXAMPLES / "p1.record"), "logs": "/nowhere"}, "/nowhere: there is no such folder")]:
            self.assertIn(words, client.refused("launch", given), given)
            self.assertEqual(client.children(), [])
        client.ask("launch", record="p1.record", cwd=str(EXAMPLES))

    def test_a_faulty_workflow_is_told_and_the_record_walked_without_lines(self) -> None:
        faulty = self.room / "faulty.yml"
        faulty.write_text("jobs:\n  a: *b\n", encoding="utf-8")
        client = self.client()
        client.ask("initialize")
        client.ask("launch", record=str(EXAMPLES / "p1.record"), workflows=[str(faulty)], stopOnEntry=True)
        self.assertIn("faulty.yml:2: the alias *b has no anchor &b before it; the lines of this file are not known",
                      client.outputs_until("initialized"))
        client.ask("configurationDone")
        client.event("stopped")
        self.assertNotIn("source", self.top(client, 1))


@NEEDS_PROGRAM
class Story(DapCase):
    """The first example: a job with two legs; one fails."""

    @classmethod
    def setUpClass(cls) -> None:
        super().setUpClass()
        cls.folder = cls.play("first", FIRST, CONTEXTS, STUBS)
        cls.yaml = str(cls.folder / "ci.yml")

    def start(self, **more: object) -> Client:
        return self.at_entry(self.folder / "record", workflows=[self.yaml], **more)

    def test_launch_stops_where_a_step_failed(self) -> None:
        client = self.launched(self.folder / "record", workflows=[str(self.folder)], logs=str(self.folder))
        client.ask("configurationDone")
        shown = client.outputs_until("stopped")
        self.assertIn("--- step 1 (browser tests) of leg 2 (test, suite browser)\nerror: no browser is installed\n", shown)
        self.assertIn("failed at place 22 of 31: step 1 (browser tests) of leg 2 (test, suite browser): failure\n", shown)
        self.assertEqual([one["name"] for one in client.ask("threads")["threads"]],
                         ["leg 2 (test, suite browser)"])
        stack = client.ask("stackTrace", threadId=3)
        self.assertEqual([(one["name"], one["line"], one["source"]["path"]) for one in stack["stackFrames"]], [
            ("step 1 (browser tests): failure", 21, self.yaml),
            ("job 1 (test): open; leg 2: running 0 idle", 12, self.yaml), ("run 0 (CI): going", 1, self.yaml)])
        self.assertEqual(client.ask("exceptionInfo", threadId=3), {
            "exceptionId": "failed", "description": "step 1 (browser tests) failed at line 23: the program ended with 1",
            "breakMode": "always"})

    def test_lines_of_breakpoints(self) -> None:
        client = self.start()
        lines = {1: 4, 4: 4, 5: 9, 9: 9, 10: 10, 11: 10, 12: 12, 13: 20, 20: 20, 21: 21, 22: 21, 24: 21, 25: 21, 26: 26, 27: 30,
                 31: 31, 36: 36}
        body = client.ask("setBreakpoints", source={"path": self.yaml}, breakpoints=[{"line": line} for line in lines])
        self.assertEqual([one["line"] for one in body["breakpoints"]], list(lines.values()))
        self.assertTrue(all(one["verified"] for one in body["breakpoints"]))
        self.assertEqual(len({one["id"] for one in body["breakpoints"]}), len(lines))
        body = client.ask("setBreakpoints", source={"path": self.yaml}, lines=[99])
        self.assertEqual(body["breakpoints"], [{"verified": False, "message": "there is no job or step in this line, or after it"}])
        body = client.ask("setBreakpoints", source={"path": "/other.yml"}, breakpoints=[{"line": 1}])
        self.assertEqual(body["breakpoints"], [{"verified": False, "message": "this file is not one of the `workflows` of launch"}])

    def test_breakpoints_hold_forwards_and_backwards(self) -> None:
        client = self.start()
        client.ask("setExceptionBreakpoints", filters=[])
        body = client.ask("setBreakpoints", source={"path": self.yaml}, breakpoints=[{"line": 21}, {"line": 26}])["breakpoints"]
        ids = [one["id"] for one in body]
        # Step 1 of leg 1 begins at place 16, that of leg 2 at 21; job 2 (line 26) is judged at 24.
        for place, thread, hit in [(16, 2, ids[0]), (21, 3, ids[0]), (24, 4, ids[1])]:
            client.ask("continue", threadId=1)
            stop = client.event("stopped")
            self.assertEqual((stop["reason"], stop["description"], stop["threadId"], stop["hitBreakpointIds"]),
                             ("breakpoint", f"place {place} of 31", thread, [hit]))
        self.assertEqual(self.moved(client, "continue", threadId=1), ("pause", "place 31 of 31", 4))
        for place in (24, 21, 16):
            self.assertEqual(self.moved(client, "reverseContinue", threadId=1)[:2], ("breakpoint", f"place {place} of 31"))
        self.assertEqual(self.moved(client, "reverseContinue", threadId=1)[:2], ("entry", "place 0 of 31"))
        client.ask("setBreakpoints", source={"path": self.yaml}, breakpoints=[])
        self.assertEqual(self.moved(client, "continue", threadId=1)[:2], ("pause", "place 31 of 31"))

    def test_steps_of_one_leg(self) -> None:
        client = self.start()
        # Leg 2: its steps begin at 19 and 21, it ends at 23; leg 3 never begins.
        self.assertEqual([self.moved(client, "next", threadId=3)[1] for _ in range(4)],
                         [f"place {place} of 31" for place in (19, 21, 23, 31)])
        self.assertEqual([self.moved(client, "stepBack", threadId=3)[1] for _ in range(4)],
                         [f"place {place} of 31" for place in (21, 19, 18, 0)])
        self.assertEqual(self.moved(client, "next", threadId=4), ("step", "place 31 of 31", 4))
        self.assertEqual(self.moved(client, "stepBack", threadId=4), ("step", "place 0 of 31", 4))
        self.assertEqual(self.moved(client, "stepOut", threadId=2), ("step", "place 17 of 31", 2))
        self.assertEqual(self.moved(client, "stepOut", threadId=2), ("step", "place 31 of 31", 2))

    def test_one_entry_at_a_time(self) -> None:
        client = self.start()
        self.assertEqual(self.moved(client, "stepBack", threadId=1, granularity="instruction"), ("step", "place 0 of 31", 1))
        self.assertEqual(self.moved(client, "stepIn", threadId=1), ("step", "place 1 of 31", 1))
        self.assertEqual(self.moved(client, "next", threadId=1, granularity="instruction"), ("step", "place 2 of 31", 1))
        self.assertEqual(self.moved(client, "goto", threadId=1, targetId=31), ("goto", "place 31 of 31", 1))
        self.assertEqual(self.moved(client, "stepIn", threadId=1), ("step", "place 31 of 31", 1))
        self.assertEqual(self.moved(client, "stepBack", threadId=1, granularity="instruction"), ("step", "place 30 of 31", 5))
        self.assertEqual(self.moved(client, "pause", threadId=2), ("pause", "place 30 of 31", 2))

    def test_goto_targets_are_places_of_the_line(self) -> None:
        client = self.start()
        targets = client.ask("gotoTargets", source={"path": self.yaml}, line=24)["targets"]
        self.assertEqual([(one["id"], one["label"]) for one in targets], [
            (16, "place 16: begin of step 1 (browser tests) of leg 1 (test, suite unit)"),
            (21, "place 21: begin of step 1 (browser tests) of leg 2 (test, suite browser)"),
            (22, "place 22: end of step 1 (browser tests) of leg 2 (test, suite browser)")])
        self.assertEqual([one["id"] for one in client.ask("gotoTargets", source={"path": self.yaml}, line=26)["targets"]], [24])
        self.assertEqual(client.ask("gotoTargets", source={"path": self.yaml}, line=30)["targets"], [])
        self.assertEqual(client.ask("gotoTargets", source={"path": "/other.yml"}, line=1)["targets"], [])
        self.assertEqual(self.moved(client, "goto", threadId=1, targetId=21), ("goto", "place 21 of 31", 3))
        self.assertEqual(self.top(client, 3)["name"], "step 1 (browser tests): running")

    def test_lines_from_zero(self) -> None:
        client = self.client()
        client.ask("initialize", linesStartAt1=False)
        client.ask("launch", record=str(self.folder / "record"), workflows=[self.yaml])
        body = client.ask("setBreakpoints", source={"path": self.yaml}, breakpoints=[{"line": 21}])
        self.assertEqual(body["breakpoints"][0]["line"], 20)
        client.ask("configurationDone")
        client.event("stopped")
        self.assertEqual(self.top(client, 2)["line"], 20)

    def test_questions(self) -> None:
        client = self.start()
        self.moved(client, "goto", threadId=1, targetId=22)
        stack = client.ask("stackTrace", threadId=3)["stackFrames"]
        step, job, run = (one["id"] for one in stack)
        failed = "step 1 (browser tests) failed at line 23: the program ended with 1"
        for words, frame, answer in [
                ("why", step, failed), ("why", job, "leg 2 (test, suite browser) runs since line 19 by worker 0"),
                ("why leg 1", step, "leg 1 (test, suite unit) ended success at line 18"),
                ("why  step 2 1", step, failed),
                ("place", step, "place 22 of 31: end of step 1 (browser tests) of leg 2 (test, suite browser)"),
                ("needs.build.outputs.version", step, "1.4.2"), ("${{ matrix.suite }}-1", step, "browser-1"),
                ("strategy.job-index", step, "1"), ("job.status", step, "failure"), ("failure()", step, "true"),
                ("success()", step, "false"),
                ("always() && github.ref_name", step, "main"), ("github.event_name", run, "push"), ("github.workflow", run, "CI"),
                ("'a' == 'A'", None, "true"), ("runner.os", step, "null (runner is not in a record, and empty here)"),
                ("needs.build", run, "null (needs is empty in this frame: choose that of a step)"),
                ("secrets.TOKEN", step, "*** (secrets are never shown: each is *** here)")]:
            given = {"expression": words, "context": "repl", **({"frameId": frame} if frame else {})}
            self.assertEqual(client.ask("evaluate", **given)["result"], answer, words)
        for words, answer in [("why leg 9", "why NoSuch"), ("why --help", "actrun: words"), ("1 +", "expr"), ("fromJSON('{')", "BadJson"),
                              ("goto 32", "there is no place 32"), ("env.A == success", "expr")]:
            self.assertIn(answer, client.refused("evaluate", {"expression": words, "frameId": step, "context": "repl"}), words)
        self.assertIn("choose the frame of a step", client.refused("evaluate", {"expression": "success()", "frameId": run}))
        body = client.ask("evaluate", expression="needs.build", frameId=step, context="watch")
        self.assertEqual(self.inside(client, body["variablesReference"])["result"]["value"], "success")

    def test_hover_says_why_or_the_value(self) -> None:
        client = self.start()
        self.moved(client, "goto", threadId=1, targetId=24)
        frame = self.top(client, 4)["id"]
        for words, answer in [
                ("needs.test.result", "failure"), ("build", "job 0 (build) succeeded"),
                ("anything", "leg 3 (deploy) has not asked"), ("deploy", "job 2 (deploy) was skipped at line 25: it has no condition")]:
            self.assertIn(answer, client.ask("evaluate", expression=words, frameId=frame, context="hover")["result"].partition("\n")[0])

    def test_goto_in_the_console(self) -> None:
        client = self.start()
        self.assertEqual(self.moved(client, "evaluate", expression="goto 22", context="repl"), ("goto", "place 22 of 31", 3))

    def test_all_of_a_record_that_succeeds_so_far(self) -> None:
        client = self.at_entry(EXAMPLES / "p1.record")
        client.ask("goto", threadId=1, targetId=8)
        client.event("stopped")
        self.assertEqual(client.ask("evaluate", expression="why all", context="repl")["result"], "all that has happened so far succeeded")

    def test_numbers_of_an_earlier_place_are_refused(self) -> None:
        client = self.start()
        frame = self.top(client, 1)["id"]
        number = client.ask("scopes", frameId=frame)["scopes"][0]["variablesReference"]
        self.moved(client, "stepIn", threadId=1)
        self.assertIn(f"there is no frame {frame} at this place", client.refused("scopes", {"frameId": frame}))
        self.assertIn(f"there is no variables {number} at this place", client.refused("variables", {"variablesReference": number}))

    def test_scopes_of_a_need(self) -> None:
        client = self.start()
        self.moved(client, "goto", threadId=1, targetId=22)
        frame = self.top(client, 3)["id"]
        contexts = self.scope(client, frame, "Contexts")
        self.assertEqual(sorted(contexts), ["env", "github", "inputs", "job", "matrix", "needs", "secrets", "steps", "strategy", "vars"])
        self.assertEqual(contexts["secrets"]["value"], '{"TOKEN": "***"}')
        self.assertEqual(contexts["strategy"]["value"], '{"fail-fast": false, "job-index": 1, "job-total": 2, "max-parallel": 2}')
        board = self.inside(client, self.scope(client, frame, "Board")["run 0 (CI)"]["variablesReference"])
        self.assertEqual({name: one["value"] for name, one in board.items()},
                         {"job 0 (build)": "open", "job 1 (test)": "open", "job 2 (deploy)": "unjudged", "job 3 (report)": "unjudged"})
        outputs = self.scope(client, self.top(client, 1)["id"], "Outputs")
        self.assertEqual(outputs["version"]["value"], "1.4.2")

    def test_a_beginning_of_a_record(self) -> None:
        short = self.room / "short"
        short.write_bytes(b"\n".join((self.folder / "record").read_bytes().split(b"\n")[:11]))
        client = self.at_entry(short)
        self.assertEqual(self.moved(client, "continue", threadId=1)[:2], ("pause", "place 10 of 10"))
        self.assertEqual(client.ask("evaluate", expression="why run 0", context="repl")["result"].partition("\n")[0],
                         "run 0 (CI) is going since line 2")


@NEEDS_PROGRAM
class Variables(DapCase):
    """A variable that an earlier step set makes a later step fail; secrets and masks."""

    @classmethod
    def setUpClass(cls) -> None:
        super().setUpClass()
        cls.folder = cls.play("release", RELEASE, CONTEXTS)

    def start(self) -> Client:
        client = self.launched(self.folder / "record", workflows=[str(self.folder / "ci.yml")], logs=str(self.folder))
        client.ask("configurationDone")
        return client

    def test_from_the_failed_step_back_to_where_its_variable_was_set(self) -> None:
        client = self.start()
        stop = client.event("stopped")
        self.assertEqual(stop["text"].partition(" of ")[0], "step 2 (publish)")
        thread = stop["threadId"]
        top = self.top(client, thread)
        self.assertEqual((top["name"], top["line"]), ("step 2 (publish): failure", 32))
        variables = self.scope(client, top["id"], "Variables")
        self.assertEqual({name: (one["value"], one["type"]) for name, one in variables.items()}, {
            "CHANNEL": ("nightly-1", "env of the step: ${{ env.CHANNEL }}-1"),
            "VERSION": ("1.4.2", "env of the job: 1.4.${{ github.run_number }}"),
            "TOKEN": ("Bearer ***", "env of the workflow: Bearer ${{ secrets.TOKEN }}")})
        scopes = {one["name"]: one["variablesReference"] for one in client.ask("scopes", frameId=top["id"])["scopes"]}
        info = client.ask("dataBreakpointInfo", variablesReference=scopes["Variables"], name="CHANNEL")
        self.assertEqual(client.ask("dataBreakpointInfo", variablesReference=scopes["Outputs"], name="x")["dataId"], None)
        held = client.ask("setDataBreakpoints", breakpoints=[{"dataId": info["dataId"]}, {"dataId": "0 OTHER"}])["breakpoints"]
        self.assertEqual([one["verified"] for one in held], [True, False])
        client.ask("setExceptionBreakpoints", filters=[])
        client.ask("reverseContinue", threadId=thread)
        stop = client.event("stopped")
        self.assertEqual((stop["reason"], stop["hitBreakpointIds"]), ("breakpoint", [held[0]["id"]]))
        top = self.top(client, thread)
        self.assertEqual((top["name"], top["line"]), ("step 0 (choose the channel): success", 20))
        variables = self.scope(client, top["id"], "Variables")
        self.assertEqual((variables["CHANNEL"]["value"], variables["CHANNEL"]["type"]), ("nightly", "set by step 0 (choose the channel)"))
        self.assertEqual(client.ask("evaluate", expression="steps.choose.outputs.channel", frameId=top["id"])["result"], "nightly")
        self.moved(client, "stepBack", threadId=thread)
        variables = self.scope(client, self.top(client, thread)["id"], "Variables")
        self.assertEqual((variables["CHANNEL"]["value"], variables["CHANNEL"]["type"]), ("stable", "env of the workflow"))

    def test_a_variable_without_a_value(self) -> None:
        client = self.start()
        client.event("stopped")
        variables = self.scope(client, client.ask("stackTrace", threadId=2)["stackFrames"][-2]["id"],
                               "Variables")
        self.assertEqual((variables["BROKEN"]["value"], variables["BROKEN"]["type"]),
                         ("", "env of the job: ${{ fromJSON('{') }} has no value: value BadJson"))

    def test_nothing_that_is_sent_has_a_secret(self) -> None:
        client = self.start()
        shown = client.outputs_until("stopped")
        self.assertIn("--- step 1 (echo \"hidden-word of $TOKEN\")", shown)  # a name of the plan, which nothing masks
        self.assertIn("\n*** of Bearer ***\n", shown)
        self.assertIn("s3cret-word", (self.folder / "record").read_text(encoding="utf-8"))
        for place in range(len((self.folder / "record").read_bytes().splitlines())):
            stop = self.moved(client, "goto", threadId=1, targetId=place)
            for frame in client.ask("stackTrace", threadId=stop[2])["stackFrames"]:
                for name in ("Variables", "Contexts", "Board"):
                    for one in self.scope(client, frame["id"], name).values():
                        if one["variablesReference"]:
                            self.inside(client, one["variablesReference"])
                for words in ("secrets", "toJSON(secrets)", "join(secrets.*, ' ')", "format('{0}', env.TOKEN)", "env.TOKEN", "github"):
                    client.ask("evaluate", expression=words, frameId=frame["id"])
        self.assertIn("false", client.ask("evaluate", expression="contains(secrets.TOKEN, 's3c')")["result"])
        self.assertNotIn(b"s3cret-word", client.all)

    def test_breakpoints_in_a_step_with_a_script_and_comments(self) -> None:
        client = self.start()
        client.event("stopped")
        lines = {19: 20, 22: 20, 24: 20, 26: 20, 28: 20, 29: 29, 30: 29, 31: 32, 33: 32, 35: 32, 36: 36, 37: 36}
        body = client.ask("setBreakpoints", source={"path": str(self.folder / "ci.yml")}, breakpoints=[{"line": line} for line in lines])
        self.assertEqual([one["line"] for one in body["breakpoints"]], list(lines.values()))


@NEEDS_PROGRAM
class Filters(DapCase):
    """Exception filters on records whose events GUIDE tells one by one."""

    def stops(self, record: str, names: list[str]) -> list[tuple[str, str]]:
        """The places at which a record stops, and what is said there."""
        client = self.launched(EXAMPLES / record)
        client.ask("setExceptionBreakpoints", filters=names)
        client.ask("configurationDone")
        found = []
        while (body := client.event("stopped"))["reason"] == "exception":
            found.append((body["description"].partition(" of ")[0], body["text"].partition(" at line ")[0]))
            client.ask("continue", threadId=1)
        return found

    def test_each_filter(self) -> None:
        for record, names, expected in [
                ("displaced-leg.record", ["displaced"], [("displaced at place 7", "leg 1 (site) ended cancelled")]),
                ("displaced.record", ["displaced", "cancelled"], [("displaced at place 3", "run 1 (deploy) was cancelled")]),
                ("fail-fast.record", ["failed"], [("failed at place 9", "step 0 (make test) of leg 0 (test, os linux): failure")]),
                ("fail-fast.record", ["cancelled"], [("cancelled at place 12", "leg 1 (test, os mac) ended cancelled"),
                                                     ("cancelled at place 13", "leg 2 (test, os windows) ended cancelled")]),
                ("fail-fast.record", ["skipped"], [("skipped at place 14", "job 1 (report) was skipped")]),
                ("condition-untrue.record", ["skipped"], [("skipped at place 7", "step 1 (make report) of leg 0 (test): skipped"),
                                                          ("skipped at place 9", "job 1 (deploy) was skipped")]),
                ("condition-faulted.record", ["failed"], [("failed at place 5", "step 0 (make test) of leg 0 (test): failure"),
                                                          ("failed at place 8", "job 1 (deploy) failed")]),
                ("group-faulted.record", ["failed"], [("failed at place 2", "run 1 (ci) failed"),
                                                      ("failed at place 4", "leg 0 (migrate, db users) ended failure")]),
                ("own-group.record", ["cancelled"], [("cancelled at place 3", "leg 0 (publish) ended cancelled"),
                                                     ("cancelled at place 4", "run 0 (release) was cancelled")]),
                ("p1.record", list(FILTERS), []), ("nightly.record", [], [])]:
            self.assertEqual(self.stops(record, names), expected, record)

    def test_names_that_look_like_facts(self) -> None:
        folder = self.play("names", HOSTILE, {})
        # Entries: open, judge, three asks, take, begin, end (8), finish, and a drop for each of the other legs.
        self.assertEqual(self.stops(str(folder / "record"), ["failed"]),
                         [("failed at place 8", "step 0 (exit 1) of leg 0 (x) ended cancelled")])
        self.assertEqual([place for place, _ in self.stops(str(folder / "record"), ["cancelled", "displaced", "skipped"])],
                         ["cancelled at place 10", "cancelled at place 11"])
        client = self.at_entry(folder / "record")
        names = [f"leg {leg} (x) ended cancelled at line 3: (, v {value})" for leg, value in enumerate(["<b>", "t\u240ax", "Array"])]
        found = [client.ask("stackTrace", threadId=number)["stackFrames"][0]["id"] for number in (1, 2, 3)]
        board = self.inside(client,
                            self.scope(client, found[0], "Board")["run 0 (ci.json)"]["variablesReference"])
        job = self.inside(client, next(iter(board.values()))["variablesReference"])
        self.assertEqual(list(job), names)

    def test_unknown_filters_are_refused_and_the_rest_holds(self) -> None:
        client = self.launched(EXAMPLES / "fail-fast.record")
        body = client.ask("setExceptionBreakpoints", filters=["all"], filterOptions=[{"filterId": "failed"}])
        self.assertEqual([one["verified"] for one in body["breakpoints"]], [False, True])
        client.ask("configurationDone")
        self.assertEqual(client.event("stopped")["description"], "failed at place 9 of 15")

    def test_places_are_those_of_the_programs_own_breaks(self) -> None:
        for path in sorted(EXAMPLES.glob("*.record")):
            if path.name in ("refused.record", "cut.record"):
                continue
            walker = Walker(PROGRAM, path)
            self.addCleanup(walker.close)
            record = Record(PROGRAM, path.read_bytes())
            for leg, begins in enumerate(record.begins):
                for step, place in enumerate(begins):
                    walker.go("goto 0")
                    walker.ask(f"break step {leg} {step}")
                    self.assertTrue(walker.go("go"))
                    walker.ask(f"clear step {leg} {step}")
                    self.assertEqual(walker.place, place, (path.name, leg, step))
                    self.assertEqual(len(walker.show().legs[leg].steps), step + (record.done[leg][step] == place))


@NEEDS_PROGRAM
class Ends(DapCase):
    """However a session ends, the server ends, and so does the program that it started."""

    def assert_ended(self, client: Client, children: list[int], statuses: tuple[int, ...] = (0,)) -> None:
        self.assertIn(client.status(), statuses)
        for number in children:
            for _ in range(1000):
                if not Path(f"/proc/{number}").exists():
                    break
                time.sleep(0.05)
            self.assertFalse(Path(f"/proc/{number}").exists())
        self.assertEqual(client.process.stderr.read(), b"")

    def test_terminate_and_disconnect(self) -> None:
        client = self.at_entry(EXAMPLES / "p1.record")
        children = client.children()
        self.assertEqual(len(children), 1)
        client.ask("terminate")
        client.event("terminated")
        client.ask("disconnect", restart=False)
        self.assert_ended(client, children)

    def test_disconnect_before_everything(self) -> None:
        client = self.client()
        client.ask("disconnect")
        self.assert_ended(client, [])

    def test_a_client_that_goes_away(self) -> None:
        for rest in (b"", b"Content-Len", b"Content-Length: 50\r\n\r\n{\"seq\":"):
            client = self.at_entry(EXAMPLES / "p1.record")
            children = client.children()
            client.send_bytes(rest)
            client.process.stdin.close()
            self.assert_ended(client, children, (2,) if rest == b"Content-Len" else (0,))

    def test_a_client_that_reads_no_more(self) -> None:
        reader, writer = os.pipe()
        server = subprocess.Popen(COMMAND, stdin=subprocess.PIPE, stdout=writer, stderr=subprocess.PIPE, env=surroundings())
        os.close(writer)
        os.close(reader)
        body = b'{"seq":1,"type":"request","command":"initialize"}'
        server.stdin.write(b"Content-Length: %d\r\n\r\n" % len(body) + body)
        server.stdin.flush()
        self.assertEqual(server.wait(timeout=DEADLINE), 0)
        self.assertEqual(server.stderr.read(), b"")
        server.stdin.close()
        server.stderr.close()

    def test_a_program_that_is_gone_ends_the_session(self) -> None:
        client = self.at_entry(EXAMPLES / "p1.record")
        os.kill(client.children()[0], signal.SIGKILL)
        client.ask("stepIn", threadId=1)
        client.event("terminated")
        client.ask("disconnect")
        self.assert_ended(client, [])

    def test_words_and_variables_of_the_command(self) -> None:
        for words, given, status, said in [(["--help"], {}, 0, b"usage: actrun dap"), (["x"], {}, 2, b"usage: actrun dap"),
                                           ([], {"ACTRUN_PROGRAM": ""}, 3, b"ACTRUN_PROGRAM")]:
            done = subprocess.run([*COMMAND, *words], env={**surroundings(), **given}, capture_output=True, stdin=subprocess.DEVNULL,
                                  check=False)
            self.assertEqual(done.returncode, status)
            self.assertIn(said, done.stdout if status == 0 else done.stderr)


@NEEDS_PROGRAM
class Messages(DapCase):
    """Bytes that are no messages: each is an error response or the end."""

    def test_one_bad_message_is_refused_and_the_next_is_answered(self) -> None:
        client = self.client()
        for body in (b"{", b"", b"[1]", b"null", b"\xff\xfe", b'{"a":', b"[" * 100_000, b'"' + b"x" * 1_000_000,
                     b'{"type":"event","seq":4}'):
            client.send_bytes(b"Content-Length: %d\r\n\r\n" % len(body) + body)
            self.assertFalse(client.response()["success"])
        for head in (b"content-length:49\r\n\r\n", b"Content-Type: x\r\nContent-Length: 49\r\n\r\n", b"Content-Length: 49\n\n"):
            client.send_bytes(head + b'{"seq":1,"type":"request","command":"initialize"}')
            client.response()
        self.assertEqual(client.refused("next", {}), "send launch with a `record` first")

    def test_a_stream_that_is_lost_ends_the_session(self) -> None:
        for data, words in [(b"Content-Length: 1073741824\r\n\r\n", "no number from 0 to 67108864"),
                            (b"Content-Length: 99999999999999999999999999\r\n\r\n", "no number from 0 to"),
                            (b"Content-Length: -1\r\n\r\n", "no number"), (b"Content-Length: x\r\n\r\n", "no number"),
                            (b"\r\n", "has no Content-Length"), (b"X: y\r\n\r\n", "has no Content-Length"),
                            (b"a" * 5000, "too long"), (b"X: y\r\n" * 20, "too many lines"),
                            (b'{"seq":1}\n{"seq":2}\n\n', "has no Content-Length")]:
            client = self.client()
            client.send_bytes(data)
            answer = client.response()
            self.assertFalse(answer["success"])
            self.assertIn(words, answer["message"])
            self.assertEqual(client.status(), 2)


if __name__ == "__main__":
    unittest.main()
