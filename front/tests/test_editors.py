"""The configurations in `editors/`, and sessions as their clients begin them."""
from __future__ import annotations

import json
import re
import shutil
import subprocess
import unittest
from typing import Any

from actrun_front.dap_shapes import SHAPES, misshapen

from .dap_case import Client
from .try_case import FRONT, NEEDS_PROGRAM, TryCase, sandbox_works

try:
    import tomllib
except ImportError:  # (before Python 3.11)
    tomllib = None

EDITORS = FRONT.parent / "editors"
NEOVIM = shutil.which("nvim")
OF_CLIENT = {"name", "type", "request", "__sessionId"}  # what clients add
# what each client is expected to send first; no client was compared
BEGINNINGS: dict[str, dict[str, Any]] = {
    "vscode": {"clientID": "vscode", "clientName": "Visual Studio Code", "adapterID": "actrun", "pathFormat": "path",
               "linesStartAt1": True, "columnsStartAt1": True, "supportsVariableType": True,
               "supportsVariablePaging": True, "supportsRunInTerminalRequest": True, "locale": "en",
               "supportsProgressReporting": True, "supportsInvalidatedEvent": True, "supportsMemoryReferences": True,
               "supportsArgsCanBeInterpretedByShell": True, "supportsMemoryEvent": True,
               "supportsStartDebuggingRequest": True, "supportsANSIStyling": True},
    "neovim": {"clientID": "neovim", "clientName": "neovim", "adapterID": "nvim-dap", "pathFormat": "path",
               "columnsStartAt1": True, "linesStartAt1": True, "supportsRunInTerminalRequest": True,
               "supportsVariableType": True, "supportsProgressReporting": True,
               "supportsStartDebuggingRequest": True, "locale": "C.UTF-8"},
    "helix": {"clientID": "hx", "clientName": "helix", "adapterID": "actrun", "locale": "en-us",
              "linesStartAt1": True, "columnsStartAt1": True, "pathFormat": "path", "supportsVariableType": True,
              "supportsVariablePaging": False, "supportsRunInTerminalRequest": True,
              "supportsMemoryReferences": False, "supportsProgressReporting": False,
              "supportsInvalidatedEvent": False}}
# members that each answer and event of the protocol has to have
NEEDED: dict[str, dict[str, type]] = {
    "stopped": {"reason": str, "threadId": int}, "threads": {"id": int, "name": str},
    "stackFrames": {"id": int, "name": str, "line": int, "column": int},
    "scopes": {"name": str, "variablesReference": int, "expensive": bool},
    "variables": {"name": str, "value": str, "variablesReference": int}, "breakpoints": {"verified": bool}}


def of_helix() -> list[dict[str, Any]]:
    """What Helix sends to launch, by its templates."""
    [language] = tomllib.loads((EDITORS / "helix.toml").read_text(encoding="utf-8"))["language"]
    return [template["args"] for template in language["debugger"]["templates"]]


def of_neovim() -> list[dict[str, Any]]:
    """What nvim-dap sends to launch: the configurations as Neovim reads them, without nvim-dap."""
    lines = ("package.preload.dap = function() return {adapters = {}, configurations = {}, step_back = print, "
             "reverse_continue = print} end", f"dofile({json.dumps(str(EDITORS / 'neovim.lua'))})",
             "io.stdout:write(vim.json.encode({require('dap').adapters, require('dap').configurations}))")
    words = [NEOVIM or "", "--headless", "-n", "-u", "NONE", "-i", "NONE"]
    done = subprocess.run([*words, *(f"+lua {line}" for line in lines), "+qa"], capture_output=True, text=True,
                          check=True, stdin=subprocess.DEVNULL, timeout=60)
    adapters, configurations = json.loads(done.stdout)
    assert adapters["actrun"] == {"type": "executable", "command": "actrun", "args": ["dap"]}, done.stdout
    found: list[dict[str, Any]] = configurations["yaml"]
    return found


def of_code() -> list[dict[str, Any]]:
    """What VS Code sends to launch: the configurations of the README."""
    [text] = re.findall(r"```json\n(.*?)```", (EDITORS / "README.md").read_text(encoding="utf-8"), re.DOTALL)
    found: list[dict[str, Any]] = json.loads(text)["configurations"]
    return found


CONFIGURATIONS = {"vscode": of_code, **({"helix": of_helix} if tomllib else {}),
                  **({"neovim": of_neovim} if NEOVIM else {})}


class Arguments(unittest.TestCase):
    """What is written in the configurations."""

    def test_the_adapter_knows_each_argument(self) -> None:
        for editor, configurations in CONFIGURATIONS.items():
            with self.subTest(editor):
                live, record = found = configurations()
                self.assertEqual((live["live"], record["record"]), (True, "--last"))
                for given in found:
                    self.assertEqual({*given} - OF_CLIENT - {*SHAPES["launch"]}, set())
                    self.assertEqual(misshapen("launch", given), "")

    def test_the_extension_names_all_of_them(self) -> None:
        package = json.loads((EDITORS / "vscode" / "package.json").read_text(encoding="utf-8"))
        [debugger] = package["contributes"]["debuggers"]
        for request in ("launch", "attach"):
            named = {*debugger["configurationAttributes"][request]["properties"]}
            self.assertEqual(named - {*SHAPES[request]}, set(), request)
        text = (EDITORS / "README.md").read_text(encoding="utf-8")
        table = re.findall(r"(?m)^\|(`\w+`(?:, `\w+`)*) \|", text)
        options = {name for row in table for name in re.findall(r"`(\w+)`", row)}
        self.assertEqual({*SHAPES["launch"]} - {"noDebug"}, options & {*SHAPES["launch"]})


@NEEDS_PROGRAM
@unittest.skipUnless(sandbox_works(), "no sandbox can be made here")
class Sessions(TryCase):
    """Each client, as it begins a session and what it asks at the first stop."""

    def checked(self, kind: str, members: list[dict[str, Any]]) -> list[dict[str, Any]]:
        """Members of an answer, each with what the protocol wants of it."""
        self.assertTrue(members, kind)
        for one in members:
            for name, wanted in NEEDED[kind].items():
                self.assertIs(type(one.get(name)), wanted, f"{kind}: {one}")
        return members

    def session(self, editor: str, given: dict[str, Any]) -> tuple[Client, str]:
        """A client of an editor at the first stop, and the name of the frame at the top."""
        here = json.loads(json.dumps(given).replace("${workspaceFolder}", str(self.project)))
        client = Client({**self.environment, "PYTHONPATH": str(FRONT)}, self.project)
        self.addCleanup(client.close)
        client.ask("initialize", **BEGINNINGS[editor])
        client.ask("launch", **here)
        client.event("initialized")
        source = {"name": "ci.yml", "path": str(self.project / ".github" / "workflows" / "ci.yml")}
        found = client.ask("setBreakpoints", source=source, breakpoints=[{"line": 7}], lines=[7],
                           sourceModified=False)
        self.checked("breakpoints", found["breakpoints"])
        client.ask("setFunctionBreakpoints", breakpoints=[])
        client.ask("setExceptionBreakpoints", filters=["failed"], filterOptions=[])
        client.ask("configurationDone")
        [stopped] = self.checked("stopped", [client.event("stopped")])
        self.checked("threads", client.ask("threads")["threads"])
        stack = client.ask("stackTrace", threadId=stopped["threadId"], startFrame=0, levels=20)["stackFrames"]
        top = self.checked("stackFrames", stack)[0]["id"]
        for one in self.checked("scopes", client.ask("scopes", frameId=top)["scopes"]):
            inner = client.ask("variables", variablesReference=one["variablesReference"])["variables"]
            if one["name"] != "Outputs":  # (of which there may be none)
                self.checked("variables", inner)
        return client, str(stack[0]["name"])

    def test_records_are_walked_and_workflows_executed(self) -> None:
        self.workflow("- uses: actions/checkout@v4\n- run: 'false'")
        self.commit()
        self.assert_status(self.attempt(), 1)
        for editor, configurations in CONFIGURATIONS.items():
            with self.subTest(editor):
                live, record = configurations()
                client, name = self.session(editor, record)
                self.assertEqual(name, "step 1 (false): running")  # (the breakpoint of its line)
                client.ask("continue", threadId=1)
                self.assertEqual(client.event("stopped")["reason"], "exception")
                client.ask("disconnect", restart=False, terminateDebuggee=True)
                client, name = self.session(editor, live)
                self.assertEqual(name, "step 1 (false): waits to begin")
                client.ask("disconnect", restart=False, terminateDebuggee=True)


if __name__ == "__main__":
    unittest.main()
