"""The files of legs as they were at a place of a record, at the prompt of `debug` and in an editor."""
from __future__ import annotations

import os
import sys
import unittest
import unittest.mock
from pathlib import Path

from actrun_front.dap_record import Record, Walker
from actrun_front.debug import Prompt, changes_of
from actrun_front.snapshot_store import Store

from .dap_case import Client
from .live_case import Person
from .test_earlier import EarlierCase
from .try_case import FRONT, NEEDS_PROGRAM, PROGRAM, sandbox_works

PLACE = r"\d+/\d+> $"
SHELL = r"\(leg 0[^\n]* project\$ $"


@NEEDS_PROGRAM
@unittest.skipUnless(sandbox_works(), "no sandbox can be made here")
class PlacesCase(EarlierCase):
    """A repository whose workflow fails at the step `check`, and the prompt for its record."""

    def setUp(self) -> None:
        super().setUp()
        patched = unittest.mock.patch.dict(os.environ, self.environment)
        patched.start()
        self.addCleanup(patched.stop)

    def prompt(self) -> Prompt:
        """A prompt for the record of the last execution."""
        path = self.record()
        found = Prompt(Walker(PROGRAM, path), Record(PROGRAM, path.read_bytes()), changes_of(path), path)
        self.addCleanup(found.walker.close)
        return found

    def ask(self, prompt: Prompt, *lines: str) -> list[str]:
        """What is shown after the last of some lines."""
        for line in lines:
            found = list(prompt.answers(line))
        return found

    def copies(self) -> list[Path]:
        """The copies that shells have made, and not removed."""
        return list((self.home / ".cache" / "actrun" / "copies").glob("*"))


class Words(PlacesCase):
    """`files` and `cat`."""

    def test_what_the_step_that_ended_last_changed(self) -> None:
        self.assert_status(self.attempt(), 1)
        prompt = self.prompt()
        self.assertEqual(self.ask(prompt, "files"),
                         ["no step of leg 0 (one) has ended here: `next` goes on"])
        self.assertEqual(self.ask(prompt, "jump make", "files")[1:], ["  A .github/workflows/ci.yml", "  A file"])
        made = ["step 1 (echo once >>made) of leg 0 (one)", "  A bin/tool", "  A made"]
        self.assertEqual(self.ask(prompt, "s", "files"), made)
        self.assertEqual(self.ask(prompt, "n", "files"), made)
        self.assertEqual(self.ask(prompt, "jump failed", "files"),
                         ["step 3 (check) of leg 0 (one) changed nothing"])
        for line in ("files 0/1", "files one/make", "frame step 0 1", "files"):
            found = self.ask(prompt, line)
        self.assertEqual([self.ask(prompt, "files 0/1"), found], [made] * 2)
        self.assertIn("+later", self.ask(prompt, "files 0/2 made"))
        self.assertEqual(self.ask(prompt, "files 0/2 file"),
                         ["step 2 (tool; echo \"A=$A\"; echo later >>made) of leg 0 (one) did not change file"])
        self.assertEqual(self.ask(prompt, "files 0/4"),
                         ["step 4 (last) of leg 0 (one) has changed nothing here: not begun"])
        self.assertEqual(self.ask(prompt, "files 7/0"), ["the record has no step 7 0: its last leg is 0"])

    def test_a_file_as_it_was(self) -> None:
        self.assert_status(self.attempt(), 1)
        prompt, workspace = self.prompt(), self.record().parent.parent / "play" / "tree" / "project"
        self.assertIn("the workspace of leg 0 is empty here", self.ask(prompt, "cat made")[0])
        self.assertEqual(self.ask(prompt, "jump make", "s", "cat made"), ["once"])
        self.assertEqual(self.ask(prompt, "jump failed", "cat made"), ["once", "later"])
        self.assertEqual(self.ask(prompt, f"cat {workspace}/made"), ["once", "later"])
        self.assertEqual(self.ask(prompt, "cat bin"), ["tool"])
        self.assertEqual(self.ask(prompt, "cat mode"),
                         ["mode: the workspace of leg 0 has no such file here; did you mean made?"])
        self.assertEqual(self.ask(prompt, "cat ../../etc/passwd"),
                         ["../../etc/passwd: this leads out of the workspace"])

    def test_files_and_steps_are_completed(self) -> None:
        self.change("echo once >>made", "echo once >>made; touch \"$(printf 'a\\033[31m')\"")
        self.assert_status(self.attempt(), 1)
        prompt = self.prompt()
        self.ask(prompt, "jump make", "s")
        lines = [line for line in prompt.lines() if line.startswith(("cat ", "files "))]
        self.assertEqual(lines, ["files 0/0", "files 0/1", "cat .github/workflows/ci.yml", "cat bin/tool", "cat file",
                                 "cat made"])

    def test_what_is_no_text_and_what_is_left_out(self) -> None:
        self.workflow("- run: |\n    ln -s /etc/passwd link; printf 'a\\0b' >data; mkfifo pipe; touch empty\n"
                      "    printf '\\033[31mred\\n' >steers")
        self.assert_status(self.attempt(), 0)
        prompt = self.prompt()
        self.ask(prompt, "c")
        for path, shown in (("link", "link is a link to /etc/passwd"), ("data", "data is no text: 3 bytes"),
                            ("pipe", "pipe: snapshots are without it: it is no file, folder or link"),
                            ("steers", "\x1b[31mred")):
            self.assertEqual(self.ask(prompt, f"cat {path}"), [shown])
        self.assertEqual(self.ask(prompt, "cat empty"), [])

    def test_secrets_and_masks_are_hidden(self) -> None:
        self.workflow("- run: |\n    echo '::add-mask::masked-word'\n    echo ${{ secrets.S }} masked-word >a-secret-word")
        self.assert_status(self.attempt("--secret", "S=a-secret-word"), 0)
        prompt = self.prompt()
        self.ask(prompt, "c")
        found = [*self.ask(prompt, "files"), *self.ask(prompt, "files a-secret-word"),
                 *self.ask(prompt, "cat a-secret-word"), *self.ask(prompt, "cat a-secret-wor")]
        self.assertNotIn("secret-word", " ".join(found))
        self.assertIn("*** ***", found)

    def test_one_line_says_why_there_is_no_snapshot(self) -> None:
        self.assert_status(self.attempt("--no-snapshots"), 1)
        for line in ("files", "cat made"):
            found = self.ask(self.prompt(), "c", line)
            self.assertEqual(found, [f"{self.record()}: this execution kept no snapshots: leave --no-snapshots, "
                                     "--in-place or --no-sandbox out"])
        self.workflow("- run: 'true'\n- run: seq 20001 | xargs touch")
        self.assert_status(self.attempt(), 0)
        self.assertEqual(self.ask(self.prompt(), "c", "cat 7"), [
            "the workspace after step 1 of leg 0 is not kept: it has more than 20,000 files: --snapshots keeps it"])
        top = next((self.home / ".cache" / "actrun" / "snapshots").iterdir())
        store = Store(top)
        for execution in store.executions():
            store.forget(execution)
        self.record().with_name("lacks").unlink()
        self.assertEqual(self.ask(self.prompt(), "c", "files"), [
            "the workspace after step 1 of leg 0 is not kept: only the last 20 executions are: `actrun try` "
            "executes again"])


class Shells(PlacesCase):
    """`shell`."""

    def person_at(self, *lines: str) -> Person:
        """A person at the prompt of `debug` who has typed some lines."""
        command = [sys.executable, str(FRONT), "debug", str(self.record())]
        person = Person(command, self.project, self.environment)
        self.addCleanup(person.close)
        for line in lines:
            person.until(PLACE)
            person.type(f"{line}\n")
        return person

    def test_it_is_in_a_copy_that_is_removed(self) -> None:
        self.change("- id: make\n", "- id: make\n  env:\n    X: ${{ secrets.S }}\n")
        self.assert_status(self.attempt("--secret", "S=a-secret-word"), 1)
        person = self.person_at("jump make", "s", "shell")
        said = person.until(SHELL)
        self.assertIn("a copy of the workspace after step 1", said)
        self.assertEqual(len(self.copies()), 1)
        person.type("cat made; echo A=$A X=$X; tool; pwd; echo spoilt >made; ls -d empty\n")
        shown = person.until(SHELL)
        for text in ("once\n", "A=1 X=***\n", "the tool\n", "/play/tree/project\n", "empty\n"):
            self.assertIn(text, shown)
        person.type(f"ls {self.home} {self.project}; touch $RUNNER_TEMP/x /etc/x && cat /proc/net/dev | wc -l\n")
        shown = person.until(SHELL)
        self.assertNotIn("ci.yml", shown)
        self.assertRegex(shown, r"\n3\n")
        person.type("exit\n")
        person.until(PLACE)
        self.assertEqual(self.copies(), [])
        person.type("cat made\n")
        self.assertIn("\nonce\n", person.until(PLACE))
        person.type("q\n")
        self.assertEqual(person.end(), 0)

    def test_nothing_is_left_where_the_terminal_is_closed_or_all_is_killed(self) -> None:
        self.assert_status(self.attempt(), 1)
        for number, left in ((1, 0), (15, 0), (9, 1)):
            person = self.person_at("jump failed", "shell")
            person.until(SHELL)
            person.child.send_signal(number)
            person.end()
            self.assertEqual(len(self.copies()), left, number)
        person = self.person_at("jump failed", "shell")
        person.until(SHELL)
        self.assertEqual(len(self.copies()), 1)

    def test_it_needs_the_sandbox(self) -> None:
        self.assert_status(self.attempt(), 1)
        prompt = self.prompt()
        self.assertEqual(self.ask(prompt, "jump failed", "shell"), ["shell: standard input is no terminal"])
        self.assertEqual(self.ask(prompt, "shell ls"), ["shell takes no argument"])
        with unittest.mock.patch("os.isatty", return_value=True), \
                unittest.mock.patch("actrun_front.sandbox.PLACES", ("/nowhere/bwrap",)):
            self.assertRegex(self.ask(prompt, "shell")[0], "^the sandbox cannot be made: bwrap is not installed: .*: "
                             "install bubblewrap .*, or allow user namespaces$")
        self.assertEqual(self.copies(), [])


class Editor(PlacesCase):
    """The console of an editor."""

    def at_failure(self, terminal: bool = True) -> Client:
        """A client at the failure of the last execution."""
        client = Client({**self.environment, "PYTHONPATH": str(FRONT)})
        self.addCleanup(client.close)
        client.ask("initialize", supportsRunInTerminalRequest=terminal)
        client.ask("launch", record=str(self.record()))
        client.event("initialized")
        client.ask("configurationDone")
        client.event("stopped")
        return client

    def test_files_as_they_were(self) -> None:
        self.assert_status(self.attempt(), 1)
        client = self.at_failure()

        def say(line: str, **more: int) -> str:
            return str(client.ask("evaluate", expression=line, context="repl", **more)["result"])
        self.assertEqual(say("cat made"), "once\nlater")
        self.assertEqual(say("files 0/1"), "step 1 (echo once >>made) of leg 0 (one)\n  A bin/tool\n  A made")
        self.assertIn("+later", say("files 0/2 made"))
        client.ask("evaluate", expression="goto 8", context="repl")
        client.event("stopped")
        frame = client.ask("stackTrace", threadId=1)["stackFrames"][0]["id"]
        self.assertEqual(say("cat made", frameId=frame), "once")
        self.assertIn("no such file here", client.refused("evaluate", {"expression": "cat x", "context": "repl"}))
        labels = [one["label"] for one in client.ask("completions", text="", column=1)["targets"]]
        self.assertLessEqual({"files", "cat", "shell"}, {*labels})

    def test_a_terminal_with_a_shell(self) -> None:
        self.assert_status(self.attempt(), 1)
        client = self.at_failure()
        client.ask("evaluate", expression="shell", context="repl")
        asked = client.request()
        self.assertEqual((asked["command"], asked["arguments"]["kind"]), ("runInTerminal", "integrated"))
        client.reply(asked, body={})
        environment = {**self.environment, **asked["arguments"]["env"]}
        person = Person(asked["arguments"]["args"], Path(asked["arguments"]["cwd"]), environment)
        self.addCleanup(person.close)
        person.until(SHELL)
        person.type("cat made; exit\n")
        self.assertEqual(person.end(), 0, person.shown)
        self.assertIn("\nonce\nlater\n", person.shown)
        self.assertEqual(self.copies(), [])
        refused = self.at_failure(False).refused("evaluate", {"expression": "shell", "context": "repl"})
        self.assertRegex(refused, "^this editor opens no terminal: write `actrun dap --shell /.*/record 12 0` into one$")

    def test_a_shell_needs_a_place_a_leg_and_snapshots(self) -> None:
        self.assert_status(self.attempt("--no-snapshots"), 1)
        for words, said in ((("99", "0"), "99: the record has the places 0 to"), (("1", "7"), "no leg 7"),
                            (("1", "0"), "standard input is no terminal")):
            done = self.front("dap", "--shell", str(self.record()), *words)
            self.assertEqual(done.returncode, 2)
            self.assertIn(said, done.stderr)
        self.assertIn("this execution kept no snapshots",
                      self.at_failure().refused("evaluate", {"expression": "shell", "context": "repl"}))


if __name__ == "__main__":
    unittest.main()
