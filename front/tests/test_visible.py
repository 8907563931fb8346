"""Texts on a terminal: nothing that a stranger wrote steers it."""
from __future__ import annotations

import contextlib
import io
import unittest

from actrun_front.explain import show
from actrun_front.present import Screen
from actrun_front.visible import visible, visible_log

from .terminal_case import TerminalCase
from .try_case import FRONT, NEEDS_PROGRAM, PROGRAM

STEERS = "\x1b]0;title\x07 \x9b2J \u202eright \x08\x7f\r \u2066x\u200f"
SHOWN = "␛]0;title␇ <U+009B>2J <U+202E>right ␈␡␍ <U+2066>x<U+200F>"


def steering(text: str) -> list[str]:
    """The characters of a text that would steer a terminal, beside lines and tabs."""
    return [sign for sign in text if ord(sign) < 32 and sign not in "\t\n" or 127 <= ord(sign) < 160
            or sign in "\u202e\u2066\u200f"]


class Told(io.StringIO):
    """Standard error that is kept."""

    def reconfigure(self, **_: str) -> None:
        """Takes how errors are written."""


class Filter(unittest.TestCase):
    """The filter alone."""

    def test_pictures(self) -> None:
        self.assertEqual(visible(STEERS), SHOWN)
        self.assertEqual(visible("\x1b[31mred\tß\n"), "␛[31mred\tß\n")
        for code in (*range(9), *range(11, 32), *range(127, 160), 0x61C, 0x200E, 0x202A, 0x2069):
            self.assertNotIn(chr(code), visible(chr(code)))

    def test_colours_of_logs(self) -> None:
        line = "\x1b[1;38:5:9mred\x1b[0m \x1b[2Jx \x1b[?25l \x1b[4munder\r"
        self.assertEqual(visible_log(line, False), "red ␛[2Jx ␛[?25l under")
        self.assertEqual(visible_log(line, True), "\x1b[1;38:5:9mred\x1b[0m ␛[2Jx ␛[?25l \x1b[4munder\x1b[0m")
        self.assertEqual(visible_log("a\n\x1b[8mb\nc", True), "a\n\x1b[8mb\x1b[0m\nc")
        self.assertEqual(visible_log("10%\r20%", True), "10%␍20%")

    def test_each_way_to_the_screen(self) -> None:
        screen = Screen()
        with contextlib.redirect_stdout(io.StringIO()) as out, contextlib.redirect_stderr(Told()) as error:
            screen.say(STEERS, "note")
            screen.log(STEERS)
            screen.section(STEERS)
            screen.tell(STEERS)
            screen.result("failure", STEERS, error, STEERS)
            show("actrun: flow \x1b[2J.json NotJson", "plan", ["\x1b[2J.json"])
        self.assertEqual(steering(out.getvalue() + error.getvalue()), [])

    def test_the_line_of_what_runs(self) -> None:
        screen = Screen()
        with contextlib.redirect_stderr(io.StringIO()) as error:
            screen.live = True
            screen.view([STEERS])
        self.assertIn(SHOWN, error.getvalue())


@NEEDS_PROGRAM
class Shown(TerminalCase):
    """What `try` and `debug` show of a repository that has such characters everywhere."""

    def hostile(self) -> None:
        """A workflow with such characters."""
        name = "a\\e]0;t\\a\\x9b2J\\u202Eb"
        self.workflow(f"""
- name: "{name}"
  run: |
    printf '\\033[31mred\\033[0m \\033[2J \\302\\2332J\\n'
    printf '\\033[2Js\\n' >> $GITHUB_STEP_SUMMARY
    exit 1
- name: "{name}"
  uses: "none/none{name}@v1"
- name: cond
  if: "'a\\u202E\\x9b' == 'b'"
  run: ':'
""", head=f'name: "{name}"\non: push\nenv: {{"{name}": 1}}\njobs:\n  one:\n    name: "{name}"\n'
                      f'    runs-on: "{name}"\n'
                      "    timeout-minutes: 5\n    steps:\n", name="c\u202ei.yml")

    def test_nothing_steers(self) -> None:
        self.hostile()
        for words in (["-l"], ["-n", "--any-system"], ["-g"], ["--any-system"], ["-j", "no\x1b[2J"],
                      ["--stub", "\u202e=x"]):
            with self.subTest(words):
                done = self.attempt(*words)
                self.assertEqual(steering(done.stdout + done.stderr), [], (done.stdout, done.stderr))
        self.assertIn("red ␛[2J <U+009B>2J", self.attempt("--any-system").stdout)

    def test_colours_on_a_terminal(self) -> None:
        self.hostile()
        shown = self.on_terminal("try", "--any-system")
        self.assertIn("\x1b[31mred\x1b[0m ␛[2J <U+009B>2J", shown)
        self.assertIn("␛[2Js", shown)
        for text in ("\x1b[2J", "\x9b", "\u202e", "\x07"):
            self.assertNotIn(text, shown)
        record = self.work() / "private" / "record"
        shown = self.on_terminal("debug", str(record), typed=b"goto 99\nshow\nwhy\nstep\nquit\n")
        self.assertIn("place", shown)
        for text in ("\x1b[2J", "\x1b]0", "\x9b", "\u202e"):
            self.assertNotIn(text, shown)

    def test_answers_of_the_program(self) -> None:
        self.workflow('- name: "a\\u202Eb\\x9b"\n  run: exit 1')
        self.attempt()
        record = str(self.work() / "private" / "record")
        shell = f'top={FRONT.parent} program={PROGRAM}; . {FRONT.parent}/tools/dispatch.sh; answer "$@"'
        for words, status in ((["why", record], 0), (["replay", record], 1), (["graph", record], 1),
                              (["why", f"{record}\u202e"], 3)):
            shown = self.shown_on_terminal(["bash", "-c", shell, "actrun", *words])
            self.assertEqual(self.status, status, shown)
            self.assertEqual(steering(shown.replace("\r\n", "\n")), [], shown)
        shown = self.shown_on_terminal(["bash", "-c", shell, "actrun", "why", record])
        self.assertIn("step 0 (a<U+202E>b<U+009B>) failed", shown)


if __name__ == "__main__":
    unittest.main()
