"""The prompt of `actrun debug`: the program's own words against what the program answers to them, and the
words of the front."""
from __future__ import annotations

import os
import pty
import re
import subprocess
import tempfile
import unittest
from pathlib import Path

from actrun_front.dap_record import Record, Walker
from actrun_front.debug import COMMANDS, SHORT, Prompt, changes_of
from actrun_front.prompt_lines import next_words

from .dap_case import EXAMPLES, NEEDS_PROGRAM, PROGRAM, TOP
from .values_case import FAILED, MISSING, ValuesCase

RECORD = EXAMPLES / "nightly.record"
LINES = ["go", "step", "step", "show", "back", "goto 30", "break leg 2", "go-back", "show", "clear leg 2",
         "clear leg 2", "goto 38",
         "step", "goto 0", "back", "goto 39", "goto", "break ends 2", "go", "x\u00fcy", "break step 2 0",
         "go-back", "go-back", "go-back x"]


def prompt_of(record: Path) -> Prompt:
    """A prompt for a record."""
    return Prompt(Walker(PROGRAM, record), Record(PROGRAM, record.read_bytes()), changes_of(record), record)


@NEEDS_PROGRAM
class Answers(unittest.TestCase):
    """The program's own words."""

    def setUp(self) -> None:
        self.prompt = prompt_of(RECORD)
        self.addCleanup(self.prompt.walker.close)

    def ask(self, line: str) -> list[str]:
        """What is shown after a line."""
        return list(self.prompt.answers(line))

    def test_they_are_those_of_the_program(self) -> None:
        """Behind an answer may be a remedy, and below a place the event that led there."""
        found = [line for asked in LINES for line in self.ask(asked)]
        wanted = subprocess.run([PROGRAM, "debug", RECORD], input="\n".join(LINES).encode(),
                                capture_output=True, check=True).stdout.decode()
        self.assertEqual([re.split("[:;] ", line)[0] if re.match("debug |unknown ", line) else line
                          for line in found if line[:2] != "  "],
                         wanted.splitlines())

    def test_a_place_has_its_event_and_what_that_changed(self) -> None:
        self.assertEqual(self.ask("goto 26"), ["place 26 of 38", "  finish leg 2 (suites, suite browser)",
                                               "    leg 2 ended failure", "    ends 2"])
        self.assertEqual(self.ask("rs")[2:], ["    leg 2 running 1 idle", "    step 1 success success {}"])
        self.assertEqual(self.ask("goto 0"), ["place 0 of 38"])

    def test_remedies(self) -> None:
        self.assertEqual([self.ask(line) for line in ("go", "back", "goto 99", "stpe")], [
            ["debug NoBreak: no break holds further on: `break failed` sets one where a step fails"],
            ["debug AtStart: this is the first place"], ["debug NoPlace: the places are 0 to 38"],
            ["unknown command; did you mean step?: `help` lists the commands"]])

    def test_why_is_that_of_the_place(self) -> None:
        self.assertIn("was not judged", self.ask("why job 2")[0])
        self.ask("goto 38")
        wanted = subprocess.run([PROGRAM, "why", RECORD, "job", "2"], capture_output=True, check=True,
                                text=True).stdout
        self.assertEqual(self.ask("why job 2"), [wanted[:-1]])
        self.assertRegex(self.ask("why job 99")[0], "^why job 99: actrun: why NoSuch; ask ")

    def test_each_word_is_known_and_in_the_help(self) -> None:
        known, listed = {*self.prompt.words(), "/TEXT"}, " ".join(COMMANDS)
        for word in known - {"clear", "go-back"}:
            self.assertIn(word, listed)
        self.assertLessEqual({*SHORT.values()}, known | {"quit"})
        self.assertIn("Tab completes", self.ask("h")[1])

    def test_a_break_at_a_failure_stops_where_the_step_ended(self) -> None:
        self.assertEqual(self.ask("b failed"), ["break set"])
        self.assertEqual(self.ask("c")[1], "  end of step 0 (Run the suite) of leg 2 (suites, suite browser)")
        self.assertEqual(self.ask("back")[1],
                         "  begin of step 0 (Run the suite) of leg 2 (suites, suite browser)")
        self.assertEqual([self.ask("rc")[0], self.ask("rc")[0]], ["place 0 of 38"] * 2)
        self.assertEqual([self.ask("jump failed")[0], self.ask("clear failed")[0], self.ask("c")[0]],
                         ["place 23 of 38", "cleared", "place 38 of 38"])

    def test_an_interrupt_leaves_the_walk_whole(self) -> None:
        self.ask("goto 5")
        self.prompt.walker.process.stdin.write(b"show\nstep\n")  # (answers that nobody reads)
        self.prompt.walker.process.stdin.flush()
        self.prompt.walker.settle(7)
        self.assertEqual(self.ask("step")[0], "place 8 of 38")


@NEEDS_PROGRAM
class Words(ValuesCase):
    """The words of debuggers, on a record of `try`."""

    def setUp(self) -> None:
        super().setUp()
        self.prompt = prompt_of(self.typo())
        self.addCleanup(self.prompt.walker.close)

    def ask(self, *lines: str) -> list[str]:
        """What is shown after the last of some lines."""
        for line in lines:
            found = list(self.prompt.answers(line))
        return found

    def test_a_typo_is_named_right_after_the_failure(self) -> None:
        self.assertEqual(self.ask("b failed", "c")[0], f"place {FAILED} of 18")
        explained, values = self.ask("explain"), self.ask("values")
        self.assertEqual(explained[1:5], ["  error: README.md:1: no channel", *MISSING])
        self.assertEqual(values[1:4], MISSING)
        self.assertIn("  LEVEL=workflow    (env of the workflow)", values)

    def test_next_and_back_go_by_the_steps_of_a_leg(self) -> None:
        self.ask("goto 6")
        places = [self.ask(word)[0].split()[1] for word in ("n", "n", "finish", "rn", "rn", "rn")]
        self.assertEqual(places, ["7", "8", "18", "7", "5", "0"])
        self.assertEqual(self.ask("s")[0], "place 1 of 18")

    def test_moves_take_how_often(self) -> None:
        self.ask("goto 5")
        places = [self.ask(word)[0].split()[1] for word in ("s 3", "rs 2", "n 2", "rn 9", "step 99")]
        self.assertEqual(places, ["8", "6", "8", "0", "18"])
        self.assertEqual(self.ask("s 2"), ["debug AtEnd: this is the last place"])
        self.assertEqual(self.ask("back x"), ["unknown command; did you mean back?: `help` lists the commands"])

    def test_words_are_known_by_their_first_letters(self) -> None:
        self.assertEqual([self.ask(word)[0] for word in ("fin", "cont", "del", "unkn")], [
            "place 8 of 18", "place 18 of 18", "no such break: `info breaks` lists them",
            "unknown command: `help` lists the commands"])
        self.assertIn("unknown command", self.ask("rev")[0])  # (several begin so)

    def test_help_of_a_word_and_words_of_a_live_execution(self) -> None:
        for word in ("w", "watch"):
            self.assertEqual(self.ask(f"help {word}"), ["  watch EXPR (w)  stop where the value of an expression changes, forwards and back"])
        self.assertIn("there is no such command", self.ask("help nonsense")[0])
        self.assertEqual(self.ask("run"), ["run: nothing of a record is executed: `actrun try --from STEP` executes "
                                           "again, `try --break STEP` stops there"])

    def test_an_error_names_the_word_that_was_typed(self) -> None:
        for line in ("list 1,5", "b nowhere", "explain nowhere", "until nowhere"):
            self.assertRegex(self.ask(line)[0], f"^{'break' if line[0] == 'b' else line.split()[0]} .*: no step, id or job ")

    def test_until_and_jump_take_places_steps_and_failures(self) -> None:
        self.assertEqual(self.ask("until deploy/deploy")[0], "place 14 of 18")
        self.assertEqual(self.ask("until 3"), ["3: there is no such place from here on"])
        self.assertEqual(self.ask("jump pick")[0], "place 5 of 18")
        self.assertEqual(self.ask("u")[0], "place 7 of 18")
        self.assertEqual([self.ask(line)[0] for line in ("goto 0", "j skipped")],
                         ["place 0 of 18", "place 7 of 18"])

    def test_breaks_have_names_conditions_and_numbers(self) -> None:
        for line in ("b never if steps.pick.outputs.channel == 'beta'", "b look if matrix.zone == 'us'",
                     "tbreak ci.yml:32"):
            self.assertEqual(self.ask(line), ["break set"])
        self.assertEqual(self.ask("info b"),
                         ["  1  never if steps.pick.outputs.channel == 'beta'  (places: 1)",
                                              "  2  look if matrix.zone == 'us'  (places: 1)",
                                              "  3  ci.yml:32, once  (places: 1)"])
        self.assertEqual([self.ask("c")[0] for _ in range(3)],
                         ["place 7 of 18", "place 14 of 18", "place 18 of 18"])
        self.assertEqual([self.ask("rc")[0] for _ in range(2)], ["place 7 of 18", "place 0 of 18"])
        self.assertEqual([self.ask(line)[0] for line in ("d 1", "d 9", "d", "info b")], [
            "cleared", "no such break: `info breaks` lists them", "cleared",
            "no break is set: `break failed` sets one where a step fails"])
        self.assertIn("did you mean never?", self.ask("b nevr")[0])
        self.assertRegex(self.ask("b never if 1 +")[0], "^1 \\+: expr ")

    def test_a_value_is_watched_both_ways(self) -> None:
        self.assertEqual(self.ask("frame leg 0", "w steps.pick.outputs.channel"),
                         ["watching steps.pick.outputs.channel in leg 0 (build): null"])
        self.assertIn("  break 1: steps.pick.outputs.channel: null \u2192 'beta'", self.ask("c"))
        self.assertEqual(self.prompt.walker.place, 6)
        self.assertIn("  break 1: steps.pick.outputs.channel: 'beta' \u2192 null", self.ask("rc"))
        self.assertRegex(self.ask("w 1 +")[0], "^1 \\+: expr ")

    def test_values_are_printed(self) -> None:
        self.ask(f"goto {FAILED}")
        for line, shown in (("p matrix.zone", "'eu'"), ("p $ZONE", "eu"), ("p ZONE", "eu"),
                            ("p env.LEVEL", "workflow"),
                            ("print secrets.TOKEN", "'***'"),
                            ("p $ZNE", "$ZNE: there is no such variable; did you mean ZONE?")):
            self.assertEqual(self.ask(line)[0], shown)
        self.assertEqual(self.ask("p matrix.zoone"),
                         ["null", "  matrix.zoone: matrix has no `zoone`: it has `zone`"])
        self.assertIn("  ZONE=eu    (env of the step: ${{ matrix.zone }})", self.ask("env"))
        self.assertNotIn("topsecret", "".join(self.ask("env")))

    def test_frames_and_lists(self) -> None:
        self.ask(f"goto {FAILED}")
        found = self.ask("bt")
        self.assertEqual(found[0],
                         "  #0 step 1 (deploy) of leg 1 (deploy, zone eu): failure  [.github/workflows/ci.yml:32]")
        self.assertEqual([line.split(" (")[0] for line in found],
                         ["  #0 step 1", "  #1 leg 1", "  #2 job 1", "  #3 run 0"])
        self.assertEqual(self.ask("info legs")[1], "* leg 1 (deploy, zone eu): running 0 idle")
        self.assertIn("#0 step 1 (never) of leg 0 (build): skipped", self.ask("frame leg 0")[0])
        self.assertIn("#0 step 0 (pick a channel)", self.ask("f step 0 0")[0])
        self.assertIn("  >   11        - id: pick", self.ask("l"))
        self.assertIn("#0 step 0 (look) of leg 1", self.ask("frame deploy")[0])
        self.assertEqual(self.ask("frame leg 9"), ["the record has no leg 9: its last leg is 2"])
        self.assertIn("leg 0 ended success", self.ask("show"))

    def test_a_leg_in_which_nothing_has_begun_is_explained_by_its_job(self) -> None:
        self.assertIn("job 1 (deploy): unjudged", self.ask("goto 2", "frame leg 1", "explain")[0])
        self.assertIn("success() \u2192 false", "".join(self.ask("explain")))

    def test_logs_are_shown_and_searched(self) -> None:
        self.ask(f"goto {FAILED}")
        self.assertEqual(self.ask("log"), ["to  in eu", "error: no channel"])
        self.assertEqual(self.ask("log CHAN"), ["error: no channel"])
        self.assertEqual(self.ask("log ("), ["no line has ("])
        self.assertEqual(self.ask("/no chan"),
                         [f"  {FAILED}: step 1 (deploy) of leg 1 (deploy, zone eu): error: no channel"])
        self.assertEqual(self.ask("/nowhere"), ["no log has nowhere"])
        self.assertIn("its program has not ended", self.ask("rn", "log")[0])

    def test_lines_that_can_be_completed(self) -> None:
        lines = self.prompt.lines()
        for typed, begun, wanted in (("st", "st", ["step "]), ("break pi", "pi", ["pick "]),
                                     ("break pick a", "a", ["a "]), ("frame leg ", "", ["0 ", "1 ", "2 "]),
                                     ("print matr", "matr", ["matrix "]), ("info l", "l", ["legs "]),
                                     ("x", "x", [])):
            self.assertEqual(next_words(lines, typed, begun), wanted, typed)
        self.ask(f"goto {FAILED}")
        self.assertEqual(next_words(self.prompt.lines(), "p matr", "matr"), ["matrix.zone "])


@NEEDS_PROGRAM
class Terminal(unittest.TestCase):
    """A person at a terminal."""

    def setUp(self) -> None:
        room = tempfile.TemporaryDirectory(prefix="actrun-debug-", dir=os.environ.get("ACTRUN_TEST_FOLDER"))
        self.addCleanup(room.cleanup)
        self.room = Path(room.name)

    def talk(self, record: Path, typed: bytes, term: str = "dumb") -> tuple[int, str]:
        """The exit status, and what a terminal shows on which this is typed."""
        reader, writer = pty.openpty()
        script = f"set -u; top={TOP}; program={PROGRAM}; . {TOP}/tools/dispatch.sh; answer debug {record}"
        started = subprocess.Popen(["setsid", "--ctty", "--wait", "bash", "-c", script], stdin=writer,
                                   stdout=writer, stderr=writer,
                                   env={**os.environ, "TERM": term, "XDG_CACHE_HOME": str(self.room)})
        os.close(writer)
        shown = b""
        try:
            while more := os.read(reader, 4096):
                shown += more
                if typed and shown.endswith(b"> "):
                    line, end, typed = typed.partition(b"\n")
                    os.write(reader, line + end)
        except OSError:
            pass
        os.close(reader)
        return started.wait(timeout=60), shown.decode().replace("\r\n", "\n")

    def test_a_prompt_has_the_place(self) -> None:
        status, shown = self.talk(RECORD, b"break failed\ngo\n\n\x04\n")
        self.assertEqual(status, 0, shown)
        self.assertEqual(shown.splitlines()[0], f"{RECORD}: 38 events; `help` lists the commands")
        for text in ("0/38> ", "\nbreak set\n", "\nplace 23 of 38\n", "23/38> "):
            self.assertIn(text, shown)

    def test_words_and_names_are_completed_and_the_history_is_kept(self) -> None:
        status, shown = self.talk(RECORD, b"got\t12\nwhy le\t0\n\x1b[A\x1b[A\nq\n", "xterm")
        self.assertEqual(status, 0, shown)
        self.assertEqual(shown.count("place 12 of 38"), 2)
        self.assertIn("leg 0 (", shown)
        history = self.room / "actrun" / "history"
        self.assertEqual(history.stat().st_mode & 0o777, 0o600)
        self.assertEqual([line.strip() for line in history.read_text().splitlines()],
                         ["goto 12", "why leg 0", "goto 12", "q"])

    def test_results_have_colours(self) -> None:
        shown = self.talk(RECORD, b"goto 26\nquit\n", "xterm")[1]
        self.assertIn("\x1b[1mplace 26 of 38\x1b[0m", shown)
        self.assertIn("leg 2 ended \x1b[31mfailure\x1b[0m", shown)

    def test_an_interrupt_throws_a_line_away(self) -> None:
        status, shown = self.talk(RECORD, b"goto 3\nstep\x03\nback\nquit\n")
        self.assertEqual(status, 0, shown)
        self.assertIn("\nplace 2 of 38\n", shown)

    def test_a_record_that_is_refused_is_explained(self) -> None:
        status, shown = self.talk(EXAMPLES / "cut.record", b"")
        self.assertEqual((status, shown.splitlines()[0]), (2, "actrun: line 4 NotEntry"))
        self.assertIn("cut short", shown)
        status, shown = self.talk(self.room / "none", b"")
        self.assertEqual((status, shown.splitlines()[0]), (3, "actrun: io"))

    def test_a_record_that_grows_is_walked_so_far(self) -> None:
        part = self.room / "r.part"
        lines = RECORD.read_bytes().splitlines(keepends=True)
        part.write_bytes(b"".join(lines[:9]) + lines[9][:7])
        status, shown = self.talk(part, b"c\nquit\n")
        self.assertEqual(status, 0, shown)
        self.assertIn("place 8 of 8", shown)


if __name__ == "__main__":
    unittest.main()
