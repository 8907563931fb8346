"""The words of a break's prompt that look, set breaks and change the script."""
from __future__ import annotations

import json
import subprocess
import unittest

from actrun_front.live_edit import Edit, in_file, merged, replaced
from actrun_front.yaml_reader import read_document

from .live_case import LiveCase
from .try_case import NEEDS_PROGRAM, PROGRAM, sandbox_works

STEPS = """\
- name: first
  id: first
  run: echo "size=7" >>"$GITHUB_OUTPUT"
- name: make the file
  id: make
  env:
    COLOUR: blue
  run: |
    echo "reads $COLOUR ${{ steps.first.outputs.size }} ${{ steps.first.outputs.sze }}"
    cat missing.txt
- name: skipped
  if: steps.first.outputs.size == '8'
  run: echo never
- name: use it
  run: echo last
"""
PLAIN = "jobs:\n  a:\n    steps:\n      - run: echo one\n      - name: b\n        run: |\n          echo $A\n\n          echo ${{ x }}\n      - run: >\n          folded\n"


@NEEDS_PROGRAM
@unittest.skipUnless(sandbox_works(), "bwrap cannot make a room here")
class Words(LiveCase):
    """Commands on a pipe."""

    def setUp(self) -> None:
        super().setUp()
        self.workflow(STEPS)

    def editor(self, script: str) -> None:
        """An editor that is a script of a shell, in which `$1` is the file."""
        path = self.home / "editor"
        path.write_text(f"#!/bin/sh\n{script}\n", encoding="utf-8")
        path.chmod(0o755)
        self.environment["EDITOR"] = str(path)

    def test_reasons_and_values_of_the_record_so_far(self) -> None:
        done = self.at_pipe("why", "why step 0 0", "values", "explain", "values skipped", "list", "c",
                            words=("--break", "failed"))
        self.assert_status(done, 1)
        for text in (" is going since line 2", "step 1 (make the file) runs since line",
                     "step 0 (first) succeeded at line", "  steps.first.outputs.size = '7'\n",
                     "  COLOUR=blue    (env of the step)\n",
                     "names that do not exist:\n  steps.first.outputs.sze = null: steps.first.outputs has no `sze`: it has `size`\n",
                     '  + echo "reads $COLOUR 7 "\n', "  >    9        - name: make the file\n"):
            self.assertIn(text, done.stderr)

    def test_expressions_and_variables_are_printed(self) -> None:
        done = self.at_pipe("p steps.first.outputs.size", "print COLOUR", "p $COLOUR", "p steps.frst",
                            "p 1 +", "p $COLUR", "print", "c",
                            words=("--break", "make"))
        self.assert_status(done, 1)
        shown = done.stderr.partition("p steps.first.outputs.size\n")[2]
        self.assertEqual(shown.split("(break) c")[0].replace("(break) ", "> "), (
            "'7'\n> print COLOUR\nblue\n> p $COLOUR\nblue\n> p steps.frst\nnull\n  steps.frst: steps has no `frst`: it has `first`\n"
            "> p 1 +\n1 +: expr BadChar at 2\n> p $COLUR\n$COLUR: there is no such variable; did you mean COLOUR?\n"
            "> print\nprint: write an expression or a variable, as `print PATH` or `print matrix.os`\n"))

    def test_breaks_are_set_and_removed_while_it_executes(self) -> None:
        done = self.at_pipe("b use it", "b use it if steps.first.outputs.size == '8'", "tbreak skipped",
                            "b nowhere", "info b", "d 3", "d 9",
                            "info x", "skip", "i b", "d", "info breaks", "c", words=("--break", "make"))
        self.assert_status(done, 0)
        for text in ("  1  make\n  2  use it\n  3  use it if steps.first.outputs.size == '8'\n  4  skipped, once\n", "\ncleared\n",
                     "break nowhere: no step, id or job has this name",
                     "no such break: `info breaks` lists them", "info: write `info legs` or `info breaks`",
                     "before one: use it", "no break is set\n"):
            self.assertIn(text, done.stderr)

    def test_a_condition_decides_whether_it_stops(self) -> None:
        for size, count in (("7", 1), ("8", 0)):
            words = "--break", f"make if steps.first.outputs.size == '{size}'", "--keep", str(self.room / size)
            done = self.at_pipe("skip", words=words)
            self.assertEqual(done.stderr.count("\nbreak: "), count, done.stderr)

        done = self.at_pipe("c", words=("--break", "make if 1 +"))
        self.assert_status(done, 2)
        self.assertIn("--break make if 1 +: expr BadChar at 2", done.stderr)

    def test_words_of_other_debuggers(self) -> None:
        self.workflow("- id: a\n  run: echo needle >a\n- run: cat a\n- run: 'true'\n- id: last\n  run: 'true'")
        done = self.at_pipe("s", "n", "cat a", "cat ../x", "cat b", "cat", "/NEEDLE", "where", "info legs", "rs", "goto 3", "help w",
                            "help x", "until last", "del 2", "cont", words=("--break", "one"))
        self.assert_status(done, 0)
        for text in ("(break) s\n", "before one: cat a", "(break) cat a\nneedle\n", "../x: this leads out of the workspace\n",
                     "(break) cat b\nb: no such file or directory\n", "cat: write the path of a file", ": step 1 (cat a) of leg 0 (one): needle\n",
                     "  #0 step 2 (true) of leg 0 (one): running  [.github/workflows/ci.yml:9]\n  #1 leg 0 (one): running",
                     "* leg 0 (one): running", "rs: an execution goes forward: in another terminal, `actrun debug /",
                     "  watch EXPR (w)  stop before", "x: there is no such command; `help` lists them\n",
                     "break: before one: true  [.github/workflows/ci.yml:10]", "no such break"):
            self.assertIn(text, done.stderr)

    def test_a_value_is_watched_between_steps(self) -> None:
        self.workflow("- id: a\n  run: echo v=1 >>\"$GITHUB_OUTPUT\"\n- run: 'true'\n- run: echo M=2 >>\"$GITHUB_ENV\"\n- name: last\n  run: 'true'")
        done = self.at_pipe("w steps.a.outputs.v", "watch env.M", "w 1 +", "w", "i b", "c", "d 2", "w matrix.x", "c", "w env.M", "c",
                            words=("--break", "one"))
        self.assert_status(done, 0)
        for text in ("watching steps.a.outputs.v in one: null\n", "watching env.M in one: null\n", "\n1 +: expr ",
                     "watch: write an expression", "  1  one\n  2  watch steps.a.outputs.v\n  3  watch env.M\n",
                     "break: before one: true  [.github/workflows/ci.yml:8]\n  break 2: steps.a.outputs.v: null \u2192 '1'\n",
                     "break: before one: last  [.github/workflows/ci.yml:10]\n  break 3: env.M: null \u2192 '2'\n",
                     "watching env.M in one: '2'; no later step of this leg can change it\n"):
            self.assertIn(text, done.stderr)
        self.assertEqual(done.stderr.count("\nbreak: "), 3, done.stderr)

    def test_the_log_has_lines_with_a_pattern(self) -> None:
        done = self.at_pipe("log missing", "c", words=("--break", "failed"))
        self.assertIn("(break) log missing\ncat: missing.txt: No such file or directory\n(break) ",
                      done.stderr)

    def test_a_changed_script_is_executed_and_given_as_a_patch(self) -> None:
        self.commit()
        self.editor("sed -i 's/^cat missing.txt/cat missing.txt || echo mended/' \"$1\"")
        done = self.at_pipe("edit", "script", "run", "c", words=("--break", "failed"))
        self.assert_status(done, 0)
        self.assertIn("the script is changed for this execution", done.stderr)
        self.assertIn("\ncat missing.txt || echo mended\n", done.stderr)
        self.assertIn("\nmended\n", done.stdout)
        said = done.stdout.partition("you changed step one: make the file: apply it to .github/workflows/ci.yml? This does: ")[2]
        self.assertIn("-          cat missing.txt\n  +          cat missing.txt || echo mended\n", said)
        file = self.project / ".github/workflows/ci.yml"
        self.assertNotIn("mended", file.read_text(encoding="utf-8"))  # (nobody asked for it)
        subprocess.run(["sh", "-c", said.splitlines()[0]], check=True)
        self.assertIn("          cat missing.txt || echo mended\n", file.read_text(encoding="utf-8"))
        self.assertIn("${{ steps.first.outputs.sze }}", file.read_text(encoding="utf-8"))
        entries = map(json.loads,
                      (self.work() / "private/record").read_text(encoding="utf-8").splitlines()[1:])
        self.assertEqual([entry["answer"]["code"] for entry in entries if entry["event"] == "end"], [0, 0, 0])
        self.assertEqual(subprocess.run([PROGRAM, "replay", self.work() / "private/record"],
                                        capture_output=True, check=False).returncode, 0)

    def test_an_editor_that_fails_changes_nothing(self) -> None:
        for number, (editor, said) in enumerate((("exit 3",
                                                  "ended with status 3: the script stays as it was"),
                                                  ("true", "the script is as it was"),
                                                 ("rm \"$1\"", "No such file or directory: set EDITOR"))):
            self.editor(editor)
            done = self.at_pipe("edit", "skip",
                                words=("--break", "make", "--keep", str(self.room / str(number))))
            self.assert_status(done, 0)
            self.assertIn(said, done.stderr)
            self.assertNotIn("you changed", done.stdout)
        del self.environment["EDITOR"]
        done = self.at_pipe("edit", "skip", words=("--break", "make"))
        self.assertIn("edit: the variable EDITOR names no editor", done.stderr)

    def test_lines_are_completed_and_the_history_is_kept(self) -> None:
        person = self.person("--break", "make")
        person.at("expl\t")
        self.assertIn('echo "reads $COLOUR 7 "', person.at("pri\tsteps.first.outputs.si\t"))
        self.assertIn("'7'", person.at("ski\t"))
        self.assertEqual(person.end(), 0)
        history = self.home / ".cache/actrun/history"
        self.assertEqual(history.stat().st_mode & 0o777, 0o600)
        self.assertEqual([line.strip() for line in history.read_text(encoding="utf-8").splitlines()],
                         ["explain", "print steps.first.outputs.size", "skip"])


class Patches(unittest.TestCase):
    """How a changed script becomes a change of the file."""

    def change(self, line: int, old: str, new: str) -> str:
        """The text of the file after a change of the step at a line."""
        return in_file(read_document(PLAIN.encode()), PLAIN, line, Edit(0, 0, "a", old, new))

    def test_a_script_on_one_line_stays_one_or_becomes_a_block(self) -> None:
        self.assertEqual(self.change(4, "echo one", "echo two\n"), PLAIN.replace("echo one", "echo two"))
        self.assertEqual(self.change(4, "echo one", "echo 'a: b'\ntrue"),
                         PLAIN.replace("run: echo one", "run: |\n          echo 'a: b'\n          true"))

    def test_lines_of_a_block_that_did_not_change_keep_their_expressions(self) -> None:
        self.assertEqual(self.change(5, "echo $A\n\necho 5\n", "echo $A\necho new\n\necho 5\n"),
                         PLAIN.replace("echo $A\n", "echo $A\n          echo new\n"))
        self.assertEqual(merged("a ${{ x }}\nb\n", "a 1\nb\n", "a 2\nb\n"), "a 2\nb\n")

    def test_what_has_no_place_in_the_file_is_no_patch(self) -> None:
        self.assertEqual(self.change(10, "folded\n", "other\n"), "")  # (a folded block)
        self.assertEqual(self.change(99, "a", "b"), "")
        self.assertEqual(merged("one\n", "one\ntwo\n", "x"), "")
        self.assertEqual(replaced(["run: 'a'\n"], 0, "a", "b"), "")


if __name__ == "__main__":
    unittest.main()
