"""A person's words after each of the program's error lines."""

from __future__ import annotations

import os
import pathlib
import re
import subprocess
import sys
import tempfile
import unittest

from actrun_front.explain import explain, take_apart

TOP = pathlib.Path(__file__).resolve().parents[2]
# what `actrun lint` prints of this file, by docs/REFERENCE.md, "Lines of `lint`"
LINT = """\
bad.json: jobs.test.steps.0.run: refused, Expr UnclosedTemplate at 13: the `${{` there has no `}}`: close it
bad.json: jobs.test.need: `need` is not known and does nothing; did you mean `needs`?
"""


def section(title: str) -> str:
    """A part of docs/REFERENCE.md, from its title to the next of the same or a higher level."""
    text = (TOP / "docs" / "REFERENCE.md").read_text(encoding="utf-8")
    start = text.index(f"{title}\n")
    level = title.split(" ")[0]
    end = re.search(rf"^#{{1,{len(level)}}} ", text[start + len(title):], re.MULTILINE)
    return text[start:start + len(title) + end.start()] if end else text[start:]


def names_of_rows(text: str) -> list[str]:
    """The names in the first cells of rows that have nothing else there."""
    rows = re.findall(r"^\|?((?:`\w+`(?:, )?)+) \|", text, re.MULTILINE)
    return [name for row in rows for name in re.findall(r"`(\w+)`", row)]


def names_of_planning() -> tuple[list[str], list[str], list[str]]:
    """The errors of planning: those without more, those inside `Matrix`, and those inside `Expr`."""
    plan, matrix = section("### Errors of planning").split("inside `Matrix`")
    matrix, expression = matrix.split("inside `Expr`")
    own = set(names_of_rows(plan)) | set(re.findall(r"`(NoWorkflow|UnknownJob)`", plan))
    return sorted(own - {"Expr"}), names_of_rows(matrix), names_of_rows(expression)


class Explain(unittest.TestCase):
    def setUp(self) -> None:
        room = tempfile.TemporaryDirectory(prefix="actrun explain ")
        self.addCleanup(room.cleanup)
        before = os.getcwd()
        self.addCleanup(os.chdir, before)
        os.chdir(room.name)
        for name in ("ACTRUN_PROGRAM", "ACTRUN_TOP"):
            value = os.environ.pop(name, None)
            self.addCleanup(os.environ.__setitem__ if value else os.environ.pop, name, value)
        self.write("ok.json", '{"on": {"push": null, "schedule": []}, "jobs": {"build": {"steps": []}}}')
        self.write("bad.json", "{}")

    def write(self, name: str, text: str, mode: int = 0o644) -> pathlib.Path:
        place = pathlib.Path(name)
        place.write_text(text, encoding="utf-8")
        place.chmod(mode)
        return place.resolve()

    def program(self, prints: str) -> None:
        """Makes a program that answers `lint -- FILE` with these lines."""
        place = self.write("program", f"#!/bin/sh\n[ \"$1 $2\" = 'lint --' ] || exit 9\ncat <<'END'\n{prints}END\nexit 2\n", 0o755)
        os.environ["ACTRUN_PROGRAM"] = str(place)

    def test_every_line_of_the_table_has_an_explanation(self) -> None:
        text = section("## Error lines and exit statuses")
        self.assertEqual(set(re.findall(r"^\|?\d \|`actrun: (\w+)", text, re.MULTILINE)) | {"value"},
                         {"load", "line", "flow", "plan", "expr", "value", "why", "pool", "words", "io", "memory"})
        lines = ["load NotJson", "load Version", "load NotPlan", "line 3 NotEntry", "why NoSuch", "pool Workers", "words", "io", "memory"]
        rejections = set(re.findall(r"\(`(\w+)`\)", section("## Events").partition("###")[0]))
        flows, (plans, matrices, templates) = names_of_rows(section("### Errors of workflows")), names_of_planning()
        names = names_of_rows(section("## Expressions"))
        read, values = names[:names.index("NotWhole")], names[names.index("NotWhole"):]
        lines += [f"line 3 {name}" for name in rejections] + [f"flow f.json {name}" for name in flows]
        lines += [f"plan {name}" for name in plans] + [f"plan Matrix {name}" for name in matrices]
        lines += [f"plan Expr {name} at 0" for name in read + templates] + [f"expr {name} at 0" for name in read]
        lines += [f"value {name}" for name in values]
        self.assertEqual(len(lines), 9 + 9 + 7 + 5 + 3 + 9 + 2 + 9 + 5)
        for line in lines:
            words = explain(f"actrun: {line}\n", "plan", ["f.json"])
            self.assertGreater(len((words or "").split()), 4, line)

    def test_other_lines_have_none(self) -> None:
        for line in ("actrun: this is no fault of the program", "actrun: load Other", "", "run 0 success"):
            self.assertIsNone(explain(line, "plan", ["f.json"]), line)

    def test_the_lines_of_lint_that_have_the_fault(self) -> None:
        self.program(LINT)
        words = explain("actrun: plan Expr UnclosedTemplate at 13", "plan", ["--event", "push", "bad.json"])
        self.assertEqual(words, "bad.json: jobs.test.steps.0.run: the `${{` there has no `}}`: close it")

    def test_the_line_of_the_yaml_file(self) -> None:
        self.program(LINT)
        lines = {("jobs",): 3, ("jobs", "test"): 4, ("jobs", "test", "steps", 0): 7, ("jobs", "test", "steps", 0, "run"): 9}
        origins = {"bad.json": ("ci.yml", lines)}
        words = explain("actrun: plan Expr UnclosedTemplate at 13", "plan", ["bad.json"], origins)
        self.assertTrue(words.startswith("ci.yml:9: jobs.test.steps.0.run: the"), words)
        del lines[("jobs", "test", "steps", 0, "run")]
        words = explain("actrun: plan Expr UnclosedTemplate at 13", "plan", ["bad.json"], origins)
        self.assertTrue(words.startswith("ci.yml:7: jobs.test.steps.0.run: the"), words)

    def test_without_lint_the_sentence(self) -> None:
        self.assertIn("actrun lint my file.json names the place", explain("actrun: flow my file.json UnknownShell", "plan", ["my file.json"]))
        self.program("")
        self.assertIn("actrun lint FILE names the place", explain("actrun: plan Cycle", "plan", ["bad.json"]))

    def test_the_line_of_the_yaml_file_that_the_json_was_made_of(self) -> None:
        self.program(LINT)
        self.write("bad.yml", "on: push\njobs:\n  test:\n    steps:\n      - run: ${{ x\n")
        done = subprocess.run([sys.executable, str(TOP / "front"), "from-yaml", "--force", "bad.yml"], capture_output=True, check=False)
        self.assertEqual(done.returncode, 0)
        words = explain("actrun: plan Expr UnclosedTemplate at 13", "plan", ["bad.json"])
        self.assertEqual(words, "bad.yml:5: jobs.test.steps.0.run: the `${{` there has no `}}`: close it")
        self.write("bad.yml", "on: push\n")
        words = explain("actrun: plan Expr UnclosedTemplate at 13", "plan", ["bad.json"])
        self.assertTrue(words.startswith("bad.json: jobs.test"), words)

    def test_events_and_jobs_that_are_there(self) -> None:
        words = explain("actrun: plan NoWorkflow", "plan", ["--event", "pusch", "ok.json"])
        self.assertIn("pusch; did you mean push?\nthere are: push, schedule", words)
        self.assertIn("there are: build", explain("actrun: plan UnknownJob", "plan", ["--job", "x", "ok.json"]))

    def test_yaml_where_json_is_needed(self) -> None:
        self.write("a ci.yml", "on: push\n")
        words = explain("actrun: flow a ci.yml NotJson", "plan", ["a ci.yml"])
        self.assertIn("actrun from-yaml 'a ci.yml' writes a ci.json, ", words)
        # (the command does so)
        done = subprocess.run([sys.executable, str(TOP / "front"), "from-yaml", "a ci.yml"], capture_output=True, check=False)
        self.assertEqual((done.returncode, done.stdout, pathlib.Path("a ci.json").read_bytes()), (0, b"", b'{"on":"push"}\n'), done.stderr)

    def test_a_plan_where_a_workflow_is_needed(self) -> None:
        for text in ('{"runs":[],"version":2}', '{"runs":[],"version":2}\n{"event":"open"}\n'):
            self.write("a plan", text)
            for error in ("Missing", "NotJson"):
                self.assertEqual(explain(f"actrun: flow a plan {error}", "list", ["a plan"]),
                                 "a plan is a plan or a record, and no workflow: actrun table < 'a plan' shows what it has")

    def test_contexts_and_stubs(self) -> None:
        words = explain("actrun: flow c.json WrongShape", "plan", ["--contexts", "c.json", "ok.json"])
        self.assertIn("c.json: this is not a JSON object", words)
        for text, place in (('{"github":\n {"a" 1}}', ":2:7"), ("[" * 9999, ""), ('{"github": 1.5}', "")):
            self.write("c.json", text)
            words = explain("actrun: flow c.json NotJson", "plan", ["--contexts", "c.json", "ok.json"])
            self.assertTrue(words.startswith(f"c.json{place}: this is not a JSON object"), words)

    def test_the_file_that_cannot_be_opened(self) -> None:
        self.write("here.plan", "{}")
        os.mkdir("folder")
        for command, arguments, expected in (
                ("plan", ["ok.json", "ok.jsn"], "ok.jsn does not exist; did you mean ok.json?"),
                ("plan", ["--contexts", "none", "ok.jsn"], "none does not exist"),
                ("why", ["none/x.record", "leg", "0"], "the directory none of x.record does not exist"),
                ("run", ["folder"], "folder is a directory"),
                ("run", ["--work", "none", "--record", "none/r", "here.plan"], "the directory none of the record does not exist: mkdir -p it"),
                ("run", ["--work", "", "here.plan"], "--work '' names no directory: write one"),
                ("run", ["--stubs", "", "here.plan"], "the name of a file is empty"),
                ("run", ["--record", "none/r", "here.plan"], "the directory none of the record does not exist: mkdir -p it"),
                ("run", ["--record", "folder", "here.plan"], "the record folder is a directory: name a file in it"),
                ("run", ["--record", "/proc/r", "here.plan"], "all files that are named can be opened"),
                ("list", ["ok.json"], "is the disk full"), ("table", [], "is the disk full")):
            words = explain("actrun: io", command, arguments)
            self.assertTrue(words.startswith(expected) or expected == "is the disk full" and expected in words, words)

    def test_how_far_a_part_has_the_record(self) -> None:
        """By the status of `replay`; an empty one, and another user's, have nothing of this run."""
        self.write("here.plan", "{}")
        os.mkdir("folder")
        place = self.write("program", "#!/bin/sh\n[ \"$1 $2 $3\" = 'replay -- folder.part' ] && cat folder.part && exit $(cat status)\n", 0o755)
        os.environ["ACTRUN_PROGRAM"] = str(place)
        whole, early = "folder.part has the whole record: mv folder.part NAME keeps it", "folder.part ends at line 2, before all runs are closed: actrun why"
        for status, part, expected in (("0", "1\n2\n", whole), ("1", "1\n2\n", whole), ("4", "1\n2\n", early), ("2", "1\n2\n", ""), ("1", "", "")):
            self.write("status", status)
            self.write("folder.part", part)
            reason, _, kept = explain("actrun: io", "run", ["--record", "folder", "here.plan"]).partition("\n")
            self.assertEqual((reason, kept[:len(expected) or None]), ("the record folder is a directory: name a file in it", expected))

    def test_a_pipe_is_not_waited_for(self) -> None:
        os.mkfifo("pipe")
        self.program("")
        self.assertIn("a read or a write failed", explain("actrun: io", "replay", ["pipe"]))
        self.assertIn("lint pipe names", explain("actrun: flow pipe LeftOut", "plan", ["pipe"]))
        self.assertIn("no workflow is started", explain("actrun: plan NoWorkflow", "plan", ["--event", "x", "pipe"]))

    def test_what_is_wrong_with_the_arguments(self) -> None:
        for command, arguments, expected in (
                ("plam", [], "there is no command plam; did you mean plan?"), ("plan", [], "plan needs a file"),
                ("eval", [], "eval needs an expression"), ("run", ["--worker", "x"], "run has no option --worker; did you mean --workers?"),
                ("run", ["x", "--work"], "a value is missing after --work"), ("replay", ["--settled", "--settled", "r"], "is given twice"),
                ("run", ["--progress=x", "p"], "--progress takes no value"), ("run", ["--work=a", "--work", "b", "p"], "--work is given twice"),
                ("plan", ["--event", "a", "--job", "b", "f"], "--event and --job are not taken together"),
                ("replay", ["--changes", "--settled", "r"], "--settled and --changes are not taken together"),
                ("eval", ["1", "==", "2"], "eval takes one expression: put it in quotes"), ("run", ["a", "b"], "run takes one file: b is too many"),
                ("why", ["r", "legs", "0"], "legs 0 is not run R, job J, leg L or step L S"), ("why", ["r", "step", "0"], "step 0 is not run R"),
                ("table", ["a r"], "table reads standard input: actrun table < 'a r'"), ("run", ["--workers", "two", "p"], "takes 1 to 16, not two")):
            self.assertIn(expected, explain("actrun: words", command, arguments))
        self.assertIn("--workers takes 1 to 16, not 40", explain("actrun: pool Workers", "run", ["--workers=40", "p"]))

    def test_the_usage_of_the_command(self) -> None:
        os.makedirs("top/docs")
        self.write("top/docs/commands.txt", "usage: actrun plan FLOW..\n  prints a plan\n\nusage: actrun why RECORD\n")
        os.environ["ACTRUN_TOP"] = "top"
        self.assertEqual(explain("actrun: words", "plan", []), "plan needs a file\nusage: actrun plan FLOW..\n  prints a plan")
        self.assertEqual(explain("actrun: words", "why", []), "why needs a file\nusage: actrun why RECORD")

    def test_arguments_are_taken_apart(self) -> None:
        words = take_apart("run", ["--workers", "3", "--progress", "--", "-x.plan"])
        self.assertEqual(words, ({"--workers": "3", "--progress": ""}, ["-x.plan"], []))
        self.assertEqual(take_apart("eval", ["-1"])[1], ["-1"])

    def test_the_place_in_an_expression(self) -> None:
        self.assertTrue(explain("actrun: expr BadChar at 6", "eval", ["'ä' = 1"]).endswith("\n  'ä' = 1\n       ^"))
        self.assertNotIn("^", explain("actrun: expr BadChar at 1", "eval", ["1\n="]))
        self.assertEqual(explain("actrun: expr BadChar at 3", "eval", ["!  ${{ x }}"]),
                         "the expression is written without ${{ and }}\n  !  ${{ x }}\n     ^")

    def test_files_and_lines_of_records(self) -> None:
        self.assertTrue(explain("actrun: line 7 WrongState", "why", ["a.record"]).startswith("a.record:7: "))
        self.assertTrue(explain("actrun: line 7 NotEntry", "table", []).startswith("standard input:7: "))
        self.assertTrue(explain("actrun: line 7 NotEntry", "table", []).endswith(": head -n 6 FILE > RECORD"))
        self.assertTrue(explain("actrun: line 7 NotEntry", "why", ["a record", "leg", "0"]).endswith(": head -n 6 'a record' > RECORD"))

    def test_the_command_explains_the_last_line_on_standard_error(self) -> None:
        self.write("err", "leg 0 (a) step 0 of 1 started: x\nactrun: pool Workers\n")
        command = [sys.executable, str(TOP / "front"), "explain-error", "2", "err", "run", "--workers", "40", "p"]
        done = subprocess.run(command, capture_output=True, text=True, check=False)
        self.assertEqual((done.returncode, done.stdout, done.stderr), (0, "", "  --workers takes 1 to 16, not 40\n"))
        self.write("err", "nothing of ours\n")
        done = subprocess.run(command, capture_output=True, text=True, check=False)
        self.assertEqual((done.returncode, done.stdout, done.stderr), (0, "", ""))


if __name__ == "__main__":
    unittest.main()
