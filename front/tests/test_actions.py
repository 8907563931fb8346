"""Which program replaces an action, and the wrappers that start it."""

from __future__ import annotations

import json
import pathlib
import subprocess
import tempfile
import unittest

from actrun_front import actions


class Actions(unittest.TestCase):
    def setUp(self) -> None:
        room = tempfile.TemporaryDirectory(prefix="actrun actions ")
        self.addCleanup(room.cleanup)
        self.room = pathlib.Path(room.name)

    def stubs(self, uses, named=None, lenient=False) -> actions.Stubs:
        return actions.stubs_for(uses, named or {}, lenient, self.room / "wrappers", "/usr/bin/python3")

    def program(self, name: str, script: str) -> str:
        place = self.room / name
        place.write_text("#!/bin/sh\n" + script + "\n", encoding="utf-8")
        place.chmod(0o755)
        return str(place)

    def shown(self, wrapper: str, **environment: str) -> tuple[int, str]:
        done = subprocess.run([wrapper], env={"PATH": "/usr/bin:/bin", **environment}, capture_output=True, text=True, check=False)
        return done.returncode, done.stdout

    def test_names_leave_the_ref_out_and_ignore_case(self) -> None:
        self.assertEqual(actions.action_name("Actions/Cache/save@v4"), "actions/cache/save")
        self.assertEqual(actions.action_name("./.github/Actions/a@b"), "./.github/Actions/a@b")
        self.assertEqual(actions.action_name("docker://alpine:3.18"), "docker://alpine:3.18")

    def test_every_text_gets_a_wrapper_of_its_own(self) -> None:
        uses = ["actions/checkout@v3", "actions/checkout@v4", "./a b", "docker://x", "who/what@1", "who/what@1"]
        stubs = self.stubs(uses)
        self.assertEqual(set(stubs.programs), set(uses))
        self.assertEqual(len(set(stubs.programs.values())), 5)

    def test_what_has_no_stub_is_missing_or_lenient(self) -> None:
        uses = ["actions/checkout@v4", "actions/github-script@v7", "./local", "docker://x", "who/what@1"]
        without = sorted(uses[1:])
        stubs, lenient = self.stubs(uses), self.stubs(uses, lenient=True)
        self.assertEqual((sorted(stubs.missing), stubs.lenient), (without, []))
        self.assertEqual((lenient.missing, sorted(lenient.lenient)), ([], without))

    def test_a_missing_stub_fails_and_says_how_to_name_one(self) -> None:
        for text, key, why in (("who/what@v1", "who/what", "no program replaces the action who/what@v1"),
                               ("./local", "./local", "the local action ./local"), ("docker://x:1", "docker://x:1", "a container"),
                               ("o/r/.github/workflows/w.yml@v1", "o/r/.github/workflows/w.yml", "a workflow of another repository"),
                               ("actions/github-script@v7", "actions/github-script", "actions/github-script needs the API of GitHub")):
            code, shown = self.shown(self.stubs([text]).programs[text])
            self.assertEqual(code, 1)
            self.assertIn(why, shown)
            self.assertIn(f"--stub {key}=PROGRAM", shown)
            self.assertTrue(shown.startswith("::error::"), shown)

    def test_lenient_skips_with_a_warning(self) -> None:
        code, shown = self.shown(self.stubs(["who/what@v1"], lenient=True).programs["who/what@v1"])
        self.assertEqual((code, shown), (0, "::warning::skipped: no program replaces the action who/what@v1\n"))

    def test_the_longest_name_of_a_program_wins(self) -> None:
        named = {"a/b": self.program("of-owner", "echo owner"), "a/b/c": self.program("of-path", "echo path"),
                 "a/b/c@v2": self.program("of-ref", "echo ref")}
        uses = {"a/b@v1": "owner\n", "a/b/d@v1": "owner\n", "A/B/C@v1": "path\n", "a/b/c@v2": "ref\n"}
        stubs = self.stubs(uses, named)
        self.assertEqual(sorted(stubs.named), sorted(uses))
        for text, expected in uses.items():
            self.assertEqual(self.shown(stubs.programs[text]), (0, expected))

    def test_a_named_program_stands_before_a_shipped_stub(self) -> None:
        stubs = self.stubs(["actions/checkout@v4"], {"actions/checkout": self.program("mine", 'echo "mine $#"; exit 7')})
        self.assertEqual(self.shown(stubs.programs["actions/checkout@v4"]), (7, "mine 0\n"))

    def test_a_name_of_other_letters_does_not_match(self) -> None:
        stubs = self.stubs(["a/bc@v1", "x@v1"], {"a/b": self.program("p", "")})
        self.assertEqual(stubs.named, [])

    def test_a_program_that_is_not_there_is_refused(self) -> None:
        for program, remedy in (("/no/such", "is not there"), ("no-such-program", "is not there"), (__file__, "chmod +x")):
            with self.assertRaises(actions.StubError) as caught:
                self.stubs(["a/b@v1"], {"a/b": program})
            self.assertIn(f"--stub a/b={program}", str(caught.exception))
            self.assertIn(remedy, str(caught.exception))

    def test_a_sandbox_is_told_of_the_programs_it_has_to_show(self) -> None:
        program = self.program("mine", "")
        self.assertEqual(self.stubs(["a/b@v1"], {"a/b": program, "c/d": "true"}).binds,
                         [actions.STUBS.parent, pathlib.Path(program)])

    def test_a_wrapper_executes_the_prelude_and_hands_the_text_on(self) -> None:
        text = "who/wh'at $(touch x)\n`touch y`@v1"
        stubs = self.stubs([text], {text: self.program("mine", 'echo "$ACTRUN_ACTION"')})
        prelude = self.room / "prelude"
        prelude.write_text("echo marker\n", encoding="utf-8")
        self.assertEqual(self.shown(stubs.programs[text], ACTRUN_PRELUDE=str(prelude)), (0, f"marker\n{text}\n"))

    def test_each_entry_of_the_table_names_a_program_that_is_there(self) -> None:
        table = json.loads((actions.STUBS / "actions.json").read_text(encoding="utf-8"))
        for name, entry in table.items():
            self.assertTrue((actions.STUBS / entry["stub"]).is_file(), name)
            self.assertEqual("why" in entry, entry["stub"] == "without.py", name)
            self.assertEqual("tools" in entry, entry["stub"] == "setup.py", name)


if __name__ == "__main__":
    unittest.main()
