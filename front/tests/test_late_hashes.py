"""hashFiles of files that steps made: its value when its step begins."""
from __future__ import annotations

import re
import unittest

from actrun_front.late_hashes import calls_of, with_calls

from .lower_case import LowerCase
from .try_case import NEEDS_PROGRAM, TryCase, sandbox_works


class Rewritten(LowerCase):
    """What a step before becomes, and its texts."""

    def steps(self, text: str) -> list:
        """The lowered steps of a job whose steps are watched."""
        return self.job("    steps:\n" + "".join(f"      {line}\n" for line in text.strip("\n").split("\n")), watched=True)["steps"]

    def test_calls(self) -> None:
        self.assertEqual(calls_of("hashFiles('a', 'b,') == HASHFILES ( format('{0}', env.X), env['y)'] )"),
                         ("\0000\000 == \0001\000", [["'a'", "'b,'"], ["format('{0}', env.X)", "env['y)']"]]))
        self.assertEqual(calls_of("hashFiles("), ("\0000\000", [[]]))
        self.assertEqual(calls_of("x.y || 'hashFiles(a)'"), ("x.y || 'hashFiles(a)'", []))

    def test_known_after_a_checkout(self) -> None:
        self.write("a.lock", "a")
        for before in ("{uses: actions/checkout@v4}", "{uses: actions/checkout@v4, with: {fetch-depth: 0}}\n- {uses: actions/setup-node@v4}"):
            steps = self.steps(f"- {before}\n- {{run: \"echo ${{{{ hashFiles('*.lock') }}}}\"}}")
            self.assertEqual(steps[-1]["run"], "echo bf5d3affb73efd2ec6c36ad3112dd933efed63c4e1cbffcfa88e2759c144f2d8")

    def test_not_known_otherwise(self) -> None:
        for before in ("{run: x}", "{uses: a/b@v1}", "{uses: actions/checkout@v4, with: {path: sub}}", "{uses: actions/checkout@v4}\n- {run: x}",
                       "{run: x}\n- {uses: actions/checkout@v4}"):
            steps = self.steps(f"- {before}\n- {{if: \"hashFiles('*.lock') != ''\", name: n, run: x, env: {{A: b}}}}")
            self.assertEqual(steps[-1]["if"], "steps.actrun_hash_0.outputs.h0 != ''")
            self.assertEqual((steps[-2]["id"], steps[-2]["if"], steps[-2]["env"]["ACTRUN_HASH_0"]), ("actrun_hash_0", "success()", "${{ '*.lock' }}"))
        self.assertEqual(self.notes()[-1][1], "hashFiles is evaluated when its step begins, by a step before it")

    def test_variables_and_conditions_of_the_step(self) -> None:
        steps = self.steps("- {run: x, if: env.A, continue-on-error: true, env: {A: 'b-${{ github.sha }}', H: \"${{ hashFiles(env.A, 'c') }}\"}}")
        self.assertEqual((steps[0]["if"], steps[0]["continue-on-error"]), ("env.A", True))
        self.assertEqual(steps[0]["env"]["ACTRUN_HASH_0"], "${{ (format('b-{0}', github.sha)) }}\n${{ 'c' }}")
        self.assertEqual(steps[0]["env"]["A"], "b-${{ github.sha }}")
        self.assertEqual(steps[1]["env"]["H"], "${{ steps.actrun_hash_0.outputs.h0 }}")
        steps = self.steps("- {run: x, if: \"failure() && hashFiles('a')\"}")
        self.assertEqual(steps[0]["if"], "always()")

    def test_what_is_shown(self) -> None:
        steps = [{"id": "actrun_hash_0", "env": {"A": "b", "ACTRUN_HASH_1": "*.lock\n${{ env.X }}"}}, {"id": None, "env": {}}]
        self.assertEqual(with_calls("if steps.actrun_hash_0.outputs.h1 != ''", steps), "if hashFiles('*.lock', env.X) != ''")

    def test_a_container_has_no_such_step(self) -> None:
        steps = self.job("    container: x\n    steps:\n      - {run: \"${{ hashFiles('a') }}\"}\n", watched=True)["steps"]
        self.assertEqual(len(steps), 1)


@NEEDS_PROGRAM
class Executed(TryCase):
    """Workflows whose steps make files."""

    STEPS = """
- uses: actions/checkout@v4
- {run: 'echo new > new.lock; echo ignored > ignored.lock; ln -s /etc/hostname link.lock; echo NAME=new.lock >> $GITHUB_ENV'}
- run: echo "digest ${{ hashFiles(env.NAME) }} ${{ hashFiles('*gnored.lock') != '' }} ${{ hashFiles('none') }}."
- {if: hashFiles('none'), run: echo never}
- {if: "hashFiles('new.lock') != ''", run: echo there}
- {uses: some/action@v1, with: {word: "${{ hashFiles('new.lock') }}"}}
- {run: "echo never ${{ hashFiles('../x') }}"}
- {run: "echo never ${{ hashFiles('new.lock') }}"}
"""

    def check(self, *words: str) -> None:
        """The digests are those of the files when the step begins, and the steps before show nothing."""
        self.write(".gitignore", "ignored.lock\n")
        program = self.write("action", "#!/bin/sh\necho \"action $INPUT_WORD\"\n", 0o755)
        self.workflow(self.STEPS)
        self.commit()
        done = self.attempt("--stub", f"some/action={program}", *words)
        self.assert_status(done, 1)
        found = re.search(r"\ndigest ([0-9a-f]{64}) true \.\n", done.stdout)
        self.assertTrue(found, done.stdout)
        self.assertIn(f"\naction {found[1]}\n", done.stdout)
        self.assertIn("\nthere\n", done.stdout)
        self.assertNotIn("\nnever", done.stdout)
        self.assertIn("one: hashFiles of echo never ${{ hashFiles('../x') }}, exit 1", done.stderr)
        self.assertEqual(done.stderr.count("hashFiles of"), 1, done.stderr)
        self.assertIn("error: hashFiles has no value: the pattern ../x of hashFiles has", done.stdout)
        tree = self.attempt("-n", "--stub", f"some/action={program}").stdout
        self.assertIn("echo there, if hashFiles('new.lock') != ''\n", tree)
        self.assertNotIn("hashFiles of", tree)

    def test_without_sandbox(self) -> None:
        self.check("--no-sandbox")

    @unittest.skipUnless(sandbox_works(), "bwrap is not installed or does not work here")
    def test_in_the_sandbox(self) -> None:
        self.check()


if __name__ == "__main__":
    unittest.main()
