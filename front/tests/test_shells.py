"""Shells that a step names: login and interactive ones, PowerShell, and any program with `{0}`."""
from __future__ import annotations

import shutil
import unittest

from .lower_case import LowerCase, needs_program
from .try_case import NEEDS_PROGRAM, TryCase, sandbox_works


class Started(LowerCase):
    """What the starter starts."""

    @needs_program
    def test_pwsh_gets_a_file_of_its_own_form(self) -> None:
        self.write("bin/pwsh", "#!/bin/sh\necho \"$# $1 $2\" | sed 's/[^ ]*step/step/'\ncat \"${2#. }\" 2>/dev/null || cat \"$(echo \"$2\" | cut -d\\' -f2)\"\n")
        (self.top / "bin/pwsh").chmod(0o755)
        self.job(f"    env: {{PATH: '{self.top}/bin:/usr/bin:/bin'}}\n    steps:\n      - {{run: Get-Item, shell: pwsh}}\n"
                 "      - {run: Get-Item, shell: 'pwsh -NoProfile {0}'}\n")
        lines = ["$ErrorActionPreference = 'stop'", "Get-Item", "if ((Test-Path -LiteralPath variable:\\LASTEXITCODE)) { exit $LASTEXITCODE }"]
        self.assertEqual(self.run_plan(), ["2 -command . step-0-0.ps1'", *lines, "2 -NoProfile step-0-1.ps1", *lines])

    @needs_program
    def test_programs_with_a_place_for_the_script(self) -> None:
        self.job("    steps:\n      - {run: '$_ = \"seen\"; print', shell: 'perl {0}'}\n      - {run: 'p', shell: 'sed -n {0} /dev/null'}\n")
        if shutil.which("perl"):
            self.assertEqual(self.run_plan(status=1)[0], "seen")


@NEEDS_PROGRAM
class Login(TryCase):
    """Files of login and interactive shells, and what they do to PATH."""

    STEPS = """
- run: |
    mkdir -p own "$HOME"; echo "$PWD/own" >> "$GITHUB_PATH"
    printf '#!/bin/sh\\necho the tool\\n' > own/tool; chmod +x own/tool
    echo 'export SEEN=profile PATH=/of/profile:/usr/bin:/bin' > "$HOME/.bash_profile"
    echo 'export SEEN=rc' > "$HOME/.bashrc"
- {run: 'tool; echo "$SEEN ${PATH%%:*} ${ACTRUN_PATH-}."; case $PATH in /of/profile:*/own:*) echo in order; esac; bash -c "tool; echo \\${PATH%%:*}"', shell: 'bash -l {0}'}
- {run: 'tool; echo "$SEEN."', shell: 'bash -eo pipefail {0}'}
- {run: 'echo "$SEEN."', shell: 'bash -i {0}'}
"""

    def check(self, *words: str) -> None:
        """The profile is read, and the folders of GITHUB_PATH stay."""
        self.workflow(self.STEPS)
        done = self.attempt(*words)
        self.assert_status(done, 0)
        self.assertIn("the tool\nprofile /of/profile .\nin order\nthe tool\n/of/profile\n", done.stdout)
        self.assertIn("the tool\n.\n", done.stdout)
        self.assertIn("\nrc.\n", done.stdout)

    def test_scripts_have_files_of_their_own(self) -> None:
        self.workflow("- run: echo a=b >> \"$GITHUB_STATE\"; echo c >> \"$GITHUB_STEP_SUMMARY\"\n"
                      "- run: cat \"$GITHUB_STATE\" \"$GITHUB_STEP_SUMMARY\"; echo none")
        done = self.attempt()
        self.assert_status(done, 0)
        self.assertRegex(done.stdout, r"---[^\n]*\nnone\n")

    def test_without_sandbox(self) -> None:
        self.check("--no-sandbox", "--env", f"HOME={self.room}/steps")

    @unittest.skipUnless(sandbox_works(), "bwrap is not installed or does not work here")
    def test_in_the_sandbox(self) -> None:
        self.check()


if __name__ == "__main__":
    unittest.main()
