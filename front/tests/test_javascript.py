"""JavaScript and composite actions of other repositories, and old commands of scripts, as `actrun try` executes them."""
from __future__ import annotations

import re
import shutil
import unittest

from tests.action_case import ActionCase
from tests.try_case import NEEDS_PROGRAM

NEEDS_NODE = unittest.skipUnless(shutil.which("node"), "node is not installed (apt-get install nodejs)")
TELLING = """\
name: telling
inputs:
  word: {default: dflt}
  two words: {default: "${{ github.event_name }}-${{ runner.os }}"}
  token: {default: "${{ github.token }}"}
  flag: {default: false}
outputs: {answer: {description: all of it}}
runs: {using: node20, main: main.js, pre: pre.js, post: dist/post.js}
"""
MAIN = """\
const fs = require('fs'), env = process.env, add = (name, text) => fs.appendFileSync(env[name], text);
console.log(`main ${env.INPUT_WORD} ${env['INPUT_TWO_WORDS']} ${env.INPUT_FLAG} token=${env.INPUT_TOKEN.length}`);
console.log(`state ${env.STATE_began}`, require('path').basename(env.GITHUB_ACTION_PATH), env.GITHUB_ACTION_REPOSITORY, env.GITHUB_ACTION_REF);
console.log('::save-state name=by-command::one%0Atwo');
console.log('::set-output name=old::by%20command');
add('GITHUB_STATE', 'by-file<<EOF\\nthree\\nfour\\nEOF\\n');
add('GITHUB_OUTPUT', `answer=answer of ${env.INPUT_WORD}\\n`);
add('GITHUB_ENV', 'OF_ACTION=variable\\n');
process.exit(env.INPUT_WORD === 'fail' ? 3 : 0);
"""
FILES = {"action.yml": TELLING, "main.js": MAIN,
         "pre.js": "console.log(`pre ${process.env.INPUT_WORD}`); console.log('::save-state name=began::yes')\n",
         "dist/post.js": "console.log(`post ${process.env.INPUT_WORD} ${process.env.STATE_began} "
                         "${JSON.stringify([process.env['STATE_by-command'], process.env['STATE_by-file']])}`)\n"}


@NEEDS_PROGRAM
@NEEDS_NODE
class Phases(ActionCase):
    def test_pre_main_post_with_inputs_state_and_outputs(self) -> None:
        commit = self.remote.publish("octo/telling", FILES, "v1")
        self.workflow("- run: echo first\n- id: t\n  uses: octo/telling@v1\n  with: {word: w}\n"
                      "- run: 'echo ${{ steps.t.outputs.answer }}, ${{ steps.t.outputs.old }}, $OF_ACTION'")
        self.commit()
        looks = self.given("-n")
        self.assertIn(f"1 octo/telling@v1 [fetched from {self.remote.url}/octo/telling when it is executed]",
                      looks.stdout)
        self.assertFalse((self.home / ".cache/actrun/actions").exists())
        done = self.given("-s", "GITHUB_TOKEN=secret")
        self.assert_status(done, 0)
        self.assertEqual(self.sections(done), [
            ("Pre Run octo/telling@v1", "pre w"), ("echo first", "first"),
            ("Run octo/telling@v1", "main w push-Linux false token=6\nstate yes v1 octo/telling v1"),
            ("echo ${{ steps.t.outputs.answer }}, ${{ steps.t.outputs.old }}, $OF_ACTION",
             "answer of w, by%20command, variable"),
            ("Post Run octo/telling@v1", 'post w yes ["one\\ntwo","three\\nfour"]')])
        self.assertIn(f"note: fetched octo/telling@v1 from {self.remote.url}/octo/telling: commit {commit}\n",
                      done.stderr)
        self.assertNotIn("fetched", self.given("-s", "GITHUB_TOKEN=secret").stderr)
        self.assertIn(f"2 Run octo/telling@v1 [octo/telling@v1: node20, commit {commit[:12]}, kept]",
                      self.given("-n").stdout)

    def test_a_main_that_fails_and_one_that_never_began(self) -> None:
        self.remote.publish("octo/telling", FILES, "v1")
        self.remote.publish("octo/plain", {
            "action.yml": "runs: {using: node16, main: a.js, post: b.js, post-if: success()}",
                                           "a.js": "console.log('a')", "b.js": "console.log('b')"}, "v1")
        self.remote.publish("octo/after", {
            "action.yml": "runs: {using: node20, main: a.js, post: b.js, post-if: failure()}",
                                           "a.js": "console.log('a')", "b.js": "console.log('b')"}, "v1")
        self.workflow("- uses: octo/plain@v1\n- uses: octo/after@v1\n- {name: named, uses: octo/telling@v1, with: {word: fail}}\n"
                      "- {uses: octo/plain@v1, name: never}\n- {run: echo end, if: failure()}")
        self.commit()
        done = self.given()
        self.assert_status(done, 1)
        self.assertEqual([title for title, _ in self.sections(done)], [
            "Pre named", "Run octo/plain@v1", "Run octo/after@v1", "named", "echo end", "Post Run octo/after@v1", "Post named"])
        self.assertIn("step 3 (named) failed at line", done.stdout)
        self.assertIn("✗ one: named, exit 3", done.stderr)
        self.assertEqual(self.given("-n").stdout.count("Post "), 4)

    def test_a_composite_action_that_uses_others(self) -> None:
        self.remote.publish("octo/telling", FILES, "v1")
        self.remote.publish("octo/outer", {"sub/dir/action.yml": """\
inputs: {who: {required: true}, more: {default: m}}
outputs: {out: {value: "${{ steps.inner.outputs.answer }}"}}
runs:
  using: composite
  steps:
    - {id: inner, uses: octo/telling@v1, with: {word: "of ${{ inputs.who }} ${{ inputs.more }}"}}
    - {run: 'echo ${GITHUB_ACTION_PATH##*/} $GITHUB_ACTION_REPOSITORY ${{ github.action_ref }}; cat $GITHUB_ACTION_PATH/file', shell: bash}
    - {uses: octo/telling@v1, if: failure()}
""", "sub/dir/file": "a file\n"}, "v2")
        self.workflow("- {id: o, uses: octo/outer/sub/dir@v2, with: {who: me}}\n- run: echo got ${{ steps.o.outputs.out }}")
        self.commit()
        done = self.given()
        self.assert_status(done, 0)
        shown = [(title.rpartition(" / ")[2], text) for title, text in self.sections(done)]
        self.assertIn("\n--- one: octo/outer/sub/dir@v2 / Run octo/telling@v1\n", done.stdout)
        self.assertEqual([title for title, _ in shown if title.startswith(("Pre", "Run", "Post"))],
                         ["Pre Run octo/telling@v1"] * 2 + ["Run octo/telling@v1"] + ["Post Run octo/telling@v1"] * 2)
        self.assertEqual([text.partition("\n")[0] for title,
                          text in shown if not title.startswith(("Pre", "Post"))],
                         ["main of me m push-Linux false token=0", "dir octo/outer v2",
                          "got answer of of me m"])
        self.assertIn("a file", done.stdout)

    def test_composite_actions_ten_deep(self) -> None:
        for number in range(1, 12):
            inner = f"{{uses: octo/deep@v{number - 1}}}" if number > 1 else "{run: echo at the end, shell: bash}"
            self.remote.publish("octo/deep", {"action.yml": f"runs: {{using: composite, steps: [{inner}]}}"},
                                f"v{number}")
        self.workflow("- uses: octo/deep@v10")
        self.commit()
        done = self.given()
        self.assert_status(done, 0)
        self.assertEqual([text for _, text in self.sections(done)], ["at the end"])
        self.workflow("- uses: octo/deep@v11")
        done = self.given()
        self.assert_status(done, 2)
        self.assertIn("composite actions nest deeper than 10: octo/deep@v11 > octo/deep@v10 > ", done.stderr)

    def test_an_action_of_the_repository(self) -> None:
        for name, text in FILES.items():
            self.write(f"here/{name}", text)
        self.workflow("- uses: actions/checkout@v4\n- {uses: ./here, with: {word: w, other: x}}")
        self.commit()
        done = self.given()
        self.assert_status(done, 0)
        self.assertEqual(self.sections(done)[1:],
                         [("Run ./here", "main w push-Linux false token=0\nstate undefined here"),
                                                   ("Post Run ./here",
                                                    'post w undefined ["one\\ntwo","three\\nfour"]')])
        self.assertIn("`pre` of the action ./here is not executed, as on GitHub", done.stderr)
        self.assertIn("the action ./here declares no input other; it has: word, two words, token, flag",
                      done.stderr)

    def test_legs_keep_their_states_apart(self) -> None:
        self.remote.publish("octo/telling", FILES, "v1")
        self.workflow("- {uses: octo/telling@v1, with: {word: '${{ matrix.w }}1'}}\n- {uses: octo/telling@v1, with: {word: '${{ matrix.w }}2'}}",
                      "on: push\njobs:\n  one:\n    runs-on: ubuntu-latest\n    strategy: {matrix: {w: [a, b]}}\n    steps:\n")
        self.commit()
        done = self.given("--workers", "2")
        self.assert_status(done, 0)
        posts = re.findall(r"(?m)^post (\w+) yes", self.printed(done))
        self.assertEqual(([it for it in posts if it[0] == "a"], [it for it in posts if it[0] == "b"]),
                         (["a2", "a1"], ["b2", "b1"]))

    def test_a_state_that_a_step_broke(self) -> None:
        self.remote.publish("octo/telling", FILES, "v1")
        self.workflow("- uses: octo/telling@v1\n- run: for it in ${GITHUB_PATH%/*}/state-*; do echo '{' > $it; done")
        self.commit()
        done = self.given()
        self.assert_status(done, 1)
        self.assertRegex(done.stdout,
                         r"--- one: Post Run octo/telling@v1\nerror: the state of the action cannot be read: a step changed /")

    def test_github_script_starts_without_a_token(self) -> None:
        self.remote.publish("actions/github-script", {
            "action.yml": "inputs: {script: {required: true}, github-token: {default: '${{ github.token }}', required: true}}\n"
                          "runs: {using: node24, main: main.js}",
            "main.js": "if (!process.env['INPUT_GITHUB-TOKEN']) throw new Error('Input required'); eval(process.env.INPUT_SCRIPT)\n"}, "v7")
        self.workflow("- uses: actions/github-script@v7\n  with: {script: 'console.log(1 + 1)'}\n"
                      "- uses: actions/github-script@v7\n  with: {script: 'console.log(3)', github-token: '${{ secrets.NONE }}'}")
        self.commit()
        done = self.given()
        self.assert_status(done, 0)
        self.assertEqual([text.splitlines()[-1] for _, text in self.sections(done)], ["2", "3"])

    def test_an_older_node_is_warned_of(self) -> None:
        self.remote.publish("octo/new", {"action.yml": "runs: {using: node99, main: main.js}",
                                         "main.js": "console.log('executed')"}, "v1")
        self.workflow("- uses: octo/new@v1")
        self.commit()
        done = self.given()
        self.assert_status(done, 0)
        self.assertRegex(done.stdout,
                         r"(?m)^warning: the action requests node99; using node [\d.]+, the installed version\nexecuted$")


@NEEDS_PROGRAM
class OldCommands(ActionCase):
    """`::set-output` of scripts, and the version that is asked for."""

    def test_scripts_set_outputs_by_commands(self) -> None:
        self.workflow("""\
- id: a
  run: |
    echo "::set-output name=x::one%0Atwo"
    printf 'y=file' >> $GITHUB_OUTPUT
    echo plain >&2
    exit 0
- {id: b, shell: sh, run: 'echo "::set-output name=x::$0"; (sleep 300 &)'}
- {id: c, shell: python, run: "print('::stop-commands::on')\\nprint('::set-output name=x::no')\\nprint('::on::')\\nprint('::set-output name=x::yes')"}
- {id: d, timeout-minutes: 9, run: "echo '::set-output name=x::limited'"}
- run: echo "${{ steps.a.outputs.x }} ${{ steps.a.outputs.y }} ${{ steps.c.outputs.x }} ${{ steps.d.outputs.x }}"
- {run: 'echo "::set-env name=x::1"', continue-on-error: true}
- {run: 'echo "::add-path::/of/command"', env: {ACTIONS_ALLOW_UNSECURE_COMMANDS: true}}
- run: echo "${PATH%%:*}"
""")
        self.commit()
        done = self.given()
        self.assert_status(done, 0)
        shown = dict(self.sections(done))
        self.assertEqual(shown['echo "::set-output name=x::one%0Atwo"'], "plain")
        self.assertIn("commands like `::set-output` are carried out by a program around the script", done.stderr)
        self.assertEqual([text for title, text in shown.items() if title.startswith('echo "${{')],
                         ["one\ntwo file yes limited"])
        self.assertIn("error: the command set-env is disabled, as on GitHub", done.stdout)
        self.assertEqual(shown['echo "${PATH%%:*}"'], "/of/command")

    def test_another_version_is_no_success(self) -> None:
        self.workflow("- uses: actions/setup-python@v5\n  with: {python-version: '2.99'}")
        self.commit()
        done = self.given()
        self.assert_status(done, 1)
        self.assertIn("python 2.99 was requested; this machine has ", done.stdout)
        lenient = self.given("--lenient")
        self.assert_status(lenient, 0)
        self.assertRegex(lenient.stdout,
                         r"1 step used another version than the workflow asks for \(--lenient\):\n"
                         r"    one: actions/setup-python@v5: python \S+ in place of 2.99")

    def test_tool_caches_of_the_home_folder_are_seen(self) -> None:
        place = self.home / ".pyenv/versions/2.99.1/bin/python"
        place.parent.mkdir(parents=True)
        place.write_text("#!/bin/sh\necho Python 2.99.1\n", encoding="utf-8")
        place.chmod(0o755)
        self.workflow("- uses: actions/setup-python@v5\n  with: {python-version: 2.x}\n- run: python --version")
        self.commit()
        done = self.given()
        self.assert_status(done, 0)
        self.assertIn(f"python 2.99.1 ({place})", done.stdout)


@NEEDS_PROGRAM
class PostOfStubs(ActionCase):
    def test_a_cache_is_saved_at_the_end_of_its_job(self) -> None:
        cache = "    - uses: actions/cache@v4\n      id: c\n      with: {path: kept, key: k-VALUE}\n"
        jobs = [f"  {name}:\n    runs-on: ubuntu-latest\n    needs: [{needs}]\n    steps:\n"
                f"{cache.replace('VALUE', key)}    - run: {run}\n" for name, needs, key, run in (
                    ("one", "", "1", "mkdir kept; echo of one > kept/file"), ("bad", "", "2", "mkdir kept; exit 1"),
                    ("two", "one", "1", "echo ${{ steps.c.outputs.cache-hit }} $(cat kept/file)"))]
        self.write(".github/workflows/ci.yml", "on: push\njobs:\n" + "".join(jobs))
        self.commit()
        done = self.attempt()
        self.assert_status(done, 1)
        self.assertRegex(done.stdout, r"one: Post actions/cache@v4 \| the cache k-1 is saved\n")
        self.assertIn("\ntrue of one\n", self.printed(done))
        self.assertNotIn("the cache k-2 is saved", done.stdout)


if __name__ == "__main__":
    unittest.main()
