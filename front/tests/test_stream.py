"""What a step prints where the shim reads it: one pipe, UTF-8, not more than --log-limit."""
from __future__ import annotations

import importlib.util
import tempfile
import unittest
from typing import Any

from actrun_front.step_log import for_shim

from .try_case import FRONT, NEEDS_PROGRAM, TryCase, sandbox_works

NOTE = "(the log is cut here: the step printed more than 1 MiB; --log-limit names another limit)"


def module() -> Any:
    """The module that the shim imports."""
    found = importlib.util.spec_from_file_location("one_stream", FRONT / "stubs" / "one_stream.py")
    assert found and found.loader
    made = importlib.util.module_from_spec(found)
    found.loader.exec_module(made)
    return made


class Stream(unittest.TestCase):
    """The class between a step and its log."""

    def printed(self, *pieces: bytes, most: int = 0, allowed: str = "") -> tuple[bytes, bool]:
        """What is written of pieces, and whether the step fails."""
        with tempfile.TemporaryFile() as written:
            stream = module().Stream(written.fileno(), allowed, most, b"(cut)\n")
            for piece in pieces:
                stream.take(piece)
            stream.take(b"", True)
            written.seek(0)
            return written.read(), stream.commands.failed

    def test_the_log_is_cut_at_the_limit(self) -> None:
        for pieces, expected in (
                ([b"one\n", b"two\n"], b"one\ntwo\n"),
                ([b"one\n", b"two\n3"], b"one\ntwo\n(cut)\n"),
                ([b"one\n", b"two\n", b"three\n", b"four\n"], b"one\ntwo\n(cut)\n"),
                ([b"one\ntwo-three\nfour"], b"one\n(cut)\n"),
                ([b"one\n", b"two-three\n"], b"one\ntwo-\n(cut)\n"),
                ([b"123456789"], b"12345678\n(cut)\n"),
                ([b"12345678", b"9"], b"12345678\n(cut)\n"),
                (["1234567\u00e9".encode(), b"more"], b"1234567\n(cut)\n"),
                ([b"12345\xff"], b"12345\xef\xbf\xbd"),
                ([b"123456\xff"], b"123456\n(cut)\n")):
            self.assertEqual(self.printed(*pieces, most=8), (expected, False), pieces)

    def test_a_reason_beyond_the_limit_is_said(self) -> None:
        commands = b"\n::set-env name=A::b\n::add-path::/x\n"
        text, failed = self.printed(b"first\nsecond", commands, b"::add-path::/y\n", most=8)
        self.assertTrue(failed)
        self.assertTrue(text.startswith(b"first\n(cut)\n\n::error::Unable to process command '::set-env'"))
        self.assertNotIn(b"second", text)
        self.assertEqual(text.count(b"::error::"), 2)

    def test_commands_in_pieces(self) -> None:
        line, long = b"::set-env name=A::b", b"x" * 70000
        for pieces in ([line], [line + b"\n"], [b"a\n", b" \t", line, b"\r\n"],
                       [line[at:at + 1] for at in range(len(line))],
                       [long, long + b"\n" + line], ["\u00a0\u00e9\n\u00a0".encode(), line],
                       [b"\xff\n" + line],
                       [b"a::b\nc::d\n" + line], [b"::stop-commands::t\n", line + b"\n::t::\n", line]):
            self.assertTrue(self.printed(*pieces)[1], pieces)
            self.assertFalse(self.printed(*pieces, allowed="TRUE")[1], pieces)
        for pieces in ([b"a", line], [long, long, line], [b"::set-env\n"], [b"std::set-env name=A::b\n"],
                       [b"::stop-commands::t\n", line + b"\n"]):
            self.assertFalse(self.printed(*pieces)[1], pieces)

    def test_characters_in_pieces(self) -> None:
        text = "\u20ac\u00e9\U0001f600\n".encode()
        for size in (1, 2, 3):
            self.assertEqual(self.printed(*(text[at:at + size] for at in range(0, len(text), size)))[0], text)
        text = self.printed(b"\xe2", b"a\xed\xa0\x80", b"b\xf0\x9f")[0]
        self.assertEqual(text.decode(), "\ufffda\ufffd\ufffd\ufffdb\ufffd")

    def test_the_limit_for_the_shim(self) -> None:
        self.assertEqual(for_shim(0).split(" ")[0], "0")
        self.assertEqual(for_shim(1 << 20), f"1048576 {NOTE}\n")


@NEEDS_PROGRAM
@unittest.skipUnless(sandbox_works(), "bwrap is not installed or does not work here")
class InSandbox(TryCase):
    """Whole executions."""

    def log(self, step: int) -> str:
        """The log of a step, without the line that begins it."""
        return (self.work() / "play" / f"step-0-{step}.log").read_text(encoding="utf-8").partition("\n")[2]

    def test_nothing_but_the_agent_is_around_a_step(self) -> None:
        say = r"tr '\0' '\n' </proc/$PPID/cmdline; readlink /proc/$$/fd/1 /proc/$$/fd/2"
        self.workflow("".join(f"- run: {say}\n  shell: {shell}\n" for shell in ("bash", "sh")))
        self.assert_status(self.attempt(), 0)
        for step in range(2):
            *words, output, errors = self.log(step).splitlines()
            self.assertRegex(" ".join(words), r"/agent\.py \d+$")
            self.assertRegex(output, r"^pipe:")
            self.assertEqual(output, errors)

    def test_the_limit(self) -> None:
        self.workflow("""
- run: |
    echo first; echo err >&2
    yes é1 | head -n 2000000
    echo gone; touch done; (while :; do echo background; sleep 0.01; done) &
- run: '[ -e done ]; seq 9 >&2; echo second'
- run: head -c 3000000 /dev/zero | tr '\\0' x; exit 3
""")
        done = self.attempt("--log-limit", "1M")
        self.assert_status(done, 1)
        log = self.log(0)
        self.assertTrue(log.startswith("first\nerr\né1\n"), log[:100])
        self.assertTrue(log.endswith(f"\né1\n{NOTE}\n"), log[-200:])
        self.assertEqual(done.stdout.count(NOTE), 2)
        self.assertLess(len(log.encode()), (1 << 20) + 100)
        self.assertGreater(len(log.encode()), (1 << 20) - 100)
        self.assertEqual(self.log(1), "".join(f"{number}\n" for number in range(1, 10)) + "second\n")
        self.assertTrue(self.log(2).endswith(f"xx\n{NOTE}\n"))
        self.assertIn("exit 3", done.stderr)

    def test_no_limit(self) -> None:
        self.workflow("- run: seq 300000; printf end")
        self.assert_status(self.attempt("-q", "--log-limit", "0"), 0)
        lines = "".join(f"{number}\n" for number in range(1, 300001))
        self.assertEqual(self.log(0).rstrip("\n"), f"{lines}end")

    def test_what_a_step_leaves_running_prints_on(self) -> None:
        """A server of an earlier step that writes to its standard output is not ended by that."""
        self.workflow("""
- run: |
    (while :; do echo background; echo errors >&2; echo >> ticks; sleep 0.05; done) &
    yes & echo begun
- run: |
    last=$(wc -l < ticks)
    for i in $(seq 600); do if [ "$(wc -l < ticks)" -ge $((last + 3)) ]; then exit 0; fi; sleep 0.1; done
    exit 1
""")
        self.assert_status(self.attempt("-q"), 0)

    def test_commands_that_no_script_prints(self) -> None:
        """A program of an action, and a flood beyond the limit, hide no command."""
        action = self.write("act", "#!/usr/bin/python3\nprint('::set-env name=A::b', flush=True)\n", 0o755)
        self.workflow("""
- uses: a/b@v1
  continue-on-error: true
- run: word=add-path; yes 'a::b' | head -n 300000; printf "::$word::/x"
  continue-on-error: true
- run: echo ::set-env name=A::b
  env: {ACTIONS_ALLOW_UNSECURE_COMMANDS: true}
""")
        done = self.attempt("--stub", f"a/b={action}", "--log-limit", "1M")
        self.assert_status(done, 0)
        for step, name in ((0, "set-env"), (1, "add-path")):
            self.assertIn(f"::error::Unable to process command '::{name}' successfully.", self.log(step))
        self.assertEqual(done.stderr.count("exit 1"), 2, done.stderr)
        self.assertNotIn("::error::", self.log(2))


if __name__ == "__main__":
    unittest.main()
