"""Tests of `actrun report`: the page that it writes, in headless Chromium, against what `actrun debug` and `why` print.

Tests of what is on it are in test_report_page.py.
"""
from __future__ import annotations

import itertools
import json
import os
import random
import re
import shutil
import subprocess
import sys
import tempfile
import unittest
from argparse import Namespace
from pathlib import Path
from unittest import mock

from actrun_front import Problem, dap_logs, report, report_data
from actrun_front.dap_logs import Masks

from .dap_case import EXAMPLES, NEEDS_PROGRAM, PROGRAM, TOP
from .report_case import NEEDS_BROWSER, STEP_TIME, Browsing, Keys, ReportCase, plan_of, step

WALK = """
const done = arguments[arguments.length - 1], found = [];
document.querySelector('#boardbox').open = true;
const press = (key) => document.dispatchEvent(new KeyboardEvent('keydown', {key, bubbles: true}));
const look = () => found.push([document.querySelector('#board').textContent,
  [...document.querySelectorAll('#rows .row')].map((row) => row.querySelector('.kind').textContent + ' ' + row.querySelector('.says').dataset.line)]);
press('Home');
for (let at = Number(document.querySelector('#slider').min); ; at++) {
  look();
  if (at >= Number(document.querySelector('#slider').max)) break;
  press('ArrowRight');
}
const back = found.map((it) => it[0]).reverse();
let same = true;
for (const board of back) { same = same && document.querySelector('#board').textContent === board; press('ArrowLeft'); }
done([found, same]);
"""
HOSTILE = ["<script>window.bad = 1</script>", "</script><img src=x onerror='window.bad = 1'>", "\"'`&lt;<!--", "a\u0007b\u001b[31m\ttab",
           "x\u202etxt.exe\u2066y", "-->]]>\\u003c/script>"]


def boards(record: Path) -> list[str]:
    """What `debug` shows at each place of a record."""
    total = record.read_bytes().rstrip(b"\n").count(b"\n")
    asked = "".join(f"goto {at}\nshow\n" for at in range(total + 1)).encode()
    shown = subprocess.run([PROGRAM, "debug", record], input=asked, capture_output=True, check=True).stdout.decode()
    return re.split(r"^place \d+ of \d+\n", shown, flags=re.MULTILINE)[1:]


def rows_of(board: str, plan: dict) -> list[str]:
    """The rows of the tree by the text of a board: runs, jobs, legs, and of each leg its steps, done or not."""
    counts = [len(job["steps"]) for run in plan["runs"] for job in run["jobs"] for _ in job["legs"]]
    found, blocks = [], re.findall(r"^(run|job|leg) (\d+) (.*)\n((?:(?:step|set|out) .*\n)*)", board, flags=re.MULTILINE)
    for kind, number, says, rest in blocks:
        found.append(f"{kind} {number} {says}")
        if kind == "leg":
            steps = re.findall(r"^step \d+ (\w+) (\w+) ", rest, flags=re.MULTILINE)
            for at in range(counts[int(number)]):
                outcome, conclusion = steps[at] if at < len(steps) else ("", "")
                calls = at == len(steps) and re.match(r"running \d+ call", says)
                words = outcome if outcome == conclusion else f"{outcome}, counts as {conclusion}"
                found.append(f"step {at} {'in its call' if calls else words}")
    return found


class Logs(unittest.TestCase):
    def test_each_log_is_read_twice_at_most_and_none_for_a_full_page(self) -> None:
        """Of failed steps, and of the others; the masks of earlier steps count."""
        entries = [{"event": "end", "leg": leg, "answer": {"kind": "exited"}} for leg in (0, 1) for _ in range(9)]
        record = Namespace(entries=entries, begun=lambda leg, place: place - 9 * leg + 1, begins=[], done=[])
        with tempfile.TemporaryDirectory() as room, mock.patch("actrun_front.dap_logs.read_log", wraps=dap_logs.read_log) as read:
            for leg, at in itertools.product((0, 1), range(9)):
                Path(room, f"step-{leg}-{at}.log").write_text(f"::add-mask::{at}{at}\n{leg} {at}{at} 00\n", encoding="utf-8")
            found = report_data.read_logs(record, Path(room), Masks(), {"0-8", "1-2"})
            self.assertEqual((list(found)[:3], set(found.values())), (["0-8", "1-2", "0-0"], {"0 *** ***\n", "1 *** ***\n"}))
            self.assertLessEqual(read.call_count, 2 * len(entries))
            read.reset_mock()
            with mock.patch("actrun_front.report_data.LOGS", 5):
                found = report_data.read_logs(record, Path(room), Masks(), {"0-1"})
            self.assertEqual((found["0-1"], found["1-8"][:9], read.call_count), ("0 *** ***\n", "(left out", 2))

    def test_a_step_that_was_running_at_the_end_has_its_log(self) -> None:
        """Where its file is there: the first leg's second step; the second leg's step had ended."""
        record = Namespace(entries=[], begins=[[1, 3], [2]], done=[[2, 3], [4]])
        with tempfile.TemporaryDirectory() as room:
            self.assertEqual(report_data.read_logs(record, Path(room), Masks(), set()), {})
            for name in ("0-1", "1-0"):
                Path(room, f"step-{name}.log").write_text("waits\n", encoding="utf-8")
            self.assertEqual(report_data.read_logs(record, Path(room), Masks(), set()), {"0-1": "waits\n"})


@NEEDS_PROGRAM
class Written(ReportCase):
    @unittest.skipIf("/unproved/" in PROGRAM, "the program that was built without proofs takes minutes for it")
    def test_a_record_of_a_thousand_entries_is_small(self) -> None:
        record = self.room / "thousand"
        words = [sys.executable, TOP / "bench/big_record.py", "1000", "legs", "12", "3", "16"]
        record.write_bytes(subprocess.run(words, check=True, capture_output=True).stdout)
        self.assertGreaterEqual(record.read_bytes().count(b"\n"), 1000)
        page = self.page(record)
        self.assertLess(page.stat().st_size, 300_000)
        self.assertNotRegex(page.read_text(encoding="utf-8"), r"(src|href)=|@import|url\(|https?://(?!www\.w3\.org/2000/svg)")

    def test_secrets_are_masked_everywhere(self) -> None:
        steps = [step("say s3cret-word", "echo s3cret-word; echo 'out=of s3cret-word' >> $GITHUB_OUTPUT; echo ::add-mask::hidden-word"),
                 step("fail", "echo hidden-word; exit 3")]
        record = self.recorded("secret", plan_of("flow s3cret-word", ["job"], steps, {"TOKEN": "s3cret-word"}))
        shown = self.page(record, logs=record.parent).read_text(encoding="utf-8")
        self.assertNotIn("s3cret-word", shown)
        self.assertIn('"0-1":"***\\n"', shown)
        (record.parent / "step-0-0.log").unlink()
        shown = self.page(record, logs=record.parent).read_text(encoding="utf-8")
        self.assertIn('"0-1":"(left out: step-0-0.log cannot be read, so what it masks is not known)"', shown)
        self.assertIn('"logs":null', self.page(record).read_text(encoding="utf-8"))

    def test_a_log_that_is_a_link_is_left_out(self) -> None:
        """What it names may be any file of the user, and what it masks is not known."""
        record = self.recorded("linked", plan_of("flow", ["job"], [step("one"), step("two", "echo after")]))
        hidden = self.room / "private-file"
        hidden.write_text("private-words\n", encoding="utf-8")
        log = record.with_name("step-0-0.log")
        log.unlink()
        log.symlink_to(hidden)
        shown = report.shown(report.read_record(PROGRAM, record), record, logs=record.parent)
        self.assertEqual(shown["logs"], {"0-0": "(left out: step-0-0.log is a link)",
                                         "0-1": "(left out: step-0-0.log cannot be read, so what it masks is not known)"})
        self.assertNotIn("private-words", self.page(record, logs=record.parent).read_text(encoding="utf-8"))

    def test_what_is_wrong_is_said(self) -> None:
        times = self.room / "times"
        for text in ("1795800000000\n1\n", "2026-11-27T17:19:51Z\n" * 10, "1795800000000\n" + "1\n" * 8 + "1e3\n", "1795800000000\n2\n" + "1\n" * 8, ""):
            times.write_text(text)
            self.assertRaisesRegex(Problem, "--times", report.page, PROGRAM, EXAMPLES / "skipped.record", times=times)
        self.assertRaisesRegex(Problem, "--around 99: the record has the places 0 to 9", report.page, PROGRAM,
                               EXAMPLES / "skipped.record", around=99)
        self.assertRaisesRegex(Problem, "--around -1: the record has", report.page, PROGRAM, EXAMPLES / "skipped.record", around=-1)
        for name, said in (("refused.record", "line 2 WrongState: .*refused.record:2: the entry cannot follow"), ("ci.json", "load NotJson: .*: .* not JSON"),
                           ("cut.record", "line 4 NotEntry: .*cut.record:4: .*cut short.*: head -n 3 .*cut.record > RECORD")):
            self.assertRaisesRegex(Problem, said, report.page, PROGRAM, EXAMPLES / name)
        self.assertRaisesRegex(Problem, "none: ", report.page, PROGRAM, EXAMPLES / "none")

    def test_the_command(self) -> None:
        def ask(*words: str) -> subprocess.CompletedProcess:
            return subprocess.run([sys.executable, TOP / "front", "report", *words], capture_output=True, text=True, check=False, cwd=self.room,
                                  env={**os.environ, "ACTRUN_PROGRAM": PROGRAM})
        shutil.copy(EXAMPLES / "skipped.record", self.room / "r")
        done = ask("r")
        self.assertEqual((done.returncode, done.stdout, done.stderr), (0, "r.html\n", ""))
        self.assertIn("usage: actrun report", ask("--help").stdout)
        self.assertEqual([ask(*words).returncode for words in (["no"], ["r", "--logs", "no"], [])], [2, 2, 2])
        for words, status, said in (
                ([""], 2, "actrun: report: .*: Is a directory: name a file"), (["/dev/null"], 2, "actrun: report: /dev/null: this is not a regular file"),
                (["r", "-o", "/dev/full"], 3, "actrun: report: /dev/full: No space left on device"),
                (["r", "--seconds", "1"], 2, "unrecognized arguments: --seconds 1"), (["r", "--around", "x"], 2, "argument --around: .*'x'")):
            done = ask(*words)
            self.assertEqual((done.returncode, done.stdout), (status, ""), words)
            self.assertRegex(done.stderr.splitlines()[-1], said)


@NEEDS_PROGRAM
@NEEDS_BROWSER
class Seen(Browsing):
    def generated(self) -> list[Path]:
        """Records picked by chance, with groups, cancels and faults."""
        sys.path.insert(0, str(TOP / "tools"))
        import random_plans
        import random_records
        found = []
        for number in range(40):
            chance = random.Random(f"report {number}")
            plan = random_plans.plan(chance)
            for run in plan["runs"]:
                run["roots"]["secrets"] = {}  # (they are single letters, which the page masks)
            history = random_records.played(chance, plan)[0]
            if 10 <= len(history) <= 70 and len(found) < 5:
                found.append(self.room / f"random-{number}")
                found[-1].write_text("".join(random_plans.compact(it) + "\n" for it in [plan, *history]), encoding="utf-8")
        return found

    def test_each_place_is_that_of_debug(self) -> None:
        records = [EXAMPLES / f"{name}.record" for name in ("nightly", "deploy", "cancel-in-progress", "displaced-leg", "env-faulted")]
        records += self.generated()
        self.assertEqual(len(records), 10)
        for record in records:
            with self.subTest(record.name):
                plan = json.loads(record.read_bytes().split(b"\n")[0])
                self.open(self.nightly() if record.name == "nightly.record" else self.page(record))
                (found, back), wanted = self.browser.execute_async_script(WALK), boards(record)
                self.assertEqual([board for board, _ in found], wanted)
                self.assertTrue(back)
                self.assertEqual([rows for _, rows in found], [rows_of(board, plan) for board in wanted])
                self.quiet()

    def test_keys_walk_the_record(self) -> None:
        self.open(self.nightly())
        self.assertEqual(self.press(Keys.HOME), 0)
        self.assertEqual([self.press("f"), self.chosen()], [23, "step 0"])
        self.press("w")  # (else the view follows)
        self.assertEqual([self.press(Keys.ARROW_RIGHT), self.press(Keys.ARROW_LEFT, Keys.ARROW_LEFT), self.press(Keys.END)], [24, 22, 38])
        self.assertEqual([self.press("p"), self.press("p"), self.press("p"), self.press("n")], [23, 16, 16, 23])
        self.assertEqual([self.press("f"), self.press("F"), self.press("F"), self.press("f")], [27, 23, 23, 27])
        # (after the failures what was skipped, after that the first again)
        self.assertEqual([self.press("f"), self.chosen(), self.press("f"), self.chosen(), self.press("f")], [18, "step 1", 31, "job 2", 23])
        self.assertEqual(self.press(Keys.HOME, " "), 0)
        self.wait_for(lambda: self.press() >= 3)
        self.assertGreaterEqual(self.press(" "), 3)
        self.assertEqual(self.press(), self.press())
        self.assertEqual([self.chosen(), self.press(Keys.ARROW_DOWN) >= 0, self.chosen()], ["step 0", True, "step 1"])
        before = len(self.names())
        self.press(Keys.HOME, *[Keys.ARROW_UP] * 20, Keys.ENTER)
        self.assertEqual([self.chosen(), len(self.names())], ["run 0", 1])
        self.press(Keys.ENTER)
        self.assertEqual(len(self.names()), before)
        self.quiet()

    def test_slider_and_link(self) -> None:
        page = self.nightly()
        self.open(page, "#17")
        self.assertEqual(self.press(), 17)
        self.js("const it = document.querySelector('#slider'); it.value = 9; it.dispatchEvent(new Event('input'))")
        self.assertEqual(self.press(), 9)
        self.wait_for(lambda: self.js("return location.hash") == "#9/step-2-0")
        self.js("location.hash = '#31'")
        self.wait_for(lambda: self.press() == 31)
        self.assertIn("place 31 of 38", self.js("return document.querySelector('#slider').getAttribute('aria-valuetext')"))
        self.open(page, "#99999")
        self.assertEqual(self.press(), 38)

    def test_search_and_filter(self) -> None:
        self.open(self.nightly())
        every = self.names()
        self.press("/", *"browser")
        self.assertEqual(self.names()[:3], ["Nightly", "suites", "suite browser"])
        self.assertEqual([self.js("return document.querySelector('#found').textContent"), self.js("return document.querySelector('mark').textContent")],
                         ["1 found", "browser"])
        self.press(*[Keys.BACKSPACE] * 7)
        self.assertEqual(self.names(), every)
        self.js("document.querySelector('#only').click()")
        self.assertEqual(self.names(), ["Nightly", "suites", "suite api", "Keep the log", "suite browser", "Run the suite",
                                        "suite soak", "Run the suite", "publish", "publish"])

    def test_details_have_reasons_values_and_logs(self) -> None:
        steps = [step("choose", "echo CHANNEL=beta >> $GITHUB_ENV; echo word=one >> $GITHUB_OUTPUT"), step("use", "echo $CHANNEL; exit 4")]
        record = self.recorded("details", plan_of("ci", ["job"], steps))
        times = self.room / "clock"
        total = record.read_bytes().count(b"\n") - 1
        times.write_text("1795800000000\n" + "".join(f"{at * 250}\n" for at in range(1, total + 1)))
        self.open(self.page(record, logs=record.parent, times=times))
        said = "return document.querySelector('#details').textContent"
        why = subprocess.run([PROGRAM, "why", record, "step", "0", "1"], capture_output=True, text=True, check=True).stdout.strip()
        self.assertEqual(self.js("return document.querySelector('#why').textContent"), why)
        self.assertEqual(self.js("return document.querySelector('#log').textContent"), "beta\n")
        self.assertIn("CHANNELbetaset by step 0 (choose) at place 6", self.js(said))
        self.js("[...document.querySelectorAll('#details td .link')][0].click()")
        self.assertEqual([self.press(), self.chosen()], [6, "step 0"])
        self.assertIn("wordone", self.js(said))
        self.assertIn("1.5 s", self.js("return document.querySelector('#place').textContent"))
        self.press(Keys.ARROW_LEFT)
        self.assertNotIn("wordone", self.js(said))
        self.assertIn("It is written at place 6", self.js(said))
        self.quiet()

    def test_files_that_a_step_changed(self) -> None:
        record = self.recorded("files", plan_of("ci", ["job"], [step("one"), step("two", "exit 1")]))
        files = {"0-0": [("A", "<b>new\x1b"), ("D", "old")], "0-1": []}
        with mock.patch("actrun_front.changed_files.of_record", return_value=files):
            self.open(self.page(record))
        self.assertIsNone(self.js("return document.querySelector('#files')"))
        self.js("[...document.querySelectorAll('#rows .row .name')].find((it) => it.textContent === 'one').click()")
        self.assertEqual(self.js("return document.querySelector('#files').textContent"), "A <b>new\u241b\nD old")
        self.press(Keys.HOME)
        self.assertIsNone(self.js("return document.querySelector('#files')"))
        self.quiet()

    def test_hostile_names_are_texts(self) -> None:
        steps = [step(name, f"echo {at}; echo \"X<b>=<i>$0\" >> $GITHUB_ENV; false") for at, name in enumerate(HOSTILE)]
        record = self.recorded("hostile", plan_of(HOSTILE[0], HOSTILE, steps))
        record = record.rename(record.with_name("<b>'\".record"))
        self.open(self.page(record, logs=record.parent))
        pictures = {at: 0x2400 + at for at in range(32)}
        self.assertEqual(self.names()[:2], [HOSTILE[0], HOSTILE[0]])
        self.assertLessEqual({name.translate(pictures) for name in HOSTILE}, set(self.names()))
        self.assertEqual(self.js("return [window.bad, document.images.length, document.querySelectorAll('b, i, script').length]")[:2], [None, 0])
        self.assertEqual(self.js("return document.querySelectorAll('.name script, .name b, .name img, #details script, #details img').length"), 0)
        self.assertIn(HOSTILE[0], self.js("return document.title"))
        self.press("/", *"script")
        self.assertGreater(len(self.js("return [...document.querySelectorAll('#hitlist li')].map((it) => it.textContent)")), 6)
        self.assertEqual(self.js("return document.querySelectorAll('#hits script, #hits b, #hits img, #changes b, #changes script').length"), 0)
        self.press(*[Keys.BACKSPACE] * 6)
        signs = self.js("return [...document.querySelectorAll('bdi.sign')].map((it) => [getComputedStyle(it).unicodeBidi, it.textContent])")
        self.assertIn(["isolate", "\u202e"], signs)
        self.assertEqual({it[0] for it in signs}, {"isolate"})
        self.js("const it = document.createElement('script'); it.textContent = 'window.bad = 2'; document.body.append(it)")
        self.assertIsNone(self.js("return window.bad || null"))
        self.assertIn("Content", self.browser.get_log("browser")[0]["message"])

    def test_a_person_without_eyes_can_use_it(self) -> None:
        self.open(self.nightly(), "#24")
        nameless = self.js("""return [...document.querySelectorAll('button, input, section, dialog, [role]')].filter((it) => !(
            it.ariaLabel || it.textContent.trim() || it.title || it.labels && it.labels.length || it.role === 'none')).map((it) => it.outerHTML)""")
        self.assertEqual([it for it in nameless if "said" not in it and "found" not in it and "hitcount" not in it], [])
        row = self.js("""const it = document.querySelector('[aria-selected=true]'), tree = document.querySelector('[role=tree]');
            return [it.role, it.ariaLevel, it.ariaLabel, it.ariaPosInSet, it.ariaSetSize, tree.getAttribute('aria-activedescendant') === it.id]""")
        self.assertEqual(row, ["treeitem", "4", "step 0 (Run the suite): failure", "1", "2", True])

    def test_nothing_is_cut_off_beside_a_narrow_window(self) -> None:
        record = self.recorded("long", plan_of("n" * 300, ["j" * 300], [step("s" * 3000, "exit 1")]))
        self.open(self.page(record))
        self.js("addEventListener('resize', (event) => event.stopImmediatePropagation(), true)")  # (so before the page's script acts, too)
        self.addCleanup(self.browser.execute_cdp_cmd, "Emulation.clearDeviceMetricsOverride", {})
        for width in (1500, 1000, 800, 450, 400, 320):
            self.browser.execute_cdp_cmd("Emulation.setDeviceMetricsOverride", {"width": width, "height": 800, "deviceScaleFactor": 1, "mobile": False})
            hidden = self.js("""return [document.documentElement, document.querySelector('#details'), document.querySelector('#legend')].map(
                (it) => Math.max(it.scrollWidth - it.clientWidth, it.id === 'legend' ? it.scrollHeight - it.clientHeight : 0))""")
            self.assertEqual(hidden, [0, 0, 0], width)
            self.assertLessEqual(self.js("return document.querySelector('#keys').getBoundingClientRect().right"), width)

    def big(self, *words: str) -> Path:
        """A record of many legs, of bench/big_record.py."""
        record = self.room / f"big-{words[0]}"
        made = subprocess.run([sys.executable, TOP / "bench/big_record.py", words[0], "legs", *words[1:]], check=True, capture_output=True)
        record.write_bytes(made.stdout)
        return record

    def test_a_longer_record_has_a_window(self) -> None:
        record = self.big("600", "4", "2", "64")
        total = record.read_bytes().count(b"\n") - 1
        with mock.patch.object(report_data, "MOST", 300):
            page = self.page(record)
            around = report.shown(report.read_record(PROGRAM, record), record, around=200)
            early = report.shown(report.read_record(PROGRAM, record), record, around=20)
        shown = json.loads(re.search(r'id="data">(.*)</script>\n<script>', page.read_text(encoding="utf-8"))[1])
        self.assertEqual([shown[it] for it in ("first", "last", "total")], [total - 300, total, total])
        self.assertEqual([around[it] for it in ("first", "last")], [50, 350])
        self.assertEqual([early[it] for it in ("first", "last")], [0, 300])
        self.assertEqual([len(it["steps"]) for it in (shown, around, early)], [300, 300, 300])
        self.open(page)
        self.assertIn(f"the places {total - 300} to {total} of {total}", self.js("return document.querySelector('#window').textContent"))
        (found, back), wanted = self.browser.execute_async_script(WALK), boards(record)
        self.assertEqual([board for board, _ in found], wanted[total - 300:])
        self.assertTrue(back)
        self.press("/", *"leg 255", Keys.ENTER)
        self.assertEqual(self.chosen(), "leg 255")
        self.quiet()

    @unittest.skipIf("/unproved/" in PROGRAM, "the program that was built without proofs takes minutes for it")
    def test_a_great_record_is_shown_whole(self) -> None:
        page = self.page(self.big("100000", "16", "24", "256"))
        self.assertLess(self.open(page), 12_000)  # (3 seconds; a busy machine has time for it too)
        self.assertLess(self.js(STEP_TIME), 200)  # (50 milliseconds)
        self.assertTrue(self.js("return document.querySelector('#window').hidden"))
        self.assertEqual(self.press(Keys.HOME), 0)
        self.assertEqual(self.press(Keys.END), 100_000)
        self.quiet()


if __name__ == "__main__":
    unittest.main()
