"""Tests of what is on the page of `actrun report` and how a person uses it, in headless Chromium."""
from __future__ import annotations

import json
import shlex
import subprocess
import unittest
from collections import Counter
from pathlib import Path
from typing import Any

from actrun_front import report

from .dap_case import EXAMPLES, NEEDS_PROGRAM, PROGRAM
from .report_case import NEEDS_BROWSER, STEP_TIME, Browsing, Keys, ReportCase, plan_of, step

RATIOS = """
const linear = (it) => it <= 0.03928 ? it / 12.92 : ((it + 0.055) / 1.055) ** 2.4;
const lum = (rgb) => rgb.reduce((sum, it, at) => sum + linear(it / 255) * [0.2126, 0.7152, 0.0722][at], 0);
const colour = (words) => (words.match(/[\\d.]+/g) || []).map(Number);
const behind = (it) => {
  for (; it; it = it.parentElement) {
    const found = colour(getComputedStyle(it).backgroundColor);
    if (found.length === 3) return found;
  }
  return [255, 255, 255];
};
const ratio = (one, other) => {
  const [low, high] = [lum(one), lum(other)].sort((a, b) => a - b);
  return (high + 0.05) / (low + 0.05);
};
const some = 'h1, h2, h3, .says, .kind, .name, .took, .label, .muted, .badge, .link, pre, td, th, label, button';
const texts = [...document.querySelectorAll(some)]
  .filter((it) => it.getClientRects().length && it.textContent.trim() && !it.disabled)
  .map((it) => [it, ratio(colour(getComputedStyle(it).color).slice(0, 3), behind(it))])
  .map(([it, found]) => [`${it.className} ${it.textContent.slice(0, 30)}`, found]);
const bars = [...document.querySelectorAll('#legend .bar, #rows .bar')].map((it) => [it.className,
  ratio(colour(getComputedStyle(it).backgroundColor).slice(0, 3), behind(it.parentElement))]);
return [texts.filter((it) => it[1] < 4.5), bars.filter((it) => it[1] < 3), texts.length, bars.length];
"""
AUDIT = """
const named = (it) => it.ariaLabel || it.textContent.trim() || it.title || (it.labels && it.labels.length)
  || it.getAttribute('aria-labelledby');
const wrong = [];
const ids = [...document.querySelectorAll('[id]')].map((it) => it.id);
for (const id of new Set(ids.filter((it, at) => ids.indexOf(it) !== at))) wrong.push(`two parts have the id ${id}`);
const reached = 'button, input, section, dialog, summary, [tabindex], [role=treeitem], [role=separator]';
for (const it of document.querySelectorAll(reached)) {
  if (!named(it)) wrong.push(`no name: ${it.outerHTML.slice(0, 80)}`);
  if (it.tabIndex > 0) wrong.push(`an order of its own: ${it.id}`);
}
for (const it of document.querySelectorAll('[aria-hidden=true]')) {
  if (it.querySelector('button, input, a, [tabindex]')) wrong.push(`hidden, but reached by keys: ${it.id}`);
}
const heads = [...document.querySelectorAll('h1, h2, h3')].filter((it) => !it.closest('dialog'))
  .map((it) => Number(it.tagName[1]));
heads.forEach((it, at) => { if (it > (at ? heads[at - 1] : 0) + 1) wrong.push(`heading ${it} has none above it`); });
for (const it of document.querySelectorAll('[role=treeitem]')) {
  const whole = it.closest('[role=tree]') && it.ariaLevel && it.ariaSelected;
  if (!whole) wrong.push(`a row without level or choice: ${it.id}`);
}
for (const [name, value] of [['aria-controls', 'hits'], ['aria-activedescendant', null]]) {
  for (const it of document.querySelectorAll(`[${name}]`)) {
    if (!document.getElementById(it.getAttribute(name))) wrong.push(`${name} of ${it.id} names nothing`);
  }
}
return wrong;
"""


def why(record: Path, words: str) -> str:
    """What `why` prints of a part."""
    return subprocess.run([PROGRAM, "why", record, *words.split()], capture_output=True, text=True, check=True).stdout


def leg_plan(legs: list[dict], steps: list[dict], repository: str = "octo/shop") -> dict:
    """A plan of one job with a leg for each combination."""
    plan = plan_of("CI", ["test"], steps)
    plan["runs"][0]["jobs"][0].update(legs=legs, fail_fast=False)
    plan["runs"][0]["roots"]["github"] = {"repository": repository}
    return plan


def great(legs: int, steps: int) -> dict[str, Any]:
    """What a page has of a record in which the legs of eight jobs execute one after another; of each tenth leg the last
    step fails."""
    texts = ["new", "going", "closed failure", "unjudged", "open", "fresh", "admitted", "running 0 idle",
             "running 0 call", "ended success", "ended failure", "",
             *(f"step {at} success success {{}}" for at in range(steps)), f"step {steps - 1} failure failure {{}}"]
    number = {text: at for at, text in enumerate(texts)}
    first, ends = 9, 9 + 8 * legs
    base = [[number["new"]], *[[number["unjudged"]]] * 8, *[[number["fresh"]]] * (8 * legs), [number[""]]]
    changes, entries, jobs = [[[0, number["going"], 0]]], [["nothing", 0, 0], ["open", 0, 0]], {}
    for job in range(8):
        changes.append([[1 + job, number["open"], 0]])
        entries.append(["judge", job, 0])
        for leg in range(job * legs, (job + 1) * legs):
            texts.append(str(leg))
            fails = leg % 10 == 9
            lines = [number[f"step {at} success success {{}}"] for at in range(steps - 1)]
            lines.append(number[f"step {steps - 1} {'failure failure' if fails else 'success success'} {{}}"])
            changes += [[[first + leg, number["admitted"], 0]], [[first + leg, number["running 0 idle"], 0]]]
            entries += [["ask", leg, 0], ["take", leg, 0]]
            for at, line in enumerate(lines):
                changes.append([[first + leg, number["running 0 call"], at]])
                changes.append([[first + leg, number["running 0 idle"], at, line]])
                entries += [["begin", leg, 0, at], ["end", leg, 0, at, f"exit {int(fails and at == steps - 1)}"]]
            ended = number["ended failure" if fails else "ended success"]
            changes.append([[first + leg, ended, steps], [ends, -1, leg, len(texts) - 1]])
            entries.append(["finish", leg, 0])
        jobs[str(job)] = ["failure", len(changes)]
    changes.append([[0, number["closed failure"], 0]])
    entries.append(["close", 0, 0])
    names = [[f"job-{job}", [[f"job-{job}, shard {at}", [["shard", str(at)]]] for at in range(legs)],
              [[f"step {at}", "", f"make part-{at}"] for at in range(steps)]] for job in range(8)]
    return {"title": "great: failure", "record": "great", "repository": "", "around": None,
            "total": len(changes), "first": 0, "last": len(changes), "runs": [["great", names]],
            "texts": texts, "base": base, "steps": changes, "entries": entries, "jobs": jobs, "displaced": {},
            "why": {}, "values": {}, "logs": None,
            "times": {"start": 1795800000000, "entries": [at * 3 for at in range(len(entries))]}}


@NEEDS_PROGRAM
class Asked(ReportCase):
    def test_few_starts_give_the_same_bytes(self) -> None:
        """However many parts the record has, and however long an answer takes."""
        starts, program = self.room / "starts", self.room / "slow"
        program.write_text(f'#!/bin/sh\necho "$1" >> {shlex.quote(str(starts))}\nsleep 0.3\n'
                           f'exec {shlex.quote(PROGRAM)} "$@"\n')
        program.chmod(0o755)
        for name in ("nightly", "deploy", "displaced", "cancelled"):
            starts.write_text("")
            first = report.page(str(program), EXAMPLES / f"{name}.record")
            started = Counter(starts.read_text().split())
            self.assertEqual(started - Counter(eval=1), Counter(replay=1, why=1))
            self.assertEqual(report.page(PROGRAM, EXAMPLES / f"{name}.record"), first)

    def test_names_and_conditions_that_look_like_reasons(self) -> None:
        """A condition may end like the line of a part that is above, and a name may hold any words."""
        plan = plan_of("x) was told to stop at line 3 (above)", ["a (above)", "b) was told to stop at line 2 by cancel"],
                       [step("leg 1 (above)", "exit 3")])
        jobs = plan["runs"][0]["jobs"]
        jobs[0]["condition"] = "github.none == ' (above)'"
        record = self.recorded("names", plan)
        found = report.shown(report.read_record(PROGRAM, record), record)["why"]
        self.assertEqual(list(found), ["run 0", "job 0", "job 1", "leg 0", "leg 1", "step 1 0"])
        self.assertEqual(found["job 1"][2], ["leg 1"])
        for words, (name, said, because) in found.items():
            lines = why(record, words).split("\n")
            self.assertEqual(name + said, lines[0])
            causes = [line[2:] for line in lines if line.startswith("  ") and not line.startswith("   ")]
            self.assertEqual([found[cause][0] + found[cause][1] for cause in because], causes)

    def test_a_command_that_fails_is_said(self) -> None:
        program = self.room / "broken"
        program.write_text('#!/bin/sh\n[ "$1" = why ] && { echo "actrun: memory" >&2; exit 3; }\n'
                           f'exec {shlex.quote(PROGRAM)} "$@"\n')
        program.chmod(0o755)
        record = EXAMPLES / "nightly.record"
        self.assertRaisesRegex(report.Problem, "memory", report.page, str(program), record)


@NEEDS_PROGRAM
@NEEDS_BROWSER
class Used(Browsing):
    def failed(self, times: bool = True) -> Path:
        """The page of a run whose two legs fail, after 60 lines, in a line of 20."""
        if not (self.room / "failed").exists():
            install = "echo CHANNEL=needle-one >> $GITHUB_ENV; seq -f 'install %g' 60"
            script = "seq -f 'ok %g' 60; echo '::error file=a.py,line=3::1 != 2 <b>'; seq -f 'rest %g' 50; exit 1"
            legs = [{"os": "linux", "python": "3.10"}, {"os": "linux", "python": "3.12"}]
            self.recorded("failed", leg_plan(legs, [step("Install", install), step("pytest", script), step("Upload")]))
        record = self.room / "failed" / "record"
        clock = record.with_name("times")
        total = record.read_bytes().rstrip(b"\n").count(b"\n")
        clock.write_text("1795800000000\n" + "".join(f"{at * 1250}\n" for at in range(1, total + 1)))
        return self.page(record, logs=record.parent, times=clock if times else None)

    def size(self, width: int, height: int, **media: Any) -> None:
        self.addCleanup(self.browser.execute_cdp_cmd, "Emulation.clearDeviceMetricsOverride", {})
        self.browser.execute_cdp_cmd("Emulation.setDeviceMetricsOverride",
                                     {"width": width, "height": height, "deviceScaleFactor": 1, "mobile": False})
        if media:
            usual = {"media": "", "features": []}
            self.addCleanup(self.browser.execute_cdp_cmd, "Emulation.setEmulatedMedia", usual)
            self.browser.execute_cdp_cmd("Emulation.setEmulatedMedia", media)

    def box(self, selector: str) -> dict[str, float]:
        return self.js(f"return document.querySelector({json.dumps(selector)}).getBoundingClientRect().toJSON()")

    def row(self) -> str:
        return self.js("return document.querySelector('[aria-selected=true]').ariaLabel")

    def texts(self, selector: str) -> list[str]:
        return self.js(f"return [...document.querySelectorAll('{selector}')].map((it) => it.textContent)")

    def text(self, selector: str) -> str:
        return self.js(f"const it = document.querySelector({json.dumps(selector)}); return it && it.textContent")

    def test_it_opens_at_what_went_wrong(self) -> None:
        for name, title, row in (
                ("skipped", "ci: failure", "step 0 (false): failure"),
                ("fail-fast", "ci: failure", "step 0 (make test): failure"),
                ("cancelled", "ci: cancelled", "leg 0 (test): ended cancelled"),
                ("displaced", "deploy: success, deploy: cancelled, deploy: going", "run 1 (deploy): closed cancelled"),
                ("displaced-leg", "ci: cancelled", "leg 1 (site): ended cancelled"),
                ("condition-untrue", "ci: success", "step 1 (make report): skipped"),
                ("p1", "ci: success", "run 0 (ci): closed success")):
            with self.subTest(name):
                self.open(self.page(EXAMPLES / f"{name}.record"))
                self.assertEqual(self.js("return document.title").split(" \u00b7 ")[0].lower(), title.lower())
                self.assertTrue(self.row().startswith(row), self.row())
                self.quiet()
        self.open(self.page(EXAMPLES / "displaced.record"))
        self.assertEqual(self.text("#fail"), "Next displaced")

    def test_the_error_is_in_view_below_its_reasons(self) -> None:
        page = self.failed()
        for width, height in ((1400, 800), (1000, 800), (400, 800)):
            self.size(width, height)
            self.open(page)
            self.assertEqual(self.js("return document.title"), "CI: failure \u00b7 octo/shop")
            error, log, why = (self.box(it) for it in (".said.error", "#log", "#why"))
            self.assertGreater(log["height"], 100)
            self.assertGreaterEqual(error["top"], log["top"], width)
            self.assertLessEqual(error["bottom"], min(log["bottom"], height), width)
            self.assertTrue(0 <= why["top"] and why["bottom"] <= log["top"], (width, why, log))
            self.assertEqual(self.text(".said.error"), "error: 1 != 2 <b>\n")
        self.size(1400, 800)
        self.open(page, "#99/step-0-0")
        below = self.js("const it = document.querySelector('#log'); return it.scrollHeight - it.scrollTop - it.clientHeight")
        self.assertLess(abs(below), 1)
        self.quiet()

    def test_reasons_are_those_of_why(self) -> None:
        """Of each part that did not succeed; of a step that never began the command is shown."""
        shown = "return document.querySelector('#details .kind').textContent"
        for name in ("fail-fast", "cancelled", "cancel-in-progress", "group-faulted", "displaced-leg", "deploy"):
            record = EXAMPLES / f"{name}.record"
            page = self.page(record)
            self.open(page)
            for words in report.shown(report.read_record(PROGRAM, record), record)["why"]:
                if words.startswith("stop "):
                    continue
                kind, *numbers = words.split()
                self.js(f"location.hash = '#99999/{'-'.join([kind, *numbers])}'")
                self.wait_for(lambda: self.js(shown).startswith(f"{kind} {numbers[-1]}"))
                self.assertEqual(self.text("#why") + "\n", why(record, words), (name, words))
        self.open(self.page(EXAMPLES / "displaced.record"), "#99/step-1-0")
        command = shlex.split(self.text("#details .ask code"))
        self.assertEqual(command, ["actrun", "why", str(EXAMPLES / "displaced.record"), "step", "1", "0"])
        self.assertIn("step 0", why(EXAMPLES / "displaced.record", "step 1 0"))

    def test_a_step_of_the_record_shows_what_changed(self) -> None:
        self.open(self.nightly(), "#21/run-0")
        self.assertEqual((self.press(Keys.ARROW_RIGHT), self.press(Keys.ARROW_RIGHT)), (22, 23))
        self.assertEqual(self.row(), "step 0 (Run the suite): failure")
        self.assertEqual(self.text("#changes li:nth-child(2)"), "step 0 (Run the suite): failure")
        self.assertIn("running 1 call \u2192 running 1 idle", self.text("#changes"))
        self.assertEqual((self.press("."), self.press(",")), (24, 23))
        self.press("w")
        self.assertEqual((self.press(Keys.ARROW_LEFT), self.row()), (22, "step 0 (Run the suite): in its call"))
        self.assertEqual(self.press(Keys.HOME), 0)
        self.assertEqual((self.press(Keys.ARROW_RIGHT), self.row()), (1, "step 0 (Run the suite): not begun"))
        self.assertEqual(self.text("#changes"), "run 0 (Nightly): new \u2192 going")
        self.press("w")
        self.js("document.querySelector('#changes button').click()")
        self.assertEqual(self.row(), "run 0 (Nightly): going")
        self.js("location.hash = '#10/run-0'")
        self.wait_for(lambda: self.press() == 10)
        self.js("location.hash = '#9/run-0'")
        self.wait_for(lambda: self.press() == 9)
        self.assertIn("job 0 (build): success", self.text("#changes"))

    def test_times_are_at_rows_and_bars(self) -> None:
        self.open(self.failed(), "#99/step-0-1")
        spans = self.js("""const row = document.querySelector('[aria-selected=true]'), bar = row.querySelector('.bar');
            return [row.querySelector('.took').textContent, row.querySelector('.cell').title, bar.title,
              document.querySelector('#details p').textContent]""")
        lasted = spans[0]
        self.assertRegex(lasted, r"^[\d.]+ s$")
        self.assertEqual([it.endswith(lasted) for it in spans], [True] * 4, spans)
        self.open(self.failed(times=False), "#99/step-0-1")
        self.assertEqual(self.js("return document.querySelectorAll('.took:not(:empty)').length"), 0)

    def test_a_leg_shows_its_combination(self) -> None:
        self.size(1400, 800)
        self.open(self.failed(), "#99/leg-1")
        self.assertEqual(self.texts(".row.leg .name"), ["os linux, python 3.10", "os linux, python 3.12"])
        self.assertEqual(self.texts(".label"), ["linux, 3.10", "linux, 3.12"])
        self.assertIn("Matrixoslinuxpython3.12", self.text("#details"))

    def test_the_tree_can_be_wider(self) -> None:
        self.size(1400, 800)
        self.open(self.nightly())
        width = "return document.querySelector('.cell').getBoundingClientRect().width"
        before = self.js(width)
        self.js("document.querySelector('#grip').focus()")
        place = self.press(Keys.ARROW_RIGHT, Keys.ARROW_RIGHT)
        self.assertEqual((self.js(width) - before, place), (40, 38))
        self.assertEqual(self.js("return document.querySelector('#grip').ariaValueNow"), str(int(before) + 40))
        edge, middle = before + 40, 400
        for kind, at in (("mousePressed", edge), ("mouseMoved", edge + 60), ("mouseReleased", edge + 60)):
            self.browser.execute_cdp_cmd("Input.dispatchMouseEvent", {
                "type": kind, "x": at, "y": middle, "button": "left", "buttons": 1, "clickCount": 1})
        self.wait_for(lambda: abs(self.js(width) - before - 100) < 6)
        head, veil = self.box("#head"), self.box("#rows .lane")
        self.assertGreaterEqual(head["left"], veil["left"])
        self.quiet()

    def test_search_finds_names_values_and_logs(self) -> None:
        self.size(1400, 800)
        self.open(self.failed())
        self.press("/", *"needle")
        found = [it for it in self.texts("#hitlist li") if "variable of" in it]
        self.assertEqual(found, [f"CHANNEL=needle-one variable of step 0 of leg {leg} (test, os linux, python {it})"
                                 for leg, it in ((0, "3.10"), (1, "3.12"))])
        self.press(*[Keys.BACKSPACE] * 6, *"1 != 2 <b>")
        found = [it for it in self.texts("#hitlist li") if "log of" in it]
        self.assertEqual(len(found), 2)
        self.assertEqual(found[0], "error: 1 != 2 <b> log of step 1 of leg 0 (test, os linux, python 3.10)")
        self.press(*[Keys.BACKSPACE] * 10, *"ok 7")
        self.press(Keys.ARROW_DOWN, Keys.ARROW_DOWN, Keys.ARROW_UP, Keys.ENTER)
        self.assertEqual((self.row(), self.text("#log mark")), ("step 1 (pytest): failure", "ok 7"))
        spot, log = self.box("#log mark"), self.box("#log")
        self.assertTrue(log["top"] <= spot["top"] and spot["bottom"] <= log["bottom"], (spot, log))
        self.assertEqual(self.js("return document.activeElement.id"), "log")
        self.assertLessEqual(self.box("#hits")["right"], self.box("#details")["left"])
        self.js("document.querySelector('#search').focus()")
        self.press(Keys.ARROW_DOWN, Keys.ESCAPE)
        self.assertTrue(self.js("return document.querySelector('#hits').hidden"))
        self.assertEqual(self.js("return document.activeElement.id"), "search")
        self.quiet()

    def test_keys_in_a_log_scroll_it(self) -> None:
        self.size(1400, 800)
        self.open(self.failed(), "#7/step-0-1")
        place = self.press(Keys.END)
        self.js("document.querySelector('#log').focus()")
        top = "return document.querySelector('#log').scrollTop"
        self.assertGreater(self.js(top), 0)
        self.assertEqual(self.press(Keys.HOME), place)
        self.wait_for(lambda: self.js(top) == 0)
        self.assertEqual(self.press(Keys.PAGE_DOWN, Keys.ARROW_RIGHT), place)
        self.wait_for(lambda: self.js(top) > 0)

    def test_left_and_right_open_and_close_rows(self) -> None:
        self.open(self.nightly(), "#38/job-1")
        shown = len(self.names())
        self.js("document.querySelector('#rows').focus()")
        self.assertEqual((self.press(Keys.ARROW_LEFT), len(self.names())), (38, shown - 9))
        self.assertEqual((self.press(Keys.ARROW_LEFT), self.row()), (38, "run 0 (Nightly): closed failure"))
        self.press(Keys.ARROW_DOWN, Keys.ARROW_DOWN, Keys.ARROW_DOWN, Keys.ARROW_DOWN, Keys.ARROW_DOWN)
        self.assertEqual(self.row(), "job 1 (suites): open \u00b7 failure")
        self.press(Keys.ARROW_RIGHT)
        self.assertEqual(len(self.names()), shown)
        self.press(Keys.ARROW_RIGHT)
        self.assertEqual(self.row(), "leg 1 (suites, suite api): ended success")

    def test_the_address_has_the_place_and_the_part(self) -> None:
        page = self.nightly()
        self.open(page)
        self.js("document.querySelector('#row-0 .cell').click()")
        self.press(",", "w", ",")
        self.wait_for(lambda: self.js("return location.hash").startswith("#36/"))
        kept, row = self.js("return location.hash"), self.row()
        self.open(page, kept)
        self.assertEqual((self.press(), self.row()), (36, row))
        for wrong in ("#x", "#5/leg-99", "#5/step-0-99", "#5/step-99-0", "#/run-0", "#5/constructor-0"):
            self.open(page, wrong)
            self.assertIn(self.press(), (5, 38), wrong)
        self.quiet()

    def test_contrast_names_roles_and_order(self) -> None:
        page = self.failed()
        groups = self.page(EXAMPLES / "displaced-leg.record")
        for scheme in ("light", "dark"):
            self.size(1400, 800, features=[{"name": "prefers-color-scheme", "value": scheme}])
            for shown in (page, groups):
                self.open(shown)
                texts, bars, *counts = self.js(RATIOS)
                self.assertEqual((texts, bars), ([], []), scheme)
                self.assertGreater(min(counts), 7)
                self.assertEqual(self.js(AUDIT), [])
        self.open(page)
        order = []
        for _ in range(60):
            self.browser.switch_to.active_element.send_keys(Keys.TAB)
            it = self.js("const it = document.activeElement; return it.id || it.dataset.act || it.className")
            if it in order and it != "link":
                break
            order.append(it)
        wanted = ["search", "only", "follow", "clock", "keys", "start", "play", "slider", "changes", "rows", "grip",
                  "log"]
        self.assertEqual([it for it in order if it in wanted], wanted, order)

    def test_on_paper_bars_have_colours_and_the_log_is_whole(self) -> None:
        self.size(800, 1000, media="print")
        self.open(self.failed())
        self.js("window.dispatchEvent(new Event('beforeprint'))")
        for part in ("#log", "#rows", "#details"):
            cut = f"const it = document.querySelector('{part}'); return it.scrollHeight - it.clientHeight"
            self.assertLessEqual(self.js(cut), 1, part)
        self.assertIn("ok 1\n", self.text("#log"))
        self.assertGreater(self.box("#log")["height"], 1500)
        colours = "return getComputedStyle(document.querySelector('.bar.failure')).printColorAdjust"
        self.assertEqual(self.js(colours), "exact")
        lane, bar = self.box("#rows .lane"), self.box(".row.run .bar")
        self.assertTrue(lane["left"] <= bar["left"] and bar["right"] <= lane["right"], (lane, bar))
        self.assertGreater(len(self.browser.print_page()), 10_000)

    def test_three_hundred_legs_stay_usable(self) -> None:
        plan = plan_of("CI", ["unit", "browser"], [step("run", "exit 3")])
        for job in plan["runs"][0]["jobs"]:
            job.update(legs=[{"shard": at} for at in range(150)], fail_fast=False)
        record = self.recorded("many", plan)
        self.open(self.page(record, logs=record.parent))
        self.size(1400, 800)
        self.assertEqual(self.texts(".badge")[2:], ["300 legs failed", "300 steps failed"])
        self.assertLess(self.js("return document.querySelectorAll('#rows .row').length"), 100)
        self.assertEqual(self.row(), "step 0 (run): failure")
        self.press(*"fff")
        self.press("/", *"shard 149")
        self.assertEqual(self.names(), ["CI", "unit", "shard 149", "browser", "shard 149"])
        self.press(Keys.ENTER)
        self.assertTrue(self.row().startswith("leg 149 (unit, shard 149)"), self.row())
        self.quiet()

    def test_a_hundred_thousand_entries_stay_usable(self) -> None:
        page = self.room / "great.html"
        shown = great(245, 24)
        self.assertGreater(shown["total"], 99_000)
        report.write(page, report.page_of(shown))
        self.size(1400, 800)
        self.assertLess(self.open(page), 12_000)  # (3 seconds; a busy machine has time for it too)
        self.assertEqual(self.row(), "step 23 (step 23): failure")
        self.assertLess(self.js(STEP_TIME), 200)  # (50 milliseconds)
        self.press("f", "f")
        self.press("/", *"shard 244")
        self.assertEqual(self.names()[:3], ["great", "job-0", "shard 244"])
        self.press(Keys.ENTER)
        self.assertTrue(self.row().startswith("leg 244 (job-0, shard 244)"), self.row())
        self.assertEqual((self.press(Keys.HOME), self.press(Keys.END)), (0, shown["total"]))
        self.quiet()


if __name__ == "__main__":
    unittest.main()
