"""What the tests of the page of `actrun report` share: records that `run` makes, and headless Chromium.

Without Chromium, its driver and selenium the browser tests are skipped, but not where ACTRUN_ALL_TESTS is set, as the gate does.
"""
from __future__ import annotations

import json
import os
import shutil
import subprocess
import sys
import tempfile
import time
import unittest
from pathlib import Path
from typing import Any, Callable

from actrun_front import report

from .dap_case import EXAMPLES, PROGRAM

sys.path.append("/usr/lib/python3/dist-packages")  # (Debian's selenium, where another Python runs the tests)
try:
    from selenium import webdriver
    from selenium.webdriver.chrome.service import Service
    from selenium.webdriver.common.keys import Keys as Keys
    WITHOUT = "" if shutil.which("chromium") and shutil.which("chromedriver") else "chromium"
except ImportError:
    WITHOUT, Keys = "python3-selenium", None
NEEDS_BROWSER = unittest.skipIf(WITHOUT and not os.environ.get("ACTRUN_ALL_TESTS"),
                                f"{WITHOUT} is missing: apt-get install chromium chromium-driver python3-selenium")
STEP_TIME = """
const press = (key) => document.dispatchEvent(new KeyboardEvent('keydown', {key, bubbles: true}));
press('Home');
const times = [];
for (let at = 0; at < 60; at++) {
  const began = performance.now();
  press(at % 3 ? 'ArrowRight' : 'ArrowLeft');
  document.body.offsetHeight;
  times.push(performance.now() - began);
}
return times.sort((a, b) => a - b)[30];
"""


def work(script: str) -> dict:
    return {"dir": None, "kind": "run", "run": script, "shell": "default"}


def step(name: str, script: str = "true") -> dict:
    return {"condition": None, "env": {}, "id": None, "name": name, "tolerate": False, "work": work(script)}


def plan_of(flow: str, names: list[str], steps: list[dict], secrets: dict | None = None) -> dict:
    """A plan of one run with a job for each name, each with one leg and the same steps."""
    jobs = [{"condition": None, "env": {}, "fail_fast": True, "group": None, "id": f"j{at}", "legs": [{}], "max_parallel": None, "name": name,
             "needs": [], "number": at, "outputs": {}, "steps": steps, "tolerate": False} for at, name in enumerate(names)]
    roots = {"github": {}, "inputs": {}, "secrets": secrets or {}, "vars": {}}
    return {"runs": [{"env": {}, "event": None, "flow": flow, "group": None, "jobs": jobs, "roots": roots}], "version": 2}


class ReportCase(unittest.TestCase):
    """A test with a folder of its own."""

    @classmethod
    def setUpClass(cls) -> None:
        cls.room = Path(tempfile.mkdtemp(prefix="actrun-report-", dir=os.environ.get("ACTRUN_TEST_FOLDER")))
        cls.addClassCleanup(shutil.rmtree, cls.room, ignore_errors=True)

    def recorded(self, name: str, plan: dict) -> Path:
        """The record of a plan that `run` executes; the logs are beside it."""
        folder = self.room / name
        folder.mkdir()
        (folder / "plan").write_text(json.dumps(plan), encoding="utf-8")
        subprocess.run([PROGRAM, "run", "--work", folder, "--record", folder / "record", folder / "plan"], check=False, capture_output=True)
        return folder / "record"

    @classmethod
    def nightly(cls) -> Path:
        """The page of an example, which is made once."""
        if not (cls.room / "nightly.html").exists():
            report.write(cls.room / "nightly.html", report.page(PROGRAM, EXAMPLES / "nightly.record"))
        return cls.room / "nightly.html"

    def page(self, record: Path, **options: Any) -> Path:
        """The page of a record, written into the folder of the test."""
        target = Path(tempfile.mkdtemp(dir=self.room)) / "page.html"
        report.write(target, report.page(PROGRAM, record, **options))
        return target


class Browsing(ReportCase):
    """A test with a browser."""

    @classmethod
    def setUpClass(cls) -> None:
        super().setUpClass()
        options = webdriver.ChromeOptions()
        for word in ("--headless=new", "--no-sandbox", "--disable-dev-shm-usage", "--disable-gpu", "--window-size=1500,6000"):
            options.add_argument(word)
        options.set_capability("goog:loggingPrefs", {"browser": "ALL"})
        cls.browser = webdriver.Chrome(service=Service(shutil.which("chromedriver")), options=options)
        cls.addClassCleanup(cls.browser.quit)
        cls.browser.set_script_timeout(300)

    def open(self, page: Path, place: str = "") -> float:
        """Opens a page; the milliseconds until it was drawn."""
        self.browser.get("about:blank")
        self.browser.get(f"file://{page}{place}")
        self.wait_for(lambda: self.js("return document.documentElement.dataset.ready") == "yes")
        return self.js("return performance.now()")

    def wait_for(self, there: Callable[[], bool]) -> None:
        """Waits until something is so, at most a minute."""
        until = time.monotonic() + 60
        while not there():
            self.assertLess(time.monotonic(), until, self.browser.get_log("browser"))
            time.sleep(0.02)

    def js(self, script: str, *given: Any) -> Any:
        return self.browser.execute_script(script, *given)

    def press(self, *keys: str) -> int:
        """The place after some keys."""
        for key in keys:
            self.browser.switch_to.active_element.send_keys(key)
        return int(self.js("return document.querySelector('#place b').textContent").split()[1])

    def chosen(self) -> str:
        return self.js("return document.querySelector('[aria-selected=true] .kind').textContent")

    def names(self) -> list[str]:
        return self.js("return [...document.querySelectorAll('#rows .row .name')].map((it) => it.textContent)")

    def quiet(self) -> None:
        """The browser has nothing to complain about."""
        self.assertEqual(self.browser.get_log("browser"), [])
