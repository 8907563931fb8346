#!/usr/bin/env python3
"""Runs the Python tests of the front and of the tools, several files at once.

  tools/unit_tests.py [WORD..]      the files whose path has one of the words; all if none is given

Prints a line for each file, and all that a failing file prints. The last line is `N passed, M failed`.
"""
from __future__ import annotations

import concurrent.futures
import os
import re
import subprocess
import sys
import time
from pathlib import Path

TOP = Path(__file__).resolve().parent.parent
SYSTEM_PYTHON = "/usr/bin/python3"
SECONDS = 900


def python() -> str:
    """A Python that has ruamel.yaml: this one, or else the system's."""
    for it in (sys.executable, SYSTEM_PYTHON):
        if os.path.exists(it) and subprocess.run([it, "-c", "import ruamel.yaml"], capture_output=True, check=False).returncode == 0:
            return it
    sys.exit("actrun: the Python library ruamel.yaml is missing: install python3-ruamel.yaml")


def modules() -> list[tuple[Path, str, Path]]:
    """The folder to start each file of tests in, its module there, and the file."""
    found = [(TOP / "front", f"tests.{it.stem}", it) for it in sorted((TOP / "front/tests").glob("test_*.py"))]
    return found + [(TOP / "tools", it.stem, it) for it in sorted((TOP / "tools").glob("*_test.py"))]


def count(text: str, name: str) -> int:
    """A number of the line that ends what unittest prints."""
    found = re.search(rf"^(?:OK|FAILED) \(.*?\b{name}=(\d+)", text, re.MULTILINE)
    return int(found[1]) if found else 0


def run(folder: Path, module: str, file: Path, interpreter: str) -> tuple[int, int, str]:
    """How many tests of a file passed and failed, and what to print of it."""
    began = time.monotonic()
    try:
        ran = subprocess.run([interpreter, "-B", "-m", "unittest", module], cwd=folder, stdin=subprocess.DEVNULL, stdout=subprocess.PIPE,
                             stderr=subprocess.STDOUT, text=True, errors="replace", timeout=SECONDS, check=False)
        status, text = ran.returncode, ran.stdout
    except subprocess.TimeoutExpired as error:
        status, text = 1, f"{error}\n"
    tests = re.search(r"^Ran (\d+) tests? in", text, re.MULTILINE)
    failed = count(text, "failures") + count(text, "errors") + count(text, "unexpected successes")
    skipped = count(text, "skipped")
    if not tests or status and not failed:
        failed = max(failed, 1)
    passed = max(int(tests[1]) - failed - skipped, 0) if tests else 0
    said = f"{file.relative_to(TOP)}: {passed} passed, {failed} failed, {skipped} skipped, {time.monotonic() - began:.0f} s\n"
    return passed, failed, said + text * bool(failed)


def main() -> int:
    interpreter, words = python(), sys.argv[1:]
    chosen = [it for it in modules() if not words or any(word in str(it[2]) for word in words)]
    chosen.sort(key=lambda it: -it[2].stat().st_size)  # (a long file takes long, so it begins early)
    passed = failed = 0
    with concurrent.futures.ThreadPoolExecutor(os.cpu_count()) as pool:
        for done in concurrent.futures.as_completed([pool.submit(run, *it, interpreter) for it in chosen]):
            some, others, said = done.result()
            passed, failed = passed + some, failed + others
            print(said, end="", flush=True)
    print(f"{passed} passed, {failed} failed")
    return 1 if failed or not passed else 0


if __name__ == "__main__":
    sys.exit(main())
