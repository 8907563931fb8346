#!/usr/bin/env python3
"""Executes the cases of crates/conformance by its program, several parts of a file at once, each in a folder of its own.

  tools/cases.py PROGRAM [FILE..]      PROGRAM is the built crate `conformance`; all files that its `args` names if none is named

Prints each case that differs. The last line is `N passed, M failed`. Where no file is named, a program without proofs is not given
the files that it takes long for, which are printed; .ci/run executes them. The cases of all files have to be as many as
crates/conformance/stdout has.
"""
from __future__ import annotations

import concurrent.futures
import os
import re
import shutil
import subprocess
import sys
import tempfile
from pathlib import Path

CRATE = Path(__file__).resolve().parent.parent / "crates/conformance"
TOLD = re.compile(r"(\d+) cases agree(?:, (\d+) differ)?$")
SECONDS = 1800
# the files that are executed by a proved program alone
PROVED = ["greatest-texts.cases"]
# a program without proofs takes long for these files, so they begin first. Those with several slow cases are executed in parts, but
# not those that define great texts, since each part reads all definitions.
WHOLE = [f"{name}.cases" for name in "expressions settled eval pools".split()]
SLOW = [f"{name}.cases" for name in "evaluation hostile-sweeps table planning-limits".split()]
PARTS = 8
# the marks of lines that ask or want something, and of lines that define something for later cases
ASKS, DEFINES = "$?>!=<~%", "#|/:"


def definitions(case: str) -> str:
    """The lines of a case that define something, with those that go on with them."""
    lines, defines = [], False
    for line in case.split("\n"):
        mark = line[:1] if line[1:2] in ("", " ") else ""
        defines = bool(mark) and (mark in DEFINES or defines and mark not in ASKS)
        lines += [line] * defines
    return "\n".join(lines)


def asks_something(case: str) -> bool:
    """Whether a case asks or wants something."""
    return re.search(r"^[$?>!=]( |$)", case, re.MULTILINE) is not None


def part_of(text: str, number: int) -> str:
    """The cases of a file that are in a part, and what the cases left out define for them."""
    cases, units = [], 0
    for case in re.split(r"\n{2,}", text):
        asks = asks_something(case)
        # (`run` may read the record that a `run` before it wrote, so it stays in the part of the case before it)
        units += asks and not re.search(r"^\$ run", case, re.MULTILINE)
        cases.append(definitions(case) if asks and units % PARTS != number else case)
    return "\n\n".join(filter(None, cases))


def execute(program: Path, file: str, number: int) -> tuple[int, int, str]:
    """How many cases of a part of a file agree and differ, and what the program printed before it counted them."""
    with tempfile.TemporaryDirectory() as folder:
        shutil.copytree(CRATE / "data", folder, dirs_exist_ok=True)
        cases = Path(folder, file)
        if file in SLOW:
            with cases.open(encoding="utf-8", newline="") as it:
                text = it.read()
            with cases.open("w", encoding="utf-8", newline="") as it:
                it.write(part_of(text, number))
        try:
            ran = subprocess.run([program, file], cwd=folder, stdin=subprocess.DEVNULL, stdout=subprocess.PIPE, stderr=subprocess.STDOUT,
                                 text=True, errors="replace", timeout=SECONDS, check=False)
        except subprocess.TimeoutExpired:
            return 0, 1, f"{file}: no answer came within {SECONDS} s\n"
    *lines, last = ran.stdout.splitlines() or [""]
    counted = TOLD.match(last)
    if counted is None:
        return 0, 1, f"{file}: the program ended with status {ran.returncode} and counted no cases\n{ran.stdout}"
    return int(counted[1]), int(counted[2] or 0), "".join(f"{file}: {line}\n" for line in lines)


def leave_out(files: list[str]) -> int:
    """Takes files out of a list, prints which, and returns how many cases they have."""
    cases = 0
    for file in PROVED:
        files.remove(file)
        count = sum(map(asks_something, re.split(r"\n{2,}", (CRATE / "data" / file).read_text(encoding="utf-8"))))
        print(f"{file}: {count} cases are left out, which only a proved program executes", flush=True)
        cases += count
    return cases


def wanted() -> int:
    """The number of cases that all files have."""
    return int(TOLD.match((CRATE / "stdout").read_text(encoding="utf-8").strip())[1])


def main() -> int:
    if len(sys.argv) < 2:
        print(__doc__, file=sys.stderr)
        return 2
    program, named = Path(sys.argv[1]).resolve(), sys.argv[2:]
    files = named or (CRATE / "args").read_text(encoding="utf-8").split()
    left = leave_out(files) if not named and "unproved" in program.parts else 0
    files.sort(key=lambda it: [*WHOLE, *SLOW, it].index(it))
    agree = differ = 0
    with concurrent.futures.ThreadPoolExecutor(os.cpu_count()) as pool:
        started = [pool.submit(execute, program, file, number) for file in files
                   for number in range(PARTS if file in SLOW else 1)]
        for it in started:
            some, others, said = it.result()
            agree, differ = agree + some, differ + others
            print(said, end="", flush=True)
    if not named and agree + differ + left != wanted():
        print(f"{agree + differ} cases were executed and {left} left out, and crates/conformance/stdout has {wanted()}")
        differ += 1
    print(f"{agree} passed, {differ} failed")
    return 1 if differ else 0


if __name__ == "__main__":
    sys.exit(main())
