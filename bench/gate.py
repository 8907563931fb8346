#!/usr/bin/env python3
"""Runs the gate and prints what it took: processor minutes by crate, for the proof, its tests and its must-fail edits.

  bench/gate.py [COMMAND ..]      rt ci, or another command, from the top of the repository

Linux alone: every half second it reads from /proc how long each checking process has run so far. What a process took
after the last look at it is lost, so the sums are a little low. The table goes to standard error, at the end; the
status is the command's. Its last column has the minutes of the proof that tools/proof_costs.tsv lists.
"""
import collections
import csv
import os
import subprocess
import sys
import time

TICK = os.sysconf("SC_CLK_TCK")
PARTS = ["proof", "tests", "edits", "program"]
COSTS = os.path.join(os.path.dirname(os.path.abspath(__file__)), "../tools/proof_costs.tsv")


def listed():
    """Returns the minutes of each crate's proof, as tools/proof_costs.tsv has them."""
    with open(COSTS, encoding="utf-8", newline="") as it:
        rows = csv.DictReader((line for line in it if not line.startswith("#")), delimiter="\t")
        return {row["crate"]: row["minutes"] for row in rows}


def children():
    """Returns the parent of each process."""
    found = {}
    for name in os.listdir("/proc"):
        if name.isdigit():
            try:
                with open(f"/proc/{name}/stat", encoding="utf-8", errors="replace") as it:
                    found[int(name)] = it.read().rpartition(")")[2].split()
            except OSError:
                pass
    return found


def below(top, stats):
    """Returns the processes that stand below one."""
    under, grew = {top}, True
    while grew:
        more = {pid for pid, stat in stats.items() if int(stat[1]) in under and pid not in under}
        under, grew = under | more, bool(more)
    return under - {top}


def part_of(pid):
    """Returns the crate that a process works for, and at which part."""
    try:
        with open(f"/proc/{pid}/cmdline", encoding="utf-8", errors="replace") as it:
            words = it.read().split("\0")
        folder = os.readlink(f"/proc/{pid}/cwd")
    except OSError:
        return None
    if "--crate-name" not in words:
        return None
    crate = words[words.index("--crate-name") + 1]
    if "rt-edit-" in folder:
        return crate, "edits"
    return crate, "tests" if "--test" in words else "proof"


def main():
    command = sys.argv[1:] or ["rt", "ci"]
    began = time.time()
    started = subprocess.Popen(command)
    took, owner = {}, {}
    while started.poll() is None:
        stats = children()
        for pid in below(started.pid, stats):
            took[pid, stats[pid][19]] = (int(stats[pid][11]) + int(stats[pid][12])) / TICK
            part = part_of(pid)
            if part:
                owner[pid, stats[pid][19]] = part
        time.sleep(0.5)
    sums = collections.Counter()
    for key, seconds in took.items():
        sums[owner.get(key, ("other", "program"))] += seconds
    crates = sorted({crate for crate, _ in sums})
    minutes = listed()
    print(f"{'crate':16}" + "".join(f"{part:>9}" for part in [*PARTS, "listed"]), file=sys.stderr)
    for crate in crates:
        cells = [*(f"{sums[crate, part] / 60:.1f}" for part in PARTS), minutes.get(crate, "-")]
        print(f"{crate:16}" + "".join(f"{cell:>9}" for cell in cells), file=sys.stderr)
    whole = os.times()
    print(f"processor minutes in all: {(whole.children_user + whole.children_system) / 60:.1f}", file=sys.stderr)
    print(f"minutes from start to end: {(time.time() - began) / 60:.1f}", file=sys.stderr)
    return started.returncode


if __name__ == "__main__":
    sys.exit(main())
