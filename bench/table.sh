#!/usr/bin/env bash
# Prints, for `actrun table` on one plan and 1,000, 10,000 and 100,000 entries, the time per entry (the time
# beyond that of the plan alone) and the peak memory next to the size of the text; first for a plan of 194 jobs with
# one leg each, then for one of 16 jobs with 256 legs each, in groups and under fail-fast. The time of an entry may
# not grow with the entries before it. Times are those of the processor, the least of nine runs.
#
#   bench/table.sh [legs]     with `legs` the second plan alone
set -eu
top=$(cd "$(dirname "${BASH_SOURCE[0]}")/.." && pwd)
"$top/actrun" table < "$top/examples/p1.record" > /dev/null
exec python3 - "$top" "$@" <<'PY'
import os
import subprocess
import sys
import tempfile

top, *chosen = sys.argv[1:]
PLANS = {"one leg a job": [], "256 legs a job, in groups, under fail-fast": ["legs"]}
program = os.path.join(top, "crates/actrun/out/actrun")

# Runs the program and prints its processor time and its peak memory. Those of a child alone are those of a
# process that has no other child.
CHILD = """
import resource, subprocess, sys
code = subprocess.run(sys.argv[1:3], stdin=open(sys.argv[3]), stdout=subprocess.DEVNULL).returncode
used = resource.getrusage(resource.RUSAGE_CHILDREN)
print(used.ru_utime + used.ru_stime, used.ru_maxrss)
sys.exit(code)
"""


def run(record):
    """The seconds and the peak memory in bytes of one run."""
    done = subprocess.run([sys.executable, "-c", CHILD, program, "table", record],
                          capture_output=True, text=True, check=True)
    seconds, peak = done.stdout.split()
    return float(seconds), int(peak) * 1024


def best(count, words):
    """The least seconds, the peak memory and the text's size on that many entries."""
    with tempfile.NamedTemporaryFile() as record:
        big = os.path.join(top, "bench/big_record.py")
        subprocess.run([sys.executable, big, str(count)] + words, stdout=record, check=True)
        runs = [run(record.name) for _ in range(9)]
        return min(r[0] for r in runs), max(r[1] for r in runs), os.path.getsize(record.name)


for name, words in PLANS.items():
    if chosen and chosen != words:
        continue
    base = best(0, words)
    print(f"{name}: the plan alone: {base[2] / 1e6:.1f} MB of text, {base[0]:.2f} s, peak {base[1] / 1e6:.0f} MB")
    before = (0, base[0])
    for count in (1_000, 10_000, 100_000):
        seconds, peak, size = best(count, words)
        each = (seconds - base[0]) / count * 1e6
        later = (seconds - before[1]) / (count - before[0]) * 1e6
        before = (count, seconds)
        print(f"{count} entries: {size / 1e6:.1f} MB of text, {seconds:.2f} s, {each:.1f} us an entry beyond the plan, "
              f"{later:.1f} us each beyond those of the line before, "
              f"peak {peak / 1e6:.0f} MB = {peak / size:.1f} times the text")
PY
