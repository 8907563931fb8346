#!/usr/bin/env bash
# Prints the time of `actrun eval`: of a short and of a long expression, and of functions on texts of a quarter, a half
# and nearly one MiB, next to that of an expression that only names the same contexts; and the peak memory of each. What
# Python takes to start the program counts as well, so a peak is never below some 10 MB.
set -eu
top=$(cd "$(dirname "${BASH_SOURCE[0]}")/.." && pwd)
"$top/actrun" eval 1 > /dev/null
exec python3 - "$top" <<'PY'
import json
import os
import subprocess
import sys
import tempfile
import time

program = os.path.join(sys.argv[1], "crates/actrun/out/actrun")
MIB = 1024 * 1024


def least(words):
    """The least seconds of seven runs."""
    best = None
    for _ in range(7):
        start = time.monotonic()
        done = subprocess.run([program, "eval"] + words, capture_output=True)
        seconds = time.monotonic() - start
        if done.returncode != 0:
            sys.exit(f"{words[-1][:60]}: status {done.returncode}: {done.stderr.decode()}")
        best = seconds if best is None else min(best, seconds)
    return best


# Runs the program and prints its peak memory: that of all children; it has no other.
CHILD = """
import resource, subprocess, sys
code = subprocess.run(sys.argv[1:], stdout=subprocess.DEVNULL).returncode
print(resource.getrusage(resource.RUSAGE_CHILDREN).ru_maxrss)
sys.exit(code)
"""


def peak(words):
    """The peak memory in MB of one run."""
    done = subprocess.run([sys.executable, "-c", CHILD, program, "eval"] + words,
                          capture_output=True, text=True, check=True)
    return int(done.stdout) * 1024 / 1e6


def contexts(size):
    """Contexts with texts, lists and JSON texts of about that many bytes."""
    words = [f"word{k}" for k in range(size // 10)]
    items = json.dumps(words, separators=(",", ":"))[: -1]
    listed = json.loads(items[: items.rindex(",")] + "]") if len(items) > size - 64 else words
    return {
        "github": {
            "text": "a" * (size - 64) + "needle",
            "template": "{0}" + "b" * (size - 64),
            "list": listed,
            "json": json.dumps(listed, separators=(",", ":")),
        }
    }


print(f"eval 1: {least(['1']) * 1e3:.1f} ms, peak {peak(['1']):.0f} MB")
long = "1" + " + 1".replace("+", "||") * ((20_000 - 1) // 5)
print(f"an expression of {len(long)} bytes: {least([long]) * 1e3:.1f} ms, peak {peak([long]):.0f} MB")
CASES = [
    ("contains", "contains(github.text, 'NEEDLE')"),
    ("format", "contains(format(github.template, 1), 'z')"),
    ("join", "contains(join(github.list, ','), 'z')"),
    ("toJSON", "contains(toJSON(github.text), 'z')"),
    ("fromJSON", "fromJSON(github.json)[0]"),
]
for size in (MIB // 4, MIB // 2, MIB - 1024):
    with tempfile.NamedTemporaryFile("w", suffix=".json") as file:
        json.dump(contexts(size), file, separators=(",", ":"))
        file.flush()
        alone = ["--contexts", file.name, "1"]
        base = least(alone)
        print(f"texts of {size / MIB:.2f} MiB: the file alone {base * 1e3:.1f} ms, peak {peak(alone):.0f} MB")
        for name, expression in CASES:
            words = ["--contexts", file.name, expression]
            seconds = least(words)
            print(f"  {name}: {(seconds - base) * 1e3:+.1f} ms, peak {peak(words):.0f} MB")
PY
