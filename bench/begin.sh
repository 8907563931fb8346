#!/usr/bin/env bash
# Prints, for one job of 256 steps, the time of a Begin and End whose texts name no context, of one whose texts name
# `env` alone, and of one whose texts name `steps`, each after 64, 128, 192 and 256 steps. The record plays many such
# jobs, one after the other, so that the times can be measured; the time is that beyond the plan and the entries that open
# and end the jobs. Times are those of the processor, the least of five runs.
set -eu
top=$(cd "$(dirname "${BASH_SOURCE[0]}")/.." && pwd)
"$top/actrun" table < "$top/examples/p1.record" > /dev/null
exec python3 - "$top" <<'PY'
import json
import os
import resource
import subprocess
import sys
import tempfile

program = os.path.join(sys.argv[1], "crates/actrun/out/actrun")
JOBS, STEPS = 64, 256
TEXTS = {
    "no context": "make part",
    "env alone": "make ${{ env.PART }}",
    "steps": "make ${{ steps.step-0.outcome }}",
}


def line(value):
    return json.dumps(value, separators=(",", ":"), sort_keys=True) + "\n"


def step(place, run):
    work = {"dir": None, "kind": "run", "run": run, "shell": "default"}
    return {"condition": None, "env": {}, "id": f"step-{place}", "name": None, "tolerate": False, "work": work}


def job(number, run):
    return {
        "condition": None, "env": {"PART": "part"}, "fail_fast": True, "group": None, "id": f"job-{number}",
        "legs": [{}], "max_parallel": None, "name": f"job-{number}", "needs": [], "number": number, "outputs": {},
        "steps": [step(place, run) for place in range(STEPS)], "tolerate": False,
    }


def record(run, steps):
    """The plan, and the entries that execute that many steps of each of its jobs."""
    roots = {"github": {}, "inputs": {}, "secrets": {}, "vars": {}}
    jobs = [job(number, run) for number in range(JOBS)]
    yield line({"runs": [{"env": {}, "event": None, "flow": "begin", "group": None, "jobs": jobs, "roots": roots}],
                "version": 2})
    yield line({"event": "open", "run": 0, "worker": 0})
    answer = {"code": 0, "env": {}, "kind": "exit", "outputs": {}}
    for leg in range(JOBS):
        yield line({"event": "judge", "job": leg, "worker": 0})
        yield line({"event": "ask", "leg": leg, "worker": 0})
        yield line({"event": "take", "leg": leg, "worker": 0})
        for _ in range(steps):
            yield line({"event": "begin", "leg": leg, "worker": 0})
            yield line({"answer": answer, "event": "end", "leg": leg, "worker": 0})


def seconds(path):
    """The processor time of one run of the program."""
    before = resource.getrusage(resource.RUSAGE_CHILDREN)
    with open(path) as text:
        subprocess.run([program, "table"], stdin=text, stdout=subprocess.DEVNULL, check=True)
    after = resource.getrusage(resource.RUSAGE_CHILDREN)
    return after.ru_utime + after.ru_stime - before.ru_utime - before.ru_stime


def best(run, steps):
    with tempfile.NamedTemporaryFile("w") as text:
        text.writelines(record(run, steps))
        text.flush()
        return min(seconds(text.name) for _ in range(5))


for name, run in TEXTS.items():
    times = [best(run, steps) for steps in range(0, STEPS + 1, 64)]
    for place, (less, more) in enumerate(zip(times, times[1:])):
        each = (more - less) / (JOBS * 64) * 1e6
        print(f"{name}: {each:.1f} us a Begin and End of steps {place * 64} to {place * 64 + 63}")
PY
