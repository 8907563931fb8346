#!/usr/bin/env bash
# usage: bench/run.sh [PROGRAM [JOBS]]      PROGRAM is crates/actrun/out/actrun if none is named, JOBS 512
#
# Prints the time of a step of `actrun run`, of `run --record FILE`, of `make -j` and, where it is installed, of `ninja -j`, with 1, 4 and
# 16 workers: JOBS jobs of one step `true`, for which all start bash. Then what 16 jobs of `sleep 1` take beyond the second with 16
# workers. Times are elapsed, the least of seven runs, interleaved; of `sleep 1`, of three. All files are in /dev/shm.
set -eu
program=$(realpath "${1:-$(dirname "$0")/../crates/actrun/out/actrun}")
room=$(mktemp -d -p /dev/shm)
trap 'rm -rf "$room"' EXIT
cd "$room"
python3 - "$program" "${2:-512}" <<'PY'
import json
import pathlib
import shutil
import subprocess
import sys
import time

PROGRAM, JOBS = sys.argv[1], int(sys.argv[2])
MOST = 256  # jobs of a workflow


def prepare(jobs, script):
    """Writes a plan, a Makefile and a build.ninja of that many jobs of one step."""
    flows = []
    for first in range(0, jobs, MOST):
        flows.append(f"./{first}.json")
        of_flow = {f"job-{number}": {"steps": [{"run": script}]} for number in range(first, min(first + MOST, jobs))}
        pathlib.Path(flows[-1]).write_text(json.dumps({"on": "push", "jobs": of_flow}))
    pathlib.Path("plan").write_bytes(subprocess.run([PROGRAM, "plan", *flows], check=True, stdout=subprocess.PIPE).stdout)
    names = [f"job-{number}" for number in range(jobs)]
    for name in names:
        pathlib.Path(f"{name}.sh").write_text(script)
    rules = "".join(f"{name}:\n\t@bash -e {name}.sh\n" for name in names)
    pathlib.Path("Makefile").write_text(f".PHONY: all {' '.join(names)}\nall: {' '.join(names)}\n{rules}")
    pathlib.Path("build.ninja").write_text("rule step\n  command = bash -e $out.sh\n" + "".join(f"build {name}: step\n" for name in names))


def seconds(words):
    """The elapsed time of a command, for which no earlier one left a file."""
    shutil.rmtree("work", ignore_errors=True)
    pathlib.Path("work").mkdir()
    for left in ("record", ".ninja_log"):
        pathlib.Path(left).unlink(missing_ok=True)
    begun = time.perf_counter()
    subprocess.run(words, check=True, stdin=subprocess.DEVNULL, stdout=subprocess.DEVNULL)
    return time.perf_counter() - begun


def least(workers, runs):
    """The least time of each command, in that many runs of all."""
    run = [PROGRAM, "run", "--workers", str(workers), "--work", "work"]
    commands = {"run": [*run, "plan"], "run --record": [*run, "--record", "record", "plan"], "make": ["make", "-r", "-s", f"-j{workers}"]}
    if shutil.which("ninja"):
        commands["ninja"] = ["ninja", "--quiet", f"-j{workers}"]
    found = [{name: seconds(words) for name, words in commands.items()} for _ in range(runs)]
    return {name: min(times[name] for times in found) for name in commands}


prepare(JOBS, "true")
for workers in (1, 4, 16):
    times = least(workers, 7)
    each = ", ".join(f"{name} {took / JOBS * 1e3:.2f} ms" for name, took in times.items())
    ratios = ", ".join(f"{name} {times[name] / times['make']:.2f}" for name in ("run", "run --record"))
    more = times["run --record"] / times["run"] - 1
    print(f"workers {workers}: {each} a step; times make: {ratios}; --record takes {more:+.1%}", flush=True)
prepare(16, "sleep 1")
print("16 of sleep 1, 16 workers, beyond the second: " + ", ".join(f"{name} {(took - 1) * 1e3:.1f} ms" for name, took in least(16, 3).items()))
PY
