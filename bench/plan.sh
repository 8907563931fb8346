#!/usr/bin/env bash
# Prints the time of `actrun plan`: of workflows of 256 jobs that each need all before it (32,640 needs a
# workflow), of 64 workflows and of a half and a quarter of them; of workflows of fewer jobs with about a half and a
# quarter of the needs; and of a matrix of 65,536 combinations with 256 excludes. A plan has at most 4,096 legs, so more
# than 16 workflows of 256 jobs are refused, by the last test of all, once everything else has passed. What the needs
# take is the time beyond that of the same texts with the needs at a key that is passed over. The time of a need may not
# grow with the number of needs. Times are those of the processor, the least of three runs.
#
#   bench/plan.sh [matrix]     with `matrix` the matrix alone
set -eu
top=$(cd "$(dirname "${BASH_SOURCE[0]}")/.." && pwd)
"$top/actrun" plan "$top/examples/p1.json" > /dev/null
exec python3 - "$top" "$@" <<'PY'
import json
import os
import subprocess
import sys
import tempfile

top, *chosen = sys.argv[1:]
program = os.path.join(top, "crates/actrun/out/actrun")

# Runs the program and prints its status, its processor time, its peak memory and what it said.
CHILD = """
import resource, subprocess, sys
done = subprocess.run(sys.argv[1:], stdout=subprocess.DEVNULL, stderr=subprocess.PIPE)
used = resource.getrusage(resource.RUSAGE_CHILDREN)
print(done.returncode, used.ru_utime + used.ru_stime, used.ru_maxrss, done.stderr.decode().strip())
"""


def plan(paths, wanted):
    """The least seconds and the greatest peak in bytes of three runs, which all have to say what is wanted."""
    seconds, peak = [], 0
    for _ in range(3):
        done = subprocess.run([sys.executable, "-c", CHILD, program, "plan", *paths],
                              capture_output=True, text=True, check=True)
        status, used, memory, said = (done.stdout.strip() + " ").split(" ", 3)
        if (status, said.strip()) != wanted:
            sys.exit(f"plan of {len(paths)} files: status {status}: {said}")
        seconds.append(float(used))
        peak = max(peak, int(memory) * 1024)
    return min(seconds), peak


PLANNED, TOO_MANY = ("0", ""), ("2", "actrun: plan TooMany")


def step():
    return [{"run": "make"}]


def workflow(jobs, key):
    """A workflow in which each job needs all before it, where the key is `needs`."""
    ids = [f"job-{place}" for place in range(jobs)]
    return {"name": "big", "on": "push",
            "jobs": {name: {key: ids[:place], "steps": step()} for place, name in enumerate(ids)}}


def written(folder, name, value):
    path = os.path.join(folder, name)
    with open(path, "w") as file:
        json.dump(value, file, separators=(",", ":"))
    return path


def needs(folder):
    for count, jobs in [(16, 256), (32, 256), (64, 256), (64, 181), (64, 128), (64, 64)]:
        wanted = PLANNED if count * jobs <= 4096 else TOO_MANY
        with_needs, without = [written(folder, f"{key}.json", workflow(jobs, key)) for key in ("needs", "wants")]
        number = count * jobs * (jobs - 1) // 2
        size = count * os.path.getsize(with_needs)
        base, _ = plan([without] * count, wanted)
        seconds, peak = plan([with_needs] * count, wanted)
        told = "a plan" if wanted == PLANNED else "refused for its legs at the end"
        print(f"{count} workflows of {jobs} jobs, {number} needs: {size / 1e6:.1f} MB of text, {seconds:.2f} s "
              f"({base:.2f} s without needs), {(seconds - base) / number * 1e9:.0f} ns a need beyond the text, "
              f"{seconds / number * 1e9:.0f} ns in all, peak {peak / 1e6:.0f} MB, {told}", flush=True)


def job_of(matrix):
    return {"name": "big", "on": "push", "jobs": {"wide": {"strategy": {"matrix": matrix}, "steps": step()}}}


def two_variables():
    """256 times 256 combinations; the excludes leave 255."""
    values = list(range(256))
    return {"a": values, "b": values, "exclude": [{"a": 0, "b": 0}] + [{"a": place} for place in range(1, 256)]}


def sixteen_variables():
    """Two to the sixteenth combinations; 248 entries of 16 pairs fit none but for the last pair, and 8 leave 256."""
    names = [f"v{place:02}" for place in range(16)]
    fits_none = [{name: number >> place & 1 for place, name in enumerate(names)} | {"v15": 2} for number in range(248)]
    leave = [{name: 1} for name in names[:8]]
    return {**{name: [0, 1] for name in names}, "exclude": fits_none + leave}


def matrices(folder):
    for name, matrix in [("two variables of 256 values", two_variables()), ("16 variables of two values", sixteen_variables())]:
        whole = written(folder, "matrix.json", job_of(matrix))
        seconds, peak = plan([whole], PLANNED)
        print(f"a matrix of 65536 combinations, {name}, {len(matrix['exclude'])} excludes: {seconds:.2f} s, "
              f"{seconds / 65536 * 1e9:.0f} ns a combination, peak {peak / 1e6:.0f} MB", flush=True)


with tempfile.TemporaryDirectory() as folder:
    if not chosen:
        needs(folder)
    matrices(folder)
PY
