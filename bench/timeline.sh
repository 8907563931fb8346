#!/usr/bin/env bash
# Prints the time of `actrun timeline` of records of 0, 10,000 and 100,000 entries on a plan of 4,096 legs, and of 100,000 on one of
# as many jobs, next to that of `replay`, with the size of what is printed. Times are those of the processor, the least of three runs.
set -eu
top=$(cd "$(dirname "${BASH_SOURCE[0]}")/.." && pwd)
"$top/actrun" timeline "$top/examples/p1.record" > /dev/null || true
PYTHONPATH=$top/bench exec python3 - <<'PY'
from processor_time import big_record, seconds, size

LEGS, JOBS = ["legs"], ["16", "256", "13", "1"]
for count, shape, what in ((0, LEGS, "legs"), (10_000, LEGS, "legs"), (100_000, LEGS, "legs"), (100_000, JOBS, "jobs")):
    with big_record(count, *shape) as record:
        print(f"{count} entries on 4,096 {what}: timeline {seconds('timeline', record):.2f} s, "
              f"replay {seconds('replay', record):.2f} s, {size('timeline', record):,} bytes")
PY
