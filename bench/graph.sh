#!/usr/bin/env bash
# Prints the time of `actrun graph` of a plan of 4,096 legs, and of records of 10,000 and 100,000 entries on it, next to that of
# `replay`, with the size of what is printed. Times are those of the processor, the least of three runs.
set -eu
top=$(cd "$(dirname "${BASH_SOURCE[0]}")/.." && pwd)
"$top/actrun" graph "$top/examples/p1.record" > /dev/null
PYTHONPATH=$top/bench exec python3 - <<'PY'
from processor_time import big_record, seconds, size

for count in (0, 10_000, 100_000):
    with big_record(count, "legs") as record:
        print(f"{count} entries on 4,096 legs: graph {seconds('graph', record):.2f} s, "
              f"replay {seconds('replay', record):.2f} s, {size('graph', record) / 1e3:.0f} kB printed")
PY
