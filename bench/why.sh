#!/usr/bin/env bash
# Prints the time of `actrun why` on records of 10,000 and 100,000 entries, next to that of `replay`, of one run whose jobs have one leg
# each, and of 4,096 legs with groups and fail-fast, with the size of what is printed. Times are those of the processor, the least of
# three runs.
set -eu
top=$(cd "$(dirname "${BASH_SOURCE[0]}")/.." && pwd)
"$top/actrun" why "$top/examples/p1.record" > /dev/null
PYTHONPATH=$top/bench exec python3 - <<'PY'
from processor_time import big_record, seconds, size

for shape in ((), ("legs",)):
    for count in (10_000, 100_000):
        with big_record(count, *shape) as record:
            print(f"{count} entries{' on 4,096 legs' if shape else ''}: why {seconds('why', record):.2f} s, why of job 0 "
                  f"{seconds('why', record, 'job', '0'):.2f} s, replay {seconds('replay', record):.2f} s, {size('why', record) / 1e3:.0f} kB printed")
PY
