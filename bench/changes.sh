#!/usr/bin/env bash
# Prints the time of `actrun replay --changes` on records of 10,000 and 100,000 entries beside that of `replay`, of one run whose jobs
# have one leg each, and of 4,096 legs or jobs, and of 1,000,000 entries, with the size of what is printed. Times are those of the
# processor, the least of three runs.
set -eu
top=$(cd "$(dirname "${BASH_SOURCE[0]}")/.." && pwd)
"$top/actrun" replay --changes "$top/examples/p1.record" > /dev/null || true
PYTHONPATH=$top/bench exec python3 - <<'PY'
from processor_time import big_record, seconds, size

LEGS, JOBS, LONG = ["legs"], ["16", "256", "13", "1"], ["16", "256", "122", "4"]
for count, shape, what in ((10_000, [], ""), (100_000, [], ""), (10_000, LEGS, " on 4,096 legs"), (100_000, LEGS, " on 4,096 legs"),
                           (100_000, JOBS, " on 4,096 jobs"), (1_000_000, LONG, " on 4,096 jobs")):
    with big_record(count, *shape) as record:
        print(f"{count} entries{what}: replay --changes {seconds('replay', '--changes', record):.2f} s, "
              f"replay {seconds('replay', record):.2f} s, {size('replay', '--changes', record) / 1e6:.1f} MB printed")
PY
