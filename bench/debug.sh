#!/usr/bin/env bash
# Prints, for `actrun debug` on a record of 100,000 entries, what opening takes an entry, a move in the middle, and an entry of
# `goto` to the end and back; of one run whose jobs have one leg each, and of 4,096 legs with groups and fail-fast. Times are those
# of the processor, the least of three runs.
set -eu
top=$(cd "$(dirname "${BASH_SOURCE[0]}")/.." && pwd)
"$top/actrun" table < "$top/examples/p1.record" > /dev/null
PYTHONPATH=$top/bench exec python3 - <<'PY'
from processor_time import big_record, seconds

COUNT, MOVES, JOURNEYS = 100_000, 200_000, 20
for shape in ((), ("legs",)):
    with big_record(0, *shape) as plan, big_record(COUNT, *shape) as record:
        alone, opened = seconds("debug", plan), seconds("debug", record)
        halfway = f"goto {COUNT // 2}\n"
        moved = seconds("debug", record, given=halfway + "step\nback\n" * MOVES) - seconds("debug", record, given=halfway)
        gone = seconds("debug", record, given=f"goto {COUNT}\ngoto 0\n" * JOURNEYS)
        print(f"{COUNT} entries{' on 4,096 legs' if shape else ''}: open {(opened - alone) / COUNT * 1e6:.2f} us an entry, "
              f"a move {moved / (2 * MOVES) * 1e6:.2f} us, goto {(gone - opened) / (2 * JOURNEYS * COUNT) * 1e6:.2f} us an entry")
PY
