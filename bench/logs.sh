#!/usr/bin/env bash
# usage: bench/logs.sh [PROGRAM]      PROGRAM is crates/actrun/out/actrun if none is named
#
# Prints the peak memory and the time of `actrun run`, by 1 worker and by 4, over 1,000 steps in 4 jobs that print a megabyte each:
# what is shown of a log is written before the next is read, so the peak is of one log and not of all.
set -euo pipefail
program=$(realpath "${1:-$(dirname "$0")/../crates/actrun/out/actrun}")
room=$(mktemp -d)
trap 'rm -rf "$room"' EXIT
cd "$room"
python3 - >flow.json <<'PYTHON'
import json
steps = [{"run": "head -c 1000000 /dev/zero | tr '\\0' x"}] * 250
print(json.dumps({"name": "logs", "on": "push", "jobs": {f"j{number}": {"steps": steps} for number in range(4)}}))
PYTHON
"$program" plan ./flow.json >plan
for workers in 1 4; do
  mkdir work
  shown=$(/usr/bin/time -f '%M %e' -o took "$program" run --workers "$workers" --work work --record record plan | wc -c)
  read -r memory seconds <took
  echo "workers $workers: $shown bytes shown, peak memory $memory KB, $seconds s"
  rm -r work
done
