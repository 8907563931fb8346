"""Ties a command and all that it starts to this process, whatever ends this process."""
from __future__ import annotations

import os
from pathlib import Path

# The leader of a session starts the command. Another process waits for the end of a pipe, whose other end
# this
# process alone has open: the pipe ends when this process dies, also by SIGKILL. Then the session is killed,
# and the
# file whose rights were taken meanwhile is its owner's again.
LEADER = r"""
plan=$1 part=$2
shift 2
lack='actrun: the system has no more processes or descriptors: end other programs, or raise `ulimit -u` and `ulimit -n`'
over=''
trap '[ -n "$over" ] || { echo "$lack" >&4; exit 3; }' EXIT
command exec 4>&2 || exit 3
command exec 3<&0 || exit 3
command exec <"$plan" 2>/dev/null || exit 3
(
  trap - EXIT
  trap '' HUP INT QUIT TERM
  PATH=/usr/bin:/bin
  exec </dev/null >/dev/null 4>&-
  read -r _ <&3
  read -r own _ </proc/self/stat
  left=1 round=0
  while [ "$left" = 1 ] && [ "$round" -lt 100 ]; do
    left=0 round=$((round + 1))
    for it in /proc/[0-9]*/stat; do
      read -r line <"$it" || continue
      it=${it#/proc/}
      it=${it%/stat}
      line=${line##*) }
      state=${line%% *}
      line=${line#* }
      line=${line#* }
      line=${line#* }
      [ "${line%% *}" = "$$" ] && [ "$it" != "$own" ] && [ "$state" != Z ] || continue
      left=1
      kill -KILL "$it"
    done
  done
  [ ! -f "$part" ] || chmod 600 "$part"
) &
watch=$!
(
  trap 'echo "$lack" >&2; exit 3' EXIT
  exec 2>&4
  exec 3<&-
  exec 4>&-
  exec "$@"
)
status=$?
over=1
kill -KILL "$watch"
exit "$status"
"""


def tied(words: list[str], plan: Path, part: Path) -> list[str]:
    """The words that execute a command with a plan as its input, and end it when their own standard input
    ends."""
    return ["/bin/sh", "-c", LEADER, "actrun-leader", os.fspath(plan), os.fspath(part), *words]
