#!/usr/bin/env bash
# usage: ./actrun --prove
#
# Proves each crate that the program is built from, builds the program, and has it print the board of a record as a check.
# Messages go to standard error; where a proof or the build fails the status is 3.
#
# The proofs are those of verdicts.py: each crate over the statements of the crates below it, as many side by side as there are
# processors, the one with the longest chain of work above it first. Proved crates are kept, also where this is interrupted.
set -u
top=$(cd "$(dirname "${BASH_SOURCE[0]}")/.." && pwd) || exit 3
# shellcheck source=tools/sources.sh
. "$top/tools/sources.sh"
program=$top/crates/actrun/out/actrun

say() { printf 'actrun: %s\n' "$1" >&2; }

# proves all crates, with a line for each that is proved
build() {
  (cd "$top" && exec python3 -u tools/verdicts.py actrun) 2>&1 | sed -u 's/^/actrun: /' >&2
  return "${PIPESTATUS[0]}"
}

# the program prints the board of the smallest record
check() {
  local board
  if ! board=$("$program" table <"$top/examples/p1.record") || [ "${board%%$'\n'*}" != 'run 0 closed success' ]; then
    say 'the program that was built does not print the board of examples/p1.record'
    exit 3
  fi
  say "the board of examples/p1.record, as the proved program prints it:"
  printf '%s\n' "$board" >&2
}

main() {
  local now before
  now=$(sources) || exit 3
  until is_made_of "$program" "$now"; do
    rm -f "${program%/*}/made_of"
    if ! build; then
      say 'not all is proved; no program is built'
      exit 3
    fi
    # what was changed meanwhile is proved too
    before=$now
    now=$(sources) || exit 3
    [ "$now" = "$before" ] || continue
    if ! made_of "$program" "$now" >"${program%/*}/made_of"; then
      say 'no program was built'
      exit 3
    fi
  done
  check
  say "the program is $program; ./actrun --install installs it"
}

main; exit
