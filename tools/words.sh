#!/usr/bin/env bash
# usage: tools/words.sh
#
# Looks for words that a native writer would not use in the documents, the texts of --help, the scripts and the Python files, and
# prints each place with what to write. The last line is `N passed, M failed`: a check is a row of the table below.
set -u
cd -- "$(dirname -- "${BASH_SOURCE[0]}")/.." || exit 2

# words, as `grep -E` reads them, and what to write
table() {
  cat <<'END'
stands? (for|at|in|twice)	is, replaces, means
(is|are) told	is printed, is reported, reads
tells? of	reports
of (each of )?which (the|each|every|none|one)	a second sentence
come(s)? (of|to)	results in, the result of
want of memory	out of memory
one (a|each) (line|call|run)	one per line
anew	again
so many	that many
likewise	also, as above
by turns	interleaved
is let go	is freed
Numbers are whole	Expressions support integers only
half a character	an unpaired surrogate
truth values?	boolean
whole numbers	integers
each of which	a second sentence
for want of	without
made of	built from
besides	also
dear	expensive
stops no other	the others still run
nothing begins so	unexpected character
has not the form	does not have the form
what comes of	the result of
is what is there	using it, the installed version
make anew	make again
END
}

main() {
  local words better good=0 bad=0 found
  while IFS=$'\t' read -r words better; do
    if found=$(grep -rnIEi --exclude-dir=__pycache__ --exclude=words.sh -- "(^|[^A-Za-z_\`'\"-])($words)([^A-Za-z_-]|\$)" \
      README.md SECURITY.md CONTRIBUTING.md CHANGELOG.md crates/conformance/README.md \
      docs front tools bench actrun completions editors); then
      printf '%s\n' "$found" | sed "s|\$|   -- write: $better|"
      bad=$((bad + 1))
    else
      good=$((good + 1))
    fi
  done < <(table)
  echo "$good passed, $bad failed"
  [ "$bad" -eq 0 ]
}

main
