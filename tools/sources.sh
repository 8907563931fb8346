# The sources that programs are built from, and the programs that are kept of them. Read by ../actrun and by scripts beside this
# one, which set `top`.
#
# A program is kept in crates/CRATE/out where it is proved, and in crates/CRATE/out/unproved where it is not; the file `made_of`
# beside it says from which sources it was built.
# shellcheck shell=bash disable=SC2034,SC2154

# the crates that a program is built from, its own last: a line 'CRATE BELOW..' for each, after the lines of those below it
crates() {
  awk -v program="${1:-actrun}" '
    /^[[:space:]]*(#|$)/ { next }
    { split($0, half, ":"); split(half[1], left, " "); uses[left[1]] = half[2] }
    function add(name, below,    words, count, i) {
      count = split(uses[name], words, " ")
      for (i = 1; i <= count; i++)
        if (words[i] in uses && index(below, " " words[i] " ") == 0)
          below = add(words[i], below) words[i] " "
      return below
    }
    function put(name,    words, count, i, below) {
      if (name in done) return
      done[name] = 1
      below = add(name, " ")
      count = split(below, words, " ")
      for (i = 1; i <= count; i++) put(words[i])
      print name below
    }
    END { put(program) }
  ' "$top/crates.txt"
}

# the files that say how a program is built and proved
builders=(crates.txt tools/prove.sh tools/sources.sh tools/verdicts.py)

# the folders of sources of a program, below the top: of the program of a crate with proofs, or `unproved`
folders() {
  local name folder
  while read -r name _; do
    for folder in "crates/$name/src" "crates/$name/specs" "crates/$name/proofs"; do
      case $2/$folder in unproved/*/proofs) continue ;; esac
      [ ! -d "$top/$folder" ] || echo "$folder"
    done
  done < <(crates "$1")
}

# a sum over all that the program of a crate is built from (proved if not said otherwise): the names of files, and their contents
sources() {
  local folders
  mapfile -t folders < <(folders "${1:-actrun}" "${2:-proved}")
  (
    cd "$top" || exit
    { find "${folders[@]}" -type f -print0; printf '%s\0' "${builders[@]}"; } | LC_ALL=C sort -z | xargs -0 sha256sum
  ) | sha256sum
}

# what `made_of` holds where a program is built from the sources with a sum
made_of() {
  [ -x "$1" ] && echo "$2" && sha256sum <"$1"
}

# whether a program is there and built from the sources with a sum
is_made_of() {
  local stamp=${1%/*}/made_of
  [ -x "$1" ] && [ -e "$stamp" ] && [ "$(made_of "$1" "$2")" = "$(cat "$stamp")" ]
}

# the program that was chosen, and the files and folders that the choice rests on (a folder changes where a file comes or goes);
# proofs are among them where a program was proved
watched() {
  local folders how=unproved
  [ ! -e "$top/crates/$1/out/made_of" ] || how=proved
  mapfile -t folders < <(folders "$1" "$how")
  printf '%s\0' "$2" "${2%/*}/made_of" "${builders[@]}"
  (cd "$top" && find "${folders[@]}" -print0)
  printf '%s\n' "${folders[@]%/*}" | sort -u | tr '\n' '\0'
}

# whether a choice still holds: nothing that it rests on has changed since, and no program was proved
holds() {
  local changed
  # shellcheck disable=SC2185 # the choice has the paths
  [ ! "${1%/*}/made_of" -nt "$1" ] && changed=$(cd "$top" && exec find -files0-from "$1" -prune -cnewer "$1" -print -quit 2>/dev/null) &&
    [ -z "$changed" ]
}

# Sets `program` to the program of a crate that is built from the sources as they are: the proved one, else the unproved one.
# Fails where there is neither. The choice is kept in out/chosen with what it rests on, and sums are taken only after a change.
choose() {
  local out=crates/$1/out chosen=$top/crates/$1/out/chosen name how
  if [ -e "$chosen" ] && IFS= read -r -d '' name <"$chosen" && [ -x "$top/$name" ] && holds "$chosen"; then
    program=$top/$name
    return
  fi
  [ -e "$top/$out/made_of" ] || [ -e "$top/$out/unproved/made_of" ] || return 1
  # (its time is before the sum, so that whatever changes meanwhile is newer)
  { : >"$chosen.$BASHPID"; } 2>/dev/null
  for name in "$out/$1" "$out/unproved/$1"; do
    case $name in */unproved/*) how=unproved ;; *) how=proved ;; esac
    if [ -x "$top/$name" ] && is_made_of "$top/$name" "$(sources "$1" "$how")"; then
      program=$top/$name
      [ ! -e "$chosen.$BASHPID" ] || keep_choice "$1" "$name" "$chosen"
      return
    fi
  done
  rm -f -- "$chosen.$BASHPID"
  return 1
}

keep_choice() {
  watched "$1" "$2" >"$3.$BASHPID.new" && touch -r "$3.$BASHPID" "$3.$BASHPID.new" && mv -f -- "$3.$BASHPID.new" "$3"
  rm -f -- "$3.$BASHPID" "$3.$BASHPID.new"
}

# the processor minutes of each crate's proof: 'CRATE MINUTES' a line
figures() {
  awk -F'\t' '!/^#/ && $4 + 0 > 0 { print $1, $4 + 0 }' "$top/tools/proof_costs.tsv"
}

# the crates of the program, each with its figure, in tenths of a minute (without a figure: one minute), before what `crates` has
# of it: 'CRATE TENTHS BELOW..' a line
costs() {
  { figures; echo; crates; } | awk '
    NF == 0 { inside = 1; next }
    !inside { takes[$1] = int($2 * 10 + 0.5); next }
    { name = $1; $1 = ""; print name, (name in takes) ? takes[name] : 10, $0 }'
}

# how long a proof of all that the program is built from takes
whole_time() {
  costs | awk '{ sum += $2 } END { printf "some %d processor minutes", sum / 10 }'
}
