# Builds programs from the sources as they are, without proofs, and keeps them. Read by ../actrun and test, after sources.sh.
#
# `rt try` (by quick_try.py) builds a program, starts it and removes it. So the program is started with a step of a plan, or a case,
# that copies it: its path is the argument that ends in `/program` in the command line of the step's parent.
# shellcheck shell=bash disable=SC2154

# a new folder whose path needs no quoting in any language
plain_folder() {
  case ${TMPDIR:-/tmp} in *[!A-Za-z0-9_/.-]*) mktemp -d /tmp/actrun.XXXXXX ;; *) mktemp -d "${TMPDIR:-/tmp}/actrun.XXXXXX" ;; esac
}

# the script of the step that copies its program into a folder
copying_script() {
  # shellcheck disable=SC2016
  printf 'for a in $(/usr/bin/tr "\\0" "\\n" < /proc/$PPID/cmdline); do '
  # shellcheck disable=SC2016
  printf 'case $a in */program) /bin/cp "$a" %s/part && /bin/mv %s/part %s/program ;; esac; done' "$1" "$1" "$1"
}

# writes the file that has a program copy itself, and prints its name and the arguments to start the program with
self_copy() {
  local script
  script=$(copying_script "$2")
  if [ "$1" = conformance ]; then
    printf '? program sh\n< %s\n' "$script" >"$2/self.cases"
    echo self.cases self.cases
    return
  fi
  script=${script//\\/\\\\}
  cat >"$2/self.plan" <<PLAN
{"runs":[{"env":{},"event":null,"flow":"self","group":null,"jobs":[{"condition":null,"env":{},"fail_fast":true,"group":null,
"id":"copy","legs":[{}],"max_parallel":null,"name":"copy","needs":[],"number":0,"outputs":{},"steps":[{"condition":null,"env":{},
"id":null,"name":null,"tolerate":false,"work":{"dir":null,"kind":"run","run":"${script//\"/\\\"}","shell":"sh"}}],
"tolerate":false}],"roots":{"github":{},"inputs":{},"secrets":{},"vars":{}}}],"version":2}
PLAN
  echo self.plan run --work . self.plan
}

# Builds the program of a crate and keeps it, where no other command has done so meanwhile. Sets `program`. Fails where the
# program was built and could not be kept; where it cannot be built, all ends with status 3.
build_unproved() {
  local folder=$top/crates/$1/out/unproved
  { mkdir -p -- "$folder" && : >>"$folder/lock"; } 2>/dev/null || return
  {
    if command -v flock >/dev/null && ! flock -n 9; then
      say "another command builds $1 from these sources: waiting for it"
      flock 9
    fi
    build_locked "$1" "$folder" 9>&-
  } 9>"$folder/lock"
}

build_locked() {
  local sum room status last='' since
  until choose "$1"; do
    { read -r last <"$2/seconds"; } 2>/dev/null
    say "building $1 from these sources without proofs, once${last:+ (the last time it took $last seconds)}"
    since=$SECONDS
    sum=$(sources "$1" unproved)
    room=$(plain_folder) || return
    trap 'stop_build "$room"' INT TERM HUP
    try_copy "$1" "$room"
    trap - INT TERM HUP
    keep_copy "$room" "$2/$1" "$sum"
    status=$?
    rm -rf "$room"
    [ "$status" -eq 0 ] || return "$status"
    echo $((SECONDS - since)) >"$2/seconds"
  done
}

# has `rt try` build the program and the program copy itself into a folder, where standard error goes too
try_copy() {
  local words
  read -ra words < <(self_copy "$1" "$2")
  # (in a process group of its own, so that a terminal's Ctrl-C does not reach it beside the signal of stop_build: `rt` ends what
  # it started at its first signal, and a second one breaks that off)
  set -m
  (cd "$top/crates/$1" && TMPDIR=$2 exec python3 "$top/tools/quick_try.py" --data "${words[0]}=$2/${words[0]}" -- "${words[@]:1}") \
    </dev/null >"$2/out" 2>"$2/err" &
  building=$!
  set +m
  wait "$building"
}

# ends a build that a signal interrupts
stop_build() {
  trap '' INT TERM HUP
  kill "$building" 2>/dev/null
  wait "$building"
  rm -rf "$1"
  exit 130
}

# keeps the program that was copied into a folder, with the sum of its sources
keep_copy() {
  if [ ! -x "$1/program" ]; then
    grep -q '^run=ended ' "$1/err" && return 1
    tail -n 20 "$1/err" >&2
    say 'no program came of these sources'
    rm -rf "$1"
    exit 3
  fi
  # (the copy is its owner's alone, but whoever may read the clone may execute its program)
  cp -- "$1/program" "$2.part" && chmod +rx -- "$2.part" && made_of "$2.part" "$3" >"$1/made_of" && rm -f -- "${2%/*}/made_of" &&
    mv -f -- "$2.part" "$2" && cp -- "$1/made_of" "${2%/*}/made_of"
}
