# Answers a command by the program or by the front. Read by ../actrun and by the installed command, which set `top`: the folder
# that has `front` and `docs`. `program` is set where the program is known.
# shellcheck shell=bash disable=SC2154

say() { printf 'actrun: %s\n' "$1" >&2; }

# whether a command is one of the front's
is_of_front() {
  case $1 in try | from-yaml | dap | report | open | files | explain) ;; lint) has_yaml "${@:2}" ;; *) is_by_time "$@" ;; esac
}

# whether a word names a file of YAML
has_yaml() {
  local word
  for word in "$@"; do case $word in *.yml | *.yaml) return ;; esac done
  false
}

# whether a command is a timeline by time
is_by_time() {
  local word
  [ "${1-}" = timeline ] || return
  for word in "${@:2}"; do
    case $word in --times | --times=*) return ;; --) break ;; esac
  done
  false
}

# whether a person on a terminal debugs a record, which the front has a prompt for
is_talk() {
  [ "$1" = debug ] && [ $# -eq 2 ] && [ -t 0 ] && [ -t 1 ] && [ -f "$2" ] && has_front
}

# whether a word is among others
has_word() {
  local word wanted=$1
  shift
  for word in "$@"; do [ "$word" != "$wanted" ] || return 0; done
  return 1
}

# whether a command is answered without the program
needs_no_program() {
  is_of_front "$@" || return
  [ "$1" = open ] || has_word --help "$@" || has_word -h "$@" || { [ "$1" = from-yaml ] && ! has_word --lower "$@"; }
}

# whether the words ask how a command is used, which docs/commands.txt says
asks_usage() {
  if is_by_time "$@"; then has_word --help "$@"; else [ $# -eq 2 ] && [ "$2" = --help ]; fi
}

# prints how a command is used; fails where there is no such command
print_usage() {
  awk -v RS= -v start="usage: actrun $1" 'index($0 " ", start " ") == 1 || index($0, start "\n") == 1 { print; found = 1 }
    END { exit !found }' "$top/docs/commands.txt"
}

has_front() {
  [ -e "$top/front/__main__.py" ] && command -v python3 >/dev/null
}

# sets what the front reads from its environment
tell_front() {
  export ACTRUN_TOP=$top
  if [ -n "${program-}" ]; then export ACTRUN_PROGRAM=$program; else unset ACTRUN_PROGRAM; fi
}

start_front() {
  if ! has_front; then
    ! is_by_time "$@" || set -- '--times'
    say "'$1' needs python3 (3.9 or newer) and the folder $top/front"
    exit 3
  fi
  tell_front
  # (Ctrl-C while Python begins would show how that works inside: the front lets it through)
  ! env --block-signal=INT true 2>/dev/null || exec env --block-signal=INT python3 "$top/front" "$@"
  exec python3 "$top/front" "$@"
}

# Sets `starter` to the words before those of a command. `run` has to be told how its steps end, also where the parent of this
# script ignores that signal. With --record, whose value `record` has then, this script waits beside `run`: that is in a session of
# its own, ignores no more signals than this script, and ends where this script is killed.
choose_starter() {
  local signals=CHLD ignored
  starter=() record='' times='' work=. made='' locked='' fresh=()
  [ "$1" = run ] || return 0
  read_words "${@:2}"
  lock_places
  if [ -n "$record" ]; then
    ignored=$(trap -p INT QUIT)
    [[ $ignored == *SIGINT* ]] || signals+=,INT
    [[ $ignored == *SIGQUIT* ]] || signals+=,QUIT
    starter=(setsid setpriv --pdeathsig KILL env --default-signal="$signals")
    ! "${starter[@]}" true 2>/dev/null || return 0
  fi
  starter=(env --default-signal="$signals")
  "${starter[@]}" true 2>/dev/null || starter=()
  record=''
}

# Reads the words of `run`, and sets `record` and `work` to the values of these options. A name of a file that `run` cannot write is
# refused before anything is executed; a folder that is not there is reported.
read_words() {
  local name value
  while [ $# -gt 0 ] && [ "$1" != -- ]; do
    name=$1 value=''
    case $1 in
      --*=*) name=${1%%=*} value=${1#*=} ;;
      --workers | --record | --times | --work | --stubs)
        [ $# -gt 1 ] || return 0
        value=$2
        shift
        ;;
    esac
    case $name,$value in
      --record, | --times,)
        say "$name '' names no file, and nothing was executed: write a name, as in $name ci${name/--/.}"
        exit 2
        ;;
      --record,*) record=$value ;;
      --times,*) times=$value ;;
      --work,?*)
        work=$value
        [ -d "$value" ] || say "--work $value: no step can start, for this is no folder: name one that is there"
        ;;
    esac
    shift
  done
  check_record
  for value in "$record" "$times"; do [ -z "$value" ] || [ -e "$value" ] || fresh+=("$value"); done
}

# refuses a record that nothing keeps, one that would grow in a pipe, which nobody reads, and files that a link leads to
check_record() {
  local name=--record link=$record.part
  if [ -n "$times" ] && [[ $times != /dev/* ]] && [ -L "$times" ]; then name=--times link=$times; fi
  if [ -L "$link" ]; then
    say "$name: $link is a link, and nothing was executed: remove it, or name another file"
    exit 2
  fi
  if [ "$record" -ef /dev/null ]; then
    say "--record $record keeps no record, and nothing was executed: leave this option out, or name a file"
    exit 2
  fi
  if [ -n "$record" ] && [ -e "$record.part" ] && [ ! -f "$record.part" ] && [ ! -d "$record.part" ]; then
    say "$record.part is no regular file, and nothing was executed: remove it, or name another record"
    exit 2
  fi
}

# Locks the folder of --work, and the file in which the record grows, until this script and the program have ended: two runs in one
# folder would execute the scripts of each other. Steps inherit no lock. Without a file of its own a lock leaves nothing behind.
lock_places() {
  local file
  if ! command -v flock >/dev/null; then
    say "flock (of util-linux) is missing, so nothing is locked: let no other run use the same --work or --record meanwhile"
    return
  fi
  if [ -d "$work" ] && { exec {file}<"$work"; } 2>/dev/null; then take_lock "$file" 'uses this folder' --work "$work"; fi
  [ -z "$record" ] || [ -p "$record" ] || [ -S "$record" ] || [ -c "$record" ] || [ -b "$record" ] || lock_record
}

# Locks the file in which the record grows, which only its owner reads. A run that ends removes this file, so that another one may
# have its name meanwhile.
lock_record() {
  local part=$record.part
  [ ! -L "$record" ] || part=$(readlink -m -- "$record").part
  for _ in {1..100}; do
    [ -e "$part" ] || made=$part
    open_private "$part" || return 0 # (the program says why)
    take_lock "$locked" 'writes this record' --record "$record"
    [ ! "/proc/self/fd/$locked" -ef "$part" ] || return 0
    exec {locked}>&-
  done
}

# opens a file for the lock; only its owner reads what is made
open_private() {
  local mask status
  mask=$(umask)
  umask 077
  { exec {locked}<>"$1"; } 2>/dev/null
  status=$?
  umask "$mask"
  return "$status"
}

# locks a descriptor, or says which process has locked the same, and what it does with the value of an option
take_lock() {
  local owner
  flock -n "$1" 2>/dev/null
  case $? in
    0) ;;
    1)
      owner=$(lock_owner "/proc/$$/fd/$1")
      say "$3 $4: another run${owner:+ (process $owner)} $2, and nothing was executed: name another by $3"
      exit 2
      ;;
    *) say "$3 $4 cannot be locked here: let no other run use it meanwhile" ;;
  esac
}

# prints a process that has locked the file behind a descriptor
lock_owner() {
  local at
  for at in /proc/[0-9]*/fd/*; do
    [ "$at" -ef "$1" ] && grep -q '^lock:.*FLOCK' "${at/fd/fdinfo}" 2>/dev/null || continue
    at=${at#/proc/}
    printf '%s\n' "${at%%/*}"
    return
  done
}

# whether a command only prints a text
is_text() {
  case $1 in why | list | lint | table | replay | plan | graph | timeline | eval) [ -e "$top/front/actrun_front/visible.py" ] ;; *) false ;; esac
}

# starts the program; on a terminal the front explains what it refuses, and shows what would steer the terminal as pictures
start_program() {
  if [ -t 1 ] && is_text "$1" && has_front; then
    (start_program "$@") | python3 "$top/front/actrun_front/visible.py"
    exit "${PIPESTATUS[0]}"
  fi
  choose_starter "$@"
  if [ -t 2 ] && has_front; then explain_program "$@"; fi
  [ -n "$record" ] || exec "${starter[@]}" "$program" "$@"
  watch_program "$@"
  status=$?
  drop_empty
  tell_end
  [ -n "$stopped" ] || [ "$status" -le 128 ] || kill -s "$(kill -l "$status")" $$
  exit "$status"
}

# Starts the program, shows its standard error as it comes, and has the front explain an error after it. A signal that ends this
# script ends the program.
explain_program() {
  local room shows bound=(setpriv --pdeathsig TERM)
  "${bound[@]}" true 2>/dev/null || bound=()
  room=$(mktemp -d 2>/dev/null) || return
  # shellcheck disable=SC2064
  trap "rm -rf ${room@Q}" EXIT
  exec 3> >(exec tee -i -- "$room/err" >&2)
  shows=$!
  if [ -n "$record" ]; then watch_program "$@" 2>&3 3>&-; else "${bound[@]}" "${starter[@]}" "$program" "$@" 2>&3 3>&-; fi
  status=$?
  exec 3>&-
  wait "$shows" 2>/dev/null
  drop_empty
  case $status in
    2 | 3)
      tell_front
      python3 "$top/front" explain-error "$status" "$room/err" "$@" >&2
      ;;
  esac
  tell_end
  exit "$status"
}

# Runs the program beside this script, which ends it and its steps at SIGINT, SIGQUIT, SIGTERM or SIGHUP, since the program sees no signals.
# Then `stopped` is the exit status.
watch_program() {
  local ended
  stopped='' before=$(mark_part) printed=() logs=()
  [ -e /dev/fd/0 ] || exec </dev/null
  "${starter[@]}" "$program" "$@" <&0 &
  child=$!
  trap 'stop_run 130' INT
  trap 'stop_run 143' TERM
  trap 'stop_run 129' HUP
  trap 'stop_run 131' QUIT
  wait "$child" 2>/dev/null
  ended=$?
  trap - INT TERM HUP QUIT
  keep_private
  return "${stopped:-$ended}"
}

# lets only their owner read the record and the times that this run has made
keep_private() {
  local file
  for file in "${fresh[@]}"; do [ ! -f "$file" ] || [ -L "$file" ] || chmod 600 -- "$file" 2>/dev/null; done
}

# removes the file in which the record should have grown, where this script has made it and the program wrote nothing
drop_empty() {
  [ -z "$made" ] || [ -s "$made" ] || [ ! "/proc/self/fd/$locked" -ef "$made" ] || rm -f -- "$made"
}

# prints what is different of the file in which a record grows, where the program has made it again
mark_part() {
  stat -c '%i %s %y' -- "$record.part" 2>/dev/null
}

# Where a signal ended the program, says what has the record so far, why it is as it is, and what the running steps printed. Where the
# system ended the run, says so: the status is 3 then.
tell_end() {
  local log folder
  tell_part
  for log in "${logs[@]}"; do say "$log has what its step printed so far, unmasked"; done
  case $status in
    1)
      for folder in "$work" "$(dirname -- "${record:-$work/.}")"; do
        is_full "$folder" || continue
        say "ended by the system: $folder: No space left on device: make room there, or name another place by --work and --record"
        status=3
        break
      done
      ;;
    153)
      say "ended by the system: a file reached the limit of \`ulimit -f\`: raise this limit"
      status=3
      ;;
  esac
}

# whether the file system of a folder has no room, or no file more
is_full() {
  local blocks free open bytes files left
  read -r blocks free open bytes files left < <(stat -f -c '%b %f %a %S %c %d' -- "$1" 2>/dev/null) || return
  [ "$EUID" -eq 0 ] || free=$open
  [ "$blocks" -gt 0 ] && [ "$((free * bytes))" -lt 16384 ] || { [ "$files" -gt 0 ] && [ "$left" -eq 0 ]; }
}

# says what has the record so far, and why it is as it is, in at most 30 lines; a line that the signal cut is left out
tell_part() {
  local part how reader=(cat)
  [ -n "$record" ] && [ "$status" -gt 128 ] && [ -s "$record.part" ] && [ "$(mark_part)" != "$before" ] || return 0
  printf -v part %q "$record.part"
  how=": actrun why $part"
  if [ -n "$(tail -c 1 -- "$record.part")" ]; then
    how=", its last line cut: sed '\$d' $part > RECORD; actrun why RECORD"
    reader=(sed '$d')
  fi
  say "a signal ended the run; $part has its record so far$how"
  "${reader[@]}" -- "$record.part" | "$program" why -- /dev/stdin 2>/dev/null | sed '30{s/.*/.../;q;}' >&2
}

# Ends the program, then the steps in its session: by SIGTERM, and those that are there three seconds later by SIGKILL. Another
# signal ends all at once.
stop_run() {
  stopped=$1
  # (`timeout` sends its signal to this script and to its group: the second one at once is the same)
  trap '' INT TERM HUP QUIT
  # (it is no job any more, so that bash does not say how it ended)
  disown "$child"
  kill -STOP "$child"
  open_printed
  kill -KILL "$child"
  end_session TERM
  sleep 0.1
  # shellcheck disable=SC2064
  trap "end_session KILL; keep_printed; exit $1" INT TERM HUP QUIT
  for _ in {1..30}; do
    [ -n "$(in_session)" ] || break
    sleep 0.1
  done
  end_session KILL
  keep_printed
} 2>/dev/null

# Opens what running steps print into. These files lost their names `step-L-S.stdout` and `.stderr` at once, and end with the program;
# `printed` gets descriptor and name of each.
open_printed() {
  local number name file
  while IFS=' ' read -r -d '' number name; do
    case "${printed[*]} " in *" $name "*) continue ;; esac
    exec {file}<"/proc/$child/fd/$number" && printed+=("$file $name")
  done < <(find "/proc/$child/fd" -lname '*/step-*.std??? (deleted)' -printf '%f %l\0')
}

# Makes the log of each running step, as the program does after a step: standard output, then standard error from a new line on.
# Nothing in it is masked, so that only its owner can read it.
keep_printed() {
  local kind file log
  for kind in out err; do
    for file in "${printed[@]}"; do
      log=${file#* }
      log=${log%.std"$kind (deleted)"}.log
      case $file in *.std"$kind (deleted)") ;; *) continue ;; esac
      if [ "$kind" = out ]; then (umask 077 && rm -f -- "$log" && : >"$log"); fi
      [ -z "$(tail -c 1 -- "$log")" ] || echo >>"$log"
      cat <&"${file%% *}" >>"$log"
      [ "$kind" = out ] || [ ! -s "$log" ] || logs+=("$log")
    done
  done
}

# sends a signal to what is in the program's session
end_session() {
  # shellcheck disable=SC2046
  kill -s "$1" $(in_session) 2>/dev/null
}

# prints the processes in the program's session
in_session() {
  cat /proc/[0-9]*/stat 2>/dev/null |
    awk -v session="$child" '{ it = $1; sub(/.*\) /, ""); if ($4 == session && $1 != "Z") print it }'
}

# sets `words` to a command with the record of the last execution of this repository in place of --last; fails where nothing is replaced
name_last() {
  case ${1-} in debug | why | report | timeline | graph | replay | files | explain) ;; *) return 1 ;; esac
  has_word --last "${@:2}" && has_front || return
  mapfile -d '' -t words < <(ACTRUN_TOP=$top exec python3 "$top/front" last "$@")
  wait "$!" || exit 2
}

# Sets `words` to a command that reads the whole lines of a record that grows (FILE.part), whose last line is cut; fails where there
# is none.
name_whole() {
  local at part
  case ${1-} in debug | why | timeline | graph | replay) ;; *) return 1 ;; esac
  for ((at = 2; at <= $#; at++)); do
    part=${!at}
    [[ $part == *.part && -f $part && -n $(tail -c 1 -- "$part" 2>/dev/null) ]] || continue
    exec {whole}< <(exec sed '$d' -- "$part")
    words=("${@:1:at-1}" "/dev/fd/$whole" "${@:at+1}")
    return
  done
  return 1
}

# answers a command by the program that was chosen, or by the front
answer() {
  local words whole
  if name_last "$@"; then set -- "${words[@]}"; fi
  if is_of_front "$@" || is_talk "$@"; then start_front "$@"; fi
  if name_whole "$@"; then set -- "${words[@]}"; fi
  start_program "$@"
}
