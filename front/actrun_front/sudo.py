"""The program `sudo` of the sandbox: root in the root of the leg. It is a shell script, since Python would
start too slowly for each call."""
from __future__ import annotations

import shlex
from pathlib import Path

# what `sudo` passes on without -E: the language, the terminal, and ways through a proxy, which this machine
# may need
PASSED = (
    "LANG LANGUAGE LC_ALL LC_CTYPE LC_COLLATE LC_MESSAGES LC_NUMERIC LC_TIME TERM TZ COLORTERM DISPLAY "
    "http_proxy https_proxy ftp_proxy no_proxy all_proxy HTTP_PROXY HTTPS_PROXY FTP_PROXY NO_PROXY ALL_PROXY "
    "SSL_CERT_FILE SSL_CERT_DIR DEBIAN_FRONTEND"
)
SECURE_PATH = "/usr/local/sbin:/usr/local/bin:/usr/sbin:/usr/bin:/sbin:/bin:/snap/bin"
OFFLINE = "--offline took the network away: leave that option out"
SCRIPT = r"""#!/bin/sh
# In place of sudo: root in the root of a leg (/run/actrun/root has the words that lead there), else it says
# what is missing.
hint() { printf 'sudo: %s\n' "$*" >&2; }
quote() { printf "'"; printf '%s' "$1" | sed "s/'/'\\\\''/g"; printf "'"; }
passed() {  # the pairs of variables that are set, quoted
  for one in "$@"; do
    case $one in '' | *[!A-Za-z0-9_]* | [0-9]*) continue ;; esac
    eval "[ -z \"\${$one+x}\" ] || { printf ' %s=' $one; quote \"\$$one\"; }"
  done
}
read_only() {
  why=
  [ ! -r NONE ] || read -r why <NONE || :
  why="the system is read-only here${why:+, since $why}"
  hint "$why: install what the step needs on this machine, or execute the job in a \`container\`;" \
    "with --no-sandbox every step would have your rights, and change this machine for good"
}
user=root keep= names= login= folder= ask= pairs=
while [ $# -gt 0 ]; do
  option=
  case $1 in
    --) shift; break ;;
    --preserve-env=*) names="$names $(printf '%s' "${1#*=}" | tr ',' ' ')" ;;
    --preserve-env) keep=1 ;;
    --login) login=1 ;;
    --shell) login=${login:-0} ;;
    --list | --validate | --remove-timestamp | --reset-timestamp | --version) ask=1 ;;
    --non-interactive | --set-home | --background | --askpass) ;;
    --bell | --preserve-groups | --stdin | --no-update) ;;
    --*=*) option=${1%%=*} value=${1#*=} ;;
    --user | --group | --chdir | --prompt | --close-from | --host | --other-user)
      option=$1 value=${2-}; [ $# -lt 2 ] || shift ;;
    --*) hint "$1: this option is not known here"; exit 1 ;;
    -?*)
      rest=${1#-}
      while [ -n "$rest" ]; do
        letter=${rest%"${rest#?}"} rest=${rest#?}
        case $letter in
          [AbBHnNPS]) ;;
          [kKvlV]) ask=1 ;;
          E) keep=1 ;;
          i) login=1 ;;
          s) login=${login:-0} ;;
          [ugDpChUrtT])
            option=-$letter value=$rest rest=
            [ -n "$value" ] || { value=${2-}; [ $# -lt 2 ] || shift; } ;;
          *) hint "-$letter: this option is not known here"; exit 1 ;;
        esac
      done ;;
    [A-Za-z_]*=*) pairs="$pairs $(quote "$1")" ;;
    *) break ;;
  esac
  case $option in
    -u | --user) user=${value#\#} ;;
    -D | --chdir) folder=$value ;;
  esac
  shift
done
while case ${1-} in [A-Za-z_]*=*) ;; *) false ;; esac; do pairs="$pairs $(quote "$1")"; shift; done
[ "$user" != 0 ] || user=root
line=$(getent passwd "$user" 2>/dev/null) || line=
part() { printf '%s' "$line" | cut -d: "-f$1"; }
id=$(part 3) home=$(part 6) shell=$(part 7)
own=$(id -u)
[ -n "$line" ] || [ "$user" = root ] || [ "$user" = "$own" ] || { hint "unknown user $user"; exit 1; }
if [ $# -eq 0 ]; then
  [ -z "$ask" ] || exit 0
  [ -n "$login" ] || { hint "a command is missing, as in: sudo apt-get install -y hello"; exit 1; }
  set -- "${shell:-/bin/sh}"
elif [ -n "$login" ]; then
  set -- "${shell:-/bin/sh}" -c "$*"
fi
inside=1 lead=
if [ -r /run/actrun/root ]; then read -r lead </run/actrun/root || :; else inside=; fi
[ "$own" -ne 0 ] || lead=
if [ -z "$inside" ] && [ "$own" -ne 0 ]; then read_only; exit 1; fi
name=$1
(PATH=SECURE; command -v -- "$name") >/dev/null || { hint "$name: command not found"; exit 1; }
always="PATH=SECURE SUDO_USER=$(quote "$(id -un 2>/dev/null || echo runner)") SUDO_UID=$own SUDO_GID=$(id -g)"
always="$always SUDO_COMMAND=$(quote "$*")"
[ ! -s /run/actrun/apt.conf ] || always="$always APT_CONFIG=/run/actrun/apt.conf"
[ -n "${DEBIAN_FRONTEND-}" ] || always="$always DEBIAN_FRONTEND=noninteractive"
if [ -n "$keep" ]; then
  before="env $always$pairs"
else
  before="env -i HOME=$(quote "${home:-/root}") SHELL=$(quote "${shell:-/bin/sh}") USER=$(quote "$user")"
  before="$before LOGNAME=$(quote "$user")$(passed PASSED $names) $always$pairs"
fi
if [ "$user" = root ]; then
  before="$lead $before"
elif [ "${id:-$user}" = "$own" ]; then
  :
elif [ -s /run/actrun/apt.conf ]; then
  hint "$user: an ordinary user's sandbox has one person and root: leave -u out"; exit 1
else
  before="setpriv --reuid=$id --regid=$(id -g "$user") --init-groups --inh-caps=-all -- $before"
fi
eval "set -- $before \"\$@\""
if [ -n "$folder" ]; then cd -- "$folder" || exit 1; fi
"$@" || {
  status=$?
  case KIND:${name##*/} in offline:apt | offline:apt-get | offline:aptitude) hint "$name: "OFFLINE ;; esac
  [ -n "$inside" ] || read_only
  exit "$status"
}
"""


# without a network, root may call these without `sudo`
OF_APT = ("apt", "apt-get", "aptitude")
APT = """\
#!/bin/sh
# In place of NAME, which cannot reach the network
here=$(dirname -- "$0") path=
IFS=:
for folder in $PATH; do [ "$folder" = "$here" ] || path=${path:+$path:}$folder; done
unset IFS
PATH=$path NAME "$@" || { status=$?; echo NAME: OFFLINE >&2; exit "$status"; }
"""


def write_sudo(folder: Path, none: Path, offline: bool) -> None:
    """Writes the program `sudo`. The file `none` says why a leg has no root of its own. A failing apt names
    --offline."""
    text = SCRIPT
    for name, value in (("NONE", shlex.quote(str(none))), ("SECURE", SECURE_PATH),
                        (" PASSED ", f" {PASSED} "),
                        ("KIND", "offline" if offline else ""), ("OFFLINE", shlex.quote(OFFLINE))):
        text = text.replace(name, value)
    texts = {"sudo": text,
             **{name: APT.replace("NAME", name).replace("OFFLINE", shlex.quote(OFFLINE)) for name in OF_APT
                if offline}}
    for name, one in texts.items():
        (folder / name).write_text(one, encoding="utf-8")
        (folder / name).chmod(0o755)
