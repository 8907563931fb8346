# Installs the program with its front, its manual and its completions, and takes an installation away. Read by ../actrun and
# package, and by the installed command for `uninstall`; after dispatch.sh.
#
# lib/actrun/installed has a line for each file, and for each folder that was made (with a `/` at its end), below the prefix.
# shellcheck shell=bash disable=SC2154

# the files of an installation: a line 'MODE PLACE SOURCE' for each, the source below the top
parts() {
  local it
  printf '%s\n' '755 bin/actrun tools/installed' '644 lib/actrun/tools/dispatch.sh tools/dispatch.sh' \
    '644 lib/actrun/tools/install.sh tools/install.sh' '644 lib/actrun/docs/usage.txt docs/usage.txt' \
    '644 lib/actrun/docs/commands.txt docs/commands.txt' '644 share/man/man1/actrun.1 docs/actrun.1' \
    '644 share/bash-completion/completions/actrun completions/actrun.bash' '644 share/zsh/site-functions/_actrun completions/_actrun'
  (cd "$top" && find front \( -name tests -o -name __pycache__ \) -prune -o -type f -print | LC_ALL=C sort) | while IFS= read -r it; do
    if [ -x "$top/$it" ]; then echo "755 lib/actrun/$it $it"; else echo "644 lib/actrun/$it $it"; fi
  done
}

# makes a folder below the prefix and says so in the list, where it is not there
make_folder() {
  [ ! -d "$prefix/$1" ] || return 0
  case $1 in */*) make_folder "${1%/*}" || return ;; esac
  mkdir -m 755 -- "$prefix/$1" && echo "$1/" >>"$list"
}

# puts a file with a mode at a place below the prefix; the list has it first, so that a part of it is removed too
put() {
  make_folder "${2%/*}" && echo "$2" >>"$list" && install -m "$1" -- "$3" "$prefix/$2"
}

# Puts all parts and the program below `prefix`, and appends what was made to `list`.
put_parts() {
  local mode place source
  while read -r mode place source; do
    put "$mode" "$place" "$top/$source" || return
  done < <(parts)
  put 755 lib/actrun/actrun "$program" || return
  make_folder lib/actrun && echo lib/actrun/version >>"$list" &&
    version_text >"$prefix/lib/actrun/version" &&
    chmod 644 -- "$prefix/lib/actrun/version"
}

# the version, the commit of the sources and how the program was built; then the toolchain
version_text() {
  printf 'actrun %s (%s, %s)\n%s\n' "$version" "$(commit_of_sources)" "$(proved_or_not)" "$toolchain"
}

# the commit of the clone, if this is one
commit_of_sources() {
  local found
  if [ "$(git -C "$top" rev-parse --show-toplevel 2>/dev/null)" = "$top" ] && found=$(git -C "$top" rev-parse --short=10 HEAD 2>/dev/null); then
    [ -z "$(git -C "$top" status --porcelain --untracked-files=no 2>/dev/null)" ] || found+=' with changes'
    echo "commit $found"
  else
    echo 'no commit'
  fi
}

proved_or_not() {
  case $program in '') echo 'not built' ;; */unproved/*) echo 'built without proofs' ;; *) echo proved ;; esac
}

# sets `prefix` to the whole path of a prefix
set_prefix() {
  if [ $# -gt 1 ]; then
    say "one prefix is enough; '$2' is too many"
    exit 2
  fi
  prefix=${1-${HOME-}/.local}
  case $prefix in
    '' | -* | /.local)
      say 'name the folder to install to, as in --install /usr/local'
      exit 2
      ;;
  esac
  prefix=$(realpath -m -- "$prefix" && echo .) || exit 3
  prefix=${prefix%$'\n'.}
}

# stops where a file is in the way that no installation put there
stop_on_other_files() {
  local place
  for place in bin/actrun lib/actrun share/man/man1/actrun.1 share/bash-completion/completions/actrun share/zsh/site-functions/_actrun; do
    if [ -e "$prefix/$place" ] || [ -L "$prefix/$place" ]; then
      say "$prefix/$place is there and is not from an installation of actrun: move it away"
      exit 3
    fi
  done
}

# removes what an installation that fails has put so far
give_up() {
  take_away "$prefix" <"$list" >/dev/null
  rm -f -- "$list"
  say "nothing is installed below $prefix"
  exit "$1"
}

# --install [--yes] [PREFIX]
install_below() {
  local prefix list levels=0 above word yes=no words=()
  for word; do if [ "$word" = --yes ]; then yes=yes; else words+=("$word"); fi; done
  set_prefix ${words[@]+"${words[@]}"}
  # shellcheck source=tools/packages.sh
  . "$top/tools/packages.sh"
  get_packages "$yes" || exit 3
  choose actrun || build_or_answer run
  [ ! -e "$prefix/lib/actrun/installed" ] || remove_below "$prefix" >/dev/null || exit
  stop_on_other_files
  list=$(mktemp) || exit 3
  above=$prefix
  while [ ! -d "$above" ]; do levels=$((levels + 1)) above=${above%/*}; above=${above:-/}; done
  echo "$levels" >"$list"
  trap 'give_up 130' INT TERM HUP
  if ! { mkdir -p -- "$prefix" && put_parts && echo lib/actrun/installed >>"$list" &&
    install -m 644 -- "$list" "$prefix/lib/actrun/installed"; }; then
    give_up 3
  fi
  trap - INT TERM HUP
  rm -f -- "$list"
  printf 'installed %s/bin/actrun (%s), its front, its manual and its completions\n' "$prefix" "$(proved_or_not)"
  case :$PATH: in *":$prefix/bin:"*) ;; *) printf 'to start it by its name: export PATH=%s/bin:$PATH\n' "${prefix@Q}" ;; esac
}

# removes what a list names below a prefix, and prints each thing that it removed
take_away() {
  local place levels places=() at
  read -r levels
  mapfile -t places
  for ((at = ${#places[@]} - 1; at >= 0; at--)); do
    place=${places[at]}
    case /$place/ in */../* | //*) continue ;; esac
    if [ "${place%/}" = "$place" ]; then
      [ ! -e "$1/$place" ] || { rm -f -- "$1/$place" && printf '%s\n' "$1/$place"; }
    elif [ -d "$1/$place" ]; then
      # (what Python kept of the front goes with it)
      case $place in lib/actrun/*) rm -rf -- "$1/${place}__pycache__" ;; esac
      rmdir -- "$1/$place" 2>/dev/null && printf '%s\n' "$1/$place"
    fi
  done
  take_levels "$1" "${levels:-0}"
}

# removes a folder and those above it that the installation made, if they are empty
take_levels() {
  local folder=$1 level
  for ((level = 0; level < $2; level++)); do
    rmdir -- "$folder" 2>/dev/null || return 0
    printf '%s/\n' "$folder"
    folder=${folder%/*}
  done
}

remove_below() {
  if [ ! -e "$1/lib/actrun/installed" ]; then
    say "no installation is below $1 (a package is removed by the package manager)"
    return 2
  fi
  if [ ! -w "$1/lib/actrun" ] || [ ! -w "$1/bin" ]; then
    say "no right to remove files below $1"
    return 3
  fi
  take_away "$1" < <(cat "$1/lib/actrun/installed")
}

# --uninstall [PREFIX]
uninstall_below() {
  local prefix removed status
  set_prefix "$@"
  removed=$(remove_below "$prefix"; status=$?; echo .; exit "$status")
  status=$?
  [ "$status" -eq 0 ] || exit "$status"
  removed=${removed%.}
  printf 'removed:\n%s' "$removed"
}
