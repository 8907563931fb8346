# The packages of the distribution that are missing, and how they come. Read by install.sh and counting.sh; after dispatch.sh.
# shellcheck shell=bash

# the packages that `try` needs and that are not there, one per line
missing_of_try() {
  python3 -c 'import ruamel.yaml' 2>/dev/null || /usr/bin/python3 -c 'import ruamel.yaml' 2>/dev/null || echo python3-ruamel.yaml
  command -v bwrap >/dev/null || echo bubblewrap
  command -v git >/dev/null || echo git
}

# installs packages; the words before `apt-get` are those of `as_root`
add_packages() {
  { "${as_root[@]}" apt-get install -y -qq "$@" || { "${as_root[@]}" apt-get update -qq && "${as_root[@]}" apt-get install -y -qq "$@"; }; } \
    </dev/null >/dev/null
}

# Installs what `try` needs: at once where the first argument is `yes`, else after a question on the terminal. Where nobody can be
# asked, or the packages are those of another distribution, a line names what is missing.
get_packages() {
  local missing=() as_root=() line
  mapfile -t missing < <(missing_of_try)
  [ "${#missing[@]}" -gt 0 ] || return 0
  [ "$(id -u)" -eq 0 ] || as_root=(sudo)
  line="${as_root[*]}${as_root[*]:+ }apt-get install ${missing[*]}"
  if ! command -v apt-get >/dev/null || ! { [ "${#as_root[@]}" -eq 0 ] || command -v sudo >/dev/null; }; then
    say "\`try\` needs packages that are missing: ${missing[*]}"
    [ "$1" != yes ]
  elif [ "$1" = yes ] || ask_for "$line"; then
    add_packages "${missing[@]}" && return
    say "the packages cannot be installed: $line"
    return 1
  else
    say "\`try\` needs packages that are missing: $line"
  fi
}

# whether a person on the terminal says yes to a command
ask_for() {
  local answer=
  [ -t 0 ] && [ -t 2 ] || return
  printf 'actrun: `try` needs more packages. Execute `%s`? [y/N] ' "$1" >&2
  IFS= read -r answer
  case $answer in y | Y | yes) ;; *) false ;; esac
}
