# Runs commands whose last line is `N passed, M failed`, and adds up what they say. Read by test and ../.ci/run.
# shellcheck shell=bash disable=SC2034

# shellcheck source=tools/packages.sh
. tools/packages.sh

passed=0 failed=0 status=0

# adds the last line of a file, which a command wrote that ended with a status; the command failed where either says so
add_counts() {
  local more=1
  status=$2
  if [[ $(tail -n 1 "$1") =~ ^([0-9]+)\ passed,\ ([0-9]+)\ failed$ ]]; then
    passed=$((passed + BASH_REMATCH[1])) more=${BASH_REMATCH[2]}
  fi
  if [ "$status" -ne 0 ] && [ "$more" -eq 0 ]; then more=1; fi
  if [ "$status" -eq 0 ] && [ "$more" -ne 0 ]; then status=1; fi
  failed=$((failed + more))
}

# runs a command, shows what it prints, and adds what it counts
count() {
  local told
  told=$(mktemp) || exit 2
  "$@" </dev/null | tee "$told"
  add_counts "$told" "${PIPESTATUS[0]}"
  rm -f "$told"
}

# prints how long processors have worked for what this shell ran
tell_minutes() {
  local told
  told=$(mktemp) || return
  times >"$told"
  awk 'NR == 2 { split($1, used, /[ms]/); split($2, inside, /[ms]/)
    printf "%.1f processor minutes\n", used[1] + inside[1] + (used[2] + inside[2]) / 60 }' "$told"
  rm -f "$told"
}

# installs the packages that tests need where they are missing, or says which those are; the tests then fail, or say that they
# are skipped
need_packages() {
  local missing=() name
  mapfile -t missing < <(missing_of_try)
  command -v node >/dev/null || missing+=(nodejs)
  command -v chromedriver >/dev/null || missing+=(chromium chromium-driver)
  [ -d /usr/lib/python3/dist-packages/selenium ] || missing+=(python3-selenium)
  # (the gate alone drives an editor)
  [ -z "${ACTRUN_ALL_TESTS-}" ] || dpkg -s elpa-dap-mode >/dev/null 2>&1 || missing+=(emacs-nox elpa-dap-mode)
  # (nor needs an ordinary test an engine for containers)
  if [ -n "${ACTRUN_ALL_TESTS-}" ]; then
    for name in podman:podman runc:runc fuse-overlayfs:fuse-overlayfs newuidmap:uidmap busybox:busybox-static redis-server:redis-server \
      slirp4netns:slirp4netns debootstrap:debootstrap nvim:neovim; do
      command -v "${name%:*}" >/dev/null || missing+=("${name#*:}")
    done
  fi
  add_missing "${missing[@]}"
}

# installs the packages that look at Python files where they are missing
need_checkers() {
  local missing=() name
  for name in pyflakes:pyflakes3 pycodestyle:python3-pycodestyle mypy:mypy; do
    /usr/bin/python3 -c "import ${name%:*}" 2>/dev/null || missing+=("${name#*:}")
  done
  add_missing "${missing[@]}"
}

# installs packages, or says which are missing
add_missing() {
  local as_root=()
  [ $# -gt 0 ] || return 0
  if [ "$(id -u)" -eq 0 ] && command -v apt-get >/dev/null; then
    echo "installing $*"
    add_packages "$@" && return
  fi
  echo "the tests need packages that are missing: apt-get install $*"
  return 1
}
