# Completion of actrun's commands and options for bash: source this file.
_actrun() {
  local word=${COMP_WORDS[COMP_CWORD]} before=${COMP_WORDS[COMP_CWORD - 1]} command=${COMP_WORDS[1]} offered
  local commands='try from-yaml dap plan list lint run table replay why explain graph timeline report files open debug eval'
  local events='push pull_request workflow_dispatch schedule release'
  COMPREPLY=()
  if [ "$COMP_CWORD" -eq 1 ]; then
    _actrun_offer "$commands --help --version --install --uninstall --prove" "$word"
    return
  fi
  # the value of an option
  case $before in
    --contexts | --record | --stubs | --secret-file | --var-file | --input-file | --env-file | --eventpath | --times | -e | -o)
      _actrun_files -f "$word"
      return
      ;;
    --work | --keep | --logs | --shell | --repository | --directory | -C) _actrun_files -d "$word"; return ;;
    --workflows | -W | --bind | --bind-rw) _actrun_files -f "$word"; return ;;
    --workers) _actrun_offer '1 2 4 8 16' "$word"; return ;;
    --log-limit) _actrun_offer '100M 1G 10G 0' "$word"; return ;;
    --break | --from) _actrun_offer 'failed' "$word"; return ;;
    --event) _actrun_offer "$events" "$word"; return ;;
    --job | -j | --secret | -s | --var | --input | --env | --matrix | --stub | --action | --actions-url | --real) return ;;
    --install)
      if [[ $word == -* ]]; then _actrun_offer --yes "$word"; else _actrun_files -d "$word"; fi
      return
      ;;
    --uninstall) _actrun_files -d "$word"; return ;;
  esac
  case $command in
    try)
      offered='--help --list --dryrun --graph --job --workflows --directory --eventpath --secret --secret-file --var --var-file
        --input --input-file --env --env-file --matrix --workers --stub --stubs --action --actions-url --real --no-fetch --lock
        --lenient --any-system --workspace --in-place --keep --log-limit --break --no-sandbox --offline --host-network --bind --bind-rw --writable-git
        --verbose --quiet --engine --from --resume --record --watch --snapshots --no-snapshots --follow --json'
      ;;
    from-yaml) offered='--help -o --force --lower --contexts --repository --matrix --any-system' ;;
    plan) offered='--help --event --job --contexts' ;;
    run) offered='--help --workers --record --times --work --stubs --progress' ;;
    eval) offered='--help --contexts' ;;
    replay) offered='--help --settled --changes --last' ;;
    timeline) offered='--help --times --last' ;;
    why) offered='--help --json --each --last' ;;
    graph | debug) offered='--help --last' ;;
    explain | files) offered='--help --json --last' ;;
    open) offered='--help -C' ;;
    dap) offered='--help --shell' ;;
    report) offered='--help -o --logs --times --around --last' ;;
    *) offered=--help ;;
  esac
  if [[ $word == -* ]]; then
    _actrun_offer "$offered" "$word"
    return
  fi
  case $command in
    try) _actrun_offer "$events" "$word" ;;
    why)
      case $COMP_CWORD in
        2) _actrun_files -f "$word" ;;
        3) _actrun_offer 'run job leg step' "$word" ;;
      esac
      ;;
    explain)
      case $COMP_CWORD in
        2) _actrun_files -f "$word" ;;
        4) _actrun_offer 'run job leg step' "$word" ;;
      esac
      ;;
    from-yaml | plan | list | lint | run | replay | graph | timeline | report | files | debug) _actrun_files -f "$word" ;;
  esac
}

# offers those of some words that begin with a word
_actrun_offer() {
  mapfile -t COMPREPLY < <(compgen -W "$1" -- "$2")
}

# offers files (-f) or directories (-d) that begin with a word
_actrun_files() {
  compopt -o filenames
  mapfile -t COMPREPLY < <(compgen "$1" -- "$2")
}
complete -F _actrun actrun ./actrun
