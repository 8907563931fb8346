"""What surrounds a step: its variables, the prelude that bash, sh and the programs of actions read first, and
the sandbox."""
from __future__ import annotations

import os
import re
import secrets
import shlex
from pathlib import Path
from typing import Any, Mapping

from . import toolchains
from .contexts import text_of
from .expressions import TEXT, Access, Rules, has_expression, literal, rewrite, split, unquoted
from .present import step_name
from .sandbox import HOME, PROC, ROOT_KEEPS, RUN, sandbox_words, why_no_sandbox
from .tree import Room

__all__ = ["HOME", "PROC", "ROOT_KEEPS", "RUN", "sandbox_words", "why_no_sandbox"]
# the first words of a script for sh, which has no BASH_ENV
SH_HOOK = '[ -z "${ACTRUN_PRELUDE-}" ] || . "$ACTRUN_PRELUDE"; '
# what steps get of the caller's own environment: no variable of these usually holds a secret
PASSED = re.compile("PATH|HOME|USER|LOGNAME|SHELL|LANG|LANGUAGE|LC_.*|TZ|TERM|TMPDIR|SSL_CERT_(FILE|DIR)|(?i:(https?|ftp|no|all)_proxy)")
NO_VARIABLES = ("event", "token", "repositoryUrl", "secret_source")  # of `github`
PRELUDE = """\
# Sourced by each bash (as BASH_ENV), by scripts for sh and by the programs of actions; all but the last line counts once a step,
# and not for a bash that a step starts with a GITHUB_OUTPUT of its own.
case ${{GITHUB_OUTPUT-}} in
"${{ACTRUN_STEP-}}") ;;
{play}/step-*.out)
  if [ -z "${{ACTRUN_PIPED-}}" ] && [ -x {python} ] && [ -r {one_stream} ]; then  # both streams become one
    export ACTRUN_PIPED=1
    if [ -x "$0" ]; then set -- "$0" "$@"  # (of an action)
    else case ${{BASH_VERSION:+bash}},${{SHELLOPTS-}} in
      ,* | *posix*) set -- sh -e "$0" ;;
      *pipefail*) set -- "$BASH" --noprofile --norc -eo pipefail "$0" ;;
      *) set -- "$BASH" -e "$0" ;;
    esac; fi
    trap '' INT  # (until that handles it)
    exec {python} -ISB {one_stream} "$@"
  fi
  [ -n "${{ACTRUN_PIPED-}}" ] || exec 2>&1
  ACTRUN_STEP=$GITHUB_OUTPUT
  actrun_place=${{GITHUB_OUTPUT##*/step-}}
  actrun_place=${{actrun_place%.out}}
  printf '%s\n' "{mark}:$actrun_place"
  if [ -n "${{ACTRUN_JOB_NAME-}}" ]; then printf '%s\n' "{mark}+${{ACTRUN_JOB_NAME%%
*}}"; fi
  if [ -n "${{ACTRUN_NAME-}}" ]; then printf '%s\n' "{mark}-${{ACTRUN_NAME%%
*}}"; fi
  if [ -d {told}/known-"$actrun_place" ]; then
    cd {told}/known-"$actrun_place" && command -p cat out >>"$GITHUB_OUTPUT" && command -p cat env >>"$GITHUB_ENV" &&
      command -p cat log && exit "$(command -p cat code)"
    exit 1
  fi
  if [ -e {told}/stopped-${{actrun_place%-*}} ]; then
    {{
      IFS= read -r actrun_why
      while IFS= read -r actrun_line; do [ "$actrun_line" != "${{actrun_place#*-}}" ] || actrun_why=; done
    }} <{told}/stopped-${{actrun_place%-*}}
    if [ -n "$actrun_why" ]; then
      printf 'ACTRUN_STOPPED=true\n' >>"$GITHUB_ENV"
      printf '%s\n' "$actrun_why"
      exit 130
    fi
  fi
  for actrun_line in "${{ACTRUN_MINUTES-}}" "${{ACTRUN_JOB_MINUTES-}}"; do case $actrun_line in
  *[!0-9.]*|*.*.*|.|*.)
    printf '%s\n' "::error::timeout-minutes is $actrun_line, but has to be a number"; exit 1
  esac; done
  GITHUB_PATH={files}/${{actrun_place%-*}}/path-${{actrun_place%-*}}
  GITHUB_STEP_SUMMARY=${{GITHUB_PATH%/*}}/summary-$actrun_place
  GITHUB_STATE=${{GITHUB_PATH%/*}}/state-$actrun_place.new
  for actrun_line in "$GITHUB_PATH" "$GITHUB_STEP_SUMMARY" "$GITHUB_STATE"; do
    if [ -L "$actrun_line" ] || {{ [ -e "$actrun_line" ] && [ ! -f "$actrun_line" ]; }}; then  # (by an earlier step)
      command -p rm -rf "$actrun_line" || :
    fi
    {{ :; }} >>"$actrun_line" || :
  done
  [ -d "$RUNNER_TEMP" ] || mkdir -p "$RUNNER_TEMP" || :
  RUNNER_WORKSPACE=${{GITHUB_WORKSPACE%/*}}
  if [ ! -d "$GITHUB_WORKSPACE" ]; then
    mkdir -p "$RUNNER_WORKSPACE" && cp -a --reflink=auto {tree} "$GITHUB_WORKSPACE" ||
      {{ echo "the tree cannot be copied to $GITHUB_WORKSPACE"; exit 1; }}
  fi
  CDPATH= cd -- "$GITHUB_WORKSPACE" || exit 1
  if [ -n "${{ACTRUN_NEEDS-}}" ] && [ ! -e "$ACTRUN_NEEDS/action.yml" ] && [ ! -e "$ACTRUN_NEEDS/action.yaml" ]; then
    echo "::error::Can't find 'action.yml' or 'action.yaml' under '$ACTRUN_NEEDS'. Did you forget to run actions/checkout" \
      "before running your local action?"
    exit 1
  fi
  if [ -n "${{ACTRUN_DIRECTORY-}}" ]; then
    CDPATH= cd -- "$ACTRUN_DIRECTORY" || {{ echo "the working-directory $ACTRUN_DIRECTORY is not there"; exit 1; }}
  fi
  if [ -f "$GITHUB_PATH" ] && [ -s "$GITHUB_PATH" ]; then
    actrun_new=$(command -p head -c {most_path} "$GITHUB_PATH" | command -p tr -d '\\000')
    while IFS= read -r actrun_line; do
      if [ -n "$actrun_line" ]; then PATH=$actrun_line:$PATH; fi
    done <<actrun_end
$actrun_new
actrun_end
  fi
  export ACTRUN_STEP PATH GITHUB_PATH GITHUB_STATE GITHUB_STEP_SUMMARY RUNNER_WORKSPACE
  unset actrun_place actrun_line actrun_why actrun_new OLDPWD
  unset ACTRUN_DIRECTORY ACTRUN_NEEDS ACTRUN_PIPED ACTRUN_NAME ACTRUN_JOB_NAME
  ;;
esac
if [ -n "${{ACTRUN_PATH-}}" ]; then
  actrun_rest=$PATH: actrun_new= actrun_known=$ACTRUN_PATH:/usr/local/sbin:/usr/local/bin:/usr/local/games
  while [ -n "$actrun_rest" ]; do
    actrun_line=${{actrun_rest%%:*}} actrun_rest=${{actrun_rest#*:}}
    case :$actrun_known:/usr/sbin:/usr/bin:/usr/games:/sbin:/bin: in
    *:"$actrun_line":*) ;; *) actrun_new=$actrun_new$actrun_line: ;; esac
  done
  PATH=$actrun_new$ACTRUN_PATH
  unset ACTRUN_PATH actrun_rest actrun_new actrun_line actrun_known
fi
if [ -n "${{BASH_VERSION-}}" ] && [ -r "${{ACTRUN_BASH_ENV-}}" ]; then . "$ACTRUN_BASH_ENV"; fi
"""
MOST_PATH = 65_536  # bytes of GITHUB_PATH
ONE_STREAM = Path(__file__).resolve().parent.parent / "stubs" / "one_stream.py"


def marker() -> str:
    """The word before `:L-S` in the line that begins a step's output."""
    return f"actrun-{secrets.token_hex(8)}"


def write_prelude(room: Room, mark: str, told: Path, python: str = "/usr/bin/python3") -> Path:
    """Writes the prelude of an execution, which reads in the folder `told` what the front says to steps;
    `python` is there in the sandbox, too."""
    path = room.play / "files" / "prelude.sh"
    places = {
        "play": room.play,
        "files": path.parent,
        "tree": room.tree,
        "told": told,
        "python": python,
        "one_stream": ONE_STREAM,
        "most_path": MOST_PATH,
    }
    quoted = {name: shlex.quote(str(place)) for name, place in places.items()}
    path.write_text(PRELUDE.format(mark=mark, **quoted), encoding="utf-8")
    return path


def settle(plan: dict[str, Any], room: Room, own_trees: bool) -> None:
    """Prepares a plan for the prelude: it goes to the working-directory of a step, and sources what the
    workflow names BASH_ENV. Each leg has a folder for RUNNER_TEMP, with `own_trees` a tree, and the texts
    that see `strategy` name these."""
    for number, run in enumerate(plan["runs"]):
        if number:  # the variables of all steps are those of the first run
            run["env"] = {
                **{
                    f"GITHUB_{name.upper()}": f"${{{{ github.{name} }}}}"
                    for name in ("workflow", "workflow_ref", "event_path")
                },
                **run["env"],
            }
        steps = [step for job in run["jobs"] for step in job["steps"]]
        for part in (run, *run["jobs"], *steps):
            if "BASH_ENV" in part["env"]:
                part["env"]["ACTRUN_BASH_ENV"] = part["env"].pop("BASH_ENV")
        for step in steps:
            if step["work"].get("dir"):
                step["env"]["ACTRUN_DIRECTORY"] = step["work"]["dir"]
                step["work"]["dir"] = None
        for job in run["jobs"]:
            trees = {"GITHUB_WORKSPACE": "${{ github.workspace }}"} if own_trees else {}
            job["env"] = {"RUNNER_TEMP": str(room.play / "temp"), **trees, **job["env"]}
            with_own_folders(job, room, own_trees)


def with_own_folders(job: dict[str, Any], room: Room, own_trees: bool) -> None:
    """Puts folders of the leg in place of `runner.temp`, and with `own_trees` of `github.workspace` and the
    path of the copy, in a job's texts."""
    folders = {str(room.play / "temp"): f"{room.play}/temp/{job['number']}-"}
    if own_trees:
        folders[str(room.tree.parent)] = f"{room.play}/legs/{job['number']}-"

    def workspace(access: Access) -> tuple[str, int] | None:
        return (
            (literal(str(room.tree)), 1)
            if [key.lower() for key in access.keys[:1]] == ["workspace"]
            else None
        )
    rules = Rules({"github": workspace} if own_trees else {})

    def shape(text: str) -> str:
        return text.replace("'", "''").replace("{", "{{").replace("}", "}}")

    def place(text: str) -> str:
        found = shape(text)
        for common, new in folders.items():
            found = found.replace(shape(common), shape(new) + "{0}")
        return f"format('{found}', strategy.job-index)" if found != shape(text) else literal(text)

    def expression(text: str) -> str:
        return re.sub(TEXT, lambda it: place(unquoted(it[0])), rewrite(text, rules))

    def plain(text: str) -> str:
        return re.sub("|".join(map(re.escape, folders)), lambda it: f"${{{{ {place(it[0])} }}}}", text)

    def own(value: Any) -> Any:
        if isinstance(value, dict):
            return {name: own(text) for name, text in value.items()}
        if not isinstance(value, str):
            return value
        return "".join(
            f"${{{{{expression(text)}}}}}" if inside else plain(text) for inside, text in split(value)
        )
    job["env"], job["outputs"] = own(job["env"]), own(job["outputs"])
    for step in job["steps"]:
        condition, name, was = step["condition"], step_name(step), step["work"].get("run")
        step.update(env=own(step["env"]), tolerate=own(step["tolerate"]), condition=(
            expression(condition) if condition and not has_expression(condition) else own(condition)))
        step["work"].update((key, own(step["work"][key])) for key in ("run", "with") if key in step["work"])
        # (a step without a name is called by its script)
        step["name"] = name if step["work"].get("run") != was else step["name"]


def usual(contexts: Mapping[str, Any]) -> dict[str, str]:
    """The variables of the caller that hold no secrets, and the default ones of GitHub that name no file."""
    return {
        **{name: value for name, value in os.environ.items() if PASSED.fullmatch(name)},
        **{
            f"GITHUB_{name.upper()}": text_of(value)
            for name, value in contexts["github"].items()
            if name not in NO_VARIABLES
        },
        **{f"RUNNER_{name.upper()}": value for name, value in contexts["runner"].items() if value},
        "CI": "true",
        "GITHUB_ACTIONS": "true",
    }


def variables(room: Room, contexts: Mapping[str, Any], prelude: Path, cache: Path) -> dict[str, str]:
    """The variables of all steps: those of the caller that hold no secrets, the default ones of GitHub, and
    those of the prelude."""
    github, files = contexts["github"], room.play / "files"
    for name in ("path", "summary"):
        (files / name).touch()
    return {
        **usual(contexts),
        "GITHUB_PATH": str(files / "path"),
        "GITHUB_STEP_SUMMARY": str(files / "summary"),
        "ACTRUN_TOOLS": toolchains.variable(),
        "BASH_ENV": str(prelude),
        "ACTRUN_PRELUDE": str(prelude),
        "ACTRUN_CACHE": str(cache),
        "ACTRUN_ARTIFACTS": str(room.play / "artifacts"),
        "RUNNER_WORKSPACE": os.path.dirname(github["workspace"]),
    }
