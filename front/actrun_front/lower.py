"""Rewrites a workflow so that `actrun plan` takes it: what the program leaves out is replaced or dropped,
with a note for each."""
from __future__ import annotations

import hashlib
import re
import shutil
from dataclasses import dataclass, field
from typing import Any, Dict, List, Set, Tuple

from .expressions import (
    EvaluationError,
    Rules,
    as_text,
    expression_of,
    grouped,
    has_expression,
    known_keys,
    rewrite_template,
)
from .late_hashes import add_hashes
from .lower_checks import note_differences
from .lower_inline import inline_actions, inline_calls
from .lower_legs import lower_legs
from .lower_containers import lower_containers, lower_docker_actions
from .lower_matrix import lower_env, lower_strategy, lower_system
from .lower_numbers import fold_job, fold_numbers, no_values, settle
from .lower_outputs import add_outputs
from .lower_tree import (
    KnownContexts,
    Lowering,
    Setting,
    drop_default_variables,
    is_set,
    name_steps,
    part,
    rewrite_texts,
    set_default_variables,
    set_variable,
    shown,
    steps_of,
)
from .names import fill_names, filled
from .output_limits import plain_output
from .written import Parts, parts_of
from .yaml_reader import Document, Note, Path, Refused, copied, lines_of, mark_of, text_of
from .old_commands import relay_commands

__all__ = ["EvaluationError", "Lowered", "Refused", "Setting", "lower"]

KNOWN_SHELLS = ("", "bash", "sh")
# the script of a step with another shell or a limit of time: it writes the step's own script to a file, and
# starts that as GitHub does
STARTER = r"""cat >"${0%.sh}.script" <<'END'
SCRIPTEND
case $ACTRUN_SHELL in
  '') ACTRUN_SHELL='bash -e {0}' ;;
  bash) ACTRUN_SHELL='bash --noprofile --norc -eo pipefail {0}' ;;
  sh) ACTRUN_SHELL='sh -e {0}' ;;
  python) ACTRUN_SHELL='python {0}' ;;
  pwsh) ACTRUN_SHELL="pwsh -command \". '{0}'\"" ;;
esac
set -f
eval "words=($ACTRUN_SHELL)" started=() mark={0} script=${0%.sh}.script
[ "$words" != python ] || words=$(command -v python || echo python3)
if [[ $ACTRUN_SHELL != *' '*{0}* ]]; then
  echo "::error::the shell $ACTRUN_SHELL is not supported here; use bash, sh or python"; exit 1
elif ! command -v "$words" >/dev/null; then
  missing="the program $words of the shell $ACTRUN_SHELL is not installed here"
  echo "::error::$missing; install it, or use bash, sh or python"; exit 1
fi
if [ "${words##*/}" = pwsh ]; then
  { echo "\$ErrorActionPreference = 'stop'"; cat "$script"
    echo 'if ((Test-Path -LiteralPath variable:\LASTEXITCODE)) { exit $LASTEXITCODE }'
  } >"${script%.script}.ps1"
  script=${script%.script}.ps1
fi
for word in "${words[@]}"; do started+=("${word/"$mark"/"$script"}"); done
# (the files of a login shell may set another PATH: the prelude puts what they add before this one)
if [[ ${words##*/} = bash && " ${words[*]}" = *' -'*l* ]]; then export ACTRUN_PATH=$PATH; fi
unset ACTRUN_SHELL
"""
ENDS = {  # of that script: without a limit, with one that it keeps itself, with one that `ending.py` keeps
    "none": r"""exec "${started[@]}"
""",
    "own": r"""limit=$ACTRUN_MINUTES status=0
unset ACTRUN_MINUTES
# (what `timeout` itself says goes into a file: a script may end with 124 too)
timeout --verbose --kill-after=10 "${limit}m" sh -c 'exec "$@" 2>&3 3>&-' sh "${started[@]}" 3>&2 2>"${0%.sh}.limit" || status=$?
case $status:$(cat "${0%.sh}.limit") in
  124:?* | 137:?*) echo "::error::the step was ended after $limit minutes, its timeout-minutes" ;;
  *:?*) echo "::error::timeout-minutes is $limit, but has to be a number" ;;
esac
exit "$status"
""",
    "watched": r"""trap : INT TERM  # (these end the step's own script; however that ends, the step fails)
status=0 ended=$ACTRUN_TOLD/ended-${ACTRUN_STEP##*/step-}
"${started[@]}" || status=$?
if [ -e "${ended%.out}" ]; then echo "::error::$(cat "${ended%.out}")"; exit "$((status ? status : 1))"; fi
exit "$status"
""",
}


@dataclass
class Lowered:
    """A workflow that `actrun plan` reads."""
    value: Any
    lines: Dict[Path, int]  # places in `value` -> line of the YAML file
    notes: List[Note] = field(default_factory=list)
    # (job id, labels of runs-on) of legs that execute nothing here
    foreign: List[Tuple[str, str]] = field(default_factory=list)
    asked: Set[Tuple[str, str]] = field(default_factory=set)  # (job id, variable): what --matrix can give
    # job id -> variables of its matrix, as they are written
    orders: Dict[str, List[str]] = field(default_factory=dict)
    # conditions before those of steps, by which legs of `foreign` execute nothing
    guards: Set[str] = field(default_factory=set)
    late: Dict[str, List[str]] = field(default_factory=dict)  # jobs whose strategy comes with others -> these
    # jobs -> what they are executed without: container, services
    without: Dict[str, str] = field(default_factory=dict)
    parts: Parts = field(default_factory=dict)  # what the front made, as the user wrote it


def lower(document: Document, file: str, setting: Setting) -> Lowered:
    """The lowered workflow of a document without faults. Raises Refused if a part cannot be rewritten."""
    lowering, flow = Lowering(setting), copied(document.value)
    settle(flow, lowering, document.notes)
    if isinstance(flow, dict) and isinstance(flow.get("jobs"), dict):
        note_differences(lowering, flow)
        inline_calls(lowering, flow)
        drop_default_variables(lowering, flow)
        settle_scalars(flow)
        rewrite_texts(flow, KnownContexts(lowering))
        fold_numbers(lowering, flow, no_values)
        lower_env(lowering, flow, {})
        for job_id, job in flow["jobs"].items():
            if isinstance(job, dict) and isinstance(job.get("steps"), list):
                lower_job(lowering, flow, job_id, job)
        drop_default_shell(flow)
        if has_expression(flow.get("run-name")):
            flow["run-name"] = filled(lowering, flow["run-name"], {})
    return Lowered(
        flow,
        lines_of(flow),
        sorted(lowering.notes, key=lambda note: note.line),
        lowering.foreign,
        lowering.asked,
        lowering.orders,
        lowering.guards,
        lowering.late,
        lowering.without,
        parts_of(flow),
    )


def settle_scalars(flow: Any) -> None:
    """Takes out each `if` without a value, which on GitHub is no condition, and writes names and outputs that
    are no texts as such."""
    jobs = [job for job in flow["jobs"].values() if isinstance(job, dict)]
    for node in (flow, *jobs, *(step for job in jobs for step in steps_of(job))):
        if node.get("if", "") is None:
            del node["if"]
        outputs = part(node, "outputs")
        for place, key in ((node, "name"), *((outputs, name) for name in outputs)):
            if isinstance(place.get(key), (bool, int)):
                place[key] = text_of(place[key])


def lower_job(lowering: Lowering, flow: Any, job_id: str, job: Any) -> None:
    """Lowers one job that has steps."""
    lower_containers(lowering, job_id, job)
    name = job.known_as or job_id
    name_steps(job)
    inline_actions(
        lowering, job, is_set({**run_defaults(flow), **run_defaults(job)}.get("working-directory"))
    )
    add_hashes(lowering, job)
    add_outputs(lowering, flow, job_id, job)
    lower_docker_actions(lowering, job_id, job)
    rewrite_texts(job, KnownContexts(lowering, name, runs_on=job.get("runs-on")))
    rewrite_texts(job, Rules({"steps": plain_output}))
    for step in steps_of(job):
        rewrite_texts(step, Rules({"steps": plain_output}))
        rewrite_texts(step, KnownContexts(lowering, name, step.known_as, job.get("runs-on")))
    lower_strategy(lowering, job_id, job)
    fold_job(lowering, job, steps_of(job))
    for node in [job, *steps_of(job)]:
        lower_env(lowering, node, job)
    lower_system(lowering, job_id, job)
    fill_names(lowering, flow, job_id, job)
    lower_scripts(lowering, job, flow)
    set_default_variables(name, job, flow)
    lower_legs(lowering, job_id, job)


def run_defaults(node: Any) -> Any:
    """What a workflow or job has in `defaults.run`."""
    return part(part(node, "defaults"), "run")


def drop_default_shell(node: Any) -> None:
    """Takes the default shell out of a workflow or job, unless the program knows it. Its steps have one of
    their own by then."""
    shell = run_defaults(node).get("shell")
    if isinstance(shell, str) and shell not in KNOWN_SHELLS:
        del run_defaults(node)["shell"]


def lower_scripts(lowering: Lowering, job: Any, flow: Any) -> None:
    """Gives the program a job's scripts for sh and bash alone. Limits of jobs and actions need watched
    steps."""
    limit = limit_of(lowering, job)
    if is_set(limit) and lowering.setting.watched:
        set_variable(job, "ACTRUN_JOB_MINUTES", str(limit))
    elif is_set(limit):
        lowering.note(
            mark_of(job, "timeout-minutes"),
            "timeout-minutes of a job is not enforced; that of a step with a script is",
        )
    for step in steps_of(job):
        if step.get("if") is False:
            step.pop("shell", None)
        elif isinstance(step.get("run"), str):
            see_own_variables(step)
            lower_script(lowering, step, [step, run_defaults(job), run_defaults(flow)])
        elif is_set(step.get("timeout-minutes")) and lowering.setting.watched:
            see_own_variables(step)
            set_variable(step, "ACTRUN_MINUTES", str(limit_of(lowering, step)))
        elif is_set(step.pop("timeout-minutes", None)):
            lowering.note(mark_of(step, "timeout-minutes"), "timeout-minutes of an action is not enforced")
    drop_default_shell(job)


def limit_of(lowering: Lowering, node: Any) -> Any:
    """The limit of time of a job or step, which is taken out. Refuses a text that can be no number."""
    limit = node.pop("timeout-minutes", None)
    if is_set(limit) and not has_expression(limit) and not re.fullmatch(r"[0-9]*\.?[0-9]+", str(limit)):
        mark = mark_of(node, "timeout-minutes")
        raise lowering.refuse(mark, f"timeout-minutes is {shown(limit)}, but has to be a number")
    return limit


def see_own_variables(step: Any) -> None:
    """Puts the variables of a step itself in place of `env.NAME` where they count, since these texts become
    variables beside them."""
    rules = Rules(
        {
            "env": known_keys(
                {name: grouped(as_text(expression_of(value))) for name, value in part(step, "env").items()}
            )
        }
    )
    for key in ("working-directory", "shell", "timeout-minutes"):
        if has_expression(step.get(key)):
            step[key] = rewrite_template(step[key], rules)


def lower_script(lowering: Lowering, step: Any, places: List[Any]) -> None:
    """Puts the starter in place of a script that needs it. `places` are where its shell may be named, the
    first one counts."""
    script, limit, watched = step["run"], limit_of(lowering, step), lowering.setting.watched
    named = [node for node in places if isinstance(node.get("shell"), str)]
    shell = named[0]["shell"] if named else ""
    step["run"] = lowering.setting.sh_line + script if shell == "sh" else script
    if shell not in KNOWN_SHELLS:
        how = "is not supported: the step fails and says so"
        if has_expression(shell):
            how = "is known only during execution: bash starts it, or fails"
        elif shell in ("python", "pwsh") or " " in shell and "{0}" in shell:
            first = shell.split()[0]
            missing = f"needs {first}, which is not installed here: the step fails and says so"
            how = "is started by bash" if first == "python" or shutil.which(first) else missing
        lowering.note(mark_of(named[0], "shell"), f"the shell {shown(shell)} {how}")
    if is_set(limit) and not watched:
        lowering.note(mark_of(step, "timeout-minutes"),
                      f"timeout-minutes is enforced by `timeout` of coreutils: {shown(limit)} minutes")
    if shell not in KNOWN_SHELLS or is_set(limit):
        text = step["run"].rstrip("\n") + "\n"
        end = "ACTRUN_" + hashlib.sha256(text.encode()).hexdigest()[:8]
        starter = STARTER + ENDS["none" if not is_set(limit) else "watched" if watched else "own"]
        step["run"], step["shell"] = starter.replace("END", end).replace("SCRIPT", text), "bash"
        set_variable(step, "ACTRUN_SHELL", shell)
        if is_set(limit):
            set_variable(step, "ACTRUN_MINUTES", str(limit))
    line = next((line.strip() for line in script.splitlines() if line.strip()), "")
    if step["run"] != script and line and not step.get("name"):
        step["name"] = line
    relay_commands(lowering, step, script, step.get("shell", shell))
