"""Outputs of jobs with a matrix: of each name the last value that is not empty counts, as on GitHub.

The program takes the outputs of the leg that ended last. So a last step of each leg, which shows nothing,
hands on what the legs of its job have set so far: the front answers it (job_outputs.py). Without a sandbox it
is executed, and hands on what its own leg has.
"""
from __future__ import annotations

import shlex
from typing import Any

from .late_hashes import OUTPUTS
from .lower_tree import Lowering, is_set, part, steps_of, texts
from .yaml_reader import Map, mark_of

VARIABLE = "ACTRUN_OUTPUT_"  # which begins the names of the step's variables


def add_outputs(lowering: Lowering, flow: Any, job_id: str, job: Any) -> None:
    """Adds such a step to a job with a matrix whose outputs another job may read."""
    outputs, others = part(job, "outputs"), flow["jobs"].values()
    is_needed = any(job_id in texts(part({"job": other}, "job").get("needs")) for other in others)
    has_matrix = is_set(part(job, "strategy").get("matrix"))
    if not (
        outputs and has_matrix and is_needed and lowering.setting.watched and isinstance(job["steps"], list)
    ):
        return
    taken = {step.get("id") for step in steps_of(job)}
    if OUTPUTS in taken or not all(isinstance(name, str) for name in outputs):
        return
    print_one = 'printf \'%s<<ACTRUN_END\\n%s\\nACTRUN_END\\n\' {0} "$(printenv {1})" >> "$GITHUB_OUTPUT"\n'
    made = Map(
        {
            "id": OUTPUTS,
            "name": "outputs",
            "if": "always()",
            "shell": "bash",
            "working-directory": ".",
            "run": "".join(
                print_one.format(shlex.quote(name), shlex.quote(VARIABLE + name)) for name in outputs
            ),
            "env": {VARIABLE + name: value for name, value in outputs.items()},
        },
        mark_of(job, "outputs"),
    )
    made.known_as = OUTPUTS
    job["steps"].append(made)
    for name in outputs:
        outputs[name] = f"${{{{ steps.{OUTPUTS}.outputs.{name} }}}}"
