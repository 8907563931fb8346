"""What a person does next after an execution, one line each."""
from __future__ import annotations

import shlex
from typing import TYPE_CHECKING, Any, Iterator

if TYPE_CHECKING:
    from .planning import Flow
    from .present import Board


def next_steps(board: Board, flows: list[Flow], options: Any, has_record: bool,
               has_page: bool, has_snapshots: bool) -> Iterator[str]:
    """The commands that go on from here: the page, the debugger, the step that failed, and the first job with
    one."""
    if has_page:
        yield "open      actrun open"
    if has_record:
        yield "walk      actrun debug --last"
    words = [*filter(None, [options.event]), *(["-W", options.workflows] if options.workflows else [])]
    job = failed_job(board, flows)
    if job and has_snapshots:
        yield "back      actrun try --from failed"
    if board.is_brief:
        yield f"all lines actrun try {shlex.join([*words, '--follow'])}"
    if job:
        yield f"again     actrun try {shlex.join([*words, '-j', job])}"


def failed_job(board: Board, flows: list[Flow]) -> str:
    """The job, as the workflow names it, of the first step that failed; nothing if none did, or where -j
    would name others, too."""
    for leg, step in board.steps.failed:
        part = board.legs[leg]
        is_tolerated = part.job.get("tolerate") or part.job["steps"][step].get("tolerate")
        if board.results.get(part.run) == "success" or is_tolerated:
            continue
        made = part.job.get("id", "")
        name = next((job for job in flows[part.run].jobs if made == job or made.startswith(f"{job}__")), "")
        if name and sum(name in flow.jobs for flow in flows) == 1:
            return name
    return ""
