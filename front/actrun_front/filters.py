"""Which workflows an event starts by their filters, and what a person can name where it starts none."""
from __future__ import annotations

import argparse
import re
import shlex
from typing import Iterable

from . import Problem
from .contexts import Play, commits, contexts, excluded
from .planning import Flow
from .present import Screen


# words in the message of a commit by which GitHub starts no workflow for a push or a pull request
SKIPS = re.compile(r"\[(skip ci|ci skip|no ci|skip actions|actions skip)\]|(?m:^skip-checks: ?true\s*\Z)")


def check_event(flows: list[Flow], options: argparse.Namespace) -> None:
    """Offers what there is, where no event is named and no workflow is for a push."""
    if options.event is None and options.job is None and not any("push" in flow.events for flow in flows):
        if any(flow.events for flow in flows):
            raise Problem("\n".join(["no workflow is for the event push, which is executed if none is named; "
                                     "there are:", *offers(flows)]))


def offers(flows: Iterable[Flow]) -> list[str]:
    """The commands that execute workflows by another event, each with their files."""
    files: dict[str, list[str]] = {}
    for flow in flows:
        for event in flow.events:
            files.setdefault(event, []).append(flow.name)
    wide = max(map(len, files), default=0)
    return [f"  actrun try {event:<{wide}}  {', '.join(names)}"
            for event, names in sorted(files.items()) if event != "push"]


def filter_of(flow: Flow, play: Play) -> str | None:
    """The filter by which GitHub would not start the workflow."""
    trigger = flow.events.get(play.event)
    if play.event not in flow.events or not trigger and play.payload is None:
        return None
    return excluded(play, trigger, contexts(play, flow.name, flow.document.value)["github"])


def tell_skip(play: Play, screen: Screen) -> None:
    """Says so where the message of the last commit keeps GitHub from starting workflows."""
    if play.event in ("push", "pull_request") and play.payload is None and play.facts.repository:
        found = SKIPS.search(next((commit["message"] for commit in commits(play.facts, None, 1)), ""))
        if found:
            screen.tell(
                f"note: the message of the last commit has `{found[0].strip()}`, by which GitHub starts "
                f"no workflow for this {play.event}",
                "note",
            )


def started(picked: list[Flow], play: Play, screen: Screen, flows: list[Flow]) -> list[Flow]:
    """Of `picked` the workflows whose filter matches the event; `flows` are all that there are.
    -W with a file, and --job, mean a workflow whatever its filter."""
    options = play.options
    if options.job or options.workflows and options.workflows.endswith((".yml", ".yaml")):
        return picked
    tell_skip(play, screen)
    kept, left = [], []
    for flow in picked:
        why = filter_of(flow, play)
        if why is None:
            kept.append(flow)
        else:
            left.append(f"{flow.name}: its filter keeps it from this {play.event} ({why}), so it is not "
                        f"executed; all the same: actrun try {play.event} -W {shlex.quote(flow.name)}")
    if not kept and options.event is None:
        raise Problem("\n".join(["no workflow starts:", *(f"  {text}" for text in left), *offers(flows)]))
    for text in left:
        screen.tell(f"note: {text}", "note")
    if not kept:
        screen.say(f"no workflow starts for this {play.event}: nothing is executed")
    return kept
