"""JavaScript actions: the steps `pre`, `main` and `post` that take the place of a step that uses one.

As on GitHub `pre` comes before all steps of the job, and `post` after them: the last action first, and only
where `main` or `pre` of the same step began. Each of the three is a step with the action's `uses`; the
variable ACTRUN_PHASE names it for the program that executes it, and ACTRUN_STATE the step whose state they
share.
"""
from __future__ import annotations

import copy
import re
from dataclasses import dataclass, field
from typing import Any, List, Set, Tuple

from .action_sources import Action, check_main
from .actions import action_name
from .expressions import condition_expression, expression_of, names_status, references, split
from .lower_tree import Lowering, free_name, part, set_variable
from .yaml_reader import Map, Mark, Sequence, mark_of

JAVASCRIPT = re.compile(r"node\d+")
# what the default of an action's input may read
OF_DEFAULTS = ("github", "strategy", "matrix", "job", "runner")
# inputs without which an action does not start, where it needs no value: a token that GitHub refuses serves
PLACEHOLDERS = {"actions/github-script": "github-token"}
MOST_STEPS = 1024  # of a job, with those that use composite actions: the planner takes 256 without them
MOST_TEXT = 1 << 24
AROUND = ("pre", "pre-if", "post", "post-if")
# what `pre` and `post` have of the step
KEPT = ("env", "with", "uses", "continue-on-error", "timeout-minutes")


def check_defaults(lowering: Lowering, mark: Mark, uses: str, declared: Any) -> None:
    """Refuses a default of an input that reads what GitHub shows none, as the secrets of who uses the
    action."""
    for name in declared:
        value = part(declared, name).get("default")
        pieces = split(value) if isinstance(value, str) else []
        read = {it.context for is_expression, text in pieces if is_expression for it in references(text)[0]}
        wrong = sorted(read - set(OF_DEFAULTS))
        if wrong:
            raise lowering.refuse(mark, f"the action {uses}: the default of its input {name} reads "
                                        f"`{wrong[0]}`, which no default can")


def with_defaults(declared: Any, given: Any, mark: Mark) -> Any:
    """The inputs that an action gets: those given, and of the others the defaults."""
    names = {str(name).lower() for name in given}
    made = Map(given, mark)
    made.marks = dict(getattr(given, "marks", {}))
    for name in declared:
        if str(name).lower() not in names:
            value = part(declared, name).get("default")
            made[str(name)] = "" if value is None or isinstance(value, (dict, list)) else value
    return made


def after_all(condition: Any) -> str:
    """The condition of a step whose own one, `pre-if` or `post-if`, is whole: no success() is added to it."""
    own = condition_expression(condition)
    return "always()" if own is None else own if names_status(own) else f"always() && ({own})"


def give_inputs(lowering: Lowering, step: Any, declared: Any) -> None:
    """Gives a step the inputs of its action."""
    uses, mark, given = step["uses"], mark_of(step, "uses"), part(step, "with")
    check_inputs(lowering, mark, uses, declared, given)
    step["with"] = whole = with_defaults(declared, given, mark)
    for name in whole:
        if name.lower() == PLACEHOLDERS.get(action_name(uses)):
            whole[name] = "${{ (" + expression_of(whole[name]) + ") || 'none' }}"


def check_inputs(lowering: Lowering, mark: Mark, uses: str, declared: Any, given: Any) -> None:
    """Notes the inputs that an action does not declare or has given up. Refuses a wrong default."""
    check_defaults(lowering, mark, uses, declared)
    known = {str(name).lower(): part(declared, name) for name in declared}
    wrong = [str(name) for name in given if str(name).lower() not in known]
    if wrong:
        has = ", ".join(known) or "none"
        lowering.note(mark, f"the action {uses} declares no input {', '.join(wrong)}; it has: {has}")
    for name in given:
        text = known.get(str(name).lower(), {}).get("deprecationMessage")
        if text:
            lowering.note(mark, f"the input {name} of the action {uses} is deprecated: {text}")


@dataclass
class Around:
    """The steps that come before and after those of a job, and the ids of its steps."""

    taken: Set[str]
    before: List[Any] = field(default_factory=list)
    early: List[Any] = field(default_factory=list)  # post steps of actions with a pre step
    later: List[Any] = field(default_factory=list)  # post steps of other actions
    uses: int = 0                                   # steps that use a JavaScript action
    # where actions/checkout puts the repository in the workspace
    paths: Tuple[str, ...] = ()
    steps: int = 0                                  # all steps, those of composite actions too
    text: int = 0                                   # characters that inputs become at most

    def count_step(self, lowering: Lowering, mark: Mark) -> None:
        """Refuses a job with too many steps, before actions that use one another make it too many for the
        memory."""
        self.steps += 1
        if self.steps > MOST_STEPS:
            raise lowering.refuse(mark, f"the job has more than {MOST_STEPS} steps once those of actions are "
                                        "written out")

    def count_text(self, lowering: Lowering, mark: Mark, text: str, size: int) -> None:
        """Refuses a job whose texts become too long once inputs of this size are written out in a text of an
        action."""
        self.text += text.lower().count("inputs") * size
        if self.text > MOST_TEXT:
            raise lowering.refuse(mark, f"the inputs of actions become more than {MOST_TEXT} characters "
                                        "of text")

    def put(self, steps: Any) -> Any:
        """All steps of a job, with the marks of those that are there."""
        after = [*reversed(self.later), *reversed(self.early)]
        made = Sequence([*self.before, *steps, *after], steps.mark)
        made.marks = {at: mark_of(step, "uses") for at, step in enumerate(made)}
        made.marks.update((at + len(self.before), mark) for at, mark in steps.marks.items())
        return made

    def execute(self, lowering: Lowering, step: Any, action: Action, from_start: bool) -> List[Any]:
        """The step that takes the place of one that uses a JavaScript action; its `pre` and `post` are kept.
        Not `from_start` is an action that is known only when its step begins: as on GitHub it has no
        `pre`."""
        runs, uses, mark = action.value["runs"], step["uses"], mark_of(step, "uses")
        why, actions = check_main(action), lowering.setting.actions
        if why:
            lowering.note(mark, f"the action {uses} {why}: its step needs a program (--stub)")
            actions.fails(uses, f"the action {uses} {why}", "no action")
            return [step]
        actions.execute_by_node(uses, action)
        give_inputs(lowering, step, part(action.value, "inputs"))
        step["name"] = str(step.get("name") or f"Run {uses}")
        self.surround(lowering, step, {key: runs.get(key) for key in AROUND}, from_start)
        return [step]

    def execute_in_container(self, lowering: Lowering, step: Any, action: Action,
                             from_start: bool) -> List[Any]:
        """The step that uses a Docker action. Its `pre-entrypoint` and `post-entrypoint` are kept."""
        runs = action.value["runs"]
        phases = {key: runs.get(key if key.endswith("-if") else f"{key}-entrypoint") for key in AROUND}
        if phases["pre"] or phases["post"]:
            step["name"] = str(step.get("name") or f"Run {step['uses']}")
            self.surround(lowering, step, phases, from_start)
        return [step]

    def surround(self, lowering: Lowering, step: Any, phases: Any, from_start: bool) -> None:
        """Keeps the steps for the phases `pre` and `post`, as far as there are some, each with its
        condition."""
        uses, mark = step["uses"], mark_of(step, "uses")
        if not isinstance(step.get("env") or {}, dict):
            lowering.note(
                mark,
                f"`pre` and `post` of the action {uses} are not executed: `env` of its step is an "
                "expression",
            )
            return
        self.uses += 1
        before = None
        if phases.get("pre") and from_start:
            before = self.phase(step, f"Pre {step['name']}", "pre", after_all(phases.get("pre-if")))
            self.before.append(before)
        elif phases.get("pre"):
            lowering.note(mark, f"`pre` of the action {uses} is not executed, as on GitHub: the action, or "
                                "one that uses it, is of the repository")
        if phases.get("post"):
            self.add_post(step, before, after_all(phases.get("post-if")))
        self.name_phase(step, "main")

    def add_post(self, step: Any, before: Any, condition: str) -> None:
        """Keeps the post step of a step, whose condition needs that `main` or `pre` began."""
        pairs: List[Any] = [step] if before is None else [before, step]
        for one in pairs:
            if not isinstance(one.get("id"), str):
                one["id"] = free_name(f"action{self.uses}", self.taken)
        began = " || ".join(f"steps.{one['id']}.outcome != 'skipped'" for one in pairs)
        # with always() no success of all steps before is needed
        whole = f"always() && ({began})" + ("" if condition == "always()" else f" && ({condition})")
        made = self.phase(step, f"Post {step.get('name') or step['uses']}", "post", whole)
        (self.later if before is None else self.early).append(made)

    def phase(self, step: Any, name: str, phase: str, condition: str) -> Any:
        """A step for one more phase of the action that a step uses."""
        made = Map({key: copy.deepcopy(step[key]) for key in KEPT if key in step}, mark_of(step, "uses"))
        made["name"], made["if"] = name, condition
        made.known_as = step.known_as
        self.name_phase(made, phase)
        return made

    def name_phase(self, step: Any, phase: str) -> None:
        """Names the phase of a step, and the number of its use of an action, for the program that executes
        it."""
        set_variable(step, "ACTRUN_PHASE", phase)
        set_variable(step, "ACTRUN_STATE", str(self.uses))
