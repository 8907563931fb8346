"""Composite actions and called workflows: their steps and jobs take the place of what uses them.

Only with the `actions` of a setting are actions of other repositories and JavaScript actions more than one
step with `uses`, as a called workflow of another repository is.
"""
from __future__ import annotations

import os
import posixpath
import re
import shlex
from dataclasses import replace
from pathlib import Path
from typing import Any, Dict, List, NamedTuple, Set, Tuple

from . import syntax
from .expressions import (EvaluationError, Rules, as_text, condition_expression, conjunction,
                          expression_of, grouped, has_expression, inner_condition, known_keys, literal,
                          names_status, reads_only, references, rewrite, rewrite_condition, rewrite_template)
from .action_sources import FILES, Action, ActionError, Source, read_action
from .actions import action_name
from .files import read_inside
from .lower_javascript import JAVASCRIPT, Around, check_inputs
from .lower_checks import failing_step
from .lower_legs import match_needs, order_legs, sorted_legs
from .lower_matrix import lower_strategy
from .lower_numbers import settle
from .lower_tree import Lowering, free_name, is_set, part, rewrite_texts, set_variable, shown, steps_of, texts
from .written import note_written
from .yaml_reader import MOST_BYTES, Map, Mark, Sequence, copied, mark_of, plain_value, read_document, text_of

# contexts that no step changes
STABLE = ("github", "inputs", "vars", "matrix", "needs", "strategy", "runner")
MOST_LEVELS = 4  # of workflows, the first caller included
MOST_NESTED = 10  # composite actions, as on GitHub
NUMBER = syntax.NUMBER
MISSING = {"boolean": "false", "number": "0"}  # the value of an input without one, where it is no text


class File(NamedTuple):
    """A file of a workflow: the folder of its repository, its path there, and what it is called."""
    top: Path
    path: str
    name: str


def read_part(lowering: Lowering, file: File, what: str, mark: Mark) -> Any:
    """The value of a YAML file of a repository, whose lines are those of the place that uses it."""
    name = file.name
    try:
        document = read_document(read_inside(file.top, file.top / file.path, MOST_BYTES))
    except OSError as error:
        raise lowering.refuse(mark, f"{what} cannot be read: {name}: {error.strerror}") from None
    for fault in document.faults:
        raise lowering.refuse(mark, f"{what} has an error: {name}:{fault.line}: {fault.text}")
    for fault in syntax.faults(document) if lowering.setting.strict and "workflow" in what else ():
        raise lowering.refuse(mark, f"{what} is rejected by GitHub: {name}:{fault.line}: {fault.text}")
    value = copied(document.value, lambda inner: Mark(mark.line, f"{name}:{inner.line}"))
    settle(value, lowering, [])
    return value


def input_expressions(declared: Any, given: Any) -> Dict[str, str]:
    """The expressions of inputs, their names in small letters: the given values, else the defaults, by the
    declared types."""
    values = {name.lower(): part(declared, name).get("default") for name in declared}
    values.update((name.lower(), value) for name, value in given.items())
    kinds, found = {name.lower(): str(part(declared, name).get("type")) for name in declared}, {}
    for name, value in values.items():
        kind = kinds.get(name, "")
        if kind in MISSING and isinstance(value, str) and not has_expression(value):
            value = plain_value(value)
        expression = MISSING.get(kind, "''") if value is None else expression_of(value)
        found[name] = expression if kind in MISSING else as_text(expression)
    return found


def fits_type(value: Any, kind: str) -> bool:
    """Whether a value given to an input may be of its type."""
    value = plain_value(value) if isinstance(value, str) and not has_expression(value) else value
    if isinstance(value, str) and kind in MISSING:
        return has_expression(value) or kind == "number" and NUMBER.fullmatch(value) is not None
    return not isinstance(value, bool) if kind == "number" else isinstance(value, bool) or kind != "boolean"


def whole_of(values: Dict[str, str]) -> str:
    """The expression of a context with values by their expressions."""
    names = ",".join(f"{text_of(name)}:{{{at}}}" for at, name in enumerate(values))
    whole = ", ".join([literal("{{" + names + "}}"), *(f"toJSON({value})" for value in values.values())])
    return f"fromJSON(format({whole}))"


def input_rule(inputs: Dict[str, str]) -> Any:
    """The rule for `inputs`: each by its expression, and as a whole by all of them."""
    return known_keys({name: grouped(value) for name, value in inputs.items()}, "null", whole_of(inputs))


def inline_actions(lowering: Lowering, job: Any, has_directory: bool) -> None:
    """Replaces each step of a job that uses a composite action, and puts the steps of JavaScript actions
    around those of the job."""
    around = Around({step["id"] for step in steps_of(job) if isinstance(step.get("id"), str)})
    around.paths = checkout_paths(lowering, job)
    made = Sequence(mark=mark_of(job, "steps"))
    for at, step in enumerate(job["steps"]):
        for one in inlined(lowering, step, around, has_directory, ()):
            made.marks[len(made)] = mark_of(job["steps"], at) if one is step else mark_of(one)
            made.append(one)
    job["steps"] = around.put(made)


def checkout_paths(lowering: Lowering, job: Any) -> Tuple[str, ...]:
    """The folders of the workspace in which actions/checkout puts the repository itself, for the steps of a
    job."""
    own = part(lowering.contexts, "github").get("repository")
    given = [
        part(step, "with")
        for step in steps_of(job)
        if action_name(str(step.get("uses"))) == "actions/checkout"
    ]
    return tuple(
        posixpath.normpath(one["path"])
        for one in given
        if isinstance(one.get("path"), str)
        and not has_expression(one["path"])
        and one.get("repository") in (None, "", own, "${{ github.repository }}")
    )


def folder_of(lowering: Lowering, uses: str, paths: Tuple[str, ...]) -> str:
    """The folder of the repository that a local action names: below a path of actions/checkout what is behind
    that."""
    folder = uses[2:].strip("/")
    behind = [folder[len(path) + 1:] for path in paths if folder.startswith(f"{path}/")]
    if any(os.path.lexists(lowering.setting.repository / folder / name) for name in FILES) or not behind:
        return folder
    return behind[0]


def action_of(lowering: Lowering, uses: str, mark: Mark, paths: Tuple[str, ...]) -> Action | None:
    """The action of a text of `uses`; None if it stays a step with `uses`, which a note says of actions of
    the repository."""
    actions = lowering.setting.actions
    of_repository = uses == "." or uses.startswith("./")
    source = actions.source(uses) if actions else Source("", Path(uses) if of_repository else None)
    if source.folder is None or uses.endswith((".yml", ".yaml")):
        return None
    name = f"{uses}/"
    if source.reference is None:
        folder = folder_of(lowering, uses, paths)
        top, name = lowering.setting.repository, f"{folder or '.'}/"
        source = replace(source, folder=top / folder, top=top)
    try:
        if ".." in name.split("/"):
            raise ActionError("has no action.yml in the repository")
        action = read_action(source, name, mark)
        settle(action.value, lowering, [])
        return action
    except ActionError as fault:
        why = str(fault)
        if why.startswith("has no") and source.reference is None:
            why = "has no action.yml in the repository"
    if why.startswith("has an error"):
        raise lowering.refuse(mark, f"the action {uses} {why}")
    lowering.note(mark, f"the action {uses} {why}: its step needs a program (--stub)")
    if actions:
        actions.fails(uses, f"the action {uses} {why}", "no action")
    return None


def inlined(lowering: Lowering, step: Any, around: Around, has_directory: bool,
            above: Tuple[str, ...]) -> List[Any]:
    """The steps that take the place of a step: itself, unless it uses a composite or a JavaScript action."""
    uses, mark = step.get("uses") if isinstance(step, dict) else None, mark_of(step, "uses")
    around.count_step(lowering, mark)
    action = action_of(lowering, uses, mark, around.paths) if isinstance(uses, str) else None
    if action is None or not isinstance(uses, str):
        actions = lowering.setting.actions
        stub = actions.source(uses) if actions and isinstance(uses, str) else Source("")
        if stub.post:
            around.surround(lowering, step, {"post": True, "post-if": stub.post}, True)
        return [step]
    inner, actions = part(action.value, "runs").get("steps"), lowering.setting.actions
    has_steps = isinstance(inner, list) and all(isinstance(one, dict) for one in inner)
    if action.using == "composite" and has_steps:
        if uses in above or not isinstance(step.get("env") or {}, dict):
            return [step]
        if len(above) >= MOST_NESTED:
            path = " > ".join((*above, uses))
            raise lowering.refuse(mark, f"composite actions nest deeper than {MOST_NESTED}: {path}")
        lowering.count(mark, len(inner) + 2)
        failing = failing_step(lowering, step, action.value) if action.source.reference is None else None
        if failing:
            return [failing]
        return [one for new in Use(lowering, step, action, around).steps(has_directory)
                for one in inlined(lowering, new, around, has_directory, above + (uses,))]
    from_start = action.source.reference is not None and not any(one.startswith(".") for one in above)
    if actions and JAVASCRIPT.fullmatch(action.using):
        return around.execute(lowering, step, action, from_start)
    why = "is not a composite action"
    if action.using == "docker" and actions:
        if action.source.reference and not actions.lacks_engine:
            lowering.dockers[uses] = action
        is_local = action.source.reference is None
        if uses in lowering.dockers or is_local and lowering.setting.containers == "keep":
            return around.execute_in_container(lowering, step, action, from_start)
        why = f"is a Docker action, which needs podman or docker ({actions.lacks_engine}): apt-get install podman"
    lowering.note(mark, f"the action {uses} {why}: its step needs a program (--stub)")
    if actions:
        actions.fails(uses, f"the action {uses} {why}", f"`using: {action.using}`")
    return [step]


class Use:
    """One step that uses a composite action."""

    def __init__(self, lowering: Lowering, step: Any, read: Action, around: Around):
        action, source, taken = read.value, read.source, around.taken
        self.step, self.outputs, self.inner, self.mark = (
            step,
            part(action, "outputs"),
            action["runs"]["steps"],
            mark_of(step, "uses"),
        )
        self.outer = condition_expression(step.get("if"))
        note_written(self.inner, step)
        self.tolerant = step.get("continue-on-error") not in (None, False)
        self.has_id = isinstance(step.get("id"), str)
        # where each step needs no more than the outer condition, no step is added
        self.gated = (
            self.tolerant
            or self.has_id
            or any(names_status(condition_expression(one.get("if"))) for one in self.inner)
            or self.outer is not None
            and not reads_only(self.outer, STABLE)
        )
        base = step["id"] if self.has_id else "action"
        self.ids = [free_name(f"{base}__{one.get('id') or at}", taken) for at, one in enumerate(self.inner)]
        self.begin = free_name(f"{base}__begin", taken)
        self.began = f"steps.{self.begin}.outcome == 'success'"
        self.tolerated = [one.get("continue-on-error") for one in self.inner]
        folder = step["uses"][2:].strip("/")
        local = lowering.workspace + ("" if folder in ("", ".") else "/" + folder)
        self.path = source.place if source.reference else local
        # a step with this variable fails where actions/checkout did not bring the action
        self.checked = {} if source.reference else {"ACTRUN_NEEDS": self.path}
        self.more = {"GITHUB_ACTION_PATH": self.path}
        if source.reference:
            self.more.update(GITHUB_ACTION_REPOSITORY=f"{source.reference.owner}/{source.reference.name}",
                             GITHUB_ACTION_REF=source.reference.ref)
        named = {
            one["id"]: f"steps.{new}"
            for one, new in zip(self.inner, self.ids)
            if isinstance(one.get("id"), str)
        }
        check_inputs(lowering, self.mark, step["uses"], part(action, "inputs"), part(step, "with"))
        inputs = input_expressions(part(action, "inputs"), part(step, "with"))
        size = sum(map(len, inputs.values()))
        around.count_text(lowering, self.mark, text_of([self.inner, self.outputs]), size)
        of_action = {name[len("GITHUB_"):].lower(): literal(value) for name, value in self.more.items()}
        self.rules = Rules({"inputs": input_rule(inputs), "steps": known_keys(named),
                            "github": known_keys(of_action), "secrets": self.no_secrets})
        self.lowering = lowering
        # a condition reads no secrets, so an input with one comes by a variable
        self.secret = {
            "INPUT_" + name.upper().replace(" ", "_"): (name, value)
            for name, value in inputs.items()
            if any(it.context == "secrets" or it.keys[:1] == ("token",) for it in references(value)[0])
        }
        shown_inputs = {
            **inputs,
            **{name: f"env['{variable}']" for variable, (name, _) in self.secret.items()},
        }
        self.condition_rules = Rules({**self.rules.contexts, "inputs": input_rule(shown_inputs)})
        what = f"{step['uses']} ({source.says})" if source.reference else step["uses"]
        lowering.note(
            self.mark, f"the composite action {what} is inlined: {len(self.inner)} steps take its place"
        )

    def steps(self, has_directory: bool) -> List[Any]:
        """The steps of the action as steps of the job, between one that opens and one that closes the action
        where they are needed."""
        title = str(self.step.get("name") or self.step["uses"])
        shared = {
            "shell": "bash",
            **({"continue-on-error": self.step["continue-on-error"]} if self.tolerant else {}),
        }
        outer = {} if self.outer is None else {"if": self.outer}
        made = (
            [
                Map(
                    {
                        "id": self.begin,
                        "name": title,
                        "run": ":\n",
                        "env": {**self.checked},
                        **shared,
                        **outer,
                    },
                    self.mark,
                )
            ]
            if self.gated
            else []
        )
        made += [self.adopted(at, has_directory) for at in range(len(self.inner))]
        made += (
            [self.closing({"id": self.step["id"], "name": f"outputs of {title}", **shared})]
            if self.has_id
            else []
        )
        for one in made:
            one.known_as, one.user = self.step.known_as, self.step
        return made

    def no_secrets(self, _: Any) -> Any:
        """The rule for secrets in an action, which GitHub gives none."""
        raise self.lowering.refuse(self.mark, f"the action {self.step['uses']} reads `secrets`, which no "
                                              "action can: pass what it needs by `with`")

    def failed(self, before: int) -> str:
        """The expression that holds where a step of the action before a place has failed."""
        found = [f"steps.{new}.{'conclusion' if has_expression(tolerated) else 'outcome'} == 'failure'"
                 for tolerated, new in zip(self.tolerated[:before], self.ids) if tolerated is not True]
        return "(" + (" || ".join(found) or "false") + ")"

    def adopted(self, at: int, has_directory: bool) -> Any:
        """A step of the action as a step of the job."""
        step = self.inner[at]
        own = step.pop("if", None)
        own = condition_expression(
            rewrite_condition(own, self.condition_rules) if isinstance(own, str) else own
        )
        rewrite_texts(step, self.rules)
        condition = (
            inner_condition(own, self.began, "!" + self.failed(at), self.failed(at))
            if self.gated
            else conjunction(self.outer, own)
        )
        if condition is not None:
            step["if"] = condition
        if "id" in step or self.gated:
            step["id"] = self.ids[at]
        if isinstance(step.get("env") or {}, dict):
            secret = {
                variable: "${{ " + value + " }}"
                for variable, (_, value) in self.secret.items()
                if f"'{variable}'" in (own or "")
            }
            step["env"] = {
                **part(self.step, "env"),
                **part(step, "env"),
                **secret,
                **self.more,
                **({} if self.gated else self.checked),
            }
        for key in ("timeout-minutes", "continue-on-error"):
            if is_set(self.step.get(key)) and (key == "continue-on-error" or not is_set(step.get(key))):
                step[key] = self.step[key]
        if "run" in step and has_directory:
            step.setdefault("working-directory", ".")
        return step

    def closing(self, parts: Dict[str, Any]) -> Any:
        """A step that has the id, the outputs and the outcome of the outer step."""
        made = Map(
            {**parts, "if": f"always() && steps.{self.begin}.outcome != 'skipped'", "run": ""}, self.mark
        )
        for at, name in enumerate(self.outputs):
            set_variable(
                made,
                f"ACTRUN_OUTPUT_{at}",
                rewrite_template(str(part(self.outputs, name).get("value") or ""), self.rules),
            )
            made["run"] += f"printf '%s<<ACTRUN_END\\n%s\\nACTRUN_END\\n' {shlex.quote(name)} \"$ACTRUN_OUTPUT_{at}\" >> \"$GITHUB_OUTPUT\"\n"
        set_variable(
            made,
            "ACTRUN_FAILED",
            f"${{{{ steps.{self.begin}.outcome == 'failure' || {self.failed(len(self.inner))} }}}}",
        )
        made["run"] += '[ "$ACTRUN_FAILED" != true ]\n'
        return made


def called_file(lowering: Lowering, uses: str, above: Tuple[File, ...]) -> File | None:
    """The file of a called workflow; None if there is none. `./` begins at the repository of the caller."""
    if uses.startswith("./"):
        path, top = uses[2:], above[-1].top if above else lowering.setting.repository
        name = above[-1].name.replace(above[-1].path, path) if above else path
        return File(top, path, name) if ".." not in path.split("/") and (top / path).is_file() else None
    source = lowering.setting.actions.source(uses) if lowering.setting.actions else Source("")
    if source.folder is None or source.reference is None or not source.folder.is_file():
        return None
    return File(source.top, source.reference.path, uses)


def inline_calls(lowering: Lowering, flow: Any, above: Tuple[File, ...] = ()) -> None:
    """Puts the jobs of called workflows in place of the calls. `above` are the workflows that lead to this
    one."""
    match_needs(flow["jobs"])
    jobs, taken = flow["jobs"], set(flow["jobs"])
    calls = {
        job_id: job["uses"] for job_id, job in jobs.items() if isinstance(part(jobs, job_id).get("uses"), str)
    }
    if not calls and not above:
        return
    push_down(flow)
    see_calls(
        lowering,
        jobs,
        {
            name
            for name, uses in calls.items()
            if may_skip(lowering, uses, above, mark_of(jobs[name], "uses"))
        },
    )
    flow["jobs"] = Map(mark=jobs.mark)
    flow["jobs"].marks = dict(jobs.marks)
    for job_id, job in jobs.items():
        file = called_file(lowering, calls[job_id], above) if job_id in calls else None
        if job_id not in calls:
            flow["jobs"][job_id] = job
        elif file:
            made = called(lowering, job_id, job, file, above, taken)
            flow["jobs"].update(made)
            flow["jobs"].marks.update(dict.fromkeys(made, mark_of(jobs, job_id)))
        else:
            flow["jobs"][job_id] = distant(lowering, job_id, job, jobs)
        if job_id in calls and is_set(job.get("concurrency")):
            lowering.note(
                mark_of(job, "concurrency"),
                f"concurrency of job {job_id}, which calls a workflow, is dropped",
            )


def may_skip(lowering: Lowering, uses: str, above: Tuple[File, ...], mark: Mark) -> bool:
    """Whether a job of a called workflow has a condition."""
    file = called_file(lowering, uses, above)
    if not file or len(above) + 2 > MOST_LEVELS:
        return False
    jobs = part(read_part(lowering, file, "the called workflow", mark), "jobs")
    inner = [part(jobs, name) for name in jobs]
    return any(
        is_set(job.get("if"))
        or isinstance(job.get("uses"), str)
        and may_skip(lowering, job["uses"], (*above, file), mark)
        for job in inner
    )


def see_calls(lowering: Lowering, jobs: Any, calls: Set[str]) -> None:
    """Has success() of the jobs behind some calls look at the results of calls: one succeeds though a job of
    its workflow was skipped, which the program's success() would see."""
    needs = {name: [one for one in texts(part(jobs, name).get("needs")) if one in jobs] for name in jobs}
    own = {name: condition_expression(part(jobs, name).get("if")) for name in jobs}
    for name, job in jobs.items():
        above = list(needs[name])
        for one in above:
            above += [need for need in needs[one] if need not in above]
        condition = own[name]
        if (
            not calls.intersection(above)
            or names_status(condition)
            and "success" not in references(condition or "")[1]
        ):
            continue
        # (where all between succeed because those before them did, the direct ones say enough)
        seen = above if any(names_status(own[one]) for one in above) else needs[name]
        success = " && ".join(f"needs.{one}.result == 'success'" for one in seen)
        if names_status(condition):
            condition = rewrite(condition or "", Rules({}, {"success": lambda _: f"({success})"}))
        else:
            condition = conjunction(success, condition)
        job["needs"], job["if"] = list(seen), f"!cancelled() && ({condition})"
        lowering.behind_calls.add(mark_of(job))


def push_down(flow: Any) -> None:
    """Moves the variables and defaults of a workflow into its own jobs, since called workflows do not see
    them."""
    outer = {key: flow.pop(key) for key in ("env", "defaults") if isinstance(flow.get(key), dict)}
    for job in flow["jobs"].values():
        if isinstance(job, dict) and "uses" not in job:
            job.update((key, inherited(value, job.get(key))) for key, value in outer.items())


def inherited(outer: Any, inner: Any) -> Any:
    """A value over an outer one: of two maps the members of both."""
    if not isinstance(outer, Map) or not isinstance(inner, Map):
        return copied(outer) if inner is None else inner
    maps = {
        key: inherited(value, inner[key])
        for key, value in outer.items()
        if isinstance(value, Map) and key in inner
    }
    made = Map({**copied(outer), **inner, **maps}, inner.mark)
    made.marks = {**outer.marks, **inner.marks}
    return made


def distant(lowering: Lowering, job_id: str, job: Any, jobs: Any) -> Any:
    """The job with one step that replaces a workflow of another repository, and with the outputs that others
    read of it."""
    mark = mark_of(job, "uses")
    where = "is not in this repository" if job["uses"].startswith("./") else "belongs to another repository"
    source = lowering.setting.actions.source(job["uses"]) if lowering.setting.actions else Source("")
    where += f" ({source.says})" if source.says else ""
    ends = "" if source.says.startswith("fetched") else " and needs a program (--stub)"
    lowering.note(
        mark, f"the called workflow {shown(job['uses'])} {where}: one step with `uses` takes its place{ends}"
    )
    read = re.findall(
        rf"needs\s*\.\s*{re.escape(job_id)}\s*\.\s*outputs\s*\.\s*([A-Za-z_][A-Za-z0-9_-]*)", text_of(jobs)
    )
    made = Map(
        {key: value for key, value in job.items() if key in ("name", "needs", "if", "strategy")}, job.mark
    )
    made.marks = dict(job.marks)
    made["steps"] = Sequence(
        [Map({"id": "call", "uses": job["uses"], "with": part(job, "with")}, mark)], mark
    )
    made["outputs"] = {name: "${{ steps.call.outputs." + name + " }}" for name in sorted(set(read))}
    return made


def called(lowering: Lowering, job_id: str, job: Any, file: File, above: Tuple[File, ...],
           taken: Set[str]) -> Dict[str, Any]:
    """The jobs that take the place of a call, for each combination of its matrix. The last has the caller's
    id, its outputs and its result."""
    path = file.name
    made: Dict[str, Any] = {}
    outputs: Dict[str, List[str]] = {}
    ids: List[str] = []
    mark, title, path = mark_of(job, "uses"), str(job.get("name") or job_id), file.name
    lower_strategy(lowering, job_id, job, not above)
    if "steps" in job:  # (its strategy has no value)
        del job["uses"]
        return {job_id: job}
    names = order_legs(lowering, job)
    matrix = part(job, "strategy").get("matrix")
    if matrix:
        lowering.note(
            mark_of(job, "strategy"),
            f"the matrix of job {job_id} calls {path} once for each combination, side by side: "
            "fail-fast and max-parallel do not hold between the calls",
        )
    try:
        legs = sorted_legs(lowering.combinations(matrix), names) if matrix else [{}]
    except EvaluationError as fault:
        raise lowering.refuse(
            mark_of(job, "strategy"), f"the matrix of job {job_id} has no combinations: {fault}"
        ) from None
    for at, leg in enumerate(legs):
        one = copied(job)
        one["name"] = f"{title} ({', '.join(shown(value) for value in leg.values())})" if leg else title
        rewrite_texts(
            one,
            Rules(
                {
                    "matrix": known_keys(
                        {key: literal(value) for key, value in leg.items()}, "null", literal(leg)
                    )
                }
                if leg
                else {}
            ),
        )
        call = Call(lowering, job_id, one, file, above, taken, f"_{at + 1}" if len(legs) > 1 else "")
        made.update(call.jobs())
        ids += call.ids.values()
        rules, declared = Rules({**call.rules.contexts, "jobs": call.rules.contexts["needs"]}), part(
            call.declared, "outputs"
        )
        for name in declared:
            outputs.setdefault(name, []).insert(
                0, f"({rewrite(expression_of(part(declared, name).get('value')), rules)})"
            )
    lowering.note(mark, f"the called workflow {path} is inlined: {', '.join(ids)}")
    bad = " || ".join(
        f"needs.{name}.result == '{state}'" for name in ids for state in ("failure", "cancelled")
    )
    step = Map({"name": f"a job of {path} did not succeed", "if": bad, "run": "exit 1", "shell": "sh"}, mark)
    made[job_id] = Map(
        {
            "name": title,
            "needs": ids,
            "steps": Sequence([step], mark),
            "if": "!cancelled() && ("
            + " || ".join(f"needs.{name}.result != 'skipped'" for name in ids)
            + ")",
            "outputs": {name: "${{ " + " || ".join(parts) + " }}" for name, parts in outputs.items()},
        },
        mark,
    )
    made[job_id].user = job
    return made


class Call:
    """One call of a workflow by a job without a matrix."""

    def __init__(
        self,
        lowering: Lowering,
        job_id: str,
        job: Any,
        file: File,
        above: Tuple[File, ...],
        taken: Set[str],
        suffix: str,
    ):
        self.lowering, self.id, self.job, self.mark = lowering, job_id, job, mark_of(job, "uses")
        self.path = path = file.name
        if len(above) + 2 > MOST_LEVELS:
            names = " > ".join([*(one.name for one in above), path])
            raise lowering.refuse(
                self.mark, f"called workflows nest deeper than {MOST_LEVELS} levels here: {names}"
            )
        flow = read_part(lowering, file, "the called workflow", self.mark)
        if not part(flow, "jobs"):
            raise lowering.refuse(self.mark, f"the called workflow {path} has no jobs")
        if "workflow_call" not in [*texts(flow.get("on")), *part(flow, "on")]:
            raise lowering.refuse(
                self.mark,
                f"the called workflow {path} cannot be called: write `workflow_call` under its `on`",
            )
        if is_set(flow.get("concurrency")):
            lowering.note(mark_of(flow, "concurrency"), "concurrency of a called workflow is dropped")
        lowering.count(self.mark, len(flow["jobs"]))
        inline_calls(lowering, flow, (*above, file))
        self.inner = flow["jobs"]
        self.ids = {old: free_name(f"{job_id}__{old}{suffix}", taken) for old in self.inner}
        self.needs, self.condition = texts(job.get("needs")), condition_expression(job.get("if"))
        self.gate = (
            free_name(f"{job_id}__call{suffix}", taken) if self.needs or self.condition is not None else ""
        )
        self.declared = part(part(flow, "on"), "workflow_call")
        inputs = self.inputs()
        secrets = {name.lower(): expression_of(value) for name, value in part(job, "secrets").items()}
        self.read = sorted(
            {
                it.keys[0]
                for text in [*inputs.values(), *secrets.values()]
                for it in references(text)[0]
                if it.context == "needs" and it.keys and it.keys[0] in self.needs
            }
        )
        self.rules = Rules(
            {
                "inputs": input_rule(inputs),
                "needs": known_keys({old: f"needs.{new}" for old, new in self.ids.items()}),
            }
        )
        if job.get("secrets") != "inherit":
            self.check_secrets()
            secrets["github_token"] = "secrets.GITHUB_TOKEN"
            self.rules.contexts["secrets"] = known_keys(
                {name: grouped(value) for name, value in secrets.items()}, "''", whole_of(secrets)
            )

    def inputs(self) -> Dict[str, str]:
        """The expression of each input that is declared."""
        declared, given = part(self.declared, "inputs"), part(self.job, "with")
        names = {name.lower() for name in declared}
        for name in sorted({name.lower() for name in given} - names):
            self.differs(mark_of(self.job, "with"), f"{self.path} declares no input {name}",
                         "it is ignored")
        kinds = {name.lower(): str(part(declared, name).get("type")) for name in declared}
        for name, value in given.items():
            kind = kinds.get(name.lower(), "")
            if not fits_type(value, kind):
                self.differs(mark_of(given, name),
                             f"the input {name} of {self.path} is a {kind}, not {shown(value)}", "it is used")
        for name in declared:
            one = part(declared, name)
            if (
                one.get("required") is True
                and one.get("default") is None
                and name.lower() not in {key.lower() for key in given}
            ):
                raise self.lowering.refuse(
                    self.mark,
                    f"{self.path} requires the input {name.lower()}: give it under `with` of job {self.id}",
                )
        return {name: value for name, value in input_expressions(declared, given).items() if name in names}

    def differs(self, mark: Mark, text: str, here: str) -> None:
        """Refuses what GitHub refuses, or notes how it goes on here."""
        if self.lowering.setting.strict:
            raise self.lowering.refuse(mark, text)
        self.lowering.note(mark, f"{text}: {here}")

    def check_secrets(self) -> None:
        """Compares the secrets that are given with those that are declared."""
        declared, given = part(self.declared, "secrets"), {name.lower() for name in part(self.job, "secrets")}
        mark = mark_of(self.job, "secrets")
        for name in sorted(given - {name.lower() for name in declared}):
            self.differs(mark, f"{self.path} declares no secret {name}", "it is passed over")
        for name in declared:
            if part(declared, name).get("required") is True and name.lower() not in given:
                self.differs(self.mark, f"{self.path} requires the secret {name}: give it under `secrets` of "
                                        f"job {self.id}", "it is empty")

    def jobs(self) -> Dict[str, Any]:
        """The jobs of the called workflow as jobs of the caller. Where the call has needs or a condition, a
        job without steps comes first that has them, and is skipped where the call is."""
        made = {}
        if self.gate:
            made[self.gate] = gate = Map(
                {"name": f"{self.job['name']} (condition)", "needs": self.needs, "steps": Sequence()},
                self.mark,
            )
            gate.user = self.job
            if self.condition is not None:
                gate["if"], gate.marks["if"] = self.condition, mark_of(self.job, "if")
        for old, job in self.inner.items():
            made[self.ids[old]] = job
            if isinstance(job, dict):
                self.adopt(old, job)
        return made

    def adopt(self, old: str, job: Any) -> None:
        """Makes a job of the called workflow one of the caller's."""
        note_written([job], self.job)
        job.inside = old
        for node in [job, *steps_of(job)]:
            rewrite_texts(node, self.rules)
        job["name"], job.known_as = f"{self.job['name']} / {job.get('name') or old}", job.known_as or old
        needs, began = [
            self.ids.get(one, one) for one in texts(job.get("needs"))
        ], f"needs.{self.gate}.result == 'success'"
        condition = condition_expression(job.get("if"))
        if self.gate and names_status(self.condition):
            why = (
                "is behind a call"
                if mark_of(self.job) in self.lowering.behind_calls
                else "has a condition that names a status"
            )
            self.lowering.note(
                self.mark,
                f"job {self.id} {why}: in {self.path} success() and failure() look at direct needs only",
            )
            success, failure = (
                joint.join(f"needs.{one}.result == '{state}'" for one in needs) or empty
                for state, joint, empty in (("success", " && ", "true"), ("failure", " || ", "false"))
            )
            condition = inner_condition(condition, began, f"({success})", f"({failure})")
        elif self.gate and names_status(condition):
            condition = f"{began} && ({condition})"
        if condition is not None:
            job["if"] = condition
        whole, first = text_of(job), [self.gate] if self.gate and not needs else []
        job["needs"] = list(
            dict.fromkeys(
                [
                    *needs,
                    *first,
                    *(one for one in [self.gate, *self.read] if one and f"needs.{one}." in whole),
                ]
            )
        )
