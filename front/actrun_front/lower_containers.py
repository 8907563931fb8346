"""`container` and `services` of a job: they become one variable, so that the program evaluates their texts
for each leg."""
from __future__ import annotations

import hashlib
import json
import re
import socket
from pathlib import Path
from typing import Any, Dict, List, Tuple

from . import files
from .expressions import (Access, EvaluationError, Replacement, Rules, as_text, expression_of, grouped,
                          has_expression, known_keys)
from .lower_inline import whole_of
from .lower_javascript import check_defaults
from .lower_tree import Lowering, is_set, part, rewrite_texts, set_variable, steps_of, texts
from .yaml_reader import copied, mark_of, read_document, text_of

VARIABLE, DOCKER = "ACTRUN_MACHINE", "ACTRUN_DOCKER"  # of a job, and of a step that uses a Docker action
MOST_OF_ACTION = 1024 ** 2
KEYS = ("image", "env", "options", "credentials", "volumes", "ports")


def template(value: Any) -> str:
    """A JSON text whose templates are evaluated by the program: each text with one becomes a call of
    toJSON."""
    if isinstance(value, dict):
        return "{" + ", ".join(f"{json.dumps(str(key))}: {template(one)}" for key, one in value.items()) + "}"
    if isinstance(value, list):
        return "[" + ", ".join(map(template, value)) + "]"
    if isinstance(value, str) and has_expression(value):
        return "${{ toJSON(" + expression_of(value) + ") }}"
    return json.dumps(value if isinstance(value, str) else text_of(value))


def described(lowering: Lowering, node: Any, key: str, what: str) -> Dict[str, Any]:
    """What a `container` or a service says. Raises Refused if it cannot be that."""
    value = node.get(key)
    value = {"image": value} if isinstance(value, str) else value
    if not isinstance(value, dict) or not isinstance(value.get("image"), str):
        raise lowering.refuse(mark_of(node, key), f"{what} has no image: write `image: debian:12`")
    wrong = next((name for name in value if name not in KEYS), None)
    if wrong is not None:
        raise lowering.refuse(mark_of(value, wrong),
                              f"{what} has the key {wrong}: known are {', '.join(KEYS)}")
    return {name: one for name, one in value.items() if is_set(one)}


def free_ports(count: int) -> List[str]:
    """Ports of this machine that nothing uses."""
    sockets = [socket.create_server(("127.0.0.1", 0)) for _ in range(count)]
    found = [str(one.getsockname()[1]) for one in sockets]
    for one in sockets:
        one.close()
    return found


def common_name(lowering: Lowering, job_id: str) -> str:
    """What the network of a leg is called, a text with an expression; names of its containers begin so."""
    github = part(lowering.contexts, "github")
    text = f"{github.get('run_id')} {github.get('workflow_ref')} {job_id}"
    return f"actrun-{hashlib.sha256(text.encode()).hexdigest()[:12]}-${{{{ strategy.job-index }}}}"


def legs_of(lowering: Lowering, job: Any) -> int:
    """How many legs a job has, or 1 if that is not known yet."""
    matrix = part(part(job, "strategy"), "matrix")
    try:
        return len(lowering.combinations(matrix)) if matrix and not has_expression(text_of(matrix)) else 1
    except EvaluationError:
        return 1


def lower_containers(lowering: Lowering, job_id: str, job: Any) -> None:
    """Moves `container` and `services` of a job into a variable, and writes the ports of services into its
    texts."""
    given = [key for key in ("container", "services") if key in job]
    if lowering.setting.containers != "keep" or not any(is_set(job[key]) for key in given):
        return drop(lowering, job_id, job, given)
    machine: Dict[str, Any] = {"name": common_name(lowering, job_id), "services": {}}
    if is_set(job.get("container")):
        machine["container"] = described(lowering, job, "container", f"container of job {job_id}")
    ports: Dict[str, Dict[str, str]] = {}
    legs = legs_of(lowering, job)
    for name in part(job, "services"):
        what = f"service {name} of job {job_id}"
        if not re.fullmatch(r"[A-Za-z_][\w-]*", name):
            raise lowering.refuse(mark_of(job["services"], name),
                                  f"{what}: a name has only letters, digits, `-` and `_`")
        service = described(lowering, job["services"], name, what)
        mapped = service.get("ports")
        inner: List[Any] = as_list(mapped)
        if "container" not in machine:
            inner = [chosen(port, legs) for port in inner]
        service["ports"] = inner
        ports[name.lower()] = dict(map(inner_and_outer, map(text_of_port, service["ports"])))
        fixed = [
            text for text in map(text_of_port, as_list(mapped)) if ":" in text and not has_expression(text)
        ]
        if fixed and "container" not in machine and "matrix" in part(job, "strategy"):
            lowering.note(
                mark_of(service, "ports"),
                f"{what}: legs share the ports of this machine, so they execute one "
                f"after the other where these name the same: {', '.join(fixed)}",
            )
        machine["services"][name] = service
    rules = Rules()
    rules.contexts["job"] = job_rule(machine, ports)
    for node in [job, *steps_of(job)]:
        rewrite_texts(node, rules)
    set_variable(job, VARIABLE, template(machine))
    for key in ("container", "services"):
        job.pop(key, None)


def lower_docker_actions(lowering: Lowering, job_id: str, job: Any) -> None:
    """Makes each step of a job that uses an image or a Docker action one that the engine executes."""
    if lowering.setting.containers != "keep":
        return
    for step in steps_of(job):
        uses = step.get("uses")
        if isinstance(uses, str) and uses.startswith("docker://"):
            docker_step(lowering, job_id, job, step, {"runs": {"image": uses}}, {})
        elif isinstance(uses, str) and uses.startswith("./") and ".." not in uses.split("/"):
            found = read_document(action_text(lowering.setting.repository, uses)).value
            if str(part(found, "runs").get("using")).lower() == "docker":
                docker_step(lowering, job_id, job, step, found, {"folder": uses})
        elif isinstance(uses, str) and uses in lowering.dockers:
            source = lowering.dockers[uses].source
            folder = lowering.setting.actions.below(source)
            set_variable(
                step, "GITHUB_ACTION_REPOSITORY", f"{source.reference.owner}/{source.reference.name}"
            )
            set_variable(step, "GITHUB_ACTION_REF", source.reference.ref)
            docker_step(lowering, job_id, job, step, lowering.dockers[uses].value,
                        {"folder": folder, "fetched": "1"})


def action_text(repository: Path, uses: str) -> bytes:
    """The text of the action of the repository in a folder, if it can be read."""
    for name in ("action.yml", "action.yaml"):
        try:
            return files.read_inside(repository, repository / uses[2:] / name, MOST_OF_ACTION)
        except OSError:
            continue
    return b""


def needs_engine(jobs: Any, repository: Path) -> bool:
    """Whether one of the jobs may need an engine."""
    for job in filter(lambda job: isinstance(job, dict), jobs.values()):
        uses = [str(step.get("uses")) for step in steps_of(job)]
        if any(is_set(job.get(key)) for key in ("container", "services")) or any(
                name.startswith("docker://") or name.startswith("./")
                and b"docker" in action_text(repository, name) for name in uses):
            return True
    return False


def docker_step(lowering: Lowering, job_id: str, job: Any, step: Any, action: Any,
                place: Dict[str, str]) -> None:
    """Makes a step that uses a Docker action one that the engine executes. `place` says where its Dockerfile
    is: `folder` is one of the tree or, with `fetched`, of the actions that were fetched."""
    mark = mark_of(step, "uses")
    uses, given, inputs = step.pop("uses"), part(step, "with"), {}
    runs, declared = part(action, "runs"), part(action, "inputs")
    step.pop("with", None)
    check_defaults(lowering, mark, uses, declared)

    def no_secrets(_: Access) -> Replacement:
        raise lowering.refuse(mark, f"the action {uses} reads `secrets`, which no action can: "
                                    "pass what it needs by `with`")
    for name, value in {**{name: part(declared, name).get("default") for name in declared}, **given}.items():
        inputs[name.lower()] = "" if value is None else value
    rules = Rules({"inputs": known_keys({name: grouped(as_text(expression_of(value))) for name,
                                         value in inputs.items()}, "''"), "secrets": no_secrets})
    phase = part(step, "env").get("ACTRUN_PHASE", "main")
    spec = {key: copied(runs[key]) for key in ("image", "entrypoint", "args", "env") if is_set(runs.get(key))}
    if phase != "main":
        spec["entrypoint"] = runs[f"{phase}-entrypoint"]
        inputs.pop("entrypoint", None)
    rewrite_texts(spec, rules)
    spec.update(place)
    for name, value in inputs.items():
        set_variable(step, "INPUT_" + name.replace(" ", "_").upper(), value)
    if VARIABLE not in part(job, "env"):
        set_variable(job, VARIABLE, template({"name": common_name(lowering, job_id), "services": {}}))
    set_variable(step, DOCKER, template(spec))
    step.update(run=":", shell="sh", name=step.get("name") or f"Run {uses}")
    says = f" ({lowering.dockers[uses].source.says})" if uses in lowering.dockers else ""
    lowering.note(mark, f"the Docker action {uses}{says} is executed by the engine for containers")


def drop(lowering: Lowering, job_id: str, job: Any, given: List[str]) -> None:
    """Takes `container` and `services` out of a job, with a note. Raises Refused if that may not be."""
    how = lowering.setting.containers
    for key in given:
        if how not in ("drop", "keep") and is_set(job[key]):
            raise lowering.refuse(mark_of(job, key), f"{key} of job {job_id} {how}")
        lowering.note(mark_of(job, key),
                      f"{key} of job {job_id} is dropped: its steps are executed on this machine, without it")
        if is_set(job[key]):
            lowering.without[job_id] = " and ".join(filter(None, (lowering.without.get(job_id), key)))
        del job[key]


def inner_and_outer(port: str) -> Tuple[str, str]:
    """The port of a container, and an expression of the port of this machine that is mapped to it."""
    outer, _, inner = port.partition("/")[0].rpartition(":")
    return inner, expression_of(outer or inner)


def as_list(value: Any) -> List[Any]:
    """The entries of a list."""
    return list(value) if isinstance(value, list) else texts(value)


def text_of_port(port: Any) -> str:
    """A port as a text."""
    return port if isinstance(port, str) else text_of(port)


def chosen(port: Any, legs: int) -> str:
    """A port with that of this machine; where none is written, one that is free, another for each leg."""
    text = text_of_port(port)
    if ":" in text or has_expression(text):
        return text
    free = free_ports(legs)
    outer = free[0] if legs == 1 else "${{ fromJSON('" + json.dumps(free) + "')[strategy.job-index] }}"
    return f"{outer}:{text}"


def job_rule(machine: Dict[str, Any], ports: Dict[str, Dict[str, str]]) -> Any:
    """The rule for `job.services.NAME.ports[PORT]`, and for ids and networks. The id of a container is its
    name, which engines take as well."""
    names: Dict[Tuple[str, ...], str] = {("container",): "job"} if "container" in machine else {}
    names.update((("services", name.lower()), name) for name in machine["services"])

    def rule(access: Access) -> Replacement:
        keys = access.keys
        of, last = tuple(key.lower() for key in keys[:-1]), keys[-1] if keys else ""
        if last in ("id", "network") and of in names:
            more = f".{names[of]}" if last == "id" else ""
            return grouped(expression_of(machine["name"] + more)), len(keys)
        if len(keys) == 3 and keys[0] == "services" and last == "ports":  # (a number is the index)
            known = ports.get(keys[1].lower(), {})
            return whole_of(known) if known else "fromJSON('{}')", 3
        known = ports.get(keys[1].lower(), {}) if len(keys) >= 4 else {}
        if known and keys[0] == "services" and keys[2] == "ports" and keys[3] in known:
            return grouped(known[keys[3]]), 4
        return None
    return rule
