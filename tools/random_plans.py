"""The plans of random_records.py, and what their texts mean.

A text that is evaluated is one of a few, each next to what it means: a function of the contexts, which a place that
does not see one has as empty maps.
"""
import json


class Fault(Exception):
    """A text has no value."""


def compact(value):
    return json.dumps(value, sort_keys=True, separators=(",", ":"), ensure_ascii=False)


def pretty(value):
    """The text of `toJSON`."""
    return json.dumps(value, sort_keys=True, indent=2, ensure_ascii=False)


def text_of(value):
    """The text of a value."""
    if value is None:
        return ""
    if isinstance(value, bool):
        return "true" if value else "false"
    if isinstance(value, (list, dict)):
        return "Array" if isinstance(value, list) else "Object"
    return str(value)


def of(contexts, *names):
    """What is in the contexts under names, or null."""
    found = contexts
    for name in names:
        found = found.get(name) if isinstance(found, dict) else None
    return found


def fault(_):
    raise Fault


def path(*names):
    return lambda it: of(it, *names)


def joined(*parts):
    return lambda it: "".join(part if isinstance(part, str) else text_of(part(it)) for part in parts)


def shown(name):
    return lambda it: pretty(it.get(name, {}))


def same(wanted, *names):
    return lambda it: of(it, *names) == wanted


# templates: what is in env, outputs, texts of calls, names of groups
TEXTS = {
    "x": lambda _: "x",
    "": lambda _: "",
    "${{ github.ref }}": path("github", "ref"),
    "${{ vars.A }}": path("vars", "A"),
    "${{ secrets.S }}": path("secrets", "S"),
    "${{ matrix.m }}": path("matrix", "m"),
    "${{ env.E }}": path("env", "E"),
    "${{ needs.a.outputs.o }}": path("needs", "a", "outputs", "o"),
    "${{ needs.a.result }}": path("needs", "a", "result"),
    "${{ steps.s0.outputs.o }}": path("steps", "s0", "outputs", "o"),
    "<${{ steps.s0.outcome }}-${{ steps.s0.conclusion }}>": joined("<", path("steps", "s0", "outcome"), "-", path("steps", "s0", "conclusion"), ">"),
    "${{ job.status }}": path("job", "status"),
    "${{ github.event_name }}/${{ github.workflow }}": joined(path("github", "event_name"), "/", path("github", "workflow")),
    "${{ toJSON(github) }}": shown("github"),
    "${{ toJSON(needs) }}": shown("needs"),
    "${{ toJSON(steps) }}": shown("steps"),
    "${{ toJSON(strategy) }}": shown("strategy"),
    "${{ toJSON(matrix) }}": shown("matrix"),
    "${{ toJSON(env) }}": shown("env"),
    "${{ toJSON(secrets) }}": shown("secrets"),
    "${{ toJSON(job) }}": shown("job"),
    "${{ fromJSON('[1]') }}": lambda _: [1],
    "${{ fromJSON('{}') }}": lambda _: {},
    "${{ fromJSON(vars.BAD) }}": fault,
    "ok ${{ fromJSON(vars.BAD) }}": fault,
}
NAMES = {
    "g": lambda _: "g",
    "G": lambda _: "G",
    "h": lambda _: "h",
    "h-${{ matrix.m }}": joined("h-", path("matrix", "m")),
    "${{ github.ref }}": path("github", "ref"),
    "${{ vars.NONE }}": path("vars", "NONE"),
    "${{ needs.a.result }}": path("needs", "a", "result"),
    "${{ fromJSON('[1]') }}": lambda _: [1],
    "${{ fromJSON(vars.BAD) }}": fault,
}
FLAGS = {
    "true": lambda _: "true",
    "TRUE": lambda _: "TRUE",
    "no": lambda _: "no",
    "${{ true }}": lambda _: True,
    "x${{ true }}": lambda _: "xtrue",
    "${{ vars.A == 'yes' }}": same("yes", "vars", "A"),
    "${{ matrix.m == 1 }}": same(1, "matrix", "m"),
    "${{ env.E == 'x' }}": same("x", "env", "E"),
    "${{ job.status == 'failure' }}": same("failure", "job", "status"),
    "${{ job.status == 'cancelled' }}": same("cancelled", "job", "status"),
    "${{ secrets.S == 's' }}": same("s", "secrets", "S"),
    "${{ needs.a.result == 'success' }}": same("success", "needs", "a", "result"),
    "${{ steps.s0.outcome == 'failure' }}": same("failure", "steps", "s0", "outcome"),
    "${{ fromJSON(vars.BAD) }}": fault,
}
# conditions: whether a status function is named, and the value by the contexts and the status
CONDITIONS = {
    "always()": (True, lambda it, status: True),
    "failure()": (True, lambda it, status: status == "failure"),
    "cancelled()": (True, lambda it, status: status == "cancelled"),
    "success()": (True, lambda it, status: status == "success"),
    "!cancelled()": (True, lambda it, status: status != "cancelled"),
    "success() || failure()": (True, lambda it, status: status in ("success", "failure")),
    "${{ failure() || cancelled() }}": (True, lambda it, status: status in ("failure", "cancelled")),
    "false ${{ success() }}": (True, lambda it, status: True),
    "true": (False, lambda it, status: True),
    "false": (False, lambda it, status: False),
    "vars.A == 'yes'": (False, lambda it, status: of(it, "vars", "A") == "yes"),
    "github.ref == 'MAIN'": (False, lambda it, status: of(it, "github", "ref") == "main"),
    "matrix.m == 1": (False, lambda it, status: of(it, "matrix", "m") == 1),
    "env.E == 'x'": (False, lambda it, status: of(it, "env", "E") == "x"),
    "secrets.S == 's'": (False, lambda it, status: of(it, "secrets", "S") == "s"),
    "needs.a.result == 'success'": (False, lambda it, status: of(it, "needs", "a", "result") == "success"),
    "always() && needs.a.result == 'failure'": (True, lambda it, status: of(it, "needs", "a", "result") == "failure"),
    "always() && needs.a.outputs.o == 'x'": (True, lambda it, status: of(it, "needs", "a", "outputs", "o") == "x"),
    "always() && steps.s0.outcome == 'failure'": (True, lambda it, status: of(it, "steps", "s0", "outcome") == "failure"),
    "always() && steps.s0.conclusion == 'success'": (True, lambda it, status: of(it, "steps", "s0", "conclusion") == "success"),
    "always() && job.status == 'cancelled'": (True, lambda it, status: of(it, "job", "status") == "cancelled"),
    "fromJSON(vars.BAD)": (False, lambda it, status: fault(it)),
    "always() && fromJSON(vars.BAD)": (True, lambda it, status: fault(it)),
    "failure() && fromJSON(vars.BAD)": (True, lambda it, status: status == "failure" and fault(it)),
}


def value(text, contexts):
    """The value of a template, or of what is in env or `with` and is no text."""
    if not isinstance(text, str):
        return text
    meaning = TEXTS.get(text) or NAMES.get(text) or FLAGS[text]
    return meaning(contexts)


def is_set(flag, contexts):
    """Whether a flag holds, which is a boolean or a string."""
    if isinstance(flag, bool):
        return flag
    try:
        found = value(flag, contexts)
    except Fault:
        return False
    return found is True or isinstance(found, str) and found.lower() == "true"


def holds(condition, contexts, status):
    """Whether a condition holds. One that names no status function stands after `success() &&`."""
    if condition is None:
        return status == "success"
    names_status, meaning = CONDITIONS[condition]
    if not names_status and status != "success":
        return False
    return meaning(contexts, status)


# plans

def some(chance, texts, often):
    """One of a few texts, or nothing."""
    return chance.choice(sorted(texts)) if chance.random() < often else None


def env(chance, often):
    found = {}
    for name in ("E", "F"):
        if chance.random() < often:
            found[name] = chance.choice(["x", "x", 7, True, None, *sorted(TEXTS)])
    return found


def flag(chance):
    return chance.choice([False, False, True, *sorted(FLAGS)]) if chance.random() < 0.5 else False


def group(chance, often):
    if chance.random() >= often:
        return None
    return {"cancel": flag(chance), "name": chance.choice(["g", "g", "g", *sorted(NAMES)])}


def step(chance, number):
    if chance.random() < 0.7:
        run = some(chance, TEXTS, 0.3)
        work = {"dir": some(chance, TEXTS, 0.1), "kind": "run", "run": "true" if run is None else run, "shell": "default"}
    else:
        work = {"kind": "uses", "uses": "a/b@v1", "with": env(chance, 0.4)}
    return {"condition": some(chance, CONDITIONS, 0.4), "env": env(chance, 0.15), "id": f"s{number}" if chance.random() < 0.8 else None,
            "name": None, "tolerate": flag(chance), "work": work}


def job(chance, number, first):
    """A job, whose run has `first` as the number of its first one."""
    legs = [{}] if chance.random() < 0.5 else [{"m": it} for it in range(chance.choice((1, 2, 3)))]
    outputs = {name: chance.choice(sorted(TEXTS)) for name in ("o", "p", "q") if chance.random() < 0.5}
    return {
        "condition": some(chance, CONDITIONS, 0.4),
        "env": env(chance, 0.15),
        "fail_fast": chance.random() < 0.6,
        "group": group(chance, 0.35),
        "id": "abcdef"[number - first],
        "legs": legs,
        "max_parallel": chance.choice((None, None, 1, 2)),
        "name": "job",
        "needs": [it for it in range(first, number) if chance.random() < 0.4],
        "number": number,
        "outputs": outputs,
        "steps": [step(chance, it) for it in range(chance.choice((0, 1, 1, 2, 3)))],
        "tolerate": flag(chance),
    }


def plan(chance):
    """A plan of up to three runs."""
    runs, number = [], 0
    for _ in range(chance.choice((1, 2, 3))):
        count = chance.choice((1, 2, 3, 4))
        roots = {"github": {"ref": chance.choice(("main", "g"))}, "inputs": {}, "secrets": {"S": "s"},
                 "vars": {"A": chance.choice(("yes", "no")), "BAD": "{"}}
        if chance.random() < 0.3:
            roots["github"]["event_name"] = "given"
        runs.append({"env": env(chance, 0.2), "event": chance.choice((None, "push")), "flow": "flow", "group": group(chance, 0.5),
                     "jobs": [job(chance, number + it, number) for it in range(count)], "roots": roots})
        number += count
    return {"runs": runs, "version": chance.choice((1, 2))}


def answer(chance):
    """What a step answers, now and then what it may not."""
    if chance.random() < 0.2:
        return {"kind": chance.choice(("not-started", "bad-output"))}
    outputs = {"o": chance.choice(("x", "y", ""))} if chance.random() < 0.5 else {}
    if chance.random() < 0.05:
        outputs[chance.choice(("", "a b", "é", "x" * 257, "x" * 256))] = "x"
    found = {"code": chance.choice((0, 0, 0, 0, 1, 255, 256, -1)), "kind": "exit", "outputs": outputs}
    if chance.random() < 0.5:
        found["env"] = {name: chance.choice(("x", "y", "", "{")) for name in ("E", "F", "G") if chance.random() < 0.4}
        if chance.random() < 0.05:
            found["env"][chance.choice(("", "a b", "a=b", "\0", "é" * 129, "é" * 128))] = chance.choice(("x", "\0"))
    return found
