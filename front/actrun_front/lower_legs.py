"""Legs in the order in which GitHub numbers them, `matrix` of a job without one, and needs that differ in
case alone."""
from __future__ import annotations

from typing import Any, Dict, List

from .expressions import EvaluationError, Rules, known_keys
from .lower_tree import Lowering, part, rewrite_texts, steps_of
from .yaml_reader import Map, Sequence, mark_of, text_of

LISTS = ("include", "exclude")


def match_needs(jobs: Any) -> None:
    """Writes the ids in `needs` as their jobs have them: GitHub compares without case."""
    known = {name.lower(): name for name in jobs} if isinstance(jobs, dict) else {}
    for name in known.values():
        job = jobs[name]
        needs: Any = job.get("needs") if isinstance(job, dict) else None
        if isinstance(needs, str):
            job["needs"] = needs if needs in jobs else known.get(needs.lower(), needs)
        for at, need in enumerate(needs if isinstance(needs, list) else ()):
            if isinstance(need, str) and need not in jobs:
                needs[at] = known.get(need.lower(), need)


def lower_legs(lowering: Lowering, job_id: str, job: Any) -> None:
    """Makes `matrix` null where a job has none, else writes the legs in the order of the variables, if the
    planner has another."""
    matrix = part(job, "strategy").get("matrix")
    if matrix is None:
        for node in (job, *steps_of(job)):
            rewrite_texts(node, Rules({"matrix": known_keys({}, None, "null")}))
    elif isinstance(matrix, dict):
        lowering.orders[job_id] = order_legs(lowering, job)


def order_legs(lowering: Lowering, job: Any) -> List[str]:
    """Writes the legs of a job in the order of the variables, if the planner has another; gives all names."""
    matrix = part(part(job, "strategy"), "matrix")
    names = written(matrix)
    variables = [name for name in names if name in matrix and name not in LISTS]
    if variables != sorted(variables):
        reorder(lowering, job, matrix, variables)
    return names


def written(matrix: Any) -> List[str]:
    """The variables of a matrix as they are written, then what entries of `include` add."""
    entries = [entry for entry in matrix.get("include") or () if isinstance(entry, dict)]
    return order_of(entries, [name for name in matrix if name not in LISTS])


def reorder(lowering: Lowering, job: Any, matrix: Any, variables: List[str]) -> None:
    """Puts the legs, one by one, in place of the variables. The planner refuses a matrix that has none, or
    too many."""
    try:
        legs = lowering.combinations(matrix)
        plain = {name: value for name, value in matrix.items() if name != "include"}
        first = lowering.combinations(plain) if matrix.get("include") else legs
    except EvaluationError:
        return
    places = {name: first_places(matrix[name]) for name in variables}
    ranks = [[places[name][text_of(ordered_keys(leg[name]))] for name in variables] for leg in first]
    ordered = [legs[at] for at in sorted(range(len(first)), key=lambda at: ranks[at])] + legs[len(first):]
    mark, names = mark_of(part(job, "strategy"), "matrix"), order_of(ordered, variables)
    rows = [Map({name: leg[name] for name in names if name in leg}, mark) for leg in ordered]
    job["strategy"]["matrix"] = Map({"include": Sequence(rows, mark)}, mark)


def first_places(values: List[Any]) -> Dict[str, int]:
    """The first place of each value of a variable, by its JSON."""
    return {text_of(ordered_keys(value)): at for at, value in reversed(list(enumerate(values)))}


def ordered_keys(value: Any) -> Any:
    """A value whose maps have their keys in order, as in the planner's legs."""
    if isinstance(value, dict):
        return {key: ordered_keys(value[key]) for key in sorted(value)}
    return [ordered_keys(one) for one in value] if isinstance(value, list) else value


def order_of(legs: List[Dict[str, Any]], variables: List[str]) -> List[str]:
    """The variables, then all other names of legs."""
    return list(dict.fromkeys([*variables, *(name for leg in legs for name in leg)]))


def sorted_legs(legs: List[Dict[str, Any]], names: List[str]) -> List[Dict[str, Any]]:
    """Legs of a plan whose values are in the order of the workflow, for names such as `test (ubuntu,
    3.11)`."""
    known = {name: at for at, name in enumerate(names)}
    return [dict(sorted(leg.items(), key=lambda pair: known.get(pair[0], len(known)))) for leg in legs]
