#!/usr/bin/env python3
"""Prints a big legal record: one plan, whatever the count, and its first COUNT entries.

  big_record.py COUNT [RUNS JOBS STEPS NEEDS]
  big_record.py COUNT legs [JOBS STEPS LEGS]

The plan has RUNS runs of JOBS jobs, each with one leg of STEPS steps; each job needs the NEEDS jobs before it in its
run, so that every earlier job is its ancestor. Without further words it has one run of 194 jobs of 256 steps that need
nothing, which is enough for 100,000 entries; `1000000 16 256 122 4` has enough for 1,000,000. Each leg is played to its
end before the next job is judged, and each run before the next one is opened.

With `legs` the plan has one run of JOBS jobs with LEGS legs each (16, 256; an even number), whose group is a value of
their combination, two legs a group, under fail-fast and a `max_parallel` of all of them. All legs of a job are asked
for first, so that of each two one is admitted and one waits. In every other job they are all played, each waiting leg
after the one whose end admits it; but the last but one fails, and the last is dropped. In the jobs between the first
leg fails, and all others are dropped. Without further words there are 24 steps a job, which is enough for 100,000
entries.
"""
import json
import sys


def text(value):
    return json.dumps(value, separators=(",", ":"), sort_keys=True)


def step(number):
    work = {"dir": None, "kind": "run", "run": f"make part-{number}", "shell": "default"}
    return {"condition": None, "env": {}, "id": None, "name": None, "tolerate": False, "work": work}


def job(first, place, steps, needs, legs=1):
    name = f"job-{place}"
    group = None if legs == 1 else {"cancel": False, "name": "part-${{ matrix.group }}"}
    combinations = [{}] if legs == 1 else [{"group": f"{place}-{leg // 2}", "leg": leg} for leg in range(legs)]
    return {
        "condition": None, "env": {}, "fail_fast": True, "group": group, "id": name, "legs": combinations,
        "max_parallel": None if legs == 1 else legs, "name": name,
        "needs": [first + k for k in range(max(0, place - needs), place)],
        "number": first + place, "outputs": {}, "steps": [step(k) for k in range(steps)], "tolerate": False,
    }


def run(number, jobs, steps, needs, legs=1):
    roots = {"github": {}, "inputs": {}, "secrets": {}, "vars": {}}
    first = number * jobs
    return {
        "env": {}, "event": None, "flow": "big", "group": None,
        "jobs": [job(first, place, steps, needs, legs) for place in range(jobs)], "roots": roots,
    }


def played(leg, steps, code=0):
    """The entries of a leg that was admitted, whose last step ends with that code."""
    worker = leg % 16
    yield {"event": "take", "leg": leg, "worker": worker}
    for place in range(steps):
        answer = {"code": code if place + 1 == steps else 0, "env": {}, "kind": "exit", "outputs": {}}
        yield {"event": "begin", "leg": leg, "worker": worker}
        yield {"answer": answer, "event": "end", "leg": leg, "worker": worker}
    yield {"event": "finish", "leg": leg, "worker": worker}


def entries(runs, jobs, steps):
    for number in range(runs):
        yield {"event": "open", "run": number, "worker": 0}
        for leg in range(number * jobs, (number + 1) * jobs):
            yield {"event": "judge", "job": leg, "worker": 0}
            yield {"event": "ask", "leg": leg, "worker": 0}
            yield from played(leg, steps)
        yield {"event": "close", "run": number, "worker": 0}


def entries_of_legs(jobs, steps, legs):
    yield {"event": "open", "run": 0, "worker": 0}
    for number in range(jobs):
        mine = range(number * legs, (number + 1) * legs)
        yield {"event": "judge", "job": number, "worker": 0}
        for leg in mine:
            yield {"event": "ask", "leg": leg, "worker": 0}
        failing = mine[-2] if number % 2 == 0 else mine[0]
        for leg in mine:
            if leg < failing:
                yield from played(leg, steps)
            elif leg == failing:
                yield from played(leg, steps, code=1)
            else:
                yield {"event": "drop", "leg": leg, "worker": 0}
    yield {"event": "close", "run": 0, "worker": 0}


def main():
    count, *words = sys.argv[1:]
    if words[:1] == ["legs"]:
        jobs, steps, legs = [int(word) for word in words[1:]] or [16, 24, 256]
        plan, events = [run(0, jobs, steps, 0, legs)], entries_of_legs(jobs, steps, legs)
    else:
        runs, jobs, steps, needs = [int(word) for word in words] or [1, 194, 256, 0]
        plan, events = [run(number, jobs, steps, needs) for number in range(runs)], entries(runs, jobs, steps)
    print(text({"runs": plan, "version": 2}))
    for place, entry in enumerate(events):
        if place == int(count):
            break
        print(text(entry))


main()
