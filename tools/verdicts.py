#!/usr/bin/env python3
"""Proves crates as the gate does, and keeps the libraries: what the gate would refuse is found crate by crate, before it runs.

  tools/verdicts.py [CRATE ..]      all crates, or these and those below them, from the top of the repository

Each crate is proved once, from nothing, over the statements of the crates below it, and refused for what `rt ci` refuses
beyond what `rt check` does, as a pattern in a definition that is spelled like a constructor. A crate that was built
so, and of which nothing changed, nor of a crate below, is not proved again. No edit, case or test is tried: the verdict is
the gate's alone.

A crate gets up to three processors where others wait for it, so that the longest chain of crates, by the figures of
tools/proof_costs.tsv, ends soon. A line is printed for each crate that is proved, and for one that is not the end of what the prover
said. crates/NAME/out/verdict has all of it. The status is 1 where a crate is not proved.

It works by the toolchain's own `rt`, which it loads as a module; the libraries serve `rt check` in the crates above too.
"""
import csv
import functools
import importlib.machinery
import importlib.util
import os
import re
import shutil
import sys
import time
from concurrent.futures import FIRST_COMPLETED, ThreadPoolExecutor, wait

TOP = os.getcwd()


def load():
    """Returns the toolchain's `rt` as a module, with the libraries cut to their statements, as in the gate."""
    loader = importlib.machinery.SourceFileLoader("rt", os.path.realpath(shutil.which("rt")))
    made = importlib.util.module_from_spec(importlib.util.spec_from_loader("rt", loader))
    sys.modules["rt"] = made
    loader.exec_module(made)
    made.rtlib.stop = made.stop
    made.rtlib.Crate = made.Crate
    made.Crate.cuts_libraries = True
    made.Crate.allowed = made.handles_of(TOP)
    # (each is asked for once for every way that leads down to a library)
    made.Crate.stamp = functools.cache(made.Crate.stamp)
    made.Crate.below = functools.cache(made.Crate.below)
    return made


def figures():
    """Returns the processor minutes of each crate's proof, as tools/proof_costs.tsv has them."""
    with open(f"{TOP}/tools/proof_costs.tsv", encoding="utf-8", newline="") as it:
        rows = csv.DictReader((line for line in it if not line.startswith("#")), delimiter="\t")
        return {row["crate"]: float(row["minutes"]) for row in rows}


def chains(crates, takes):
    """Returns what the longest chain of proofs takes that begins with each crate. The crates are given lowest first."""
    found = {it.name: 0.0 for it in crates}
    for crate in reversed(crates):
        found[crate.name] += takes[crate.name]
        for below in crate.below():
            found[below.name] = max(found[below.name], found[crate.name])
    return found


def mark_of(crate):
    """Returns the file that holds the sum of what a crate was last built of."""
    return f"{crate.folder}/out/verdict.sum" if crate.is_program else f"{crate.folder}/out/rlib/stamp"


def is_built(rt, crate):
    # (an `rt lib` after this run builds a library again, and that file goes with it)
    made = f"{crate.folder}/out/{crate.name if crate.is_program else 'rlib/statements'}"
    return os.path.exists(made) and rt.rtlib.text_of(mark_of(crate)) == crate.stamp()


def prove(rt, crates, crate, jobs):
    """Proves a crate by that many jobs, and returns whether it is proved."""
    os.makedirs(f"{crate.folder}/out", exist_ok=True)
    with open(f"{crate.folder}/out/verdict", "w+", encoding="utf-8", errors="replace") as crate.out:
        try:
            rt.rtlib.stop_on_unread(crate.folder, crates)
            rt.rtlib.stop_on_text(crate, "verdict")
            rt.stop_on_words(crate)
            status = rt.rtlib.fmt(crate.folder, "--check", crate.out) or crate.ci(["--jobs", str(jobs)], False)
        except SystemExit:
            status = 1
    if status == 0:
        for name in [mark_of(crate)] + ["out/rlib/statements"] * (not crate.is_program):
            with open(os.path.join(crate.folder, name), "w", encoding="utf-8") as it:
                it.write(crate.stamp())
    return status == 0


def tell_end(crate):
    """Tells the end of what the prover said of a crate, without the lines that only count."""
    counts = re.compile(r"(checked|so far|statements|library|logic)[ =:]|.*: proved$")
    with open(f"{crate.folder}/out/verdict", encoding="utf-8", errors="replace") as it:
        lines = [line for line in it if not counts.match(line)]
    print("".join(lines[-20:]), end="", flush=True)


def order(rt, names):
    """Returns all crates, and those among them that have these names or are below one that has; all if none is given. Lowest first."""
    everything = sorted(rt.rtlib.crates_below(TOP), key=lambda it: len(it.below()))
    asked = [it for it in everything if not names or it.name in names]
    below = {it.name for crate in asked for it in [crate, *crate.below()]}
    return everything, [it for it in everything if it.name in below]


def main():
    rt = load()
    rt.rtlib.guarded()
    everything, crates = order(rt, sys.argv[1:])
    # (no other `rt` works in these crates until this run ends)
    held = rt.rtlib.lock(crates)
    measured = figures()
    takes = {it.name: measured.get(it.name, 1.0) for it in crates}
    behind, processors, began = chains(crates, takes), rt.processors(), time.monotonic()
    proved = {it.name for it in crates if is_built(rt, it)}
    left, failed, running = [it for it in crates if it.name not in proved], set(), {}

    def minutes():
        return round(sum(takes[it.name] for it in crates if it.name not in proved))
    print(f"{len(proved)} of {len(crates)} crates are built; the others take some {minutes()} processor minutes", flush=True)
    with ThreadPoolExecutor(processors) as pool:
        while left or running:
            ready = sorted((it for it in left if all(below.name in proved for below in it.below())), key=lambda it: -behind[it.name])
            for crate in ready:
                idle = processors - sum(jobs for _, jobs, _ in running.values())
                if idle > 0:
                    jobs = min(3, idle) if crate is ready[0] else 1
                    left.remove(crate)
                    running[pool.submit(prove, rt, everything, crate, jobs)] = crate, jobs, time.monotonic()
            if not running:
                break
            for done in wait(running, return_when=FIRST_COMPLETED).done:
                crate, jobs, at = running.pop(done)
                (proved if done.result() else failed).add(crate.name)
                took = f"in {time.monotonic() - at:.0f} s by {jobs} {'job' if jobs == 1 else 'jobs'}"
                if crate.name in proved:
                    print(f"proved {crate.name} {took}, {len(proved)} of {len(crates)}; some {minutes()} processor minutes are left", flush=True)
                else:
                    tell_end(crate)
                    print(f"{crate.name} IS NOT PROVED, {took}", flush=True)
    if failed:
        print(f"not proved: {' '.join(sorted(failed))}; not tried: {' '.join(it.name for it in left) or 'none'}")
    print(f"{len(proved)} of {len(crates)} crates are built, after {(time.monotonic() - began) / 60:.0f} minutes")
    for it in held:
        os.close(it)
    return 1 if failed else 0


if __name__ == "__main__":
    sys.exit(main())
