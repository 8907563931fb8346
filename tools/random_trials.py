"""Trials of the program on random records, for random_records.py and random_whys.py."""
import os
import random
import sys
import tempfile
from collections import Counter
from pathlib import Path

TOP = Path(__file__).resolve().parent.parent


def program_named(script, words):
    """Returns the path of the program that the words name, or nothing, with the reason on standard error."""
    program = os.path.abspath(words[2] if len(words) == 3 else TOP / "crates/actrun/out/actrun")
    if os.access(program, os.X_OK):
        return program
    print(f"{script}: {program} is no program; ./actrun --prove builds it", file=sys.stderr)
    return None


def keep(folder, number, text, why):
    """Keeps a record that differs, with how it does."""
    place = folder / str(number)
    place.with_suffix(".record").write_bytes(text)
    place.with_suffix(".why").write_text(why, encoding="utf-8")
    print(f"record {number} differs: {place}.why", flush=True)


def run(script, usage, trial, figures):
    """Runs the trials that the words NUMBER SEED [PROGRAM] ask for, prints the figures, and returns the exit status.

    `trial(program, chance, path, counted)` picks a record by `chance`, may write it to `path`, adds to the figures in `counted`, and
    returns the record's bytes with what the program has otherwise, or nothing. `figures(counted)` says what was compared.
    """
    words = sys.argv[1:]
    if len(words) not in (2, 3) or not words[0].isdecimal():
        print(usage.strip(), file=sys.stderr)
        return 2
    program = program_named(script, words)
    if program is None:
        return 2
    folder, counted, differing = Path(tempfile.mkdtemp(prefix="records-")), Counter(), 0
    with tempfile.TemporaryDirectory() as room:
        for number in range(int(words[0])):
            chance = random.Random(f"{words[1]} {number}")
            text, why = trial(program, chance, os.path.join(room, "record"), counted)
            if why:
                differing += 1
                keep(folder, number, text, why)
    print(f"{words[0]} records of seed {words[1]}{figures(counted)}: {differing} differ")
    if not differing:
        folder.rmdir()
    return 1 if differing else 0
