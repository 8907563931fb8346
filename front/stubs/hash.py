"""Computes digests of hashFiles for the step after this one: of patterns in ACTRUN_HASH_N for the output
hN."""

from __future__ import annotations

import os
import pathlib
import re
import sys

sys.path.insert(1, str(pathlib.Path(__file__).resolve().parent.parent))

import step  # noqa: E402
from actrun_front.hash_files import GlobError, digest  # noqa: E402


def main() -> None:
    """Writes the outputs."""
    tree = step.folder()
    for name, patterns in sorted(os.environ.items()):
        found = re.fullmatch("ACTRUN_HASH_([0-9]+)", name)
        try:
            if found:
                value = digest([patterns], tree, os.environ["GITHUB_WORKSPACE"], True)
                step.set_output(f"h{found[1]}", value)
        except GlobError as fault:
            step.fail(f"hashFiles has no value: {fault}")


step.start(main)
