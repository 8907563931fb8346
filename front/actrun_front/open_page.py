"""`actrun open`: opens the page of the last execution of this repository."""
from __future__ import annotations

import argparse
import os
import subprocess
import sys
from pathlib import Path

from . import Problem
from .last import find
from .repository import of_system
from .visible import visible

OPENERS = ("xdg-open", "open")
SCREENS = ("DISPLAY", "WAYLAND_DISPLAY", "BROWSER")


def page_of(here: Path) -> str:
    """The page of the last execution of the repository around a folder."""
    page = find(here).page
    if not page or not os.path.isfile(page):
        raise Problem("the last execution has no page: `actrun report --last -o page.html` writes one")
    return page


def opener(here: Path) -> str | None:
    """The program that opens a page in a browser, where there is a screen for it; never one of the repository
    around a folder."""
    if not any(map(os.environ.get, SCREENS)) and sys.platform != "darwin":
        return None
    found = (of_system(name, here) for name in OPENERS)
    return next((place for place in found if os.path.isfile(place)), None)


def main(arguments: list[str]) -> int:
    """The exit status of `actrun open ARGUMENTS`."""
    reader = argparse.ArgumentParser(
        prog="actrun open", allow_abbrev=False,
        description="Opens the page of the last execution of this repository, and prints its place.",
        epilog="Without a screen or the program xdg-open it only prints the place.")
    reader.add_argument("-C", dest="directory", metavar="DIR", default=".",
                        help="a directory of the repository (default: the current one)")
    folder = reader.parse_args(arguments).directory
    if not os.path.isdir(folder):
        raise Problem(f"-C {folder}: there is no such directory")
    here = Path(os.path.realpath(folder))
    page = page_of(here)
    print(visible(page), flush=True)
    program = opener(here)
    done = program and subprocess.run([program, page], stdin=subprocess.DEVNULL, check=False)
    return 3 if done and done.returncode else 0
