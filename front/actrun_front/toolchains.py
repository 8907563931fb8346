"""Tools of this machine for steps: the Python of programs for actions, and the tool caches that steps may
read."""
from __future__ import annotations

import os
import sys
from pathlib import Path

from stubs.versions import HOMES, PLACES

# (the sandbox shows that of the system)
PYTHON = "/usr/bin/python3" if os.access("/usr/bin/python3", os.X_OK) else sys.executable


def folders() -> list[Path]:
    """The folders of tool caches that the sandbox would hide: below the home folder, and that of
    RUNNER_TOOL_CACHE."""
    home, cache = Path.home(), os.environ.get("RUNNER_TOOL_CACHE", "")
    places = [home / name for name in HOMES]
    # one around the home folder would show all that is in it
    around = (home.resolve(), *home.resolve().parents)
    if os.path.isabs(cache) and Path(os.path.realpath(cache)) not in around:
        places.append(Path(cache))
    return [place for place in places if place.is_dir() and ":" not in str(place)]


def variable() -> str:
    """The value of ACTRUN_TOOLS, by which programs for actions find these folders and those of the system."""
    return ":".join([*map(str, folders()), *filter(os.path.isdir, PLACES)])
