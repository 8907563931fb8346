"""Versions of tools: the ranges by which actions ask for them, and the programs of tool caches.

A range is read as npm's semver reads it: `||`, `a - b`, `^`, `~`, `x`, comparisons, parts that are left out.
Of the names, `lts/*` and `lts/NAME` need a release of Node.js with long-term support; `nightly` and `beta` of
Rust such a release.
"""

from __future__ import annotations

import glob
import os
import re
import shlex
import subprocess

# below a home folder: the folders of tool caches, and where each program is in them
HOMES = {
    ".pyenv/versions": {"python": "*/bin/python"},
    ".local/share/uv/python": {"python": "*/bin/python"},
    ".nvm/versions/node": {"node": "*/bin/node"},
    ".rbenv/versions": {"ruby": "*/bin/ruby"},
    ".rustup/toolchains": {"rustc": "*/bin/rustc", "cargo": "*/bin/cargo"},
    ".sdkman/candidates": {"java": "java/*/bin/java", "gradle": "gradle/*/bin/gradle"}}
# in a tool cache of GitHub's form
CACHE = {"python": "Python/*/*/bin/python", "node": "node/*/*/bin/node", "go": "go/*/*/bin/go",
         "java": "Java_*/*/*/bin/java", "ruby": "Ruby/*/*/bin/ruby"}
# of packages of the system: folders as those of HOMES, and names in the folders of PATH
PLACES = {"/usr/lib/jvm": {"java": "*/bin/java"}, "/usr/lib": {"go": "go-*/bin/go"},
          "/usr/local": {"go": "go/bin/go"}, "/opt/hostedtoolcache": CACHE}
NAMES = {"python": "python3.*", "ruby": "ruby[0-9]*", "php": "php[0-9]*", "clang": "clang-[0-9]*",
         "lua": "lua[0-9]*"}
GET = {"python": "uv python install {0}, or pyenv install {0}", "node": "nvm install {0}",
       "ruby": "rbenv install {0}", "java": "apt-get install openjdk-{0}-jdk, or sdk install java",
       "rustc": "rustup toolchain install {0}", "go": "https://go.dev/dl, unpacked to /usr/local/go"}
VERSION = re.compile(r"\d+(?:\.\d+)*(?:-(?:nightly|beta)\b)?")
LTS = {name: 4 + 2 * place for place, name in enumerate(
    "argon boron carbon dubnium erbium fermium gallium hydrogen iron jod krypton".split())}
NEWEST = ("latest", "stable", "node", "current", "oldstable", "default", "system", "*", "x", "")
COMPARATOR = re.compile(r"(?P<sign>[<>]=?|!=|={1,3}|\^|~=|~>?)?v?(?P<parts>\d+(?:\.\d+)*)(?:\.[xX*])*"
                        r"(?:-dev|-ea|\+[\w.+-]*|-(?:alpha|beta|rc)[\w.+-]*)?")
NO_RELEASES = ("head", "jruby", "truffleruby", "mruby", "debug")


def numbers(version: str) -> list[int]:
    """The parts of a version, at least three."""
    found = [int(part) for part in re.findall(r"\d+", version.partition("-")[0])]
    return found + [0] * (3 - len(found))


def bumped(parts: list[int], place: int) -> list[int]:
    """The first version behind all those that have the same parts up to a place."""
    return parts[:place] + [parts[place] + 1]


def fits_one(asked: str, version: str) -> bool:
    """Whether a version is one that a single comparison names, as `3`, `3.x`, `v18`, `^1.13`, `~1.5`,
    `>=3.9`."""
    found = COMPARATOR.fullmatch(asked)
    if asked.lower() in NEWEST:
        return "-" not in version
    if asked in ("nightly", "beta"):
        return version.endswith(f"-{asked}")
    if asked.lower().startswith("lts/"):
        major = numbers(version)[0]
        return major == LTS[asked[4:].lower()] if asked[4:].lower() in LTS else major % 2 == 0
    if not found:  # (a name of something that has versions of its own is no version)
        return bool(re.fullmatch(r"[a-z]+", asked)) and asked not in NO_RELEASES
    known = version.partition("-")[0].count(".") + 1  # (some programs print the first part alone)
    sign, have = found["sign"] or "", numbers(version)
    parts = [int(part) for part in found["parts"].split(".")][:known]
    low, width = parts + [0] * (3 - len(parts)), len(parts)  # (parts that are left out are free)
    if sign in ("", "=", "==", "===", "!="):
        return (have[:width] == parts) != (sign == "!=")
    if sign in (">", "<="):
        return (have >= bumped(parts, width - 1)) == (sign == ">")
    if sign in ("<", ">="):
        return (have >= low) == (sign == ">=")
    fixed = min(width - 1, 1)  # of `~`, the place of the last part that stays
    if sign == "^":
        fixed = next((place for place, part in enumerate(parts) if part), width - 1)
    elif sign == "~=":
        fixed = max(width - 2, 0)
    return low <= have < bumped(low, fixed)


def fits(asked: str, version: str) -> bool:
    """Whether a version is what a range asks for: in one of its ways all comparisons hold."""
    spans = re.sub(r"(\S+)\s+-\s+(\S+)", r">=\1 <=\2", asked.strip())
    ways = re.sub(r"([<>=!~^])\s+", r"\1", spans).split("||")
    return any(all(fits_one(part, version or "0") for part in re.split(r"[\s,]+", way.strip()))
               for way in ways)


def started(places: list[str], words: str) -> list[tuple[str, str]]:
    """The programs that can be started, each with the version that it prints; of links to one program the
    first."""
    found: dict[str, tuple[str, str]] = {}
    for place in dict.fromkeys(places):
        real = os.path.realpath(place)
        if real in found or not os.access(place, os.X_OK) or os.path.isdir(place):
            continue
        try:
            done = subprocess.run([place, *shlex.split(words)], stdin=subprocess.DEVNULL, capture_output=True,
                                  text=True, errors="replace", timeout=60, check=True)
        except (OSError, subprocess.SubprocessError):
            continue
        number = VERSION.search(done.stdout + done.stderr)
        found[real] = (place, number[0] if number else "")
    return list(found.values())


def in_path(names: list[str]) -> list[str]:
    """The programs of these names in PATH, folder by folder."""
    folders = os.environ.get("PATH", os.defpath).split(":")
    return [f"{folder}/{name}" for folder in folders if folder for name in names]


def kept(name: str) -> list[str]:
    """The places of a program in tool caches and packages: in the folders of ACTRUN_TOOLS, and of PATH."""
    patterns = []
    for folder in filter(None, os.environ.get("ACTRUN_TOOLS", "").split(":")):
        of_home = (layout for end, layout in HOMES.items() if folder.endswith(f"/{end}"))
        # (of the system, below a home folder, or a tool cache)
        layout = PLACES.get(folder) or next(of_home, None) or CACHE
        patterns += [f"{glob.escape(folder)}/{layout[name]}"] if name in layout else []
    if name in NAMES:
        patterns += in_path([NAMES[name]])
    places = [place for pattern in patterns for place in sorted(glob.glob(pattern))]
    return [place for place in places if not place.endswith("-config")]


def how_to_get(name: str, asked: str) -> str:
    """How a person gets a version of a tool."""
    number = re.search(r"\d+(?:\.\d+)*", asked)
    form = GET.get(name, "install it outside of home directories, which the sandbox hides")
    return form.format(number[0] if number else asked)
