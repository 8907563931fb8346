"""Replaces actions that install a tool: it is looked for in PATH, tool caches and packages.

A version that is not there fails the step, which lists the installed versions; with --lenient another version
serves.

`actions.json` has an entry for each action with its `tools`. Of a tool: `programs`, the names of the program;
`asked`, the inputs with the version (NAME-version or version if none is named; `@` is the action's ref);
`files`, version files or inputs that name one; `names`, more programs to look for by the version that is
asked for; `version`, the arguments that print its version; `links`, names under which later steps shall find
a Python that makes a virtual environment, and arguments; `outputs` (NAME-version if none is named) and
`variables`, by {version}, {path} and the like; `optional`, true if it is looked for only if a version is
asked for.
"""

from __future__ import annotations

import json
import os
import pathlib
import re
import shlex
import shutil
import subprocess

import step
import versions

# how a version file is read, by its name
FORMS = {
    "go.mod": r"^go\s+(\S+)",
    "go.work": r"^go\s+(\S+)",
    "pyproject.toml": r"^requires-python\s*=\s*[\"'](.+?)[\"']",
    "package.json": r'"engines"\s*:\s*\{[^}]*"node"\s*:\s*"([^"]+)"',
    ".tool-versions": r"^NAME(?:js|lang)?\s+(\S+)",
}


def asked_for(tool: dict, name: str, ref: str) -> str:
    """The version that the step asks for by an input, by the action's ref or by a version file; nothing if by
    none."""
    ref = re.sub(r"^([0-9a-f]{40}|master|main|v\d+)$", "", ref)
    found = [
        ref if it == "@" else step.given(it) for it in tool.get("asked", f"{name}-version version").split()
    ]
    for it in tool.get("files", "").split():
        place = step.folder() / (it if "." in it else step.given(it))
        if "." not in it and step.given(it) and not any(found) and not place.is_file():
            step.fail(f"the file {step.given(it)} of the input {it} is not in the tree")
        if place.is_file():
            form = FORMS.get(place.name, r"^\s*(?:go)?([^\s#]\S*)").replace("NAME", name)
            found += re.findall(form, place.read_text(encoding="utf-8", errors="replace"), re.MULTILINE)[:1]
    return next(filter(None, found), "").removeprefix("ruby-")


def named(forms: str, version: str) -> list[str]:
    """The names that forms with {major} and {minor} give for a version."""
    major, minor, *_ = f"{version}..".split(".")
    return [form.format(major=major, minor=minor) for form in forms.split()]


def put_in_front(tool: dict, name: str, path: str, version: str) -> str:
    """Makes later steps find the program by its usual names, a Python in an environment of the leg. Returns
    its path there."""
    folder, scripts = step.folder(
        "RUNNER_TEMP"
    ) / f"actrun-{name}-{version or 'any'}-{step.numbers()[0]}", tool.get("links", {name: ""})
    if "links" in tool and not folder.exists():
        subprocess.run(
            [path, "-m", "venv", "--system-site-packages", "--without-pip", str(folder)],
            capture_output=True,
            check=False,
        )
    folder = folder / "bin"
    if (folder / name).exists():
        path = str(folder / name)
    elif shutil.which(name) == path:
        return path
    elif os.path.basename(path) == name:
        folder, scripts = pathlib.Path(path).parent, {}
    for forms, words in scripts.items():
        folder.mkdir(parents=True, exist_ok=True)
        for place in [folder / it for it in named(forms, version) if not (folder / it).exists()]:
            place.write_text(
                f'#!/bin/sh\nexec {shlex.join([path, *shlex.split(words)])} "$@"\n', encoding="utf-8"
            )
            place.chmod(0o755)
    with open(os.environ["GITHUB_PATH"], "a", encoding="utf-8") as paths:
        paths.write(f"{folder}\n")
    os.environ["PATH"] = f"{folder}:{os.environ.get('PATH', os.defpath)}"  # (for the next tool of the action)
    return path


def there(tool: dict, asked: str) -> list[tuple[str, str]]:
    """The programs of a tool that can be started, those of PATH first, each with its version."""
    names, name = tool["programs"].split(), tool["programs"].split()[0]
    more = [it for number in re.findall(r"[\d.]+", asked) for it in named(tool.get("names", ""), number)]
    places = versions.in_path(names + [it for it in more if "/" not in it]) + versions.kept(name)
    found = versions.started(places, tool.get("version", "--version"))
    return [(path, of_java(version) if name == "java" else version) for path, version in found]


def of_java(version: str) -> str:
    """A version of Java without the `1.` that those up to 8 have."""
    return re.sub(r"^1\.(?=\d)", "", version)


def choose(found: list[tuple[str, str]], asked: str) -> tuple[str, str] | None:
    """The program of the newest version that fits; the first of all if no version is requested."""
    fitting = [one for one in found if versions.fits(asked, one[1])] if asked else found[:1]
    return max(fitting, key=lambda one: versions.numbers(one[1])) if fitting else None


def missing(tool: dict, action: str, found: list[tuple[str, str]], asked: str,
            lenient: bool) -> tuple[str, str]:
    """Fails, as no program of the tool has the version that is asked for. With --lenient goes on with another
    one."""
    names = tool["programs"].split()
    name, get = names[0], versions.how_to_get(names[0], asked)
    has = ", ".join(f"{version or 'no version'} ({path})" for path, version in found)
    if not found:
        step.fail(f"{action}: there is no program {' or '.join(names)} that can be started: {get}; "
                  f"or name a program with --stub {action}=PROGRAM")
    if not lenient:
        step.fail(f"{action}: {name} {asked} was requested; this machine has {has}. To get it: {get}. "
                  "To go on with another version: --lenient")
    step.warn(
        f"{name} {asked} was requested; using {found[0][1] or 'another version'}, the installed version"
    )
    step.mark_another(f"{name} {found[0][1]} in place of {asked}")
    return found[0]


def set_up(tool: dict, text: str, lenient: bool) -> None:
    """Finds the tool, prints its version, and sets the outputs; fails if it is missing."""
    action, ref = step.split_action(text)
    name, whole = tool["programs"].split()[0], asked_for(tool, tool["programs"].split()[0], ref)
    if "optional" in tool and not whole:
        return
    # several lines ask for several versions
    for asked in [line.strip() for line in whole.splitlines() if line.strip()] or [""]:
        asked = of_java(asked) if name == "java" else asked
        found = there(tool, asked)
        path, version = choose(found, asked) or missing(tool, action, found, asked, lenient)
        print(f"{name} {version} ({path})", flush=True)
        path = put_in_front(tool, name, path, version)
    folder = os.path.dirname(path if "links" in tool else os.path.realpath(path))
    values = {
        "version": version,
        "path": path,
        "folder": folder,
        "home": os.path.dirname(folder),
        "distribution": step.given("distribution"),
    }
    for variable, forms in (("GITHUB_OUTPUT", tool.get("outputs", f"{name}-version={{version}}")),
                            ("GITHUB_ENV", tool.get("variables", ""))):
        for it in forms.split():
            step.set_output(it.partition("=")[0], it.partition("=")[2].format(**values), variable)


def main(text: str, lenient: str = "") -> None:
    """Sets up all tools of the action."""
    table, action = (
        json.loads((pathlib.Path(__file__).parent / "actions.json").read_text(encoding="utf-8")),
        step.split_action(text)[0],
    )
    entry = next(value for name, value in table.items() if name.lower() == action)
    if "says" in entry:
        print(f"{action} {entry['says']}")
    for tool in entry["tools"]:
        set_up(tool, text, bool(lenient))
    if step.given_flag("bundler-cache"):
        step.warn("bundler-cache: no gems are installed here; the steps use those that are there")
    step.set_output("cache-hit", "false")


if __name__ == "__main__":
    step.start(main)
