"""Executes a JavaScript action by the `node` of this machine: `pre`, `main` or `post`, as ACTRUN_PHASE says.

The words behind the text of `uses` come in pairs: `--folder` (one that begins with `./` is below the
workspace), `--using`, a file for each phase, `--repository` and `--ref`. What the action saves as state is
kept next to the file GITHUB_PATH, for each leg and each step that uses an action, and given to the phases
that follow.
"""

from __future__ import annotations

import json
import os
import pathlib
import re

import relay
import step
import versions

MOST_STATE = 1 << 20  # bytes
OWN = ("ACTRUN_ACTION", "ACTRUN_PHASE", "ACTRUN_STATE")


class State:
    """What the phases of one step hand on."""

    def __init__(self) -> None:
        leg, folder = step.numbers()[0], pathlib.Path(os.environ["GITHUB_PATH"]).parent
        self.kept = folder / f"state-{leg}-{os.environ.get('ACTRUN_STATE', '0')}"
        self.new = folder / f"state-{'-'.join(step.numbers())}.new"
        self.values: dict[str, str] = {}
        if self.kept.is_file():
            try:
                self.values = dict(json.loads(self.kept.read_text(encoding="utf-8")))
            except ValueError:
                step.fail(f"the state of the action cannot be read: a step changed {self.kept}")
        self.new.write_text("", encoding="utf-8")

    def keep(self, saved: dict[str, str]) -> None:
        """Adds what was saved by commands, and by the file of GITHUB_STATE."""
        self.values.update({**saved, **pairs(self.new)})
        self.kept.write_text(json.dumps(self.values), encoding="utf-8")
        self.new.unlink()


def pairs(place: pathlib.Path) -> dict[str, str]:
    """The pairs of a file with lines `NAME=VALUE` and blocks `NAME<<DELIMITER`."""
    if place.is_symlink() or not place.is_file() or place.stat().st_size > MOST_STATE:
        step.fail(f"the file GITHUB_STATE is no file of at most {MOST_STATE} bytes")
    found, lines = {}, iter(place.read_text(encoding="utf-8", errors="replace").splitlines())
    for line in lines:
        name, sign, value = re.fullmatch(r"([^=]*?)(?:(=|<<)(.*))?", line).groups()
        if sign == "<<":
            block = []
            for one in lines:
                if one == value:
                    break
                block.append(one)
            else:
                step.fail(f"the file GITHUB_STATE lacks the line {value} that ends {name}")
            value = "\n".join(block)
        elif line and not sign:
            step.fail("the file GITHUB_STATE has a line that is no NAME=VALUE and no NAME<<DELIMITER: "
                      f"{line[:80]}")
        if line:
            found[name] = value
    return found


def script_of(text: str, words: dict[str, str], phase: str) -> tuple[pathlib.Path, pathlib.Path]:
    """The action's folder, and the file of a phase."""
    folder = pathlib.Path(words["--folder"])
    if not folder.is_absolute():
        folder = step.folder() / folder
        if not folder.is_dir():
            step.fail(f"the action {text} is not in the workspace: check the repository out before this step")
    script = folder / words[f"--{phase}"]
    if not script.is_file():
        step.fail(f"the action {text} has no file {words[f'--{phase}']}, which its action.yml names")
    return folder, script


def find_node(using: str) -> str:
    """The first `node` that is new enough for an action, else the first. Folders that the job's steps added
    to PATH do not count: GitHub's runner has a `node` of its own."""
    asked, added = int(using[4:]), [""]
    try:
        with open(os.environ["GITHUB_PATH"], encoding="utf-8", errors="replace") as file:
            added += file.read().splitlines()
    except OSError:
        pass
    folders = [folder for folder in os.environ.get("PATH", os.defpath).split(":") if folder not in added]
    places = [f"{folder}/{name}" for folder in folders for name in ("node", "nodejs")]
    found = versions.started([*places, *versions.kept("node")], "--version")
    if not found:
        step.fail("there is no program `node` that can be started, and JavaScript actions need it: "
                  "apt-get install nodejs")
    place, version = next((one for one in found if int(one[1].split(".")[0] or 0) >= asked), found[0])
    if int(version.split(".")[0] or 0) < asked:
        step.warn(f"the action requests {using}; using node {version}, the installed version")
    return place


def main(text: str, *given: str) -> None:
    """Executes one phase of an action."""
    words, phase = dict(zip(given[::2], given[1::2])), os.environ.get("ACTRUN_PHASE") or "main"
    folder, script = script_of(text, words, phase)
    node, state, commands = find_node(words["--using"]), State(), relay.Commands()
    environment = {name: value for name, value in os.environ.items() if name not in OWN}
    environment.update({f"STATE_{name}": value for name, value in state.values.items()})
    environment.update(GITHUB_STATE=str(state.new), GITHUB_ACTION_PATH=str(folder),
                       GITHUB_ACTION_REF=words.get("--ref", ""),
                       GITHUB_ACTION_REPOSITORY=words.get("--repository", ""))
    status = relay.execute([node, str(script)], environment, commands)
    state.keep(commands.state)
    raise SystemExit(status)


if __name__ == "__main__":
    step.start(main)
