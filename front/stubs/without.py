"""Replaces an action that does nothing here: it calls GitHub, or this program ships no stub for it.

The step fails with a sentence that says how to name a program for it; with `--lenient` it is skipped with a
warning. README.md, the page of the actions, has what such an action needs.
"""

from __future__ import annotations

import pathlib
import re

import step


def reason(text: str) -> str:
    """Why nothing replaces the action."""
    if text.startswith("."):
        return f"the local action {text} has other steps than `run`, so it is not inlined"
    if text.startswith("docker://"):
        return f"{text} is a container, and steps run on this machine"
    if "/.github/workflows/" in text:
        return f"{text} is a workflow of another repository, which is not fetched"
    name = re.escape(step.split_action(text)[0])
    page = (pathlib.Path(__file__).parent / "README.md").read_text(encoding="utf-8")
    found = re.search(rf"^\|([^|`]+) \|.*`({name})`", page, re.MULTILINE | re.IGNORECASE)
    return f"{found[2]} needs {found[1]}" if found else f"no program replaces the action {text}"


def main(text: str, *words: str) -> None:
    """Skips or fails the step of the action, for the reason behind `--why=` if there is one."""
    why = next((word.partition("=")[2] for word in words if word.startswith("--why=")), "") or reason(text)
    if "--lenient" in words:
        step.warn(f"skipped: {why}")
        return
    key = text if text.startswith((".", "docker://")) else text.partition("@")[0]
    step.fail(f"{why}. Name a program for it with --stub {key}=PROGRAM (/bin/true does nothing), "
              "or skip all such steps with --lenient")


if __name__ == "__main__":
    step.start(main)
