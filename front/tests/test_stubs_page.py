"""The page of the stubs has a row for each action of `actions.json`.

After a change of `actions.json`, `python3 -m tests.test_stubs_page` in this folder's parent prints the rows that the page needs.
"""

from __future__ import annotations

import json
import re
import unittest

from actrun_front.actions import STUBS


def listed(names: list[str]) -> str:
    """Names as code, with commas."""
    return ", ".join(f"`{name}`" for name in names)


def finds(tool: dict) -> str:
    """The programs of a tool of setup.py, and what it sets; a star marks one that only a version asks for."""
    programs, asked = tool["programs"].split(), "*" if "optional" in tool else ""
    names = [it.partition("=")[0] for it in tool.get("outputs", f"{programs[0]}-version=").split()]
    variables = [it.partition("=")[0] for it in tool.get("variables", "").split()]
    return f"{' or '.join(f'`{it}`' for it in programs)}{asked}: {listed(names + variables)}"


def row(name: str, entry: dict) -> str:
    """The row of an action; the beginning of the row of one with a program of its own."""
    if "tools" not in entry:
        return f"|`{name}` |"
    if "says" in entry:
        return f"|`{name}` |{entry['says']}"
    return f"|`{name}` |{'; '.join(finds(tool) for tool in entry['tools'])}"


def rows() -> list[str]:
    """The rows of all actions of the table."""
    table = json.loads((STUBS / "actions.json").read_text(encoding="utf-8"))
    return [row(name, entry) for name, entry in table.items()]


class Page(unittest.TestCase):
    def test_each_action_has_a_row(self) -> None:
        page = (STUBS / "README.md").read_text(encoding="utf-8").splitlines()
        written = [line for line in page if re.match(r"\|`[\w-]+/", line)]
        self.assertEqual([line[:len(wanted)] for line, wanted in zip(written, rows())], rows())
        for line in written:
            self.assertRegex(line, r"\A\|`[^`]+` \|[^|]+( \|[^|]+)?\Z")
        self.assertEqual(len({line.split("`")[1].lower() for line in written}), len(written))


if __name__ == "__main__":
    print("\n".join(rows()))
