"""What the console of an editor completes: its commands, contexts and their properties, and variables."""
from __future__ import annotations

import re
from typing import Any, Callable, Dict, Iterable, List

WORD = re.compile(r"[\w.$-]*$")
OF_WHY = ("all", "run", "job", "leg", "step")
Found = List[Dict[str, Any]]


def completed(before: str, commands: Iterable[str], contexts: Callable[[], Dict[str, Any]],
              variables: Callable[[], Dict[str, Any]], base: int) -> Found:
    """The words that may be in place of the last one of a text; columns count from `base`."""
    found = WORD.search(before)
    word = found[0] if found else ""
    if word.startswith("$"):
        return targets(("$" + name for name in variables()), word, before, base, "variable")
    *path, last = word.split(".")
    if path:
        return targets(properties(contexts(), path), last, before, base, "property")
    head = before[:len(before) - len(word)].split()
    if head[:1] == ["why"]:
        return targets(OF_WHY if len(head) == 1 else (), word, before, base, "keyword")
    own = targets(() if head else commands, word, before, base, "keyword")
    return own + targets(contexts(), word, before, base, "module")


def properties(value: Any, path: Iterable[str]) -> Iterable[str]:
    """The names below a path; none where it leads to no object."""
    for part in path:
        inner = {name.lower(): one for name, one in value.items()} if isinstance(value, dict) else {}
        value = inner.get(part.lower())
    return value if isinstance(value, dict) else ()


def targets(names: Iterable[str], begun: str, before: str, base: int, kind: str) -> Found:
    """The names that begin so, as a client takes them."""
    start = len(before) - len(begun)
    return [{"label": name, "type": kind, "start": start + base, "length": len(begun)}
            for name in sorted(names) if name.lower().startswith(begun.lower())]
