"""The modules of the front: from a repository to a plan, its execution, and words for a person."""

from __future__ import annotations

import json
from typing import Any


class Problem(Exception):
    """Something the caller can repair: the text names the option or the file and the remedy."""

    def __init__(self, text: str, status: int = 2) -> None:
        super().__init__(text)
        self.status = status


def read_json(text: str | bytes, **more: Any) -> Any:
    """The value of a text in JSON. Raises ValueError, also where it nests too deep for this reader."""
    try:
        return json.loads(text, **more)
    except RecursionError:
        raise ValueError("it nests too deep") from None
