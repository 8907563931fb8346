"""The secrets that jobs name: a run has no others, so neither its plan nor its record has them."""
from __future__ import annotations

from typing import Any

from .expressions import references, split, tokens
from .masks import texts

ALWAYS = "github_token"


def named_secrets(run: dict[str, Any], secrets: dict[str, str]) -> dict[str, str]:
    """The secrets that the texts of a run's plan name; all if a text reads the context as a whole."""
    names = {ALWAYS}
    for text in texts({key: value for key, value in run.items() if key != "roots"}):
        for is_expression, piece in split(text) if "secrets" in text.lower() else ():
            accesses = [access for access in references(piece)[0] if access.context == "secrets"]
            found = {access.keys[0].lower() if access.keys else "" for access in accesses}
            if is_expression and ("" in found or tokens(piece) is None):
                return secrets
            names |= found if is_expression else set()
    return {name: value for name, value in secrets.items() if name.lower() in names}
