"""Secrets in the values that steps hand on. The program would mask them, and a later step of the job needs
them.

So the program gets a *veil* in place of each secret: signs of Unicode's private area that no mask has in it.
The shim (shim.py) puts veils into the files of outputs and variables of a step, and secrets in their place
into what a later step gets. A leg gets the secrets of its own job alone, whatever veils it writes.
"""
from __future__ import annotations

import hashlib
import hmac
import marshal
import os
import secrets
from typing import Any

from .masks import BEGIN, DIGITS, END, texts
from .named_secrets import named_secrets
from .tree import make_root

KEY_BYTES = 32


def own_key() -> bytes:
    """The key of this user, by which the same secret has the same veil in a later execution."""
    place = make_root() / "key"
    try:
        number = os.open(place, os.O_WRONLY | os.O_CREAT | os.O_EXCL | os.O_CLOEXEC, 0o600)
    except FileExistsError:
        return place.read_bytes()
    with open(number, "wb") as file:
        file.write(secrets.token_bytes(KEY_BYTES))
    return place.read_bytes()


def veil_of(key: bytes, secret: str) -> str:
    """What the program has in place of a secret."""
    digest = hmac.new(key, secret.encode("utf-8", "surrogateescape"), hashlib.sha256).hexdigest()[:32]
    return BEGIN + "".join(DIGITS[int(digit, 16)] for digit in digest) + END


def for_shim(plan: dict[str, Any]) -> bytes:
    """The pairs of veil and secret of a plan, the longest secrets first, and for each leg the secrets of its
    job, as the shim reads them."""
    key, leg = own_key(), 0
    pairs: dict[bytes, bytes] = {}
    of_legs: dict[int, list[bytes]] = {}
    for run in plan["runs"]:
        known = {
            name: value for name, value in run["roots"]["secrets"].items() if isinstance(value, str) and value
        }
        for job in run["jobs"]:
            own = set(named_secrets({"env": run["env"], "job": job}, known).values())
            for _ in job["legs"]:
                of_legs[leg] = [one.encode("utf-8", "surrogateescape") for one in own]
                leg += 1
        for secret in filter(None, texts(run["roots"]["secrets"])):
            pairs[secret.encode("utf-8", "surrogateescape")] = veil_of(key, secret).encode()
    ordered = sorted(pairs.items(), key=lambda pair: -len(pair[0]))
    return marshal.dumps((ordered, of_legs))
