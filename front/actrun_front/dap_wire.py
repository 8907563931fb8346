"""Messages of the Debug Adapter Protocol: a header with `Content-Length`, then JSON."""
from __future__ import annotations

import json
from typing import Any, BinaryIO

LARGEST = 64 * 1024 * 1024
LONGEST_HEADER_LINE = 1024
MOST_HEADER_LINES = 16


class BadMessage(Exception):
    """One message cannot be used; the next one can be read."""


class LostStream(Exception):
    """No message can be read from the stream any more."""


def read_message(stream: BinaryIO) -> dict[str, Any] | None:
    """The next message, or None where the client has gone. Raises BadMessage or LostStream."""
    length = read_length(stream)
    body = b""
    while length is not None and len(body) < length:
        part = stream.read(length - len(body))  # (which may be less)
        length, body = length if part else None, body + part
    if length is None:
        return None
    try:
        message = json.loads(body.decode("utf-8"))
    except (ValueError, RecursionError) as fault:
        raise BadMessage(f"the message is not JSON in UTF-8: {fault}") from None
    if not isinstance(message, dict):
        raise BadMessage("the message is no JSON object")
    return message


def read_length(stream: BinaryIO) -> int | None:
    """The length that the next header gives, or None at the end of the stream."""
    length = None
    for _ in range(MOST_HEADER_LINES):
        line = stream.readline(LONGEST_HEADER_LINE)
        if not line:
            return None
        if not line.endswith(b"\n"):
            raise LostStream("a line of the header is too long or breaks off")
        name, _, value = line.strip().partition(b":")
        if name.lower() == b"content-length":
            if not value.strip().isdigit() or int(value) > LARGEST:
                raise LostStream(f"the Content-Length is no number from 0 to {LARGEST}")
            length = int(value)
        elif not name:
            if length is None:
                raise LostStream("the header has no Content-Length")
            return length
    raise LostStream("the header has too many lines")


def write_message(stream: BinaryIO, message: dict[str, Any]) -> None:
    """Writes one message whole."""
    body = json.dumps(message, separators=(",", ":")).encode("ascii")
    stream.write(b"Content-Length: %d\r\n\r\n" % len(body) + body)
    stream.flush()
