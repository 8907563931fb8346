"""The arguments of each request of the Debug Adapter Protocol, and what is wrong with those of a client."""
from __future__ import annotations

from typing import Any

FLAG, NUMBER = "has to be true or false", "has to be a whole number"
TEXT, LIST = "has to be a text", "has to be a list"
SOURCE = {"path": TEXT}
THREAD = {"threadId": NUMBER, "granularity": TEXT}
WHEN = {"condition": TEXT, "hitCondition": TEXT, "logMessage": TEXT}
MOVES = ("pause", "next", "stepBack", "stepIn", "stepOut", "exceptionInfo", "continue", "reverseContinue")
# by requests: the kind of each argument. A list has one member, the kind of all its own ones; a name with `!`
# behind it
# has to be there
SHAPES: dict[str, dict[str, Any]] = {
    "initialize": {"linesStartAt1": FLAG, "columnsStartAt1": FLAG, "supportsRunInTerminalRequest": FLAG},
    "launch": {
        "record": TEXT,
        "cwd": TEXT,
        "workflows": [TEXT],
        "logs": TEXT,
        "stopOnEntry": FLAG,
        "live": FLAG,
        "noDebug": FLAG,
        "program": TEXT,
        "event": TEXT,
        "job": TEXT,
        "options": [TEXT],
    },
    "attach": {"folder": TEXT, "cwd": TEXT},
    "disconnect": {"terminateDebuggee": FLAG},
    "setBreakpoints": {"source": SOURCE, "breakpoints": [{"line!": NUMBER, **WHEN}], "lines": [NUMBER]},
    "setFunctionBreakpoints": {"breakpoints!": [{"name": TEXT, **WHEN}]},
    "setExceptionBreakpoints": {"filters": [TEXT], "filterOptions": [{"filterId!": TEXT}]},
    "dataBreakpointInfo": {"variablesReference": NUMBER, "name": TEXT},
    "setDataBreakpoints": {"breakpoints!": [{"dataId": TEXT, **WHEN}]},
    **dict.fromkeys(MOVES, THREAD),
    "stackTrace": {"threadId": NUMBER, "startFrame": NUMBER, "levels": NUMBER},
    "gotoTargets": {"source": SOURCE, "line!": NUMBER},
    "goto": {"threadId": NUMBER, "targetId": NUMBER},
    "restartFrame": {"frameId": NUMBER},
    "scopes": {"frameId": NUMBER},
    "completions": {"frameId": NUMBER, "text": TEXT, "column!": NUMBER},
    "variables": {"variablesReference": NUMBER, "start": NUMBER, "count": NUMBER},
    "evaluate": {"expression": TEXT, "frameId": NUMBER, "context": TEXT},
}
MOST = 1 << 53


def misshapen(command: str, given: dict[str, Any]) -> str:
    """What is wrong with the arguments of a request; nothing if all have their kinds."""
    return misfit(SHAPES.get(command, {}), given, "")


def misfit(kind: Any, value: Any, name: str) -> str:
    """What is wrong with a value, whose place has a name; nothing if it is of its kind."""
    if isinstance(kind, dict):
        return inside(kind, value, name) if isinstance(value, dict) else f"`{name}` has to be an object"
    if isinstance(kind, list):
        parts = value if isinstance(value, list) else []
        wrong = (misfit(kind[0], part, f"{name}[{at}]") for at, part in enumerate(parts))
        return next(filter(None, wrong), "") if isinstance(value, list) else f"`{name}` {LIST}"
    is_number = type(value) is int and abs(value) <= MOST
    fits = {FLAG: isinstance(value, bool), NUMBER: is_number, TEXT: is_text(value)}
    return "" if fits[kind] else f"`{name}` {kind}"


def inside(kinds: dict[str, Any], value: dict[str, Any], name: str) -> str:
    """What is wrong with the members of an object."""
    for key, kind in kinds.items():
        member = key.rstrip("!")
        place = f"{name}.{member}" if name else member
        if value.get(member) is None:
            wrong = f"`{place}` is missing" if key.endswith("!") else ""
        else:
            wrong = misfit(kind, value[member], place)
        if wrong:
            return wrong
    return ""


def is_text(value: Any) -> bool:
    """Whether a value is a text that files and programs can be named by."""
    return isinstance(value, str) and not any(sign == "\0" or "\ud800" <= sign <= "\udfff" for sign in value)
