"""What every stub needs: its inputs, its outputs, folders, and lines that are shown."""

from __future__ import annotations

import os
import pathlib
import re
import sys
from types import TracebackType
from typing import Callable, NoReturn


def show_error(kind: type[BaseException], error: BaseException, trace: TracebackType | None) -> None:
    """Shows an error that nobody foresaw. A signal that ends the step needs no words."""
    if not issubclass(kind, KeyboardInterrupt):
        sys.__excepthook__(kind, error, trace)


sys.excepthook = show_error


def given(name: str, default: str = "") -> str:
    """The input of that name without blanks at its ends, or the default if it is missing or empty."""
    return os.environ.get("INPUT_" + name.upper().replace(" ", "_"), "").strip() or default


def given_flag(name: str) -> bool:
    """Whether the input of that name is true, as YAML spells it."""
    return given(name).lower() == "true"


def given_lines(name: str) -> list[str]:
    """The lines of the input of that name that are not blank."""
    return [line.strip() for line in given(name).splitlines() if line.strip()]


def warn(message: str, kind: str = "warning") -> None:
    """Shows a warning; the step goes on."""
    print(f"::{kind}::" + message.replace("%", "%25").replace("\r", "%0D").replace("\n", "%0A"), flush=True)


def fail(message: str) -> NoReturn:
    """Shows an error and ends the step as failed."""
    warn(message, "error")
    sys.exit(1)


def set_output(name: str, value: str, variable: str = "GITHUB_OUTPUT") -> None:
    """Hands on a value of any number of lines by the file that a variable names."""
    delimiter = f"end_{os.urandom(8).hex()}"
    with open(os.environ[variable], "a", encoding="utf-8") as file:
        file.write(f"{name}<<{delimiter}\n{value}\n{delimiter}\n")


def folder(variable: str = "GITHUB_WORKSPACE") -> pathlib.Path:
    """The directory that a variable names, made if missing; without the variable that of the repository,
    where steps start."""
    place = pathlib.Path(os.environ[variable])
    place.mkdir(parents=True, exist_ok=True)
    return place.resolve()


def numbers() -> list[str]:
    """The numbers of the leg and of the step."""
    return re.findall(r"\d+", os.path.basename(os.environ["GITHUB_OUTPUT"]))


def mark_another(text: str) -> None:
    """Notes for the end of the execution that the step used another version than was asked for."""
    place = pathlib.Path(os.environ["GITHUB_PATH"]).parent / f"another-{'-'.join(numbers())}"
    with open(place, "a", encoding="utf-8") as file:
        file.write(f"{text}\n")


def split_action(text: str) -> tuple[str, str]:
    """The action's name in small letters and its ref, of the text of `uses`."""
    name, _, ref = text.partition("@")
    return name.strip("/").lower(), ref


def start(main: Callable[..., None]) -> None:
    """Starts a stub with its arguments; an error of a file, or a variable that `actrun try` did not set, ends
    the step by its name."""
    try:
        main(*sys.argv[1:])
    except OSError as error:
        fail(f"{error.filename or 'a file cannot be written'}: {error.strerror}")
    except KeyError as error:
        fail(f"the variable {error} is not set: `actrun try` starts this program")
    except Exception as error:  # (of what nobody foresaw)
        fail(f"unforeseen: {type(error).__name__}: {error}; please report it where you got actrun")
