"""`actrun report`: one HTML page on which a person walks a record: its tree, its timeline, and the reasons,
values and logs of each part."""
from __future__ import annotations

import argparse
import base64
import hashlib
import html
import json
import os
import pathlib
import shlex
import sys
from typing import Any

from . import Problem, changed_files
from .dap_logs import plan_masks
from .dap_record import Record, read_record
from .execute import program
from .explained import Explainer, brief
from .kept_flows import kept_flows
from .names import as_text
from .report_data import CONTROL, Boards, read_logs, read_times
from .reasons import displaced, ended_jobs, reasons
from .visible import unfailing
from .whole import whole

HERE = pathlib.Path(__file__).resolve().parent
# the files of the script, in the order in which they are executed
SCRIPTS = ("report_board", "report_chart", "report_details", "report_search", "report")
ANSWERS = {"not-started": "not started", "bad-output": "bad output"}


def page(command: str, path: pathlib.Path, **options: Any) -> str:
    """The page of a record, about which a command answers. Options are `logs`, `times` (paths), `around` (a
    place), and `named`: the path by which a person knows the record."""
    return page_of(shown(read_record(command, path), path, **options))


def page_of(found: dict[str, Any]) -> str:
    """The page that shows what was found."""
    data = json.dumps(found, ensure_ascii=False, separators=(",", ":")).replace("<", "\\u003c")
    style, script = (HERE / "report.css").read_text(encoding="utf-8"), script_of()
    rules = "; ".join(
        [
            "default-src 'none'",
            f"script-src '{digest(script)}'",
            f"style-src '{digest(style)}'",
            "base-uri 'none'",
            "form-action 'none'",
        ]
    )
    parts = {"RULES": html.escape(rules), "TITLE": html.escape(found["title"]), "STYLE": style, "DATA": data,
             "SCRIPT": script}
    text, rest = "", (HERE / "report.html").read_text(encoding="utf-8")
    for name, part in parts.items():
        before, _, rest = rest.partition(f"@{name}@")
        text += before + part
    return text + rest


def script_of() -> str:
    """The script of the page: its files share one scope, which nothing outside sees."""
    inner = "".join((HERE / f"{name}.js").read_text(encoding="utf-8") for name in SCRIPTS)
    return f"\n'use strict';\n(() => {{\n{inner}}})();\n"


def digest(text: str) -> str:
    """What a Content-Security-Policy calls an inline script or style."""
    return "sha256-" + base64.b64encode(hashlib.sha256(text.encode("utf-8")).digest()).decode("ascii")


def shown(record: Record, path: pathlib.Path, logs: pathlib.Path | None = None,
          times: pathlib.Path | None = None, around: int | None = None,
          named: pathlib.Path | None = None) -> dict[str, Any]:
    """What the page's script reads."""
    masks = plan_masks(record.plan)
    clock = read_times(times, record.last) if times else None
    boards = Boards(record.program, path, masks, record.last, around)
    untrue = frozenset(part.words for part in record.parts.values() if part.fact == "untrue")
    asked = Explainer(record, masks, boards.board_at, kept_flows(named or path, record.legs), logs, untrue)
    states = last_states(boards)
    failed = {"-".join(words.split()[1:]) for words, state in states.items() if state == "failure"}
    hide = masks.hide
    repository, results = hide(repository_of(record.plan)), hide(title_of(record.plan, states))
    return {
        "title": " \u00b7 ".join(filter(None, (results, repository))).translate(CONTROL),
        "record": hide(shlex.quote(str(named or path))).translate(CONTROL),
        "repository": repository.translate(CONTROL), "around": around,
        "total": record.last, "first": boards.first, "last": boards.last,
        "runs": hide(parts(record)), "texts": boards.texts.texts, "base": boards.base, "steps": boards.steps,
        "entries": entries(record)[boards.first:boards.last + 1],
        "jobs": ended_jobs(record.parts, record.legs_of), "displaced": displaced(record.parts),
        "why": reasons(record.parts, hide),
        "values": {words: text.translate(CONTROL) for words, text in brief(asked, boards.last).items()},
        "logs": read_logs(record, logs, masks, failed) if logs else None,
        "files": {key: [[kind, hide(path).translate(CONTROL)] for kind, path in changes]
                  for key, changes in changed_files.of_record(path).items()},
        "times": clock and {**clock, "entries": [0, *clock["entries"]][boards.first:boards.last + 1]},
    }


def title_of(plan: dict[str, Any], states: dict[str, str]) -> str:
    """The workflows with their results."""
    results = []
    for number, run in enumerate(plan["runs"]):
        state = states[f"run {number}"].removeprefix("closed ")
        results.append(f"{run['flow']}: {state.partition(' ')[0]}")
    return ", ".join(results[:3] + ([f"{len(results) - 3} more"] if len(results) > 3 else []))


def repository_of(plan: dict[str, Any]) -> str:
    """The repository that the first run names."""
    github = plan["runs"][0]["roots"]["github"] if plan["runs"] else None
    found = github.get("repository") if isinstance(github, dict) else None
    return found if isinstance(found, str) else ""


def parts(record: Record) -> list[Any]:
    """Runs with jobs, a job with the names of its legs and what its steps are."""
    def inner(*words: Any) -> str:
        return record.name(*words).partition(" (")[2][:-1]
    return [
        [
            inner("run", number),
            [
                [
                    inner("job", job["number"]),
                    [[inner("leg", leg), values(record, leg)] for leg in record.legs_of[job["number"]]],
                    [
                        [
                            inner("step", record.legs_of[job["number"]][0], at),
                            step["condition"] or "",
                            (step["work"].get("run") or step["work"].get("uses", "")).translate(CONTROL),
                        ]
                        for at, step in enumerate(job["steps"])
                    ],
                ]
                for job in run["jobs"]
            ],
        ]
        for number, run in enumerate(record.plan["runs"])
    ]


def values(record: Record, leg: int) -> list[list[str]]:
    """The matrix of a leg, names and values."""
    pairs = record.legs[leg].values.items()
    return [[name.translate(CONTROL), as_text(value).translate(CONTROL)] for name, value in pairs]


def entries(record: Record) -> list[list[Any]]:
    """Of each place the event that led to it, its run, job or leg, its worker, and of a step its number and
    how its program answered."""
    found: list[list[Any]] = []
    for place, entry in enumerate(record.entries):
        about = next((entry[kind] for kind in ("run", "job", "leg") if kind in entry), 0)
        step = [record.begun(about, place) - 1] if entry["event"] in ("begin", "end") else []
        answer = entry.get("answer")
        ended = [ANSWERS.get(answer["kind"]) or f"exit {answer['code']}"] if answer else []
        found.append([entry["event"], about, entry.get("worker", 0), *step, *ended])
    return found


def last_states(boards: Boards) -> dict[str, str]:
    """What the lines of all runs, jobs, legs and done steps say at the end of the page, under the words by
    which `why` is asked."""
    found = {}
    for (kind, name), block in boards.blocks.items():
        words, lines = f"{kind.decode()} {name.decode()}", [boards.texts.texts[line] for line in block]
        if kind != b"ends":
            found[words] = lines[0]
            found.update(
                {
                    f"step {name.decode()} {line.split(' ')[1]}": line.split(" ")[2]
                    for line in lines[1:]
                    if line.startswith("step ")
                }
            )
    return found


def beside(path: pathlib.Path, logs: pathlib.Path, times: pathlib.Path,
           record: Record) -> pathlib.Path | None:
    """The page of a record that `try` made, written beside it for its owner alone, without a clock where the
    times do not fit; None where that fails."""
    target = path.with_name("report.html")
    for clock in (times, None):
        try:
            write(target, page_of(shown(record, path, logs, clock)), 0o600)
            return target
        except (Problem, OSError, ValueError, KeyError):
            continue
    return None


def write(target: pathlib.Path, text: str, mode: int = 0o666) -> None:
    """Writes a file, which gets a mode where it is new. Raises OSError with its name."""
    try:
        with open(os.open(target, os.O_WRONLY | os.O_CREAT | os.O_TRUNC, mode), "w", encoding="utf-8",
                  errors="replace", newline="\n") as file:
            file.write(text)
    except OSError as error:
        raise OSError(error.errno, error.strerror, os.fspath(target)) from None


def options(arguments: list[str]) -> argparse.Namespace:
    """The options of the command line."""
    reader = argparse.ArgumentParser(
        prog="actrun report", allow_abbrev=False,
        description="Writes one HTML page on which you walk a record: its tree, its timeline, and the reasons, values and logs of each part.",
        epilog="The page has no outside reference. Its keys: right and left, Home and End, n and p, f, space; ? lists them.")
    reader.add_argument(
        "record", metavar="RECORD", type=pathlib.Path, help="what `run --record` or `try` wrote"
    )
    reader.add_argument(
        "-o",
        dest="output",
        metavar="FILE",
        type=pathlib.Path,
        help="where to write the page (default: RECORD.html)",
    )
    reader.add_argument(
        "--logs", metavar="DIR", type=pathlib.Path, help="show the step-L-S.log of this directory, masked"
    )
    reader.add_argument(
        "--times", metavar="FILE", type=pathlib.Path, help="what `run --times` wrote: gives the chart a clock"
    )
    reader.add_argument(
        "--around",
        metavar="K",
        type=int,
        help="if the record has more than 100,000 entries, show the places around K",
    )
    return reader.parse_args(arguments)


def main(arguments: list[str]) -> int:
    """The exit status of `actrun report ARGUMENTS`."""
    chosen = options(arguments)
    if chosen.logs and not chosen.logs.is_dir():
        raise Problem(f"--logs {chosen.logs}: there is no such directory: name the one with the files "
                      "step-L-S.log")
    named = pathlib.Path(os.path.abspath(chosen.record))
    with whole(named) as path:
        text = page(program(), path, logs=chosen.logs, times=chosen.times, around=chosen.around, named=named)
    target = chosen.output or chosen.record.with_name(chosen.record.name + ".html")
    write(target, text)
    unfailing(sys.stdout, "surrogateescape")
    print(target)
    return 0
