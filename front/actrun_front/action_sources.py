"""How each `uses` of an execution is executed: by a program that replaces the action, or by itself."""
from __future__ import annotations

import functools
import json
import os
import shutil
import subprocess
from dataclasses import dataclass, field, replace
from pathlib import Path
from typing import Any
from urllib.parse import quote

from . import Problem, containers
from .actions import STUBS, action_name, is_whole, named_program
from .expressions import has_expression
from .fetch import (BASE, LOCK_NAME, FetchError, Reference, Store, check_base, parse_reference, read_lock,
                    read_small, write_lock)
from .yaml_reader import Mark, copied, read_document

FILES = ("action.yml", "action.yaml")
WORKFLOWS = (".yml", ".yaml")
PHASES = ("pre", "main", "post")


class ActionError(Exception):
    """A folder has no action that can be executed: the text says why."""


@dataclass(frozen=True)
class Source:
    """Where the files of an action are. `folder` is empty for one that stays a step with `uses`."""

    says: str                           # what `try -n` says of it
    folder: Path | None = None          # with its action.yml
    top: Path = Path("/")               # no link may lead out of this folder
    place: str = ""                     # the folder as steps know it; one with `./` is below the workspace
    reference: Reference | None = None  # of an action of another repository
    why: str = ""                       # its step fails, for this reason
    post: str = ""                      # the condition of the step that its stub has after those of the job


@dataclass
class Action:
    """An action that was read."""

    value: Any
    source: Source

    @property
    def using(self) -> str:
        """What executes it: `composite`, `docker`, or `node` and a number."""
        runs = self.value.get("runs") if isinstance(self.value, dict) else None
        return str(runs.get("using")).lower() if isinstance(runs, dict) else ""


def inside(top: Path, path: Path) -> Path:
    """The path that a path leads to by links, which has to be below a folder. Raises ActionError."""
    real, real_top = Path(os.path.realpath(path)), Path(os.path.realpath(top))
    if real != real_top and real_top not in real.parents:
        raise ActionError(f"has an {path.name} that leads out of it by a link")
    return real


def read_action(source: Source, name: str, mark: Mark) -> Action:
    """The action of a source, whose lines are those of the place that uses it. Raises ActionError."""
    assert source.folder is not None
    file = next((source.folder / one for one in FILES if os.path.lexists(source.folder / one)), None)
    if file is None and (source.folder / "Dockerfile").is_file():
        return Action({"runs": {"using": "docker", "image": "Dockerfile"}}, source)
    if file is None:
        raise ActionError(f"has no {' and no '.join(FILES)}")
    name += file.name
    try:
        document = read_document(read_small(inside(source.top, file)))
    except OSError as error:
        raise ActionError(f"cannot be read: {file.name}: {error.strerror}") from None
    for fault in document.faults:
        raise ActionError(f"has an error: {name}:{fault.line}: {fault.text}")
    return Action(copied(document.value, lambda inner: Mark(mark.line, f"{name}:{inner.line}")), source)


def shipped() -> dict[str, str]:
    """The actions with a stub, each with the condition of its step at the end of the job, if it has one."""
    table = json.loads((STUBS / "actions.json").read_text(encoding="utf-8"))
    return {name.lower(): entry.get("post", "") for name, entry in table.items() if entry.get("stub")}


def matching(named: dict[str, Any], uses: str) -> str | None:
    """The longest name among those that the person gave, with or without @ref, that is an action's; None
    without one."""
    name, _, ref = uses.partition("@")
    parts = action_name(uses).split("/")
    for count in range(len(parts), 1, -1):
        for wanted in ("/".join(parts[:count]) + f"@{ref}", "/".join(parts[:count])):
            found = [key for key in named if normal(key) == wanted]
            if found:
                return found[0]
    return None


def normal(key: str) -> str:
    """A name that the person gave, without what does not count in it."""
    name, at, ref = key.partition("@")
    return name.strip("/").lower() + at + ref


@dataclass
class Actions:
    """The actions of one execution."""

    options: Any
    top: Path                    # of the repository
    play: Path                   # the folder that steps see
    looks: bool                  # nothing is executed, so nothing is fetched
    tell: Any                    # shows a line
    # text of `uses` -> the words after `python` that execute it
    commands: dict[str, list[str]] = field(default_factory=dict)
    known: dict[str, Source] = field(default_factory=dict)  # what was found for a text of `uses`
    commits: dict[str, str] = field(default_factory=dict)   # of actions that are used, by `owner/name@ref`
    failures: dict[str, str] = field(default_factory=dict)  # why such actions cannot be fetched
    used: set[str] = field(default_factory=set)             # names of --action and --real that counted

    def __post_init__(self) -> None:
        self.store = Store(check_base(self.options.actions_url or BASE))
        self.stands, self.pins = shipped(), read_lock(self.top)
        self.folders = dict(self.options.action)
        if self.options.lock and self.looks:
            raise Problem("--lock fetches actions, and -n, -l and -g fetch nothing: leave one of them out")

    def source(self, uses: str) -> Source:
        """Where the action of a text of `uses` is. Raises Problem if a ref has moved."""
        if uses not in self.known:
            self.known[uses] = self.find(uses)
        return self.known[uses]

    def find(self, uses: str) -> Source:
        """What `source` gives, for a text that is new."""
        reference = parse_reference(uses)
        if named_program(uses, self.options.named_stubs):
            return Source("named program")
        if uses == "." or uses.startswith("./"):
            return Source("of the repository", Path(uses), place=uses)
        if is_whole(uses) or reference is None and action_name(uses).endswith(WORKFLOWS):
            return Source("")
        if reference is None:
            return Source("", why=f"{uses} is not spelled OWNER/NAME@REF or OWNER/NAME/PATH@REF")
        given = matching(self.folders, uses)
        if given:
            self.used.add(given)
            return self.of_folder(reference, given)
        real = matching(dict.fromkeys(self.options.real), uses)
        self.used |= {real} if real else set()
        if action_name(uses) in self.stands and not real:
            return Source("stub; --real executes the action itself", post=self.stands[action_name(uses)])
        return self.of_store(reference, uses)

    def of_folder(self, reference: Reference, given: str) -> Source:
        """The source of an action that --action names a folder for."""
        top = self.folders[given]
        is_whole_repository = len(given.partition("@")[0].strip("/").split("/")) == 2
        more = reference.path if is_whole_repository else ""
        folder = top / more
        is_workflow = folder.is_file() and more.endswith(WORKFLOWS)
        if not is_workflow and not any((folder / name).is_file() for name in (*FILES, "Dockerfile")):
            raise Problem(f"--action {given}={top}: there is no {' or '.join(FILES)} in {folder}: name the "
                          "directory that has it")
        place = self.placed(top, reference, "" if is_whole_repository else given)
        return Source(f"from {top}", folder, top, f"{place}/{more}".rstrip("/"), reference)

    def of_store(self, reference: Reference, uses: str) -> Source:
        """The source of an action that is kept, or is fetched first."""
        url = self.store.url(reference)
        try:
            commit = self.commit(reference)
        except FetchError as fault:
            if self.looks and self.may_fetch():
                return Source(f"fetched from {url} when it is executed")
            ends = "skipped" if self.options.lenient else "fails"
            return Source(f"{fault}: its step {ends}", why=f"{uses} cannot be fetched from {url}: {fault}")
        tree = self.store.tree(reference, commit)
        place = f"{self.placed(tree, reference)}/{reference.path}".rstrip("/")
        return Source(f"commit {commit[:12]}, kept", tree / reference.path, tree, place, reference)

    def may_fetch(self) -> bool:
        """Whether the options let actions be fetched."""
        return not (self.options.no_fetch or self.options.offline)

    def commit(self, reference: Reference) -> str:
        """The commit of a reference, whose files are kept by then. Raises FetchError, Problem if the ref
        has moved."""
        key = reference.key
        if key in self.commits:
            return self.commits[key]
        pin = "" if self.options.lock else self.pins.get(key, "")
        asks_again = self.options.lock and self.may_fetch() and not reference.commit
        found = pin or self.store.commit_of(reference)
        if asks_again or not self.store.has(reference, found):
            found = self.fetched(reference)
        if pin and found != pin:
            raise Problem(f"{self.top / LOCK_NAME}: {key} is pinned to {pin}, and names {found} now: "
                          "see what changed, then write the file by `actrun try --lock`")
        if self.pins and not pin and not self.options.lock and not reference.commit:
            self.tell(f"note: {LOCK_NAME} does not pin {key}: --lock writes it", "note")
        self.commits[key] = found
        return found

    def fetched(self, reference: Reference) -> str:
        """The commit of a reference that is fetched, which a line says. Raises FetchError."""
        if not self.may_fetch():
            option = "--offline" if self.options.offline else "--no-fetch"
            raise FetchError(f"it is not kept here, and {option} fetches nothing")
        if self.looks:
            raise FetchError("it is not kept here")
        if reference.key in self.failures:
            raise FetchError(self.failures[reference.key])
        try:
            found = self.store.fetch(reference)
        except FetchError as fault:
            self.failures[reference.key] = str(fault)
            raise
        self.tell(f"note: fetched {reference.owner}/{reference.name}@{reference.ref} from "
                  f"{self.store.url(reference)}: commit {found}", "note")
        return found

    def placed(self, tree: Path, reference: Reference, name: str = "") -> str:
        """The folder with a copy of an action's repository for the steps of this execution, which may write
        there. It is made where something is executed, and is of no use for a called workflow. With a name the
        tree is that of a part of the repository."""
        last = quote(f"{reference.ref}/{name}" if name else reference.ref, safe="")
        place = self.play.joinpath("actions", reference.owner, reference.name, last)
        if not self.looks and not place.exists() and not reference.path.endswith(WORKFLOWS):
            place.parent.mkdir(mode=0o700, parents=True, exist_ok=True)
            words = ["cp", "-a", "--reflink=auto", "--", os.path.realpath(tree), str(place)]
            done = subprocess.run(words, capture_output=True, encoding="utf-8", errors="replace", check=False)
            if done.returncode:
                raise Problem(f"{tree} cannot be copied to {place}: {done.stderr.strip()}", 3)
            shutil.rmtree(place / ".git", ignore_errors=True)
        return str(place)

    def execute_by_node(self, uses: str, action: Action) -> None:
        """Has the steps of a JavaScript action executed by the program for these."""
        runs, source = action.value["runs"], action.source
        if uses not in self.commands:
            self.known[uses] = replace(source, says=f"{action.using}, {source.says}")
        words = ["--folder", source.place, "--using", action.using]
        for phase in PHASES:
            words += [f"--{phase}", str(runs[phase])] if runs.get(phase) else []
        if source.reference:
            of = source.reference
            words += ["--repository", f"{of.owner}/{of.name}", "--ref", of.ref]
        self.commands[uses] = [str(STUBS / "javascript.py"), uses, *words]

    @functools.cached_property
    def lacks_engine(self) -> str:
        """Why no engine executes Docker actions; empty if one does, or if nothing is executed."""
        return "" if self.looks else containers.lacks(self.options)

    def below(self, source: Source) -> str:
        """The folder of an action of another repository, below that of all such actions."""
        return os.path.relpath(source.place, self.play / "actions")

    def fails(self, uses: str, why: str, says: str) -> None:
        """Has the steps of an action fail, or be skipped by --lenient, for a reason."""
        ends = "is skipped" if self.options.lenient else "fails"
        self.known[uses] = Source(f"{says}, its step {ends}", why=why)

    def reasons(self) -> dict[str, str]:
        """Why the steps of actions fail, by the texts of `uses`."""
        return {uses: source.why for uses, source in self.known.items() if source.why}

    def words(self) -> dict[str, str]:
        """What `try -n` says of actions, by the texts of `uses`."""
        return {uses: source.says for uses, source in self.known.items() if source.says}

    def settle(self) -> None:
        """Ends the search for actions: writes actrun.lock where that is asked for, and refuses a name of
        --action or --real on the command line that no workflow uses."""
        self.write_lock()
        given = [("action", name) for name, _ in self.options.line.action]
        for option, name in (*given, *(("real", name) for name in self.options.line.real)):
            if name not in self.used:
                raise Problem(
                    f"--{option} {name}: no workflow of the event uses this action, or another option "
                    "decides how it is executed"
                )

    def write_lock(self) -> None:
        """Writes actrun.lock, where that is asked for: what it pins of other actions stays."""
        if self.options.lock:
            found = {name: commit for name, commit in self.commits.items() if not name.endswith(f"@{commit}")}
            place = write_lock(self.top, {**self.pins, **found})
            self.tell(f"note: {place} pins {len(found)} action{'s' if len(found) != 1 else ''}", "note")


def check_main(action: Action) -> str:
    """Why a JavaScript action cannot be executed, or nothing."""
    runs = action.value["runs"]
    named = [str(runs[phase]) for phase in PHASES if runs.get(phase)]
    if not runs.get("main"):
        return "has no `main` under its `runs`"
    return next((f"names {name}, which has an expression" for name in named if has_expression(name)), "")
