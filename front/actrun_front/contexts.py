"""The contexts that are known before execution: `github` with the payload of its event, `inputs`, `vars`,
`secrets` and `runner`."""
from __future__ import annotations

import argparse
import functools
import hashlib
import json
import platform
import re
from dataclasses import dataclass, field
from pathlib import Path
from typing import Any, Callable
from urllib.parse import urlsplit

from stubs.automaton import Automaton

from . import Problem, read_json
from .lower_numbers import settled
from .lower_tree import texts
from .options import read_text
from .tree import GITHUB, Facts, Room, git
from .yaml_reader import Number

GREATEST = 9007199254740991
NO_COMMIT = "0" * 40
NUMBER = r"[-+]?(\d+\.?\d*|\.\d+)([eE][-+]?\d+)?"
COMMIT = re.compile("[0-9a-f]{40,64}")
MOST_COMMITS = 20
NAMES = {
    "Darwin": "macOS",
    "x86_64": "X64",
    "AMD64": "X64",
    "aarch64": "ARM64",
    "arm64": "ARM64",
    "i386": "X86",
    "i686": "X86",
}
# where a workflow names none
TYPES = dict.fromkeys(("pull_request", "pull_request_target"), ["opened", "synchronize", "reopened"])
# of `github.ref`: events of the current branch or tag, and those of the payload; all others are of the
# default branch
OF_CURRENT = ("workflow_call", "create", "merge_group", "repository_dispatch", "release")
OF_PAYLOAD = ("push", "workflow_dispatch")


@dataclass(frozen=True)
class Play:
    """What is the same for all workflows of one call."""

    event: str
    facts: Facts
    options: argparse.Namespace
    payload: dict[str, Any] | None         # of --eventpath
    room: Room
    number: int                            # of the run, from 1
    identity: int                          # of the run
    actions: Any = None                    # (action_sources.Actions) how each `uses` is executed
    needs: dict[str, Any] = field(default_factory=dict)  # of late jobs by workflow, when known

    @property
    def workspace(self) -> Path:
        """The tree that `github.workspace` names."""
        return self.facts.top if self.options.in_place else self.room.tree


def triggers(value: Any) -> dict[str, Any]:
    """The events of a workflow's value, each with what is below it."""
    events = value.get("on", value.get("true")) if isinstance(value, dict) else None
    if isinstance(events, dict):
        return dict(events)
    return dict.fromkeys(texts(events))


def contexts(play: Play, workflow: str, value: dict[str, Any]) -> dict[str, Any]:
    """The contexts of one workflow: `workflow` is its file from the top of the repository."""
    options, trigger = play.options, triggers(value).get(play.event)
    of_file = (play.payload or {}).get("inputs")
    given = {name: text_of(value) for name, value in of_file.items()} if isinstance(of_file, dict) else {}
    inputs = read_inputs(trigger, {**given, **options.inputs}, workflow)
    event = (
        payload(play.event, play.facts, trigger, workflow, inputs) if play.payload is None else play.payload
    )
    secrets = {"GITHUB_TOKEN": "", **options.secrets}
    name = value.get("name")
    github = github_context(play, event, workflow, name if isinstance(name, str) else workflow)
    runner = {
        "os": NAMES.get(platform.system(), platform.system()),
        "arch": NAMES.get(platform.machine(), "X64"),
        "name": "actrun",
        "environment": "github-hosted",
        "temp": str(play.room.play / "temp"),
        "tool_cache": str(play.room.play / "tools"),
        "debug": "1" if {**options.vars, **secrets}.get("ACTIONS_STEP_DEBUG") == "true" else "",
    }
    return {
        "github": {**github, "token": secrets["GITHUB_TOKEN"]},
        "inputs": inputs,
        "vars": dict(options.vars),
        "secrets": secrets,
        "runner": runner,
    }


def github_context(play: Play, event: dict[str, Any], workflow: str, name: str) -> dict[str, Any]:
    """`github` without what differs by job."""
    facts, sha = play.facts, play.facts.sha
    ref, head, base = refs(play.event, event, facts)
    if play.event == "push" and text_at(event, "after").strip("0"):
        sha = text_at(event, "after")
    elif play.event == "pull_request_target" and sha:
        sha = text_at(event, "pull_request", "base", "sha") or facts.heads.get(base, sha)
    # github.com and the tenants of ghe.com have a host for their interfaces, a server of one's own has paths
    host = urlsplit(facts.server).netloc
    api = f"https://api.{host}" if host == GITHUB or host.endswith(".ghe.com") else f"{facts.server}/api"
    return {
        "actor": facts.actor,
        "actor_id": text_at(event, "sender", "id") or str(number_for("user", facts.actor)),
        "api_url": f"{api}/v3" if api.endswith("/api") else api,
        "base_ref": base,
        "event": event,
        "event_name": play.event,
        "graphql_url": f"{api}/graphql",
        "head_ref": head,
        "ref": ref,
        "ref_name": re.sub(r"^refs/(heads/|tags/|pull/)?", "", ref),
        "ref_protected": False,
        "ref_type": "tag" if ref.startswith("refs/tags/") else "branch" if ref else "",
        "repository": facts.full_name,
        "repository_owner": facts.owner,
        "repository_id": text_at(event, "repository", "id") or str(number_for("repository", known_as(facts))),
        "repository_owner_id": text_at(event, "repository", "owner", "id")
        or str(number_for("user", facts.owner or facts.actor)),
        "repositoryUrl": f"git://{facts.web.partition('://')[2]}.git" if facts.web else "",
        "retention_days": "90",
        "run_attempt": "1",
        "run_id": str(play.identity),
        "run_number": str(play.number),
        "secret_source": "Actions" if play.options.secrets else "None",
        "server_url": facts.server,
        "sha": sha,
        "triggering_actor": facts.actor,
        "workflow": name,
        "workflow_ref": f"{facts.full_name}/{workflow}@{ref}".lstrip("/"),
        "workflow_sha": facts.sha,
        "workspace": str(play.workspace),
    }


def number_for(kind: str, name: str) -> int:
    """A number in place of GitHub's for a user or a repository: the same for the same name."""
    return (
        100_000_000
        + int(hashlib.sha256(f"{kind} {name.lower()}".encode("utf-8", "replace")).hexdigest()[:12], 16)
        % 900_000_000
    )


def known_as(facts: Facts) -> str:
    """The name of the repository, that of its folder where it is not hosted."""
    return facts.full_name or facts.top.name


def text_at(value: Any, *path: str) -> str:
    """The text or number at a path of keys, or nothing."""
    for key in path:
        value = value.get(key) if isinstance(value, dict) else None
    return str(value) if isinstance(value, (str, int)) and not isinstance(value, bool) else ""


def text_of(value: Any) -> str:
    """A value as a variable has it."""
    return value if isinstance(value, str) else json.dumps(value)


def refs(event: str, data: dict[str, Any], facts: Facts) -> tuple[str, str, str]:
    """`ref`, `head_ref` and `base_ref` of the event, as GitHub's table of events has them."""
    if event.startswith("pull_request"):
        head, base = text_at(data, "pull_request", "head", "ref"), text_at(
            data, "pull_request", "base", "ref"
        )
        number = text_at(data, "number") or text_at(data, "pull_request", "number")
        return (
            (f"refs/heads/{base}" if event == "pull_request_target" else f"refs/pull/{number}/merge"),
            head,
            base,
        )
    ref, tag = text_at(data, "ref"), text_at(data, "release", "tag_name")
    if event in OF_PAYLOAD:
        return (f"refs/heads/{ref}" if ref and not ref.startswith("refs/") else ref), "", ""
    if event == "release" and tag:
        return f"refs/tags/{tag}", "", ""
    return (facts.ref if event in OF_CURRENT else f"refs/heads/{facts.default_branch}"), "", ""


def read_inputs(trigger: Any, values: dict[str, str], workflow: str) -> dict[str, Any]:
    """`inputs`: what the event of the workflow declares, with the given values over the defaults, in the
    declared types."""
    declared = trigger.get("inputs") if isinstance(trigger, dict) else None
    result: dict[str, Any] = {}
    for name, entry in (declared if isinstance(declared, dict) else {}).items():
        entry = entry if isinstance(entry, dict) else {}
        kind, choices = str(entry.get("type")), entry.get("options")
        choices = list(map(text_of, choices)) if kind == "choice" and isinstance(choices, list) else []
        value = next(
            (text for key, text in values.items() if key.lower() == name.lower()), entry.get("default")
        )
        text = text_of(settled(value) if isinstance(value, Number) else value)
        if value is None and entry.get("required") is True:
            raise Problem(f"{workflow}: the input {name} is required: --input {name}=VALUE")
        if value is None:
            result[name] = choices[0] if choices else {"boolean": False, "number": 0}.get(kind, "")
        elif choices and text not in choices:
            raise Problem(f"{workflow}: the input {name} is {text}, which is none of {', '.join(choices)}: --input {name}=ONE_OF_THEM")
        elif kind in ("boolean", "number"):
            if not re.fullmatch("(?i)true|false" if kind == "boolean" else NUMBER, text):
                what = "boolean: --input {0}=true, or false" if kind == "boolean" else "number: --input {0}=1"
                raise Problem(f"{workflow}: the input {name} is {text}, no {what.format(name)}")
            result[name] = json.loads(text.lower()) if kind == "boolean" else settled(text)
        else:
            result[name] = text
    return result


def read_payload(file: Path) -> dict[str, Any]:
    """The payload of --eventpath as a plan can hold it: fractions and numbers that are too great become
    texts."""
    try:
        data = read_json(read_text(file, "--eventpath"), parse_float=settled, parse_constant=str,
                          parse_int=lambda text: int(text) if abs(int(text)) <= GREATEST else text)
    except (ValueError, RecursionError) as error:
        raise Problem(f"--eventpath {file}: this is not JSON ({error})") from None
    if not isinstance(data, dict):
        raise Problem(f"--eventpath {file}: an object was expected, the payload of the event")
    return data


def payload(event: str, facts: Facts, trigger: Any, workflow: str, inputs: dict[str, Any]) -> dict[str, Any]:
    """The payload of `event` for one workflow in the shape that GitHub documents for webhooks, with what git
    knows; `trigger` is what the workflow has at the event's name under `on`."""
    user = {"login": facts.actor, "id": number_for("user", facts.actor), "type": "User"}
    repository = {
        "id": number_for("repository", known_as(facts)),
        "name": facts.name or facts.top.name,
        "full_name": facts.full_name,
        "html_url": facts.web,
        "url": facts.web,
        "clone_url": f"{facts.web}.git" if facts.web else "",
        "default_branch": facts.default_branch,
        "master_branch": facts.default_branch,
        "fork": False,
        "private": False,
        "visibility": "public",
        "owner": {
            "login": facts.owner,
            "id": number_for("user", facts.owner or facts.actor),
            "name": facts.owner,
            "html_url": f"{facts.server}/{facts.owner}",
        },
    }
    common = {"repository": repository, "sender": user}
    if event == "push":
        return {**common, **push(facts)}
    if event.startswith("pull_request"):
        return {**common, **pull_request(facts, repository, user)}
    if event == "workflow_dispatch":
        texts = {name: text_of(value) for name, value in inputs.items()}
        return {**common, "inputs": texts or None, "ref": facts.ref, "workflow": workflow}
    if event == "schedule":
        entry = trigger[0] if isinstance(trigger, list) and trigger else {}
        return {**common, "schedule": text_at(entry, "cron"), "workflow": workflow}
    return common


def push(facts: Facts) -> dict[str, Any]:
    """A push of the current branch or tag: of what its upstream lacks, else of the last commit."""
    first = git(facts.top, "rev-parse", "--verify", "--quiet", "@{upstream}")
    if first in (None, facts.sha):
        first = git(facts.top, "rev-parse", "--verify", "--quiet", "HEAD^")
    of_tag, web = facts.ref.startswith("refs/tags/"), facts.web
    pushed = [] if of_tag else commits(facts, first)
    before = NO_COMMIT if of_tag or not first else first
    return {
        "ref": facts.ref,
        "before": before,
        "after": facts.sha or NO_COMMIT,
        "base_ref": None,
        "created": before == NO_COMMIT,
        "deleted": False,
        "forced": False,
        "commits": pushed,
        "head_commit": next(iter(pushed[-1:] or commits(facts, None, 1)), None),
        "compare": f"{web}/compare/{before[:12]}...{facts.sha[:12]}" if web else "",
        "pusher": {"name": facts.actor, "email": facts.mail},
    }


def commits(facts: Facts, after: str | None, most: int = MOST_COMMITS) -> list[dict[str, Any]]:
    """The commits of HEAD behind `after`, the newest last."""
    found = git(
        facts.top,
        "log",
        "-z",
        "--encoding=UTF-8",
        f"--max-count={most}",
        "--no-show-signature",
        "--format=%H%x01%T%x01%cI%x01%an%x01%ae%x01%cn%x01%ce%x01%B",
        "HEAD",
        *([f"^{after}"] if after else []),
        "--",
    )
    return [
        {
            "id": sha,
            "tree_id": tree,
            "distinct": True,
            "message": message.rstrip("\n"),
            "timestamp": time,
            "url": f"{facts.web}/commit/{sha}" if facts.web else "",
            "author": {"name": author, "email": author_mail},
            "committer": {"name": committer, "email": committer_mail},
        }
        for sha, tree, time, author, author_mail, committer, committer_mail, message in (
            part.split("\1", 7) for part in reversed((found or "").split("\0")) if part
        )
    ]


def pull_request(facts: Facts, repository: dict[str, Any], user: dict[str, Any]) -> dict[str, Any]:
    """A request, number 1, to merge the current branch into the default branch."""
    title, _, body = next((commit["message"] for commit in commits(facts, None, 1)), "").partition("\n")
    head, base = (
        {"ref": ref, "sha": sha, "label": f"{facts.owner}:{ref}", "repo": repository, "user": user}
        for ref, sha in (
            (facts.branch, facts.sha),
            (facts.default_branch, facts.heads.get(facts.default_branch, "")),
        )
    )
    request = {
        "number": 1,
        "state": "open",
        "title": title,
        "body": body.strip("\n") or None,
        "draft": False,
        "merged": False,
        "labels": [],
        "assignees": [],
        "requested_reviewers": [],
        "milestone": None,
        "author_association": "OWNER",
        "user": user,
        "html_url": f"{facts.web}/pull/1" if facts.web else "",
        "head": head,
        "base": base,
    }
    return {"action": "opened", "number": 1, "pull_request": request}


def excluded(play: Play, trigger: Any, github: dict[str, Any]) -> str | None:
    """The filter by which GitHub would not start the workflow; the program passes over filters."""
    event, filters = play.event, trigger if isinstance(trigger, dict) else {}
    action, types = text_at(github["event"], "action"), filters.get("types") or TYPES.get(event)
    if action and types and action not in texts(types):
        return f"types: {types}"
    of_run, ran = event == "workflow_run", text_at(github["event"], "workflow_run", "name")
    if of_run and ran and "workflows" in filters and ran not in texts(filters["workflows"]):
        return f"workflows: {filters['workflows']}"
    if not (event == "push" or of_run or event.startswith("pull_request")):
        return None
    of_tag = event == "push" and github["ref_type"] == "tag"
    kind, other = ("tags", "branches") if of_tag else ("branches", "tags")
    name = (
        text_at(github["event"], "workflow_run", "head_branch")
        if of_run
        else github["ref_name" if event == "push" else "base_ref"]
    )
    if event == "push" and other in filters and not {kind, f"{kind}-ignore"} & set(filters):
        return f"{other}: {filters[other]}"
    found = next((f"{key}: {filters[key]}" for key, starts in ((kind, True), (f"{kind}-ignore", False))
                  if key in filters and name and matches(filters[key], name) is not starts), None)
    return found if found or of_tag or of_run else excluded_paths(play, filters, github)


def excluded_paths(play: Play, filters: dict[str, Any], github: dict[str, Any]) -> str | None:
    """The filter of paths that no changed file passes; none if it is not known which files changed."""
    key = next((key for key in ("paths", "paths-ignore") if key in filters), "")
    changed = (
        changed_files(play.facts.top, play.event, github["event"]) if key and play.facts.repository else []
    )
    return (
        f"{key}: {filters[key]}"
        if changed and not any(matches(filters[key], name) is (key == "paths") for name in changed)
        else None
    )


def changed_files(top: Path, event: str, data: dict[str, Any]) -> list[str]:
    """The files that an event changes by its payload, with those that are not committed; none if git does not
    know. A push is compared with the commit before it, a request with the commit where it left its base."""
    ends = [text_at(data, "before"), text_at(data, "after")] if event == "push" else \
        [text_at(data, "pull_request", end, "sha") for end in ("base", "head")]
    if not all(COMMIT.fullmatch(end) for end in ends):
        return []
    if not ends[0].strip("0"):
        ends[0] = git(top, "hash-object", "-t", "tree", "/dev/null") or ""
    # (to look into a submodule, git would start itself there by the submodule's configuration)
    compare = (
        "diff",
        "--name-only",
        "--no-renames",
        "--relative",
        "-z",
        "--ignore-submodules=dirty",
        "--no-ext-diff",
        "--no-textconv",
    )
    pushed = git(top, *compare, *(ends if event == "push" else ["...".join(ends)]), "--")
    others = [git(top, *compare, "HEAD", "--"), git(top, "ls-files", "-o", "--exclude-standard", "-z")]
    return (
        []
        if pushed is None
        else sorted({name for names in (pushed, *others) for name in (names or "").split("\0") if name})
    )


def matches(globs: Any, name: str) -> bool:
    """Whether the last pattern that fits the name is one without `!`. A pattern has `*`, `**`, `?` and `+`
    after a character, and `[..]`."""
    result = False
    for glob in map(str, globs if isinstance(globs, list) else [globs]):
        pattern = filter_pattern(glob[glob.startswith("!"):])
        if pattern is not None and pattern.fullmatch(name):
            result = not glob.startswith("!")
    return result


def of_name(char: str) -> bool:
    """Whether a character is one of a name, and separates no names."""
    return char != "/"


def of_class(part: str) -> Callable[[str], bool]:
    """The test of a character by a part of a pattern: a class, or a character that means itself. Raises
    re.error."""
    if len(part) > 2 and part[0] == "[":
        found = re.compile(part, re.DOTALL)
        return lambda char: found.fullmatch(char) is not None
    return part[-1].__eq__


@functools.lru_cache(maxsize=1024)
def filter_pattern(glob: str) -> Automaton | None:
    """The automaton of a filter's pattern; None if it cannot be read, so that nothing fits it."""
    parts, made, at = re.findall(r"\*\*/|\*\*|\\.|\[[^\]]*\]|.", glob, re.DOTALL), Automaton(), 0
    while at < len(parts):
        part, more = parts[at], parts[at + 1] if at + 1 < len(parts) else ""
        at += 1
        if part == "**/":  # (the whole of it or nothing: the first state takes no character)
            made.edges[len(made.tests)] = [len(made.tests) + 1, len(made.tests) + 3]
            made.add(lambda _: False)
            made.add(bool, many=True, none=True)
            made.add(lambda char: char == "/")
        elif part in ("**", "*"):
            made.add((lambda _: True) if part == "**" else of_name, many=True, none=True)
        if part[0] == "*":
            at += more in ("?", "+")  # (which say nothing after a star)
            continue
        try:
            if part in ("?", "+"):
                return None
            made.add(of_class(part), many=more == "+", none=more == "?")
        except re.error:
            return None
        at += more in ("?", "+")
    return made
