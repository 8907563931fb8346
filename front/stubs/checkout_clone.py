"""Fills the workspace as actions/checkout does: from the copy of the repository that `actrun try` made, in
place of its server."""

from __future__ import annotations

import os
import pathlib
import re
import shutil
import subprocess
import urllib.parse
from dataclasses import dataclass

import step

# git writes nothing into the copy, starts no program that a repository names, and reaches no other machine
SAFE = ("core.hooksPath=/dev/null", "core.fsmonitor=false", "core.attributesFile=/dev/null",
        "protocol.allow=never", "protocol.file.allow=always", "safe.directory=*", "gc.auto=0",
        "maintenance.auto=false", "advice.detachedHead=false")
COMMIT = re.compile("[0-9a-fA-F]{40}|[0-9a-fA-F]{64}")


def git(folder: pathlib.Path, *words: str, check: bool = True) -> bytes | None:
    """What git prints; where it fails the step ends with its reason, without `check` it gives None."""
    environment = {name: value for name, value in os.environ.items() if not name.startswith("GIT_")}
    environment.update(GIT_CONFIG_NOSYSTEM="1", GIT_CONFIG_GLOBAL="/dev/null", GIT_OPTIONAL_LOCKS="0",
                       GIT_TERMINAL_PROMPT="0", LC_ALL="C")
    settings = [word for setting in SAFE for word in ("-c", setting)]
    done = subprocess.run(["env", "git", *settings, "-C", str(folder), *words], env=environment,
                          stdin=subprocess.DEVNULL, capture_output=True, check=False)
    if done.returncode == 0:
        return done.stdout
    if check:
        reason = done.stderr.decode("utf-8", "replace").strip().splitlines()
        step.fail(f"git {words[0]} fails: {reason[-1] if reason else f'it ended with {done.returncode}'}")
    return None


def names(answer: bytes | None) -> list[str]:
    """The names in an answer of git with `-z`."""
    return [os.fsdecode(name) for name in (answer or b"").split(b"\0") if name]


def commit_at(folder: pathlib.Path, name: str) -> str:
    """The commit that a name means, or nothing."""
    words = ("rev-parse", "--verify", "--quiet", "--end-of-options", f"{name}^{{commit}}")
    found = git(folder, *words, check=False)
    return (found or b"").decode().strip()


@dataclass
class Wanted:
    """What is checked out."""

    ref: str        # the full name, or nothing for a commit alone
    commit: str     # nothing where the repository has no commit
    spec: str = ""  # what is fetched, where it is not the commit


def wanted(source: pathlib.Path, ref: str) -> Wanted:
    """The ref and the commit that the input `ref` means: without one those of the event."""
    own = os.environ.get("GITHUB_REF", "")
    if not ref or ref == own:
        return of_event(source, own)
    if re.fullmatch("refs/pull/[0-9]+/head", ref) and ref.rpartition("/")[0] == own.rpartition("/")[0]:
        return of_event(source, ref)
    if COMMIT.fullmatch(ref):
        if not commit_at(source, ref):
            step.fail(f"the commit {ref} is not in the local repository: git fetch it there")
        return Wanted("", ref.lower())
    names_of_ref = (ref,) if ref.startswith("refs/") else (f"refs/heads/{ref}", f"refs/tags/{ref}")
    full = next((name for name in names_of_ref if commit_at(source, name)), None)
    if full is None:
        step.fail(f"a branch or tag with the name '{ref}' could not be found in the local repository: "
                  "git fetch it there")
    return Wanted(full, commit_at(source, full), full)


def of_event(source: pathlib.Path, ref: str) -> Wanted:
    """The ref and the commit of the event; the commit of the working tree, where that of a payload is not
    there."""
    asked, head = os.environ.get("GITHUB_SHA", ""), commit_at(source, "HEAD")
    if asked and head and not commit_at(source, asked):
        step.warn(f"the commit {asked} of the event is not in the local repository: that of the working tree "
                  "takes its place")
        asked = head
    return Wanted(ref, asked or head)


def clear(folder: pathlib.Path) -> None:
    """Removes everything in a folder, which is made where it is missing."""
    if folder.is_symlink() or folder.exists() and not folder.is_dir():
        folder.unlink()
    folder.mkdir(parents=True, exist_ok=True)
    for inner in folder.iterdir():
        remove(inner)


def remove(place: pathlib.Path) -> None:
    """Removes a file, a link or a folder, if it is there."""
    if place.is_dir() and not place.is_symlink():
        shutil.rmtree(place)
    elif place.is_symlink() or place.exists():
        place.unlink()


def copy(source: pathlib.Path, target: pathlib.Path) -> None:
    """Copies a file, a link or a folder over what is there; names that are no files are passed over."""
    if source.is_dir() and not source.is_symlink():
        shutil.copytree(source, target, symlinks=True, dirs_exist_ok=True)
    elif source.is_symlink() or source.is_file():
        if target.is_symlink() or target.exists():
            remove(target)
        target.parent.mkdir(parents=True, exist_ok=True)
        shutil.copy2(source, target, follow_symlinks=False)


def address(source: pathlib.Path) -> tuple[str, str]:
    """The address of `origin` as GitHub has it, and that of the copy, which git reads in its place."""
    local = "file://" + urllib.parse.quote(str(source))
    repository = os.environ.get("GITHUB_REPOSITORY")
    server = os.environ.get("GITHUB_SERVER_URL", "https://github.com")
    return (f"{server}/{repository}" if repository else local), local


def prepare(source: pathlib.Path, target: pathlib.Path, whole: bool) -> None:
    """Makes the folder a repository whose origin is the copy. What is in it is removed, unless it is such a
    repository already."""
    origin, local = address(source)
    is_repository = (target / ".git").is_dir()
    known = git(target, "config", "--local", "remote.origin.url", check=False) if is_repository else None
    if known is not None and known.decode().strip() == origin:
        if step.given("clean", "true").lower() == "true":
            git(target, "clean", "-ffdxq")
            git(target, "reset", "-q", "--hard", check=False)
        return
    clear(target)
    form = (git(source, "rev-parse", "--show-object-format", check=False) or b"sha1").decode().strip()
    git(target, "init", "-q", "--template=", *([f"--object-format={form}"] if form != "sha1" else []))
    settings = {"remote.origin.url": origin, "gc.auto": "0",
                "remote.origin.fetch": "+refs/heads/*:refs/remotes/origin/*"}
    if origin != local:
        settings[f"url.{local}.insteadOf"] = origin
        settings[f"url.{origin}.pushInsteadOf"] = origin  # (nothing is pushed to the copy)
    for name, value in settings.items():
        git(target, "config", "--local", name, value)
    if whole:  # (with the whole history every object is wanted, so none is copied)
        objects = source / ".git" / "objects"
        more = objects / "info" / "alternates"
        (target / ".git" / "objects" / "info").mkdir(exist_ok=True)
        lines = [f"{objects}\n", *([more.read_text(encoding="utf-8")] if more.is_file() else [])]
        (target / ".git" / "objects" / "info" / "alternates").write_text("".join(lines), encoding="utf-8")
        if (source / ".git" / "shallow").is_file():  # (where its history ends)
            shutil.copy2(source / ".git" / "shallow", target / ".git" / "shallow")


def fetch(source: pathlib.Path, target: pathlib.Path, want: Wanted, depth: int) -> str:
    """Brings the commit with as much history as is asked for. Gives the name under which it is there."""
    branch, spec = want.ref.removeprefix("refs/heads/"), want.spec or want.commit
    is_branch = want.ref.startswith("refs/heads/")
    of_request = want.ref.replace("refs/pull/", "refs/remotes/pull/")
    place = f"refs/remotes/origin/{branch}" if is_branch else of_request
    words = ["-q", "--prune", "--no-recurse-submodules"]
    if depth > 0:
        words += [f"--depth={depth}"] + ([] if step.given_flag("fetch-tags") else ["--no-tags"])
        git(target, "fetch", *words, "origin", f"+{spec}:{place}" if place else spec,
            *(["+refs/tags/*:refs/tags/*"] if step.given_flag("fetch-tags") else []))
        return place or want.commit
    if (source / ".git" / "shallow").is_file():
        step.warn("the local repository is shallow, so its history is incomplete: git fetch --unshallow")
    git(target, "fetch", *words, "origin", "+refs/heads/*:refs/remotes/origin/*", "+refs/tags/*:refs/tags/*")
    if place and commit_at(target, place) != want.commit:
        git(target, "fetch", "-q", "--no-tags", "origin", f"+{want.commit}:{place}")
    return place or want.commit


def check_out(target: pathlib.Path, want: Wanted, start: str) -> None:
    """Writes the files of the commit, on the branch if the ref is one, else on a detached head."""
    sparse = step.given_lines("sparse-checkout")
    if sparse:
        cone = step.given("sparse-checkout-cone-mode", "true").lower() == "true"
        git(target, "sparse-checkout", "set", "--cone" if cone else "--no-cone", "--", *sparse)
    branch = want.ref.removeprefix("refs/heads/")
    git(target, "checkout", "-q", "--force", *(["--detach"] if branch == want.ref else ["-B", branch]), start)


def is_folder(place: pathlib.Path) -> bool:
    """Whether there is a folder, and no link to one."""
    return place.is_dir() and not place.is_symlink()


def add_uncommitted(source: pathlib.Path, target: pathlib.Path, sparse: bool) -> int:
    """Brings what the working tree has beyond its commit: files that were changed, added or removed. Gives
    how many."""
    changed = names(git(source, "diff", "--name-only", "--no-renames", "-z", "HEAD", "--"))
    changed += names(git(source, "ls-files", "-o", "-z"))
    folders = {name for name in changed if is_folder(source / name)}
    changed = [name for name in changed if name not in folders or not is_folder(target / name)]
    gone = [name for name in changed if name in folders or not os.path.lexists(source / name)]
    for name in gone:
        remove(target / name)
        for folder in list((target / name).parents)[:len(pathlib.PurePath(name).parents) - 1]:
            if folder.is_dir() and not any(folder.iterdir()):
                folder.rmdir()
    for name in changed:
        if name not in gone and (not sparse or os.path.lexists((target / name).parent)):
            copy(source / name, target / name)
    return len(changed)


def add_modules(source: pathlib.Path, target: pathlib.Path) -> None:
    """Brings the files of submodules, if they are asked for, and those of Git LFS."""
    found = git(target, "config", "--file", ".gitmodules", "--get-regexp", r"\.path$", check=False) or b""
    paths = [line.split(" ", 1)[1] for line in found.decode("utf-8", "replace").splitlines() if " " in line]
    asked = step.given("submodules", "false").lower() != "false"
    paths = [path for path in paths if asked and ".." not in path.split("/") and not path.startswith("/")]
    for path in paths:
        copy(source / path, target / path)
    empty = [path for path in paths if not (target / path).is_dir() or not any((target / path).iterdir())]
    if empty:
        step.warn(f"submodules are empty: {', '.join(empty)}; "
                  "run git submodule update --init in the repository first")
    if step.given_flag("lfs"):
        for name in names(git(target, "ls-files", "-z", "--", ":(attr:filter=lfs)", check=False)):
            copy(source / name, target / name)


def fill(source: pathlib.Path, target: pathlib.Path, ref: str) -> Wanted:
    """Fills the folder from the copy of the repository."""
    given = step.given("fetch-depth", "1")
    depth = int(given) if re.fullmatch("[0-9]+", given) else 0
    want = wanted(source, ref)
    prepare(source, target, depth == 0)
    if not want.commit:
        branch = (git(source, "symbolic-ref", "HEAD", check=False) or b"refs/heads/main").decode().strip()
        git(target, "symbolic-ref", "HEAD", branch)
        for name in names(git(source, "ls-files", "-co", "-z")):
            copy(source / name, target / name)
        print("the repository has no commit: its files are there")
        return want
    check_out(target, want, fetch(source, target, want, depth))
    add_modules(source, target)
    print(f"{want.ref or 'the commit'} is checked out, at {want.commit}")
    if want.commit == commit_at(source, "HEAD"):
        count = add_uncommitted(source, target, bool(step.given_lines("sparse-checkout")))
        if count:
            files = f"{count} file{'s' if count > 1 else ''}"
            print(f"with the changes of the working tree that are not committed: {files}")
    elif is_changed(source):
        step.warn("the changes of the working tree are left out, since this is another commit", "notice")
    return want


def is_changed(source: pathlib.Path) -> bool:
    """Whether the working tree has changes that are not committed."""
    commands = (("diff", "--name-only", "-z", "HEAD", "--"), ("ls-files", "-o", "-z"))
    return any(git(source, *words, check=False) for words in commands)


def main(repository: str, remedy: str) -> None:
    """Fills the workspace, or the folder `path` of it; `repository` is another one than that of the workflow,
    or nothing."""
    source, workspace = pathlib.Path(os.environ["ACTRUN_SOURCE"]), step.folder()
    path = step.given("path", ".")
    target = (workspace / path).resolve()
    if target != workspace and workspace not in target.parents:
        step.fail(f"the path {path} is not below the workspace")
    if repository:
        there = source / path
        if target == workspace or not there.is_dir() or not any(there.iterdir()):
            where = path if path != "." else "PATH"
            step.fail(
                f"checkout brings no files of the repository {repository}: only the local repository "
                f"is here. Put it into the directory {where} of the repository and name that by `path`, "
                f"or {remedy}"
            )
        clear(target)
        copy(there, target)
        print(f"the directory {path} of the repository replaces {repository}")
        return
    if not (source / ".git").exists():
        clear(target)
        copy(source, target)
        print("the directory is no repository: its files are there, without a commit")
        step.set_output("ref", step.given("ref") or os.environ.get("GITHUB_REF", ""))
        return
    want = fill(source, target, step.given("ref"))
    step.set_output("ref", step.given("ref") or want.ref)
    if want.commit:
        step.set_output("commit", want.commit)
