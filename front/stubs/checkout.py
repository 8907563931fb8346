"""Replaces actions/checkout: it fills the empty workspace; with `--workspace full` or `--in-place` the tree
is there already."""

from __future__ import annotations

import os
import pathlib
import shutil
import subprocess

import checkout_clone
import step

PROGRAM = "name a program for this step with --stub actions/checkout=PROGRAM"


def known_to_git(*words: str) -> str:
    """What git answers about the tree, or nothing where it knows nothing or is not there."""
    done = subprocess.run(
        ["env", "git", *words], capture_output=True, text=True, cwd=step.folder(), check=False
    )
    return done.stdout.strip() if done.returncode == 0 else ""


def commit_of(name: str) -> str:
    """The commit that a name means in the tree, or nothing."""
    return known_to_git("rev-parse", "--verify", "--quiet", "--end-of-options", f"{name}^{{commit}}")


def is_present(folder: pathlib.Path) -> bool:
    """Whether a folder is there with something in it."""
    return folder.is_dir() and any(folder.iterdir())


def fill(folder: pathlib.Path) -> None:
    """Copies the files of the tree that git has or would have into a folder of it."""
    for name in known_to_git("ls-files", "-z", "--cached", "--others", "--exclude-standard").split("\0"):
        source, target = step.folder() / name, folder / name
        if source.is_symlink() or source.is_file():
            target.parent.mkdir(parents=True, exist_ok=True)
            shutil.copy2(source, target, follow_symlinks=False)


def check_folder(path: str, repository: str, fillable: bool) -> None:
    """Makes sure that the folder of the tree where the files belong has some."""
    tree, folder = step.folder(), (step.folder() / path).resolve()
    if folder == tree and repository:
        own = os.environ.get("GITHUB_REPOSITORY") or "this repository"
        step.fail(
            f"checkout brings no files of the repository {repository}: the tree is that of {own}; {PROGRAM}"
        )
    if folder == tree:
        return
    if tree not in folder.parents:
        step.fail(f"the path {path} is not below the tree")
    if fillable and not is_present(folder):
        fill(folder)
    if not is_present(folder):
        step.fail(
            f"checkout brings no files: the directory {path} is not in the tree. Put it there (git clone "
            f"{repository or 'this repository'} {path}), or {PROGRAM}"
        )
    print(f"the directory {path} is used as it is")


def main(_: str) -> None:
    """Fills the workspace, or checks that the tree serves for what the step asks, and says what commit it
    has."""
    repository, ref = step.given("repository"), step.given("ref")
    if repository.lower() == os.environ.get("GITHUB_REPOSITORY", "").lower():
        repository = ""
    if os.environ.get("ACTRUN_SOURCE"):
        checkout_clone.main(repository, PROGRAM)
        return
    commit = commit_of("HEAD") or os.environ.get("GITHUB_SHA", "")
    names = ("", os.environ.get("GITHUB_REF"), os.environ.get("GITHUB_REF_NAME"), commit)
    same = ref in names or commit_of(ref) == commit != ""
    check_folder(step.given("path", "."), repository, same and not repository)
    if not same:
        step.warn(f"the ref {ref} is not checked out: the tree stays as it is, at {commit or 'no commit'}")
    modules = known_to_git("config", "--file", ".gitmodules", "--get-regexp", r"\.path$").splitlines()
    empty = [
        line.split(" ", 1)[1] for line in modules if not is_present(step.folder() / line.split(" ", 1)[1])
    ]
    if empty and step.given("submodules", "false").lower() != "false":
        step.warn(f"submodules are empty: {', '.join(empty)}; run git submodule update --init in the repository first")
    print(f"the tree is there, at {commit or 'no commit'}")
    step.set_output("ref", ref or os.environ.get("GITHUB_REF", ""))
    if commit:
        step.set_output("commit", commit)


if __name__ == "__main__":
    step.start(main)
