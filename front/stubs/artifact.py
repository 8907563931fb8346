"""Replaces actions/upload-artifact, its merge, and download-artifact: artifacts are folders of files below
ACTRUN_ARTIFACTS."""

from __future__ import annotations

import fnmatch
import hashlib
import os
import pathlib
import re
import shutil
import tempfile

import globs
import step

# the refs whose upload adds to an artifact; of a commit nobody knows
ADDS = re.compile(r"v?[123](\.|$)|[0-9a-f]{40}$")
# the refs whose download puts the one artifact of an id into a folder of its name
NESTS = re.compile(r"v?[1234](\.|$)")


def number(name: str) -> str:
    """The id of the artifact of a name."""
    return str(int(hashlib.sha256(name.encode(errors="surrogateescape")).hexdigest()[:8], 16))


def upload(ref: str) -> None:
    """Keeps the files that `path` matches as an artifact: by their names from the folder that was looked
    through."""
    name, lines = step.given("name", "artifact"), step.given_lines("path")
    if re.search(r'[":<>|*?\r\n\\/]', name) or name in (".", ".."):
        step.fail(
            f"the name {name} is not valid: an artifact's name has none of \" : < > | * ? \\ / and no newline"
        )
    patterns = globs.read_patterns(lines, step.folder())
    if all(pattern.negative for pattern in patterns):
        step.fail("the input `path` is missing")
    found, root = globs.files(patterns, step.given_flag("include-hidden-files")), pathlib.Path(
        os.path.commonpath(globs.roots(patterns))
    )
    if not found:
        tell = {"warn": step.warn, "error": step.fail}.get(step.given("if-no-files-found", "warn"), print)
        tell(f"no files match the path {', '.join(lines)}; there is no artifact {name}")
        return
    keep(found, root.parent if found == [root] else root, name, ref)


def keep(found: list[pathlib.Path], root: pathlib.Path, name: str, ref: str) -> None:
    """Copies files below a root into the artifact's folder, by the rules of `overwrite` and of the action's
    version."""
    final = step.folder("ACTRUN_ARTIFACTS") / name
    if step.given_flag("overwrite"):
        shutil.rmtree(final, ignore_errors=True)
    try:
        final.mkdir(exist_ok=ADDS.match(ref) is not None)
    except FileExistsError:
        step.fail(f"the artifact {name} exists already: give this one another name, or `overwrite: true`")
    for place in found:
        target = final / place.relative_to(root)
        target.parent.mkdir(parents=True, exist_ok=True)
        shutil.copyfile(place, target)
    digests = [f"{place.relative_to(final)}\0{hashlib.sha256(place.read_bytes()).hexdigest()}\n"
               for place in sorted(final.rglob("*")) if place.is_file()]
    step.set_output(
        "artifact-digest", hashlib.sha256("".join(digests).encode(errors="surrogateescape")).hexdigest()
    )
    step.set_output("artifact-id", number(name))
    step.set_output("artifact-url", final.as_uri())
    print(f"artifact {name}: {len(found)} file{'' if len(found) == 1 else 's'} in {final}")


def merge() -> None:
    """Makes one artifact of those that `pattern` matches."""
    pattern, artifacts = step.given("pattern", "*"), step.folder("ACTRUN_ARTIFACTS")
    parts = [place for place in sorted(artifacts.iterdir()) if fnmatch.fnmatchcase(place.name, pattern)]
    if not parts:
        step.fail(f"no artifact of this run matches the pattern {pattern}")
    with tempfile.TemporaryDirectory() as folder:
        made = pathlib.Path(folder)
        for part in parts:
            shutil.copytree(
                part,
                made / part.name if step.given_flag("separate-directories") else made,
                dirs_exist_ok=True,
            )
            if step.given_flag("delete-merged"):
                shutil.rmtree(part)
        keep(
            [place for place in made.rglob("*") if place.is_file()],
            made,
            step.given("name", "merged-artifacts"),
            "",
        )


def download(ref: str) -> None:
    """Copies artifacts of this play below `path`: one by its name, else those of some ids, or each that
    `pattern` matches, into folders of their names."""
    if step.given("run-id") not in ("", os.environ.get("GITHUB_RUN_ID")):
        step.fail("the input `run-id` asks for artifacts of another run; only those of this run exist here")
    target = pathlib.Path(os.path.normpath(step.folder() / os.path.expanduser(step.given("path", "."))))
    there, name = sorted(step.folder("ACTRUN_ARTIFACTS").iterdir()), step.given("name")
    ids = list(filter(None, map(str.strip, step.given("artifact-ids").split(","))))
    if name and ids:
        step.fail("the inputs `name` and `artifact-ids` exclude one another")
    if ids:
        found = [place for place in there if number(place.name) in ids]
    else:
        found = [
            place
            for place in there
            if (place.name == name if name else fnmatch.fnmatchcase(place.name, step.given("pattern", "*")))
        ]
    if name and not found or len(found) < len(set(ids)):
        missing = name or "of the id " + next(
            it for it in ids if it not in [number(place.name) for place in found]
        )
        step.fail(f"there is no artifact {missing} in this run; there are: {', '.join(place.name for place in there) or 'none'}")
    direct = name or step.given_flag("merge-multiple") or len(ids) == 1 and not NESTS.match(ref)
    for artifact in found:
        into = target if direct else target / artifact.name
        shutil.copytree(artifact, into, dirs_exist_ok=True)
        print(f"artifact {artifact.name} is in {into}")
    if not found:
        print("there are no artifacts to download")
    step.set_output("download-path", str(target))


def main(text: str) -> None:
    """Uploads, merges or downloads, by the action's name."""
    name, ref = step.split_action(text)
    if name == "actions/upload-artifact":
        upload(ref)
    elif name == "actions/upload-artifact/merge":
        merge()
    else:
        download(ref)


if __name__ == "__main__":
    step.start(main)
