"""Replaces actions/cache, actions/cache/restore and actions/cache/save: caches are kept in the folder
ACTRUN_CACHE.

A cache is a folder named by the digest of its key and paths, with `entry.json` (key, paths) and an archive
for each folder that its files start from (the repository, the home folder, the root). It is made beside its
place and moved there whole, so that two legs may save at once. A step with actions/cache leaves a request in
RUNNER_TEMP, and its step at the end of the job saves.
"""

from __future__ import annotations

import hashlib
import json
import os
import pathlib
import shutil
import stat
import tarfile
import tempfile
import time
from typing import Any

import globs
import step

KEY_LENGTH = 512
MOST_BYTES = 10 * 1024 ** 3  # of all caches of a repository, as on GitHub


def newest_first(cache: pathlib.Path) -> list[pathlib.Path]:
    """All caches, the newest first."""
    made = [place for place in cache.glob("*/entry.json") if not place.parent.name.startswith(".")]
    return [place.parent for place in sorted(made, key=os.path.getmtime, reverse=True)]


def read_json(place: pathlib.Path) -> Any:
    """The value of a file that a step may have written: a plain file of at most 1 MiB; None of anything
    else."""
    try:
        number = os.open(place, os.O_RDONLY | os.O_NOFOLLOW | os.O_NONBLOCK)
        with open(number, "rb") as file:
            return json.loads(file.read(1 << 20)) if stat.S_ISREG(os.fstat(number).st_mode) else None
    except (OSError, ValueError, RecursionError):
        return None


def read_entry(place: pathlib.Path) -> tuple[str, list[str]] | None:
    """The key and the paths of a cache."""
    entry = read_json(place / "entry.json")
    known = (
        isinstance(entry, dict) and isinstance(entry.get("key"), str) and isinstance(entry.get("paths"), list)
    )
    return (entry["key"], entry["paths"]) if known else None


def find(key: str, paths: list[str]) -> tuple[str, pathlib.Path] | None:
    """The key and folder of the cache with that key, else of the newest whose key begins with the first of
    restore-keys that any begins with."""
    entries = [
        (entry, place)
        for place in newest_first(step.folder("ACTRUN_CACHE"))
        for entry in [read_entry(place)]
        if entry
    ]
    tests = [
        key.__eq__,
        *(
            lambda name, start=start: name.startswith(start)
            for start in [key, *step.given_lines("restore-keys")]
        ),
    ]
    there = (
        (entry[0], place)
        for test in tests
        for entry, place in entries
        if entry[1] == paths and test(entry[0])
    )
    return next(there, None)


def bases() -> dict[str, pathlib.Path]:
    """The folders that names in an archive start from: they may lie elsewhere in another run."""
    return {"workspace": step.folder(), "home": pathlib.Path.home().resolve(), "root": pathlib.Path("/")}


def belongs(member: tarfile.TarInfo, folder: pathlib.Path, patterns: list[globs.Pattern]) -> bool:
    """Whether a member is a file, folder or link at one of the paths that the step names, and no link leads
    there."""
    places = [
        pathlib.Path(os.path.normpath(folder / name))
        for name in [member.name, *[member.linkname] * member.islnk()]
    ]
    straight = all(os.path.realpath(place.parent) == str(place.parent) for place in places)
    return (
        straight
        and not member.isdev()
        and all(globs.is_chosen(patterns, place.parts[1:]) for place in places)
    )


def restore(place: pathlib.Path, paths: list[str]) -> None:
    """Writes the files of a cache where they belong: whatever it has, nothing outside of the paths that the
    step names."""
    patterns, refused = globs.read_patterns(paths, step.folder()), 0
    for base, folder in bases().items():
        if not (place / f"{base}.tar").is_file():
            continue
        try:
            with tarfile.open(place / f"{base}.tar") as archive:
                archive.extraction_filter = lambda member, _: member  # `belongs` has judged it
                for member in archive:
                    if belongs(member, folder, patterns):
                        archive.extract(member, folder)
                    else:
                        refused += 1
        except tarfile.TarError as error:
            step.warn(f"the archive {base}.tar of the cache is broken: {error}")
    if refused:
        step.warn(f"{refused} files of the cache are not restored: they are not below {', '.join(paths)}, or a link leads there")


def save(key: str, paths: list[str]) -> None:
    """Keeps the files that the paths match under the key, once: the first of two that save at once wins."""
    cache, found = step.folder("ACTRUN_CACHE"), globs.tops(globs.read_patterns(paths, step.folder()))
    final = cache / hashlib.sha256("\0".join([key, *paths]).encode()).hexdigest()[:40]
    if final.exists():
        return print(f"the cache {key} exists already")
    if not found:
        return step.warn(f"the cache {key} is not saved: nothing matches its path {', '.join(paths)}")
    new = pathlib.Path(tempfile.mkdtemp(dir=cache, prefix=".new-"))
    try:
        for path in found:
            pack(new, path, (cache, pathlib.Path.home().resolve() / ".cache/actrun"))
        (new / "entry.json").write_text(json.dumps({"key": key, "paths": paths}), encoding="utf-8")
    except OSError:
        shutil.rmtree(new)
        raise
    try:
        new.rename(final)
    except OSError:
        shutil.rmtree(new)
    make_room(cache)
    print(f"the cache {key} is saved")


def pack(new: pathlib.Path, path: pathlib.Path, own: tuple[pathlib.Path, ...]) -> None:
    """Adds a file or folder to the archive of its base, but for what actrun itself keeps: a cache of
    `~/.cache` would hold all before it."""
    base, folder = next(one for one in bases().items() if one[1] == path or one[1] in path.parents)
    with tarfile.open(new / f"{base}.tar", "a") as archive:
        archive.add(
            path,
            path.relative_to(folder),
            filter=lambda member: None if folder / member.name in own else member,
        )


def make_room(cache: pathlib.Path) -> None:
    """Removes the oldest caches where all have too many bytes, and what broken off saves left a day ago."""
    total, old = 0, [place for place in cache.glob(".new-*") if time.time() - place.stat().st_mtime > 86400]
    for place in newest_first(cache):
        total += sum(file.lstat().st_size for file in place.iterdir())
        if total > MOST_BYTES:
            old.append(place)
    for place in old:
        shutil.rmtree(place, ignore_errors=True)


def restore_step(key: str, paths: list[str]) -> bool:
    """Restores the files and sets the outputs; whether a cache with just that key was there."""
    (name, place), look = find(key, paths) or ("", None), step.given_flag("lookup-only")
    step.set_output("cache-primary-key", key)
    if place is None:
        tell = step.fail if step.given_flag("fail-on-cache-miss") else print
        tell(
            f"no cache has the key {key}"
            + (", and none begins with one of restore-keys" if step.given("restore-keys") else "")
        )
        return False
    if not look:
        restore(place, paths)
    print(f"the cache {name} is {'there' if look else 'restored'}")
    step.set_output("cache-hit", "true" if name == key else "false")
    step.set_output("cache-matched-key", name)
    return name == key


def save_requested(place: pathlib.Path) -> None:
    """Saves the cache that the step before asked for, if it did."""
    request = read_json(place)
    if isinstance(request, list) and list(map(type, request)) == [str, list]:
        save(request[0], [str(path) for path in request[1]])
        place.unlink()


def main(text: str) -> None:
    """Restores or saves, by the action's name and the phase."""
    request = step.folder("RUNNER_TEMP") / f"cache-request-{os.environ.get('ACTRUN_STATE', '0')}.json"
    if os.environ.get("ACTRUN_PHASE") == "post":
        return save_requested(request)
    name, key = step.split_action(text)[0], step.given("key")
    paths = [line.replace(f"{step.folder()}/", "") for line in step.given_lines("path")]
    if not key or not paths:
        step.fail(f"the input `{'path' if key else 'key'}` is missing")
    if len(key) > KEY_LENGTH or "," in key or "\n" in key:
        step.fail(
            f"the key {key} is not valid: it has at most {KEY_LENGTH} characters, no comma and no newline"
        )
    if name == "actions/cache/save":
        save(key, paths)
    elif not restore_step(key, paths) and name == "actions/cache":
        request.write_text(json.dumps([key, paths]), encoding="utf-8")


if __name__ == "__main__":
    step.start(main)
