"""Files that a person has not chosen: opened part by part without following a link, read up to a limit,
and deleted by descriptors."""
from __future__ import annotations

import contextlib
import errno
import os
import stat
from pathlib import Path
from typing import Iterator

NO_LINK = os.O_NOFOLLOW | os.O_CLOEXEC
FOLDER = os.O_DIRECTORY | os.O_PATH | NO_LINK
MOST = 64 * 1024 * 1024          # bytes of a file for which nothing else is said


class Unfit(OSError):
    """A file that is not read: a link that leads away, no plain file, or too long. Its text says which."""


def unfit(path: str | os.PathLike[str], why: str) -> Unfit:
    """The error of a file."""
    return Unfit(errno.ELOOP, why, os.fspath(path))


def open_folder(base: str | os.PathLike[str], parts: tuple[str, ...] = ()) -> int:
    """A descriptor of a folder: `base`, which the front has chosen, then part by part without links."""
    number = os.open(base, os.O_DIRECTORY | os.O_PATH | os.O_CLOEXEC)
    for part in parts:
        try:
            inner = os.open(part, FOLDER, dir_fd=number)
        except OSError as error:
            raise OSError(error.errno, error.strerror, os.path.join(base, *parts)) from None
        finally:
            os.close(number)
        number = inner
    return number


def open_file(base: str | os.PathLike[str], *parts: str) -> int:
    """A descriptor of a plain file below `base`; no part of its path is a link."""
    folder, path = open_folder(base, parts[:-1]), os.path.join(base, *parts)
    try:
        number = os.open(parts[-1], os.O_RDONLY | os.O_NONBLOCK | NO_LINK, dir_fd=folder)
    except OSError as error:
        raise unfit(path, "a link is not followed here") if error.errno == errno.ELOOP else \
            OSError(error.errno, error.strerror, path) from None
    finally:
        os.close(folder)
    if not stat.S_ISREG(os.fstat(number).st_mode):
        os.close(number)
        raise unfit(path, "this is no plain file")
    return number


def content(number: int, path: str | os.PathLike[str], most: int) -> bytes:
    """The bytes of a descriptor, which is closed. Raises Unfit if there are more than `most`."""
    with open(number, "rb") as file:
        data = b"" if os.fstat(number).st_size > most else file.read(most + 1)
        if len(data) > most or os.fstat(number).st_size > most:
            raise unfit(path, f"this file has more than {most} bytes")
        return data


def read_below(base: str | os.PathLike[str], *parts: str, most: int = MOST) -> bytes:
    """The bytes of a plain file below `base`; no part of its path is a link."""
    return content(open_file(base, *parts), os.path.join(base, *parts), most)


def read_named(path: str | os.PathLike[str], most: int) -> bytes:
    """The bytes of a file that a person has named, at most one more than `most`. A pipe that nobody writes is
    empty."""
    number = os.open(path, os.O_RDONLY | os.O_NONBLOCK | os.O_CLOEXEC)
    with open(number, "rb") as file:
        mode = os.fstat(number).st_mode
        if not stat.S_ISREG(mode) and not stat.S_ISFIFO(mode):
            raise unfit(path, "this is no plain file")
        os.set_blocking(number, True)
        return file.read(most + 1)


def first_bytes(base: str | os.PathLike[str], *parts: str, most: int) -> bytes:
    """The first bytes of a plain file below `base`; nothing if it cannot be read. No part of its path is a
    link."""
    with contextlib.suppress(OSError):
        with open(open_file(base, *parts), "rb") as file:
            return file.read(most)
    return b""


def parts_inside(top: str | os.PathLike[str], path: str | os.PathLike[str]) -> tuple[str, tuple[str, ...]]:
    """Where a repository really is, and the path of a file from there. Links are followed that stay in it;
    others raise Unfit."""
    root, real = os.path.realpath(top), os.path.realpath(path)
    if real != root and not real.startswith(root.rstrip("/") + "/"):
        raise unfit(path, f"a link of it leads to {real}, outside of {root}")
    return root, tuple(part for part in real[len(root):].split("/") if part)


def open_inside(top: str | os.PathLike[str], path: str | os.PathLike[str]) -> int:
    """A descriptor of a plain file of a repository, which no link leads out of."""
    root, parts = parts_inside(top, path)
    if not parts:
        raise unfit(path, "this is a directory")
    return open_file(root, *parts)


def read_inside(top: str | os.PathLike[str], path: str | os.PathLike[str], most: int = MOST) -> bytes:
    """The bytes of a plain file of a repository, which no link leads out of."""
    return content(open_inside(top, path), path, most)


def new_file(base: str | os.PathLike[str], *parts: str, mode: int = 0o600) -> int:
    """A descriptor of a new file, in place of whatever has its name; no part of its path is a link."""
    folder = open_folder(base, parts[:-1])
    try:
        try:
            os.unlink(parts[-1], dir_fd=folder)
        except FileNotFoundError:
            pass
        return os.open(parts[-1], os.O_WRONLY | os.O_CREAT | os.O_EXCL | NO_LINK, mode, dir_fd=folder)
    finally:
        os.close(folder)


def write_new(base: str | os.PathLike[str], *parts: str, text: str, mode: int = 0o600) -> None:
    """Writes a file that is new, in place of whatever has its name; no part of its path is a link."""
    with open(new_file(base, *parts, mode=mode), "w", encoding="utf-8", errors="replace") as file:
        file.write(text)


def names(base: str | os.PathLike[str], *parts: str, most: int = 100_000) -> list[str]:
    """The names in a folder, at most that many; none if there is no such folder, or it is a link."""
    try:
        folder = open_folder(base, parts)
    except OSError:
        return []
    number = os.open(".", os.O_RDONLY | os.O_DIRECTORY | os.O_CLOEXEC, dir_fd=folder)
    os.close(folder)
    try:
        with os.scandir(number) as entries:
            return [entry.name for entry, _ in zip(entries, range(most))]
    finally:
        os.close(number)


def identity(path: str | os.PathLike[str]) -> tuple[int, int]:
    """Device and number of a file, by which it is known again."""
    found = os.stat(path, follow_symlinks=False)
    return found.st_dev, found.st_ino


def writable(folder: int, name: str) -> int | None:
    """A descriptor of a folder in a folder that was made readable and writable; None if `name` is no
    folder."""
    try:
        number = os.open(name, FOLDER, dir_fd=folder)
    except OSError:
        return None
    try:
        os.chmod(f"/proc/self/fd/{number}", 0o700)
        return os.open(f"/proc/self/fd/{number}", os.O_RDONLY | os.O_DIRECTORY | os.O_CLOEXEC)
    except OSError:
        return None
    finally:
        os.close(number)


def remove(path: str | os.PathLike[str], known: tuple[int, int] | None = None) -> bool:
    """Removes a folder with all that it has, whatever its modes and however deep; whether nothing is left
    of it. No link is followed, and what is mounted stays. With `known` only the folder of that identity is
    removed."""
    parent, name = os.path.split(os.path.abspath(path))
    try:
        above = os.open(parent, os.O_RDONLY | os.O_DIRECTORY | os.O_CLOEXEC)
    except OSError:
        return False
    try:
        found = os.stat(name, dir_fd=above, follow_symlinks=False)
        if not stat.S_ISDIR(found.st_mode) or known not in (None, (found.st_dev, found.st_ino)):
            return False
        return remove_entry(above, name)
    except OSError:
        return not os.path.lexists(path)
    finally:
        os.close(above)


def remove_below(base: str | os.PathLike[str], *parts: str) -> bool:
    """Removes a folder below `base`; no part of its path is a link. Whether nothing is left of it."""
    try:
        number = open_folder(base, parts[:-1])
    except OSError:
        return False
    try:
        above = os.open(".", os.O_RDONLY | os.O_DIRECTORY | os.O_CLOEXEC, dir_fd=number)
    finally:
        os.close(number)
    try:
        return remove_entry(above, parts[-1])
    except OSError:
        return False
    finally:
        os.close(above)


def move_below(source: str | os.PathLike[str], base: str | os.PathLike[str], *parts: str) -> None:
    """Moves a folder to a place below `base`, over what is there; no part of that path is a link. Folders on
    the way are made."""
    for at in range(1, len(parts)):
        folder = open_folder(base, parts[:at - 1])
        try:
            os.mkdir(parts[at - 1], 0o755, dir_fd=folder)
        except FileExistsError:
            pass
        finally:
            os.close(folder)
    folder = open_folder(base, parts[:-1])
    try:
        if not remove_below(base, *parts) and os.path.lexists(f"/proc/self/fd/{folder}/{parts[-1]}"):
            os.unlink(parts[-1], dir_fd=folder)
        os.rename(source, parts[-1], dst_dir_fd=folder)
    finally:
        os.close(folder)


def remove_entry(above: int, name: str) -> bool:
    """Removes a folder. Its folders become its own one by one, so that no depth needs more than three
    descriptors."""
    root = writable(above, name)
    if root is None:
        return False
    try:
        count = 0
        while True:
            left = [entry for entry in os.listdir(root)]
            if not left:
                break
            before = count
            for entry in left:
                count += empty(root, entry, count)
            if count == before:
                return False
    finally:
        os.close(root)
    os.rmdir(name, dir_fd=above)
    return True


def empty(root: int, name: str, count: int) -> int:
    """Removes a file of a folder, or of a folder in it what is no folder, whose folders move up; how many
    things changed."""
    inner = writable(root, name)
    if inner is None:
        try:
            os.unlink(name, dir_fd=root)
            return 1
        except OSError:
            return 0
    changed = 0
    try:
        for entry in os.listdir(inner):
            try:
                os.unlink(entry, dir_fd=inner)
                changed += 1
            except OSError:  # a folder
                below = writable(inner, entry)
                if below is not None:
                    os.close(below)
                changed += moved(entry, inner, root, f".{count + changed}-{os.getpid()}")
        try:
            os.rmdir(name, dir_fd=root)
            changed += 1
        except OSError:
            pass
    finally:
        os.close(inner)
    return changed


def moved(name: str, inner: int, root: int, new: str) -> int:
    """Moves a folder up; 1 if that worked."""
    try:
        os.rename(name, new, src_dir_fd=inner, dst_dir_fd=root)
        return 1
    except OSError:
        return 0


def walk(base: str | os.PathLike[str], deepest: int = 64) -> Iterator[tuple[int, str, os.stat_result]]:
    """The entries below a folder, down to some depth, each with a descriptor of its folder. No link is
    followed."""
    levels: list[tuple[int, Iterator[str]]] = []

    def enter(name: str | os.PathLike[str], above: int | None) -> None:
        try:
            number = os.open(name, os.O_RDONLY | os.O_DIRECTORY | NO_LINK, dir_fd=above)
        except OSError:
            return
        levels.append((number, iter(os.listdir(number))))
    enter(base, None)
    while levels:
        folder, left = levels[-1]
        name = next(left, None)
        if name is None:
            os.close(folder)
            levels.pop()
            continue
        try:
            found = os.stat(name, dir_fd=folder, follow_symlinks=False)
        except OSError:
            continue
        yield folder, name, found
        if stat.S_ISDIR(found.st_mode) and len(levels) < deepest:
            enter(name, folder)


def drop_setuid(base: Path) -> None:
    """Takes the bits from files below a folder by which a program would get the rights of their owner or
    group."""
    for folder, name, found in walk(base):
        if stat.S_ISREG(found.st_mode) and found.st_mode & (stat.S_ISUID | stat.S_ISGID):
            number = os.open(name, os.O_PATH | NO_LINK, dir_fd=folder)
            os.chmod(f"/proc/self/fd/{number}", stat.S_IMODE(os.fstat(number).st_mode) & 0o1777)
            os.close(number)
