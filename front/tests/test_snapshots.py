"""Snapshots of workspaces, also of those that a hostile step left."""
from __future__ import annotations

import os
import shutil
import socket
import stat
import subprocess
import tempfile
import threading
import time
import unittest
import unittest.mock
from pathlib import Path

from actrun_front import files, snapshots, snapshot_store
from actrun_front.earlier import copy_large
from actrun_front.snapshot_restore import restore
from actrun_front.snapshot_store import EMPTY, Store, new_execution
from actrun_front.snapshots import Keeper, Spot


class SnapshotCase(unittest.TestCase):
    """A store, and a workspace of which snapshots are made."""

    def setUp(self) -> None:
        self.room = Path(tempfile.mkdtemp(prefix="actrun-snapshots-")).resolve()
        self.addCleanup(files.remove, self.room)
        self.tree = self.room / "play" / "tree"
        self.tree.mkdir(parents=True)
        self.store = Store(self.room / "store").open()
        self.addCleanup(self.store.close)
        self.keeper = self.new_keeper()
        self.count = 0

    def new_keeper(self, most: int = snapshots.MOST_FILES) -> Keeper:
        """What keeps the workspace."""
        spot = Spot(self.room / "play", ("tree",))
        return Keeper(self.store, new_execution(), lambda leg: spot, lambda leg: b"/bin\n", most)

    def write(self, name: str, text: str = "text") -> Path:
        """A file of the workspace."""
        path = self.tree / name
        path.parent.mkdir(parents=True, exist_ok=True)
        path.write_text(text, encoding="utf-8")
        return path

    def take(self) -> bytes:
        """The tree of a new snapshot."""
        self.keeper.take((0, self.count))
        self.count += 1
        return self.store.trees(self.store.find(self.keeper.execution, (0, self.count - 1)))[0]

    def restored(self, tree: bytes) -> Path:
        """A folder with what a tree has."""
        place = self.room / f"restored-{self.count}"
        restore(self.store, tree, place)
        return place


class Kept(SnapshotCase):
    """What snapshots have."""

    def test_files_links_folders_modes_and_times_come_back(self) -> None:
        self.write("a b/\u00e9\n.txt", "one").chmod(0o640)
        self.write("run", "#!/bin/sh\n").chmod(0o755)
        (self.tree / "empty" / "inner").mkdir(parents=True)
        (self.tree / "empty").chmod(0o700)
        (self.tree / "link").symlink_to("/etc/passwd")
        (self.tree / os.fsdecode(b"\xff")).write_bytes(b"\0\xff")
        for name in ("run", "empty"):
            os.utime(self.tree / name, ns=(1, 1_234_567_891))
        place = self.restored(self.take())
        for path in (self.tree, *sorted(self.tree.rglob("*"))):
            new, was = place / path.relative_to(self.tree), os.lstat(path)
            found = os.lstat(new)
            if path != self.tree:
                self.assertEqual((found.st_mode, found.st_mtime_ns), (was.st_mode, was.st_mtime_ns), path)
            if stat.S_ISREG(was.st_mode):
                self.assertEqual(new.read_bytes(), path.read_bytes())
        self.assertEqual(os.readlink(place / "link"), "/etc/passwd")

    def test_changes_and_the_difference(self) -> None:
        self.write("kept")
        self.write("old")
        self.write("x/changed", "one\n")
        before = self.take()
        (self.tree / "old").unlink()
        self.write("x/changed", "two\n")
        self.write("new")
        self.write(".git/HEAD")
        after = self.take()
        self.assertEqual(self.store.changes(before, after), [("A", b"new"), ("D", b"old"), ("M", b"x/changed")])
        text = self.store.difference(before, after, b"x/changed")
        self.assertIn(b"-one\n+two\n", text)
        self.assertEqual(self.store.changes(after, after), [])
        self.assertEqual(len(self.store.changes(EMPTY, before)), 3)

    def test_a_change_that_keeps_time_and_size_is_seen(self) -> None:
        path = self.write("file", "one")
        os.utime(path, ns=(0, 0))
        before = self.take()
        path.write_text("two", encoding="utf-8")
        os.utime(path, ns=(0, 0))
        self.assertEqual(self.store.changes(before, self.take()), [("M", b"file")])

    def test_path_is_kept_and_another_execution_adds_no_object(self) -> None:
        self.write("file")
        self.take()
        found = self.store.find(self.keeper.execution, (0, 0))
        self.assertEqual(self.store.path(found), b"/bin\n")
        known = set(self.store.all_known())
        self.keeper = self.new_keeper()
        self.keeper.take((0, 0))
        self.assertEqual(self.store.all_known(), known)

    def test_many_files_become_a_pack(self) -> None:
        for number in range(snapshot_store.FEW + 1):
            self.write(f"{number}", f"{number}" * 1000)
        place = self.restored(self.take())
        self.assertEqual((place / "100").read_text(encoding="utf-8"), "100" * 1000)
        self.assertTrue(list((self.room / "store" / "objects" / "pack").glob("*.pack")))

    def test_the_oldest_executions_are_removed(self) -> None:
        self.write("first", "only there")
        first = self.take()
        (self.tree / "first").unlink()
        for _ in range(snapshot_store.MOST_EXECUTIONS):
            self.keeper = self.new_keeper()
            self.keeper.take((0, 0))
        last = self.keeper.execution
        self.store.close()
        self.store.bound()
        self.assertIn(len(self.store.executions()), range(10, snapshot_store.MOST_EXECUTIONS + 1))
        self.assertIsNotNone(self.store.find(last, (0, 0)))
        with self.assertRaises(OSError):
            self.store.object(first)

    def test_a_store_in_use_is_left_alone(self) -> None:
        for _ in range(snapshot_store.MOST_EXECUTIONS + 1):
            self.keeper = self.new_keeper()
            self.keeper.take((0, 0))
        Store(self.store.folder).bound()
        self.assertEqual(len(self.store.executions()), snapshot_store.MOST_EXECUTIONS + 1)

    def test_too_many_files_end_the_snapshots_of_a_leg(self) -> None:
        self.keeper = self.new_keeper(most=3)
        for number in range(4):
            self.write(f"{number}")
        self.keeper.take((0, 0))
        self.keeper.take((0, 1))
        self.assertEqual(self.store.places(self.keeper.execution), set())
        self.assertRegex(self.keeper.notes(str)[0], "more than 3 (files|folders)")

    def test_far_too_many_files_are_not_read(self) -> None:
        self.keeper = self.new_keeper(most=3)
        for number in range(7):
            self.write(f"{number}/file")
        with unittest.mock.patch.object(snapshots.Visit, "folder", side_effect=AssertionError):
            self.keeper.take((0, 0))
        self.assertRegex(self.keeper.notes(str)[0], "more than 3 (files|folders)")

    def test_an_answer_waits_for_its_snapshot(self) -> None:
        ours, shim = socket.socketpair()
        agent = self.keeper.hold(0, 0, ours)
        shim.sendall(b"request")
        self.assertEqual(agent.recv(64), b"request")
        self.write("made")
        agent.sendall(b"answer")
        self.assertEqual(shim.recv(64), b"answer")
        self.assertIsNotNone(self.store.find(self.keeper.execution, (0, 0)))
        shim.close()
        self.assertEqual(agent.recv(64), b"")
        for one in (ours, agent):
            one.close()

    def test_an_answer_goes_on_where_no_snapshot_can_be_made(self) -> None:
        files.remove(self.store.folder)
        ours, shim = socket.socketpair()
        agent = self.keeper.hold(0, 0, ours)
        agent.sendall(b"answer")
        self.assertEqual(shim.recv(64), b"answer")
        self.assertIn("is not kept", self.keeper.notes(str)[0])
        for one in (ours, agent, shim):
            one.close()


class Hostile(SnapshotCase):
    """Workspaces that steps made to do harm."""

    def setUp(self) -> None:
        super().setUp()
        self.secret = self.room / "secret"
        self.secret.write_text("canary", encoding="utf-8")

    def contents(self, tree: bytes) -> bytes:
        """All that a tree has."""
        place = self.restored(tree)
        plain = (path for path in place.rglob("*") if not path.is_symlink() and path.is_file())
        return b"".join(path.read_bytes() for path in plain)

    def test_no_link_is_followed(self) -> None:
        (self.tree / "file").symlink_to(self.secret)
        (self.tree / "folder").symlink_to(self.room)
        self.assertNotIn(b"canary", self.contents(self.take()))

    def test_a_workspace_that_is_a_link_is_empty(self) -> None:
        (self.room / "elsewhere").mkdir()
        shutil.copy(self.secret, self.room / "elsewhere" / "file")
        self.tree.rmdir()
        self.tree.symlink_to(self.room / "elsewhere")
        self.assertEqual(self.take(), EMPTY)

    def test_a_repository_of_the_workspace_is_files(self) -> None:
        canary = self.room / "executed"
        words = ["git", "-c", "user.name=A", "-c", "user.email=a@b", "-C", str(self.tree)]
        subprocess.run([*words[:1], "init", "-q", str(self.tree)], check=True)
        for name in ("post-index-change", "post-checkout", "pre-commit"):
            self.write(f".git/hooks/{name}", f"#!/bin/sh\ntouch {canary}\n").chmod(0o755)
        with open(self.tree / ".git" / "config", "a", encoding="utf-8") as config:
            config.write(f'[core]\nfsmonitor = "touch {canary}"\n[filter "x"]\nclean = touch {canary}; cat\n'
                         f'smudge = touch {canary}; cat\n[diff "x"]\ntextconv = touch {canary}; cat\n')
        self.write(".gitattributes", "* filter=x diff=x ident eol=crlf\n")
        self.write(".gitignore", "ignored\n")
        self.write("ignored", "$Id$\nline\r\n")
        shutil.copytree(self.tree / ".git", self.tree / "inner" / ".git")
        self.write("inner/file", "of an embedded repository")
        before, place = self.take(), self.room / "restored"
        restore(self.store, before, place)
        self.write("ignored", "other\n")
        self.store.difference(before, self.take(), b"ignored")
        self.assertFalse(canary.exists())
        self.assertEqual((place / "ignored").read_bytes(), b"$Id$\nline\r\n")
        self.assertEqual((place / "inner" / "file").read_text(encoding="utf-8"), "of an embedded repository")
        self.assertTrue((place / ".git" / "hooks" / "pre-commit").is_file())

    def test_pipes_sockets_and_large_files_are_left_out(self) -> None:
        os.mkfifo(self.tree / "pipe")
        with socket.socket(socket.AF_UNIX) as server:
            server.bind(str(self.tree / "socket"))
        with open(self.tree / "sparse", "wb") as file:
            file.truncate(1 << 40)
        self.write("kept")
        began = time.monotonic()
        tree = self.take()
        self.assertLess(time.monotonic() - began, 20)
        self.assertEqual(self.store.changes(EMPTY, tree), [("A", b"kept")])
        self.assertEqual(set(self.keeper.workspaces[0].left), {"pipe", "socket", "sparse"})
        self.assertIn("are without", self.keeper.notes(str)[0])
        left = restore(self.store, tree, self.room / "restored")
        self.assertEqual({name for name, _ in left}, {b"pipe", b"socket", b"sparse"})

    def test_a_path_that_no_folder_could_take_is_left_out(self) -> None:
        at = os.open(self.tree, os.O_RDONLY | os.O_DIRECTORY)
        for _ in range(30):
            os.mkdir("n" * 250, dir_fd=at)
            inner = os.open("n" * 250, os.O_RDONLY | os.O_DIRECTORY, dir_fd=at)
            os.close(at)
            at = inner
        os.close(at)
        self.write("kept")
        tree = self.take()
        self.assertIn("more than 3000 bytes", next(iter(self.keeper.workspaces[0].left.values())))
        restore(self.store, tree, self.room / "restored")
        self.assertTrue((self.room / "restored" / "kept").is_file())

    def test_a_large_file_is_copied_without_its_holes(self) -> None:
        with open(self.tree / "sparse", "wb") as file:
            file.seek(1 << 30)
            file.write(b"end")
            file.truncate(1 << 34)
        new, when = self.room / "new", os.stat(self.tree / "sparse").st_mtime_ns
        new.mkdir()
        self.assertTrue(copy_large(self.tree.parent, (self.tree.name,), new, "sparse", when))
        found = os.stat(new / "sparse")
        self.assertEqual((found.st_size, found.st_mtime_ns), (1 << 34, when))
        self.assertLess(found.st_blocks * 512, 1 << 20)
        with open(new / "sparse", "rb") as file:
            file.seek((1 << 30) - 1)
            self.assertEqual(file.read(5), b"\0end\0")

    def test_too_many_bytes_end_the_snapshots(self) -> None:
        with unittest.mock.patch.object(snapshots, "MOST_READ", 10):
            self.write("one", "12345678")
            self.write("two", "12345678")
            self.keeper.take((0, 0))
        self.assertIn("GiB", self.keeper.notes(str)[0])

    def test_a_very_deep_folder_is_left_out(self) -> None:
        at = os.open(self.tree, os.O_RDONLY | os.O_DIRECTORY)
        for _ in range(300):
            os.mkdir("deep", dir_fd=at)
            inner = os.open("deep", os.O_RDONLY | os.O_DIRECTORY, dir_fd=at)
            os.close(at)
            at = inner
        os.close(at)
        self.write("kept")
        self.assertIn(("A", b"kept"), self.store.changes(EMPTY, self.take()))

    def test_files_that_change_meanwhile_do_not_end_it(self) -> None:
        stop = threading.Event()

        def change() -> None:
            number = 0
            while not stop.is_set():
                number += 1
                path = self.tree / f"moving-{number % 7}"
                path.unlink(missing_ok=True)
                if number % 3:
                    path.symlink_to(self.secret)
                else:
                    path.write_text("x" * (number % 100), encoding="utf-8")
        thread = threading.Thread(target=change)
        thread.start()
        try:
            trees = [self.take() for _ in range(30)]
        finally:
            stop.set()
            thread.join()
        self.assertEqual(self.keeper.notes(str), [])
        for tree in trees[:3]:
            self.assertNotIn(b"canary", self.contents(tree))
            files.remove(self.room / f"restored-{self.count}")

    def test_a_workspace_is_moved_behind_no_link(self) -> None:
        (self.room / "new").mkdir()
        (self.room / "elsewhere").mkdir()
        (self.room / "play" / "legs").symlink_to(self.room / "elsewhere")
        with self.assertRaises(OSError):
            files.move_below(self.room / "new", self.room / "play", "legs", "0-0", "name")
        self.assertEqual(os.listdir(self.room / "elsewhere"), [])
        (self.room / "play" / "legs").unlink()
        files.move_below(self.room / "new", self.room / "play", "legs", "0-0", "name")
        self.assertTrue((self.room / "play" / "legs" / "0-0" / "name").is_dir())


if __name__ == "__main__":
    unittest.main()
