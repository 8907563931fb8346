"""Actions that git fetches: what is a reference, what is kept, what actrun.lock pins, and that fetching starts nothing."""
from __future__ import annotations

import concurrent.futures
import os
import pathlib
import stat
import tempfile
import unittest
from unittest import mock

from actrun_front import Problem, fetch
from actrun_front.fetch import FetchError, Reference, Store, check_base, parse_reference, read_lock, write_lock
from tests.action_case import Remote, git


class FetchCase(unittest.TestCase):
    def setUp(self) -> None:
        room = tempfile.TemporaryDirectory(prefix="actrun fetch ")
        self.addCleanup(room.cleanup)
        self.room = pathlib.Path(room.name).resolve()
        patch = mock.patch.dict(os.environ, {"XDG_CACHE_HOME": str(self.room / "cache"),
                                             "HOME": str(self.room / "home")})
        patch.start()
        self.addCleanup(patch.stop)
        self.remote = Remote(self.room)


class References(unittest.TestCase):
    def test_what_a_text_names(self) -> None:
        self.assertEqual(parse_reference("octo/Hello@v1"), Reference("octo", "Hello", "", "v1"))
        self.assertEqual(parse_reference("octo/a.b-c/x/y@release/v1"),
                         Reference("octo", "a.b-c", "x/y", "release/v1"))
        self.assertEqual(parse_reference("Octo/Hello@v1").key, "octo/hello@v1")
        self.assertEqual(parse_reference("o/h@" + "a" * 40).commit, "a" * 40)

    def test_what_git_would_read_otherwise_names_nothing(self) -> None:
        for uses in ("octo/hello", "octo@v1", "octo/hello@", "octo/../x@v1", "octo/hello/../x@v1", "-o/h@v1",
                     "o/-h@v1", "o/h@-v1", "o/h@+v1",
                     "o/h@a..b", "o/h@a:b", "o/h@a b", "o/h@a^{x}", "o/h@a@{1}", "o/h@v1.lock", "o/h@v1/",
                     "o/h@.a", "o/h@a/.b", "o/h@a//b",
                     "o/h@v1\n", "./o/h@v1", "docker://a/b@v1", "o/h@${{ x }}", "..//h@v1", "o/h@a\\b"):
            self.assertIsNone(parse_reference(uses), uses)

    def test_a_base(self) -> None:
        self.assertEqual(check_base("https://example.com/git/"), "https://example.com/git")
        for base in ("", "example.com", "ssh://x/y", "ext::sh -c x", "https://", "file://", "https://a b",
                     "--upload-pack=x"):
            with self.assertRaises(Problem, msg=base):
                check_base(base)


class Fetched(FetchCase):
    def test_a_ref_is_fetched_and_kept_by_its_commit(self) -> None:
        commit = self.remote.publish("octo/hello", {"action.yml": "one"}, "v1")
        store, reference = Store(self.remote.url), Reference("octo", "hello", "", "v1")
        self.assertEqual((store.commit_of(reference), store.has(reference, commit)), ("", False))
        self.assertEqual(store.fetch(reference), commit)
        self.assertEqual((Store(self.remote.url).commit_of(reference), store.has(reference, commit)), (commit, True))
        self.assertEqual(store.tree(reference, commit), self.room / "cache/actrun/actions/trees/octo/hello" / commit)
        self.assertEqual([path.name for path in store.tree(reference, commit).iterdir()], ["action.yml"])
        self.assertEqual(stat.S_IMODE((self.room / "cache/actrun/actions").stat().st_mode), 0o700)
        self.assertEqual(sorted(path.name for path in store.folder.iterdir()), ["lock", "refs", "trees"])
        self.assertEqual(Store("https://example.com").commit_of(reference), "",
                         "another server may name another commit")

    def test_branches_commits_and_tags_of_tags(self) -> None:
        first = self.remote.publish("octo/hello", {"action.yml": "one"}, "v1")
        second = self.remote.publish("octo/hello", {"action.yml": "two"}, "feature/x")
        store = Store(self.remote.url)
        for ref, commit in (("main", second), ("feature/x", second), ("v1", first), (second, second)):
            self.assertEqual(store.fetch(Reference("octo", "hello", "", ref)), commit)
        self.assertEqual((store.tree(Reference("octo", "hello", "", "v1"), first) / "action.yml").read_text(encoding="utf-8"), "one")

    def test_several_fetches_at_once(self) -> None:
        commit = self.remote.publish("octo/hello", {"action.yml": "one"}, "v1", "v2", "v3")
        references = [Reference("octo", "hello", "", ref) for ref in ("v1", "v2", "v3", "v1", commit)]
        with concurrent.futures.ThreadPoolExecutor(5) as pool:
            found = list(pool.map(lambda it: Store(self.remote.url).fetch(it), references))
        self.assertEqual(found, [commit] * 5)
        self.assertEqual(sorted(path.name for path in Store().folder.iterdir()), ["lock", "refs", "trees"])

    def test_what_is_not_there_is_said(self) -> None:
        self.remote.publish("octo/hello", {"action.yml": "one"}, "v1")
        store = Store(self.remote.url)
        for reference, why in ((Reference("octo", "hello", "", "v2"), "couldn't find remote ref v2"),
                               (Reference("octo", "none", "", "v1"),
                                "does not appear to be a git repository")):
            with self.assertRaises(FetchError) as caught:
                store.fetch(reference)
            self.assertIn(why, str(caught.exception))
        self.assertEqual(list(store.folder.glob(".new-*")), [])

    def test_what_a_killed_fetch_left_is_removed(self) -> None:
        commit = self.remote.publish("octo/hello", {"action.yml": "one"}, "v1")
        store = Store(self.remote.url)
        (store.folder / ".new-left" / "tree").mkdir(parents=True)
        self.assertEqual(store.fetch(Reference("octo", "hello", "", "v1")), commit)
        self.assertFalse((store.folder / ".new-left").exists())

    def test_nothing_is_started_by_fetching(self) -> None:
        canary, home = self.room / "canary", self.room / "home"
        (home / "hooks").mkdir(parents=True)
        for name in ("post-checkout", "reference-transaction", "post-index-change"):
            (home / "hooks" / name).write_text(f"#!/bin/sh\necho {name} >> '{canary}'\n", encoding="utf-8")
            (home / "hooks" / name).chmod(0o755)
        (home / ".gitconfig").write_text(f"[core]\n\thooksPath = {home}/hooks\n\tfsmonitor = echo f >> '{canary}'\n"
                                         f"[filter \"evil\"]\n\tsmudge = echo s >> '{canary}'; cat\n\trequired = true\n", encoding="utf-8")
        commit = self.remote.publish("octo/hello", {
            "action.yml": "one", ".gitattributes": "* filter=evil\n",
            ".gitmodules": f'[submodule "sub"]\n\tpath = sub\n\turl = {self.remote.url}/octo/hello\n'}, "v1")
        with mock.patch.dict(os.environ, {"GIT_CONFIG_COUNT": "1", "GIT_CONFIG_KEY_0": "core.hooksPath",
                                          "GIT_CONFIG_VALUE_0": f"{home}/hooks",
                                          "GIT_SSH_COMMAND": f"touch {canary}",
                                          "GIT_DIR": str(self.room / "none")}):
            self.assertEqual(Store(self.remote.url).fetch(Reference("octo", "hello", "", "v1")), commit)
        self.assertFalse(canary.exists(), canary.read_text(encoding="utf-8") if canary.exists() else "")
        tree = Store().tree(Reference("octo", "hello", "", "v1"), commit)
        self.assertEqual((tree / "action.yml").read_text(encoding="utf-8"), "one")

    def test_a_repository_that_would_start_something_is_refused(self) -> None:
        self.remote.publish("octo/hello",
                            {".gitmodules": '[submodule "s"]\n\tpath = s\n\turl = ./s\n\tupdate = "!touch x"\n'}, "v1")
        with self.assertRaises(FetchError):
            Store(self.remote.url).fetch(Reference("octo", "hello", "", "v1"))

    def test_a_commit_that_no_ref_names_any_more(self) -> None:
        first = self.remote.publish("octo/hello", {"action.yml": "one"})
        self.remote.publish("octo/hello", {"action.yml": "two"})
        git(self.room / "remote/octo/hello", "config", "uploadpack.allowReachableSHA1InWant",
            "true")  # (as GitHub has it)
        self.assertEqual(Store(self.remote.url).fetch(Reference("octo", "hello", "", first)), first)

    def test_no_other_protocol_is_spoken(self) -> None:
        canary = self.room / "canary"
        for base in (f"ext::sh -c touch% {canary}", "ssh://localhost", "git://localhost"):
            with self.assertRaises(FetchError):
                Store(base).fetch(Reference("octo", "hello", "", "v1"))
        self.assertFalse(canary.exists())


class Locks(FetchCase):
    def test_pins_are_written_and_read(self) -> None:
        self.assertEqual(read_lock(self.room), {})
        pins = {"octo/hello@v1": "a" * 40, "octo/hello@release/v2": "b" * 40}
        place = write_lock(self.room, pins)
        self.assertEqual(read_lock(self.room), pins)
        self.assertEqual(place.read_text(encoding="utf-8"),
                         "# The commits of actions, written by `actrun try --lock`.\n"
                         f"octo/hello@release/v2 {'b' * 40}\nocto/hello@v1 {'a' * 40}\n")

    def test_wrong_lines_are_refused_by_their_number(self) -> None:
        for line in ("octo/hello@v1", "octo/hello@v1 abc", f"octo/hello {'a' * 40}",
                     f"octo/hello/path@v1 {'a' * 40}", f"../x@v1 {'a' * 40}"):
            (self.room / "actrun.lock").write_text(f"# comment\n\n{line}\n", encoding="utf-8")
            with self.assertRaises(Problem) as caught:
                read_lock(self.room)
            self.assertIn("actrun.lock:3: OWNER/NAME@REF and a commit", str(caught.exception))

    def test_a_lock_that_is_no_small_file_is_refused(self) -> None:
        place = self.room / "actrun.lock"
        os.mkfifo(place)
        with self.assertRaises(Problem):
            read_lock(self.room)
        place.unlink()
        place.symlink_to("/dev/zero")
        with self.assertRaises(Problem):
            read_lock(self.room)
        place.unlink()
        place.write_bytes(b"#" * (fetch.MOST_BYTES + 1))
        with self.assertRaises(Problem):
            read_lock(self.room)


if __name__ == "__main__":
    unittest.main()
