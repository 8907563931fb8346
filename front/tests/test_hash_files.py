"""Tests of hash_files: which files hashFiles reads, in which order, and the digest.

Expected digests were computed by `sha256sum` and `xxd -r -p` from the contents, orders by hand from the rules of @actions/glob.
"""
import os
import pathlib
import subprocess
import tempfile
import unittest

from actrun_front.hash_files import GlobError, digest, matching

FILES = {"a.lock": "one\n", "sub/b.lock": "two\n", "sub/dir/c.lock": "three\n", "sub.lock": "x", ".hidden/d.lock": "y",
         "src/main.c": "m", "src/deep/e[1].c": "n", "package.json": "p"}


class Folder(unittest.TestCase):
    def setUp(self):
        room = tempfile.TemporaryDirectory()
        self.addCleanup(room.cleanup)
        self.top = pathlib.Path(room.name)
        for name, text in FILES.items():
            (self.top / name).parent.mkdir(parents=True, exist_ok=True)
            (self.top / name).write_text(text, encoding="utf-8")

    def files(self, *patterns, workspace=""):
        return ["/".join(path) for path in matching(list(patterns), self.top, workspace)]


class Matching(Folder):
    def test_two_stars_match_any_depth_and_hidden_folders_in_byte_order(self):
        self.assertEqual(self.files("**/*.lock"), [".hidden/d.lock", "a.lock", "sub/b.lock", "sub/dir/c.lock", "sub.lock"])

    def test_one_star_and_question_mark_stay_in_a_segment(self):
        self.assertEqual(self.files("*.lock"), ["a.lock", "sub.lock"])
        self.assertEqual(self.files("**/?.lock"), [".hidden/d.lock", "a.lock", "sub/b.lock", "sub/dir/c.lock"])

    def test_sets(self):
        self.assertEqual(self.files("**/[a-b].lock"), ["a.lock", "sub/b.lock"])
        self.assertEqual(self.files("**/[!a-b].lock"), [".hidden/d.lock", "sub/dir/c.lock"])
        self.assertEqual(self.files("src/deep/e[[]1].c"), ["src/deep/e[1].c"])
        self.assertEqual(self.files("src/deep/e\\[1].c"), ["src/deep/e[1].c"])
        self.assertEqual(self.files("src/deep/e[1].c"), [])

    def test_a_folder_stands_for_all_below_it(self):
        below = ["sub/b.lock", "sub/dir/c.lock"]
        for pattern in ("sub", "sub/", "./sub", "sub/**", "s?b/", "sub//"):
            self.assertEqual(self.files(pattern), below, pattern)

    def test_a_last_slash_matches_no_file(self):
        self.assertEqual(self.files("a.lock/"), [])
        self.assertEqual(self.files("a.lock/**"), ["a.lock"])

    def test_exclusions_hold_from_their_place_on(self):
        self.assertEqual(self.files("**/*.lock", "!sub", "!.hidden/**"), ["a.lock", "sub.lock"])
        self.assertEqual(self.files("**/*.lock", "!**/*.lock", "sub/b.lock"), ["sub/b.lock"])
        self.assertEqual(self.files("!!a.lock"), ["a.lock"])

    def test_lines_and_comments(self):
        self.assertEqual(self.files("  sub.lock  \n# a.lock\n\na.lock"), ["sub.lock", "a.lock"])

    def test_search_paths_come_in_the_order_of_the_patterns(self):
        self.assertEqual(self.files("sub/b.lock", "a.lock"), ["sub/b.lock", "a.lock"])
        self.assertEqual(self.files("sub/b.lock", "**/a.lock"), ["a.lock", "sub/b.lock"])
        self.assertEqual(self.files("a.lock", "a.lock"), ["a.lock"])

    def test_paths_of_the_workspace(self):
        self.assertEqual(self.files("/home/w/a.lock", workspace="/home/w"), ["a.lock"])
        self.assertEqual(self.files("/home/x/a.lock", "~/a.lock", workspace="/home/w"), [])

    def test_refused(self):
        for given in (["sub/../a.lock"], ["../a.lock"], ["!"], ["--follow-symbolic-links", "a"]):
            with self.subTest(given), self.assertRaises(GlobError):
                self.files(*given)

    def test_links(self):
        os.symlink("a.lock", self.top / "link.lock")
        os.symlink("sub", self.top / "linked")
        os.symlink("nowhere", self.top / "broken.lock")
        self.assertEqual(self.files("linked/**", "link.lock"), ["linked", "link.lock"])
        self.assertEqual(digest(["linked", "link.lock", "broken.lock"], self.top), ONE)

    def test_git_hides_what_a_checkout_does_not_have(self):
        (self.top / ".gitignore").write_text("src\n", encoding="utf-8")
        subprocess.run(["git", "init", "-q", self.top], check=True)
        self.assertEqual(self.files("src", "sub.lock"), ["sub.lock"])
        (self.top / "sub.lock").unlink()
        self.assertEqual(digest(["sub.lock", "src"], self.top), "")


ONE = "9c64071fc196d33fec0036f48898b7ff2cf8398b892ead8afce6e9568f7fb6de"
ONE_TWO = "b3e00007a221fb65fa01a1d9b968f4b3f290fe1f8a53061187adb40118314e5f"
TWO_ONE = "18d44588eb754c302baf9983ec63f3a13e277d576590f7dd1dcbe7b603d10c66"


class Digest(Folder):
    def test_digest_of_digests(self):
        self.assertEqual(digest(["a.lock"], self.top), ONE)
        self.assertEqual(digest(["**/[ab].lock"], self.top), ONE_TWO)
        self.assertEqual(digest(["sub/b.lock", "a.lock"], self.top), TWO_ONE)

    def test_no_file(self):
        self.assertEqual(digest(["nothing"], self.top), "")
        self.assertEqual(digest([], self.top), "")
