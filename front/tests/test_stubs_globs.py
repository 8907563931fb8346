"""The rules of @actions/glob: what a pattern matches, where a search begins, and which pattern decides."""

from __future__ import annotations

import pathlib
import unittest

from stubs import globs

TREE = pathlib.Path("/work/a [1]*")


def pattern(text: str) -> globs.Pattern:
    """The pattern of a line that starts at an unnamed folder."""
    bare = text.lstrip("!")
    return globs.Pattern(tuple(part for part in bare.split("/") if part), text.startswith("!"), bare.endswith("/"))


class Globs(unittest.TestCase):
    def test_what_matches(self) -> None:
        for text, matched, others in (
                ("*.c", ["a.c", ".c", "x.c/below"], ["a.h", "d/a.c"]), ("?.c", ["a.c"], ["ab.c", "/.c"]),
                ("[a-b].c", ["a.c", "b.c"], ["c.c", "[a-b].c"]), ("[!a].c", ["b.c"], ["a.c", "a/.c"]), ("[^a]", ["b"], ["a"]),
                ("[z-a]", [], ["z", "a"]), ("[]a]", ["]", "a"], ["b"]), ("[", ["["], ["a"]), (r"\*.c", ["*.c"], ["a.c"]), ("a.c", ["a.c"], ["abc"]),
                ("**", ["a", "d/e/f"], []), ("**/a", ["a", "d/a", "d/e/a/f"], ["ba", "d"]), ("d/**", ["d", "d/a", "d/e/f"], ["de"]),
                ("d/**/a", ["d/a", "d/e/f/a"], ["d/ba", "a"]), ("d/", ["d/a"], ["d"]), ("d/*/", ["d/e/f"], ["d/e"])):
            self.assertEqual([path for path in matched + others if pattern(text).matches(tuple(path.split("/")))], matched, text)

    def test_the_last_pattern_that_matches_decides(self) -> None:
        for texts, wanted in ((["d", "!d/a"], ["d/b"]), (["!d/a", "d"], ["d/a", "d/b"]), (["!d"], []), (["d", "!d", "d/a"], ["d/a"])):
            patterns = [pattern(text) for text in texts]
            self.assertEqual([path for path in ("d/a", "d/b") if globs.is_chosen(patterns, tuple(path.split("/")))], wanted, texts)

    def test_where_a_search_begins(self) -> None:
        found = globs.starts([pattern(text) for text in ("b/c/*.o", "a", "!x", r"\*/?", "b/c", "b/c/d", "a")])
        self.assertEqual(found, [("b", "c"), ("a",), ("*",)])

    def test_paths_start_at_the_tree_the_home_or_the_root(self) -> None:
        home = pathlib.Path.home().resolve().parts[1:]
        for text, start in (("d/./e/../*.o", (*TREE.parts[1:], "d")), (".", TREE.parts[1:]), ("../b", ("work", "b")), (f"{TREE}/d", (*TREE.parts[1:], "d")),
                            ("~", home), ("~/d/*", (*home, "d")), ("/", ()), ("/x//y/", ("x", "y"))):
            self.assertEqual(globs.starts(globs.read_patterns([text], TREE)), [start], text)


if __name__ == "__main__":
    unittest.main()
