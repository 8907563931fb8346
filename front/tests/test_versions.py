"""The ranges by which actions ask for versions. Expected values are from the documents of npm's semver and of the actions."""
from __future__ import annotations

import os
import pathlib
import tempfile
import unittest
from unittest import mock

from actrun_front import toolchains
from stubs.versions import fits

TABLE = {  # a version -> ranges that it is in, and ranges that it is not in
    "3.10.4": ("3 3.x 3.X 3.* 3.10 3.10.4 =3.10.4 v3.10 3.10.x ^3.9 ~3.10 ~3 >=3.9 >=3.10.4 <=3.10 <=3 <4 >3.9 ==3.10.* ~=3.9 !=3.9.1 "
               "* x latest stable 3.10-dev".split() +
               ["", "~> 3.10.1", ">= 3.9 <3.11", ">=3.9,<4", "2 || 3.10", "2||^3", "3.9 - 3.10",
                "3.9.0 - 3.10.4", ">=3.9 <3.10 || 3.10.4"],
               "2 3.1 3.11 3.10.5 ^3.11 ^2 ~3.9 >3.11 >3.10 >3 <3.10 <3.10.4 <=3.9 >=3.11 pypy3.10 nightly-2023-01-01 3.13t head nightly "
               "~=3.10.5 !=3.10.4".split() +
               [">=3.9 <3.10", "2 || 4", "3.7 - 3.9", "3.11 - 4", ">3.10.4"]),
    "0.2.9": ("^0.2.3 ^0.2 ^0 0.x ~0.2.3 ^0.x".split(), "^0.1.9 ^0.3 ~0.1 ^0.2.10".split()),
    "0.0.3": ("^0.0.3 ^0.0".split(), "^0.0.2 ^0.0.4".split()),
    "1.9.9": (["^1.2.3", "~1", "1.x", "1.x || >=2.5.0", "<=1", "<2", "1.2 - 1", "^1.9.9"],
              ["^2", "~1.8", ">1", ">=2", "^1.10", "1.x.x - 1.8"]),
    "2.5.0": (["1.2.3 - 2", "1.x || >=2.5.0 || 5.0.0 - 7.2.3", ">1"], ["1.x || >2.5.0", "1.2.3 - 2.4"]),
    "20.1.0": (["lts/*", "lts/iron", "lts/-1", "node", "current", ">=18", "v20"],
               ["lts/hydrogen", "lts/jod", "^18 || ^22"]),
    "21.1.0": (["node"], ["lts/*"]),
    "1.76.0-nightly": (["nightly"], ["stable", "beta"]),
    "25": (["25", "25.3", ">=25.1"], ["26", "24.3"]),  # (a program that prints the first part alone)
    "21.0.1": (["21-ea", "21", "21.0.1+12"], ["22-ea"]),
}


class Folders(unittest.TestCase):
    def test_tool_caches_that_the_sandbox_shows(self) -> None:
        with tempfile.TemporaryDirectory(prefix="actrun tools ") as room:
            home = pathlib.Path(room).resolve() / "home"
            for name in ("home/.pyenv/versions", "home/.nvm/versions/node", "cache", "home/.ssh"):
                (home.parent / name).mkdir(parents=True)
            for cache, shown in (("cache", [home.parent / "cache"]), ("home", []), ("", []), ("none", [])):
                with mock.patch.dict(os.environ,
                                     {"HOME": str(home), "RUNNER_TOOL_CACHE": str(home.parent / cache)}):
                    expected = [home / ".pyenv/versions", home / ".nvm/versions/node", *shown]
                    self.assertEqual(toolchains.folders(), expected)
                    self.assertEqual(toolchains.variable().split(":")[:len(expected)],
                                     [str(it) for it in expected])


class Ranges(unittest.TestCase):
    def test_the_table(self) -> None:
        for version, (fitting, others) in TABLE.items():
            self.assertEqual([asked for asked in fitting if not fits(asked, version)], [],
                             f"{version} fits these")
            self.assertEqual([asked for asked in others if fits(asked, version)], [],
                             f"{version} fits none of these")


if __name__ == "__main__":
    unittest.main()
