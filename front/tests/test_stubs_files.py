"""Caches and artifacts: what is kept, where, and what comes back."""

from __future__ import annotations

import os
import pathlib
import runpy
import shutil
import subprocess
import sys
import tarfile
import unittest
import urllib.parse

from actrun_front import actions
from tests.stub_case import StubCase


class Cache(StubCase):
    def restore(self, **inputs: str):
        return self.start("actions/cache/restore@v4", {name.replace("_", "-"): value for name, value in inputs.items()})

    def save(self, key: str, path: str):
        return self.start("actions/cache/save@v4", {"key": key, "path": path})

    def test_what_was_saved_is_restored(self) -> None:
        self.write("home/.cache/pip/wheel", "w")
        self.write("tree/node_modules/a/index.js", "j", 0o755)
        (self.tree / "node_modules" / "link").symlink_to("a")
        os.link(self.tree / "node_modules/a/index.js", self.tree / "node_modules/hard.js")
        path = "~/.cache/pip\nnode_modules\n"
        self.assertEqual(self.restore(key="k1", path=path).outputs, {"cache-primary-key": "k1"})
        self.assertIn("k1 is saved", self.save("k1", path).shown)
        for place in ("home/.cache", "tree/node_modules"):
            subprocess.run(["rm", "-rf", self.room / place], check=True)
        ended = self.restore(key="k1", path=path)
        self.assertEqual(ended.outputs, {"cache-primary-key": "k1", "cache-hit": "true", "cache-matched-key": "k1"})
        self.assertEqual((self.room / "home/.cache/pip/wheel").read_text(encoding="utf-8"), "w")
        self.assertTrue(os.access(self.tree / "node_modules/a/index.js", os.X_OK))
        self.assertEqual(os.readlink(self.tree / "node_modules/link"), "a")
        self.assertEqual((self.tree / "node_modules/hard.js").read_text(encoding="utf-8"), "j")

    def test_it_is_restored_into_another_tree_and_home(self) -> None:
        self.write("home/.cache/x", "home")
        self.write("tree/build/y", "tree")
        self.save("k", "~/.cache\nbuild")
        self.environment["HOME"] = str(self.room / "home 2")
        self.environment["GITHUB_WORKSPACE"] = str(self.room / "tree 2")
        self.assertEqual(self.restore(key="k", path="~/.cache\nbuild").outputs["cache-hit"], "true")
        self.assertEqual((self.room / "home 2/.cache/x").read_text(encoding="utf-8"), "home")
        self.assertEqual((self.room / "tree 2/build/y").read_text(encoding="utf-8"), "tree")

    def test_a_path_below_the_tree_is_the_same_in_another_tree(self) -> None:
        self.write("tree/build/y", "tree")
        self.save("k", f"{self.tree}/build")
        self.environment["GITHUB_WORKSPACE"] = str(self.room / "tree 2")
        self.assertEqual(self.restore(key="k", path=f"{self.room}/tree 2/build").outputs["cache-hit"], "true")
        self.assertEqual(self.files_below("tree 2"), ["build/y"])

    def test_the_newest_with_the_first_prefix_is_taken(self) -> None:
        for key in ("pip-a", "pip-b", "npm-a"):
            self.write("tree/c", key)
            self.save(key, "c")
        ended = self.restore(key="pip-c", path="c", restore_keys="gem-\npip-\nnpm-\n")
        self.assertEqual(ended.outputs, {"cache-primary-key": "pip-c", "cache-hit": "false", "cache-matched-key": "pip-b"})
        self.assertEqual((self.tree / "c").read_text(encoding="utf-8"), "pip-b")

    def test_other_paths_are_another_cache(self) -> None:
        self.write("tree/c", "1")
        self.save("k", "c")
        self.assertEqual(self.restore(key="k", path="d").outputs, {"cache-primary-key": "k"})

    def test_a_key_is_saved_once(self) -> None:
        self.write("tree/c", "1")
        self.save("k", "c")
        self.write("tree/c", "2")
        self.assertIn("exists already", self.save("k", "c").shown)
        self.restore(key="k", path="c")
        self.assertEqual((self.tree / "c").read_text(encoding="utf-8"), "1")
        self.assertEqual(len(list((self.room / "cache").iterdir())), 1)

    def test_nothing_is_written_outside_of_the_paths(self) -> None:
        self.write("tree/c/x", "1")
        self.save("k", "c")
        secret = self.write("home/secret", "untouched")
        (place,) = (self.room / "cache").glob("*/workspace.tar")
        with tarfile.open(place, "a") as archive:
            for name, kind, target in (("c/up", tarfile.SYMTYPE, "../../home"), ("c/up/secret", tarfile.REGTYPE, ""),
                                       ("../home/secret", tarfile.REGTYPE, ""), ("other", tarfile.REGTYPE, ""),
                                       ("c/hard", tarfile.LNKTYPE, "../home/secret"), ("c/pipe", tarfile.FIFOTYPE, ""),
                                       ("/etc/actrun-test", tarfile.REGTYPE, "")):
                member = tarfile.TarInfo(name)
                member.type, member.linkname = kind, target
                archive.addfile(member)
        subprocess.run(["rm", "-rf", self.tree / "c"], check=True)
        ended = self.restore(key="k", path="c")
        self.assertIn("::warning::6 files of the cache are not restored", ended.shown)
        self.assertEqual(self.files_below("tree"), ["c/x"])
        self.assertTrue((self.tree / "c/up").is_symlink())
        self.assertEqual(secret.read_text(encoding="utf-8"), "untouched")
        self.assertFalse(pathlib.Path("/etc/actrun-test").exists())

    def test_an_archive_that_a_step_replaced(self) -> None:
        for name, make in (("pipe", os.mkfifo), ("device", lambda place: place.symlink_to("/dev/zero")),
                           ("folder", pathlib.Path.mkdir), ("none", lambda place: place.symlink_to("nothing")),
                           ("text", lambda place: place.write_bytes(b"x" * 5000))):
            self.write("tree/c", name)
            self.save(name, "c")
            place = max((self.room / "cache").glob("*/workspace.tar"), key=os.path.getctime)
            place.unlink()
            make(place)
            ended = self.restore(key=name, path="c")
            self.assertEqual((ended.code, ended.outputs["cache-hit"], "is broken" in ended.shown), (0, "true", name == "text"), ended)
        self.assertEqual(self.save("last", "c").code, 0)

    def test_wildcards_and_exclusions(self) -> None:
        for name in ("a/one.o", "a/two.c", "b/x/three.o", "b/skip/four.o"):
            self.write(f"tree/{name}", name)
        path = "**/*.o\n!b/skip/**"
        self.save("k", path)
        subprocess.run("rm -r a b", shell=True, cwd=self.tree, check=True)
        self.restore(key="k", path=path)
        self.assertEqual(self.files_below("tree"), ["a/one.o", "b/x/three.o"])

    def test_what_actrun_keeps_is_in_no_cache(self) -> None:
        self.environment["ACTRUN_CACHE"] = str(self.room / "home/.cache/actrun/caches/one")
        self.write("home/.cache/pip/wheel", "wheel")
        self.write("home/.cache/actrun/work/tree/file", "file")
        self.assertEqual(self.save("k", "~/.cache").code, 0)
        shutil.rmtree(self.room / "home/.cache/pip")
        shutil.rmtree(self.room / "home/.cache/actrun/work")
        self.assertEqual(self.restore(key="k", path="~/.cache").outputs["cache-hit"], "true")
        self.assertEqual((self.room / "home/.cache/pip/wheel").read_text(encoding="utf-8"), "wheel")
        self.assertFalse((self.room / "home/.cache/actrun/work").exists())

    def test_looking_up_brings_no_files(self) -> None:
        self.write("tree/c", "1")
        self.save("k", "c")
        (self.tree / "c").unlink()
        self.assertEqual(self.restore(key="k", path="c", lookup_only="true").outputs["cache-hit"], "true")
        self.assertFalse((self.tree / "c").exists())

    def test_the_oldest_caches_make_room(self) -> None:
        for key in ("a", "b", "c"):
            self.write("tree/c", key * 100000)
            self.save(key, "c")
        left = self.room / "cache" / ".new-left"
        left.mkdir()
        os.utime(left, (0, 0))
        sys.path.insert(0, str(actions.STUBS))
        self.addCleanup(sys.path.remove, str(actions.STUBS))
        make_room = runpy.run_path(str(actions.STUBS / "cache.py"), run_name="stub")["make_room"]
        make_room.__globals__["MOST_BYTES"] = 250000
        make_room(self.room / "cache")
        self.assertEqual([self.restore(key=key, path="c").outputs.get("cache-hit") for key in "abc"], [None, "true", "true"])
        self.assertFalse(left.exists())

    def test_bad_inputs(self) -> None:
        self.assertEqual(self.restore(key="k", path="c", fail_on_cache_miss="true").code, 1)
        self.assertIn("the input `path` is missing", self.restore(key="k").shown)
        self.assertIn("the input `key` is missing", self.restore(path="c").shown)
        self.assertIn("is not valid", self.restore(key="a,b", path="c").shown)
        self.assertIn("::warning::the cache k is not saved: nothing matches", self.save("k", "none").shown)

    def test_a_variable_that_try_did_not_set_is_named(self) -> None:
        self.write("tree/a", "1")
        for variable, uses, inputs in (("ACTRUN_CACHE", "actions/cache/restore@v4", {"key": "k", "path": "c"}),
                                       ("ACTRUN_ARTIFACTS", "actions/upload-artifact@v4", {"path": "a"})):
            del self.environment[variable]
            ended = self.start(uses, inputs)
            self.assertEqual((ended.code, ended.outputs), (1, {}))
            self.assertIn(f"::error::the variable '{variable}' is not set: `actrun try` starts this program", ended.shown)

    def test_the_cache_action_saves_at_the_end_of_the_job(self) -> None:
        self.write("tree/c", "1")
        self.assertEqual(self.start("actions/cache@v4", {"key": "k", "path": "c"}, number=3).code, 0)
        self.environment["ACTRUN_PHASE"] = "post"
        for said in ("the cache k is saved", ""):
            self.assertEqual(self.start("actions/cache@v4", {}, number=9).shown.strip(), said)
        del self.environment["ACTRUN_PHASE"]
        self.assertEqual(self.restore(key="k", path="c").outputs["cache-hit"], "true")

    def test_two_that_save_at_once_leave_one_whole_cache(self) -> None:
        self.write("tree/c", "x" * 100000)
        uses = "actions/cache/save@v4"
        wrapper = actions.stubs_for([uses], {}, False, self.room / "wrappers", sys.executable).programs[uses]
        environment = {**self.environment, "INPUT_KEY": "k", "INPUT_PATH": "c"}
        started = [subprocess.Popen([wrapper], env=environment, cwd=self.tree, stdout=subprocess.DEVNULL) for _ in range(6)]
        self.assertEqual([one.wait() for one in started], [0] * 6)
        self.assertEqual(len(list((self.room / "cache").iterdir())), 1)
        (self.tree / "c").unlink()
        self.assertEqual(self.restore(key="k", path="c").outputs["cache-hit"], "true")
        self.assertEqual((self.tree / "c").stat().st_size, 100000)


class Artifacts(StubCase):
    def upload(self, path: str, ref: str = "v4", **inputs: str):
        given = {"path": path, **{name.replace("_", "-"): value for name, value in inputs.items()}}
        return self.start(f"actions/upload-artifact@{ref}", given)

    def download(self, ref: str = "v4", **inputs: str):
        return self.start(f"actions/download-artifact@{ref}", {name.replace("_", "-"): value for name, value in inputs.items()})

    def kept(self) -> list[str]:
        return self.files_below("artifacts")

    def test_names_start_at_the_folder_that_was_looked_through(self) -> None:
        for name in ("dist/a.whl", "dist/deep/b.whl", "dist/c.txt"):
            self.write(f"tree/{name}", name)
        for name, path, expected in (("one", "dist/a.whl", ["a.whl"]), ("folder", "dist", ["a.whl", "c.txt", "deep/b.whl"]),
                                     ("slash", "./dist/", ["a.whl", "c.txt", "deep/b.whl"]), ("star", "dist/*.whl", ["a.whl"]),
                                     ("stars", "dist/**/*.whl", ["a.whl", "deep/b.whl"]), ("letter", "dist/?.[!x]hl", ["a.whl"]),
                                     ("out", "dist/**\n!dist/**/*.whl", ["c.txt"])):
            self.assertEqual(self.upload(path, name=name).code, 0)
            self.assertEqual(self.files_below(f"artifacts/{name}"), expected)

    def test_several_paths_start_at_their_common_folder(self) -> None:
        for name in ("path/output/bin/app", "path/output/test.txt", "other"):
            self.write(f"tree/{name}", name)
        self.upload("path/output/bin/\npath/output/test.txt", name="two")
        self.assertEqual(self.files_below("artifacts/two"), ["bin/app", "test.txt"])
        self.upload(f"path/output/bin\n{self.tree}/other", name="three")
        self.assertEqual(self.files_below("artifacts/three"), ["other", "path/output/bin/app"])

    def test_wildcards_in_the_name_of_the_tree_are_none(self) -> None:
        self.tree = self.room / "a tree [1]*"
        self.tree.mkdir()
        self.environment["GITHUB_WORKSPACE"] = str(self.tree)
        self.write("a tree [1]*/dist/a.whl")
        self.write("a tree 1/dist/b.whl")
        self.upload("dist/../dist/*.whl", name="relative")
        self.upload(f"{self.tree}/dist", name="absolute")
        self.assertEqual(self.kept(), ["absolute/a.whl", "relative/a.whl"])

    def test_links_to_folders_are_followed_once(self) -> None:
        self.write("elsewhere/file")
        self.write("tree/d/file")
        (self.tree / "d" / "out").symlink_to(self.room / "elsewhere")
        (self.tree / "d" / "up").symlink_to("..")
        self.upload("d", name="a")
        self.assertEqual(self.kept(), ["a/file", "a/out/file"])

    def test_hidden_files_are_left_out_unless_asked_for(self) -> None:
        for name in (".env", "d/.git/x", "d/y"):
            self.write(f"tree/{name}")
        self.upload(".", name="a")
        self.assertEqual(self.files_below("artifacts/a"), ["d/y"])
        self.upload(".", name="b", include_hidden_files="true")
        self.assertEqual(self.files_below("artifacts/b"), [".env", "d/.git/x", "d/y"])

    def test_no_files(self) -> None:
        self.assertIn("::warning::no files match", self.upload("none/*").shown)
        self.assertNotIn("::", self.upload("none/*", if_no_files_found="ignore").shown)
        self.assertEqual(self.upload("none/*", if_no_files_found="error").code, 1)
        self.assertIn("the input `path` is missing", self.upload("").shown)
        self.assertEqual(self.kept(), [])

    def test_the_digest_tells_contents_apart(self) -> None:
        digests = []
        for number, text in enumerate(("1", "1", "2")):
            self.write("tree/a", text)
            digests.append(self.upload("a", name=f"n{number}").outputs["artifact-digest"])
        self.assertEqual(digests[0], digests[1])
        self.assertNotEqual(digests[0], digests[2])
        self.assertRegex(digests[0], r"\A[0-9a-f]{64}\Z")

    def test_a_second_artifact_of_one_name(self) -> None:
        self.write("tree/a", "1")
        self.write("tree/b", "2")
        self.upload("a")
        ended = self.upload("b")
        self.assertEqual(ended.code, 1)
        self.assertIn("the artifact artifact exists already", ended.shown)
        self.assertEqual(self.kept(), ["artifact/a"])
        self.assertEqual(self.upload("b", ref="v3").code, 0)
        self.assertEqual(self.kept(), ["artifact/a", "artifact/b"])
        self.assertEqual(self.upload("b", overwrite="true").code, 0)
        self.assertEqual(self.kept(), ["artifact/b"])

    def test_merged_artifacts(self) -> None:
        for name in "ab":
            self.write(f"tree/{name}", name)
            self.upload(name, name=f"part-{name}")
        merge = "actions/upload-artifact/merge@v4"
        self.assertEqual(self.start(merge, {"pattern": "part-*", "separate-directories": "true", "name": "apart"}).code, 0)
        self.assertEqual(self.start(merge, {"pattern": "part-*", "delete-merged": "true"}).code, 0)
        self.assertEqual(self.kept(), ["apart/part-a/a", "apart/part-b/b", "merged-artifacts/a", "merged-artifacts/b"])
        ended = self.start(merge, {"pattern": "part-*"})
        self.assertEqual(ended.code, 1)
        self.assertIn("no artifact of this run matches the pattern part-*", ended.shown)

    def test_names_that_github_refuses(self) -> None:
        self.write("tree/a", "1")
        for name in ("a/b", "../x", "..", "a:b", "a\nb", 'a"b', "a*"):
            self.assertEqual(self.upload("a", name=name).code, 1, name)
        self.assertEqual(self.kept(), [])
        self.assertFalse((self.room / "x").exists())

    def three(self) -> None:
        for name in ("lib-a", "lib-b", "docs"):
            self.write(f"tree/{name}.txt", name)
            self.upload(f"{name}.txt", name=name)
            (self.tree / f"{name}.txt").unlink()

    def test_one_by_its_name(self) -> None:
        self.three()
        ended = self.download(name="docs", path="got")
        self.assertEqual(ended.outputs, {"download-path": str(self.tree / "got")})
        self.assertEqual(self.files_below("tree"), ["got/docs.txt"])
        ended = self.download(name="none")
        self.assertEqual(ended.code, 1)
        self.assertIn("there are: docs, lib-a, lib-b", ended.shown)

    def test_all_each_in_its_folder(self) -> None:
        self.three()
        self.assertEqual(self.download().outputs, {"download-path": str(self.tree)})
        self.assertEqual(self.files_below("tree"), ["docs/docs.txt", "lib-a/lib-a.txt", "lib-b/lib-b.txt"])

    def test_some_by_a_pattern_merged(self) -> None:
        self.three()
        self.download(pattern="lib-*", merge_multiple="true", path=str(self.room / "temporary/all"))
        self.assertEqual(self.files_below("temporary/all"), ["lib-a.txt", "lib-b.txt"])

    def test_some_by_their_ids(self) -> None:
        made = {}
        for name in ("a", "b", "c"):
            self.write(f"tree/{name}.txt", name)
            made[name] = self.upload(f"{name}.txt", name=name).outputs
        self.assertEqual(urllib.parse.unquote(made["a"]["artifact-url"]), f"file://{self.room.resolve()}/artifacts/a")
        ids = {name: outputs["artifact-id"] for name, outputs in made.items()}
        self.assertEqual((len(set(ids.values())), all(map(str.isdecimal, ids.values()))), (3, True))
        for path, ref, wanted, files in (("two", "v4", "ac", ["a/a.txt", "c/c.txt"]), ("nested", "v4.3.0", "b", ["b/b.txt"]),
                                         ("direct", "v5", "b", ["b.txt"]), ("several", "v5", "ab", ["a/a.txt", "b/b.txt"])):
            self.assertEqual(self.download(ref, artifact_ids=", ".join(ids[it] for it in wanted), path=path).code, 0)
            self.assertEqual(self.files_below(f"tree/{path}"), files)
        ended = self.download(artifact_ids=f"{ids['a']},7")
        self.assertEqual(ended.code, 1)
        self.assertIn("there is no artifact of the id 7 in this run; there are: a, b, c", ended.shown)
        self.assertIn("exclude one another", self.download(name="a", artifact_ids="7").shown)

    def test_another_run_is_refused(self) -> None:
        ended = self.download(name="x", run_id="12")
        self.assertEqual(ended.code, 1)
        self.assertIn("`run-id` asks for artifacts of another run", ended.shown)


if __name__ == "__main__":
    unittest.main()
