"""actions/checkout and the actions that set up tools."""

from __future__ import annotations

import pathlib
import signal
import subprocess
import sys
import unittest

from actrun_front.actions import STUBS
from tests.stub_case import StubCase


class Ended(unittest.TestCase):
    """A stub that a signal ends."""

    def test_a_signal_needs_no_words(self) -> None:
        code = "import signal; signal.signal(signal.SIGINT, signal.default_int_handler); import step, time; print('up', flush=True); time.sleep(60)"
        with subprocess.Popen([sys.executable, "-c", code], cwd=STUBS, stdout=subprocess.PIPE, stderr=subprocess.STDOUT) as stub:
            self.assertEqual(stub.stdout.readline(), b"up\n")
            stub.send_signal(signal.SIGINT)
            self.assertEqual((stub.communicate()[0], stub.returncode), (b"", -signal.SIGINT))


class Checkout(StubCase):
    def test_the_commit_and_the_ref_are_outputs(self) -> None:
        self.git("init", "-q")
        self.git("commit", "-q", "--allow-empty", "-m", "one")
        commit = self.git("rev-parse", "HEAD")
        ended = self.start("actions/checkout@v4")
        self.assertEqual((ended.code, ended.outputs), (0, {"ref": "refs/heads/main", "commit": commit}))
        self.assertNotIn("::", ended.shown)

    def test_a_tree_without_git_is_taken_as_it_is(self) -> None:
        ended = self.start("actions/checkout@v4", {"fetch-depth": "0"})
        self.assertEqual((ended.code, ended.outputs), (0, {"ref": "refs/heads/main"}))

    def test_another_ref_is_warned_of(self) -> None:
        ended = self.start("actions/checkout@v4", {"ref": "v1.0"})
        self.assertEqual(ended.code, 0)
        self.assertIn("::warning::the ref v1.0 is not checked out", ended.shown)
        self.assertNotIn("::", self.start("actions/checkout@v4", {"ref": "refs/heads/main"}).shown)

    def test_a_ref_of_the_same_commit_is_not_warned_of(self) -> None:
        self.git("init", "-q")
        self.git("commit", "-q", "--allow-empty", "-m", "one")
        self.git("tag", "v1.0")
        self.assertNotIn("::", self.start("actions/checkout@v4", {"ref": "v1.0"}).shown)

    def test_a_path_that_is_not_there_fails(self) -> None:
        ended = self.start("actions/checkout@v4", {"path": "other"})
        self.assertEqual(ended.code, 1)
        self.assertIn("the directory other is not in the tree", ended.shown)

    def test_a_path_that_is_there_is_used(self) -> None:
        self.write("tree/other/file")
        self.assertEqual(self.start("actions/checkout@v4", {"path": "other", "repository": "who/else"}).code, 0)
        self.assertEqual(self.start("actions/checkout@v4", {"path": "."}).code, 0)

    def test_a_path_of_this_repository_is_filled(self) -> None:
        self.git("init", "-q")
        self.write("tree/.gitignore", "*.o\n")
        self.write("tree/a/run", "#!/bin/sh\n", 0o755)
        self.write("tree/a/b.o")
        (self.tree / "link").symlink_to("a/run")
        self.git("add", "-A")
        self.assertEqual(self.start("actions/checkout@v4", {"path": "source", "ref": "main"}).code, 0)
        self.assertEqual(self.files_below("tree/source"), [".gitignore", "a/run", "link"])
        self.assertTrue((self.tree / "source/a/run").stat().st_mode & 0o100)
        self.assertTrue((self.tree / "source/link").is_symlink())
        self.assertEqual(self.start("actions/checkout@v4", {"path": "pages", "ref": "gh-pages"}).code, 1)

    def test_a_path_outside_of_the_tree_fails(self) -> None:
        for path in ("..", "../x", str(self.room / "home")):
            self.assertIn("is not below the tree", self.start("actions/checkout@v4", {"path": path}).shown)
        self.assertEqual(self.start("actions/checkout@v4", {"path": str(self.tree)}).code, 0)

    def test_another_repository_fails(self) -> None:
        ended = self.start("actions/checkout@v4", {"repository": "who/else"})
        self.assertEqual(ended.code, 1)
        self.assertIn("brings no files of the repository who/else", ended.shown)
        self.assertEqual(self.start("actions/checkout@v4", {"repository": "Octo/App"}).code, 0)

    def test_empty_submodules_are_warned_of(self) -> None:
        self.git("init", "-q")
        self.write("tree/.gitmodules", '[submodule "lib"]\n\tpath = lib\n\turl = ../lib\n')
        self.assertIn("submodules are empty: lib", self.start("actions/checkout@v4", {"submodules": "recursive"}).shown)
        self.write("tree/lib/file")
        self.assertNotIn("::", self.start("actions/checkout@v4", {"submodules": "true"}).shown)


class Setup(StubCase):
    def python(self, name: str, version: str) -> None:
        self.program(name, f'[ "$1" = --version ] && echo "Python {version}" || echo "{version}:$*"')

    def setUp(self) -> None:
        super().setUp()
        self.environment["PATH"] = str(self.room / "bin")

    def test_the_version_and_the_outputs_of_what_is_there(self) -> None:
        self.python("python", "3.10.4")
        ended = self.start("actions/setup-python@v5", {"python-version": "3.10", "cache": "pip"})
        expected = {"python-version": "3.10.4", "python-path": str(self.room / "bin/python"), "cache-hit": "false"}
        self.assertEqual((ended.code, ended.outputs, ended.paths), (0, expected, []))
        self.assertIn("3.10.4", ended.shown)
        self.assertNotIn("::", ended.shown)

    def test_a_version_that_is_not_there_fails_and_says_what_is(self) -> None:
        self.python("python", "3.10.4")
        self.python("python3.8", "3.8.18")
        ended = self.start("actions/setup-python@v5", {"python-version": "3.9"})
        self.assertEqual((ended.code, ended.outputs, ended.paths), (1, {}, []))
        self.assertEqual(ended.shown, f"::error::actions/setup-python: python 3.9 was requested; this machine has 3.10.4 ({self.room}/bin/python), "
                         f"3.8.18 ({self.room}/bin/python3.8). To get it: uv python install 3.9, or pyenv install 3.9. "
                         "To go on with another version: --lenient\n")

    def test_lenient_goes_on_with_another_version(self) -> None:
        self.python("python", "3.10.4")
        ended = self.start("actions/setup-python@v5", {"python-version": "3.9"}, lenient=True)
        self.assertEqual((ended.code, ended.outputs["python-version"]), (0, "3.10.4"))
        self.assertIn("::warning::python 3.9 was requested; using 3.10.4, the installed version", ended.shown)
        self.assertEqual((self.room / "another-0-0").read_text(encoding="utf-8"), "python 3.10.4 in place of 3.9\n")

    def test_versions_in_tool_caches(self) -> None:
        caches = ("home/.pyenv/versions", "home/.nvm/versions/node", "home/.rustup/toolchains", "home/.sdkman/candidates", "cache of tools")
        self.environment["ACTRUN_TOOLS"] = ":".join(str(self.room / name) for name in caches)
        for name, shown in (("home/.pyenv/versions/3.12.1/bin/python", "Python 3.12.1"), ("home/.pyenv/versions/3.9.9/bin/python", "Python 3.9.9"),
                            ("cache of tools/Python/3.13.0/x64/bin/python", "Python 3.13.0"), ("cache of tools/go/1.22.4/x64/bin/go", "go1.22.4"),
                            ("home/.nvm/versions/node/v20.1.0/bin/node", "v20.1.0"), ("home/.nvm/versions/node/v21.1.0/bin/node", "v21.1.0"),
                            ("home/.rustup/toolchains/1.70.0-x86_64-unknown-linux-gnu/bin/rustc", "rustc 1.70.0 (90c5418 2023-05-31)"),
                            ("home/.rustup/toolchains/1.70.0-x86_64-unknown-linux-gnu/bin/cargo", "cargo 1.70.0"),
                            ("home/.rustup/toolchains/nightly-x86_64-unknown-linux-gnu/bin/rustc", "rustc 1.76.0-nightly (d86d65b 2023-12-10)"),
                            ("home/.sdkman/candidates/java/8.0.392-tem/bin/java", 'openjdk version "1.8.0_392"')):
            self.write(name, f"#!/bin/sh\necho '{shown}'\n", 0o755)
        for uses, inputs, output, version in (
                ("actions/setup-python@v5", {"python-version": "3.x"}, "python-version", "3.13.0"),
                ("actions/setup-python@v5", {"python-version": "~3.12.0"}, "python-version", "3.12.1"),
                ("actions/setup-python@v5", {"python-version": "3.12\n3.9"}, "python-version", "3.9.9"),
                ("actions/setup-node@v4", {"node-version": "lts/*"}, "node-version", "v20.1.0"),
                ("actions/setup-node@v4", {"node-version": ">=18"}, "node-version", "v21.1.0"),
                ("actions/setup-go@v5", {"go-version": "^1.21"}, "go-version", "1.22.4"),
                ("actions/setup-java@v4", {"java-version": "8"}, "version", "8.0"),
                ("dtolnay/rust-toolchain@1.70.0", {}, "cargo-version", "1.70.0"),
                ("dtolnay/rust-toolchain@nightly", {}, "name", "1.76.0-nightly")):
            ended = self.start(uses, inputs)
            self.assertEqual((ended.code, ended.outputs.get(output)), (0, version), f"{uses} {inputs}: {ended.shown}")
            self.assertNotIn("::warning", ended.shown)
        self.assertEqual(self.start("actions/setup-node@v4", {"node-version": "18"}).code, 1)
        self.assertEqual(self.start("actions/setup-node@v4", {"node-version": "20"}).paths, [f"{self.room}/home/.nvm/versions/node/v20.1.0/bin"])

    def test_the_version_that_is_asked_for_is_put_in_front(self) -> None:
        self.python("python3", "3.11.2")
        self.python("python3.9", "3.9.18")
        ended = self.start("actions/setup-python@v5", {"python-version": "3.9"})
        self.assertEqual(ended.outputs["python-version"], "3.9.18")
        self.assertNotIn("::warning::", ended.shown)
        folder = self.room / "temporary" / "actrun-python-3.9.18-0" / "bin"
        self.assertEqual(ended.paths, [str(folder)])
        self.assertEqual(self.files_below("temporary/actrun-python-3.9.18-0/bin"), ["pip", "pip3", "python", "python3", "python3.9"])
        self.environment["PATH"] = f"{folder}:{self.room / 'bin'}:/bin"
        self.program("asks", 'python "a b"; pip list')
        self.assertEqual(self.start("a/b@v1", named={"a/b": str(self.room / "bin/asks")}).shown, "3.9.18:a b\n3.9.18:-m pip list\n")

    def test_python_is_in_an_environment_where_pip_can_install(self) -> None:
        self.program("python3", f'exec "{sys.executable}" "$@"')
        ended = self.start("actions/setup-python@v5")
        (folder,) = ended.paths
        self.assertEqual((ended.code, ended.outputs["python-path"]), (0, f"{folder}/python"))
        self.assertEqual(ended.variables["pythonLocation"], str(pathlib.Path(folder).parent))
        self.assertTrue(folder.startswith(str(self.room / "temporary" / "actrun-python-")))
        self.environment["PATH"] = f"{folder}:/bin"
        asks = self.program("asks", "for name in python python3; do $name -c 'import sys; print(sys.prefix)'; done; command -v pip; command -v pip3")
        shown = self.start("a/b@v1", named={"a/b": str(asks)}).shown.splitlines()
        self.assertEqual(shown, [str(pathlib.Path(folder).parent)] * 2 + [f"{folder}/pip", f"{folder}/pip3"])

    def test_a_missing_tool_fails_by_its_name(self) -> None:
        ended = self.start("actions/setup-go@v5", {"go-version": "1.22"})
        self.assertEqual(ended.code, 1)
        self.assertIn("::error::actions/setup-go: there is no program go that can be started: https://go.dev/dl, unpacked to /usr/local/go; "
                      "or name a program with --stub actions/setup-go=PROGRAM", ended.shown)

    def test_a_program_that_cannot_be_started_is_none(self) -> None:
        self.program("node", "exit 127")
        self.assertEqual(self.start("actions/setup-node@v4").code, 1)

    def test_versions_come_from_files(self) -> None:
        for uses, program, shown, inputs, name, text, warned in (
                ("actions/setup-go@v5", "go", "go version go1.19.8 linux/amd64", {"go-version-file": "go.mod"}, "go.mod",
                 "module x\n\ngo 1.20\n", "go 1.20 was requested"),
                ("actions/setup-node@v4", "node", "v18.2.0", {"node-version-file": ".nvmrc"}, ".nvmrc", "v20\n", "node v20 was requested"),
                ("actions/setup-node@v4", "node", "v18.2.0", {"node-version-file": "package.json"}, "package.json",
                 '{"engines": {"node": ">=20"}}', "node >=20 was requested"),
                ("ruby/setup-ruby@v1", "ruby", "ruby 3.1.2p20", {}, ".ruby-version", "ruby-3.2\n", "ruby 3.2 was requested"),
                ("actions/setup-python@v5", "python", "Python 3.8.1", {"python-version-file": "pyproject.toml"}, "pyproject.toml",
                 '[project]\nrequires-python = ">=3.9"\n', "python >=3.9 was requested"),
                ("actions/setup-python@v5", "python", "Python 3.8.1", {"python-version-file": ".tool-versions"}, ".tool-versions",
                 "nodejs 20\npython 3.12\n", "python 3.12 was requested")):
            self.program(program, f"echo '{shown}'")
            place = self.write(f"tree/{name}", text)
            self.assertIn(warned, self.start(uses, inputs).shown)
            place.unlink()

    def test_a_file_of_versions_that_is_not_there(self) -> None:
        self.program("python", "echo Python 3.8.1")
        ended = self.start("actions/setup-python@v5", {"python-version-file": "none.txt"})
        self.assertEqual(ended.code, 1)
        self.assertIn("::error::the file none.txt of the input python-version-file is not in the tree", ended.shown)
        self.assertEqual(self.start("actions/setup-python@v5", {"python-version-file": "none.txt", "python-version": "3.8"}).code, 0)

    def test_the_ref_names_the_toolchain_of_rust(self) -> None:
        self.program("rustc", "echo 'rustc 1.63.0'")
        self.program("cargo", "echo 'cargo 1.63.0'")
        self.assertNotIn("::", self.start("dtolnay/rust-toolchain@1.63").shown)
        self.assertNotIn("::", self.start("dtolnay/rust-toolchain@stable").shown)
        self.assertIn("rustc 1.70.0 was requested", self.start("dtolnay/rust-toolchain@1.70.0").shown)
        self.assertIn("rustc 1.60 was requested", self.start("dtolnay/rust-toolchain@master", {"toolchain": "1.60"}).shown)

    def test_java_has_its_home(self) -> None:
        self.program("java", "echo 'openjdk version \"17.0.15\"' >&2")
        ended = self.start("actions/setup-java@v4", {"java-version": "17", "distribution": "temurin"})
        self.assertEqual((ended.code, ended.variables), (0, {"JAVA_HOME": str(self.room)}))
        expected = {"version": "17.0.15", "path": str(self.room), "distribution": "temurin", "cache-hit": "false"}
        self.assertEqual(ended.outputs, expected)

    def test_several_versions_have_to_be_there(self) -> None:
        self.python("python", "3.8.1")
        self.python("python3.10", "3.10.4")
        ended = self.start("actions/setup-python@v5", {"python-version": "3.8\n3.10"})
        self.assertEqual((ended.code, ended.outputs["python-version"]), (0, "3.10.4"))
        self.assertIn("python 3.9 was requested", self.start("actions/setup-python@v5", {"python-version": "3.9\n3.10"}).shown)

    def test_several_tools_and_those_that_are_not_asked_for(self) -> None:
        self.program("erl", "printf 25")
        ended = self.start("erlef/setup-beam@v1", {"otp-version": "25"})
        self.assertEqual((ended.code, ended.outputs), (0, {"otp-version": "25", "cache-hit": "false"}))
        self.assertEqual(self.start("erlef/setup-beam@v1", {"otp-version": "25", "elixir-version": "1.14"}).code, 1)

    def test_gems_are_not_installed_and_that_is_said(self) -> None:
        self.program("ruby", "echo 'ruby 3.1.2p20'")
        self.assertIn("::warning::bundler-cache", self.start("ruby/setup-ruby@v1", {"bundler-cache": "true"}).shown)


if __name__ == "__main__":
    unittest.main()
