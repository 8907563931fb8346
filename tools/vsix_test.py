"""Tests of vsix.py: the members of the extension, its manifests, and that they agree with the script `actrun`."""
from __future__ import annotations

import json
import re
import shutil
import subprocess
import sys
import tempfile
import unittest
import zipfile
from pathlib import Path
from xml.etree import ElementTree

import vsix

NAMES = {"x": "http://schemas.microsoft.com/developer/vsx-schema/2011"}


class Vsix(unittest.TestCase):
    def setUp(self) -> None:
        room = tempfile.TemporaryDirectory()
        self.addCleanup(room.cleanup)
        self.target = Path(room.name) / "actrun.vsix"
        vsix.make_vsix(self.target)

    def test_members_are_those_that_an_editor_looks_for(self) -> None:
        with zipfile.ZipFile(self.target) as archive:
            self.assertIsNone(archive.testzip())
            self.assertEqual(archive.namelist(),
                             ["[Content_Types].xml", "extension.vsixmanifest", "extension/package.json",
                              "extension/extension.js",
                              "extension/README.md"])
            types = ElementTree.fromstring(archive.read("[Content_Types].xml"))
            self.assertEqual({one.get("Extension") for one in types},
                             {".js", ".json", ".md", ".vsixmanifest"})
            manifest = ElementTree.fromstring(archive.read("extension.vsixmanifest"))
            identity = manifest.find("x:Metadata/x:Identity", NAMES)
            package = json.loads(archive.read("extension/package.json"))
            self.assertEqual((identity.get("Id"), identity.get("Version"), identity.get("Publisher")),
                             (package["name"], package["version"], package["publisher"]))
            for asset in manifest.findall("x:Assets/x:Asset", NAMES):
                self.assertIn(asset.get("Path"), archive.namelist())

    def test_the_version_is_that_of_the_program(self) -> None:
        package = json.loads((vsix.TOP / "editors/vscode/package.json").read_text(encoding="utf-8"))
        version = re.search(r"^version=(\S+)$", (vsix.TOP / "actrun").read_text(encoding="utf-8"), re.MULTILINE)
        self.assertEqual(package["version"], version[1])
        self.assertEqual(package["contributes"]["debuggers"][0]["type"], "actrun")

    def test_the_licence_is_that_of_the_project(self) -> None:
        package = json.loads((vsix.TOP / "editors/vscode/package.json").read_text(encoding="utf-8"))
        files = [path.name for path in vsix.TOP.glob("LICEN[CS]E*")]
        self.assertEqual(package["license"], f"SEE LICENSE IN {files[0]}" if files else "UNLICENSED")

    def test_what_a_packer_refuses_is_refused(self) -> None:
        with zipfile.ZipFile(self.target) as archive:
            members = {name: archive.read(name).decode() for name in archive.namelist()}
        package = json.loads(members["extension/package.json"])
        self.assertEqual(list(vsix.faults(package, members)), [])
        gives = package["contributes"]
        for changed, said in [
                ({"name": "Act run"}, "name is missing or has a wrong form"),
                ({"publisher": None}, "publisher is missing"),
                ({"version": "1.0"}, "version is missing"), ({"license": ""}, "license is missing"),
                ({"engines": {}}, "engines.vscode"),
                ({"repository": "x"}, "repository.url"),
                ({"categories": ["Debugger"]}, "categories: Debugger is unknown"),
                ({"keywords": ["x"] * 31}, "keywords: there are more than 30"),
                ({"main": "./other.js"}, "main: extension/other.js is not packed"),
                ({"activationEvents": ["*"]}, "activationEvents have to name events"),
                ({"activationEvents": ["onDebugResolve:x"]}, "activationEvents: x is no debugger"),
                ({"contributes": {**gives, "commands": gives["commands"][1:]}},
                 "actrun.debugWorkflow is not both contributed and registered")]:
            found = list(vsix.faults({**package, **changed}, members))
            self.assertTrue(any(text.startswith(said) for text in found), (changed, found))
        for text in ("[a](b.md)", "![a](https://x/y.svg)", "<img src='http://x/y.png'>"):
            self.assertIn("README.md: ", next(vsix.faults(package, {**members, "extension/README.md": text})))

    @unittest.skipUnless(shutil.which("node"), "node is not installed")
    def test_the_code_of_the_extension(self) -> None:
        done = subprocess.run(["node", str(vsix.TOP / "editors/vscode_test.js")], capture_output=True,
                              text=True, check=False)
        self.assertEqual((done.returncode, done.stdout), (0, "ok\n"), done.stderr)

    def test_the_same_sources_give_the_same_bytes(self) -> None:
        first = self.target.read_bytes()
        vsix.make_vsix(self.target)
        self.assertEqual(self.target.read_bytes(), first)

    def test_words(self) -> None:
        script = str(vsix.TOP / "tools/vsix.py")
        for words, said in [([], "tools/vsix.py FILE.vsix"), (["/nowhere/x.vsix"], "actrun: vsix: /nowhere/x.vsix: No such file")]:
            done = subprocess.run([sys.executable, script, *words], capture_output=True, text=True, check=False)
            self.assertEqual(done.returncode, 1)
            self.assertIn(said, done.stderr)


if __name__ == "__main__":
    unittest.main()
