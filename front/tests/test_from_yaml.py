"""Tests of the command from-yaml as a program.

Expected values are written by hand from YAML 1.2 and from GitHub's documents: the JSON of each workflow in from_yaml/ beside
it, and the lines about refused files here.
"""
import glob
import json
import os
import random
import subprocess
import sys
import tempfile
import unittest

HERE = os.path.dirname(os.path.abspath(__file__))
FRONT = os.path.dirname(HERE)
ACTRUN = os.environ.get("ACTRUN_PROGRAM") or os.path.join(FRONT, "..", "crates", "actrun", "out", "actrun")
WORKFLOWS = sorted(glob.glob(os.path.join(HERE, "from_yaml", "*.yml")))

# a text, and what is reported, each line of it without the name of the file
REFUSED = [
    (b"", "1: the file is empty"),
    (b"\n# a comment\n", "3: the file is empty"),
    (b"name: x\non: push\xff\n", "2: the file is not UTF-8"),
    (b"\xff\xfen\x00:\x00", "1: the file is not UTF-8"),
    (b"name: x\nrun: a\x07b\n", "2: the character U+0007 is not allowed in YAML"),
    (b"name: x\n---\nname: y\n", "2: a second document begins here, but a file holds one workflow"),
    (b"a: 1\n...\nb\n", "3: a second document begins here, but a file holds one workflow"),
    (b"name: x\non: push\nname: y\n", '3: the key "name" occurs twice in one mapping'),
    (b"a: {b: 1, 'b': 2}\n", '1: the key "b" occurs twice in one mapping'),
    (b"a: 1\n<<: {b: 1}\n<<: {c: 1}\n", '3: the key "<<" occurs twice in one mapping'),
    (b"a: 1\n<<: [1]\n", "2: the value of << must be a mapping or a list of mappings"),
    (b"on: push\n8: x\n", "2: a key must be a string, and this one is 8; write a number or the like in quotes"),
    (b"true: push\n", "1: a key must be a string, and this one is true; write a number or the like in quotes"),
    (b"~: push\n", "1: a key must be a string, and this one is null; write a number or the like in quotes"),
    (b"a:\n  ? [b]\n  : c\n", '2: a key must be a string, and this one is ["b"]; write a number or the like in quotes'),
    (b"a: 1\nif: !cancelled()\n", "2: the tag !cancelled() does not fit this value; write a string that begins with ! in quotes"),
    (b"if: ! cancelled()\n", "1: the tag ! does not fit this value; write a string that begins with ! in quotes"),
    (b"a: !!int x\n", "1: the tag !!int does not fit this value; write a string that begins with ! in quotes"),
    (b"a: !!set {x, y}\n", "1: the tag !!set does not fit this value; write a string that begins with ! in quotes"),
    (b"a: !!binary aGk=\n", "1: the tag !!binary does not fit this value; write a string that begins with ! in quotes"),
    (b"a: *b\nb: &b 1\n", "1: the alias *b has no anchor &b before it"),
    (b"a: 1\nb: &b\n  - *b\n", "3: the alias *b is inside the value that it names"),
    (b"a: .nan\n", "1: JSON has no number .nan; write a string in quotes"),
    (b"a:\n- -.INF\n", "2: JSON has no number -.INF; write a string in quotes"),
    (b'a: 1\nb: "\\ud83d"\n', "2: a string has an unpaired surrogate"),
    (b"\n" + b"[" * 128 + b"]" * 128, "2: values nest deeper than 127"),
    (b"a: &a " + b"[" * 64 + b"]" * 64 + b"\nb: " + b"[" * 64 + b"*a" + b"]" * 64, "2: values nest deeper than 127"),
    (b"\n" + b"[" * 1500, "2: values nest deeper than 127"),
    (b"".join(b"%c: &%c [%s]\n" % (c, c, b",".join([b"*%c" % (c - 1) if c > 97 else b"x"] * 10)) for c in range(97, 105)),
     "6: the file has more than 200000 values once its aliases are written out"),
    (b"a: 1\na: 2\nb: .inf\n", '2: the key "a" occurs twice in one mapping\n3: JSON has no number .inf; write a string in quotes'),
]
# a text, its JSON, and what is reported
NOTED = [
    (b"a: 3.10", '{"a":"3.10"}', "1: GitHub reads 3.10 as the number 3.1, but here it stays 3.10; write the one you mean in quotes"),
    (b"a: 3.9\nb: 1.0", '{"a":"3.9","b":"1.0"}',
     "2: GitHub reads 1.0 as the number 1, but here it stays 1.0; write the one you mean in quotes"),
    (b"a: 00" + b"0" * 5000 + b"7\nb: -007", '{"a":7,"b":-7}', ""),
    (b"a: &a [&a x, *a]\nb: *a\n", '{"a":["x","x"],"b":"x"}', ""),
    (b"a: &a 1\nb: &a [2]\nc: *a\n", '{"a":1,"b":[2],"c":[2]}', ""),
    (b"a: '3.10'\nb: !!str 1.0\nc: 1.10.0", '{"a":"3.10","b":"1.0","c":"1.10.0"}', ""),
]
# texts that are not YAML, and the line that is reported
BROKEN = [
    (b"a: 1\nb: [1\n", 3),
    (b'a: 1\nb: "x\n', 3),
    (b"a: 1\nrun: echo a: b\n", 2),
    (b"a:\n\tb: 1\n", 2),
    (b"a: @x\n", 1),
    (b"a: 1\nbranches: *\n", 2),
    (b'a: "\\q"\n', 1),
    (b'a: 1\nb: "\\U00110000"\n', 2),
    (b"a: !e!x y\n", 1),
]


def run(words, given=b""):
    """Standard output, standard error and the status of the program."""
    ran = subprocess.run([sys.executable, FRONT, "from-yaml", *words], input=given, capture_output=True, check=False)
    return ran.stdout.decode(), ran.stderr.decode(), ran.returncode


def exact(text):
    """A JSON text in the one spelling in which 1, 1.0 and true differ."""
    return json.dumps(json.loads(text), sort_keys=True)


class Workflows(unittest.TestCase):
    def test_workflows(self):
        self.assertEqual(len(WORKFLOWS), 10)
        for name in WORKFLOWS:
            with self.subTest(name), open(name, "rb") as yaml, open(name[:-3] + "json", encoding="utf-8") as wanted:
                text, wanted = yaml.read(), exact(wanted.read())
                for given in (text, b"\xef\xbb\xbf" + text, text.replace(b"\n", b"\r\n")):
                    printed, told, status = run(["-"], given)
                    self.assertEqual(status, 0, told)
                    self.assertEqual(exact(printed), wanted)

    @unittest.skipUnless(os.access(ACTRUN, os.X_OK), "the program is not built")
    def test_workflows_have_a_plan(self):
        with tempfile.TemporaryDirectory() as room:
            names = []
            for name in WORKFLOWS:
                names.append(os.path.join(room, os.path.basename(name) + ".json"))
                self.assertEqual(run(["-o", names[-1], name])[2], 0)
            ran = subprocess.run([ACTRUN, "plan", *names], capture_output=True, check=False)
            self.assertEqual((ran.returncode, ran.stderr), (0, b""))
            self.assertEqual(len(json.loads(ran.stdout)["runs"]), len(WORKFLOWS))

    def test_places(self):
        with tempfile.TemporaryDirectory() as room:
            for name in ("a.yml", "b.yaml", "c"):
                with open(os.path.join(room, name), "w", encoding="utf-8") as it:
                    it.write("on: " + name)
            names = [os.path.join(room, name) for name in ("a.yml", "b.yaml", "c")]
            self.assertEqual(run(names), ("", "", 0))
            for name, written in (("a.json", '{"on":"a.yml"}\n'), ("b.json", '{"on":"b.yaml"}\n'), ("c.json", '{"on":"c"}\n')):
                with open(os.path.join(room, name), encoding="utf-8") as it:
                    self.assertEqual(it.read(), written)
            self.assertEqual(run(["-o", "-", names[0]]), ('{"on":"a.yml"}\n', "", 0))
            self.assertEqual(run(["-o", os.path.join(room, "d"), names[0]]), ("", "", 0))
            with open(os.path.join(room, "d"), encoding="utf-8") as it:
                self.assertEqual(it.read(), '{"on":"a.yml"}\n')

    def test_one_of_several_is_refused(self):
        with tempfile.TemporaryDirectory() as room:
            good, bad = os.path.join(room, "good.yml"), os.path.join(room, "bad.yml")
            for name, text in ((good, "on: push"), (bad, "on: [")):
                with open(name, "w", encoding="utf-8") as it:
                    it.write(text)
            _, told, status = run([bad, good])
            self.assertEqual(status, 2)
            self.assertTrue(told.startswith(f"{bad}:1: this is not valid YAML: "))
            self.assertEqual(sorted(os.listdir(room)), ["bad.yml", "good.json", "good.yml"])

    def test_words(self):
        for words in ([], ["-x"], ["-o"], ["-o", "x"], ["-o", "x", "a.yml", "b.yml"], ["-c", "a.yml"],
                      ["--any-system", "a.yml"], ["--contexts", "c", "a.yml"], ["--lower", "--matrix", "a.b=[", "a.yml"], ["--lower"]):
            with self.subTest(words):
                printed, told, status = run(words)
                self.assertEqual((printed, status, told.count("\n")), ("", 2, 1))
        self.assertEqual(run(["--help"])[1:], ("", 0))

    def test_files(self):
        for words in (["/no/such"], ["/"], ["-o", "/no/such", WORKFLOWS[0]], ["-o", "/dev/full", "-"]):
            with self.subTest(words):
                printed, told, status = run(words, b"a: b")
                self.assertEqual((printed, status), ("", 3))
                self.assertTrue(told.splitlines()[-1].startswith(f"from-yaml: {words[1] if words[0] == '-o' else words[0]}: "), told)


class Lower(unittest.TestCase):
    def setUp(self):
        room = tempfile.TemporaryDirectory()
        self.addCleanup(room.cleanup)
        self.room = room.name
        os.makedirs(os.path.join(self.room, ".github", "workflows"))
        self.name = os.path.join(self.room, ".github", "workflows", "ci.yml")

    def write(self, name, text):
        with open(name, "w", encoding="utf-8") as it:
            it.write(text)
        return name

    def test_lower(self):
        self.write(os.path.join(self.room, "a.lock"), "one\n")
        self.write(self.name, "on: push\njobs:\n  a:\n    container: x\n    strategy: {matrix: {v: '${{ needs.b.outputs.v }}'}}\n"
                   "    steps:\n      - {id: s, run: \"${{ hashFiles('a.lock') }} ${{ runner.name }}\"}\n")
        contexts = self.write(os.path.join(self.room, "contexts.json"), '{"runner": {"name": "mine"}}')
        printed, told, status = run(["--lower", "-o", "-", "--contexts", contexts, "--matrix", "a.v=[1]", self.name])
        self.assertEqual(status, 0, told)
        digest = "9c64071fc196d33fec0036f48898b7ff2cf8398b892ead8afce6e9568f7fb6de"
        self.assertEqual(json.loads(printed)["jobs"]["a"], {
            "strategy": {"matrix": {"v": [1]}}, "env": {"GITHUB_JOB": "a"},
            "steps": [{"id": "s", "run": f"{digest} mine", "env": {"GITHUB_ACTION": "s"}}]})
        self.assertEqual([line.split(": ")[0] for line in told.splitlines()], [f"{self.name}:{line}" for line in (4, 5, 7, 7)])

    def test_wrong_values_of_a_matrix(self):
        self.write(self.name, "on: push\njobs:\n  a:\n    strategy: {matrix: {v: '${{ needs.b.outputs.v }}'}}\n    steps: []\n")
        for given, said in (("a.v=[", "error: --matrix a.v=[: write --matrix JOB.VARIABLE=JSON"), ("v=[1]", "error: --matrix v=[1]: write --matrix")):
            printed, told, status = run(["--lower", "-o", "-", "--matrix", given, self.name])
            self.assertEqual((printed, status), ("", 2))
            self.assertIn(said, told)
        _, told, status = run(["--lower", "-o", "-", "--matrix", "a.v=[1]", "--matrix", "a.w=[1]", self.name])
        self.assertEqual((told.splitlines()[-1], status), ("from-yaml: --matrix a.w: no job has this variable in its matrix; did you mean a.v?", 2))

    def test_refused(self):
        self.write(self.name, "on: push\njobs:\n  a:\n    strategy: {matrix: '${{ needs.b.outputs.v }}'}\n    steps: []\n")
        printed, told, status = run(["--lower", "-o", "-", self.name])
        self.assertEqual((printed, status), ("", 2))
        self.assertTrue(told.startswith(f"{self.name}:4: matrix of job a is "), told)

    def test_contexts(self):
        self.write(self.name, "on: push\njobs: {a: {steps: []}}\n")
        for text, wanted in (("[", 2), ("[]", 2), ('{"github": 1}', 2), (None, 3)):
            name = os.path.join(self.room, "none.json") if text is None else self.write(os.path.join(self.room, "c.json"), text)
            printed, told, status = run(["--lower", "-o", "-", "--contexts", name, self.name])
            self.assertEqual((printed, status, told.count("\n")), ("", wanted, 1), text)
            self.assertTrue(told.startswith(f"from-yaml: --contexts {name}: "), told)


class Refused(unittest.TestCase):
    def test_refused(self):
        for text, wanted in REFUSED:
            with self.subTest(text[:80]):
                printed, told, status = run(["-"], text)
                self.assertEqual(told, "".join(f"standard input:{line}\n" for line in wanted.split("\n")))
                self.assertEqual((printed, status), ("", 2))

    def test_noted(self):
        for text, json_text, wanted in NOTED:
            with self.subTest(text):
                self.assertEqual(run(["-"], text), (json_text + "\n", f"standard input:{wanted}\n" if wanted else "", 0))

    def test_broken(self):
        for text, line in BROKEN:
            with self.subTest(text):
                printed, told, status = run(["-"], text)
                self.assertRegex(told, rf"\Astandard input:{line}: this is not valid YAML: .+\n\Z")
                self.assertEqual((printed, status), ("", 2))

    def test_deepest(self):
        deepest = b"[" * 127 + b"]" * 127
        self.assertEqual(run(["-"], deepest), (deepest.decode() + "\n", "", 0))

    def test_garbled(self):
        """Garbled workflows: each has its JSON or lines that tell why not, and no other end."""
        chance = random.Random(1)
        with tempfile.TemporaryDirectory() as room:
            names = []
            for number in range(400):
                with open(chance.choice(WORKFLOWS), "rb") as it:
                    text = bytearray(it.read())
                for _ in range(chance.randint(1, 8)):
                    at = chance.randrange(len(text))
                    text[at:at + chance.choice((0, 0, 1, 5, 40))] = chance.choice(
                        (b"", b"\xff", b"\t", b"\n", b"&a ", b"*a ", b"!", b"[" * 40, b"{", b"]", b"}", b": ", b"- ", b"|", b"\"", b"'", b"\\",
                         b"%", b"? ", b"---\n", b"...\n", b"<<: ", b"#", b"1e9", b"\xc2\x85", b"\xe2\x80\xa8", b"!!float ", b"!<", b"\x00"))
                names.append(os.path.join(room, f"{number}.yml"))
                with open(names[-1], "wb") as it:
                    it.write(text)
            printed, told, status = run(names)
            self.assertEqual((printed, status), ("", 2))
            refused = set()
            for line in told.splitlines():
                self.assertRegex(line, rf"\A{room}/[0-9]+\.yml:[0-9]+: .")
                if " GitHub reads " not in line:
                    refused.add(line.split(":")[0])
            for name in names:
                self.assertNotEqual(name in refused, os.path.exists(name[:-3] + "json"))
                if name not in refused:
                    with open(name[:-3] + "json", encoding="utf-8") as it:
                        json.load(it)


if __name__ == "__main__":
    unittest.main()
