"""Tests of the lines that yaml_reader keeps. The values are tested by test_from_yaml."""
import unittest

from actrun_front.yaml_reader import Note, read_document

TEXT = b"""\
name: x
on: {push: {}}
jobs:
  a: &a
    steps:
      - run: |
          one
          two
      - name: n
        run: three
  b:
    <<: *a
    needs: [a,
      c]
  c: *a
"""


class Lines(unittest.TestCase):
    def setUp(self):
        self.document = read_document(TEXT)

    def test_places(self):
        lines = self.document.lines
        for path, line in (((), 1), (("name",), 1), (("on", "push"), 2), (("jobs", "a"), 4), (("jobs", "a", "steps", 0), 6),
                           (("jobs", "a", "steps", 0, "run"), 6), (("jobs", "a", "steps", 1, "run"), 10), (("jobs", "b", "needs", 0), 13),
                           (("jobs", "b", "needs", 1), 14)):
            self.assertEqual(lines[path], line, path)

    def test_an_alias_has_the_lines_of_its_anchor(self):
        self.assertEqual(self.document.lines["jobs", "c"], 15)
        self.assertEqual(self.document.lines["jobs", "c", "steps", 1, "run"], 10)
        self.assertEqual(self.document.lines["jobs", "b", "steps", 1], 9)

    def test_carriage_returns(self):
        lines = read_document(TEXT.replace(b"\n", b"\r\n")).lines
        self.assertEqual(lines["jobs", "a", "steps", 1, "run"], 10)


class Faults(unittest.TestCase):
    def test_faults_and_notes(self):
        document = read_document(b"a: 3.10\nb: [\n")
        self.assertEqual(document.faults[0].line, 3)
        self.assertEqual(document.notes, [Note(1, "GitHub reads 3.10 as the number 3.1, but here it stays 3.10; write the one you mean in quotes")])
        self.assertEqual(read_document(b"\xff").faults, [Note(1, "the file is not UTF-8")])
        self.assertEqual(read_document(b"").faults, [Note(1, "the file is empty")])

    def test_remedies(self):
        for text, line, remedy in ((b"a:\n\tb: 1\n", 2, "write spaces in place of the tab"),
                                   (b"a: 1\nname: @x\n", 2, "write a string that begins so in quotes"),
                                   (b"a: 1\nb: {c: d-${{ e }}}\n", 2, "within { } or [ ], write a string with `${{ }}` in quotes"),
                                   (b"a: 1\nrun: echo 'a: b'\n", 2, "write a string with `: ` in it in quotes, and the keys of one mapping in one column")):
            fault, = read_document(text).faults
            self.assertEqual(fault.line, line)
            self.assertTrue(fault.text.endswith(f": {remedy}"), fault.text)

    def test_many_aliases(self):
        text = b"".join(b"%c: &%c [%s]\n" % (c, c, b",".join([b"*%c" % (c - 1) if c > 97 else b"1"] * 10)) for c in range(97, 101))
        document = read_document(text)
        self.assertEqual(document.faults, [])
        self.assertEqual(document.lines["d", 9, 0], 3)
