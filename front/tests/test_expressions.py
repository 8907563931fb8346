"""Tests of expressions: tokens, templates and rewriting. Expected texts are written by hand."""
import os
import subprocess
import unittest
from unittest import mock

from actrun_front.expressions import (Access, EvaluationError, Program, Rules, condition_expression, conjunction, has_expression, literal,
                                      names_status, reads_only, references, rewrite, rewrite_condition, rewrite_template, split,
                                      template_expression, tokens)

ACTRUN = os.environ.get("ACTRUN_PROGRAM", "")


def runner(access):
    return (literal("Linux"), 1) if access.keys[:1] == ("os",) else (literal({"os": "Linux"}), 0) if not access.keys else None


RULES = Rules({"runner": runner}, {"hashfiles": lambda given: literal("|".join(given))}, literal)


class Reading(unittest.TestCase):
    def test_pieces_of_a_template(self):
        self.assertEqual(split("a ${{ b }} c"), [(False, "a "), (True, " b "), (False, " c")])
        self.assertEqual(split("${{ '}}' }}x"), [(True, " '}}' "), (False, "x")])
        self.assertEqual(split("a ${{ 'b }}"), [(False, "a ${{ 'b }}")])
        self.assertEqual(split(""), [])
        self.assertFalse(has_expression("a ${ b }} ${{"))

    def test_no_tokens(self):
        for text in ("'open", "a # b", '"x"'):
            self.assertIsNone(tokens(text))

    def test_references(self):
        accesses, calls = references("contains(needs.*.result, 'x.y(') && github['event'].a[0].b || toJSON( matrix ) == null")
        self.assertEqual(accesses, [Access("needs", ()), Access("github", ("event", "a")), Access("matrix", ())])
        self.assertEqual(calls, {"contains", "tojson"})
        self.assertTrue(names_status("a && Failure ()"))
        self.assertFalse(names_status("steps.failure.outcome == 'failure()'"))
        self.assertTrue(reads_only("fromJSON(github.x)", ["github"]))
        for text in ("always() && github.x", "hashFiles('x')", "env.x", "'open"):
            self.assertFalse(reads_only(text, ["github"]), text)


class Rewriting(unittest.TestCase):
    def test_contexts(self):
        for given, wanted in (
                ("runner.os", "'Linux'"), ("RUNNER['os'] == 'x'", "'Linux' == 'x'"), ("runner . os", "'Linux'"),
                ("runner.name", "runner.name"), ("github.runner.os", "github.runner.os"), ("'runner.os'", "'runner.os'"),
                ("toJSON(runner)", "toJSON(fromJSON('{\"os\":\"Linux\"}'))"), ("format('it''s {0}', runner.os)", "format('it''s {0}', 'Linux')"),
                ("runner.os.x", "'Linux'.x"), ("runner 'open", "runner 'open"), ("github[runner.os]", "github['Linux']")):
            self.assertEqual(rewrite(given, RULES), wanted)

    def test_calls(self):
        self.assertEqual(rewrite("hashFiles('a', 'b''s,(') && HASHFILES( )", RULES), "'a|b''s,(' && ''")
        self.assertEqual(rewrite("hashFiles(runner.os)", Rules({}, {"hashfiles": lambda given: f"{given} && ("})), "None && (runner.os)")
        self.assertEqual(rewrite("x.hashFiles && hashFiles", RULES), "x.hashFiles && hashFiles")
        self.assertEqual(references("hashFiles(format('a')) || Success ( )")[1], {"hashfiles", "format", "success"})

    def test_fractions(self):
        self.assertEqual(rewrite("matrix.v == 3.10 || 1 < -.5 && 12", RULES), "matrix.v == '3.10' || 1 < '-.5' && 12")

    def test_templates(self):
        for given, wanted in (
                ("runner.os ${{ runner.os }}", "runner.os Linux"), ("${{ runner.os }}${{ x }}", "Linux${{ x }}"),
                ("${{ (runner.os) }}", "Linux"), ("${{x}}", "${{x}}"), ("${{ 'a' }}", "${{ 'a' }}"), ("${{ open", "${{ open")):
            self.assertEqual(rewrite_template(given, RULES), wanted)
        dollar = Rules({"runner": lambda _: (literal("${{ x }}"), 0)})
        self.assertEqual(rewrite_template("${{ runner }}", dollar), "${{ '${{ x }}' }}")

    def test_conditions(self):
        self.assertEqual(rewrite_condition("runner.os == 'x'", RULES), "'Linux' == 'x'")
        self.assertEqual(rewrite_condition("${{ runner.os == 'x' }}", RULES), "${{ 'Linux' == 'x' }}")

    def test_one_expression(self):
        self.assertEqual(template_expression("${{ a }}"), "a")
        self.assertEqual(template_expression("it's {x}"), "'it''s {x}'")
        self.assertEqual(template_expression("a{b}${{ x }}c${{ y }}"), "format('a{{b}}{0}c{1}', x, y)")
        for given, wanted in ((True, "true"), (None, None), ("  ", None), (" a && b ", "a && b"), ("${{ a }} ", "a"),
                              ("${{ a }} && b", "format('{0} && b', a)")):
            self.assertEqual(condition_expression(given), wanted)
        self.assertEqual(conjunction("a || b", None, "c"), "(a || b) && (c)")
        self.assertEqual(conjunction(None, "a"), "a")
        self.assertIsNone(conjunction(None))

    def test_literals(self):
        for given, wanted in (("it's", "'it''s'"), (3, "3"), (True, "true"), (None, "null"), ([1, "a'b"], "fromJSON('[1,\"a''b\"]')")):
            self.assertEqual(literal(given), wanted)


@unittest.skipUnless(ACTRUN, "ACTRUN_PROGRAM names no program")
class Asking(unittest.TestCase):
    def test_program(self):
        program = Program(ACTRUN)
        self.assertEqual(program.evaluate("format('{0}!', github.ref)", {"github": {"ref": "a'b"}}), "a'b!")
        self.assertEqual(program.evaluate("-1", {}), -1)
        self.assertEqual(program.legs({"a": [1, 2], "exclude": [{"a": 1}]}), [{"a": 2}])
        with self.assertRaisesRegex(EvaluationError, "expr UnknownFunction at 0"):
            program.evaluate("nope(1)", {})
        with self.assertRaisesRegex(EvaluationError, "plan Matrix EmptyVariable"):
            program.legs({"a": []})

    def test_one_question_for_many(self):
        """Each expression sees its own contexts; one without a value is asked about by itself."""
        program = Program(ACTRUN)
        asked = [("github.ref == 'a'", {"github": {"ref": "A"}}), ("inputs.x", {"inputs": {"x": [1]}}),
                 ("github['ref']", {"github": {"ref": "'b"}}), ("format('{0}', github.*)", {"github": {}})]
        with mock.patch("subprocess.run", wraps=subprocess.run) as started:
            program.ask_together(asked)
            self.assertEqual([program.evaluate(*one) for one in asked], [True, [1], "'b", "Array"])
            self.assertEqual(started.call_count, 1)
            program.ask_together([("1 == 1", {}), ("fromJSON('x')", {}), ("2 == 1", {})])
            count = started.call_count
            self.assertEqual([program.evaluate("1 == 1", {}), program.evaluate("2 == 1", {})], [True, False])
            self.assertEqual(started.call_count, count)
            with self.assertRaisesRegex(EvaluationError, "value BadJson"):
                program.evaluate("fromJSON('x')", {})

    def test_what_is_to_be_asked_is_noted(self):
        program = Program(ACTRUN)
        program.collects = True
        for _ in range(2):
            with self.assertRaisesRegex(EvaluationError, "later"):
                program.evaluate("1 == 1", {})
        self.assertEqual(program.noted, [("1 == 1", {})])

    def test_no_program(self):
        with self.assertRaisesRegex(EvaluationError, "/no/such cannot be started"):
            Program("/no/such").evaluate("1", {})
