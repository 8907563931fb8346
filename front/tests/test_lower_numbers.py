"""Numbers with fractions: what they become before planning, and that no comparison is false without them."""
from __future__ import annotations

import itertools
import json
import os
import random
import unittest

from actrun_front.expressions import Program, literal
from actrun_front.lower_numbers import Folder, Side, compared, constant_side, plain, settled
from actrun_front.yaml_reader import Number
from .lower_case import LowerCase
from .try_case import NEEDS_PROGRAM, WORKFLOW, TryCase

SIGNS = ("<", "<=", ">", ">=", "==", "!=")


def fold(text: str, **matrix: list) -> str:
    """An expression after folding, where variables of the matrix have these values."""
    sides = {f"matrix.{name}": Side(f"matrix.{name}", values) for name, values in matrix.items()}
    return Folder(lambda name: sides.get(name) or Side(name)).fold(text)


class Constants(unittest.TestCase):
    """Comparisons that are decided here."""

    def test_constants(self) -> None:
        for text, wanted in (("10.5 > 9.5", "true"), ("10.5 < 9.5", "false"), ("1.50 == 1.5", "true"),
                             ("'1.5' > 1", "true"), ("'1.5' == '1.50'", None),
                             ("1 > 0.5", "true"), ("0.1 == '0.10'", "true"), ("null < 0.5", "true"),
                             ("true > 0.5", "true"), ("'' < 0.5", "true"),
                             ("'a' == 1.5", "false"), ("'a' != 1.5", "true"), ("'a' < 1.5", "false"),
                             ("1e1 > 9.5", "true"), ("-2.99e-2 < 0", "true"),
                             ("9007199254740993.0 > 0", "true"), ("1 < 2", None), ("x == '1.5'", None),
                             ("0x10 > 15.5", "true")):
            self.assertEqual(fold(text), wanted or text, text)

    def test_places(self) -> None:
        self.assertEqual(fold("  10.5 > 9.5 && (0.5 < x) || f(1.0, 2.50, .5)  "),
                         "  true && (x > 0) || f(1, '2.5', '0.5')  ")
        self.assertEqual(fold("!(1.5 > 1) || a[1.0].b == c"), "!(true) || a[1].b == c")
        self.assertEqual(fold("(1.5 > 1) == true"), "(true) == true")
        self.assertEqual(fold("contains('1.5', '1.5') && github.ref"), "contains('1.5', '1.5') && github.ref")
        for text in ("1.5 >", "(1.5", "1.5 1.5", "a b 1.5 > 1", "1.x > 1.5", "", "1e999 > 1.5", "'x > 1.5"):
            self.assertEqual(fold(text), text)

    def test_json(self) -> None:
        self.assertEqual(fold("fromJSON('[1.50, 2.0, \"3.10\"]')[0]"), "fromJSON('[\"1.5\",2,\"3.10\"]')[0]")
        self.assertEqual(fold("fromJSON('{\"a\":1.5}').a"), "fromJSON('{\"a\":\"1.5\"}').a")
        self.assertEqual(fold("fromJSON('2.0')"), "2")
        for text in ("fromJSON('[1, \"2.50\"]')", "fromJSON('{')", "fromJSON(x)",
                     "fromJSON(fromJSON('\"1.5\"'))"):
            self.assertEqual(fold(text), text)

    def test_numbers_as_github_prints_them(self) -> None:
        for text, wanted in (("3.10", "3.1"), ("1.0", 1), ("1e3", 1000), ("-0.50", "-0.5"), ("1e-7", "1E-07"),
                             ("0.1e1", 1), (".5", "0.5"),
                             ("123456789012345678", "1.23456789012346E+17"), ("-0.0", 0),
                             ("0.30000000000000004", "0.3")):
            self.assertEqual(settled(text), wanted, text)

    def test_values_of_the_matrix(self) -> None:
        versions = [Number("3.9"), Number("3.11"), 4]
        self.assertEqual(fold("matrix.v > 3.10", v=versions),
                         "contains(fromJSON('[\"3.9\",\"3.11\",4]'), matrix.v)".join("()"))
        self.assertEqual(fold("matrix.v == 4", v=versions), "(contains(fromJSON('[4]'), matrix.v))")
        self.assertEqual(fold("matrix.v > 9", v=versions), "false")
        self.assertEqual(fold("3.5 < matrix.v && x", v=versions),
                         "(contains(fromJSON('[\"3.9\",4]'), matrix.v)) && x")
        self.assertEqual(fold("matrix.v < x", v=[Number("1.5"), 2]),
                         "(contains(fromJSON('[\"1.5\"]'), matrix.v) && (x > 1) || contains(fromJSON('[2]'), "
                         "matrix.v) && (x > 2))")

    def test_a_number_that_is_too_great(self) -> None:
        great = settled("1e400")
        with self.assertRaisesRegex(Exception, "infinity is too great"):
            fold("matrix.v > x", v=[great])
        self.assertEqual(fold("matrix.v > 1.5", v=[great]),
                         "(contains(fromJSON('[\"infinity\"]'), matrix.v))")

    def test_a_value_of_the_execution(self) -> None:
        for text, wanted in (("x > 10.5", "x > 10"), ("x >= 10.5", "x > 10"), ("x < 10.5", "x < 11"),
                             ("10.5 > x", "x < 11"), ("x > -0.5", "x > -1"),
                             ("x == 1.50", "(format('{0}', x) == '1.5' || x == 0 && false)"),
                             ("x != 1.5", "!(format('{0}', x) == '1.5' || x == 0 && false)")):
            self.assertEqual(fold(text), wanted)


def of_github(sign: str, one: object, other: object) -> bool:
    """A comparison by GitHub's documents, written apart from what is tested."""
    def number(value: object) -> float:
        if isinstance(value, (bool, int, float)) or value is None:
            return float(value or 0)
        try:
            return float(str(value) or 0)
        except ValueError:
            return float("nan")
    if isinstance(one, str) and isinstance(other, str):
        one, other = one.lower(), other.lower()
    else:
        one, other = number(one), number(other)
    return eval(f"one {sign} other", {"one": one, "other": other})


@NEEDS_PROGRAM
class Evaluated(unittest.TestCase):
    """What the program gives for folded comparisons is what GitHub gives, or an error."""

    def test_values_against_fractions(self) -> None:
        """Each value that an execution may have, against each constant: right, or an error of a text with a fraction."""
        program, errors = Program(os.environ["ACTRUN_PROGRAM"]), []
        values = [0, 1, 10, 11, -1, "", "abc", "10", "11", "10.5", "10.50", "-0.5", None, True, False]
        contexts = {"inputs": {f"v{at}": value for at, value in enumerate(values)}}
        for sign, (at, value), other in itertools.product(SIGNS, enumerate(values), (10.5, -0.5)):
            text = fold(f"inputs.v{at} {sign} {other}")
            if self.decides(text, value):
                self.assertEqual(program.evaluate(text, contexts), of_github(sign, value, other),
                                 (sign, value, other))
            else:
                errors.append(value)
        self.assertEqual(set(errors), {"10.5", "10.50", "-0.5"})

    @staticmethod
    def decides(text: str, value: object) -> bool:
        """Whether the program can decide: no text with a fraction is turned to a number."""
        return not (isinstance(value, str) and "." in value) or f"== {literal(value)} ||" in text

    def test_a_fraction_in_another_spelling_is_an_error(self) -> None:
        program = Program(os.environ["ACTRUN_PROGRAM"])
        for sign in SIGNS:
            with self.assertRaisesRegex(Exception, "NotWhole"):
                program.evaluate(fold(f"inputs.v {sign} 10.5"), {"inputs": {"v": "10.50"}})

    def test_random_matrices(self) -> None:
        """Values of a matrix against constants and against one another."""
        chance, program = random.Random(7), Program(os.environ["ACTRUN_PROGRAM"])
        pool = [Number("1.5"), Number("3.1"), Number("10.25"), 1, 2, 10, "abc", "2"]
        checks = []
        for _ in range(60):
            values, sign = chance.sample(pool[:3], 1) + chance.sample(pool, 3), chance.choice(SIGNS)
            value, other = chance.choice(values), chance.choice([1.5, 3.1, 2, 10.0, "2", "abc"])
            text = fold(f"matrix.v {sign} {literal(other) if isinstance(other, str) else repr(other)}",
                        v=values)
            github = [float(one) if isinstance(one, Number) else one for one in (value, other)]
            checks.append((text, value, of_github(sign, *github), (sign, value, other)))
        for text, value, wanted, test in checks:
            self.assertEqual(program.evaluate(text, {"matrix": {"v": plain(value)}}), wanted, (test, text))

    def test_known_values(self) -> None:
        self.assertTrue(compared("==", Number("3.50"), "3.5"))
        self.assertFalse(compared("==", "3.50", "3.5"))
        self.assertTrue(constant_side(1.5).is_constant)


class Lowered(LowerCase):
    """Fractions in a workflow."""

    def test_yaml(self) -> None:
        job = self.job("env: {A: 3.10, B: 1.0, C: '3.10'}, strategy: {matrix: {v: [3.10, 2.0, 1e2]}}, steps: "
                       "[{run: x, with: {v: 0.50}}]")
        self.assertEqual({name: job["env"][name] for name in "ABC"}, {"A": "3.1", "B": 1, "C": "3.10"})
        self.assertEqual(job["strategy"]["matrix"]["v"], ["3.1", 2, 100])
        self.assertIn((2, "3.10 is the number 3.1, as GitHub reads it; write a string in quotes"), self.notes())

    def test_inputs(self) -> None:
        self.contexts = {"inputs": {"n": Number("2.5"), "m": 2}}
        step = self.step("run: \"${{ inputs.n > 2 }} ${{ inputs.N == 2.50 }} ${{ inputs.n < inputs.m }} ${{ inputs.m < 3 }}\"")
        self.assertEqual(step["run"], "${{ true }} ${{ true }} ${{ inputs.m > 2 }} ${{ inputs.m < 3 }}")

    def test_texts_that_are_numbers(self) -> None:
        for text, expected in (("' 1.5' > 1.5", False), ("'1.0' == 1", True), ("'1e3' == 1000", True), ("'0xff' == 255", True),
                               ("1 == ' 1 '", True), ("'0o17' == 15", True), ("'0xffffffff' == -1", True), ("'Infinity' > 9", True),
                               ("' ' == 0", True)):
            step = self.step(f'run: "${{{{ {text} }}}}"')
            self.assertEqual(step["run"], f"${{{{ {str(expected).lower()} }}}}", text)

    def test_texts_that_the_program_reads_alike(self) -> None:
        for text in ("'1' == 1", "'' == 0", "'abc' == 0", "'1.0' == '1'", "'-7' < 3", "'0x' == 0"):
            self.assertEqual(self.step(f'run: "${{{{ {text} }}}}"')["run"], f"${{{{ {text} }}}}")

    def test_case(self) -> None:
        for text, expected in (
                ("case(a.b == 1, 'x', a.c, 'y', a.d)", "((a.b == 1) && 'x' || (a.c) && 'y' || (a.d))"),
                ("Case(true, a.b, 'z')", "((true) && fromJSON(format('[{0}]', toJSON(a.b))) || "
                                         "fromJSON(format('[{0}]', toJSON('z'))))[0]"),
                ("'1.0' == case(true, 1, case(false, 2, 3))", "'1.0' == ((true) && 1 || (((false) && 2 || (3))))"),
                ("case(true, 1)", "case(true, 1)"), ("case('a', 'b', 'c')", "case('a', 'b', 'c')")):
            text = text.replace("a.", "github.")
            step = self.step(f'run: "${{{{ {text} }}}}"')
            self.assertEqual(step["run"], f"${{{{ {expected.replace('a.', 'github.')} }}}}")

    def test_a_comparison_that_cannot_be_decided(self) -> None:
        values = ", ".join(f"{number}.5" for number in range(65))
        line, text = self.refused("on: push\njobs:\n  a:\n    strategy: {matrix: {v: [" + values + "]}}\n"
                                  "    steps: [{run: x, if: matrix.v > 1.5}]")
        self.assertIn("has a comparison with a fraction that cannot be decided: matrix.v has more than 64 values", text)
        self.assertEqual(line, 5)


@NEEDS_PROGRAM
class Tried(TryCase):
    """Fractions in an execution."""

    def test_a_matrix_of_versions(self) -> None:
        self.workflow("""
- run: echo "is ${{ matrix.v }} new ${{ matrix.v > 3.9 }} same ${{ matrix.v == 3.10 }} by ${{ 10.5 > 9.5 }} and ${{ 1.50 }}"
- if: matrix.v > 3.5
  run: echo "greater ${{ matrix.v }}"
- id: out
  run: echo "v=3.50" >> "$GITHUB_OUTPUT"
- if: steps.out.outputs.v < 3.5
  run: echo unseen
""", WORKFLOW.replace("    steps:\n", "    strategy: {fail-fast: false, matrix: {v: [3.10, 3.9, 4.0]}}\n    "
                                      "steps:\n"))
        done = self.attempt()
        for line in ("is 3.1 new false same true by true and 1.5",
                     "is 3.9 new false same false by true and 1.5",
                     "is 4 new true same false by true and 1.5", "greater 3.9", "greater 4"):
            self.assertIn(f"{line}\n", done.stdout)
        self.assertNotIn("greater 3.1\n", done.stdout)
        self.assert_status(done, 1)
        self.assertRegex(done.stdout, r"step 3 \(echo unseen\) failed at line \d+: "
                                      r".*NotWhole.*\[\.github/workflows/ci\.yml:12\]")
        self.assertNotIn("unseen\nunseen", done.stdout)
        remedy = "NotWhole: a number has a fraction or an exponent, or is out of range: compare it as a string"
        self.assertEqual(done.stdout.count(f"\n  {remedy}\n"), 1)
        self.assertIn("note: .github/workflows/ci.yml:5: 3.10 is the number 3.1, as GitHub reads it; write a "
                      "string in quotes\n", done.stderr)

    def test_the_reason_as_json(self) -> None:
        self.workflow("- run: echo ${{ fromJSON('[1]') == fromJSON('[1]') }}")
        done = self.attempt("--json")
        self.assert_status(done, 1)
        step = json.loads(done.stdout.splitlines()[-1])["runs"][0]["jobs"][0]["legs"][0]["steps"][0]
        self.assertEqual((step["result"], step["exit"], step["cause"]), (
            "failure", None, "NoIdentity: lists and mappings cannot be compared by `==`: compare their parts, or toJSON of them"))


if __name__ == "__main__":
    unittest.main()
