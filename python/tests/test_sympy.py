"""The calls against SymPy's exact arithmetic. Where SymPy is missing, all of this is left out."""
import tempfile
import unittest
from collections import Counter
from fractions import Fraction
from math import prod
from pathlib import Path

import made
import wurgalm
from wurgalm import Combine, Differential, Down, Drop, Equation, Exchange, Relation, System, Up

try:
    import sympy
    from sympy import Function, Poly, Rational, symbols
except ImportError as missing:
    raise unittest.SkipTest("SymPy is not there") from missing

from wurgalm.expressions import differential_expressions_of, differential_of, expressions_of, in_n, system_of

n, x = symbols("n x")
FUNCTIONS = [Function(name) for name in "uvwz"]


def poly(coefficients):
    return Poly(in_n(coefficients, n), n, domain="ZZ")


class Row:
    """An equation with SymPy's polynomials."""

    def __init__(self, terms, right):
        self.terms, self.right = {place: p for place, p in terms.items() if p}, right

    @staticmethod
    def of(equation):
        return Row({place: poly(p) for place, p in equation.terms.items()}, poly(equation.right))

    def equation(self):
        return Equation({place: listed(p) for place, p in self.terms.items()}, listed(self.right))

    def shifted(self, by):
        """What the equation says at n + by."""
        moved = {(block + by, column): at(p, n + by) for (block, column), p in self.terms.items()}
        return Row(moved, at(self.right, n + by))

    def combined(self, g, other, h, integer):
        """(g × this + h × other) / integer, which has to come out even."""
        places = {*self.terms, *other.terms}
        zero = poly(())
        both = {place: g * self.terms.get(place, zero) + h * other.terms.get(place, zero) for place in places}
        return Row({place: divided(p, integer) for place, p in both.items()}, divided(g * self.right + h * other.right, integer))


def listed(p):
    return [int(a) for a in reversed(p.all_coeffs())]


def at(p, where):
    return p.compose(Poly(where, n, domain="ZZ"))


def divided(p, integer):
    quotient = p.exquo_ground(integer)
    assert quotient.mul_ground(integer) == p
    return quotient


def integer_roots(p):
    """Each integer root with how often it occurs."""
    return {int(root): times for root, times in p.ground_roots().items() if root.is_integer}


def made_again(system, log):
    """The rows and relations that the steps of a log come to, and the steps up."""
    rows, relations, ups = [Row.of(e) for e in system.equations], list(system.relations), 0
    for step in log.steps:
        i = step.i - 1
        match step:
            case Exchange():
                rows[i], rows[step.j - 1] = rows[step.j - 1], rows[i]
            case Combine():
                g, h = poly(step.g), poly(step.h)
                relations += [Relation(root, rows[i].equation()) for root in sorted(integer_roots(g))]
                rows[i] = rows[i].combined(g, rows[step.j - 1], h, step.integer)
            case Up():
                assert all(block < system.highest for block, _ in rows[i].terms)
                rows[i], ups = rows[i].shifted(1), ups + 1
            case Down():
                assert all(block > system.lowest for block, _ in rows[i].terms)
                rows[i] = rows[i].shifted(-1)
            case Drop():
                assert not rows[i].terms and not rows[i].right
                del rows[i]
    return [row.equation() for row in rows], relations, ups


class Combinations(unittest.TestCase):
    """Output rows against the combinations that they come from."""

    def holds(self, system, log, done):
        equations, relations, ups = made_again(system, log)
        self.assertEqual(tuple(equations), done.system.equations)
        self.assertEqual(tuple(relations), done.system.relations)
        self.assertEqual((ups, log.order), (done.shifts, done.system.order))
        diagonal = [poly(e.terms[system.highest, c]) for e, c in zip(done.system.equations, log.order, strict=True)]
        for number, equation in enumerate(done.system.equations):
            for column in log.order[:number]:
                self.assertNotIn((system.highest, column), equation.terms)
        roots = integer_roots(prod(diagonal, start=poly([1])))
        self.assertEqual(done.root, max(roots, default=None))
        self.assertEqual(done.times, roots[done.root] if roots else 0)

    def test_random_systems(self):
        kinds, relations = Counter(), 0
        for system in made.accepted_systems(5, 300):
            done, log = wurgalm.run_logged(system)
            if len(log.steps) > 1:
                self.holds(system, log, done)
                kinds.update(map(type, log.steps))
                relations += len(done.system.relations) - len(system.relations)
        self.assertGreater(kinds[Combine], 150)
        self.assertGreater(min(kinds[kind] for kind in (Exchange, Up, Drop)), 20)
        self.assertGreater(relations, 30)

    def test_examples(self):
        for sheet in sorted(made.EXAMPLES.glob("*.sheet")):
            system = wurgalm.read_sheet(sheet.read_bytes())
            try:
                done, log = wurgalm.run_logged(system)
            except wurgalm.NoSolution:
                self.assertEqual(sheet.name, "contradiction.sheet")
                continue
            with self.subTest(sheet.name):
                self.holds(system, log, done)

    def test_a_log_from_elsewhere(self):
        log = wurgalm.Log.parse((made.EXAMPLES / "logs/k2-other.log").read_text())
        self.holds(made.K2, log, wurgalm.replay(made.K2, log))

    def test_a_step_down(self):
        log = wurgalm.Log([Up(1), Down(1)], [1])
        system = System(1, 1, 0, [({(0, 1): [1, 2, 3]}, [0, 0, 5])])
        self.assertRaises(wurgalm.WrongLog, wurgalm.replay, system, log)
        up = wurgalm.Log([Up(1), Down(1), Up(1)], [1])
        self.holds(system, up, wurgalm.replay(system, up))


def mirrored(system):
    """The system of the sequences z(-n)."""

    def equation(given):
        terms = {(-block, column): listed(at(poly(p), -n)) for (block, column), p in given.terms.items()}
        return Equation(terms, listed(at(poly(given.right), -n)))

    relations = [Relation(-r.n0, equation(r.equation)) for r in system.relations]
    return System(system.unknowns, -system.lowest, -system.highest, map(equation, system.equations), relations, system.order)


class Trailing(unittest.TestCase):
    def test_the_mirror_of_the_leading_run(self):
        for system in made.accepted_systems(6, 60, side="trailing"):
            there, here = wurgalm.run(mirrored(system)), wurgalm.run(system, "trailing")
            back = mirrored(there.system)
            self.assertEqual((back.equations, back.order), (here.system.equations, here.system.order))
            self.assertEqual({*back.relations}, {*here.system.relations})
            self.assertEqual((there.shifts, there.times), (here.shifts, here.times))
            self.assertEqual(here.root, None if there.root is None else -there.root)


class Expressions(unittest.TestCase):
    def test_random_systems_come_back(self):
        for system in made.accepted_systems(7, 60):
            functions = FUNCTIONS[:system.unknowns]
            equations, relations = expressions_of(system, functions, n)
            blocks = system.highest, system.lowest
            self.assertEqual(system_of(equations, functions, n, relations, blocks), system)

    def test_differential_equations_come_back(self):
        sheets = [*made.EXAMPLES.glob("*.differential"), *(made.EXAMPLES / "polynomials").glob("*.differential")]
        self.assertGreater(len(sheets), 30)
        for sheet in sheets:
            given = Differential.of_sheet(sheet.read_bytes())
            functions = FUNCTIONS[:given.unknowns]
            back = differential_of(differential_expressions_of(given, functions, x), functions, x)
            self.assertEqual(back.equations, given.equations)

    def test_products_and_fractions(self):
        u, v = FUNCTIONS[:2]
        system = system_of([(n + 1) * (u(n) - v(n + 2)) / 6 + Rational(1, 4)], [u, v], n)
        self.assertEqual(system.equations, (Equation({(0, 1): [2, 2], (2, 2): [-2, -2]}, [-3]),))
        self.assertEqual((system.highest, system.lowest), (2, 0))

    def test_equations_that_say_nothing(self):
        u = FUNCTIONS[0]
        for nothing in (0, sympy.Eq(u(n), u(n)), sympy.Eq(0, 0, evaluate=False), u(n) - u(n)):
            self.assertEqual(system_of([nothing], [u], n), System(1, 0, 0, [{}]))
            self.assertEqual(differential_of([nothing], [u], n), Differential(1, 0, 0, [{}]))

    def test_what_is_no_system(self):
        u, v, a = FUNCTIONS[0], FUNCTIONS[1], symbols("a")
        for wrong in (u(n) * u(n + 1), u(2 * n), v(n), a * u(n), u(n) / n, u(n) ** 2, u(n, 1), sympy.sqrt(2) * u(n), u(a), u(n) < 1):
            with self.subTest(str(wrong)):
                self.assertRaises(ValueError, system_of, [wrong], [u], n)
        for wrong in (u(x) + 1, u(x).diff(x) * u(x), v(x), sympy.sin(x) * u(x), u(x + 1), u(x, n).diff(n), sympy.false):
            with self.subTest(str(wrong)):
                self.assertRaises(ValueError, differential_of, [wrong], [u], x)

    def test_a_derivative_that_is_too_high(self):
        u = FUNCTIONS[0]
        self.assertRaises(wurgalm.OutOfRange, wurgalm.read_differential, differential_of([u(x).diff(x, 3)], [u], x))


class Printed:
    """Its text is code."""

    def __init__(self, code):
        self.code = code

    def __str__(self):
        return self.code

    __repr__ = __str__


class Named(str):
    """A text that SymPy would take for an object of its own."""

    def _sympy_(self):
        return sympy.sympify(str(self))


ARGUMENT = r"^(equations|relations|functions|blocks|system|differential|coefficients|n|x)\b"


class Attacks(unittest.TestCase):
    """Nothing that is given is run: where SymPy would parse it, it is refused by the name of its argument."""

    def setUp(self):
        folder = tempfile.TemporaryDirectory()
        self.addCleanup(folder.cleanup)
        self.mark = Path(folder.name) / "mark"
        touch = f"__import__('pathlib').Path({str(self.mark)!r}).touch()"
        codes = [f"{touch} * 0", touch, f"({touch} or 0)", f"[{touch}]", f"lambda: {touch}", f"x.__class__({touch})"]
        codes += [f"u(n) + ({touch} or 0)", f"Symbol({touch})", f"({touch}, 1)[1]", f"Integer(1) if {touch} else 0"]
        kinds = (str, str.encode, Printed, Named, lambda code: [code], lambda code: (code, 1))
        self.given = [given(code) for code in codes for given in kinds]
        self.given += [{"equations": codes[0]}, {codes[0]}, lambda: self.mark.touch()]

    def holds(self, call):
        """The call is refused for everything that is code, and nothing was run."""
        for given in self.given:
            with self.assertRaises((TypeError, ValueError)) as caught:
                call(given)
            self.assertRegex(str(caught.exception), ARGUMENT)
            self.assertFalse(self.mark.exists(), f"{type(given)} was run")

    def test_equations(self):
        u = FUNCTIONS[0]
        self.holds(lambda given: system_of([given], [u], n))
        self.holds(lambda given: system_of(given, [u], n))
        self.holds(lambda given: system_of([u(n), [given]], [u], n))
        self.holds(lambda given: differential_of([given], [u], x))
        self.holds(lambda given: differential_of(given, [u], x))

    def test_the_two_of_the_report(self):
        code = f"__import__('os').system('touch {self.mark}') * 0"
        self.assertRaisesRegex(TypeError, r"equations\[0\]: .* not str", system_of, [code], [FUNCTIONS[0]], n)
        self.assertRaisesRegex(TypeError, r"equations\[0\]: .* not str", differential_of, [code], [FUNCTIONS[0]], x)
        self.assertFalse(self.mark.exists())

    def test_relations_and_blocks(self):
        u = FUNCTIONS[0]
        self.holds(lambda given: system_of([u(n)], [u], n, [(0, given)]))
        self.holds(lambda given: system_of([u(n)], [u], n, [(given, u(n))]))
        self.holds(lambda given: system_of([u(n)], [u], n, [given]))
        self.holds(lambda given: system_of([u(n)], [u], n, (), (given, 0)))
        self.holds(lambda given: system_of([u(n)], [u], n, (), (0, given)))

    def test_unknowns_and_variables(self):
        u = FUNCTIONS[0]
        equations = Differential(1, 1, 1, [{(1, 0, 1): 1, (0, 1, 1): -1}])
        for put in (lambda given: given, lambda given: [given]):
            self.holds(lambda given: system_of([u(n)], put(given), n))
            self.holds(lambda given: differential_of([u(x)], put(given), x))
            self.holds(lambda given: expressions_of(made.K2, put(given), n))
            self.holds(lambda given: differential_expressions_of(equations, put(given), x))
        self.holds(lambda given: system_of([u(n)], [u], given))
        self.holds(lambda given: differential_of([u(x)], [u], given))
        self.holds(lambda given: expressions_of(made.K2, FUNCTIONS[:2], given))
        self.holds(lambda given: differential_expressions_of(equations, [u], given))
        self.holds(lambda given: in_n([1, 2], given))
        self.holds(lambda given: in_n([given], n))
        self.holds(lambda given: expressions_of(given, [u], n))
        self.holds(lambda given: differential_expressions_of(given, [u], x))

    def test_objects_with_parts_that_are_text(self):
        u = FUNCTIONS[0]
        code = f"__import__('pathlib').Path({str(self.mark)!r}).touch()"
        for kind in (u, sympy.Add, sympy.Mul, sympy.Pow, sympy.Eq, sympy.sin):
            for whole in (sympy.Basic.__new__(kind, code), sympy.Basic.__new__(kind, u(n), code)):
                for given in (whole, sympy.Basic.__new__(sympy.Add, u(n), whole)):
                    self.assertRaisesRegex(TypeError, r"equations\[0\]", system_of, [given], [u], n)
                    self.assertRaisesRegex(TypeError, r"equations\[0\]", differential_of, [given], [u], n)
                    self.assertFalse(self.mark.exists())

    def test_names_are_names(self):
        """An unknown or a variable may be named as it likes: its name is never read."""
        code = f"__import__('pathlib').Path({str(self.mark)!r}).touch()"
        for name in (code, "", " ", "u(n)", "\x1b[31m", "'", "lambda", "\n", "u" * 10_000):
            odd, variable = Function(name), sympy.Symbol(f"{name}?")
            system = system_of([variable * odd(variable + 1) - odd(variable)], [odd], variable)
            self.assertEqual(system, System(1, 1, 0, [{(1, 1): [0, 1], (0, 1): [-1]}]))
            self.assertEqual(system_of(expressions_of(system, [odd], variable)[0], [odd], variable), system)
            equations = differential_of([odd(variable).diff(variable) - odd(variable)], [odd], variable)
            written = differential_expressions_of(equations, [odd], variable)
            self.assertEqual(differential_of(written, [odd], variable), equations)
            with self.assertRaises(ValueError) as caught:
                system_of([odd(variable) ** 2], [odd], variable)
            self.assertTrue(str(caught.exception).isprintable() and len(str(caught.exception)) < 300)
        self.assertFalse(self.mark.exists())

    def test_exact_numbers_alone(self):
        u = FUNCTIONS[0]
        self.assertEqual(system_of([Fraction(0), 0], [u], n), System(1, 0, 0, [{}, {}]))
        self.assertEqual(system_of([Fraction(3, 2)], [u], n).equations, (Equation({}, [-3]),))

        class Text(Fraction):
            numerator = property(lambda self: "__import__('os')")

        for wrong in (True, 0.5, float("nan"), 1j, None, u, sympy.Matrix([u(n)]), Text(1, 2)):
            self.assertRaisesRegex(TypeError, r"equations\[0\]", system_of, [wrong], [u], n)
        for wrong in (u(n) / 3.0, sympy.Float(0.1) * u(n), sympy.Eq(u(n), 1e-30)):
            self.assertRaisesRegex(ValueError, "float", system_of, [wrong], [u], n)
        self.assertRaisesRegex(TypeError, r"relations\[0\]\[0\]", system_of, [u(n)], [u], n, [(1.9, u(n))])
        self.assertRaisesRegex(TypeError, r"blocks\[0\]", system_of, [u(n)], [u], n, (), (True, 0))
        self.assertRaisesRegex(ValueError, "blocks", system_of, [u(n)], [u], n, (), (1, 0, -1))
        self.assertRaisesRegex(ValueError, "functions", system_of, [u(n)], [u, u], n)
        self.assertRaisesRegex(ValueError, "functions", expressions_of, made.K2, [u], n)


class Polynomials(unittest.TestCase):
    """The listed solutions against SymPy's polynomials."""

    def holds(self, equation, expected):
        u = FUNCTIONS[0]
        found = wurgalm.solutions(wurgalm.read_differential(differential_of([equation(u(x))], [u], x)))
        _, whole = Poly(expected, x).clear_denoms(convert=True)
        primitive = tuple(listed(whole.primitive()[1]))
        self.assertEqual(len(found.sequences), 1)
        self.assertEqual(found.last, len(primitive) - 1)
        self.assertIn(found.polynomial(0), (primitive, tuple(-a for a in primitive)))

    def test_legendre(self):
        for k in range(1, 11):
            self.holds(lambda y: (1 - x**2) * y.diff(x, 2) - 2 * x * y.diff(x) + k * (k + 1) * y, sympy.legendre(k, x))

    def test_hermite(self):
        for k in range(1, 11):
            self.holds(lambda y: y.diff(x, 2) - 2 * x * y.diff(x) + 2 * k * y, sympy.hermite(k, x))

    def test_chebyshev(self):
        for k in range(1, 11):
            self.holds(lambda y: (1 - x**2) * y.diff(x, 2) - x * y.diff(x) + k**2 * y, sympy.chebyshevt(k, x))


class Series(unittest.TestCase):
    """Recurrences of differential equations against the series that SymPy has of their solutions."""

    LAST = 12

    def coefficients(self, function):
        series = function.series(x, 0, self.LAST + 1).removeO()
        return {i: [sympy.gammasimp(series.coeff(x, i)) if i >= 0 else sympy.Integer(0)] for i in range(-6, self.LAST + 1)}

    def holds(self, system, function):
        """The input's equations and the output's hold wherever their blocks are known; a record of whole numbers fits."""
        vectors = self.coefficients(function)
        for held in (system, wurgalm.run(system).system):
            for where in range(-6 - held.lowest, self.LAST - held.highest + 1):
                for equation in held.equations:
                    self.assertEqual(sympy.simplify(equation.sum(where, vectors)), 0)
        return vectors

    def record(self, system, vectors, scale, last):
        whole = [sympy.simplify(scale * vectors[i][0]) for i in range(-4, last + 1)]
        self.assertTrue(all(a.is_Integer for a in whole) and any(whole))
        return wurgalm.check_record(system, -4, [[a] for a in whole])

    def test_bessel(self):
        u = FUNCTIONS[0]
        for k in range(4):
            equation = x**2 * u(x).diff(x, 2) + x * u(x).diff(x) + (x**2 - k**2) * u(x)
            system = wurgalm.read_differential(differential_of([equation], [u], x))
            vectors = self.holds(system, sympy.besselj(k, x))
            # Three terms that are not zero, from x^k to x^(k + 4).
            scale = sympy.ilcm(*[vectors[k + i][0].q for i in (0, 2, 4)])
            self.assertIsInstance(self.record(system, vectors, scale, k + 5), wurgalm.Fits)
            vectors[k + 2][0] *= 2
            self.assertIsInstance(self.record(system, vectors, scale, k + 5), wurgalm.Misfit)

    def test_airy(self):
        system = wurgalm.read_differential((made.EXAMPLES / "airy.differential").read_bytes())
        for function in (sympy.airyai(x), sympy.airybi(x)):
            vectors = self.holds(system, function)
            # The part of the powers 0, 3, 6 and so on is a solution by itself.
            part = {i: [vectors[i][0] / vectors[0][0] if i % 3 == 0 else sympy.Integer(0)] for i in vectors}
            self.assertIsInstance(self.record(system, part, 12960, 11), wurgalm.Fits)
            part[3] = part[0]
            self.assertIsInstance(self.record(system, part, 12960, 11), wurgalm.Misfit)

    def test_a_function_of_another_equation(self):
        system = wurgalm.read_differential((made.EXAMPLES / "airy.differential").read_bytes())
        vectors = self.coefficients(sympy.exp(x))
        self.assertFalse(wurgalm.satisfied(system, range(0, 8), vectors))
