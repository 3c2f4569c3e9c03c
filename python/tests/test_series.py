"""`wurgalm series` and the recurrences of differential equations against the series that SymPy has of their solutions. Where SymPy is
missing, all of this is left out; where the command is not built, what it writes."""
import re
import subprocess
import tempfile
import unittest
from fractions import Fraction
from pathlib import Path

import made
import wurgalm

try:
    import sympy
    from sympy import Function, Rational, symbols
except ImportError as missing:
    raise unittest.SkipTest("SymPy is not there") from missing

from wurgalm.expressions import differential_of

COMMAND = made.ROOT / "target/rust/release/wurgalm"
LAST = 12
x, u = symbols("x"), Function("u")


def legendre(k):
    return (1 - x**2) * u(x).diff(x, 2) - 2 * x * u(x).diff(x) + k * (k + 1) * u(x)


def hermite(k):
    return u(x).diff(x, 2) - 2 * x * u(x).diff(x) + 2 * k * u(x)


def bessel(k):
    return x**2 * u(x).diff(x, 2) + x * u(x).diff(x) + (x**2 - k**2) * u(x)


AIRY = u(x).diff(x, 2) - x * u(x)
# The second solutions: Legendre's functions Q, and Hermite's with the imaginary error function.
LEGENDRE_Q = [sympy.atanh(x), x * sympy.atanh(x) - 1, (3 * x**2 - 1) * sympy.atanh(x) / 2 - 3 * x / 2]
HERMITE_SECOND = [sympy.erfi(x), sympy.sqrt(sympy.pi) * x * sympy.erfi(x) - sympy.exp(x**2)]
# An equation, a solution, and how many constants its series have.
SOLUTIONS = [
    *[(legendre(k), sympy.legendre(k, x), 2) for k in range(8)],
    *[(legendre(k), function, 2) for k, function in enumerate(LEGENDRE_Q)],
    *[(hermite(k), sympy.hermite(k, x), 2) for k in range(8)],
    *[(hermite(k), function, 2) for k, function in enumerate(HERMITE_SECOND)],
    (AIRY, sympy.airyai(x), 2),
    (AIRY, sympy.airybi(x), 2),
    *[(bessel(k), sympy.besselj(k, x), 1) for k in range(5)],
]


def coefficients(function):
    """Those of SymPy's series, from the power 0 to LAST."""
    series = sympy.expand(function.series(x, 0, LAST + 1).removeO())
    return [sympy.gammasimp(series.coeff(x, power)) for power in range(LAST + 1)]


def terms(sheet, start):
    """The terms that the command writes from starting values, as fractions."""
    words = [COMMAND, "series", "--terms", str(LAST + 1), "--start", start, sheet]
    written = subprocess.run(words, check=True, capture_output=True, text=True).stdout
    rows = re.findall(r"^(\d+) +(\S+)$", written, re.M)
    assert [int(index) for index, _ in rows] == list(range(LAST + 1)), written
    return [Fraction(value) for _, value in rows]


@unittest.skipUnless(COMMAND.is_file(), "the command is not built")
class Command(unittest.TestCase):
    def free(self, sheet):
        first = subprocess.run([COMMAND, "series", sheet], check=True, capture_output=True, text=True).stdout.splitlines()[0]
        count, listed = re.fullmatch(r"(\d+) constants? free: (.*)", first).groups()
        powers = [int(power) for power in re.findall(r"y\((\d+)\)", listed)]
        self.assertEqual(len(powers), int(count))
        return powers

    def test_series(self):
        for equation, function, constants in SOLUTIONS:
            with self.subTest(str(function)), tempfile.TemporaryDirectory() as folder:
                sheet = Path(folder) / "model.differential"
                sheet.write_bytes(differential_of([equation], [u], x).sheet())
                expected, free = coefficients(function), self.free(sheet)
                self.assertEqual(len(free), constants)
                # The function is the sum of the series with one constant 1 and the others 0, each times its own coefficient there.
                start = [",".join(f"y({power})={int(power == one)}" for power in free) for one in free]
                units = [[Rational(value.numerator, value.denominator) for value in terms(sheet, given)] for given in start]
                for power, value in enumerate(expected):
                    found = sum(expected[one] * unit[power] for one, unit in zip(free, units, strict=True))
                    self.assertEqual(sympy.simplify(found - value), 0, power)


class Recurrences(unittest.TestCase):
    def test_series(self):
        """The input's equations and the output's hold for SymPy's coefficients, zeros below them, wherever all of them are known."""
        for equation, function, _ in SOLUTIONS:
            with self.subTest(str(function)):
                system = wurgalm.read_differential(differential_of([equation], [u], x))
                known = dict(enumerate(coefficients(function)))
                vectors = {index: [known.get(index, sympy.Integer(0))] for index in range(-6, LAST + 1)}
                for held in (system, wurgalm.run(system).system):
                    for where in range(-6 - held.lowest, LAST - held.highest + 1):
                        for row in held.equations:
                            self.assertEqual(sympy.simplify(row.sum(where, vectors)), 0)
