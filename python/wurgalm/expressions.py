"""Systems and differential equations from SymPy's expressions and back. This module alone needs SymPy.

SymPy runs what it parses, so it gets nothing to parse from here: equations are SymPy's objects, ints or Fractions,
unknowns are `sympy.Function("y")`, variables are `sympy.Symbol("n")`. A text is a TypeError that names its argument.

>>> from sympy import Function, symbols
>>> n, x, y = symbols("n"), Function("x"), Function("y")
>>> k2 = system_of([n*x(n + 1) - y(n), x(n + 1) - x(n)], [x, y], n)
>>> k2.equations[0].terms
{(1, 1): (0, 1), (0, 2): (-1,)}
>>> equations, relations = expressions_of(k2, [x, y], n)
>>> equations[0]
Eq(n*x(n + 1) - y(n), 0)
"""
from collections.abc import Iterable, Sequence
from fractions import Fraction
from typing import Any

try:
    import sympy
except ImportError as missing:
    raise ImportError("wurgalm.expressions needs SymPy, and it is not installed; systems of lists do without it") from missing
from sympy.core.function import AppliedUndef, UndefinedFunction

from .arguments import instance, members, pair, short, wanted, whole
from .differential import Differential
from .systems import Equation, Polynomial, Relation, System, each, polynomial


def system_of(
    equations: Iterable[Any],
    functions: Sequence[Any],
    n: Any,
    relations: Iterable[tuple[int, Any]] = (),
    blocks: tuple[int, int] | None = None,
) -> System:
    """The system of these equations, each an expression that is to be 0 or a `sympy.Eq`, in which unknown c is the c-th of `functions`,
    taken at n plus an integer. Fractions are cleared by a positive integer. What stands without an unknown is the right side. A relation
    is a pair of n0 and an equation. `blocks` is the highest and the lowest block; without it they are those that occur. A ValueError says
    what is not such an equation.

    >>> from sympy import Eq, Function, Rational, symbols
    >>> n, x = symbols("n"), Function("x")
    >>> system_of([Eq((n + 1)*x(n + 1), x(n)/2 + n**2)], [x], n).equations
    (Equation(terms={(1, 1): (2, 2), (0, 1): (-1,)}, right=(0, 0, 2)),)
    """
    unknowns, variable = _unknowns(functions), _variable(n, "n")

    def equation(given: Any, name: str) -> Equation:
        return _equation(_expression(given, name), unknowns, variable)

    def relation(given: Any, name: str) -> Relation:
        n0, asked = pair(given, name, "n0 and an equation")
        return Relation(whole(n0, f"{name}[0]"), equation(asked, f"{name}[1]"))

    found, listed = each(equation, equations, "equations"), each(relation, relations, "relations")
    used = [block for e in [*found, *(r.equation for r in listed)] for block, _ in e.terms] or [0]
    highest, lowest = (max(used), min(used)) if blocks is None else pair(blocks, "blocks", "the highest and the lowest")
    return System(len(unknowns), whole(highest, "blocks[0]"), whole(lowest, "blocks[1]"), found, listed)


def expressions_of(system: System, functions: Sequence[Any], n: Any) -> tuple[list[Any], list[tuple[int, Any]]]:
    """The equations of a system, and its relations as pairs of n0 and an equation."""

    given = instance(system, System, "system", "; differential_expressions_of takes a Differential")
    unknowns, variable = _unknowns(functions, given.unknowns), _variable(n, "n")

    def equation(held: Equation) -> Any:
        places = held.terms.items()
        left = sympy.Add(*[in_n(p, variable) * unknowns[column - 1](variable + block) for (block, column), p in places])
        return sympy.Eq(left, in_n(held.right, variable), evaluate=False)

    return [equation(e) for e in given.equations], [(r.n0, equation(r.equation)) for r in given.relations]


def in_n(coefficients: Polynomial, n: Any) -> Any:
    """The polynomial of these coefficients in n.

    >>> from sympy import symbols
    >>> in_n((1, 0, 3), symbols("n"))
    3*n**2 + 1
    """
    variable = _variable(n, "n")
    return sympy.Add(*[sympy.Integer(a) * variable**power for power, a in enumerate(polynomial(coefficients))])


def differential_of(equations: Iterable[Any], functions: Sequence[Any], x: Any) -> Differential:
    """The differential equations of these expressions, in which unknown c is the c-th of `functions`, taken at x.

    >>> from sympy import Function, symbols
    >>> x, y = symbols("x"), Function("y")
    >>> differential_of([y(x).diff(x, 2) - x*y(x)], [y], x)
    Differential(unknowns=1, derivatives=2, powers=1, equations=({(2, 0, 1): 1, (0, 1, 1): -1},))
    """
    unknowns, variable = _unknowns(functions), _variable(x, "x")

    def equation(given: Any, name: str) -> dict[tuple[int, int, int], int]:
        return _differential(_expression(given, name), unknowns, variable)

    found = each(equation, equations, "equations")
    places = [place for one in found for place in one] or [(0, 0, 0)]
    return Differential(len(unknowns), max(k for k, _, _ in places), max(j for _, j, _ in places), found)


def differential_expressions_of(differential: Differential, functions: Sequence[Any], x: Any) -> list[Any]:
    """The equations as expressions.

    >>> from sympy import Function, symbols
    >>> differential_expressions_of(Differential(1, 1, 0, [{(1, 0, 1): 1, (0, 0, 1): -1}]), [Function("y")], symbols("x"))
    [Eq(-y(x) + Derivative(y(x), x), 0)]
    """

    given = instance(differential, Differential, "differential", "; expressions_of takes a System")
    unknowns, variable = _unknowns(functions, given.unknowns), _variable(x, "x")

    def term(k: int, j: int, c: int) -> Any:
        return variable**j * sympy.Derivative(unknowns[c - 1](variable), (variable, k), evaluate=True)

    sums = [sympy.Add(*[a * term(*place) for place, a in equation.items()]) for equation in given.equations]
    return [sympy.Eq(left, 0, evaluate=False) for left in sums]


def _unknowns(functions: Any, count: int | None = None) -> tuple[Any, ...]:
    """The unknowns, each a function of its own name."""
    found = members(functions, "functions")
    for number, function in enumerate(found):
        if not isinstance(function, UndefinedFunction):
            raise wanted(f"functions[{number}]", "a function as sympy.Function('y') makes it", function)
    if len(set(found)) < len(found):
        raise ValueError("functions: one of them is there twice")
    if count is not None and len(found) != count:
        raise ValueError(f"functions: {count} are wanted, one for each unknown, not {len(found)}")
    return found


def _variable(given: Any, name: str) -> Any:
    if not isinstance(given, sympy.Symbol):
        raise wanted(name, "a variable as sympy.Symbol('n') makes it", given)
    return given


def _expression(given: Any, name: str) -> Any:
    """What is to be 0. Only objects of SymPy, ints and Fractions are taken; no text is read, nothing is made a text."""
    if isinstance(given, int) and not isinstance(given, bool):
        return sympy.Integer(whole(given, name))
    if isinstance(given, Fraction):
        return sympy.Rational(whole(given.numerator, name), whole(given.denominator, name))
    if not isinstance(given, sympy.Basic):
        how = "; write sympy.Eq(a, b) for a = b" if isinstance(given, bool) else ""
        raise wanted(name, "an expression or Eq of SymPy, an int or a Fraction", given, how)
    # A part that is none of SymPy's objects would be parsed when the whole is made anew.
    if not all(isinstance(part, sympy.Basic) for part in sympy.preorder_traversal(given)):
        raise TypeError(f"{name}: a part of it is no object of SymPy")
    if given == sympy.true:  # what SymPy makes of Eq(a, a)
        return sympy.Integer(0)
    if not isinstance(given, sympy.Expr | sympy.Equality):
        raise ValueError(f"{_told(given)} is no equation")
    if given.has(sympy.Float):
        raise ValueError(f"{_told(given)} has a float, which is not exact; write sympy.Rational")
    return sympy.expand(given.lhs - given.rhs if isinstance(given, sympy.Equality) else given)


def _told(given: Any) -> str:
    """An object of SymPy for a message; its class where it has numbers of more digits than Python prints."""
    try:
        return short(str(given))
    except ValueError:
        return type(given).__name__


def _linear(expression: Any, unknowns: dict[Any, Any], variable: Any) -> dict[Any, dict[int, Any]]:
    """The coefficients, by power of the variable, of each of the unknowns and of None for what stands without one, as whole numbers."""
    stand = {unknown: sympy.Dummy() for unknown in unknowns}
    rest = sympy.expand(expression.xreplace(stand))
    try:
        whole = sympy.Poly(rest, *stand.values(), variable, domain=sympy.QQ)
    except (sympy.PolynomialError, sympy.CoercionFailed) as wrong:
        what = f"a coefficient that is no polynomial in {_told(variable)} with rational coefficients"
        raise ValueError(f"{_told(expression)} has {what}") from wrong
    _, whole = whole.clear_denoms(convert=True)
    found: dict[Any, dict[int, Any]] = {}
    for powers, coefficient in whole.terms() if whole else ():
        places = [place for place, power in zip(unknowns.values(), powers) if power]
        if sum(powers[:-1]) > 1:
            raise ValueError(f"{_told(expression)} is not linear in the unknowns")
        found.setdefault(places[0] if places else None, {})[powers[-1]] = int(coefficient)
    return found


def _listed(powers: dict[int, Any], sign: int) -> list[int]:
    return [sign * powers.get(power, 0) for power in range(max(powers, default=-1) + 1)]


def _equation(expression: Any, functions: Sequence[Any], n: Any) -> Equation:
    unknowns = {}
    for applied in expression.atoms(AppliedUndef):
        block = sympy.expand(applied.args[0] - n) if len(applied.args) == 1 else None
        if applied.func not in functions or not isinstance(block, sympy.Integer):
            raise ValueError(f"{_told(applied)} is not one of the unknowns at {_told(n)} plus an integer")
        unknowns[applied] = (int(block), functions.index(applied.func) + 1)
    found = _linear(expression, unknowns, n)
    right = found.pop(None, {})
    return Equation({place: _listed(powers, 1) for place, powers in found.items()}, _listed(right, -1))


def _differential(given: Any, functions: Sequence[Any], x: Any) -> dict[tuple[int, int, int], int]:
    expression = sympy.expand(given.doit())
    unknowns = {}
    for derivative in expression.atoms(sympy.Derivative):
        if derivative.expr not in [f(x) for f in functions] or any(variable != x for variable in derivative.variables):
            raise ValueError(f"{_told(derivative)} is not a derivative of one of the unknowns by {_told(x)}")
        unknowns[derivative] = (len(derivative.variables), functions.index(derivative.expr.func) + 1)
    for applied in expression.atoms(AppliedUndef):
        if applied.func not in functions or applied.args != (x,):
            raise ValueError(f"{_told(applied)} is not one of the unknowns at {_told(x)}")
        unknowns[applied] = (0, functions.index(applied.func) + 1)
    found = _linear(expression, unknowns, x)
    if None in found:
        raise ValueError(f"{_told(expression)} has a right side, and a differential sheet has none")
    return {(k, j, c): a for (k, c), powers in found.items() for j, a in powers.items()}
