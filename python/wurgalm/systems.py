"""Systems: equations with polynomial coefficients and right sides, relations, and the stores that hold them."""
from collections.abc import Callable, Iterable, Mapping, Sequence
from dataclasses import dataclass
from typing import Any, TypeAlias

from . import library
from .arguments import instance, members, pair, shown, wanted, whole
from .library import BLOCKS, COEFFICIENTS, COLUMNS, EQUATIONS, RELATION, RELATIONS, RIGHT_SIDE, ROW
from .refusals import Refused

#: The coefficients of a polynomial in n from power 0 upward, the last of them not 0; none for the zero polynomial.
Polynomial: TypeAlias = tuple[int, ...]
Place: TypeAlias = tuple[int, int]


_LIMIT = 2**28 - 1  # of a coefficient and of n0 (SCOPE 1.4)
_FARTHEST = 64  # of a block (SCOPE 1.2)


def polynomial(coefficients: Iterable[int]) -> Polynomial:
    """The coefficients without zeros past the last that counts.

    >>> polynomial([0, 1, 0])
    (0, 1)
    >>> polynomial([0.5])
    Traceback (most recent call last):
    TypeError: coefficients[0]: an int is wanted, not float
    """
    return listed(coefficients, "coefficients")


def listed(coefficients: Any, name: str) -> Polynomial:
    """The polynomial of these coefficients; a message calls them by the name."""
    found = list(members(coefficients, name))
    if any(type(coefficient) is not int for coefficient in found):
        found = [whole(coefficient, f"{name}[{power}]") for power, coefficient in enumerate(found)]
    return _trimmed(found)


def _trimmed(coefficients: list[int]) -> Polynomial:
    while coefficients and coefficients[-1] == 0:
        coefficients.pop()
    return tuple(coefficients)


def value(coefficients: Polynomial, n: int) -> int:
    """The value of a polynomial at n.

    >>> value((1, 0, 2), 3)
    19
    """
    return _value(polynomial(coefficients), whole(n, "n"))


def _value(coefficients: Polynomial, n: int) -> int:
    total = 0
    for coefficient in reversed(coefficients):
        total = total * n + coefficient
    return total


@dataclass(frozen=True)
class Equation:
    """The polynomials of an equation by block and column, and its right side (SCOPE 1.3): the sum of p(n) z(n + block, column) is right(n).

    >>> Equation({(1, 1): [0, 1], (0, 2): [-1]})
    Equation(terms={(1, 1): (0, 1), (0, 2): (-1,)}, right=())
    >>> Equation({(1, 1): [0, 0]}) == Equation({})
    True
    """

    terms: Mapping[Place, Polynomial]
    right: Polynomial = ()

    def __init__(self, terms: Mapping[Place, Iterable[int]], right: Iterable[int] = ()) -> None:
        given = instance(terms, Mapping, "terms", "; its keys are blocks with columns, its values coefficients")
        found = {(place := _place(key)): listed(p, f"terms[{_told(place)}]") for key, p in given.items()}
        if len(found) < len(given):
            raise ValueError("terms: a block and column is there twice")
        ordered = sorted(found, key=lambda place: (-place[0], place[1]))
        object.__setattr__(self, "terms", {place: found[place] for place in ordered if found[place]})
        object.__setattr__(self, "right", listed(right, "right"))

    def __hash__(self) -> int:
        return hash((tuple(self.terms.items()), self.right))

    def sum(self, n: int, vector: Mapping[int, Sequence[int]]) -> int:
        """The sum at n minus the right side there, for a sequence that has `vector[i]` at index i.

        >>> Equation({(1, 1): [0, 1], (0, 2): [-1]}, [3]).sum(2, {2: (1, 5), 3: (4, 0)})
        0
        """
        n = whole(n, "n")
        total = sum(_value(p, n) * _at(vector, n + block, column) for (block, column), p in self.terms.items())
        return total - _value(self.right, n)


@dataclass(frozen=True)
class Relation:
    """An equation that is asked at one index n0 only (SCOPE 1.21)."""

    n0: int
    equation: Equation

    def __post_init__(self) -> None:
        object.__setattr__(self, "n0", whole(self.n0, "n0"))
        instance(self.equation, Equation, "equation")


@dataclass(frozen=True)
class System:
    """A system of so many unknowns with blocks from `lowest` to `highest` (SCOPE 1.1, 1.2); `order` is the column order of an output.

    Equations are given as `Equation`, as a mapping of its terms, or as a pair of such a mapping and a right side; relations as `Relation`
    or as a pair of n0 and an equation.

    >>> k2 = System(2, 1, 0, [{(1, 1): [0, 1], (0, 2): [-1]}, {(1, 1): [1], (0, 1): [-1]}])
    >>> k2.equations[0].terms
    {(1, 1): (0, 1), (0, 2): (-1,)}
    >>> System.of_lists(1, [[[[0, 1], []], [[], [-1]]], [[[1], []], [[-1], []]]]) == k2
    True
    """

    unknowns: int
    highest: int
    lowest: int
    equations: tuple[Equation, ...] = ()
    relations: tuple[Relation, ...] = ()
    order: tuple[int, ...] = ()

    def __init__(
        self,
        unknowns: int,
        highest: int,
        lowest: int,
        equations: Iterable[Any] = (),
        relations: Iterable[Any] = (),
        order: Iterable[int] = (),
    ) -> None:
        for name, number in (("unknowns", unknowns), ("highest", highest), ("lowest", lowest)):
            object.__setattr__(self, name, whole(number, name))
        object.__setattr__(self, "equations", each(_equation, equations, "equations"))
        object.__setattr__(self, "relations", each(_relation, relations, "relations"))
        object.__setattr__(self, "order", each(whole, order, "order"))

    @staticmethod
    def of_lists(
        highest: int,
        rows: Sequence[Sequence[Sequence[Iterable[int]]]],
        right_sides: Sequence[Iterable[int]] = (),
        relations: Iterable[Any] = (),
        order: Iterable[int] = (),
    ) -> "System":
        """The system of lists: for each equation the blocks from the highest downward, for each block a list of coefficients for each
        column. All equations have as many blocks, and all blocks as many columns. Right sides that are not given are 0.

        >>> System.of_lists(1, [[[[0, 1]], [[-1]]]], [[2]]).equations
        (Equation(terms={(1, 1): (0, 1), (0, 1): (-1,)}, right=(2,)),)
        """
        highest = whole(highest, "highest")
        table = each(lambda row, name: each(members, row, name), rows, "rows")
        blocks, columns = {len(row) for row in table}, {len(block) for row in table for block in row}
        if len(blocks) != 1 or len(columns) != 1:
            raise ValueError("rows: there is no equation, or the equations have not all the same blocks and columns")
        (depth,), (unknowns,) = blocks, columns
        sides = list(members(right_sides, "right_sides"))
        if len(sides) > len(table):
            raise ValueError(f"right_sides: there are {len(sides)}, and {len(table)} equations")
        sides += [()] * (len(table) - len(sides))
        equations = [
            Equation({(highest - b, c): p for b, block in enumerate(row) for c, p in enumerate(block, 1)}, side)
            for row, side in zip(table, sides)
        ]
        return System(unknowns, highest, highest - depth + 1, equations, relations, order)

    def lists(self) -> tuple[list[list[list[list[int]]]], list[list[int]]]:
        """The rows and the right sides of the equations as lists, as `of_lists` takes them.

        >>> System(1, 1, 0, [({(1, 1): [0, 1], (0, 1): [-1]}, [2])]).lists()
        ([[[[0, 1]], [[-1]]]], [[2]])
        """
        blocks, columns = range(self.highest, self.lowest - 1, -1), range(1, self.unknowns + 1)
        rows = [[[list(e.terms.get((b, c), ())) for c in columns] for b in blocks] for e in self.equations]
        return rows, [list(e.right) for e in self.equations]

    def __str__(self) -> str:
        """The equations to be read, with the unknowns z1, z2 and so on.

        >>> print(System(2, 1, 0, [({(1, 1): [0, 1], (0, 2): [-1]}, [3])], [(4, {(0, 1): [1, -2]})], [1]))
        unknowns 2; blocks 1 to 0; order 1
        (n) z1(n+1) + (-1) z2(n) = 3
        at n = 4: (-2*n + 1) z1(n) = 0
        """
        order = " ".join(map(str, self.order)) or "none"
        lines = [f"unknowns {self.unknowns}; blocks {self.highest} to {self.lowest}; order {order}"]
        lines += map(_shown, self.equations)
        lines += [f"at n = {relation.n0}: {_shown(relation.equation)}" for relation in self.relations]
        return "\n".join(lines)


def each(judged: Callable[[Any, str], Any], given: Any, name: str) -> tuple[Any, ...]:
    """What each member of a list is judged to be. A message says which member it is about."""
    found = []
    for number, member in enumerate(members(given, name)):
        where = f"{name}[{number}]"
        try:
            found.append(judged(member, where))
        except (TypeError, ValueError) as wrong:
            if isinstance(wrong, Refused) or str(wrong).startswith(where):
                raise
            raise (TypeError if isinstance(wrong, TypeError) else ValueError)(f"{where}: {wrong}") from None
    return tuple(found)


def _equation(given: Any, name: str) -> Equation:
    if isinstance(given, Equation):
        return given
    if isinstance(given, Mapping):
        return Equation(given)
    if not isinstance(given, tuple | list):
        raise wanted(name, "an Equation, a mapping of its terms or a pair of that and a right side", given)
    return Equation(*pair(given, name, "the terms and the right side"))


def _relation(given: Any, name: str) -> Relation:
    if isinstance(given, Relation):
        return given
    n0, equation = pair(given, name, "n0 and an equation")
    return Relation(n0, _equation(equation, f"{name}[1]"))


def _place(given: Any) -> Place:
    block, column = pair(given, "terms", "block and column")
    block, column = whole(block, "terms: a block"), whole(column, "terms: a column")
    if column < 1:
        raise ValueError(f"terms: columns count from 1, and {shown(column)} is given")
    return block, column


def _told(place: Place) -> str:
    return ", ".join(map(shown, place))


def _at(vector: Any, i: int, column: int) -> Any:
    """What a sequence has at an index and column. A list has nothing below 0, where Python would count from its end."""
    if not hasattr(vector, "__getitem__"):
        raise wanted("vector", "a mapping from indices to vectors, or a list of vectors from index 0 on", vector)
    try:
        if i >= 0 or isinstance(vector, Mapping) or not hasattr(vector, "__len__"):
            return vector[i][column - 1]
    except (LookupError, TypeError):
        pass
    raise ValueError(f"vector: there is none at index {shown(i)} and column {shown(column)}")


def _shown(equation: Equation) -> str:
    terms = [f"({_in_n(p)}) z{column}({'n' if block == 0 else f'n{block:+}'})" for (block, column), p in equation.terms.items()]
    return f"{' + '.join(terms) or '0'} = {_in_n(equation.right)}"


def _in_n(p: Polynomial) -> str:
    shown = ""
    for power in reversed(range(len(p))):
        if p[power]:
            factor = {0: "", 1: "n"}.get(power, f"n^{power}")
            size = "*".join(filter(None, [str(abs(p[power])) if abs(p[power]) != 1 or not factor else "", factor]))
            sign = "-" if p[power] < 0 else "+"
            shown += f" {sign} {size}" if shown else f"{'-' if sign == '-' else ''}{size}"
    return shown or "0"


class Stores:
    """The row store, the relation store and the sizes of a system, as the calls take them (SCOPE 3.2, 3.4), lent
    to one call; they belong to no other object."""

    def __init__(self, system: System) -> None:
        self.unknowns = library.size(system.unknowns, "unknowns")
        self.highest = library.word(system.highest, 2, "highest")
        self.lowest = library.word(system.lowest, 2, "lowest")
        self.equations = len(system.equations)
        self.count = len(system.relations)
        self.given = system
        self.rows = library.zeros(ROW * max(self.equations, EQUATIONS))
        self.relations = library.zeros(RELATION * max(self.count, RELATIONS))
        for number, equation in enumerate(system.equations):
            self._put(self.rows, number * ROW, equation, f"equations[{number}]")
        for number, relation in enumerate(system.relations):
            name = f"relations[{number}]"
            self.relations[number * RELATION] = library.word(relation.n0, 5, f"{name}.n0")
            self._put(self.relations, number * RELATION + 1, relation.equation, f"{name}.equation")

    def _put(self, store: Any, begin: int, equation: Equation, name: str) -> None:
        for (block, column), p in equation.terms.items():
            # What has no place in the store is out of range, as it would be in a sheet.
            if not self.lowest <= block <= self.highest < block + BLOCKS:
                raise Refused.of(2, f"{name} has the block {shown(block)}")
            if not 1 <= column <= min(self.unknowns, COLUMNS):
                raise Refused.of(2, f"{name} has the column {shown(column)}")
            at = begin + ((self.highest - block) * COLUMNS + column - 1) * COEFFICIENTS
            _put(store, at, p, f"{name}.terms[{_told((block, column))}]")
        _put(store, begin + RIGHT_SIDE, equation.right, f"{name}.right")

    def __reduce__(self) -> Any:
        raise TypeError("Stores: a copy would share them; make others of the system")

    def arguments(self) -> tuple[Any, ...]:
        """The stores and sizes in the order in which every call on a system takes them."""
        return self.rows, self.relations, self.unknowns, self.equations, self.highest, self.lowest, self.count

    def call(self, name: str, *others: Any, told: Mapping[int, str] | None = None) -> None:
        """The call of this name on the system."""
        number = library.number(name, *self.arguments(), *others)
        if number:
            raise self.refused(number, told)

    def refused(self, number: int, told: Mapping[int, str] | None = None) -> Refused:
        """The refusal of a call, with the argument of the system that explains it, or what is told of the others."""
        return Refused.of(number, _blamed(self.given, number) or (told or {}).get(number, ""))

    def system(self, equations: int, count: int, order: Iterable[int] = ()) -> System:
        """The system that the stores hold, with so many equations and relations."""
        return held(self.rows, self.relations, self.unknowns, equations, self.highest, self.lowest, count, order)


def _put(store: Any, at: int, p: Polynomial, name: str) -> None:
    if len(p) > COEFFICIENTS:
        raise Refused.of(2, f"{name} has {len(p)} coefficients")
    for power, coefficient in enumerate(p):
        store[at + power] = library.word(coefficient, 5, f"{name}[{power}]")


def _blamed(system: System, number: int) -> str:
    """The first argument that explains a refusal with 2 or 5; nothing where none of the system's does."""
    if number == 2:
        equations, relations = len(system.equations), len(system.relations)
        faults = [
            (1 <= system.unknowns <= COLUMNS, f"unknowns is {system.unknowns}"),
            (equations <= EQUATIONS, f"there are {equations} equations"),
            (abs(system.highest) <= _FARTHEST, f"highest is {system.highest}"),
            (abs(system.lowest) <= _FARTHEST, f"lowest is {system.lowest}"),
            (0 <= system.highest - system.lowest < BLOCKS, f"highest is {system.highest} and lowest {system.lowest}"),
            (relations <= RELATIONS, f"there are {relations} relations"),
        ]
        return next((told for holds, told in faults if not holds), "")
    if number == 5:
        numbers = [(f"equations[{i}]{where}", a) for i, e in enumerate(system.equations) for where, a in _numbers(e)]
        for i, relation in enumerate(system.relations):
            numbers.append((f"relations[{i}].n0", relation.n0))
            numbers += [(f"relations[{i}].equation{where}", a) for where, a in _numbers(relation.equation)]
        return next((f"{name} is {a}" for name, a in numbers if abs(a) > _LIMIT), "")
    return ""


def _numbers(equation: Equation) -> Iterable[tuple[str, int]]:
    for (block, column), p in equation.terms.items():
        yield from ((f".terms[{_told((block, column))}][{power}]", a) for power, a in enumerate(p))
    yield from ((f".right[{power}]", a) for power, a in enumerate(equation.right))


def held(
    rows: Any, relations: Any, unknowns: int, equations: int, highest: int, lowest: int, count: int, order: Iterable[int]
) -> System:
    """The system that a row store and a relation store hold."""

    places = [(block, column) for block in range(highest, lowest - 1, -1) for column in range(1, unknowns + 1)]

    def equation(store: Any, begin: int) -> Equation:
        """What the library has written is right as it stands, so it is not judged as what a caller gives."""
        found = object.__new__(Equation)
        row, terms = store[begin:begin + ROW], {}
        for block, column in places:
            at = ((highest - block) * COLUMNS + column - 1) * COEFFICIENTS
            p = _trimmed(row[at:at + COEFFICIENTS])
            if p:
                terms[block, column] = p
        object.__setattr__(found, "terms", terms)
        object.__setattr__(found, "right", _trimmed(row[RIGHT_SIDE:]))
        return found

    listed = [Relation(relations[i * RELATION], equation(relations, i * RELATION + 1)) for i in range(count)]
    columns = [column for column in order if column]
    return System(unknowns, highest, lowest, [equation(rows, i * ROW) for i in range(equations)], listed, columns)
