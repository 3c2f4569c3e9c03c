"""Differential equations in the variable x, with polynomials in x as coefficients, and their sheets (SCOPE 10.1 to 10.7)."""
from collections.abc import Iterable, Mapping
from dataclasses import dataclass
from typing import Any, TypeAlias

from . import library
from .arguments import instance, members, whole
from .systems import each

#: The derivative, the power of x and the column of a term.
TermPlace: TypeAlias = tuple[int, int, int]


@dataclass(frozen=True)
class Differential:
    """Equations of so many unknowns with derivatives up to `derivatives` and powers of x up to `powers`. An equation has a factor for each
    derivative, power and column: {(2, 0, 1): 1, (0, 1, 1): -1} is Airy's, y'' - x y = 0.

    >>> airy = Differential(1, 2, 1, [{(2, 0, 1): 1, (0, 1, 1): -1}])
    >>> airy.sheet()
    b'3 1 2 1\\n1\\n2 2 0 1 1 0 1 1 -1\\n'
    >>> Differential.of_sheet(airy.sheet()) == airy
    True
    """

    unknowns: int
    derivatives: int
    powers: int
    equations: tuple[Mapping[TermPlace, int], ...]

    def __init__(self, unknowns: int, derivatives: int, powers: int, equations: Iterable[Mapping[TermPlace, int]]) -> None:
        for name, number in (("unknowns", unknowns), ("derivatives", derivatives), ("powers", powers)):
            object.__setattr__(self, name, whole(number, name))
        object.__setattr__(self, "equations", each(_ordered, equations, "equations"))

    def __hash__(self) -> int:
        return hash((self.unknowns, self.derivatives, self.powers, tuple(tuple(e.items()) for e in self.equations)))

    def sheet(self) -> bytes:
        """The differential sheet. Whether its numbers are within their ranges is for `read_differential` to say."""
        sizes = [(name, getattr(self, name)) for name in ("unknowns", "derivatives", "powers")]
        lines = [[3, *(library.word(number, 2, name) for name, number in sizes)], [len(self.equations)]]
        for number, equation in enumerate(self.equations):
            line = [len(equation)]
            for place, factor in equation.items():
                line += [library.word(at, 2, f"a place of equations[{number}]") for at in place]
                line.append(library.word(factor, 5, f"a factor of equations[{number}]"))
            lines.append(line)
        return "".join(f"{' '.join(map(str, line))}\n" for line in lines).encode()

    @staticmethod
    def of_sheet(data: bytes) -> "Differential":
        """The equations of a differential sheet, after the library has judged it."""
        from .calls import read_differential

        given = bytes(library.octets(data))
        read_differential(given)
        first, _, *lines = [[int(word) for word in line.split()] for line in given.decode().splitlines()]
        equations = [{(line[at], line[at + 1], line[at + 2]): line[at + 3] for at in range(1, len(line), 4)} for line in lines]
        return Differential(*first[1:], equations)


def _ordered(equation: Any, name: str) -> Mapping[TermPlace, int]:
    given = instance(equation, Mapping, name, "; its keys are derivative, power and column, its values factors")
    found = {_place(place, name): whole(factor, f"{name}: a factor") for place, factor in given.items()}
    if len(found) < len(given):
        raise ValueError(f"{name}: a derivative, power and column is there twice")
    places = sorted(found, key=lambda place: (-place[0], place[1], place[2]))
    return {place: found[place] for place in places if found[place]}


def _place(given: Any, name: str) -> TermPlace:
    numbers = members(given, f"a place of {name}")
    if len(numbers) != 3:
        raise ValueError(f"{name}: a place is derivative, power and column, and one has {len(numbers)} members")
    k, j, c = (whole(number, f"{name}: a {what}") for number, what in zip(numbers, ("derivative", "power", "column")))
    return k, j, c
