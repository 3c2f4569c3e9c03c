"""Elimination logs: the steps of a leading run, or of an elimination elsewhere (SCOPE 13.1, 13.2)."""
from collections.abc import Iterable, Sequence
from dataclasses import dataclass
from itertools import zip_longest
from typing import Any, TypeAlias

from .arguments import instance, members, short, shown, wanted, whole
from .library import COEFFICIENTS, COLUMNS, LOG_STEP
from .refusals import Refused
from .systems import Polynomial, each, listed


class _Rows:
    """A step whose fields are numbers of rows."""

    def __post_init__(self) -> None:
        for name in self.__dataclass_fields__:  # type: ignore[attr-defined]
            object.__setattr__(self, name, whole(getattr(self, name), name))


@dataclass(frozen=True)
class Exchange(_Rows):
    """Rows i and j change places."""

    i: int
    j: int


@dataclass(frozen=True)
class Combine:
    """Row i becomes (g × row i + h × row j) / integer, after it was listed as a relation at each integer root of g."""

    i: int
    j: int
    integer: int
    g: Polynomial
    h: Polynomial

    def __init__(self, i: int, j: int, integer: int, g: Iterable[int], h: Iterable[int]) -> None:
        for name, number in (("i", i), ("j", j), ("integer", integer)):
            object.__setattr__(self, name, whole(number, name))
        object.__setattr__(self, "g", listed(g, "g"))
        object.__setattr__(self, "h", listed(h, "h"))


@dataclass(frozen=True)
class Up(_Rows):
    """Each block of row i moves up, with n + 1 for n."""

    i: int


@dataclass(frozen=True)
class Down(_Rows):
    """Each block of row i moves down, with n - 1 for n."""

    i: int


@dataclass(frozen=True)
class Drop(_Rows):
    """Row i, which is zero, is left out."""

    i: int


Step: TypeAlias = Exchange | Combine | Up | Down | Drop
_KINDS: list[type] = [Exchange, Combine, Up, Down, Drop]


@dataclass(frozen=True)
class Log:
    """Steps, and the columns in whose order the leading matrix is triangular behind them. Its text has a line for each step.

    >>> log = Log.parse("up 2\\ncombine 2 1 1 1 2 2 0 -1\\norder 1 2\\n")
    >>> log.steps
    (Up(i=2), Combine(i=2, j=1, integer=1, g=(2,), h=(0, -1)))
    >>> print(log, end="")
    up 2
    combine 2 1 1 1 2 2 0 -1
    order 1 2
    """

    steps: tuple[Step, ...]
    order: tuple[int, ...]

    def __init__(self, steps: Iterable[Step], order: Iterable[int]) -> None:
        object.__setattr__(self, "steps", each(_judged, steps, "steps"))
        object.__setattr__(self, "order", each(whole, order, "order"))

    def numbers(self) -> list[int]:
        """The numbers of the store: 36 for each step, and four for the order (SCOPE 13.11)."""
        if len(self.order) > COLUMNS:
            raise Refused.of(13, f"order has {len(self.order)} columns")
        found = [number for step in self.steps for number in _numbers(step)]
        return found + _padded(self.order, COLUMNS)

    @staticmethod
    def of_numbers(steps: int, numbers: Sequence[int]) -> "Log":
        """The log of so many steps at the beginning of a store that `run_logged` has written; else a ValueError."""
        count = whole(steps, "steps")
        behind = count * LOG_STEP
        given = [whole(number, "numbers") for number in members(numbers, "numbers")]
        if count < 0 or len(given) < behind + COLUMNS:
            told = f"there are {len(given)}, and {shown(count)} steps have 36 each, with four behind them"
            raise ValueError(f"numbers: {told}")
        order = given[behind:behind + COLUMNS]
        found = Log([_step(given[at:at + LOG_STEP]) for at in range(0, behind, LOG_STEP)], filter(None, order))
        if found.numbers() != given[:behind + COLUMNS]:
            raise ValueError("numbers: a kind, an order or a field that a step does not use is not as in a log")
        return found

    def __str__(self) -> str:
        lines = [*map(_line, self.steps), " ".join(["order", *map(str, self.order)]), ""]
        return "\n".join(lines)

    @staticmethod
    def parse(text: str) -> "Log":
        """The log of a text, in exactly the form in which it is written. What is none is a ValueError.

        >>> Log.parse("up +1\\norder 1\\n")
        Traceback (most recent call last):
        ValueError: text: line 1, `up +1`, is not as a log writes it; right would be `up 1`
        """
        *steps, order = instance(text, str, "text").splitlines() or [""]
        words = order.split()
        if words[:1] != ["order"]:
            raise ValueError("text: the last line of a log is `order` and the columns")
        lines = enumerate(steps, 1)
        found = Log([_parsed(line, number) for number, line in lines], _integers(words[1:], order, len(steps) + 1))
        given, written = text.split("\n"), str(found).split("\n")
        for number, (line, right) in enumerate(zip_longest(given, written, fillvalue=""), 1):
            if line != right:
                told = f"line {number}, `{short(line)}`, is not as a log writes it"
                raise ValueError(f"text: {told}; right would be `{short(right)}`")
        if len(given) != len(written):
            raise ValueError("text: the line end behind `order` and the columns is missing: the log may have been cut")
        return found


def _judged(given: Any, name: str) -> Step:
    if type(given) not in _KINDS:
        raise wanted(name, "a step (Exchange, Combine, Up, Down or Drop)", given, "; Log.parse reads a text")
    return given


def _padded(numbers: Sequence[int], length: int) -> list[int]:
    return [*numbers, *([0] * (length - len(numbers)))]


def _numbers(step: Step) -> list[int]:
    kind = _KINDS.index(type(step)) + 1
    if isinstance(step, Combine):
        if max(len(step.g), len(step.h)) > COEFFICIENTS:
            raise Refused.of(13, "g or h has more than 16 coefficients")
        return [kind, step.i, step.j, step.integer, *_padded(step.g, COEFFICIENTS), *_padded(step.h, COEFFICIENTS)]
    return _padded([kind, step.i, step.j] if isinstance(step, Exchange) else [kind, step.i], LOG_STEP)


def _step(numbers: Sequence[int]) -> Step:
    kind, i, j, integer = numbers[:4]
    g, h = numbers[4:4 + COEFFICIENTS], numbers[4 + COEFFICIENTS:]
    match kind:
        case 1:
            return Exchange(i, j)
        case 2:
            return Combine(i, j, integer, g, h)
        case 3:
            return Up(i)
        case 4:
            return Down(i)
        case _:
            return Drop(i)


def _line(step: Step) -> str:
    words = [type(step).__name__.lower(), step.i]
    if isinstance(step, Exchange | Combine):
        words.append(step.j)
    if isinstance(step, Combine):
        words += [step.integer, len(step.g), *step.g, len(step.h), *step.h]
    return " ".join(map(str, words))


def _parsed(line: str, at: int) -> Step:
    kind, *words = line.split() or [""]
    numbers = _integers(words, line, at)
    if kind == "exchange" and len(numbers) == 2:
        return Exchange(*numbers)
    if kind in ("up", "down", "drop") and len(numbers) == 1:
        return {"up": Up, "down": Down, "drop": Drop}[kind](*numbers)
    if kind == "combine" and len(numbers) >= 5:
        g, rest = _counted(numbers[3:])
        h, rest = _counted(rest or [])
        if rest == []:
            return Combine(*numbers[:3], g, h)
    raise _no_step(line, at)


def _integers(words: list[str], line: str, at: int) -> list[int]:
    try:
        return [int(word) for word in words]
    except ValueError:
        raise _no_step(line, at) from None


def _no_step(line: str, at: int) -> ValueError:
    return ValueError(f"text: line {at}, `{short(line)}`, is no line of a log")


def _counted(numbers: list[int]) -> tuple[list[int], list[int] | None]:
    """So many numbers as the first of them says, and those behind them; None where they are not so many."""
    if not numbers or not 0 <= numbers[0] < len(numbers):
        return [], None
    return numbers[1:numbers[0] + 1], numbers[numbers[0] + 1:]
