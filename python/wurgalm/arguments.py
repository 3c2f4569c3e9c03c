"""What a caller gives, judged before it is used. A TypeError or a ValueError names the argument and what is wanted."""
from collections.abc import Iterable, Mapping
from operator import index
from typing import Any


_NO_LIST = str | bytes | bytearray | memoryview | Mapping | set | frozenset


def whole(given: Any, name: str) -> int:
    """The integer that was given under this name. A bool is none, though Python counts with it; a float is none.

    >>> whole(3, "unknowns")
    3
    >>> whole(1.9, "n0")
    Traceback (most recent call last):
    TypeError: n0: an int is wanted, not float
    """
    if not isinstance(given, bool):
        try:
            return index(given)
        except TypeError:
            pass
    raise wanted(name, "an int", given)


def members(given: Any, name: str) -> tuple[Any, ...]:
    """The members of a list, or of another iterable that has them in an order. Text, bytes, mappings and sets are
    refused: what they give one by one is not what they say.

    >>> members([1, 2], "order")
    (1, 2)
    >>> members(b"12", "order")
    Traceback (most recent call last):
    TypeError: order: a list is wanted, not bytes
    """
    if type(given) not in (list, tuple) and (isinstance(given, _NO_LIST) or not isinstance(given, Iterable)):
        raise wanted(name, "a list", given)
    return tuple(given)


def pair(given: Any, name: str, what: str) -> tuple[Any, Any]:
    """The two members of a pair.

    >>> pair((1, 2), "a term's place", "block and column")
    (1, 2)
    """
    found = members(given, name)
    if len(found) != 2:
        raise ValueError(f"{name}: {what} are wanted, and there are {len(found)} members")
    return found[0], found[1]


def instance(given: Any, kind: type, name: str, how: str = "") -> Any:
    """What was given, where it is of this class; `how` says what makes one.

    >>> instance("up 1", list, "steps", "; parse a text")
    Traceback (most recent call last):
    TypeError: steps: a list is wanted, not str; parse a text
    """
    if not isinstance(given, kind):
        raise wanted(name, f"a {kind.__name__}", given, how)
    return given


def wanted(name: str, what: str, given: Any, how: str = "") -> TypeError:
    """The exception that says what was wanted. Nothing of what was given is printed but the name of its class.

    >>> wanted("order", "a list", "1 2")
    TypeError('order: a list is wanted, not str')
    """
    return TypeError(f"{name}: {what} is wanted, not {type(given).__name__}{how}")


def shown(number: int) -> str:
    """An integer for a message, however large it is.

    >>> shown(-70), shown(2**70)
    ('-70', 'an integer of 71 bits')
    """
    return str(number) if number.bit_length() <= 64 else f"an integer of {number.bit_length()} bits"


def short(text: str) -> str:
    """A text for a message: without control characters, and cut where it is longer than a line.

    >>> short("up\\x1b 1"), len(short("1" * 1000))
    ('up? 1', 63)
    """
    plain = "".join(letter if letter.isprintable() else "?" for letter in text[:60])
    return plain if len(text) <= 60 else f"{plain} .."
