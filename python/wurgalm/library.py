"""The shared library, found and called. Stores are ctypes arrays of 64-bit numbers or of bytes, lent by length.
Each call makes its own, and no object keeps one, so that threads share none."""
import ctypes
import os
from collections.abc import Iterable
from pathlib import Path
from typing import Any

from .arguments import shown, wanted
from .refusals import Refused

ROW = 336
RELATION = 337
EQUATIONS = 6
RELATIONS = 16
COEFFICIENTS = 16
COLUMNS = 4
BLOCKS = 5
RIGHT_SIDE = BLOCKS * COLUMNS * COEFFICIENTS
LOG_STEP = 4 + 2 * COEFFICIENTS
LOG_STEPS = 1_000
LIST = 64 * 64
MATRIX = 136 * 64

_SHARED = "libwurgalm.so"
_HOW = (
    "run `tools/build` and then `pip install --no-index python/` in the repository, "
    "or name a shared library in WURGALM_LIBRARY"
)
_OCTETS = "bytes (or a buffer of unsigned bytes)"
_SIZES = "ziiz"  # after m: equations, l, t, count

# The arguments of each function: `n` a store of numbers, `b` a store of bytes, `i` a signed number, `z` a size. Whether the function
# writes a store stands in include/wurgalm.h.
_FUNCTIONS = {
    "run_leading": "nnz" + _SIZES + "n",
    "run_trailing": "nnz" + _SIZES + "n",
    "read_sheet": "bnnn",
    "write_sheet": "nnz" + _SIZES + "nbn",
    "read_differential": "bnnn",
    "write_recurrence": "bbn",
    "check_record": "nnz" + _SIZES + "iznn",
    "prepare": "nnz" + _SIZES + "n",
    "run_steps": "nnnzn",
    "run_logged": "nnz" + _SIZES + "nn",
    "replay": "nnz" + _SIZES + "znn",
    "solutions": "nnz" + _SIZES + "nnnnn",
    "batch": "bbn",
}
_NUMBERS = ctypes.POINTER(ctypes.c_int64)
_BYTES = ctypes.POINTER(ctypes.c_uint8)
_TYPES: dict[str, list[Any]] = {
    "n": [_NUMBERS, ctypes.c_size_t],
    "b": [_BYTES, ctypes.c_size_t],
    "i": [ctypes.c_int64],
    "z": [ctypes.c_size_t],
}


def path() -> Path:
    """Where the shared library is: what WURGALM_LIBRARY names, or the one that was installed with the package."""
    named = os.environ.get("WURGALM_LIBRARY", "")
    return Path(named) if named and not named.endswith(".a") else Path(__file__).with_name(_SHARED)


def _loaded() -> tuple[ctypes.CDLL | None, str]:
    """The library with its functions declared; or none, and the sentence that says what to do."""
    found = path()
    if not found.is_file():
        return None, f"{found} is not there: {_HOW}"
    try:
        library = ctypes.CDLL(str(found))
        for name, arguments in _FUNCTIONS.items():
            function = getattr(library, f"wurgalm_{name}")
            function.argtypes = [kind for argument in arguments for kind in _TYPES[argument]]
            function.restype = ctypes.c_uint8
    except (OSError, AttributeError) as wrong:
        return None, f"{found} is not the shared library of wurgalm ({wrong}): {_HOW}"
    return library, ""


_LIBRARY, MISSING = _loaded()


def number(name: str, *arguments: Any) -> int:
    """What a function returns: 0, or the number of its refusal. A store is an array, which is lent with its length.

    >>> number("read_sheet", octets(b"3 1 0 0"), zeros(ROW), zeros(1), zeros(9))
    4
    """
    lent: list[Any] = []
    for kind, argument in zip(_FUNCTIONS[name], arguments, strict=True):
        if kind in "nb":
            # An array of no members has no place of its own: the pointer is that of another, and the length is 0.
            spare = (ctypes.c_int64 if kind == "n" else ctypes.c_uint8) * 1
            lent += [argument if len(argument) else spare(), len(argument)]
        else:
            lent.append(argument)
    return int(getattr(_LIBRARY, f"wurgalm_{name}")(*lent))


def call(name: str, *arguments: Any) -> None:
    """The call, with a refusal as an exception."""
    refusal = number(name, *arguments)
    if refusal:
        raise Refused.of(refusal)


def zeros(length: int) -> "ctypes.Array[ctypes.c_int64]":
    """A store of so many numbers, all 0."""
    return (ctypes.c_int64 * length)()


def numbers(values: Iterable[int], refusal: int, name: str) -> "ctypes.Array[ctypes.c_int64]":
    """A store of these numbers. A number past 64 bits gets the refusal that the call would give to one past its limit."""
    members = [word(value, refusal, name) for value in values]
    return (ctypes.c_int64 * len(members))(*members)


def octets(data: Any, name: str = "data") -> "ctypes.Array[ctypes.c_uint8]":
    """A store of these bytes: a copy, so that the call has them as they are now.

    >>> import array
    >>> octets(array.array("H", [3]))
    Traceback (most recent call last):
    TypeError: data: bytes (or a buffer of unsigned bytes) is wanted, not array
    """
    try:
        view = memoryview(data)
    except TypeError:
        raise wanted(name, _OCTETS, data, "; encode it" if isinstance(data, str) else "") from None
    # Members of two bytes would count as one each, and other shapes and orders are not the bytes of a text.
    if view.format != "B" or view.ndim != 1 or not view.c_contiguous:
        raise wanted(name, _OCTETS, data)
    found = view.tobytes()
    return (ctypes.c_uint8 * len(found)).from_buffer_copy(found)


def word(value: int, refusal: int, name: str) -> int:
    """The number, where it has a place in 64 bits; else the refusal, which names it."""
    if not -(2**63) <= value < 2**63:
        raise Refused.of(refusal, f"{name} is {shown(value)}")
    return value


def size(value: int, name: str) -> int:
    """The number as a size: one below 0 or past 64 bits is out of every range."""
    if not 0 <= value < 2**63:
        raise Refused.of(2, f"{name} is {shown(value)}")
    return value
