"""The calls of the library on systems. Each gives a new value and leaves its arguments as they are; a refusal is an
exception.

Differential equations are taken wherever a system is worked, as the recurrence for the coefficients of their series,
which the library makes (`read_differential`). Each call has stores of its own, so calls in several threads do not meet.
"""
import os
from collections.abc import Callable, Iterable, Iterator, Sequence
from dataclasses import dataclass
from functools import partial
from threading import Lock
from typing import Any, Literal
from weakref import WeakSet

from . import library
from .arguments import instance, shown, wanted, whole
from .differential import Differential
from .library import COLUMNS, EQUATIONS, LIST, LOG_STEP, LOG_STEPS, MATRIX, RELATION, RELATIONS, ROW
from .logs import Log
from .refusals import Refused
from .systems import Stores, System, each, held

_SHEET = 1 << 16  # bytes that are tried first for a written sheet
_ANSWER = 65_538  # bytes of the answer to a sheet of a batch, at most
_MOST_SHEETS = 1_000
_CLIENTS = 192  # bytes of the clients' lines


@dataclass(frozen=True)
class Run:
    """What a run leaves (SCOPE 3.52).

    `system` is the output with its relations and its column order; `shifts` is how many shifts were made; `root` is the last integer
    root of the diagonal (on the trailing side the first), or None, and `times` how often it occurs there.
    """

    system: System
    shifts: int
    root: int | None
    times: int

    @property
    def rank(self) -> int:
        """The number of rows that are left."""
        return len(self.system.equations)


def read_sheet(data: bytes) -> System:
    """The system of a sheet.

    >>> read_sheet(b"3 1 1 0\\n1\\n2 1 1 1 1 0 1 1 -2\\n0\\n0\\n")
    System(unknowns=1, highest=1, lowest=0, equations=(Equation(terms={(1, 1): (1,), (0, 1): (-2,)}, right=()),), relations=(), order=())
    >>> read_sheet(b"3 1 1 0\\n1\\n")
    Traceback (most recent call last):
    wurgalm.refusals.WrongEnd: refused with 4: the bytes end early, or go on behind the last section
    """
    return _read("read_sheet", data)


def read_differential(data: bytes | Differential) -> System:
    """The recurrence for the coefficients of the series that satisfy a differential sheet (SCOPE 10.33).

    >>> print(read_differential(b"3 1 2 1\\n1\\n2 2 0 1 1 0 1 1 -1\\n"))
    unknowns 1; blocks 2 to -1; order none
    (n^2 + 3*n + 2) z1(n+2) + (-1) z1(n-1) = 0
    """
    return _read("read_differential", data.sheet() if isinstance(data, Differential) else data)


def _worked(system: System | Differential) -> System:
    """The system that a call works: what was given, or the recurrence of what was given."""
    if isinstance(system, Differential):
        return read_differential(system)
    if not isinstance(system, System):
        raise wanted("system", "a System or a Differential", system, "; read_sheet makes a System of a sheet's bytes")
    return system


def _read(name: str, data: bytes) -> System:
    rows, relations, result = library.zeros(EQUATIONS * ROW), library.zeros(RELATIONS * RELATION), library.zeros(9)
    library.call(name, library.octets(data), rows, relations, result)
    unknowns, highest, lowest, count, *order, equations = result
    return held(rows, relations, unknowns, equations, highest, lowest, count, order)


def write_sheet(system: System) -> bytes:
    """The sheet of a system, with its order.

    >>> write_sheet(System(1, 1, 0, [({(1, 1): [1], (0, 1): [-2]}, [0, 5])]))
    b'3 1 1 0\\n1\\n2 1 1 1 1 0 1 1 -2\\n0\\n0\\n1\\n2 0 5\\n'
    """
    how = "; a Differential writes itself with sheet(), and its recurrence with write_recurrence"
    stores = Stores(instance(system, System, "system", how))
    told = f"order is {', '.join(map(shown, system.order))}"
    if len(system.order) > COLUMNS or 0 in system.order:
        raise Refused.of(2, told)
    order = library.numbers([*system.order, *([0] * (COLUMNS - len(system.order)))], 2, "order")
    write = partial(library.number, "write_sheet", *stores.arguments(), order)
    return _written(write, _SHEET, 1 << 22, lambda number: stores.refused(number, {2: told}))


def write_recurrence(data: bytes | Differential) -> bytes:
    """The recurrence of a differential sheet as a sheet.

    >>> write_recurrence(b"3 1 1 0\\n1\\n2 1 0 1 1 0 0 1 -1\\n")
    b'3 1 1 0\\n1\\n2 1 1 2 1 1 0 1 1 -1\\n0\\n0\\n'
    """
    sheet = library.octets(data.sheet() if isinstance(data, Differential) else data)
    return _written(partial(library.number, "write_recurrence", sheet), _SHEET, _SHEET)


def batch(data: bytes) -> bytes:
    """What the batch program writes for a batch, a broken one too (SCOPE 5.11, 5.21).

    >>> batch(b"1\\n2 14\\n3 1 0 0\\n0\\n0\\n0\\n").splitlines()[:2]
    [b'0', b'3 1 0 0']
    """
    most = _MOST_SHEETS * _ANSWER + _CLIENTS
    return _written(partial(library.number, "batch", library.octets(data)), 1 << 20, most)


def _written(
    write: Callable[..., int], length: int, most: int, refused: Callable[[int], Refused] = Refused.of
) -> bytes:
    """What a call writes, with a longer store as long as it says that the store is too short."""
    while True:
        output, result = library.octets(bytes(length)), library.zeros(1)
        refusal = write(output, result)
        if refusal == 0:
            return bytes(output[:result[0]])
        if refusal != 1 or length >= most:
            raise refused(refusal)
        length = min(8 * length, most)


def run(system: System | Differential, side: Literal["leading", "trailing"] = "leading") -> Run:
    """The elimination on one side.

    >>> k2 = System(2, 1, 0, [{(1, 1): [0, 1], (0, 2): [-1]}, {(1, 1): [1], (0, 1): [-1]}])
    >>> done = run(k2)
    >>> print(done.system)
    unknowns 2; blocks 1 to 0; order 1 2
    (-n - 1) z1(n+1) + (1) z2(n+1) = 0
    (n) z2(n+1) + (-n - 1) z2(n) = 0
    at n = 0: (1) z1(n+1) + (-1) z1(n) = 0
    at n = -1: (n) z1(n+1) + (-1) z2(n) = 0
    >>> done.rank, done.shifts, done.root, done.times
    (2, 1, 0, 1)
    >>> run(k2, "trailing").root is None
    True
    >>> print(run(Differential(1, 1, 0, [{(1, 0, 1): 1, (0, 0, 1): -1}])).system)
    unknowns 1; blocks 1 to 0; order 1
    (n + 1) z1(n+1) + (-1) z1(n) = 0
    """
    if side not in ("leading", "trailing"):
        raise ValueError("side: `leading` or `trailing` is wanted")
    stores, result = Stores(_worked(system)), library.zeros(10)
    stores.call(f"run_{side}", result)
    return _report(stores, result[:])


def run_leading(system: System | Differential) -> Run:
    """The elimination on the leading side."""
    return run(system)


def run_trailing(system: System | Differential) -> Run:
    """The elimination on the trailing side."""
    return run(system, "trailing")


def _report(stores: Stores, numbers: Sequence[int]) -> Run:
    count, shifts, *columns, found, root, rank, times = numbers
    return Run(stores.system(rank, count, columns), shifts, root if found else None, times)


@dataclass(frozen=True)
class State:
    """The state of a run by steps, in the order of its eleven numbers (SCOPE 11.12).

    >>> State(2, 2, 1, 0, 0, 0, (1, 2, 3, 4, 1), 0)
    Traceback (most recent call last):
    ValueError: columns: a state has at most 4, and 5 are given
    """

    unknowns: int
    equations: int
    highest: int
    lowest: int
    relations: int
    settled: int
    columns: tuple[int, ...]
    shifts: int

    def __post_init__(self) -> None:
        columns = each(whole, self.columns, "columns")
        if len(columns) > COLUMNS:
            raise ValueError(f"columns: a state has at most {COLUMNS}, and {len(columns)} are given")
        if 0 in columns:
            raise ValueError("columns: they count from 1, and 0 is given")
        object.__setattr__(self, "columns", columns)
        for name in ("unknowns", "equations", "highest", "lowest", "relations", "settled", "shifts"):
            object.__setattr__(self, name, whole(getattr(self, name), name))

    def numbers(self) -> list[int]:
        """The eleven numbers."""
        columns = [*self.columns, *([0] * (COLUMNS - len(self.columns)))]
        return [self.unknowns, self.equations, self.highest, self.lowest, self.relations, self.settled, *columns, self.shifts]


@dataclass(frozen=True)
class Progress:
    """How far a run by steps has come: the steps that a call has taken, the system and the state behind them, and the whole run once it
    is at its end."""

    steps: int
    system: System
    state: State
    run: Run | None


class Steps:
    """A leading run by steps, of which no run takes more than 252 (SCOPE 11.26). As an iterator it gives the progress after each step.

    >>> k2 = System(2, 1, 0, [{(1, 1): [0, 1], (0, 2): [-1]}, {(1, 1): [1], (0, 1): [-1]}])
    >>> steps = prepare(k2)
    >>> [progress.state.settled for progress in steps]
    [1, 1, 1, 1, 2]
    >>> steps.progress.run == run(k2)
    True

    A run is its system and its state, which may be kept and handed in later:

    >>> half = prepare(k2).take(2)
    >>> Steps(half.system, half.state).take(252).run == run(k2)
    True

    Steps are taken by one thread at a time: while a call is under way, another one of the same run is a RuntimeError. A
    copy goes on by itself.
    """

    def __init__(self, system: System, state: State) -> None:
        """The run that goes on from this state. What no run can go on from is refused with 11."""
        self.__setstate__((run_steps(system, state, 0), None))

    @property
    def finished(self) -> bool:
        """Whether no row is left to settle."""
        return self.progress.run is not None

    def take(self, budget: int) -> Progress:
        """At most so many steps more. A refusal is given again by every later call."""
        if not self._taking.acquire(blocking=False):
            raise RuntimeError("take: another thread is taking steps of this run; give each thread a copy, or a lock")
        try:
            if self._refused is not None:
                raise self._refused
            self.progress = run_steps(self.progress.system, self.progress.state, budget)
            return self.progress
        except Refused as refusal:
            self._refused = refusal
            raise
        finally:
            self._taking.release()

    def __iter__(self) -> Iterator[Progress]:
        while not self.finished:
            yield self.take(1)

    def __getstate__(self) -> tuple[Progress, Refused | None]:
        """What a copy goes on from, by `copy` or `pickle`: all of it is values."""
        return self.progress, self._refused

    def __setstate__(self, kept: tuple[Progress, Refused | None]) -> None:
        self.progress, self._refused = kept
        self._free()
        _RUNS.add(self)

    def _free(self) -> None:
        self._taking = Lock()


_RUNS: "WeakSet[Steps]" = WeakSet()
if hasattr(os, "register_at_fork"):
    # A thread that was taking steps is not there in a forked process, and the run is as it was before its call.
    os.register_at_fork(after_in_child=lambda: [steps._free() for steps in _RUNS])


def prepare(system: System | Differential) -> Steps:
    """The leading run before its first step, with the checks of a run."""
    given, state = _worked(system), library.zeros(11)
    Stores(given).call("prepare", state)
    return Steps(given, State(*state[:6], (), 0))


def run_steps(system: System, state: State, budget: int) -> Progress:
    """At most so many steps of a leading run from a state, with the system that was left with that state."""
    how = "; `prepare` begins the run of differential equations"
    stores = Stores(instance(system, System, "system", how))
    limit = whole(budget, "budget")
    if limit < 0:
        raise ValueError(f"budget: at least 0 is wanted, not {shown(limit)}")
    _belonging(system, instance(state, State, "state"))
    numbers, result = library.numbers(state.numbers(), 11, "a number of state"), library.zeros(12)
    library.call("run_steps", stores.rows, stores.relations, numbers, min(limit, 2**63 - 1), result)
    unknowns, equations, highest, lowest, count, settled, *columns, shifts = numbers
    reached = held(stores.rows, stores.relations, unknowns, equations, highest, lowest, count, ())
    after = State(unknowns, equations, highest, lowest, count, settled, tuple(filter(None, columns)), shifts)
    return Progress(result[0], reached, after, _report(stores, result[2:]) if result[1] else None)


def _belonging(system: System, state: State) -> None:
    """A state says anew what its system has; where they differ, it is the state of another system."""
    sizes = (system.unknowns, len(system.equations), system.highest, system.lowest, len(system.relations))
    for name, of_system in zip(("unknowns", "equations", "highest", "lowest", "relations"), sizes):
        of_state = getattr(state, name)
        if of_state != of_system:
            raise Refused.of(11, f"state.{name} is {shown(of_state)}, and that of the system {shown(of_system)}")


@dataclass(frozen=True)
class Fits:
    """Every sum was zero; so many were tested."""

    tests: int


@dataclass(frozen=True)
class Misfit:
    """The first sum that is not zero: of an equation or a relation, with its number from 1 and its index."""

    kind: Literal["equation", "relation"]
    number: int
    index: int
    sum: int


def check_record(system: System | Differential, first: int, vectors: Sequence[Sequence[int]]) -> Fits | Misfit:
    """Whether the system explains the vectors that were recorded from an index on (SCOPE 12.22, 12.24).

    >>> doubling = System(1, 1, 0, [{(1, 1): [1], (0, 1): [-2]}])
    >>> check_record(doubling, 0, [[1], [2], [4]])
    Fits(tests=2)
    >>> check_record(doubling, 0, [[1], [2], [5]])
    Misfit(kind='equation', number=1, index=1, sum=1)
    """
    stores, result = Stores(_worked(system)), library.zeros(4)
    begin = library.word(whole(first, "first"), 2, "first")
    recorded = each(lambda vector, name: each(whole, vector, name), vectors, "vectors")
    for place, vector in enumerate(recorded):
        if len(vector) != stores.unknowns:
            raise ValueError(f"vectors[{place}]: it has {len(vector)} numbers, and the unknowns are {stores.unknowns}")
    values = library.numbers([number for vector in recorded for number in vector], 5, "a number of vectors")
    told = {2: f"first is {begin}, and there are {len(recorded)} vectors", 5: "a number of vectors is past 65536"}
    stores.call("check_record", begin, len(recorded), values, result, told=told)
    kind, number, at, total = result
    return Fits(number) if kind == 0 else Misfit("equation" if kind == 1 else "relation", number, at, total)


def run_logged(system: System | Differential) -> tuple[Run, Log]:
    """The elimination on the leading side, with the log of its steps.

    >>> done, log = run_logged(System(2, 0, 0, [{(0, 1): [0, 1], (0, 2): [1]}, {(0, 1): [2]}]))
    >>> print(log, end="")
    combine 2 1 2 2 0 1 1 -2
    order 1 2
    """
    stores, log, result = Stores(_worked(system)), library.zeros(LOG_STEP * LOG_STEPS + COLUMNS), library.zeros(11)
    stores.call("run_logged", log, result)
    return _report(stores, result[:10]), Log.of_numbers(result[10], log[:LOG_STEP * result[10] + COLUMNS])


def replay(system: System | Differential, log: Log) -> Run:
    """What the steps of a log lead to, from wherever they come, after each was tested (SCOPE 13.21 to 13.27).

    >>> k2 = System(2, 1, 0, [{(1, 1): [0, 1], (0, 2): [-1]}, {(1, 1): [1], (0, 1): [-1]}])
    >>> done, log = run_logged(k2)
    >>> replay(k2, log) == done
    True
    >>> replay(k2, Log(log.steps[1:], log.order))
    Traceback (most recent call last):
    wurgalm.refusals.WrongLog: refused with 13: a step of the log, or its end, is not right
    """
    stores, result = Stores(_worked(system)), library.zeros(10)
    steps = len(instance(log, Log, "log", "; Log.parse reads a text").steps)
    numbers = library.numbers(log.numbers(), 13, "a number of log")
    stores.call("replay", steps, numbers, result, told={2: f"log has {steps} steps"})
    return _report(stores, result[:])


@dataclass(frozen=True)
class Solutions:
    """The polynomial solutions of a system: `last` is the last index N, and each of `sequences` has the vectors at 0 to N."""

    last: int
    sequences: tuple[tuple[tuple[int, ...], ...], ...]

    def polynomial(self, sequence: int, column: int = 1) -> tuple[int, ...]:
        """The values of an unknown (from 1) in a sequence (from 0): the coefficients of x^0 to x^N."""
        which, unknown = whole(sequence, "sequence"), whole(column, "column")
        if not 0 <= which < len(self.sequences):
            raise ValueError(f"sequence: there are {len(self.sequences)}, counted from 0, and {shown(which)} is given")
        unknowns = len(self.sequences[which][0])
        if not 1 <= unknown <= unknowns:
            raise ValueError(f"column: there are {unknowns}, counted from 1, and {shown(unknown)} is given")
        return tuple(vector[unknown - 1] for vector in self.sequences[which])


def solutions(system: System | Differential) -> Solutions | None:
    """All sequences that satisfy the system and are zero outside the indices 0 to N, or None where zero alone is (SCOPE 14.71, 14.72).

    >>> legendre = Differential.of_sheet(b"3 1 2 2\\n1\\n4 2 0 1 1 2 2 1 -1 1 1 1 -2 0 0 1 12\\n")
    >>> solutions(legendre).polynomial(0)
    (0, -3, 0, 5)
    """
    stores, listed, result = Stores(_worked(system)), library.zeros(LIST), library.zeros(3)
    work = library.zeros(len(stores.rows)), library.zeros(len(stores.relations)), library.zeros(MATRIX)
    stores.call("solutions", *work, listed, result)
    found, last, count = result
    if not found:
        return None
    m = stores.unknowns
    begins = range(0, 64 * count, 64)
    return Solutions(last, tuple(tuple(_vector(listed, b + i * m, m) for i in range(last + 1)) for b in begins))


def _vector(listed: Any, at: int, length: int) -> tuple[int, ...]:
    return tuple(listed[at:at + length])


def satisfied(system: System | Differential, n: Iterable[int], vector: Any) -> bool:
    """Whether the equations hold at each of these n, and each relation whose n0 is among them, for a sequence that has `vector[i]` at
    index i. This is worked out in Python's own integers, whatever their size.

    >>> fibonacci = System(1, 2, 0, [{(2, 1): [1], (1, 1): [-1], (0, 1): [-1]}])
    >>> satisfied(fibonacci, range(3), [[0], [1], [1], [2], [3]])
    True
    """
    given, where = _worked(system), each(whole, n, "n")
    asked = [(equation, i) for i in where for equation in given.equations]
    asked += [(relation.equation, relation.n0) for relation in given.relations if relation.n0 in where]
    return all(equation.sum(i, vector) == 0 for equation, i in asked)
