"""The recurrence regulariser, over the proved library. Systems are values; a call gives a new one, or raises `Refused`.

>>> import wurgalm
>>> system = wurgalm.read_sheet(b"3 2 1 0\\n2\\n2 1 1 2 0 1 0 2 1 -1\\n2 1 1 1 1 0 1 1 -1\\n0\\n0\\n")
>>> wurgalm.run(system).root
0
>>> wurgalm.run(wurgalm.System(1, 0, 0, [({(0, 1): [1]}, [1]), ({(0, 1): [1]}, [2])]))
Traceback (most recent call last):
wurgalm.refusals.NoSolution: refused with 10: no sequence satisfies the system

`wurgalm.expressions` makes systems of SymPy's expressions; it needs SymPy, and nothing else here does.
Where the shared library is missing, the import says so, and which commands make it.
"""
from . import library

if library.MISSING:
    raise ImportError(library.MISSING, name=__name__)

from .calls import (
    Fits, Misfit, Progress, Run, Solutions, State, Steps, batch, check_record, prepare, read_differential, read_sheet, replay, run,
    run_leading, run_logged, run_steps, run_trailing, satisfied, solutions, write_recurrence, write_sheet,
)
from .differential import Differential
from .logs import Combine, Down, Drop, Exchange, Log, Step, Up
from .refusals import (
    REFUSALS, CoefficientTooLarge, DegreeTooLarge, NoSolution, NotListed, NumberTooLarge, OutOfRange, Refused, StoreTooShort,
    TooManyRelations, ValueTooLarge, WrongEnd, WrongForm, WrongLog, WrongState,
)
from .systems import Equation, Polynomial, Relation, System, polynomial, value

__version__ = "0.1.0"
__all__ = [
    "REFUSALS", "CoefficientTooLarge", "Combine", "DegreeTooLarge", "Differential", "Down", "Drop", "Equation", "Exchange", "Fits",
    "Log", "Misfit", "NoSolution", "NotListed", "NumberTooLarge", "OutOfRange", "Polynomial", "Progress", "Refused", "Relation", "Run",
    "Solutions", "State", "Step", "Steps", "StoreTooShort", "System", "TooManyRelations", "Up", "ValueTooLarge", "WrongEnd",
    "WrongForm", "WrongLog", "WrongState", "batch", "check_record", "polynomial", "prepare", "read_differential", "read_sheet", "replay",
    "run", "run_leading", "run_logged", "run_steps", "run_trailing", "satisfied", "solutions", "value", "write_recurrence", "write_sheet",
]
