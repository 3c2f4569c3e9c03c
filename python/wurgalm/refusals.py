"""What a refusal says: an exception for each number that a call gives (SCOPE 6.1 to 6.13)."""


class Refused(ValueError):
    """A call was refused. `number` says why, `sentence` says it in words, and each number has a class of its own.
    `argument` says which argument is meant, where that can be told.

    >>> Refused.of(10)
    NoSolution(10)
    >>> print(Refused.of(7))
    refused with 7: a degree has passed 15
    >>> print(Refused.of(2, "unknowns is 5"))
    refused with 2: a size, block, column, count or order is out of its range (unknowns is 5)
    """

    number: int = 0
    sentence: str = "no call gives this number"

    def __init__(self, number: int | None = None, argument: str = "") -> None:
        self.number = type(self).number if number is None else number
        self.argument = argument
        super().__init__(self.number, *filter(None, [argument]))

    def __str__(self) -> str:
        told = f"refused with {self.number}: {self.sentence}"
        return f"{told} ({self.argument})" if self.argument else told

    @staticmethod
    def of(number: int, argument: str = "") -> "Refused":
        """The exception of a number."""
        return REFUSALS.get(number, Refused)(number, argument)


class StoreTooShort(Refused):
    number, sentence = 1, "a store is too short, or the answer has more than 65,536 bytes"


class OutOfRange(Refused):
    number, sentence = 2, "a size, block, column, count or order is out of its range"


class WrongForm(Refused):
    number, sentence = 3, "something is not a number, or stands in a wrong form or order"


class WrongEnd(Refused):
    number, sentence = 4, "the bytes end early, or go on behind the last section"


class NumberTooLarge(Refused):
    number, sentence = 5, "a number is past its limit"


class DegreeTooLarge(Refused):
    number, sentence = 7, "a degree has passed 15"


class CoefficientTooLarge(Refused):
    number, sentence = 8, "a coefficient has passed 268,435,455 in the course of the run"


class TooManyRelations(Refused):
    number, sentence = 9, "more than 16 relations would have to be listed"


class NoSolution(Refused):
    number, sentence = 10, "no sequence satisfies the system"


class WrongState(Refused):
    number, sentence = 11, "the state that was handed in is not right"


class ValueTooLarge(Refused):
    number, sentence = 12, "a value of Horner's rule has passed 2^40"


class WrongLog(Refused):
    number, sentence = 13, "a step of the log, or its end, is not right"


class NotListed(Refused):
    number, sentence = 14, "the system is not one whose polynomial solutions are listed"


#: The class of each number.
REFUSALS: dict[int, type[Refused]] = {
    kind.number: kind
    for kind in (
        StoreTooShort, OutOfRange, WrongForm, WrongEnd, NumberTooLarge, DegreeTooLarge, CoefficientTooLarge,
        TooManyRelations, NoSolution, WrongState, ValueTooLarge, WrongLog, NotListed,
    )
}
