"""01, "Numbers a call answers": the numbers, and what an answer carries."""

from typing import NamedTuple

DONE, INVALID, LIMIT, ENDPOINT, FULL, UNSUPPORTED, MEMORY, TIMEOUT, NOT_READY, PENDING, CANCELLED, FAILED = range(12)


class Answer(NamedTuple):
    """A number, its values, its register writes in order as (offset, value), and the places that it writes of the pool."""

    number: int = DONE
    values: tuple = ()
    writes: tuple = ()
    places: tuple = ()


class Refused(Exception):
    """A refusal by its number. It is raised before anything is changed: refusals leave all as before."""

    def __init__(self, number):
        self.number = number


def need(holds, number):
    """One of a call's checks: the first that does not hold is the answer."""
    if not holds:
        raise Refused(number)
