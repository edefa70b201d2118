"""How a test of an act tells that it does not hold: it raises the refusal, and nothing has changed by then."""
from model.facts import Refusal


class Refused(Exception):
    """An act is refused, with this number."""

    def __init__(self, number: Refusal) -> None:
        super().__init__(number)
        self.number = number


def need(holds: object, number: Refusal = Refusal.BAD_TEXT) -> None:
    """Refuses where this does not hold."""
    if not holds:
        raise Refused(number)
