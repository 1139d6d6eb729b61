"""Tables, and the figures in them."""

from typing import NamedTuple


class Table(NamedTuple):
    head: list
    rows: list

    def __str__(self):
        lines = [self.head, ["---"] * len(self.head), *self.rows]
        return "\n".join("| " + " | ".join(map(str, line)) + " |" for line in lines)


def figure(number):
    """Returns a number with three digits that count, if it has as many before its point or fewer."""
    places = next((places for places, least in ((0, 100), (1, 10), (2, 1)) if number >= least), 3)
    return f"{number:,.{places}f}"


def milliseconds(seconds):
    return figure(seconds * 1e3)


def microseconds(seconds):
    return figure(seconds * 1e6)
