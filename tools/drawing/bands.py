"""Where columns stand: each is as far right as the texts before it ask for, and what is full goes on in a next band."""

from dataclasses import dataclass, field
from typing import Callable, Hashable

from drawing.marks import LEFT, WIDTH

STEP, GAP, FIRST, EDGE = 22.0, 7.0, 18.0, 10.0
# The least that is at the right of a column, and how far a column's own label reaches per width of its words.
BEHIND, SLANT = 26.0, 0.66


@dataclass(frozen=True)
class Item:
    """What stands in a row of a column, from left to right of where the column is. No two of a row may touch."""

    row: Hashable
    left: float
    right: float


# What stands at the left edge of a band that begins with a column.
Opening = Callable[[int], list[Item]]

@dataclass
class Column:
    """What stands in a column, and how wide its label is."""

    items: list[Item] = field(default_factory=list)
    label: float = 0

    def right(self) -> float:
        return max([BEHIND, self.label * SLANT, *(item.right for item in self.items)])


@dataclass
class Band:
    """Columns from the one with the number `first` on, and where they are."""

    first: int
    xs: list[float] = field(default_factory=list)
    end: float = 0

    def x(self, i: int) -> float:
        return self.xs[i - self.first]

    def columns(self) -> range:
        return range(self.first, self.first + len(self.xs))


def place_of(column: Column, least: float, ends: dict[Hashable, float]) -> float:
    """The leftmost place at which nothing of a column is touched."""
    return max([least, *(ends.get(item.row, 0) + GAP - item.left for item in column.items)])


def laid(columns: list[Column], opening: Opening) -> list[Band]:
    """The columns in as few bands as there may be, each about as full as the others, and then as wide as the page."""
    most = WIDTH - EDGE
    count = len(filled(columns, opening, most))
    low, high = LEFT, most
    while count > 1 and high - low > 4:
        middle = (low + high) / 2
        low, high = (low, middle) if len(filled(columns, opening, middle)) == count else (middle, high)
    bands = filled(columns, opening, high)
    for band in bands if count > 1 else []:
        spread(band)
    return bands


def filled(columns: list[Column], opening: Opening, most: float) -> list[Band]:
    """The columns in bands, each of which is filled up to a width."""
    bands: list[Band] = []
    ends: dict[Hashable, float] = {}
    x = 0.0
    for i, column in enumerate(columns):
        x = place_of(column, x + STEP, ends)
        if not bands or x + column.right() > most:
            bands.append(Band(i))
            ends = {item.row: LEFT + item.right for item in opening(i)}
            x = place_of(column, LEFT + FIRST, ends)
        bands[-1].xs.append(x)
        bands[-1].end = max(bands[-1].end, x + column.right())
        for item in column.items:
            ends[item.row] = max(ends.get(item.row, 0), x + item.right)
    return bands


def spread(band: Band) -> None:
    """Uses up what is left at the right of a band."""
    more = (WIDTH - EDGE - band.end) / len(band.xs)
    band.xs = [x + more * (i + 1) for i, x in enumerate(band.xs)]
    band.end = WIDTH - EDGE
