"""Where everything of the lower part stands: lanes one below the other in each band, and in each lane its rows."""

from typing import Hashable, Iterator

from drawing.bands import Band, Column, Item, laid
from drawing.marks import View, change_label
from drawing.notes import Note, Notes
from drawing.svg import wide
from drawing.tracks import Track
from drawing.waits import waits_of
from formats.histories import Link, Place, Stage
from formats.transcript import Event

# Heights: a row of words, a row of waits, what is free over the highest change, and between lanes.
LINE, WAIT, PAD, GAP = 12, 27, 16, 12
HIGH, LOW, LABELLED, MOST = 20.0, 130.0, 13.0, 14
# The size of words, and how far they are from an arrow.
SIZE, BESIDE = 10, 8


def side_of(begin: Place, end: Place) -> tuple[str, str]:
    """The sides at which an arrow leaves a lane and comes to another one."""
    return ("below", "above") if begin < end else ("above", "below")


class Plan:
    """Columns and bands of a vBucket number."""

    def __init__(self, view: View, stages: list[Stage], labels: list[str]):
        self.view, self.stages, self.labels = view, stages, labels
        self.places, notes = view.places, Notes(view)
        self.tracks = {place: Track(place, stages) for place in self.places}
        self.waits = {place: waits_of(view.writes, place[1], stages) for place in self.places}
        self.above = {place: [notes.above(place, stage) for stage in stages] for place in self.places}
        self.below = {place: [notes.below(place, stage) for stage in stages] for place in self.places}
        self.arrows = [list(self.arrows_of(stage)) for stage in stages]
        self.is_labelled = True
        self.lay()
        if self.unit < LABELLED:
            self.is_labelled = False
            self.lay()

    def lay(self) -> None:
        """Columns and bands, and the height of a seqno, with labels at changes or without."""
        self.posts = [self.crossed_in(i) for i in range(len(self.stages))]
        self.bands = laid([self.column(i) for i in range(len(self.stages))], self.opening)
        self.reaches = [self.reach(band) for band in self.bands]
        widest = max([1, *(high - low for low, high in self.reaches)])
        self.unit = min(HIGH, max(LOW, LABELLED * min(widest, MOST)) / widest)

    def reach(self, band: Band) -> tuple[int, int]:
        """The seqnos of a band, from the ground of its lanes to the highest: all but what lies low and is not told."""
        columns, found = band.columns(), [0] if not band.first else []
        for place, track in self.tracks.items():
            held = [track.before(band.first), *(track.positions[i] for i in columns)]
            found += [it.at for it in held if it and it.role]
            found += [seqno for i in columns for fall in track.falls(i) for seqno in fall]
            found += [change.seqno for i in columns for at, _, change in self.told(i) if at == place]
            boxes = [box.event for box in track.boxes if box.is_in(columns.start, columns.stop)]
            found += [seqno for event in boxes for seqno in (event.start, event.end)]
        low, high = min(found, default=0) - 1, max(found, default=0)
        return (low if low > 2 else 0), max(high, 1)

    def told(self, i: int) -> list[tuple[Place, int | None, Event]]:
        """The changes of a column."""
        return [*self.stages[i].made, *self.stages[i].taken]

    def arrows_of(self, stage: Stage) -> Iterator[tuple[Place, Place, str]]:
        """From where to where, and what for: a link's request, what arrives, or an acknowledgement."""
        found: list[tuple[Link, bool, str]] = [(link, False, "ask") for link, _ in stage.asked]
        found += [(link, True, "carry") for link in stage.carried]
        counted = {id(link): link for link, _ in stage.counted}
        found += [(link, False, "ack") for link in counted.values()]
        for link, is_to_consumer, what in found:
            if {link.producer, link.consumer} <= set(self.places) and link.producer != link.consumer:
                ends = link.producer, link.consumer
                yield (*(ends if is_to_consumer else ends[::-1]), what)

    def rows(self, place: Place, side: str) -> list[Hashable]:
        """The rows at a side of a lane; those of waits are above."""
        held = self.above if side == "above" else self.below
        count = max([0, *map(len, held[place])])
        rows: list[Hashable] = [(place, side, k) for k in range(count)]
        if side == "above":
            rows += [(place, "wait", it, k) for it in {wait.row for wait in self.waits[place]} for k in (0, 1)]
        return rows

    def zones(self, place: Place, low: int, high: int) -> list[Hashable]:
        return [(place, "zone", seqno) for seqno in range(low, high)] if self.is_labelled else []

    def crossed(self, begin: Place, end: Place) -> list[Hashable]:
        """The rows that an arrow crosses."""
        leaves, comes = side_of(begin, end)
        low, high = sorted((begin, end))
        rows = self.rows(begin, leaves) + self.rows(end, comes)
        for place in (it for it in self.places if low < it < high):
            rows += self.rows(place, "above") + self.rows(place, "below")
            rows += self.zones(place, 0, self.highest(place) + 1)
        return rows

    def highest(self, place: Place) -> int:
        return max([0, *(it.at for it in self.tracks[place].positions if it)])

    def crossed_in(self, i: int) -> set[Hashable]:
        """The rows that an arrow crosses in a column."""
        return {row for begin, end, _ in self.arrows[i] for row in self.crossed(begin, end)}

    def left(self, i: int, row: Hashable) -> float:
        """Where words of a row begin: beside the column's arrow, where one crosses them."""
        return BESIDE if row in self.posts[i] else -4

    def column(self, i: int) -> Column:
        items = [Item(row, -3, 3) for row in self.posts[i]]
        for place in self.places:
            for side, held in (("above", self.above), ("below", self.below)):
                for row, note in self.placed(place, side, held[place][i]):
                    left = self.left(i, row)
                    items.append(Item(row, left, left + wide(note.words, SIZE, note.is_bold)))
            items += self.plotted(place, i)
            items += self.waiting(place, i)
        return Column(items, wide(self.labels[i], SIZE))

    def placed(self, place: Place, side: str, notes: list[Note]) -> list[tuple[Hashable, Note]]:
        """The notes by their rows, which count from the lane on."""
        ordered = notes[::-1] if side == "above" else notes
        return [((place, side, k), note) for k, note in enumerate(ordered)]

    def plotted(self, place: Place, i: int) -> Iterator[Item]:
        """Marks, their labels, and where the line rises or falls."""
        if not self.is_labelled:
            return
        for at, _, change in self.told(i):
            if at == place:
                right = 9 + wide(change_label(change, 14), SIZE)
                yield Item((place, "zone", change.seqno), -7, right)
                yield Item((place, "zone", change.seqno - 1), -7, 7)
        track = self.tracks[place]
        before, now = track.before(i), track.positions[i]
        spans = [(low, high) for high, low in track.falls(i)]
        spans += [(before.at, now.at)] if before and now and before.at < now.at else []
        for low, high in spans:
            yield from (Item(row, -3, 3) for row in self.zones(place, low, high))

    def waiting(self, place: Place, i: int) -> Iterator[Item]:
        for wait in self.waits[place]:
            asked, told = (place, "wait", wait.row, 0), (place, "wait", wait.row, 1)
            if wait.first == i:
                yield Item(asked, self.left(i, asked), self.left(i, asked) + wide(wait.asked(), SIZE))
                yield Item(told, -4, 4)
            if wait.last == i:
                yield Item(told, -6, 10 + wide(wait.told()[0], SIZE, True))

    def opening(self, i: int) -> list[Item]:
        """The waits that go on from the band before."""
        return [
            Item((place, "wait", wait.row, 0), 0, 2 + wide(wait.asked(), SIZE))
            for place in self.places
            for wait in self.waits[place]
            if wait.first < i and (wait.last is None or wait.last >= i)
        ]


class Rows:
    """The heights of a band's lanes, with as many rows as stand in it."""

    def __init__(self, plan: Plan, band: Band, top: float):
        self.plan, self.top = plan, top
        self.low, self.high = plan.reaches[plan.bands.index(band)]
        columns = band.columns()
        self.lanes: dict[Place, float] = {}
        self.bases: dict[Place, float] = {}
        y = top
        for place in plan.places:
            above = max([0, *(len(plan.above[place][i]) for i in columns)])
            below = max([0, *(len(plan.below[place][i]) for i in columns)])
            waits = [it.row + 1 for it in plan.waits[place] if it.is_in(columns.start, columns.stop)]
            self.lanes[place] = y
            y += WAIT * max([0, *waits]) + LINE * above + PAD + 6 + plan.unit * (self.high - self.low)
            self.bases[place] = y
            y += 6 + LINE * below + GAP
        self.bottom = y

    def y(self, place: Place, seqno: float) -> float:
        return self.bases[place] - (seqno - self.low) * self.plan.unit

    def ceiling(self, place: Place) -> float:
        """Where the lane's ground begins."""
        return self.y(place, self.high) - PAD

    def above(self, place: Place, k: int) -> float:
        return self.ceiling(place) - 5 - LINE * k

    def below(self, place: Place, k: int) -> float:
        return self.bases[place] + 18 + LINE * k

    def wait(self, place: Place, row: int) -> float:
        """Where the bar of a wait is."""
        return self.lanes[place] + 18 + WAIT * row

    def arrow(self, begin: Place, end: Place) -> tuple[float, float]:
        if begin < end:
            return self.bases[begin] + 7, self.ceiling(end) - 1
        return self.ceiling(begin) - 1, self.bases[end] + 7
