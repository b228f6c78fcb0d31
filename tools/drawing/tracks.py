"""What a lane shows of a vBucket, column by column: where it stands, where its disk does, and its snapshots."""

from dataclasses import dataclass

from formats.histories import Place, Position, Stage
from formats.transcript import Event


@dataclass(frozen=True)
class Box:
    """A snapshot from the column that begins it to the one that ends it, or to the end of the picture."""

    first: int
    last: int | None
    event: Event
    is_whole: bool

    def is_in(self, first: int, end: int) -> bool:
        return self.first < end and (self.last is None or self.last >= first)


class Track:
    def __init__(self, place: Place, stages: list[Stage]):
        self.place, self.stages = place, stages
        self.positions: list[Position | None] = []
        self.disks: list[int] = []
        position, disk = None, 0
        for stage in stages:
            position = stage.positions.get(place, position)
            disk = stage.written.get(place, disk)
            for stop in (stop for stop in stage.stops if stop.place == place):
                disk = stop.disk.at
            self.positions.append(position)
            self.disks.append(disk)
        self.boxes = list(self.found_boxes())

    def before(self, i: int) -> Position | None:
        return self.positions[i - 1] if i else None

    def disk_before(self, i: int) -> int:
        return self.disks[i - 1] if i else 0

    def falls(self, i: int) -> list[tuple[int, int]]:
        """From where and to where it goes back in a column: by a rollback, or as its node stops."""
        stage = self.stages[i]
        rolled = [(old, event.to) for place, old, event in stage.rolled if place == self.place]
        stopped = [(stop.before.at, stop.disk.at) for stop in stage.stops if stop.place == self.place]
        return [(high, low) for high, low in rolled + stopped if high > low]

    def is_changed(self, i: int) -> bool:
        return self.place in self.stages[i].positions

    def found_boxes(self) -> list[Box]:
        """A box for each snapshot that is entered, whole or not."""
        found: list[Box] = []
        begun: tuple[int, Event] | None = None
        for i, stage in enumerate(self.stages):
            for event in (event for at, event in stage.entered if at == self.place):
                if begun:
                    found.append(Box(*self.ended(begun, i), True))
                begun = i, event
                if any(at == self.place and change.seqno == event.end for at, _, change in stage.taken):
                    found.append(Box(*self.ended(begun, i), True))
                    begun = None
            position = self.positions[i]
            if begun and position and (position.end != begun[1].end or position.at == position.end):
                found.append(Box(*self.ended(begun, i), position.at == begun[1].end))
                begun = None
        if begun:
            found.append(Box(begun[0], None, begun[1], False))
        return found

    @staticmethod
    def ended(begun: tuple[int, Event], i: int) -> tuple[int, int, Event]:
        return begun[0], i, begun[1]
