"""The journals of vBuckets, as a script and its transcript tell of them: what stands, and what was broken off."""

from dataclasses import dataclass, field
from functools import cached_property

from formats import Complaint
from formats.disks import FAIL, STOP, Arm, Disk, Hit, bytes_left
from formats.histories import Holding, Position
from formats.records import Record, Roll, Rows, State, payload
from formats.transcript import Event
from formats.wire import Log

GATE = b"\x01"


@dataclass
class Append:
    """A record and the byte of its gate. One whose append was hit stands or not by what a crash leaves; until then it
    is not known. `image` is what the crash left from the gate on."""

    group: int
    record: Record
    at: int
    hit: Hit | None = None
    left: str | None = None
    stands: bool | None = True
    image: bytes = b""

    @cached_property
    def end(self) -> int:
        return self.at + 5 + len(payload(self.record))

    def told(self) -> str:
        """How it was appended, or how that was broken off, and what a crash left."""
        if not self.hit:
            return f"appended in line {self.group}"
        how = "the node stopped inside" if self.hit.kind == STOP else "the disk failed at"
        left = f", and a crash left {bytes_left(self.left)}" if self.left else ""
        return f"broken off in line {self.group}: {how} call {self.hit.call}{left}"

    def verdict(self) -> str:
        return {True: "it is there", False: "it is not there", None: "a crash decides"}[self.stands]


@dataclass(frozen=True)
class Reading:
    """What a start read: behind how many appends, how many records, up to which byte, and what they say."""

    group: int
    behind: int
    count: int
    end: int
    found: Position
    log: Log


@dataclass
class Journal:
    """What was appended to a disk in its order, and the batch that is on its way."""

    appends: list[Append] = field(default_factory=list)
    disk: Disk = field(default_factory=Disk)
    readings: list[Reading] = field(default_factory=list)
    is_closed: bool = False
    batch: Rows | None = None
    place: int = 0
    saved: int = 0
    cas: int = 0

    def standing(self) -> list[Append]:
        return [it for it in self.appends if it.stands]

    def records(self) -> list[tuple[int, Record]]:
        """The records that stand, each with the group that appended it."""
        return [(it.group, it.record) for it in self.standing()]

    def end(self) -> int:
        """Where the closed gate is behind the last record that stands."""
        return next((it.end for it in reversed(self.appends) if it.stands), 0)

    def gate(self) -> str:
        """The byte at its end, also where it is not synced."""
        return f"{self.disk.now()[self.end()]:02x}"

    def append(self, group: int, record: Record, arm: Arm) -> Hit | None:
        """Makes the four calls of an append, up to one that is hit."""
        held, it = payload(record), Append(group, record, self.end())
        behind = len(held).to_bytes(4, "big") + held + b"\x00"
        self.appends.append(it)
        for call, made in enumerate(((it.at + 1, behind), None, (it.at, GATE), None), 1):
            hit = arm.hits(call)
            if made and not (hit and hit.kind == FAIL):
                self.disk.write(*made)
            if hit:
                is_open = hit.kind == FAIL and call == 4
                it.hit, it.stands, self.is_closed = hit, None if is_open or hit.kind == STOP else False, True
                return hit
            if not made:
                self.disk.sync()
        return None

    def crash(self, outcome: str) -> bool | None:
        """The node stops: the bytes decide what stands, and memory is lost. Tells whether the record of an append
        that was broken off is there."""
        self.disk.crash(outcome)
        stands = None
        for it in self.appends:
            if it.hit and it.left is None:
                it.left, it.image = outcome, self.disk.synced[it.at : it.end + 1]
                stands = it.stands = it.image[:1] == GATE
        self.is_closed, self.batch = False, None
        batches = [it for _, it in self.records() if isinstance(it, Rows)]
        self.cas = batches[-1].cas if batches else 0
        self.place = self.saved = self.loaded().position.at
        return stands

    def read(self, group: int) -> None:
        """A start reads it."""
        it = self.loaded()
        reading = Reading(group, len(self.appends), len(self.standing()), self.end(), it.position, it.log)
        self.readings.append(reading)

    def loaded(self) -> Holding:
        """What a start reads; without a role where no record stands."""
        it, role = Holding(), ""
        at = start = end = 0
        for _, record in self.records():
            match record:
                case State(role, log):
                    it.log = list(log)
                case Rows(start, end, at, _, log, changes):
                    it.log = list(log)
                    it.changes |= {change.seqno: change for change in changes}
                case Roll(to):
                    at = start = end = to
                    it.go_back(to)
        it.position = Position(role, it.log[0][0] if it.log else None, at, start, end)
        return it

    def points(self) -> list[Rows]:
        """The batches that no later record takes away, in their order."""
        points: list[Rows] = []
        for _, record in self.records():
            if isinstance(record, Rows):
                points.append(record)
            elif isinstance(record, Roll):
                points = [it for it in points if it.at <= record.to]
        return points

    def back(self, named: int) -> int:
        """Where a rollback goes: the greatest complete point that is not above the named seqno."""
        return max([0, *(it.at for it in self.points() if it.is_complete and it.at <= named)])

    def take(self, event: Event, holding: Holding) -> None:
        """A batch has all changes of a received span, and of one's own the last of each key."""
        held = sorted((seqno, it) for seqno, it in holding.changes.items() if self.place < seqno <= event.at)
        changes = [it for _, it in held]
        if event.start == event.at:
            changes = [it for i, it in enumerate(changes) if all(it.key != next_.key for next_ in changes[i + 1 :])]
        if len(changes) != event.count:
            raise Complaint(f"a batch up to {event.at} has {len(changes)} changes and not {event.count}")
        self.batch = Rows(event.start, event.end, event.at, self.cas, list(holding.log), changes)
        self.place = event.at

    def save(self, group: int, arm: Arm) -> Hit | None:
        if self.batch is None:
            raise Complaint(f"line {group} saves a batch that nobody took")
        hit = self.append(group, self.batch, arm)
        if hit:
            self.batch = None
        return hit

    def done(self, group: int) -> None:
        if self.batch is None:
            raise Complaint(f"line {group} counts a batch that nobody took")
        self.saved, self.batch = max(self.saved, self.batch.at), None

    def roll(self, group: int, record: Roll, arm: Arm) -> Hit | None:
        hit = self.append(group, record, arm)
        if not hit:
            self.batch, self.place, self.saved = None, record.to, record.to
        return hit
