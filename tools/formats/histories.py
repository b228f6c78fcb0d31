"""What a transcript tells of branches, of what each vBucket holds, and of what links carry, group by group."""

from dataclasses import dataclass, field, replace
from functools import cached_property

from formats import Complaint
from formats.transcript import Connection, Event
from formats.wire import Log, number

LOG_LIMIT = 25
# A vBucket, and a node that has it.
Place = tuple[int, int]
UNKNOWN: Place = (-1, -1)


@dataclass
class Branch:
    """A branch, its own changes by seqno, and which of them it took over from the one that it left."""

    id: int
    vb: int
    node: int
    parent: int | None
    fork: int
    group: int
    changes: dict[int, Event] = field(default_factory=dict)
    taken_over: frozenset[int] = frozenset()


@dataclass(frozen=True)
class Position:
    """Where a vBucket of a node stands: its role, its branch, its last seqno, and its snapshot's ends. Of a node that
    is down it is what its disk has; a vBucket without a role is not there."""

    role: str = ""
    branch: int | None = None
    at: int = 0
    start: int = 0
    end: int = 0
    is_down: bool = False


@dataclass
class Holding:
    """What a vBucket of a node holds: its failover log, and its changes by seqno."""

    position: Position = Position()
    log: Log = field(default_factory=list)
    changes: dict[int, Event] = field(default_factory=dict)

    def move(self, **fields: object) -> None:
        branch = self.log[0][0] if self.log else None
        self.position = replace(self.position, branch=branch, **fields)

    def go_back(self, to: int) -> None:
        """Leaves the changes and the entries of the failover log that are not above a seqno."""
        self.changes = {seqno: it for seqno, it in self.changes.items() if seqno <= to}
        self.log = [it for it in self.log if it[1] <= to]

    def owner(self, seqno: int) -> int | None:
        """The branch that has the change of this seqno, by the failover log."""
        return next((branch for branch, made in self.log if made < seqno), None)

    def prepares(self) -> dict[bytes, Event]:
        """The prepares that are neither committed nor given up, by key."""
        held: dict[bytes, Event] = {}
        for _, change in sorted(self.changes.items()):
            if change.act == "prepare":
                held[change.key] = change
            elif change.act in ("commit", "abort"):
                held.pop(change.key, None)
        return dict(sorted(held.items()))

    def documents(self) -> dict[bytes, Event]:
        """The last set of each key that was not removed behind it, by key; a prepare or an abort changes none."""
        held: dict[bytes, Event] = {}
        for _, change in sorted(self.changes.items()):
            is_removal = change.act == "remove" or change.act == "commit" and change.deleted
            if is_removal:
                held.pop(change.key, None)
            elif change.act in ("set", "commit"):
                held[change.key] = change
        return dict(sorted(held.items()))


@dataclass
class Link:
    """A link from its first event to its end, whose ends are unknown until an event tells; or a client's stream."""

    number: Connection
    producer: Place = UNKNOWN
    consumer: Place = UNKNOWN
    underway: list[int] = field(default_factory=list)
    acks: list[int] = field(default_factory=list)
    sent_back: int | None = None

    @property
    def name(self) -> str:
        return f"L{self.number}" if isinstance(self.number, int) else "C{}.{}".format(*self.number)


@dataclass(frozen=True)
class Stop:
    """A vBucket whose node stops: where it was, and where its disk stands. Without a call the node is stopped by a
    crash. `stands` is whether the record of an append that was broken off is there, and None where none was."""

    place: Place
    before: Position
    disk: Position
    call: int | None
    outcome: str
    stands: bool | None


@dataclass(frozen=True)
class Start:
    """A vBucket whose node starts, and what it finds; or why the node stays down."""

    place: Place
    found: Position
    why: str = ""


@dataclass
class Stage:
    """What a group tells, and where the vBuckets that it moves stand behind it."""

    number: int
    positions: dict[Place, Position] = field(default_factory=dict)
    roles: list[tuple[Place, str]] = field(default_factory=list)
    # Of these, the vBuckets that are given up, and that take over.
    handed: list[Place] = field(default_factory=list)
    forks: list[Branch] = field(default_factory=list)
    made: list[tuple[Place, int, Event]] = field(default_factory=list)
    taken: list[tuple[Place, int | None, Event]] = field(default_factory=list)
    entered: list[tuple[Place, Event]] = field(default_factory=list)
    rolled: list[tuple[Place, int, Event]] = field(default_factory=list)
    asked: list[tuple[Link, Event]] = field(default_factory=list)
    put: list[tuple[Link, Event]] = field(default_factory=list)
    carried: list[Link] = field(default_factory=list)
    ended: list[tuple[Link, Event]] = field(default_factory=list)
    acks: list[tuple[Link, Event]] = field(default_factory=list)
    counted: list[tuple[Link, Event]] = field(default_factory=list)
    chains: list[tuple[Place, str]] = field(default_factory=list)
    written: dict[Place, int] = field(default_factory=dict)
    failed: list[tuple[Place, int]] = field(default_factory=list)
    stops: list[Stop] = field(default_factory=list)
    starts: list[Start] = field(default_factory=list)

    def places(self) -> set[Place]:
        """The vBuckets that it tells of."""
        links = [link for link, _ in [*self.asked, *self.put, *self.ended, *self.counted]] + self.carried
        found = {it.place for it in [*self.stops, *self.starts]} | {place for place, _ in [*self.chains, *self.failed]}
        return {*self.positions, *self.written, *found, *(link.producer for link in links)}


@dataclass
class Histories:
    """All that a transcript tells."""

    branches: dict[tuple[int, int], Branch] = field(default_factory=dict)
    holdings: dict[Place, Holding] = field(default_factory=dict)
    stages: list[Stage] = field(default_factory=list)
    links: dict[int, Link] = field(default_factory=dict)
    # Those of clients, by connection and vBucket; and what a client's stream is told to put till its frame comes.
    streams: dict[tuple[Connection, int], Link] = field(default_factory=dict)
    told: Event | None = None

    def is_kept(self, vb: int, branch: int, seqno: int) -> bool:
        """Whether a vBucket that is not dead has a branch's change at the end, or that of one that took it over."""
        for (of, _), holding in self.holdings.items():
            has_role = of == vb and holding.position.role in ("active", "pending", "replica")
            if has_role and seqno <= holding.position.at and holding.owner(seqno) == branch:
                return True
        heirs = (it for it in self.branches.values() if (it.vb, it.parent) == (vb, branch) and seqno in it.taken_over)
        return any(self.is_kept(vb, it.id, seqno) for it in heirs)

    @cached_property
    def lines(self) -> dict[int, set[int]]:
        """The groups that tell of each vBucket number, once all is told."""
        found: dict[int, set[int]] = {}
        for stage in self.stages:
            for vb, _ in stage.places():
                found.setdefault(vb, set()).add(stage.number)
        return found

    def maker(self, vb: int, node: int, seqno: int) -> int | None:
        """The branch on which a change was made that a vBucket has, also where later ones took it over."""
        branch = self.holdings[vb, node].owner(seqno)
        while branch is not None and (vb, branch) in self.branches and seqno in self.branches[vb, branch].taken_over:
            branch = self.branches[vb, branch].parent
        return branch

    def place(self, event: Event) -> Place:
        place = event.vb, event.node
        self.holdings.setdefault(place, Holding())
        return place

    def link(self, number: int) -> Link:
        return self.links.setdefault(number, Link(number))

    def carrier(self, stream: Connection, vb: int) -> Link:
        """A link, or a client's stream of a vBucket."""
        if isinstance(stream, int):
            return self.link(stream)
        return self.streams.setdefault((stream, vb), Link(stream, (vb, stream[0])))

    def take(self, stage: Stage, event: Event) -> None:
        """Follows an event of a stage."""
        follow = getattr(self, f"on_{event.kind}", None)
        if follow:
            follow(stage, event)

    def moved(self, stage: Stage, place: Place, **fields: object) -> None:
        self.holdings[place].move(**fields)
        stage.positions[place] = self.holdings[place].position

    def on_branch(self, stage: Stage, event: Event) -> None:
        if (event.vb, event.branch) in self.branches:
            raise Complaint(f"group #{stage.number} makes branch {event.branch} a second time")
        if event.parent is not None and (event.vb, event.parent) not in self.branches:
            raise Complaint(
                f"group #{stage.number}: branch {event.branch} leaves branch {event.parent}, which nobody made"
            )
        place = self.place(event)
        holding = self.holdings[place]
        if event.high != holding.position.at:
            told = f"branch {event.branch} is made at {event.high}, where its vBucket was at {holding.position.at}"
            raise Complaint(f"group #{stage.number}: {told}; what a node that stopped finds the script alone tells")
        holding.log = [(event.branch, event.fork), *(it for it in holding.log if it[1] <= event.fork)][:LOG_LIMIT]
        taken_over = {seqno: it for seqno, it in holding.changes.items() if seqno > event.fork}
        branch = Branch(event.branch, event.vb, event.node, event.parent, event.fork, stage.number)
        branch.changes, branch.taken_over = taken_over, frozenset(taken_over)
        self.branches[event.vb, event.branch] = branch
        stage.forks.append(branch)
        self.moved(stage, place, at=event.high, start=event.high, end=event.high)

    def on_role(self, stage: Stage, event: Event) -> None:
        place = self.place(event)
        stage.roles.append((place, event.role))
        at = self.holdings[place].position.at
        self.moved(stage, place, role=event.role, **({"start": at, "end": at} if event.role == "active" else {}))

    def on_change(self, stage: Stage, event: Event) -> None:
        place = self.place(event)
        branch = self.branches.get((event.vb, event.branch))
        if branch:
            branch.changes[event.seqno] = event
        self.holdings[place].changes[event.seqno] = event
        stage.made.append((place, event.branch, event))
        self.moved(stage, place, at=event.seqno, start=event.seqno, end=event.seqno)

    def on_ask(self, stage: Stage, event: Event) -> None:
        link = self.carrier(event.stream, event.vb)
        link.producer = event.vb, event.node
        link.sent_back = event.to if event.answer == "roll" else None
        stage.asked.append((link, event))

    def on_mark(self, stage: Stage, event: Event) -> None:
        if isinstance(event.stream, int):
            stage.put.append((self.link(event.stream), event))
        else:
            self.told = event

    def on_item(self, stage: Stage, event: Event) -> None:
        if isinstance(event.stream, int):
            self.link(event.stream).underway.append(event.seqno)
        self.on_mark(stage, event)

    on_fin = on_state = on_mark

    def on_reply(self, stage: Stage, event: Event) -> None:
        """The frame that a client's stream puts names the vBucket."""
        if self.told:
            stage.put.append((self.carrier(self.told.stream, number(event.held[6:8])), self.told))
        self.told = None

    def on_adopt(self, stage: Stage, event: Event) -> None:
        place = self.place(event)
        self.holdings[place].log = event.log
        self.moved(stage, place)

    def on_range(self, stage: Stage, event: Event) -> None:
        place = self.place(event)
        stage.entered.append((place, event))
        self.moved(stage, place, start=event.start, end=event.end)

    def on_got(self, stage: Stage, event: Event) -> None:
        place, link = self.place(event), self.link(event.link)
        link.consumer = place
        link.underway = [seqno for seqno in link.underway if seqno > event.seqno]
        stage.carried += [link] if link not in stage.carried else []
        holding = self.holdings[place]
        holding.changes[event.seqno] = event
        stage.taken.append((place, holding.owner(event.seqno), event))
        self.moved(stage, place, at=event.seqno)

    def on_rolled(self, stage: Stage, event: Event) -> None:
        place = self.place(event)
        holding = self.holdings[place]
        stage.rolled.append((place, holding.position.at, event))
        for link in self.links.values():
            is_asked = (link.producer[0], link.sent_back) == (event.vb, event.named)
            if is_asked and link.consumer in (UNKNOWN, place):
                link.consumer, link.sent_back = place, None
                stage.carried.append(link)
                break
        holding.go_back(event.to)
        self.moved(stage, place, at=event.to, start=event.to, end=event.to)

    def on_end(self, stage: Stage, event: Event) -> None:
        link = self.links.pop(event.link, Link(event.link))
        # One that gave its vBucket up drops what is acknowledged, and no line tells that it came.
        link.acks = [] if event.why == "done" else link.acks
        stage.ended.append((link, event))

    def on_ack(self, stage: Stage, event: Event) -> None:
        link = self.link(event.link)
        link.consumer = self.place(event)
        link.acks.append(event.seqno)
        stage.acks.append((link, event))

    def on_acked(self, stage: Stage, event: Event) -> None:
        link = self.link(event.link)
        link.producer = self.place(event)
        link.acks = link.acks[1:]
        stage.counted.append((link, event))

    def stop(self, stage: Stage, place: Place, disk: Holding, how: tuple[int | None, str, bool | None]) -> None:
        """A node stops: its vBucket's memory is gone, and what its disk has is left."""
        before = self.holdings[place].position
        disk.position = replace(disk.position, is_down=True)
        self.holdings[place] = disk
        stage.positions[place] = disk.position
        if not before.is_down:
            stage.stops.append(Stop(place, before, disk.position, *how))

    def start(self, stage: Stage, place: Place) -> None:
        holding = self.holdings[place]
        holding.position = replace(holding.position, is_down=False)
        stage.positions[place] = holding.position
        stage.starts.append(Start(place, holding.position))
