"""Who waits for whom: which client's durable write waits for which members of a chain, and what commits it."""

from dataclasses import dataclass, field

from formats.script import Line
from formats.transcript import Event, Group

# A vBucket, and a node that has it; and a node, and a client of it.
Place = tuple[int, int]
Client = tuple[int, int]
MAJORITY, MAJORITY_SAVED = 1, 3


@dataclass(frozen=True)
class Prepare:
    """A prepare that is neither committed nor given up."""

    seqno: int
    level: int


@dataclass(frozen=True)
class Needs:
    """What a prepare still waits for: so many of these members, its own node's save, and an earlier prepare."""

    missing: int
    members: list[int]
    save: bool
    earlier: int | None

    def __bool__(self) -> bool:
        return self.missing > 0 or self.save or self.earlier is not None


@dataclass
class Holder:
    """What counts for durable writes at a node's vBucket, as far as it is told; of a chain the node comes first."""

    node: int
    chain: list[int | None]
    is_active: bool = False
    acked: dict[int, int] = field(default_factory=dict)
    saved: int = 0
    changes: dict[int, Event] = field(default_factory=dict)
    pending: dict[bytes, Prepare] = field(default_factory=dict)
    settled: dict[int, Event] = field(default_factory=dict)

    def begin(self) -> None:
        """It becomes active: its node alone is the chain, and no member has acknowledged."""
        self.is_active, self.chain, self.acked = True, [self.node], {}

    def change(self, event: Event) -> None:
        self.changes[event.seqno] = event
        self.pending.pop(event.key, None)
        if event.act == "prepare":
            self.pending[event.key] = Prepare(event.seqno, event.level)
        elif event.act in ("commit", "abort"):
            self.settled[event.prepared] = event

    def back(self, seqno: int) -> None:
        """It goes back: what was settled above that seqno is pending again."""
        kept, self.changes, self.pending, self.settled = self.changes, {}, {}, {}
        for at in sorted(kept):
            if at <= seqno:
                self.change(kept[at])
        self.saved = min(self.saved, seqno)

    @property
    def majority(self) -> int:
        return len(self.chain) // 2 + 1

    def in_order(self) -> list[Prepare]:
        return sorted(self.pending.values(), key=lambda prepare: prepare.seqno)

    def holders(self, prepare: Prepare) -> list[int]:
        """The members of the chain that hold a prepare."""
        is_held = prepare.level != MAJORITY_SAVED or self.saved >= prepare.seqno
        others = [it for it in self.chain[1:] if it is not None and self.acked.get(it, 0) >= prepare.seqno]
        return [self.node] * is_held + others

    def needs(self, prepare: Prepare) -> Needs:
        """What is missing beside the node's own part, which is its save where the level asks for that."""
        holders = {self.node, *self.holders(prepare)}
        members = [it for it in self.chain if it is not None and it not in holders]
        save = prepare.level != MAJORITY and self.saved < prepare.seqno
        earlier = [it.seqno for it in self.in_order() if it.seqno < prepare.seqno]
        return Needs(max(0, self.majority - len(holders)), members, save, earlier[-1] if earlier else None)

    def between(self, before: int, seqno: int) -> list[Prepare]:
        """The prepares above one seqno, up to another."""
        return [it for it in self.in_order() if before < it.seqno <= seqno]


def nodes_text(nodes: list[int]) -> str:
    *first, last = [f"node {it}" for it in nodes]
    return f"{', '.join(first)} and {last}" if first else last


def majority_text(holder: Holder) -> str:
    return f"a majority of the chain is {holder.majority} of {len(holder.chain)}"


def needs_text(holder: Holder, prepare: Prepare) -> str:
    """For what a prepare waits that waits."""
    needs, parts = holder.needs(prepare), []
    act = "to save and acknowledge it" if prepare.level == MAJORITY_SAVED else "to acknowledge it"
    if needs.missing > len(needs.members):
        parts.append("for more members than are set")
    elif needs.missing == len(needs.members) and needs.missing:
        parts.append(f"for {nodes_text(needs.members)} {act}")
    elif needs.missing:
        parts.append(f"for {needs.missing} of {nodes_text(needs.members)} {act}")
    if needs.save:
        parts.append(f"for node {holder.node} to save it")
    if needs.earlier is not None:
        parts.append(f"for change {needs.earlier} to be committed first")
    return ", and ".join(parts)


def still_text(holder: Holder, prepare: Prepare) -> str:
    if holder.needs(prepare):
        return f"Change {prepare.seqno} still waits {needs_text(holder, prepare)}."
    return f"Change {prepare.seqno} waits for nothing more."


def commit_text(holder: Holder, prepare: Prepare) -> str:
    saved = f", and node {holder.node} has saved it" if prepare.level != MAJORITY else ""
    return f"Change {prepare.seqno} is held by {nodes_text(holder.holders(prepare))}{saved}: {majority_text(holder)}."


class Waits:
    """Follows a transcript line by line, and has a sentence where it is about a write that waits."""

    def __init__(self) -> None:
        self.holders: dict[Place, Holder] = {}
        self.waiting: dict[Client, tuple[Place, int]] = {}
        self.producers: dict[int, int] = {}
        # Whose frames are being served.
        self.served: Client | None = None
        self.is_start = False

    def holder(self, vb: int, node: int) -> Holder:
        return self.holders.setdefault((vb, node), Holder(node, [node]))

    def client_of(self, place: Place, prepare: Prepare) -> int | None:
        waits = place, prepare.seqno
        return next((client for (_, client), it in self.waiting.items() if it == waits), None)

    def forget(self, node: int) -> None:
        """The node stops: what its vBuckets load again is not followed, and nobody waits at it."""
        self.holders = {place: it for place, it in self.holders.items() if place[1] != node}
        self.waiting = {client: it for client, it in self.waiting.items() if client[0] != node}

    def begin(self, line: Line, group: Group) -> list[str]:
        """What a line is about, before its events."""
        self.served, self.is_start = None, line.verb == "start"
        if group.answer[0] != "ok":
            return []
        match line.verb:
            case "bytes":
                self.served = line["node"], line["client"]
                if self.served in self.waiting:
                    return [f"This is kept unread, as change {self.waiting[self.served][1]} waits."]
            case "link":
                self.producers[line["link"]] = line["producer"]
            case "chain":
                return self.on_chain(line)
            case "hang":
                self.waiting.pop((line["node"], line["client"]), None)
            case "done":
                self.holder(line["vb"], line["node"]).saved = int(group.answer[1])
            case "crash":
                self.forget(line["node"])
        return []

    def end(self, line: Line, group: Group) -> list[str]:
        """What is to be said behind a line's answer."""
        if line.verb != "done" or group.answer[0] != "ok":
            return []
        holder = self.holder(line["vb"], line["node"])
        waiting = [it for it in holder.in_order() if it.seqno <= holder.saved and it.level != MAJORITY]
        return [still_text(holder, it) for it in waiting] if holder.is_active else []

    def follow(self, event: Event) -> list[str]:
        return getattr(self, f"on_{event.kind}", lambda _: [])(event)

    def on_chain(self, line: Line) -> list[str]:
        holder = self.holder(line["vb"], line["node"])
        members = [None if it == "-" else int(it) for it in line.operands["members"].split()]
        holder.chain = [line["node"], *members]
        majority = majority_text(holder)
        return [f"{majority[0].upper()}{majority[1:]}.", *(still_text(holder, it) for it in holder.in_order())]

    def on_branch(self, event: Event) -> list[str]:
        holder = self.holder(event.vb, event.node)
        holder.begin()
        if self.is_start:
            holder.saved = event.high
        return []

    def on_role(self, event: Event) -> list[str]:
        """One that takes over has no branch line in front of its role."""
        holder = self.holder(event.vb, event.node)
        if event.role == "active" and not holder.is_active:
            holder.begin()
        holder.is_active = event.role == "active"
        return []

    def on_change(self, event: Event) -> list[str]:
        place, holder = (event.vb, event.node), self.holder(event.vb, event.node)
        before, told = holder.pending.get(event.key), []
        if before and event.act == "commit":
            told = [commit_text(holder, before)]
        elif before and event.act == "abort":
            told = [f"Its deadline is over, and it still waited {needs_text(holder, before)}."]
        holder.change(event)
        if event.act == "prepare" and self.served:
            self.waiting[self.served] = place, event.seqno
            what = needs_text(holder, holder.pending[event.key]) or "for no other node"
            told = [f"Client {self.served[1]} waits {what}: {majority_text(holder)}."]
        return told

    def on_got(self, event: Event) -> list[str]:
        self.holder(event.vb, event.node).change(event)
        return []

    def on_rolled(self, event: Event) -> list[str]:
        self.holder(event.vb, event.node).back(event.to)
        return []

    def on_stat(self, event: Event) -> list[str]:
        self.holder(event.vb, event.node).saved = event.saved
        return []

    def on_ack(self, event: Event) -> list[str]:
        """A replica acknowledges: who waits for that at the link's other end."""
        self.holder(event.vb, event.node).saved = event.saved
        place = event.vb, self.producers.get(event.link, -1)
        active = self.holders.get(place)
        if active is None or not active.is_active or event.node not in active.chain:
            return []
        return [self.wanted_text(place, it) for it in active.between(active.acked.get(event.node, 0), event.seqno)]

    def wanted_text(self, place: Place, prepare: Prepare) -> str:
        client = self.client_of(place, prepare)
        who = "" if client is None else f"client {client} of "
        return f"{who}node {place[1]} waits for that with change {prepare.seqno}.".capitalize()

    def on_acked(self, event: Event) -> list[str]:
        holder = self.holder(event.vb, event.node)
        before = holder.acked.get(event.member, 0)
        holder.acked[event.member] = max(before, event.seqno)
        counted = holder.between(before, event.seqno)
        if counted and event.member not in holder.chain:
            return [f"Node {event.member} is no member of the chain, so nothing waits for that."]
        return [still_text(holder, it) for it in counted]

    def on_reply(self, event: Event) -> list[str]:
        if not event.is_answer:
            return []
        self.served = event.node, event.client
        place, seqno = self.waiting.pop(self.served, (None, 0))
        if place is None:
            return []
        settled = self.holder(*place).settled.get(seqno)
        if settled is None:
            return [f"It waited with change {seqno}, and nobody knows yet whether that stands."]
        done = "committed" if settled.act == "commit" else "given up"
        return [f"It waited with change {seqno}, which is {done} by change {settled.seqno}."]

    def on_closed(self, event: Event) -> list[str]:
        self.waiting.pop((event.node, event.client), None)
        return []

    def on_stopped(self, event: Event) -> list[str]:
        self.forget(event.node)
        return []
