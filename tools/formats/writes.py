"""Durable writes: what a client asked for, its prepare, what became of that, and what the client was told."""

from dataclasses import dataclass, field

from formats.histories import Histories
from formats.script import Line
from formats.transcript import Event, Group
from formats.wire import ANSWER, STATUSES, Frame, frame_of, name_of, requirements, split

WRITES = ("set", "add", "replace", "delete")
Client = tuple[int, int]


@dataclass(frozen=True)
class Settled:
    """A commit or an abort: in which group, of which vBucket, on which branch and by which change."""

    group: int
    node: int
    branch: int
    change: Event


@dataclass
class Write:
    """A durable write. Its client is known by the script alone. One that is refused has no prepare."""

    vb: int
    node: int
    group: int
    key: bytes
    value: bytes | None
    level: int
    client: int | None = None
    timeout: int | None = None
    branch: int | None = None
    prepare: Event | None = None
    # The group of the prepare, or in which it is refused.
    prepared_in: int = 0
    settled: list[Settled] = field(default_factory=list)
    # The group in which the client was told, and the status; or in which its connection ended, and None.
    answered: tuple[int, str | None] | None = None


@dataclass
class Connection:
    """What a client sent that has no answer yet."""

    rest: bytes = b""
    asked: list[tuple[int, Frame]] = field(default_factory=list)
    write: Write | None = None

    def serve(self, answer: Frame | None = None) -> None:
        """Forgets the acknowledgements of bytes in front, which have no answer, up to one that this one answers."""
        while self.asked and self.asked[0][1].row.name == "buffer-acknowledgement":
            frame = self.asked[0][1]
            if answer and (answer.opcode, answer.opaque) == (frame.opcode, frame.opaque):
                return
            self.asked.pop(0)


def write_of(frame: Frame, node: int, client: int, group: int) -> Write | None:
    """The durable write that a request is, or None."""
    extras = list(requirements(frame.framing))
    if frame.row.name not in WRITES or len(extras) != 1 or extras[0].level is None:
        return None
    value = None if frame.row.name == "delete" else frame.value
    return Write(frame.place, node, group, frame.key, value, extras[0].level, client, extras[0].timeout)


@dataclass
class Writes:
    """All durable writes in their order, and what connections wait for."""

    all: list[Write] = field(default_factory=list)
    connections: dict[Client, Connection] = field(default_factory=dict)
    # By the vBucket number, the branch and the seqno of the prepare.
    prepared: dict[tuple[int, int, int], Write] = field(default_factory=dict)

    def unread(self) -> list[Write]:
        """What was asked behind a write that is waited for, and is not read."""
        kept = ((client, it) for client, held in self.connections.items() for it in held.asked[bool(held.write) :])
        found = [write_of(frame, *client, group) for client, (group, frame) in kept]
        return [write for write in found if write]

    def before(self, line: Line, group: Group) -> None:
        if line.verb not in ("client", "bytes") or group.answer[0] != "ok":
            return
        client = line["node"], line["client"]
        if line.verb == "client":
            self.connections[client] = Connection()
            return
        connection = self.connections.setdefault(client, Connection())
        frames, connection.rest = split(connection.rest + line.held)
        asked = [frame for frame in map(frame_of, frames) if frame.magic != ANSWER]
        connection.asked += [(group.number, frame) for frame in asked]

    def after(self, line: Line, group: Group) -> None:
        if line.verb == "hang" and group.answer[0] == "ok":
            self.leave((line["node"], line["client"]), group.number)

    def take(self, group: Group, event: Event, histories: Histories) -> None:
        match event.kind:
            case "change" if event.act == "prepare":
                self.prepare(group.number, event)
            case "change" if event.act in ("commit", "abort"):
                self.settle(group.number, event, histories)
            case "reply":
                self.answer(group.number, event)
            case "closed":
                self.leave((event.node, event.client), group.number)

    def prepare(self, group: int, event: Event) -> None:
        value = None if event.deleted else event.value
        write = self.asked_for(event) or Write(event.vb, event.node, group, event.key, value, event.level)
        write.branch, write.prepare, write.prepared_in = event.branch, event, group
        self.all.append(write)
        self.prepared[event.vb, event.branch, event.seqno] = write

    def asked_for(self, event: Event) -> Write | None:
        """The write that a connection of the node is served with now."""
        for (node, client), connection in self.connections.items():
            connection.serve()
            if node == event.node and connection.asked and not connection.write:
                write = write_of(connection.asked[0][1], node, client, connection.asked[0][0])
                if write and (write.vb, write.key) == (event.vb, event.key):
                    connection.write = write
                    return write
        return None

    def settle(self, group: int, event: Event, histories: Histories) -> None:
        branch = histories.maker(event.vb, event.node, event.prepared)
        write = self.prepared.get((event.vb, branch, event.prepared))
        if write:
            write.settled.append(Settled(group, event.node, event.branch, event))

    def answer(self, group: int, event: Event) -> None:
        connection, answer = self.connections.get((event.node, event.client)), frame_of(event.held)
        if not connection or not answer.is_answer:
            return
        connection.serve(answer)
        if not connection.asked:
            return
        asked, frame = connection.asked.pop(0)
        write = connection.write or write_of(frame, event.node, event.client, asked)
        if write:
            write.answered = group, name_of(answer.place, STATUSES)
            if not connection.write:
                write.prepared_in = group
                self.all.append(write)
        connection.write = None

    def leave(self, client: Client, group: int) -> None:
        connection = self.connections.pop(client, None)
        if connection and connection.write:
            connection.write.answered = group, None
