"""What a script's clients send, as far as the script alone tells: frames, and which of them a node will refuse."""

from dataclasses import dataclass
from typing import Iterator

from formats import wire
from formats.dcp_refusals import Refusal
from formats.refusals import asks_for_json, is_durable, refusal
from formats.script import Line
from formats.wire import Frame

Place = tuple[int, int]


@dataclass(frozen=True)
class Sent:
    """A frame that a client sent, and why it will be refused whatever the vBucket is."""

    frame: Frame
    refusal: Refusal | None


@dataclass
class Inbox:
    """What a connection was sent that is less than a frame, and what counts for the frames behind."""

    held: bytes = b""
    line: int = 0
    has_json: bool = False
    is_open: bool = False
    is_durable: bool = False

    def take(self, held: bytes, line: int) -> list[Sent]:
        frames, self.held = wire.split(self.held + held)
        self.line = line
        return [self.sent(wire.frame_of(frame)) for frame in frames]

    def sent(self, frame: Frame) -> Sent:
        if frame.is_answer:
            return Sent(frame, None)
        sent = Sent(frame, refusal(frame, self.has_json, self.is_open))
        if sent.refusal is None:
            self.is_durable |= is_durable(frame)
            self.is_open |= frame.row.name == "open"
            if frame.row.name == "hello":
                self.has_json = asks_for_json(frame)
        return sent


class Clients:
    """The connections that are open for certain. Where the script alone does not tell, none is followed.

    That goes for a node from the line on that arms it to stop, and from a second start on, as the first one may have
    failed; and for a connection behind a fault where a durable write may hold the fault up. A crash makes it certain
    again, and for a connection its end does.
    """

    def __init__(self) -> None:
        self.made: set[int] = set()
        self.down: set[int] = set()
        self.crashed: set[int] = set()
        self.unsure: set[int] = set()
        self.inboxes: dict[Place, Inbox | None] = {}

    def follow(self, line: Line) -> list[Inbox]:
        """Follows a line that sends nothing, and gives the connections that end by it."""
        node = int(line.operands.get("node", -1))
        match line.verb:
            case "node":
                self.made.add(node)
            case "client" if node in self.made - self.down - self.unsure:
                self.inboxes.setdefault((node, line["client"]), Inbox())
            case "hang":
                return self.ended((node, line["client"]))
            case "crash":
                self.down.add(node)
                self.crashed.add(node)
                self.unsure.discard(node)
                return self.ended(*self.of(node))
            case "start" if node in self.down:
                self.down.discard(node)
            case "start" if node in self.crashed:
                self.lose(node)
            case "stop" if line["call"]:
                self.lose(node)
        return []

    def of(self, node: int) -> list[Place]:
        return [place for place in self.inboxes if place[0] == node]

    def lose(self, node: int) -> None:
        self.unsure.add(node)
        self.ended(*self.of(node))

    def ended(self, *places: Place) -> list[Inbox]:
        inboxes = [self.inboxes.pop(place, None) for place in places]
        return [inbox for inbox in inboxes if inbox]

    def take(self, line: Line) -> tuple[list[Sent], tuple[str, str] | None]:
        """The frames that end in this line, and the fault behind them."""
        place = line["node"], line["client"]
        inbox = self.inboxes.get(place)
        if inbox is None:
            return [], None
        sent = inbox.take(line.held, line.number)
        fault = wire.fault_of(inbox.held) if inbox.held else None
        if fault and inbox.is_durable:
            self.inboxes[place] = None
        elif fault:
            del self.inboxes[place]
        return sent, fault

    def left(self) -> Iterator[tuple[Place, Inbox]]:
        """The connections that hold less than a frame."""
        for place, inbox in sorted(self.inboxes.items()):
            if inbox and inbox.held:
                yield place, inbox
