"""Disks in memory, their device calls, the arm of a node that hits one of these calls, and what a crash leaves."""

from dataclasses import dataclass, field

# A call that was hit: whether the node `stop`s inside it or it `fail`s, and which one of its append it is.
STOP, FAIL = "stop", "fail"


def bytes_left(outcome: str) -> str:
    """What a crash leaves of the bytes that are not synced."""
    return f"bytes of {outcome[5:]}" if outcome.startswith("fill ") else f"{outcome} bytes"


@dataclass(frozen=True)
class Hit:
    """A device call that the arm hit; `call` counts from 1 inside an append, and is 0 at an opening."""

    kind: str
    call: int
    outcome: str


@dataclass
class Arm:
    """A node's arm: it counts device calls over all disks of the node, and is off once it hit one."""

    kind: str = ""
    left: int = 0
    outcome: str = ""

    def set(self, kind: str, calls: int, outcome: str = "") -> None:
        self.kind, self.left, self.outcome = (kind, calls, outcome) if calls else ("", 0, "")

    def hits(self, call: int) -> Hit | None:
        """Counts a call, and tells whether it is the one."""
        if not self.kind:
            return None
        self.left -= 1
        if self.left:
            return None
        hit = Hit(self.kind, call, self.outcome)
        self.set("", 0)
        return hit


def over(held: bytes, at: int, written: bytes) -> bytes:
    return held[:at].ljust(at, b"\x00") + written + held[at + len(written) :]


@dataclass
class Disk:
    """The bytes that were synced, and what was written since, in order."""

    synced: bytes = b"\x00"
    since: list[tuple[int, bytes]] = field(default_factory=list)

    def write(self, at: int, held: bytes) -> None:
        self.since.append((at, held))

    def now(self) -> bytes:
        """What it has as long as nothing stops."""
        held = self.synced
        for at, written in self.since:
            held = over(held, at, written)
        return held

    def sync(self) -> None:
        self.crash("new")

    def crash(self, outcome: str) -> None:
        """What was not synced has its old bytes, its new ones, or one byte in place of each."""
        for at, held in [] if outcome == "old" else self.since:
            kept = held if outcome == "new" else bytes([int(outcome.removeprefix("fill "))]) * len(held)
            self.synced = over(self.synced, at, kept)
        self.since = []
