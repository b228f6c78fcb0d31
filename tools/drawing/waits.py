"""The durable writes that clients wait for, over the lane of the vBucket that they asked, each in a free row."""

from dataclasses import dataclass

from drawing.marks import GO, LOST, OPEN, document_label
from formats.histories import Stage
from formats.writes import Write


@dataclass(frozen=True)
class Wait:
    """From the column of the prepare, or of what is refused, to that of the answer, if there is one."""

    write: Write
    first: int
    last: int | None
    row: int

    def is_in(self, first: int, end: int) -> bool:
        return self.first < end and (self.last is None or self.last >= first)

    def asked(self) -> str:
        write = self.write
        return f"client {write.client}: {document_label(write.key, write.value, 14)}, level {write.level}"

    def told(self) -> tuple[str, str]:
        """What the client is told, in short, and its colour."""
        words, colour = told_of(self.write)
        return words.removeprefix("sync-write-").removeprefix("durability-"), colour


def told_of(write: Write) -> tuple[str, str]:
    status = write.answered[1] if write.answered else ""
    match status:
        case "success":
            return "success", GO
        case "sync-write-ambiguous":
            return "ambiguous", OPEN
        case None:
            return "not told", LOST
        case "":
            return "", OPEN
    return status, LOST


def waits_of(writes: list[Write], node: int, stages: list[Stage]) -> list[Wait]:
    """The waits at a node, the ones that overlap in different rows."""
    columns = {stage.number: i for i, stage in enumerate(stages)}
    found: list[Wait] = []
    for write in (it for it in writes if it.node == node and it.client is not None):
        first = columns[write.prepared_in]
        last = columns[write.answered[0]] if write.answered else None
        taken = {it.row for it in found if it.last is None or it.last >= first}
        row = next(row for row in range(len(found) + 1) if row not in taken)
        found.append(Wait(write, first, last, row))
    return found
