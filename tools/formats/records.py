"""The records of a journal, as docs/FORMATS.md has them, and their payloads as bytes."""

from dataclasses import dataclass
from typing import Iterator

from formats.dissect import shown
from formats.sentences import counted
from formats.transcript import Event
from formats.wire import Log

ROLE_BYTES = {"active": 1, "replica": 2, "dead": 4}
ACTS = {"set": "a set", "remove": "a removal", "prepare": "a prepare", "commit": "a commit", "abort": "an abort"}
# A part of a record: the bytes of its fields, and what they are.
Part = tuple[list[bytes], str]


@dataclass(frozen=True)
class State:
    """The vBucket took a role, and has this failover log then."""

    role: str
    log: Log


@dataclass(frozen=True)
class Rows:
    """A batch: the changes up to `at`, in the snapshot from `start` to `end`, and what the vBucket had at its take."""

    start: int
    end: int
    at: int
    cas: int
    log: Log
    changes: list[Event]

    @property
    def is_complete(self) -> bool:
        return self.at == self.end


@dataclass(frozen=True)
class Roll:
    """The vBucket went back to a seqno; the one that was named is not written down."""

    to: int
    named: int


Record = State | Rows | Roll


def big(number: int, length: int) -> bytes:
    return number.to_bytes(length, "big")


def log_parts(log: Log) -> Iterator[Part]:
    yield [big(len(log), 1)], f"a failover log of {len(log)} {'entry' if len(log) == 1 else 'entries'}"
    for branch, seqno in log:
        yield [big(branch, 8), big(seqno, 8)], f"branch {branch}, made at {seqno}"


def document_parts(event: Event) -> Iterator[Part]:
    yield [big(event.cas, 8), big(event.revision, 8)], f"CAS {event.cas}, revision {event.revision}"
    numbers = [big(event.flags, 4), big(event.expiration, 4), big(event.datatype, 1)]
    yield numbers, f"flags {event.flags}, expiration {event.expiration}, datatype {event.datatype}"
    yield [big(len(event.value), 4), event.value], f"a value of {counted(len(event.value), 'byte', 'bytes')}"


def change_parts(event: Event) -> Iterator[Part]:
    act = list(ACTS).index(event.act) + 1
    head = [big(event.seqno, 8), big(act, 1), big(len(event.key), 1), event.key]
    yield head, f"change {event.seqno}, {ACTS[event.act]} of the key {shown(event.key)}"
    match event.act:
        case "prepare":
            yield [big(event.level, 1), big(event.deleted, 1)], f"level {event.level}, deleted {event.deleted}"
        case "commit":
            told = f"prepared at {event.prepared}, deleted {event.deleted}"
            yield [big(event.prepared, 8), big(event.deleted, 1)], told
        case "abort":
            yield [big(event.prepared, 8)], f"prepared at {event.prepared}"
    if event.act == "remove":
        yield [big(event.cas, 8), big(event.revision, 8)], f"CAS {event.cas}, revision {event.revision}"
    elif event.act != "abort":
        yield from document_parts(event)


def payload_parts(record: Record) -> Iterator[Part]:
    """The payload of a record, part by part."""
    match record:
        case State(role, log):
            yield [b"\x01", b"\x01"], "version 1, State"
            yield [big(ROLE_BYTES[role], 1)], role
            yield from log_parts(log)
        case Rows(start, end, at, cas, log, changes):
            yield [b"\x01", b"\x02"], "version 1, Rows"
            yield [big(start, 8), big(end, 8)], f"the snapshot from {start} to {end}"
            yield [big(at, 8), big(cas, 8)], f"the last seqno {at}, the last CAS {cas}"
            yield from log_parts(log)
            yield [big(len(changes), 4)], counted(len(changes), "change", "changes")
            for change in changes:
                yield from change_parts(change)
        case Roll(to):
            yield [b"\x01", b"\x03"], "version 1, Roll"
            yield [big(to, 8)], f"to {to}"


def payload(record: Record) -> bytes:
    return b"".join(field for fields, _ in payload_parts(record) for field in fields)
