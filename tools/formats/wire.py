"""Frames of the memcached binary protocol: their rows, their bytes, and where a frame begins."""

from dataclasses import dataclass, field
from typing import Iterator

from formats import Complaint

HEADER = 24
BODY_LIMIT = 22_020_096
REQUEST, FRAMED, ANSWER = 0x80, 0x08, 0x81
MAGICS = {REQUEST: "request", FRAMED: "request with framing extras", ANSWER: "response"}
DATATYPES = {0: "raw", 1: "JSON"}
DURABILITY = 1
LEVELS = {1: "majority", 2: "majority and persisted at the active", 3: "persisted at a majority"}
NO_END = 2**64 - 1

Extras = tuple[tuple[str, int], ...]


@dataclass(frozen=True)
class Row:
    """A command: what its key and its value are called, or None, and the names and lengths of its extras."""

    name: str
    opcode: int
    key: str | None = None
    value: str | None = None
    extras: Extras = ()
    answer_extras: Extras = ()
    answer_value: str | None = None


STORED: Extras = (("flags", 4), ("expiration", 4))
WRITTEN: Extras = (("branch", 8), ("seqno", 8))
ASKED: Extras = tuple((name, 8) for name in ("start", "end", "branch", "snap-start", "snap-end"))
CHANGED: Extras = (("seqno", 8), ("revision", 8))
UNUSED: Extras = (("lock-time", 4), ("metadata-length", 2), ("nru", 1))
PREPARED: Extras = (("lock-time", 4), ("nru", 1), ("deleted", 1), ("level", 1))
SETTLED: Extras = (("prepared", 8), ("seqno", 8))

ROWS = (
    Row("get", 0x00, "key", answer_extras=(("flags", 4),), answer_value="value"),
    Row("set", 0x01, "key", "value", STORED, WRITTEN),
    Row("add", 0x02, "key", "value", STORED, WRITTEN),
    Row("replace", 0x03, "key", "value", STORED, WRITTEN),
    Row("delete", 0x04, "key", answer_extras=WRITTEN),
    Row("noop", 0x0A),
    Row("hello", 0x1F, "name", "features", answer_value="features"),
    Row("open", 0x50, "name", extras=(("number", 4), ("flags", 4))),
    Row("control", 0x5E, "parameter", "value"),
    Row("close-stream", 0x52),
    Row("get-failover-log", 0x54, answer_value="log"),
    Row("dcp-noop", 0x5C),
    Row("buffer-acknowledgement", 0x5D, extras=(("bytes", 4),)),
    Row("stream-request", 0x53, extras=(("flags", 4), ("reserved", 4), *ASKED), answer_value="log"),
    Row("stream-end", 0x55, extras=(("reason", 4),)),
    Row("snapshot-marker", 0x56, extras=(("start", 8), ("end", 8), ("flags", 4))),
    Row("set-vbucket-state", 0x5B, extras=(("state", 1),)),
    Row("mutation", 0x57, "key", "value", (*CHANGED, *STORED, *UNUSED)),
    Row("deletion", 0x58, "key", extras=(*CHANGED, ("metadata-length", 2))),
    Row("prepare", 0x60, "key", "value", (*CHANGED, *STORED, *PREPARED)),
    Row("seqno-acknowledged", 0x61, extras=(("seqno", 8),)),
    Row("commit", 0x62, "key", extras=SETTLED),
    Row("abort", 0x63, "key", extras=SETTLED),
)
# The opcodes of DCP.
DCP_OPCODES = (0x50, *range(0x52, 0x59), *range(0x5B, 0x5F), *range(0x60, 0x64))
BY_NAME = {row.name: row for row in ROWS}
BY_OPCODE = {row.opcode: row for row in ROWS}

STATUSES = {
    "success": 0x00,
    "key-enoent": 0x01,
    "key-eexists": 0x02,
    "e2big": 0x03,
    "einval": 0x04,
    "not-my-vbucket": 0x07,
    "erange": 0x22,
    "rollback": 0x23,
    "unknown-frame-info": 0x80,
    "unknown-command": 0x81,
    "enomem": 0x82,
    "not-supported": 0x83,
    "etmpfail": 0x86,
    "durability-invalid-level": 0xA0,
    "durability-impossible": 0xA1,
    "sync-write-in-progress": 0xA2,
    "sync-write-ambiguous": 0xA3,
    "sync-write-recommit-in-progress": 0xA4,
}
FEATURES = {"mutation-seqnos": 0x04, "json": 0x0B, "alternative-requests": 0x10, "sync-replication": 0x11}
# What a SET_VBUCKET_STATE says.
STATES = {1: "active", 2: "replica", 3: "pending", 4: "dead"}
REASONS = {0: "its stream reached the end that was asked for", 2: "its vBucket changed its role"}


def name_of(code: int, names: dict[str, int]) -> str:
    """The name of a status or a feature, or its number where it has none."""
    return next((name for name, it in names.items() if it == code), f"{code:#06x}")


def row_of(opcode: int) -> Row:
    """The opcode's row; one that has none is named by its number."""
    return BY_OPCODE.get(opcode) or Row(f"{opcode:#04x}", opcode)


def number(held: bytes) -> int:
    return int.from_bytes(held, "big")


def big_endian(value: int, length: int, what: str) -> bytes:
    try:
        return value.to_bytes(length, "big")
    except OverflowError:
        raise Complaint(f"{what} {value} does not fit into {length} bytes") from None


@dataclass(frozen=True)
class Frame:
    """A frame by its parts. What `lengths` names stands in the header in place of the true length."""

    opcode: int
    magic: int = REQUEST
    place: int = 0
    datatype: int = 0
    opaque: int = 0
    cas: int = 0
    framing: bytes = b""
    extras: bytes = b""
    key: bytes = b""
    value: bytes = b""
    lengths: dict[str, int] = field(default_factory=dict)

    @property
    def is_answer(self) -> bool:
        return self.magic == ANSWER

    @property
    def row(self) -> Row:
        return row_of(self.opcode)

    @property
    def extras_row(self) -> Extras:
        return self.row.answer_extras if self.is_answer else self.row.extras

    def named_extras(self) -> dict[str, int] | None:
        """The extras by name, or None where they are not as long as the row's."""
        if len(self.extras) != sum(length for _, length in self.extras_row):
            return None
        named, at = {}, 0
        for name, length in self.extras_row:
            named[name] = number(self.extras[at : at + length])
            at += length
        return named

    def to_bytes(self) -> bytes:
        body = self.framing + self.extras + self.key + self.value
        length = {
            "framing-length": len(self.framing),
            "key-length": len(self.key),
            "extras-length": len(self.extras),
            "body-length": len(body),
        } | self.lengths
        key_length = big_endian(length["key-length"], 1 if self.magic == FRAMED else 2, "key-length")
        if self.magic == FRAMED:
            key_length = big_endian(length["framing-length"], 1, "framing-length") + key_length
        return b"".join(
            [
                big_endian(self.magic, 1, "magic") + big_endian(self.opcode, 1, "opcode") + key_length,
                big_endian(length["extras-length"], 1, "extras-length"),
                big_endian(self.datatype, 1, "datatype"),
                big_endian(self.place, 2, "status" if self.is_answer else "vb"),
                big_endian(length["body-length"], 4, "body-length"),
                big_endian(self.opaque, 4, "opaque") + big_endian(self.cas, 8, "cas") + body,
            ]
        )


def part_lengths(header: bytes) -> tuple[int, int, int]:
    """The lengths of framing extras, extras and key."""
    if header[0] == FRAMED:
        return header[2], header[4], header[3]
    return 0, header[4], number(header[2:4])


def fault_of(held: bytes) -> tuple[str, str] | None:
    """The fault that stands here, by its name and in words, or None where a frame begins or less than one."""
    if held[0] not in MAGICS:
        return "BadMagic", f"the first byte is {held[0]:#04x}"
    if len(held) < HEADER:
        return None
    body, parts = number(held[8:12]), sum(part_lengths(held))
    if body > BODY_LIMIT:
        return "BodyTooLong", f"a body of {body:,} bytes is too long"
    if body < parts:
        return "BadLengths", f"a body of {body} bytes is shorter than its parts, {parts}"
    return None


def why_no_frame(held: bytes) -> str | None:
    """Why no whole frame begins here, or None where one does."""
    fault = fault_of(held)
    if fault:
        return f"no frame: {fault[1]}"
    if len(held) < HEADER:
        return f"less than a frame: {len(held)} of {HEADER} bytes of the header"
    body = number(held[8:12])
    if len(held) < HEADER + body:
        return f"less than a frame: {len(held) - HEADER:,} of {body:,} bytes of the body"
    return None


def frame_of(held: bytes) -> Frame:
    """The one frame that these bytes are."""
    framing_end, extras_length, key_length = part_lengths(held)
    extras_end = framing_end + extras_length
    key_end = extras_end + key_length
    body = held[HEADER:]
    return Frame(
        opcode=held[1],
        magic=held[0],
        place=number(held[6:8]),
        datatype=held[5],
        opaque=number(held[12:16]),
        cas=number(held[16:24]),
        framing=body[:framing_end],
        extras=body[framing_end:extras_end],
        key=body[extras_end:key_end],
        value=body[key_end:],
    )


def split(held: bytes) -> tuple[list[bytes], bytes]:
    """The whole frames at the beginning, and the bytes behind them."""
    view = memoryview(held)
    frames, at = [], 0
    while at < len(held) and why_no_frame(view[at:]) is None:
        end = at + HEADER + number(held[at + 8 : at + 12])
        frames.append(held[at:end])
        at = end
    return frames, held[at:]


@dataclass(frozen=True)
class Requirement:
    """A framing extra; its level and its timeout where it is a durability requirement of a right length."""

    held: bytes
    id: int
    level: int | None = None
    timeout: int | None = None


def requirements(framing: bytes) -> Iterator[Requirement]:
    """The framing extras in order; the last one may be cut short."""
    while framing:
        end = 1 + (framing[0] & 15)
        held, framing = framing[:end], framing[end:]
        id_ = held[0] >> 4
        if id_ == DURABILITY and len(held) == end and end in (2, 4):
            yield Requirement(held, id_, held[1], number(held[2:]) if end == 4 else None)
        else:
            yield Requirement(held, id_)


Log = list[tuple[int, int]]


def log_of(value: bytes) -> Log:
    """The failover log that a value of whole entries is, newest first: each branch, and where it was made."""
    return [(number(value[i : i + 8]), number(value[i + 8 : i + 16])) for i in range(0, len(value), 16)]


def features_of(value: bytes) -> list[str]:
    return [name_of(number(value[i : i + 2]), FEATURES) for i in range(0, len(value), 2)]
