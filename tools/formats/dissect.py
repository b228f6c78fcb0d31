"""Frames field by field, and frames as a phrase for people."""

from dataclasses import dataclass
from typing import Iterator

from formats import wire
from formats.wire import DATATYPES, FEATURES, FRAMED, HEADER, LEVELS, MAGICS, NO_END, STATUSES, Frame
from formats.words import plain, value_kind

LONG = 64


@dataclass(frozen=True)
class Field:
    at: int
    held: bytes
    name: str
    meaning: str


def shown(held: bytes) -> str:
    """Bytes as quoted text where they are text, else in hexadecimal; long ones are cut."""
    text = plain(held[:LONG] if plain(held[:LONG]) is not None else held[: LONG - 3])
    tail = f"... ({len(held):,} bytes)" if len(held) > LONG else ""
    return f'"{text}"{tail}' if text is not None else f"0x{held[:LONG].hex()}{tail}"


def meaning_of(name: str, value: int) -> str:
    if name in ("end", "snap-end") and value == NO_END:
        return "without end"
    if name == "state":
        return f"{value}, {wire.STATES.get(value, 'unknown')}"
    if name == "reason":
        return f"{value}, {wire.REASONS.get(value, 'unknown')}"
    return str(value)


def header_fields(held: bytes) -> Iterator[Field]:
    magic, opcode, datatype = held[0], held[1], held[5]
    place, is_answer = wire.number(held[6:8]), magic == wire.ANSWER

    def field(at: int, end: int, name: str, meaning: str | None = None) -> Field:
        return Field(at, held[at:end], name, meaning or str(wire.number(held[at:end])))

    yield field(0, 1, "magic", MAGICS[magic])
    known = wire.BY_OPCODE.get(opcode)
    yield field(1, 2, "opcode", known.name if known else "unknown")
    if magic == FRAMED:
        yield field(2, 3, "framing length")
        yield field(3, 4, "key length")
    else:
        yield field(2, 4, "key length")
    yield field(4, 5, "extras length")
    yield field(5, 6, "datatype", f"{datatype}, {DATATYPES.get(datatype, 'unknown')}")
    if is_answer:
        yield field(6, 8, "status", wire.name_of(place, STATUSES))
    else:
        yield field(6, 8, "vBucket")
    yield field(8, 12, "body length")
    yield field(12, 16, "opaque")
    yield field(16, 24, "CAS")


def framing_meaning(extra: wire.Requirement) -> str:
    if extra.level is None:
        return f"id {extra.id}, {len(extra.held) - 1} of {extra.held[0] & 15} bytes"
    timeout = "" if extra.timeout is None else f", timeout {extra.timeout} ms"
    return f"durability {extra.level}, {LEVELS.get(extra.level, 'unknown level')}{timeout}"


def value_fields(frame: Frame, at: int) -> Iterator[Field]:
    value, kind = frame.value, value_kind(frame.row, frame.is_answer)
    if kind == "features" and len(value) % 2 == 0:
        for i in range(0, len(value), 2):
            yield Field(at + i, value[i : i + 2], "feature", wire.name_of(wire.number(value[i : i + 2]), FEATURES))
    elif kind == "log" and frame.place == STATUSES["rollback"] and len(value) == 8:
        yield Field(at, value, "roll back to", str(wire.number(value)))
    elif kind == "log" and value and len(value) % 16 == 0:
        for i, (branch, seqno) in enumerate(wire.log_of(value)):
            yield Field(at + 16 * i, value[16 * i : 16 * i + 16], "log entry", f"branch {branch}, made at {seqno}")
    elif value:
        yield Field(at, value, "value", shown(value))


def body_fields(frame: Frame) -> Iterator[Field]:
    at = HEADER
    for extra in wire.requirements(frame.framing):
        yield Field(at, extra.held, "framing extra", framing_meaning(extra))
        at += len(extra.held)
    named = frame.named_extras()
    if named is None and frame.extras:
        wanted = sum(length for _, length in frame.extras_row)
        yield Field(at, frame.extras, "extras", f"{len(frame.extras)} bytes, where the row has {wanted}")
    for name, length in frame.extras_row if named else ():
        start = at - HEADER
        held = frame.extras[start - len(frame.framing) :][:length]
        yield Field(at, held, name.replace("-", " "), meaning_of(name, wire.number(held)))
        at += length
    at = HEADER + len(frame.framing) + len(frame.extras)
    if frame.key:
        yield Field(at, frame.key, frame.row.key or "key", shown(frame.key))
    yield from value_fields(frame, at + len(frame.key))


def fields(held: bytes) -> tuple[list[Field], str | None, bytes]:
    """The first frame's fields, why there is no whole frame or None, and what is behind the frame."""
    why = wire.why_no_frame(held)
    if why is not None:
        has_header = held[0] in MAGICS and len(held) >= HEADER
        return list(header_fields(held)) if has_header else [], why, b""
    end = HEADER + wire.number(held[8:12])
    return [*header_fields(held), *body_fields(wire.frame_of(held[:end]))], None, held[end:]


def phrase(frame: Frame) -> str:
    """A frame in one line: its name, its status, and each field that is not 0 or empty."""
    parts = [f"vBucket {frame.place}"] if frame.place and not frame.is_answer else []
    named = frame.named_extras() or {}
    tells_zero = frame.is_answer or frame.row.name == "stream-request"
    for field in body_fields(frame):
        if named.get(field.name.replace(" ", "-"), 1) or tells_zero:
            parts.append(f"{field.name} {field.meaning}")
    parts += [f"datatype {DATATYPES.get(frame.datatype, frame.datatype)}"] if frame.datatype else []
    parts += [f"opaque {frame.opaque}"] if frame.opaque else []
    parts += [f"CAS {frame.cas}"] if frame.cas else []
    name = frame.row.name.upper() if frame.opcode in wire.BY_OPCODE else f"opcode {frame.row.name}"
    if frame.is_answer:
        name += f" answered {wire.name_of(frame.place, STATUSES)}"
    return f"{name}: {', '.join(parts)}" if parts else name
