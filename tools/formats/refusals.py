"""Why a node refuses a client's request, as far as the request and its connection alone decide it."""

from typing import Iterator

from formats.dcp_refusals import Refusal, dcp_refusals, is_dcp, sized
from formats.wire import BY_OPCODE, DATATYPES, DURABILITY, FEATURES, LEVELS, STATUSES, Frame, requirements

WRITES = ("set", "add", "replace", "delete")
COMMANDS = (*WRITES, "get", "noop", "hello")
KEY_LIMIT, VALUE_LIMIT = 250, 20_971_520


def is_client_command(frame: Frame) -> bool:
    return frame.opcode in BY_OPCODE and frame.row.name in COMMANDS


def command_faults(frame: Frame) -> Iterator[Refusal]:
    if not is_client_command(frame):
        yield "unknown-command", f"neither a command of a client nor DCP has the opcode {frame.opcode:#04x}"


def datatype_faults(frame: Frame, has_json: bool) -> Iterator[Refusal]:
    if frame.datatype not in DATATYPES:
        yield "einval", f"a datatype is 0 or 1, and this one is {frame.datatype}"
    elif frame.datatype and not has_json:
        yield "einval", "the datatype is 1, and the connection has not set the feature JSON"


def framing_faults(frame: Frame) -> Iterator[Refusal]:
    found = list(requirements(frame.framing))
    for place, extra in enumerate(found):
        wanted = extra.held[0] & 15
        if extra.id != DURABILITY:
            yield "unknown-frame-info", f"a framing extra has the id {DURABILITY}, and this one has {extra.id}"
        elif len(extra.held) <= wanted:
            yield "einval", f"a durability requirement is cut short, at {len(extra.held) - 1} of {sized(wanted)}"
        elif extra.level is None:
            yield "einval", f"a durability requirement has 1 or 3 bytes, and this one has {wanted}"
        elif place:
            yield "einval", "there is a second durability requirement"


def durability_faults(frame: Frame) -> Iterator[Refusal]:
    for extra in requirements(frame.framing):
        if frame.row.name not in WRITES:
            yield "not-supported", f"{frame.row.name.upper()} has no durability requirement, and this one has one"
        elif extra.level not in LEVELS:
            yield "durability-invalid-level", f"a durability level is 1, 2 or 3, and this one is {extra.level}"


def part_faults(frame: Frame) -> Iterator[Refusal]:
    """Extras, key and value that are not those of the command's row, and an ADD's CAS."""
    row, name = frame.row, frame.row.name.upper()
    wanted = sum(length for _, length in row.extras)
    least = 1 if row.key == "key" else 0
    if len(frame.extras) != wanted:
        yield "einval", f"{name} has extras of {sized(wanted)}, and these have {sized(len(frame.extras))}"
    if row.key is None and frame.key:
        yield "einval", f"{name} has no key, and this one has {sized(len(frame.key))}"
    elif not least <= len(frame.key) <= KEY_LIMIT:
        yield "einval", f"a {row.key} has {least} to {KEY_LIMIT} bytes, and this one has {len(frame.key)}"
    if row.value is None and frame.value:
        yield "einval", f"{name} has no value, and this one has {sized(len(frame.value))}"
    elif row.value == "features" and len(frame.value) % 2:
        yield "einval", f"features have 2 bytes each, and these have {sized(len(frame.value))} together"
    if row.name == "add" and frame.cas:
        yield "einval", f"ADD has the CAS 0, and this one has {frame.cas}"


def size_faults(frame: Frame) -> Iterator[Refusal]:
    if len(frame.value) > VALUE_LIMIT:
        yield "e2big", f"a value has at most {VALUE_LIMIT:,} bytes, and this one has {len(frame.value):,}"


def refusals(frame: Frame, has_json: bool) -> Iterator[Refusal]:
    """All that is wrong with a request, in the order in which it decides."""
    yield from command_faults(frame)
    yield from datatype_faults(frame, has_json)
    yield from framing_faults(frame)
    yield from durability_faults(frame)
    yield from part_faults(frame)
    yield from size_faults(frame)


def refusal(frame: Frame, has_json: bool, is_open: bool) -> Refusal | None:
    """Why the request is refused whatever the vBucket is, or None where that depends on the vBucket."""
    return next(dcp_refusals(frame, is_open) if is_dcp(frame) else refusals(frame, has_json), None)


def status_text(name: str) -> str:
    """A status as docs/FORMATS.md writes it."""
    return f"{''.join(part.capitalize() for part in name.split('-'))} ({STATUSES[name]:#06x})"


def is_durable(frame: Frame) -> bool:
    return any(extra.level in LEVELS for extra in requirements(frame.framing))


def asks_for_json(hello: Frame) -> bool:
    held = FEATURES["json"].to_bytes(2, "big")
    return held in [hello.value[i : i + 2] for i in range(0, len(hello.value), 2)]
