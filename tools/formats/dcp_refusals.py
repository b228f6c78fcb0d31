"""Why a node refuses a client's message of DCP, as far as the message and its connection alone decide it."""

from typing import Iterator

from formats.script import is_number
from formats.wire import DCP_OPCODES, FRAMED, Frame

TAKEN = (
    "open", "control", "stream-request", "close-stream", "get-failover-log", "dcp-noop", "buffer-acknowledgement",
    "seqno-acknowledged",
)  # fmt: skip
NAME_LIMIT, NUMBER_LIMIT = 250, 2**32 - 1
PRODUCER, TAKEOVER = 1, 1
NUMBERS = (b"connection_buffer_size", b"set_noop_interval")
SWITCHES = (b"enable_sync_writes", b"enable_noop")
NAME = b"consumer_name"
# A status by its name, and what the message has that it should not.
Refusal = tuple[str, str]


def sized(count: int) -> str:
    return "1 byte" if count == 1 else f"{count:,} bytes"


def is_dcp(frame: Frame) -> bool:
    return frame.opcode in DCP_OPCODES


def form_faults(frame: Frame) -> Iterator[Refusal]:
    """What no producer takes: another message, a datatype, and parts that are not those of the message's row."""
    row, name = frame.row, frame.row.name.upper()
    if row.name not in TAKEN:
        yield "einval", f"no producer takes {name}"
    if frame.datatype:
        yield "einval", f"a client's message of DCP has the datatype 0, and this one has {frame.datatype}"
    if frame.magic == FRAMED and frame.framing:
        yield "einval", f"a message of DCP has no framing extras, and this one has {sized(len(frame.framing))}"
    wanted = sum(length for _, length in row.extras)
    if len(frame.extras) != wanted:
        yield "einval", f"{name} has extras of {sized(wanted)}, and these have {sized(len(frame.extras))}"
    if row.key is None and frame.key:
        yield "einval", f"{name} has no key, and this one has {sized(len(frame.key))}"
    if row.name == "open" and not 1 <= len(frame.key) <= NAME_LIMIT:
        yield "einval", f"a name has 1 to {NAME_LIMIT} bytes, and this one has {len(frame.key)}"
    if row.value is None and frame.value:
        yield "einval", f"{name} has no value, and this one has {sized(len(frame.value))}"


def open_faults(frame: Frame, is_open: bool) -> Iterator[Refusal]:
    flags = (frame.named_extras() or {}).get("flags", 0)
    if flags > PRODUCER:
        yield "einval", f"the flags of OPEN are 1, and these are {flags}"
    if is_open:
        yield "einval", "there was an OPEN on the connection"
    if flags != PRODUCER:
        yield "not-supported", "the flags of OPEN are 1, and these are 0"


def is_set(key: bytes, value: bytes) -> bool:
    """Whether a parameter takes a value."""
    text = value.decode("latin-1")
    if key in NUMBERS:
        return is_number(text) and int(text) <= NUMBER_LIMIT
    if key in SWITCHES:
        return text in ("true", "false")
    return key == NAME and 1 <= len(value) <= NAME_LIMIT


def message_faults(frame: Frame) -> Iterator[Refusal]:
    """What is wrong with a message behind OPEN, whatever the vBucket is."""
    flags = (frame.named_extras() or {}).get("flags", 0)
    if frame.row.name == "control" and frame.key not in (*NUMBERS, *SWITCHES, NAME):
        yield "einval", "CONTROL has no such parameter"
    elif frame.row.name == "control" and not is_set(frame.key, frame.value):
        yield "einval", f"CONTROL's parameter {frame.key.decode()} does not take this value"
    if frame.row.name == "stream-request" and flags > TAKEOVER:
        yield "einval", f"the flags of STREAM-REQUEST are 0, and these are {flags}"
    if frame.row.name == "stream-request" and flags:
        yield "not-supported", "a client does not take a vBucket over, which the flags 1 ask for"
    if frame.row.name == "seqno-acknowledged":
        yield "not-supported", "a client acknowledges no seqnos"


def dcp_refusals(frame: Frame, is_open: bool) -> Iterator[Refusal]:
    """All that is wrong with a message of DCP, in the order in which it decides."""
    yield from form_faults(frame)
    if frame.row.name == "open":
        yield from open_faults(frame, is_open)
        return
    if not is_open:
        yield "einval", "there was no OPEN on the connection"
    yield from message_faults(frame)
