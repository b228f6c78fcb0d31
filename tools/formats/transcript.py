"""A transcript's groups, and the events in them."""

from dataclasses import dataclass
from types import SimpleNamespace
from typing import BinaryIO, Iterator

from formats import Complaint
from formats.script import Script, is_number
from formats.wire import ANSWER, Log

DOCUMENT = "key cas revision flags expiration datatype value"
ACTS = {
    "set": DOCUMENT,
    "remove": "key cas revision",
    "prepare": f"{DOCUMENT} level deleted",
    "commit": f"{DOCUMENT} prepared deleted",
    "abort": "key prepared",
}
KINDS = {
    "branch": "node vb branch parent fork high",
    "role": "node vb role",
    "change": "node vb branch CHANGE",
    "reply": "node client held",
    "closed": "node client",
    "ask": "stream node vb branch start end snap_start snap_end flags high log ANSWER",
    "mark": "stream start end flags",
    "item": "stream seqno act key",
    "fin": "stream reason",
    "state": "stream role",
    "adopt": "node vb log",
    "range": "node vb start end",
    "got": "node vb link CHANGE",
    "ack": "link node vb seqno saved",
    "acked": "link node vb member seqno",
    "rolled": "node vb named to",
    "batch": "node vb start end at count",
    "failed": "node",
    "stopped": "node",
    "end": "link why",
    "shown": "node vb role branch at start end docs preps",
    "logged": "node vb log",
    "stat": "node vb checkpoints items cursors saved high",
    "doc": DOCUMENT,
    "prep": "key seqno level",
}
ANSWERS = {"go": "", "roll": "to", "refuse": "status"}
ROLES = ("active", "replica", "pending", "dead")


# A stream's connection: a link, or a node and a client of it.
Connection = int | tuple[int, int]


class Event(SimpleNamespace):
    """An event line: its `text`, its `kind`, and the fields of its kind by name."""

    text: str
    kind: str

    @property
    def is_answer(self) -> bool:
        """Whether a `reply` answers a request; else its frame is a stream's."""
        return self.held[:1] == bytes([ANSWER])


@dataclass
class Group:
    number: int
    events: list[Event]
    answer: list[str]


@dataclass
class Transcript:
    """The groups, or the number of the script's first bad line."""

    groups: list[Group]
    bad_line: int | None = None


def log_of(text: str) -> Log:
    entries = [entry.split(":") for entry in text.split(",")] if text != "-" else []
    if not all(len(entry) == 2 and all(map(is_number, entry)) for entry in entries):
        raise ValueError
    return [(int(branch), int(seqno)) for branch, seqno in entries]


def value_of(field: str, text: str) -> object:
    match field:
        case "key" | "value" | "held":
            if text != text.lower() or not text:
                raise ValueError
            return bytes.fromhex("" if text == "-" else text)
        case "log":
            return log_of(text)
        case "role" if text in ROLES:
            return text
        case "act" if text in ACTS:
            return text
        case "why":
            return text
        case "parent" if text == "-":
            return None
        case "stream" if text[:1] == "C":
            node, client = map(int, filter(is_number, text[1:].split(".")))
            if text != f"C{node}.{client}":
                raise ValueError
            return node, client
        case "stream" | "link":
            if text[:1] != "L":
                raise ValueError
            text = text[1:]
    if not is_number(text):
        raise ValueError
    return int(text)


def fields_of(names: str, words: list[str]) -> dict[str, object]:
    """The fields by name; a change's or an answer's own fields are named by its first words."""
    fields: dict[str, object] = {}
    for name in names.split():
        if name == "CHANGE":
            seqno, act, *rest = words
            return fields | {"seqno": value_of("seqno", seqno), "act": act} | fields_of(ACTS[act], rest)
        if name == "ANSWER":
            answer, *rest = words
            return fields | {"answer": answer} | fields_of(ANSWERS[answer], rest)
        fields[name] = value_of(name, words[0])
        words = words[1:]
    if words:
        raise ValueError
    return fields


def event_of(text: str) -> Event:
    kind, *words = text.split(" ")
    try:
        return Event(text=text, kind=kind, **fields_of(KINDS[kind], words))
    except (KeyError, ValueError, IndexError):
        raise Complaint(f"no transcript has the line {text[:60]!r}") from None


def is_answer(words: list[str]) -> bool:
    match words:
        case ["ok"] | ["no", _]:
            return True
        case ["ok", count] | ["ok", count, "-" | "idle" | "full" | "wait-state" | "wait-saved" | "disk"]:
            return is_number(count)
    return False


def lines_of(file: BinaryIO) -> Iterator[tuple[int, str]]:
    for number, line in enumerate(file, 1):
        yield number, line.decode("ascii", "backslashreplace").removesuffix("\n")


def read(file: BinaryIO) -> Transcript:
    """The whole transcript; one that stops in the middle is no transcript."""
    groups: list[Group] = []
    lines = lines_of(file)
    for at, text in lines:
        is_open = bool(groups) and not groups[-1].answer
        words = text.split(" ")
        if at == 1 and words[:2] == ["bad", "line"] and len(words) == 3 and is_number(words[2]):
            if next(lines, None):
                raise Complaint("the transcript goes on behind its bad line")
            return Transcript([], int(words[2]))
        if text.startswith("#") and is_number(text[1:]) and not is_open:
            groups.append(Group(int(text[1:]), [], []))
        elif not is_open:
            raise Complaint(f"the transcript's line {at} is in no group: {text[:60]!r}")
        elif is_answer(words):
            groups[-1].answer = words
        else:
            try:
                groups[-1].events.append(event_of(text))
            except Complaint as complaint:
                raise Complaint(f"line {at}: {complaint}") from None
    if groups and not groups[-1].answer:
        raise Complaint(f"the transcript ends inside group #{groups[-1].number}")
    return Transcript(groups)


def check_pair(script: Script, transcript: Transcript) -> None:
    """That each group is of a line with a verb, in order, and that each such line has its group."""
    if transcript.bad_line is not None:
        return
    numbers = [group.number for group in transcript.groups]
    for number, line in zip(numbers, script.lines):
        if number != line:
            raise Complaint(f"the transcript has group #{number} where the script has line {line}")
    if len(numbers) != len(script.lines):
        raise Complaint(
            f"the script has {len(script.lines)} lines with groups, and the transcript {len(numbers)} groups"
        )
