"""Frames as words, and words as frames: `set KEY VALUE --vb 7 --cas 3`, `answer get VALUE --flags 0`.

Each frame has words, also one that is not as its row asks, and its words make the same bytes again.
"""

import re
import shlex
from typing import Iterator

from formats import Complaint

from formats.wire import (
    ANSWER, BY_NAME, DURABILITY, FEATURES, FRAMED, REQUEST, STATUSES,
    Frame, Row, big_endian, features_of, log_of, name_of, requirements, row_of,
)  # fmt: skip

# A shell's word, and its pieces, in quotation marks and outside them.
WORD = re.compile(r"""(?:[^\s'"]+|'[^']*'|"[^"]*")+""")
PIECE = re.compile(r"""'([^']*)'|"([^"]*)"|([^'"]+)""")
LENGTHS = ("framing-length", "key-length", "extras-length", "body-length")


def number(text: str, names: dict[str, int] | None = None) -> int:
    if names and text in names:
        return names[text]
    try:
        value = int(text, 0) if text[:1].isdigit() else -1
    except ValueError:
        value = -1
    if value < 0:
        raise Complaint(f"{text!r} is no number" + (" and no name" if names else ""))
    return value


def data(text: str) -> bytes:
    """Text as it stands, or the bytes of hexadecimal behind 0x."""
    if not text.startswith("0x"):
        return text.encode("utf-8", "surrogateescape")
    try:
        return bytes.fromhex(text[2:])
    except ValueError:
        raise Complaint(f"{text} is no hexadecimal of whole bytes") from None


def plain(held: bytes) -> str | None:
    """The bytes as text, or None where they are no text that can be printed."""
    try:
        text = held.decode()
    except UnicodeDecodeError:
        return None
    return text if text.isprintable() else None


def word(held: bytes) -> str:
    text = plain(held)
    return f"0x{held.hex()}" if text is None or text.startswith(("0x", "--")) else text


def log_text(log: list[tuple[int, int]]) -> str:
    return ",".join(f"{branch}:{seqno}" for branch, seqno in log) or "-"


def operands(row: Row, is_answer: bool) -> list[str]:
    """What stands behind the name without a name of its own: a key, a value or both."""
    if is_answer:
        return ["value"] if row.answer_value == "value" else []
    return [part for part, it in (("key", row.key), ("value", row.value)) if it not in (None, "features")]


def value_kind(row: Row, is_answer: bool) -> str | None:
    return row.answer_value if is_answer else row.value


class Options:
    """The words behind a frame's name: operands by part, and options by name."""

    def __init__(self, name: str, words: list[str], parts: list[str]):
        self.name = name
        self.held: dict[str, str] = {}
        free = list(parts)
        rest = iter(words)
        for it in rest:
            if it.startswith("--"):
                option, is_joined, value = it[2:].partition("=")
                value = value if is_joined else self.behind(it, rest)
            elif free:
                option, value = free.pop(0), it
            else:
                raise Complaint(f"{name} has no place for {it!r}")
            if option in self.held:
                raise Complaint(f"{name} has two values for {option}")
            self.held[option] = value

    @staticmethod
    def behind(option: str, rest: Iterator[str]) -> str:
        for value in rest:
            return value
        raise Complaint(f"{option} wants a value behind it")

    def __contains__(self, option: str) -> bool:
        return option in self.held

    def text(self, option: str, default: str = "") -> str:
        return self.held.pop(option, default)

    def number(self, option: str, names: dict[str, int] | None = None, default: int = 0) -> int:
        return number(self.held.pop(option), names) if option in self.held else default

    def end(self) -> None:
        for option in self.held:
            raise Complaint(f"{self.name} has no --{option}")


def taken_framing(options: Options) -> bytes:
    framing = data(options.text("framing"))
    if "durability" not in options:
        return framing
    level, _, timeout = options.text("durability").partition(",")
    held = big_endian(number(level), 1, "durability")
    held += big_endian(number(timeout), 2, "timeout") if timeout else b""
    return framing + bytes([DURABILITY << 4 | len(held)]) + held


def taken_extras(options: Options, row: Row, is_answer: bool) -> bytes:
    """The row's extras; an answer has none where none of its fields is named."""
    extras = row.answer_extras if is_answer else row.extras
    if "extras" in options:
        return data(options.text("extras"))
    if is_answer and not any(name in options for name, _ in extras):
        return b""
    return b"".join(big_endian(options.number(name), length, name) for name, length in extras)


def taken_value(options: Options, kind: str | None) -> bytes:
    if kind == "features" and "features" in options:
        asked = options.text("features").split(",")
        return b"".join(big_endian(number(it, FEATURES), 2, "feature") for it in asked)
    if kind == "log" and "to" in options:
        return big_endian(options.number("to"), 8, "to")
    if kind == "log" and "log" in options:
        entries = (entry.partition(":")[::2] for entry in options.text("log").split(","))
        return b"".join(big_endian(number(text), 8, "log") for entry in entries for text in entry)
    return data(options.text("value"))


def row_named(name: str) -> Row:
    if name in BY_NAME:
        return BY_NAME[name]
    if not name[:1].isdigit():
        raise Complaint(f"there is no frame {name!r}; there are {', '.join(BY_NAME)}")
    return row_of(number(name))


def make(words: list[str]) -> bytes:
    """The bytes of the frame that the words name."""
    is_answer = words[:1] == ["answer"]
    name, *rest = words[is_answer:] or [""]
    row = row_named(name)
    options = Options(name, rest, operands(row, is_answer))
    framing = taken_framing(options)
    magic = options.number("magic", default=ANSWER if is_answer else FRAMED if framing else REQUEST)
    frame = Frame(
        opcode=row.opcode,
        magic=magic,
        place=options.number("status", STATUSES) if magic == ANSWER else options.number("vb"),
        datatype=options.number("datatype"),
        opaque=options.number("opaque"),
        cas=options.number("cas"),
        framing=framing,
        extras=taken_extras(options, row, is_answer),
        key=data(options.text("key")),
        value=taken_value(options, value_kind(row, is_answer)),
        lengths={name: options.number(name) for name in LENGTHS if name in options},
    )
    options.end()
    return frame.to_bytes()


def extras_words(frame: Frame) -> list[str]:
    named = frame.named_extras()
    if named is None:
        return ["--extras", f"0x{frame.extras.hex()}"] if frame.extras or not frame.is_answer else []
    return [it for name, value in named.items() if value or frame.is_answer for it in (f"--{name}", str(value))]


def framing_words(frame: Frame) -> list[str]:
    if not frame.framing:
        return ["--magic", f"{FRAMED:#04x}"] if frame.magic == FRAMED else []
    match list(requirements(frame.framing)):
        case [it] if it.level is not None:
            return ["--durability", f"{it.level}" + ("" if it.timeout is None else f",{it.timeout}")]
    return ["--framing", f"0x{frame.framing.hex()}"]


def value_words(frame: Frame) -> list[str]:
    """A value that is no operand."""
    value, kind = frame.value, value_kind(frame.row, frame.is_answer)
    if not value:
        return []
    if kind == "features" and len(value) % 2 == 0:
        return ["--features", ",".join(features_of(value))]
    if kind == "log" and frame.place == STATUSES["rollback"] and len(value) == 8:
        return ["--to", str(int.from_bytes(value, "big"))]
    if kind == "log" and len(value) % 16 == 0:
        return ["--log", log_text(log_of(value))]
    return ["--value", word(value)]


def words_of(frame: Frame) -> list[str]:
    """The words that make this frame again."""
    named = operands(frame.row, frame.is_answer)
    words = ["answer"] * frame.is_answer + [frame.row.name]
    operand = {"key": frame.key, "value": frame.value}
    given = [word(operand[part]) for part in named]
    while given and not given[-1]:
        given.pop()
    words += given
    words += ["--key", word(frame.key)] if frame.key and "key" not in named else []
    words += [] if "value" in named else value_words(frame)
    if frame.is_answer:
        words += ["--status", name_of(frame.place, STATUSES)]
    words += extras_words(frame)
    header = {"vb": 0 if frame.is_answer else frame.place, "datatype": frame.datatype}
    header |= {"opaque": frame.opaque, "cas": frame.cas}
    words += [it for name, value in header.items() if value for it in (f"--{name}", str(value))]
    return words + framing_words(frame)


def line_of(words: list[str]) -> str:
    return shlex.join(words)


def words_in(line: str) -> list[str]:
    """The words of a line, with quotation marks as a shell has them."""
    if WORD.sub("", line).strip():
        raise Complaint("a quotation mark without another one")
    return ["".join(map("".join, PIECE.findall(word))) for word in WORD.findall(line)]
