"""A script's lines."""

from dataclasses import dataclass

from formats import Complaint, grammar

# Each verb and the names of its operands; a replica's vb has none of the last one.
OPERANDS = {
    "node": ["node"],
    "vb": ["node", "vb", "role", "branch"],
    "clock": ["node", "time"],
    "client": ["node", "client"],
    "bytes": ["node", "client", "hex"],
    "pull": ["node", "client", "count"],
    "hang": ["node", "client"],
    "link": ["link", "producer", "consumer", "vb", "buffer", "mode"],
    "up": ["link", "count"],
    "down": ["link", "count"],
    "pump": ["link", "count"],
    "drop": ["link"],
    "cut": ["link"],
    "promote": ["node", "vb", "branch"],
    "follow": ["node", "vb"],
    "dead": ["node", "vb"],
    "chain": ["node", "vb", "members"],
    "tick": ["node", "vb"],
    "seal": ["node", "vb"],
    "trim": ["node", "vb"],
    "take": ["node", "vb"],
    "save": ["node", "vb"],
    "done": ["node", "vb"],
    "stop": ["node", "call", "outcome"],
    "fail": ["node", "call"],
    "crash": ["node", "outcome"],
    "start": ["node", "branches"],
    "stat": ["node", "vb"],
    "log": ["node", "vb"],
    "show": ["node", "vb"],
}


@dataclass(frozen=True)
class Line:
    """A line with a verb: its operands by name, as words."""

    number: int
    text: str
    verb: str
    operands: dict[str, str]

    def __getitem__(self, operand: str) -> int:
        return int(self.operands[operand])

    @property
    def held(self) -> bytes:
        return bytes.fromhex(self.operands["hex"])


@dataclass(frozen=True)
class Script:
    """The lines with verbs by number, and the text of every line."""

    lines: dict[int, Line]
    texts: list[str]


def is_number(text: str) -> bool:
    """Whether it is a decimal number without needless zeros, below 2^64."""
    is_short = text.isdecimal() and text.isascii() and len(text) <= 20
    return is_short and int(text) < 2**64 and str(int(text)) == text


def operands_of(verb: str, words: list[str]) -> list[str]:
    """The words of a line as operands: an outcome has one word or two, and ids or members stand together."""
    if verb in ("stop", "crash") and words[-2:-1] == ["fill"]:
        return [*words[:-2], " ".join(words[-2:])]
    if verb == "start" and words:
        return [words[0], " ".join(words[1:])]
    if verb == "chain" and len(words) > 1:
        return [*words[:2], " ".join(words[2:])]
    return words


def line_of(number: int, text: str) -> Line:
    if grammar.fault_of(text.encode()):
        raise Complaint(f"the script's line {number} is none of the grammar: {text[:60]!r}; tools/lint says more")
    verb, *words = text.split(" ")
    return Line(number, text, verb, dict(zip(OPERANDS[verb], operands_of(verb, words))))


def read(path: str, is_good: bool = True) -> Script:
    """The script in a file. One that the transcript calls bad is read for its texts alone."""
    with open(path, "rb") as file:
        held = file.read()
    if not is_good:
        return Script({}, held.decode("utf-8", "replace").split("\n"))
    texts = held.decode("utf-8", "replace").removesuffix("\n").split("\n")
    numbered = [(number, text) for number, text in enumerate(texts, 1) if text and not text.startswith(";")]
    return Script({number: line_of(number, text) for number, text in numbered}, texts)
