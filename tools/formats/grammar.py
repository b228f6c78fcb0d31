"""The grammar of a script's lines: what may stand in each place, and which word of a line is wrong."""

import re
from dataclasses import dataclass
from difflib import get_close_matches

SCRIPT_LIMIT = 268_435_456
LINE_END = "the line's end"
CAPITALS, OTHER = "is not in small letters", "is none that may stand there"
# How much of a word is shown.
SHOWN = 40
# Bytes that no word has, by name.
ODD = {0: "a NUL", 9: "a tab", 13: "a carriage return"}


@dataclass(frozen=True)
class Number:
    """A decimal number within limits."""

    what: str
    least: int
    most: int

    @property
    def wanted(self) -> str:
        return f"{self.what} from {self.least} to {self.most}"

    def flaw(self, word: bytes) -> str | None:
        if not word.isdigit():
            return "is no number"
        if word != b"0" and word.startswith(b"0"):
            return "has a needless zero"
        if len(word) > len(str(self.most)) or int(word) > self.most:
            return f"is above {self.most}"
        return f"is below {self.least}" if int(word) < self.least else None


class Member(Number):
    """A member of a chain, which may be one that is not set."""

    @property
    def wanted(self) -> str:
        return f"- or {super().wanted}"

    def flaw(self, word: bytes) -> str | None:
        return None if word == b"-" else super().flaw(word)


class Digits:
    """Bytes in hexadecimal."""

    wanted = "bytes, each two hexadecimal digits"

    def flaw(self, word: bytes) -> str | None:
        other = re.search(rb"[^0-9a-fA-F]", word)
        if other:
            return f"has no hexadecimal digit at its place {other.start() + 1}"
        return f"has an odd number of digits, {len(word)}" if len(word) % 2 else None


@dataclass(frozen=True)
class Word:
    """A word that stands there as it is."""

    wanted: str

    def flaw(self, word: bytes) -> str | None:
        text = word.decode("latin-1")
        if text == self.wanted:
            return None
        return CAPITALS if text.lower() == self.wanted else OTHER


Kind = Number | Digits | Word

# What a letter stands for; the letter alone, or with the verb where it is not the same for all.
KINDS: dict[str, Kind] = {
    "N": Number("a node", 0, 15),
    "M": Number("a node", 0, 15),
    "V": Number("a vBucket", 0, 1023),
    "C": Number("a client", 0, 999),
    "L": Number("a link", 0, 999),
    "U": Number("a branch id", 0, 2**64 - 1),
    "T": Number("a time in nanoseconds", 0, 2**64 - 1),
    "B": Number("a number of bytes", 0, 1_000_000_000),
    "H": Number("a byte", 0, 255),
    "BUF": Number("a number of bytes", 0, 2**32 - 1),
    "HEX": Digits(),
    "chain M": Member("a node", 0, 15),
    "pull K": Number("a number of frames", 1, 1_000_000),
    "pump K": Number("a number of frames", 1, 1_000_000),
    "stop K": Number("a device call", 0, 1_000_000_000),
    "fail K": Number("a device call", 0, 1_000_000_000),
}
OUTCOMES = ("old", "new", "fill H")
# How often the last letter may stand, from no time on.
MOST = {"and M..": 3, "and U..": 64}
# Each line that says something, as docs/FORMATS.md writes it.
LINES = (
    "node N",
    "vb N V active U",
    "vb N V replica",
    "chain N V and M..",
    "clock N T",
    "client N C",
    "bytes N C HEX",
    "pull N C K",
    "hang N C",
    "link L M N V BUF follow",
    "link L M N V BUF takeover",
    "up L B",
    "down L B",
    "pump L K",
    "drop L",
    "cut L",
    "promote N V U",
    "follow N V",
    "dead N V",
    "seal N V",
    "trim N V",
    "take N V",
    "save N V",
    "done N V",
    "tick N V",
    "stop N K OUT",
    "fail N K",
    "crash N OUT",
    "start N and U..",
    "stat N V",
    "log N V",
    "show N V",
)


@dataclass(frozen=True)
class Form:
    """What a line may be: its text, the kinds of the words behind its verb, and at most how many of another behind."""

    text: str
    kinds: tuple[Kind, ...]
    rest: Kind | None = None
    most: int = 0

    def at(self, place: int) -> Kind | None:
        """What may stand in this place behind the verb, from 0."""
        if place < len(self.kinds):
            return self.kinds[place]
        return self.rest if place < len(self.kinds) + self.most else None

    def may_end(self, place: int) -> bool:
        """Whether the line may end before this place."""
        return place >= len(self.kinds)


def forms_of(text: str) -> list[Form]:
    """The forms of a line of LINES, one for each outcome where it has one."""
    verb, *signs = text.split(" ")
    if signs[-1] == "OUT":
        return [Form(text, kinds_of(verb, [*signs[:-1], *it.split(" ")])) for it in OUTCOMES]
    most = MOST.get(" ".join(signs[-2:]), 0)
    if not most:
        return [Form(text, kinds_of(verb, signs))]
    (rest,) = kinds_of(verb, [signs[-1].removesuffix("..")])
    return [Form(text, kinds_of(verb, signs[:-2]), rest, most)]


def kinds_of(verb: str, signs: list[str]) -> tuple[Kind, ...]:
    return tuple(KINDS.get(f"{verb} {sign}") or KINDS.get(sign) or Word(sign) for sign in signs)


VERBS: dict[str, list[Form]] = {}
for line in LINES:
    VERBS.setdefault(line.split(" ")[0], []).extend(forms_of(line))


@dataclass(frozen=True)
class Fault:
    """What is wrong with a line: the place of a word, from 1, the word if it is there, and what was wanted."""

    place: int
    word: bytes | None
    flaw: str
    wanted: str

    def __str__(self) -> str:
        word = "" if self.word is None else f" {quoted(self.word)}"
        return f"word {self.place}{word} {self.flaw}; {self.wanted}"


def quoted(word: bytes) -> str:
    """A word in quotation marks, with escapes for what is not printed, and cut where it is long."""
    text = word[:SHOWN].decode("latin-1").encode("unicode_escape").decode()
    return f'"{text}"' + (".." if len(word) > SHOWN else "")


def odd_flaw(word: bytes) -> str | None:
    """What is wrong with a word wherever it stands."""
    if not word:
        return "is empty, as there is a space too many"
    odd = re.search(rb"[^!-~]", word)
    if odd is None:
        return None
    byte = word[odd.start()]
    return f"has {ODD.get(byte, f'the byte {byte:#04x}')}"


def fits(kind: Kind | None, word: bytes) -> bool:
    return kind is not None and odd_flaw(word) is None and kind.flaw(word) is None


def texts_of(forms: list[Form]) -> str:
    """The forms as docs/FORMATS.md writes them, each once."""
    return ", or ".join(dict.fromkeys(form.text for form in forms))


def wanted_at(forms: list[Form], place: int) -> str:
    """What the forms have in this place, and the forms."""
    kinds = [kind.wanted for form in forms if (kind := form.at(place))]
    ends = [LINE_END] * any(form.may_end(place) for form in forms)
    return f"wanted is {' or '.join(dict.fromkeys(kinds + ends))}: {texts_of(forms)}"


def flaw_at(forms: list[Form], place: int, word: bytes) -> str:
    """What is wrong with a word that none of the forms has in this place."""
    flaws = [str(kind.flaw(word)) for form in forms if (kind := form.at(place))]
    if not flaws:
        return odd_flaw(word) or "is one too many"
    return odd_flaw(word) or (CAPITALS if CAPITALS in flaws else flaws[0])


def verb_fault(verb: bytes) -> Fault:
    text = verb.decode("latin-1").lower()
    flaw = odd_flaw(verb) or (CAPITALS if text in VERBS else "is no verb")
    near = get_close_matches(text, VERBS, 1, 0.1)
    if not near:
        return Fault(1, verb, flaw, "wanted is a verb")
    return Fault(1, verb, flaw, f"the nearest is {near[0]}: {texts_of(VERBS[near[0]])}")


def fault_of(line: bytes) -> Fault | None:
    """The first word with which no line that says something begins like this one, or None where it is such a line."""
    verb, *words = line.split(b" ")
    forms = VERBS.get(verb.decode("latin-1"))
    if forms is None:
        return verb_fault(verb)
    for place, word in enumerate(words):
        alike = [form for form in forms if fits(form.at(place), word)]
        if not alike:
            return Fault(place + 2, word, flaw_at(forms, place, word), wanted_at(forms, place))
        forms = alike
    if any(form.may_end(len(words)) for form in forms):
        return None
    return Fault(len(words) + 2, None, "is missing", wanted_at(forms, len(words)))


def lines_of(script: bytes) -> list[bytes]:
    """A script's lines; behind the last newline there is none."""
    return script.removesuffix(b"\n").split(b"\n") if script else []


def says_nothing(line: bytes) -> bool:
    return not line or line.startswith(b";")
