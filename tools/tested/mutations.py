"""Mutated lines of stored scripts, and what the program says of them, beside what lint does.

A line's syntax does not hang on the lines before it, so a mutated line is a script of its own. The program runs nothing
of a script that has a bad line. So one bad line behind many good ones tells that all these are good.
"""

import random
import subprocess
import tempfile
from typing import Iterator

from formats import grammar
from tested.common import content, program, stored

# The limits of numbers with their neighbours, and what is no number.
LIMITS = (0, 1, 3, 15, 16, 63, 64, 65, 250, 255, 256, 999, 1000, 1023, 1024, 10**6, 10**6 + 1, 10**9, 10**9 + 1)
LARGE = (2**31, 2**32 - 1, 2**32, 2**63, 2**64 - 1, 2**64, 2**64 + 1, 10**19, 10**20 - 1, 10**20, 10**30)
NUMBERS = [str(it).encode() for it in LIMITS + LARGE]
NO_NUMBERS = [
    b"", b"00", b"01", b"015", b"0" * 20, b"-0", b"-1", b"+1", b"1.0", b"1e3", b"0x1", b"1_0", b"1,0",
    "\u0661".encode(), "\uff11".encode(), b"\xb2", b"ten", b"-", b"--", b"- ", b"9" * 500, b"0" * 500,
]  # fmt: skip
HEX = [
    b"0", b"00", b"0g", b"G0", b"aF", b"Fa0", b"80" * 24, b"80" * 24 + b"8", b"0x80", b"8 0", b"/0", b":0", b"@a",
    b"`a",
]  # fmt: skip
WORDS = [it.encode() for it in grammar.VERBS] + [
    b"active", b"replica", b"pending", b"Active", b"REPLICA", b"follow", b"takeover", b"Follow", b"follo", b"follows",
    b"old", b"new", b"fill", b"OLD", b"fil", b"fill ", b"fill 0", b"fill 255", b"fill 256", b"fill 00", b"nod",
    b"nodes", b"drop", b"trim", b";", b";node", b"#", b"\xff", b"\xc3\xa9", b"\0", b"\r", b"\t", b"\x0b",
    b"\xa0", b" ",
]  # fmt: skip
CHANGES = NUMBERS + NO_NUMBERS + HEX + WORDS
# What is put around a word or a line.
MARKS = [b" ", b"  ", b"\t", b"\r", b"\0", b";", b" ;", b"\xff", b"\x7f", b"\x1f", b"0", b"-", b"a", b"A", b".", b"_"]


def stored_lines() -> list[bytes]:
    """Each line of the stored scripts that says something or is bad, once."""
    lines = (line for base in stored() for line in grammar.lines_of(content(f"{base}.dcp")))
    return sorted({line for line in lines if not grammar.says_nothing(line)})


def changed(word: bytes, pick: random.Random) -> bytes:
    """A word changed in one of a few ways."""
    mark, at = pick.choice(MARKS), pick.randint(0, len(word))
    return pick.choice(
        [pick.choice(CHANGES)] * 4
        + [word.upper(), word.capitalize(), word + mark, mark + word, word[:at] + mark + word[at:]]
        + [word[:at] + word[at + 1 :], word[:-1], word[1:], word[::-1], word * 2]
    )


def mutations(line: bytes, pick: random.Random) -> Iterator[bytes]:
    """A line with each word dropped, doubled, changed, or swapped with the next one, and with more or other spaces."""
    words = line.split(b" ")
    for i, word in enumerate(words):
        before, behind = words[:i], words[i + 1 :]
        yield b" ".join(before + behind)
        yield b" ".join([*before, word, word, *behind])
        yield b" ".join([*before, changed(word, pick), *behind])
        yield b" ".join([*before, pick.choice(NUMBERS), *behind])
        yield b" ".join([*before, *behind[:1], word, *behind[1:]])
    yield b" ".join(words + [pick.choice(CHANGES)] * pick.choice([1, 2, 3, 60, 61, 62, 63, 64, 65, 66, 200]))
    mark = pick.choice(MARKS)
    yield from (mark + line, line + mark, mark.join(words), pick.choice(MARKS).join(words))


def chosen(count: int, seed: int) -> list[bytes]:
    """So many different mutated lines, the same each time, of as many stored lines as there are."""
    pick = random.Random(seed)
    lines = stored_lines()
    found: dict[bytes, None] = {}
    while len(found) < count:
        for line in pick.sample(lines, min(len(lines), count - len(found))):
            mutated = pick.choice(list(mutations(line, pick)))
            found |= {mutated: None} if b"\n" not in mutated else {}
    return list(found)


def is_bad(line: bytes) -> bool:
    """What lint says."""
    return not grammar.says_nothing(line) and grammar.fault_of(line) is not None


def first_bad(script: bytes) -> int | None:
    """The line that the program calls bad, of a script of which nothing is to be run."""
    with tempfile.TemporaryFile() as file:
        file.write(script)
        file.seek(0)
        ran = subprocess.run([program(), "run"], stdin=file, capture_output=True)
    words = ran.stdout.split(b" ")
    if ran.returncode == 3 and words[:2] == [b"bad", b"line"] and ran.stderr == b"" and ran.stdout.endswith(b"\n"):
        return int(words[2])
    return None


def differences(lines: list[bytes]) -> Iterator[str]:
    """What the program and lint do not agree on, of lines that each stand alone."""
    good = []
    for line in lines:
        if not is_bad(line):
            good.append(line)
        elif first_bad(line) != 1:
            yield f"lint alone calls this bad: {line!r}: {grammar.fault_of(line)}"
    while good:
        told = first_bad(b"\n".join([*good, b"?"]))
        if told == len(good) + 1:
            return
        if told is None:
            yield f"the program calls no line bad of {len(good)} lines and one that is"
            return
        yield f"the program alone calls this bad: {good.pop(told - 1)!r}"


def mutated_scripts(count: int, seed: int) -> Iterator[bytes]:
    """So many stored scripts, each with a few lines mutated, and with other ends of lines now and then."""
    pick = random.Random(seed)
    bases = sorted(stored())
    for _ in range(count):
        lines = content(f"{pick.choice(bases)}.dcp").split(b"\n")
        for _ in range(pick.choice([0, 1, 1, 2, 3])):
            at = pick.randrange(len(lines))
            lines[at] = pick.choice([*mutations(lines[at], pick), b"", b";", b"; \xff\0\r", b"\r"])
        end = pick.choice([b"\n"] * 8 + [b"\r\n", b"\n\n"])
        yield end.join(lines) + pick.choice([b"", b"", b"\n", b"\n\n", b"\n ", b"\n;", b"\n?"])


def script_differences(count: int, seed: int) -> Iterator[str]:
    """What the program and lint do not agree on, of the first bad line of scripts that have several."""
    for script in mutated_scripts(count, seed):
        wanted = next((i for i, line in enumerate(grammar.lines_of(script), 1) if is_bad(line)), None)
        if wanted is None:
            script = script.removesuffix(b"\n") + b"\n?" if script else b"?"
            wanted = len(grammar.lines_of(script))
        told = first_bad(script)
        if told != wanted:
            yield f"lint has line {wanted}, and the program {told}, as the first bad one of {script!r}"
