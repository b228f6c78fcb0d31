"""Tests of transcript_back: it writes each stored transcript again, and refuses each that is spelled otherwise."""

import re
import subprocess
import unittest
from typing import Iterator

from tested.common import content, reader, run, stored

# Where a transcript is spelled otherwise, up to where, and how.
Change = tuple[int, int, bytes]


def zeros(held: bytes) -> Iterator[Change]:
    """A zero in front of a number."""
    return ((it.start(), it.start(), b"0") for it in re.finditer(rb"(?<![0-9a-f])\d+(?![0-9a-f])", held))


def capitals(held: bytes) -> Iterator[Change]:
    """A hexadecimal digit of the other case."""
    for word in re.finditer(rb"(?<= )(?!dead\b)[0-9a-f]*[a-f][0-9a-f]*(?=[ \n])", held):
        for it in re.finditer(rb"[a-f]", word[0]):
            yield word.start() + it.start(), word.start() + it.end(), it[0].upper()


def spaces(held: bytes) -> Iterator[Change]:
    """A second space behind a space."""
    return ((it.end(), it.end(), b" ") for it in re.finditer(rb" ", held))


def unended(held: bytes) -> Iterator[Change]:
    """No newline at the end."""
    return iter([(len(held) - 1, len(held), b"")] if held else [])


WAYS = (zeros, capitals, spaces, unended)


def changed(held: bytes, turn: int) -> tuple[str, bytes, int]:
    """What one change by turns makes of a transcript that is not empty, and in which line: the first way from that
    turn's on that has a place there, at one of its places."""
    for way in range(turn, turn + len(WAYS)):
        make = WAYS[way % len(WAYS)]
        places = list(make(held))
        if places:
            at, until, put = places[turn * 7919 % len(places)]
            return make.__name__, held[:at] + put + held[until:], held.count(b"\n", 0, at) + 1
    raise AssertionError("there is nothing to change")


class ReadBack(unittest.TestCase):
    def ends(self, held: bytes, status: int, out: bytes, name: str) -> None:
        ended = subprocess.run([reader()], input=held, capture_output=True)
        self.assertEqual((ended.returncode, ended.stdout, ended.stderr), (status, out, b""), name)

    def test_all_stored(self) -> None:
        """Each transcript comes back. What is told of a bad line is none."""
        played = set(run())
        for base in stored():
            held = content(f"{base}.out")
            self.ends(held, *((0, held) if base in played else (3, b"bad line 1\n")), base)
        self.assertGreater(len(played), 640)

    def test_all_in_one(self) -> None:
        """Transcripts one behind the other are one."""
        held = b"".join(content(f"{base}.out") for base in run())
        self.ends(held, 0, held, "all transcripts")

    def test_changed(self) -> None:
        """Each transcript with one change in its spelling is refused, with the line where that is."""
        counts = dict.fromkeys((way.__name__ for way in WAYS), 0)
        for turn, base in enumerate(run()):
            held = content(f"{base}.out")
            if held:
                way, other, line = changed(held, turn)
                self.ends(other, 3, f"bad line {line}\n".encode(), f"{base} {way} at line {line}")
                counts[way] += 1
        for way, count in counts.items():
            self.assertGreater(count, 70, way)
