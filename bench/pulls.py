#!/usr/bin/env python3
"""Counts what a frame of a client's stream costs, by how many streams its connection has, by valgrind: instructions.

    bench/pulls.py [DCP]      DCP is the built program, by default crates/dcp_main/out/dcp_main

N SETs at the vBuckets of one node, and a client that opens a stream of each: a frame for each SET, and a marker for each
thousand of a vBucket. The frames are put by pulls of 64 or by one, and the counts are those of the script with the pulls
less those of the script without them, by frame. The SETs go to each vBucket in turn, or all to the first.
"""

import subprocess
import sys
from typing import Iterator, NamedTuple

from flow import cost, frames_of
from line import key
from measured import PROGRAM, frame, set_frame

SIZES = [2048, 4096]
MOST = 1_000_000
LAST = 2**64 - 1


class Streams(NamedTuple):
    """The vBuckets that the client streams, how many of them have something, and the frames of a `pull`."""

    opened: int
    written: int
    frames: int


ROWS = {
    "1 stream, one pull": Streams(1, 1, MOST),
    "1 stream": Streams(1, 1, 64),
    "8 streams": Streams(8, 8, 64),
    "64 streams": Streams(64, 64, 64),
    "64 streams, of which one has something": Streams(64, 1, 64),
}


def at_vb(text: str, vb: int) -> str:
    """A client's frame for this vBucket: its number is in the header's bytes 6 and 7."""
    return text[:12] + vb.to_bytes(2, "big").hex() + text[16:]


def opening() -> str:
    return frame(0x50, b"pulls", bytes(4) + (1).to_bytes(4, "big"), b"", 0)


def asking(vb: int) -> str:
    """A request for all changes of the vBucket, from the first one on."""
    extras = bytes(16) + LAST.to_bytes(8, "big") + bytes(24)
    return at_vb(frame(0x53, b"", extras, b"", vb), vb)


def script(row: Streams, n: int) -> list[str]:
    vbs = [f"vb 0 {vb} active {11 + vb}" for vb in range(row.opened)]
    asked = [f"bytes 0 2 {asking(vb)}" for vb in range(row.opened)]
    sets = [f"bytes 0 1 {at_vb(set_frame(key(i), b'value%06d' % i, i), i % row.written)}" for i in range(n)]
    return ["node 0", *vbs, "client 0 1", "client 0 2", f"bytes 0 2 {opening()}", *asked, *sets]


def put(row: Streams, n: int) -> int:
    return sum(frames_of(len(range(vb, n, row.written))) for vb in range(row.written))


def frame_cost(program: str, row: Streams, n: int) -> float:
    before = script(row, n)
    whole = before + [f"pull 0 2 {row.frames}"] * -(-put(row, n) // row.frames)
    told = subprocess.run([program, "run"], input="\n".join(whole) + "\n", capture_output=True, text=True).stdout
    counted = told.count("\nmark C0.2 ") + told.count("\nitem C0.2 ")
    if counted != put(row, n):
        sys.exit(f"{row}: {counted} frames were put, and not {put(row, n)}")
    return (cost(program, whole).instructions - cost(program, before).instructions) / put(row, n)


def rows(program: str) -> Iterator[str]:
    yield "| Streams | N | Instructions a frame | To those of one stream | All, to those of half of N |"
    yield "|---|---|---|---|---|"
    first: dict[int, float] = {}
    for name, row in ROWS.items():
        half = None
        for n in SIZES:
            one = frame_cost(program, row, n)
            if row == ROWS["1 stream"]:
                first[n] = one
            to_first = f"{one / first[n]:.3f}" if n in first else ""
            whole = one * put(row, n)
            yield f"| {name} | {n:,} | {one:,.0f} | {to_first} | {f'{whole / half:.3f}' if half else ''} |"
            half = whole


def main(words: list[str]) -> None:
    if words[:1] == ["--help"]:
        print(__doc__, end="")
        return
    for row in rows(words[0] if words else PROGRAM):
        print(row, flush=True)


if __name__ == "__main__":
    main(sys.argv[1:])
