#!/usr/bin/env python3
"""Counts what a frame of a link costs without a window and with one, by valgrind: instructions, and what memory it takes.

    bench/flow.py [DCP [BEFORE]]      DCP is the built program, by default crates/dcp_main/out/dcp_main

N SETs, which a link brings to a replica: a frame for each, and a marker for each thousand. The first table has a row for
each way to move them and each N, which doubles: one `pump` of all, pumps of 64, turns of `pump`, `down` and `up` with one
frame or two, all of which are acknowledged before the next turn, and turns of `pump` and `down` with one `up` behind them
all. The counts are those of the script with these lines less those of the script without them, by frame. BUF is 0, and
then one that never shuts, or one that lets no more than a turn's frames go.

In the second table no link has a window: the counts of 2N less those of N, for a SET and a GET of a client, a SET that a
replica follows, and a durable write. BEFORE is a program to compare with, with no window in both tables.
"""

import subprocess
import sys
from functools import cache
from itertools import chain
from typing import Iterator, NamedTuple

from line import CALLGRIND, MEMCHECK, PLAIN, all_told, sets
from measured import PROGRAM

SIZES = [1000, 2000]
CHECKPOINT = 1000
EVER, MOST = 4_294_967_295, 1_000_000
HEAD = ["node 0", "node 1", "vb 0 0 active 11", "vb 1 0 replica", "client 0 1"]
DOWN, UP = "down 1 1000000000", "up 1 1000000000"


class Way(NamedTuple):
    """The frames of a `pump`, the lines behind each and behind the last one, and a BUF that shuts there or never."""

    frames: int
    behind: list[str]
    last: list[str]
    buf: int


# A marker has 44 bytes and an item 75: a window of 1 is shut by each frame, and one of 100 is open behind one, not two.
WAYS = {
    "`pump` of all": Way(MOST, [], [], EVER),
    "`pump` of 64": Way(64, [], [], EVER),
    "turns of 1": Way(1, [DOWN, UP], [], 1),
    "turns of 2": Way(2, [DOWN, UP], [], 100),
    "turns of 1, one `up`": Way(1, [DOWN], [UP], EVER),
}


class Cost(NamedTuple):
    instructions: float
    calls: float
    taken: float


@cache
def cost_of(program: str, script: str) -> Cost:
    instructions = all_told(program, CALLGRIND, [script], r"Collected : (\d+)", [])
    return Cost(*instructions, *all_told(program, MEMCHECK, [script], r"usage: ([\d,]+) allocs, .*, ([\d,]+) bytes", []))


def cost(program: str, lines: list[str]) -> Cost:
    """What a whole script takes: instructions, calls that take memory, and the bytes that they take."""
    return cost_of(program, "\n".join(lines))


def by_each(whole: Cost, less: Cost, n: int) -> Cost:
    return Cost(*((one - other) / n for one, other in zip(whole, less)))


def frames_of(n: int) -> int:
    """The frames of n changes, with a marker for each checkpoint of theirs."""
    return n + -(-n // CHECKPOINT)


def moving(way: Way, buf: int, n: int) -> list[str]:
    """The lines that move the frames of n changes. A window that shuts ends a `pump` which asks for more."""
    asked = way.frames if buf in (0, EVER) else MOST
    return [f"pump 1 {asked}", *way.behind] * -(-frames_of(n) // way.frames) + way.last


def complaint(program: str, way: Way, buf: int, n: int, lines: list[str]) -> str:
    told = subprocess.run([program, "run"], input="\n".join(lines) + "\n", capture_output=True, text=True).stdout
    put = told.count("\nmark L1 ") + told.count("\nitem L1 ")
    received = told.count("\nrange 1 0 ") + told.count("\ngot 1 0 L1 ")
    counts = put, received, told.count(" full\n")
    shut = 0 if buf in (0, EVER) else frames_of(n) // way.frames
    wanted = frames_of(n), frames_of(n) if way.behind else 0, shut
    return "" if counts == wanted else f"{way}, {buf}: frames put, received, pumps held back are {counts}, not {wanted}"


def frame_cost(program: str, way: Way, buf: int, n: int) -> Cost:
    before = HEAD + [f"link 1 0 1 0 {buf} follow", "up 1 1000", "down 1 1000"] + sets(n)
    whole = before + moving(way, buf, n)
    wrong = complaint(program, way, buf, n, whole)
    if wrong:
        sys.exit(wrong)
    return by_each(cost(program, whole), cost(program, before), frames_of(n))


def cells(one: Cost, first: Cost) -> str:
    return f"{one.instructions:,.0f} | {one.instructions / first.instructions:.3f} | {one.calls:.2f} | {one.taken:,.0f}"


def frames(programs: list[tuple[str, str]]) -> Iterator[str]:
    yield "| Lines | N | Program | BUF | Instructions a frame | To the first | Calls that take memory | Bytes that they take | To half of N |"
    yield "|---|---|---|---|---|---|---|---|---|"
    for name, way in WAYS.items():
        last: dict[tuple[str, int], float] = {}
        for n in SIZES:
            runs = [(when, program, 0) for when, program in programs]
            first = None
            for when, program, buf in [*runs, (*runs[-1][:2], way.buf)]:
                one = frame_cost(program, way, buf, n)
                first = first or one
                whole = one.instructions * frames_of(n)
                ratio = f"{whole / last[when, buf]:.3f}" if (when, buf) in last else ""
                last[when, buf] = whole
                yield f"| {name} | {n:,} | {when} | {buf} | {cells(one, first)} | {ratio} |"


def lines(programs: list[tuple[str, str]]) -> Iterator[str]:
    yield "| What | Program | Instructions | To the first | Calls that take memory | Bytes that they take |"
    yield "|---|---|---|---|---|---|"
    for what, script in PLAIN.items():
        first = None
        for name, program in programs:
            one = by_each(cost(program, script(SIZES[1])), cost(program, script(SIZES[0])), SIZES[1] - SIZES[0])
            first = first or one
            yield f"| {what} | {name} | {cells(one, first)} |"


def main(words: list[str]) -> None:
    if words[:1] == ["--help"]:
        print(__doc__, end="")
        return
    programs = list(zip(["now", "before"], words or [PROGRAM]))[::-1]
    for row in chain(frames(programs), [""], lines(programs)):
        print(row, flush=True)


if __name__ == "__main__":
    main(sys.argv[1:])
