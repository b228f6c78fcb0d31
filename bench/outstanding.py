#!/usr/bin/env python3
"""Counts what one line costs that brings N prepares to a replica, and one that commits N, by valgrind.

    bench/outstanding.py [DCP]      DCP is the built program, by default crates/dcp_main/out/dcp_main

N clients ask for one durable write each; a row for each N, which doubles. One `down` brings all of
them to a replica, and one `up` its acknowledgements back, behind which all are committed. The counts
are those of a script with the line less those of the script without it, by write. In the first table
each client still awaits its outcome; there are 1,000 at most. In the second one they hung up.
"""

import sys

from durable import durable_frame
from line import CALLGRIND, told
from measured import PROGRAM

HEAD = ["node 0", "node 1", "vb 0 0 active 11", "vb 1 0 replica", "chain 0 0 1"]
FEED = ["link 1 0 1 0 0 follow", "up 1 1000", "down 1 1000"]
DOWN, UP = "down 1 1000000000", "up 1 1000000000"


def writes(n: int, awaited: bool) -> list[str]:
    lines = list(HEAD)
    for i in range(n):
        c = i % 1000
        lines += [f"client 0 {c}", f"bytes 0 {c} {durable_frame(b'key%06d' % i, b'value%06d' % i, i)}"]
        lines += [] if awaited else [f"hang 0 {c}"]
    return lines + FEED + ["pump 1 1000000"]


def main() -> None:
    program = sys.argv[1] if len(sys.argv) > 1 else PROGRAM

    def count(lines: list[str]) -> int:
        return told(program, CALLGRIND, lines, r"Collected : (\d+)", [])

    for awaited, sizes in [(True, [125, 250, 500, 1000]), (False, [500, 1000, 2000, 4000])]:
        print("| N | Instructions a prepare of `down` | Instructions a commit of `up` |")
        print("|---|---|---|")
        for n in sizes:
            script = writes(n, awaited)
            before, down, up = count(script), count(script + [DOWN]), count(script + [DOWN, UP])
            print(f"| {n:,} | {(down - before) / n:,.0f} | {(up - down) / n:,.0f} |", flush=True)
        print()


if __name__ == "__main__":
    main()
