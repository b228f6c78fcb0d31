#!/usr/bin/env python3
"""Times a value of the most bytes that there may be: stored, read, streamed to a replica and shown there.

    bench/largest.py [DCP]      DCP is the built program, by default crates/dcp_main/out/dcp_main

A value of one byte more is E2big. It tests nothing else: a wrong status or transcript ends it.
"""

from measured import get_frame, set_frame, table

MOST = 20_971_520


def script(n: int) -> str:
    lines = ["node 0", "node 1", "vb 0 0 active 11", "vb 1 0 replica", "client 0 1"]
    lines += [f"bytes 0 1 {set_frame(b'key', b'v' * n, 1)}", f"bytes 0 1 {set_frame(b'key', b'v' * (n + 1), 2)}"]
    lines += [f"bytes 0 1 {get_frame(b'key', 3)}"]
    lines += ["link 1 0 1 0 0 follow", "up 1 1000", "down 1 1000"]
    lines += ["pump 1 9", "down 1 1000000000", "show 1 0"]
    return "\n".join(lines) + "\n"


def complaint(n: int, transcript: str) -> str:
    value = (b"v" * n).hex()
    wanted = [
        f"\nchange 0 0 11 1 set 6b6579 1 1 0 0 0 {value}\nreply 0 1 810100000000000000000000000000010000000000000001\n",
        "\nreply 0 1 810100000000000300000000000000020000000000000000\n",
        f"\nreply 0 1 8100000004000000{n + 4:08x}00000003000000000000000100000000{value}\n",
        f"\nshown 1 0 replica 11 1 0 1 1 0\ndoc 6b6579 1 1 0 0 0 {value}\n",
    ]
    return "" if all(lines in transcript for lines in wanted) else "a line is missing"


if __name__ == "__main__":
    table([MOST], script, complaint)
