#!/usr/bin/env python3
"""Times N SETs of N keys at one node, followed by a replica at another.

    bench/replica.py [DCP]      DCP is the built program, by default crates/dcp_main/out/dcp_main

A row for each N, which doubles. It tests nothing: a wrong status or transcript ends it.
"""

from measured import set_frame, table


def script(n: int) -> str:
    lines = ["node 0", "node 1", "vb 0 0 active 11", "vb 1 0 replica", "client 0 1"]
    lines += [f"bytes 0 1 {set_frame(b'key%06d' % i, b'value%06d' % i, i)}" for i in range(n)]
    lines += ["link 1 0 1 0 0 follow", "up 1 1000", "down 1 1000"]
    lines += ["pump 1 1000000", "down 1 1000000000", "show 1 0"]
    return "\n".join(lines) + "\n"


def complaint(n: int, transcript: str) -> str:
    whole = f"shown 1 0 replica 11 {n} " in transcript and transcript.count("\ndoc ") == n
    return "" if whole else f"the replica does not have all {n} documents"


if __name__ == "__main__":
    table([16000, 32000, 64000, 128000], script, complaint)
