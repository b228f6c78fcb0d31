#!/usr/bin/env python3
"""Times N durable writes of level 1, each answered once one replica acknowledged it; and settling.

    bench/durable.py [DCP]      DCP is the built program, by default crates/dcp_main/out/dcp_main

The first table has a row for each N, which doubles. The second has one for each number of durable
writes that are outstanding, of a thousand that were asked for; the others were given up. Each of
its lines sets the vBucket's chain, behind which the vBucket looks at what it may commit, which is
nothing. Its last column is the time to that of the row before. It tests nothing: a wrong status or
transcript ends it.
"""

from measured import set_frame, table

LINES = 100000
RUNS = 12


def durable_frame(key: bytes, value: bytes, opaque: int, timeout: int = 30000) -> str:
    plain = bytes.fromhex(set_frame(key, value, opaque))
    wish = bytes([0x13, 1]) + timeout.to_bytes(2, "big")
    head = bytes([0x08, plain[1], len(wish), len(key)]) + plain[4:8]
    body = wish + plain[24:]
    return (head + len(body).to_bytes(4, "big") + plain[12:24] + body).hex()


def written(n: int) -> str:
    lines = ["node 0", "node 1", "vb 0 0 active 11", "vb 1 0 replica", "chain 0 0 1", "client 0 1"]
    lines += ["link 1 0 1 0 0 follow", "up 1 1000", "down 1 1000"]
    for i in range(n):
        lines += [f"bytes 0 1 {durable_frame(b'key%06d' % i, b'value%06d' % i, i)}"]
        lines += ["pump 1 1000", "down 1 1000000", "up 1 1000000"]
    return "\n".join(lines) + "\n"


def unanswered(n: int, transcript: str) -> str:
    answers = transcript.count("\nreply 0 1 81010000040000000000") + transcript.count("\nreply 0 1 8101000000000000")
    return "" if answers == n else f"{answers} of {n} writes were answered"


def settled(outstanding: int) -> str:
    lines = ["node 0", "vb 0 0 active 11", "chain 0 0 1 2"]
    for i in range(1000):
        timeout = 30000 if i < outstanding else 1
        lines += [f"client 0 {i}"]
        lines += [f"bytes 0 {i} {durable_frame(b'key%06d' % i, b'value%06d' % i, i, timeout)}"]
    lines += ["clock 0 1000000", "tick 0 0"]
    lines += ["chain 0 0 1 2"] * LINES
    return "\n".join(lines) + "\n"


def committed(outstanding: int, transcript: str) -> str:
    return "a write was committed" if " commit " in transcript else ""


if __name__ == "__main__":
    table([10000, 20000, 40000, 80000], written, unanswered, RUNS)
    print()
    table([10, 1000], settled, committed, RUNS)
