#!/usr/bin/env python3
"""Times a replica that follows while N SETs come, with a pump after every 64: of 1,000 hot keys, and of N keys.

    bench/live.py [DCP]      DCP is the built program, by default crates/dcp_main/out/dcp_main

A row for each N, which doubles. It tests nothing: a wrong status or transcript ends it.
"""

from measured import set_frame, table

HOT = 1000
SIZES = [20000, 40000, 80000, 160000]


def script(n: int, keys: int) -> str:
    lines = ["node 0", "node 1", "vb 0 0 active 11", "vb 1 0 replica", "client 0 1"]
    lines += ["link 1 0 1 0 0 follow", "up 1 1000", "down 1 1000"]
    for i in range(n):
        lines += [f"bytes 0 1 {set_frame(b'key%06d' % (i % keys), b'value%06d' % i, i)}"]
        if i % 64 == 63 or i == n - 1:
            lines += ["pump 1 1000000", "down 1 1000000000"]
    return "\n".join(lines + ["show 1 0"]) + "\n"


def complaint(n: int, keys: int, transcript: str) -> str:
    whole = f"shown 1 0 replica 11 {n} " in transcript and transcript.count("\ndoc ") == keys
    return "" if whole else f"the replica does not have all {keys} documents"


if __name__ == "__main__":
    print(f"{HOT} hot keys")
    table(SIZES, lambda n: script(n, HOT), lambda n, told: complaint(n, HOT, told))
    print("N keys")
    table(SIZES, lambda n: script(n, n), lambda n, told: complaint(n, n, told))
