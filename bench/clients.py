#!/usr/bin/env python3
"""Times N SETs of N keys at one node and then a GET of each, by one client.

    bench/clients.py [DCP]      DCP is the built program, by default crates/dcp_main/out/dcp_main

A row for each N, which doubles. It tests nothing: a wrong status or transcript ends it.
"""

from measured import get_frame, set_frame, table


def script(n: int) -> str:
    lines = ["node 0", "vb 0 0 active 11", "client 0 1"]
    lines += [f"bytes 0 1 {set_frame(b'key%06d' % i, b'value%06d' % i, i)}" for i in range(n)]
    lines += [f"bytes 0 1 {get_frame(b'key%06d' % i, i)}" for i in range(n)]
    return "\n".join(lines) + "\n"


def complaint(n: int, transcript: str) -> str:
    made = transcript.count("\nchange 0 0 11 ")
    read = transcript.count(f"\nreply 0 1 81000000040000000000{len(b'value000000') + 4:04x}")
    return "" if (made, read) == (n, n) else f"{made} of {n} SETs were made, {read} GETs found a document"


if __name__ == "__main__":
    table([20000, 40000, 80000], script, complaint)
