#!/usr/bin/env python3
"""Measures the peak of memory of many keys: N SETs and a GET of each, with the transcript into a file.

    bench/memory.py [DCP]      DCP is the built program, by default crates/dcp_main/out/dcp_main

Keys have 11 bytes and values 13. A row for each N, which doubles.
"""

from measured import get_frame, set_frame, table


def key(i: int) -> bytes:
    return b"key%08d" % i


def script(n: int) -> str:
    lines = ["node 0", "vb 0 0 active 11", "client 0 1"]
    lines += [f"bytes 0 1 {set_frame(key(i), b'value%08d' % i, i)}" for i in range(n)]
    lines += [f"bytes 0 1 {get_frame(key(i), i)}" for i in range(n)]
    return "\n".join(lines) + "\n"


def complaint(n: int, transcript: str) -> str:
    return "" if transcript.count("\nreply 0 1 81") == 2 * n else "a reply is missing"


if __name__ == "__main__":
    table([150_000, 300_000, 600_000], script, complaint, runs=1)
