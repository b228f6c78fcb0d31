#!/usr/bin/env python3
"""Times a crash and a restart of a node that wrote N changes down in batches of 64.

    bench/restart.py [DCP]      DCP is the built program, by default crates/dcp_main/out/dcp_main

A row for each N, which doubles, of N keys and of 1,000 keys that are written again and again. The script runs with one
crash and start, and with nine: a restart is an eighth of what these differ by. It tests nothing: a wrong status or
transcript ends it.
"""

import resource
import sys
import tempfile

from measured import PROGRAM, RUNS, run, set_frame

BATCH = 64
SIZES = [20_000, 40_000, 80_000]
KEYS = 1_000
MORE = 8


def key(i: int) -> bytes:
    return b"key%06d" % i


def script(n: int, keys: int, restarts: int) -> str:
    lines = ["node 0", "vb 0 0 active 11", "client 0 1"]
    for begin in range(0, n, BATCH):
        batch = range(begin, min(begin + BATCH, n))
        lines += [f"bytes 0 1 {set_frame(key(i % keys), b'value%06d' % i, i)}" for i in batch]
        lines += ["seal 0 0", "take 0 0", "save 0 0", "done 0 0"]
    for i in range(restarts):
        lines += ["crash 0 old", f"start 0 {100 + i}"]
    return "\n".join([*lines, "stat 0 0"]) + "\n"


def complaint(n: int, told: str, restarts: int) -> str:
    batches = (n + BATCH - 1) // BATCH
    if told.count("\nbatch 0 0 ") != batches:
        return f"not every batch of {n} changes was taken"
    if told.count("\nbranch 0 0 ") != 1 + restarts:
        return f"the node did not start {restarts} times on a new branch"
    stat = next(line for line in told.splitlines() if line.startswith("stat 0 0 "))
    return "" if f" {n} " in f"{stat} " else f"the vBucket lost changes: {stat}"


def best(program: str, n: int, keys: int, restarts: int) -> tuple[float, float]:
    """The best time of the runs, and their highest peak in MiB."""
    with tempfile.NamedTemporaryFile("w", suffix=".dcp") as file:
        file.write(script(n, keys, restarts))
        file.flush()
        results = [run(program, file.name) for _ in range(RUNS)]
    wrong = complaint(n, results[0][2], restarts)
    if wrong:
        sys.exit(wrong)
    return min(result[0] for result in results), max(result[1] for result in results) / 1024


def rows(program: str, keys: int | None) -> None:
    last = None
    for n in SIZES:
        none, once, often = (best(program, n, keys or n, restarts) for restarts in (0, 1, 1 + MORE))
        each = (often[0] - once[0]) / MORE
        ratio = "" if last is None else f"{each / last:.2f}"
        cells = [f"{keys:,}" if keys else "N", f"{n:,}", f"{once[0]:.3f}", f"{each:.3f}", f"{each / n * 1e9:,.0f}"]
        cells += [ratio, f"{none[1]:.1f}", f"{often[1]:.1f}"]
        print(f"| {' | '.join(cells)} |", flush=True)
        last = each


if __name__ == "__main__":
    given = sys.argv[1] if len(sys.argv) > 1 else PROGRAM
    resource.setrlimit(resource.RLIMIT_CORE, (0, 0))
    heads = ["Keys", "N", "Seconds with one", "A crash and a start", "Nanoseconds a change", "Time to that of half"]
    heads += ["Peak without, MiB", "Peak, MiB"]
    print(f"| {' | '.join(heads)} |\n|{'---|' * len(heads)}")
    for count in (None, KEYS):
        rows(given, count)
