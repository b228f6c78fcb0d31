#!/usr/bin/env python3
"""Times N changes that a replica writes down in batches of 64, and a rollback of the last batch.

    bench/journal.py [DCP]      DCP is the built program, by default crates/dcp_main/out/dcp_main

A row for each N, which doubles, with small values and with larger ones. Each script runs in three forms: whole; without
the rollback; and without take, save and done as well. What the last two differ by is what appending costs, beside which
the same bytes are written to a file, record by record. What the first and the last one differ by in memory is held
against twice the journals and one image. As an image counts what N documents take at one node beyond one document that
is written N times. It tests nothing: a wrong status or transcript ends it.
"""

import os
import resource
import sys
import tempfile
import time
from typing import Iterator

from measured import PROGRAM, RUNS, run, set_frame

BATCH = 64
SIZES = {11: [20_000, 40_000, 80_000], 1_000: [5_000, 10_000, 20_000]}
MIB = 1 << 20
# The lengths of what stands around records, batches and changes in a journal, with a log of one entry.
STATE_LEN, ROWS_LEN, SET_LEN, ROLL_LEN = 5 + 4, 5 + 39 + 16, 10 + 29, 5 + 10
FLUSH = ["take 2 0", "save 2 0", "done 2 0"]


def key(i: int) -> bytes:
    return b"key%06d" % i


def value(i: int, length: int) -> bytes:
    return b"value%06d" % i + b"." * (length - 11)


def batches(n: int) -> Iterator[range]:
    return (range(i, min(i + BATCH, n)) for i in range(0, n, BATCH))


def script(n: int, length: int, is_saved: bool, is_back: bool) -> str:
    """Node 2 takes all changes, and node 1 all but those of the last batch. Each is a checkpoint, and so one batch."""
    lines = ["node 0", "node 1", "node 2", "vb 0 0 active 11", "vb 1 0 replica", "vb 2 0 replica", "client 0 1"]
    for link in (1, 2):
        lines += [f"link {link} 0 {link} 0 0 follow", f"up {link} 1000", f"down {link} 1000"]
    for batch in batches(n):
        lines += [f"bytes 0 1 {set_frame(key(i), value(i, length), i)}" for i in batch] + ["seal 0 0"]
        for link in (1, 2) if batch[-1] < n - 1 else (2,):
            lines += [f"pump {link} 1000000", f"down {link} 1000000000"]
        lines += FLUSH if is_saved else []
    if is_back:
        lines += ["promote 1 0 22", "cut 2", "link 3 1 2 0 0 follow", "up 3 1000", "down 3 1000", "up 3 1000"]
        lines += ["pump 3 1000000", "down 3 1000000000"]
    return "\n".join([*lines, "show 2 0"]) + "\n"


def documents(n: int, length: int, keys: int) -> str:
    """N writes at one node."""
    lines = [f"bytes 0 1 {set_frame(key(i % keys), value(i, length), i)}" for i in range(n)]
    return "\n".join(["node 0", "vb 0 0 active 11", "client 0 1", *lines]) + "\n"


def complaint(n: int, told: str, is_saved: bool, is_back: bool) -> str:
    last = n - list(batches(n))[-1][0]
    left = n - last if is_back else n
    if is_saved and told.count("\nbatch 2 0 ") != len(list(batches(n))):
        return f"not every batch of {n} changes was taken"
    if is_back and f"\nrolled 2 0 {left} {left}\n" not in told:
        return f"the replica of {n} changes did not go back to {left}"
    return "" if told.count("\ndoc ") == left else f"the replica does not show {left} documents"


def best(program: str, text: str) -> tuple[float, float, str]:
    """The best time of the runs, their highest peak in MiB, and the transcript."""
    with tempfile.NamedTemporaryFile("w", suffix=".dcp") as file:
        file.write(text)
        file.flush()
        results = [run(program, file.name) for _ in range(RUNS)]
    return min(result[0] for result in results), max(result[1] for result in results) / 1024, results[0][2]


def form(program: str, n: int, length: int, is_saved: bool, is_back: bool) -> tuple[float, float]:
    seconds, peak, told = best(program, script(n, length, is_saved, is_back))
    wrong = complaint(n, told, is_saved, is_back)
    if wrong:
        sys.exit(wrong)
    return seconds, peak


def records(n: int, length: int) -> list[int]:
    """How long the records are that node 2 appends, gates and lengths too."""
    rows = [ROWS_LEN + len(batch) * (SET_LEN + len(key(0)) + length) for batch in batches(n)]
    return [STATE_LEN, *rows, ROLL_LEN]


def plain_write(lengths: list[int]) -> float:
    """The seconds that it takes to write so many bytes to a file, a write for each record."""
    held = memoryview(bytes(max(lengths)))
    seconds = []
    for _ in range(RUNS):
        with tempfile.TemporaryFile(buffering=0) as file:
            begun = time.perf_counter()
            for each in lengths:
                os.write(file.fileno(), held[:each])
            seconds.append(time.perf_counter() - begun)
    return min(seconds)


def rows(program: str, length: int, sizes: list[int]) -> None:
    last = None
    for n in sizes:
        whole, flushed, plain = (form(program, n, length, *it) for it in ((True, True), (True, False), (False, False)))
        image = best(program, documents(n, length, n))[1] - best(program, documents(n, length, 1))[1]
        lengths = records(n, length)
        held = sum(lengths) / MIB
        appending, back = flushed[0] - plain[0], whole[0] - flushed[0]
        ratio = "" if last is None else f"{whole[0] / last:.2f}"
        cells = [f"{length:,}", f"{n:,}", f"{whole[0]:.3f}", ratio, f"{appending:.3f}", f"{back:.3f}"]
        cells += [f"{held:.1f}", f"{held / max(appending, 1e-3):,.0f}", f"{held / plain_write(lengths):,.0f}"]
        cells += [f"{whole[1] - plain[1]:.1f}", f"{2 * held + image:.1f}", f"{image:.1f}"]
        print(f"| {' | '.join(cells)} |", flush=True)
        last = whole[0]


if __name__ == "__main__":
    given = sys.argv[1] if len(sys.argv) > 1 else PROGRAM
    resource.setrlimit(resource.RLIMIT_CORE, (0, 0))
    heads = ["Value, bytes", "N", "Seconds", "Time to that of half", "of it appending", "of it going back", "Journal, MiB"]
    heads += ["Appended, MiB a second", "Plain write, MiB a second", "More memory, MiB", "Goal, MiB", "An image, MiB"]
    print(f"| {' | '.join(heads)} |\n|{'---|' * len(heads)}")
    for bytes_, numbers in SIZES.items():
        rows(given, bytes_, numbers)
