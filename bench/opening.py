#!/usr/bin/env python3
"""Times how a node opens a journal of N records, by a processor's time, also with the last one broken off.

    bench/opening.py [DCP]      DCP is the built program, by default crates/dcp_main/out/dcp_main

A row for each N, which doubles: of records of 25 bytes, one for each change of role, and of batches with one change each,
of small values and of larger ones. The script runs without a restart, with one and with five: an opening is a quarter of
what the last two differ by, with the loading of the vBucket. What the first two differ by in memory is held against twice
the journal's bytes and 20 MiB, without the disk itself, which is in memory in each of them. Then the node stops inside
one more append, with each thing that may be left of it, and has to start as before. A wrong status or transcript ends it.
"""

import resource
import sys
import tempfile

from measured import PROGRAM, run_counted, set_frame

MIB = 1 << 20
MORE = 4
KEYS = 1_000
# The length of a record of a role, and of a batch of one change without its value; both with gate, length and a log of one.
STATE_LEN, ROWS_LEN = 5 + 4 + 16, 5 + 39 + 16 + 10 + 9 + 29
ROLES = ["follow 0 0", "dead 0 0"]
FLUSH = ["take 0 0", "save 0 0", "done 0 0"]
BROKEN = [f"stop 0 {call} {left}" for call in (1, 2) for left in ("old", "new", "fill 0", "fill 1", "fill 7")]
# How long the values of a batch are, or None for roles, and how many records there are.
SIZES = {None: [250_000, 500_000, 1_000_000], 20: [125_000, 250_000, 500_000], 1_000: [25_000, 50_000, 100_000]}


def records(n: int, length: int | None) -> list[str]:
    """The lines that append so many records, the last of which is no record of an active vBucket."""
    if length is None:
        return [ROLES[i % 2] for i in range(n - 1)]
    lines = []
    for i in range(n - 2):
        lines += [f"bytes 0 1 {set_frame(b'key%06d' % (i % KEYS), b'v' * length, i)}", *FLUSH]
    return [*lines, "follow 0 0"]


def script(lines: list[str], restarts: int, broken: list[str]) -> str:
    again = ["crash 0 old", "start 0"] * restarts
    for arm in broken:
        again += [arm, "dead 0 0", "start 0"]
    return "\n".join(["node 0", "vb 0 0 active 11", "client 0 1", *lines, *again, "log 0 0", "show 0 0"]) + "\n"


def told(program: str, text: str) -> tuple[float, float, list[str]]:
    with tempfile.NamedTemporaryFile("w", suffix=".dcp") as file:
        file.write(text)
        file.flush()
        seconds, _, peak, transcript = run_counted(program, file.name)
    return seconds, peak / 1024, transcript.splitlines()


def shown(lines: list[str]) -> str:
    return next(line for line in reversed(lines) if line.startswith("shown 0 0 "))


def row(program: str, n: int, length: int | None, last: float | None) -> float:
    lines = records(n, length)
    if length is None and n % 2:
        sys.exit("an odd count would end as dead")
    none, once, often = (told(program, script(lines, restarts, [])) for restarts in (0, 1, 1 + MORE))
    broken = told(program, script(lines, 0, BROKEN))
    for other in (once, often, broken):
        if shown(other[2]) != shown(none[2]):
            sys.exit(f"{n} records: a start leaves something else: {shown(other[2])}")
    if broken[2].count("stopped 0") != len(BROKEN) or broken[2].count("no stopped") != len(BROKEN):
        sys.exit(f"{n} records: an append was not broken off")
    each = (often[0] - once[0]) / MORE
    held = (n * STATE_LEN if length is None else n * (ROWS_LEN + length)) / MIB
    cells = ["roles" if length is None else f"batches, {length:,} bytes", f"{n:,}", f"{held:.1f}", f"{each:.3f}"]
    cells += [f"{each / n * 1e9:,.0f}", "" if last is None else f"{each / last:.2f}"]
    cells += [f"{once[1] - none[1]:.1f}", f"{2 * held + 20:.1f}"]
    print(f"| {' | '.join(cells)} |", flush=True)
    return each


if __name__ == "__main__":
    given = sys.argv[1] if len(sys.argv) > 1 else PROGRAM
    if given == "--help":
        sys.exit(__doc__)
    resource.setrlimit(resource.RLIMIT_CORE, (0, 0))
    heads = ["Records", "N", "Journal, MiB", "An opening, s", "Nanoseconds a record", "Time to that of half"]
    heads += ["More memory, MiB", "Goal, MiB"]
    print(f"| {' | '.join(heads)} |\n|{'---|' * len(heads)}")
    for bytes_, numbers in SIZES.items():
        before = None
        for count in numbers:
            before = row(given, count, bytes_, before)
