#!/usr/bin/env python3
"""Times threads that write to vBuckets, by turns and under a lock each, and `storm`.

    bench/storm.py [DCP]      DCP is the built program, by default crates/dcp_main/out/dcp_main

The program that writes is bench/turns.rattle. Each of its threads makes the writes of a storm's client: on four vBuckets, of
which each thread has one, so that four threads never meet; on the same four, each write to that one which a storm would write
it to, so that they meet all the time; or all on one. Each is a call of a turn, or of the same vBucket behind a plain `Mutex`.
It stands in no crate, so the gate does not prove it. It is proved and built here first, which takes some three minutes, over
the libraries that 'rt ci' or './dcp prove' left in crates/*/out; DCP_LIBRARIES names another clone to take these from.

Both ways take turns, and a row has the best of each: calls a second by the clock, and the processor time of the whole
process by its calls. Behind that the longest call of a million, and `storm` with half and with all of its writes. A write
that is not stored, or lines that do not add up, end it. Where the processors were busy, the clock's columns say little: the
load stands above and below.
"""

import os
import resource
import subprocess
import sys
import tempfile
import time
from typing import Iterator, NamedTuple

from measured import PROGRAM, TOP, run

LIBRARIES = os.environ.get("DCP_LIBRARIES", TOP)
USED = ["storm_model", "vb_calls", "vb_turn", "vb_types", "vbucket"]
THREADS = [1, 2, 4, 8, 16]
TURNS = 5
CALLS = 1_000_000
LONG = 1_000_000
WAYS = ["turns", "locks"]
# Which vBuckets the threads write to.
OWN, ALL, ONE = "4, one a thread", "4, as in a storm", "1"
# The most that a call by turns may take, to one under a lock, in processor time: by vBuckets and threads.
FOUR = {1: 1.1, 2: 1.3, 4: 1.3}
GOALS = {OWN: FOUR, ALL: FOUR, ONE: {1: 1.1, 4: 2.0}}
# How many times the calls a second of one thread there are to be where all processors are idle, by vBuckets and threads.
FASTER = {OWN: {4: 2.5}}
STORMS = [("7", "64", "7812"), ("7", "64", "15625")]


class Took(NamedTuple):
    """What a run took, in seconds: by the clock, of processors, and its longest call where each was timed."""

    clock: float
    processors: float
    longest: float


def below(crate: str) -> list[str]:
    """The crates of this repository that a crate stands on, and itself."""
    with open(f"{TOP}/crates.txt", encoding="utf-8") as lines:
        parts = (line.split("#")[0].partition(":") for line in lines)
        named = {head.split()[0]: tail.split() for head, colon, tail in parts if colon}
    found, left = [], [crate]
    while left:
        one = left.pop()
        if one in named and one not in found:
            found.append(one)
            left += named[one]
    return found


def build(room: str) -> str:
    """Proves the program of bench/turns.rattle and builds it."""
    said = subprocess.run(["rt", "doc"], stdout=subprocess.PIPE, text=True, check=True).stdout
    kit = os.path.dirname(said.strip())
    os.mkdir(f"{room}/src")
    with open(f"{TOP}/bench/turns.rattle", encoding="utf-8") as text, open(f"{room}/src/main.rt", "w", encoding="utf-8") as file:
        file.write(text.read())
    words = [f"{kit}/bin/rattle", "build", "--crate-name", "turns", "src/main.rt", "--extern", f"std={kit}/rlibs/std.rlib"]
    for crate in sorted({low for crate in USED for low in below(crate)}):
        library = f"{LIBRARIES}/crates/{crate}/out/rlib"
        if not os.path.isdir(f"{library}/{crate}.rlib"):
            sys.exit(f"bench/storm.py: {crate} is not built: 'rt ci' or './dcp prove' builds it")
        words += ["--extern", f"{crate}={library}/{crate}.rlib"] if crate in USED else ["-L", f"dependency={library}"]
    words += ["-L", f"dependency={kit}/rlibs", "--antt-project", f"{kit}/rattle/logic/antt-project.json"]
    words += ["--logic-built", f"{kit}/logic_built", "--jobs", "1", "--toolchain", f"{kit}/toolchain", "-o", "turns.o"]
    link = [f"{kit}/bin/rattle-link", "--target", "x86_64-unknown-linux-gnu", "--toolchain", f"{kit}/toolchain"]
    link += ["-o", "turns", "turns.o", f"{kit}/c/libos_c.a", f"{kit}/c/liblibc_c.a"]
    for command in (words, link):
        told = subprocess.run(command, cwd=room, stdout=subprocess.PIPE, stderr=subprocess.STDOUT, text=True)
        if told.returncode:
            sys.exit(f"bench/storm.py: the program that writes is not built:\n{told.stdout[-3000:]}")
    return f"{room}/turns"


def write(program: str, way: str, threads: int, calls: int, on: str, is_timed: bool = False) -> Took:
    """A run of so many threads, with so many calls in all."""
    numbers = [threads, calls // threads, int(on.split(",")[0]), int(on == OWN), int(is_timed)]
    words = [program, way, *map(str, numbers)]
    with subprocess.Popen(words, stdout=subprocess.PIPE, text=True) as started:
        told = started.stdout.read().split()
        _, status, used = os.wait4(started.pid, 0)
        started.returncode = os.waitstatus_to_exitcode(status)
    if started.returncode or told[2:4] != ["refused", "0"]:
        sys.exit(f"{' '.join(words)} ended with {started.returncode}: {' '.join(told)}")
    return Took(int(told[1]) / 1e9, used.ru_utime + used.ru_stime, int(told[5]) / 1e9)


def best(program: str, threads: int, on: str) -> dict[str, Took]:
    """The best of all turns of each way, column by column."""
    runs: dict[str, list[Took]] = {way: [] for way in WAYS}
    for _ in range(TURNS):
        for way in WAYS:
            runs[way].append(write(program, way, threads, CALLS, on))
    return {way: Took(*map(min, zip(*took))) for way, took in runs.items()}


def rows(program: str) -> Iterator[str]:
    heads = ["vBuckets", "Threads", "Calls a second", "Under a lock", "To 1 thread's"]
    heads += ["Processor µs a call", "Under a lock", "To those", "Goal"]
    yield f"| {' | '.join(heads)} |\n|{'---|' * len(heads)}"
    for on in (OWN, ALL, ONE):
        alone = None
        for threads in THREADS:
            turns, locks = best(program, threads, on).values()
            calls = CALLS // threads * threads
            alone = alone or calls / turns.clock
            goal = FASTER.get(on, {}).get(threads)
            faster = f"{calls / turns.clock / alone:.2f}" + (f", goal {goal}" if goal else "")
            cells = [on, threads, f"{calls / turns.clock:,.0f}", f"{calls / locks.clock:,.0f}", faster]
            cells += [f"{turns.processors / calls * 1e6:.2f}", f"{locks.processors / calls * 1e6:.2f}"]
            cells += [f"{turns.processors / locks.processors:.2f}", GOALS[on].get(threads, "")]
            yield f"| {' | '.join(map(str, cells))} |"


def longest(program: str) -> Iterator[str]:
    yield "| Threads on one vBucket | Calls | Longest call, ms | Under a lock, ms |\n|---|---|---|---|"
    for turn in range(TURNS):
        turns, locks = (write(program, way, 4, LONG, ONE, is_timed=True) for way in WAYS)
        yield f"| 4 | {LONG:,} | {turns.longest * 1e3:.1f} | {locks.longest * 1e3:.1f} |"


def storms(program: str) -> Iterator[str]:
    yield "| Words | Seconds | Peak, MiB | Time to that of half |\n|---|---|---|---|"
    took: dict[tuple[str, ...], list[tuple[float, int]]] = {words: [] for words in STORMS}
    for _ in range(TURNS):
        for words in STORMS:
            seconds, peak, told = run(program, os.devnull, ["storm", *words])
            highs = sum(int(line.split()[3]) for line in told.splitlines())
            if highs != int(words[1]) * int(words[2]):
                sys.exit(f"storm {' '.join(words)} tells something else:\n{told}")
            took[words].append((seconds, peak))
    last = None
    for words, runs in took.items():
        seconds, peak = min(one[0] for one in runs), max(one[1] for one in runs)
        ratio = "" if last is None else f"{seconds / last:.2f}"
        yield f"| {' '.join(words)} | {seconds:.2f} | {peak / 1024:.0f} | {ratio} |"
        last = seconds


def load() -> str:
    """When it is, how many processors there are, and how many processes wanted one of late."""
    of_late = ", ".join(f"{one:.1f}" for one in os.getloadavg())
    return f"{time.strftime('%Y-%m-%d %H:%M', time.gmtime())}, {len(os.sched_getaffinity(0))} processors, load {of_late}"


def main(words: list[str]) -> None:
    if words[:1] == ["--help"]:
        print(__doc__, end="")
        return
    resource.setrlimit(resource.RLIMIT_CORE, (0, 0))
    with tempfile.TemporaryDirectory(prefix="dcp-storm-") as room:
        program = build(room)
        print(load(), flush=True)
        for lines in (rows(program), longest(program), storms(words[0] if words else PROGRAM)):
            print()
            for line in lines:
                print(line, flush=True)
        print(f"\n{load()}")


if __name__ == "__main__":
    main(sys.argv[1:])
