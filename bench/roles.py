#!/usr/bin/env python3
"""Times changes of role, and requests for a stream, at a vBucket with many keys.

    bench/roles.py [DCP]      DCP is the built program, by default crates/dcp_main/out/dcp_main

A row for each number of keys and of lines. The keys are set first, and that is taken off: the clock begins with the
last group of the set-up, and ends with the transcript. Neither may depend on the keys, and twice as many lines may
take about twice as long. It tests nothing: a wrong status or transcript ends it.
"""

import resource
import subprocess
import sys
import tempfile
import time

from measured import PROGRAM, RUNS, set_frame

KEYS = (2_000, 200_000)
COUNTS = (1_000, 2_000)


def setting(keys: int) -> list[str]:
    lines = ["node 0", "node 1", "vb 0 0 active 1", "vb 1 0 replica", "client 0 1"]
    return lines + [f"bytes 0 1 {set_frame(b'key%06d' % i, b'value', i)}" for i in range(keys)]


def roles(count: int) -> list[str]:
    return [f"promote 0 0 {i + 2}" if i % 2 else "dead 0 0" for i in range(count)]


def requests(count: int) -> list[str]:
    return ["link 1 0 1 0 0 follow", "up 1 1000", "cut 1"] * count


def seconds(program: str, before: list[str], lines: list[str]) -> tuple[float, str]:
    """The seconds behind the last group of the set-up, and the transcript behind it."""
    last = f"#{len(before)}\n".encode()
    with tempfile.NamedTemporaryFile("w", suffix=".dcp") as script:
        script.write("\n".join(before + lines) + "\n")
        script.flush()
        with open(script.name, "rb") as source:
            child = subprocess.Popen([program, "run"], stdin=source, stdout=subprocess.PIPE, bufsize=0)
            begun, ended, told, place = None, 0.0, bytearray(), 0
            # The end is that of the last piece, and not of the program, which lets go of all keys behind it.
            while piece := child.stdout.read(1 << 12):
                ended = time.perf_counter()
                told += piece
                if begun is None:
                    place = told.find(last, max(0, len(told) - len(piece) - len(last)))
                    begun = ended if place >= 0 else None
            if child.wait() != 0 or begun is None:
                sys.exit(f"{program} ended with {child.returncode}")
    return ended - begun, told[place:].decode()


def rows(program: str, name: str, lines_of, wanted: str) -> None:
    for keys in KEYS:
        last = None
        for count in COUNTS:
            results = [seconds(program, setting(keys), lines_of(count)) for _ in range(RUNS)]
            if results[0][1].count(wanted) != count:
                sys.exit(f"{name} of {count} at {keys} keys: {results[0][1].count(wanted)} were told")
            best = min(result[0] for result in results)
            ratio = "" if last is None else f"{best / last:.2f}"
            print(f"| {name} | {keys:,} | {count:,} | {best:.3f} | {best / count * 1e6:.1f} | {ratio} |", flush=True)
            last = best


if __name__ == "__main__":
    given = sys.argv[1] if len(sys.argv) > 1 else PROGRAM
    resource.setrlimit(resource.RLIMIT_CORE, (0, 0))
    print("| What | Keys | N | Seconds | Microseconds each | Time to that of half |")
    print("|---|---|---|---|---|---|")
    rows(given, "change of role", roles, "\nrole 0 0 ")
    rows(given, "request for a stream", requests, "\nask L1 0 0 ")
