#!/usr/bin/env python3
"""Times a vBucket of N keys that moves to another node in pumps of 1,000 frames, with 8 SETs before each of them.

    bench/move.py [DCP [OTHER]]        DCP is the built program, by default crates/dcp_main/out/dcp_main; OTHER is a
                                       command that is timed beside it, as 'other run'
    bench/move.py --instructions [DCP] counts by valgrind what a move costs where nothing is left to send, at 2,000
                                       and at 200,000 keys

A row for each N, which doubles. The gap is how many lines there are from the one in which the old node gives up to the
one in which the new one takes over, both counted, in which nobody takes writes; the rest is how many changes it
carries. It tests nothing: a wrong status or transcript ends it.
"""

import os
import re
import resource
import sys
import tempfile

from line import CALLGRIND, told
from measured import PROGRAM, RUNS, run, set_frame

SIZES = (25_000, 50_000, 100_000, 200_000)
FRAMES, WRITES = 1_000, 8
MOVES = 4
KEYS = (2_000, 200_000)


def written(i: int) -> str:
    return f"bytes 0 1 {set_frame(b'key%06d' % i, b'value%06d' % i, i)}"


def begun(n: int) -> list[str]:
    lines = ["node 0", "node 1", "vb 0 0 active 11", "vb 1 0 replica", "client 0 1"]
    return lines + [written(i) for i in range(n)]


def script(n: int) -> str:
    """Behind the move there are lines left, which are refused: how many pumps it takes the script does not know."""
    lines = begun(n) + ["link 1 0 1 0 0 takeover", "up 1 1000", "down 1 1000"]
    for at in range(n // (FRAMES - 2 * WRITES) + 6):
        lines += [written(at * WRITES + i) for i in range(WRITES)]
        lines += [f"pump 1 {FRAMES}", "down 1 1000000000", "up 1 1000"]
    return "\n".join(lines + ["show 1 0"]) + "\n"


def gap(transcript: str) -> tuple[int, int]:
    """From giving up to taking over, in lines, and the changes that are sent between."""
    at = {}
    for group in re.split(r"^#", transcript, flags=re.M):
        number, _, events = group.partition("\n")
        for role in ("role 0 0 dead", "role 1 0 active"):
            if f"\n{role}\n" in f"\n{events}":
                at[role] = int(number), events.count("\nitem ")
    given, taken = at["role 0 0 dead"], at["role 1 0 active"]
    return taken[0] - given[0] + 1, given[1]


def complaint(n: int, transcript: str) -> str:
    is_moved = "\nend L1 done\n" in transcript and "\nshown 1 0 active 11 " in transcript
    return "" if is_moved and transcript.count("\ndoc ") == n else f"the vBucket of {n} keys did not move"


def rows(program: str, other: str | None) -> None:
    commands = [[program, "run"]] + ([other.split()] if other else [])
    print("| N | Script lines | Seconds | Peak, MiB | Time to that of half | Gap, lines | Rest | Other, seconds | Other, MiB |")
    print("|---|---|---|---|---|---|---|---|---|")
    last = None
    for n in SIZES:
        with tempfile.NamedTemporaryFile("w", suffix=".dcp") as file:
            file.write(script(n))
            file.flush()
            ran = [[run(command[0], file.name, command[1:]) for _ in range(RUNS)] for command in commands]
        transcript = ran[0][0][2]
        if complaint(n, transcript) or any(it[0][2] != transcript for it in ran):
            sys.exit(complaint(n, transcript) or "the other program tells something else")
        best = min(seconds for seconds, _, _ in ran[0])
        cells = [f"{n:,}", f"{script(n).count(chr(10)):,}", f"{best:.3f}", f"{max(it[1] for it in ran[0]) / 1024:.1f}"]
        cells += ["" if last is None else f"{best / last:.2f}", *map(str, gap(transcript))]
        for it in ran[1:]:
            cells += [f"{min(one[0] for one in it):.3f}", f"{max(one[1] for one in it) / 1024:.1f}"]
        print(f"| {' | '.join(cells)} |", flush=True)
        last = best


def moved(one: int, other: int) -> list[str]:
    """A move where the new node has all; the old one follows then."""
    carried = ["pump 1 9", "down 1 1000", "up 1 1000"]
    return [f"link 1 {one} {other} 0 0 takeover", "up 1 1000", "down 1 1000", *carried, *carried, *carried[:2], f"follow {one} 0"]


def instructions(program: str) -> None:
    print("| Keys | Instructions of a move with nothing to send |")
    print("|---|---|")
    for keys in KEYS:
        lines = begun(keys) + ["link 1 0 1 0 0 follow", "up 1 1000", "pump 1 1000000", "down 1 1000000000", "cut 1"]
        moves = [line for i in range(MOVES) for line in moved(i % 2, 1 - i % 2)]
        first, whole = (told(program, CALLGRIND, it, r"Collected : (\d+)", []) for it in (lines, lines + moves))
        print(f"| {keys:,} | {(whole - first) // MOVES:,} |", flush=True)


if __name__ == "__main__":
    given = sys.argv[1:]
    resource.setrlimit(resource.RLIMIT_CORE, (0, 0))
    if given[:1] == ["--instructions"]:
        instructions(given[1] if len(given) > 1 else PROGRAM)
    elif len(given) > 2 or given[:1] == ["--help"]:
        sys.exit(__doc__)
    else:
        rows(given[0] if given else PROGRAM, os.path.expanduser(given[1]) if len(given) == 2 else None)
