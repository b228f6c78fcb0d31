#!/usr/bin/env python3
"""Times `gen 7 N`: N writes at one node, a replica that follows, and a journal, all of which the program makes itself.

    bench/gen.py [DCP]      DCP is the built program, by default crates/dcp_main/out/dcp_main

A row for each N, which doubles: the best time of the runs, in which the sizes take turns, and the highest peak. The lines
a second are those of the script that is made. It tests nothing: a wrong status or another number of lines ends it.
"""

import os
import resource
import sys

from measured import PROGRAM, run

SEED = 7
RUNS = 12
SIZES = [12_500, 25_000, 50_000, 100_000]


def script_lines(n: int) -> int:
    """Seven lines and the writes, six lines behind each 64 of them and behind the last ones, and two shows."""
    return 7 + n + 6 * -(-n // 64) + 2


def complaint(n: int, told: str) -> str:
    fronts = [f"script {script_lines(n)}\n", "transcript ", "shown 0 0 active 1 ", "shown 1 0 replica 1 "]
    lines = told.splitlines(keepends=True)
    whole = len(lines) == len(fronts) and all(map(str.startswith, lines, fronts))
    return "" if whole else f"gen {SEED} {n} tells something else:\n{told}"


def main(words: list[str]) -> None:
    if words[:1] == ["--help"]:
        print(__doc__, end="")
        return
    program = words[0] if words else PROGRAM
    resource.setrlimit(resource.RLIMIT_CORE, (0, 0))
    results: dict[int, list[tuple[float, int, str]]] = {n: [] for n in SIZES}
    for _ in range(RUNS):
        for n in SIZES:
            results[n].append(run(program, os.devnull, ["gen", str(SEED), str(n)]))
            wrong = complaint(n, results[n][-1][2])
            if wrong:
                sys.exit(wrong)
    heads = ["N", "Script lines", "Transcript lines", "Seconds", "Lines a second", "Peak, MiB", "Time to that of half"]
    print(f"| {' | '.join(heads)} |\n|{'---|' * len(heads)}")
    last = None
    for n, runs in results.items():
        best, peak = min(one[0] for one in runs), max(one[1] for one in runs) / 1024
        printed = int(runs[0][2].splitlines()[1].split()[1])
        ratio = "" if last is None else f"{best / last:.2f}"
        print(f"| {n:,} | {script_lines(n):,} | {printed:,} | {best:.3f} | {script_lines(n) / best:,.0f} | {peak:.1f} | {ratio} |")
        last = best


if __name__ == "__main__":
    main(sys.argv[1:])
