#!/usr/bin/env python3
"""Counts what one line of a client costs, with what follows it: instructions, and calls that take memory, by valgrind.

    bench/line.py [DCP]               DCP is the built program, by default crates/dcp_main/out/dcp_main
    bench/line.py --page FILE [DCP]   ends with 1 where a line takes over a tenth more than a row of FILE says

The count of a script of 2,000 such lines less that of one of 1,000, by line. It times nothing. The rows of FILE are those
that are printed here; what stands behind them is not read.
"""

import re
import subprocess
import sys
from typing import Callable

from durable import written
from live import script as followed
from measured import PROGRAM, get_frame, set_frame

START = ["node 0", "vb 0 0 active 11", "client 0 1"]
KEYS = 1000
CALLGRIND = "--tool=callgrind --callgrind-out-file=/dev/null"
MEMCHECK = "--tool=memcheck"


def key(i: int) -> bytes:
    return b"key%06d" % i


def sets(n: int) -> list[str]:
    return [f"bytes 0 1 {set_frame(key(i), b'value%06d' % i, i)}" for i in range(n)]


def gets(n: int) -> list[str]:
    return sets(KEYS) + [f"bytes 0 1 {get_frame(key(i % KEYS), i)}" for i in range(n)]


def all_told(program: str, tool: str, lines: list[str], pattern: str, start: list[str] = START) -> list[int]:
    """The numbers that a tool of valgrind tells of a run."""
    command = ["valgrind", *tool.split(), program, "run"]
    script = "\n".join(start + lines) + "\n"
    run = subprocess.run(command, input=script, capture_output=True, text=True)
    found = re.search(pattern, run.stderr)
    if run.returncode != 0 or not found:
        sys.exit(run.stderr)
    return [int(number.replace(",", "")) for number in found.groups()]


def told(program: str, tool: str, lines: list[str], pattern: str, start: list[str] = START) -> int:
    return all_told(program, tool, lines, pattern, start)[0]


# The scripts of n lines of each kind: a SET that a replica follows is pumped with others, 64 at a time, and a durable
# write has three lines more, which bring it to its replica and back.
PLAIN = {
    "SET": lambda n: START + sets(n),
    "GET": lambda n: START + gets(n),
    "SET that a replica follows": lambda n: followed(n, n).splitlines(),
    "durable write": lambda n: written(n).splitlines(),
}


def by_line(count: Callable[[list[str]], int], lines: Callable[[int], list[str]]) -> float:
    return (count(lines(2000)) - count(lines(1000))) / 1000


def rows_of(path: str) -> dict[str, int]:
    """The instructions of each kind of line, by the first row of a page that begins with its name."""
    found: dict[str, int] = {}
    with open(path, encoding="utf-8") as page:
        for name, count in re.findall(r"^\| ([^|]+?) \| ([\d,]+) \|", page.read(), re.M):
            found.setdefault(name, int(count.replace(",", "")))
    return found


def main(words: list[str]) -> int:
    limits: dict[str, int] = {}
    if words[:1] == ["--page"]:
        limits, words = rows_of(words[1]), words[2:]
        missing = [name for name in PLAIN if name not in limits]
        if missing:
            sys.exit(f"no row of {', '.join(missing)}")
    program = words[0] if words else PROGRAM
    worse = 0
    print("| Line | Instructions | Calls that take memory |")
    print("|---|---|---|")
    for name, lines in PLAIN.items():
        instructions = by_line(lambda them: told(program, CALLGRIND, them, r"Collected : (\d+)", []), lines)
        memory = by_line(lambda them: told(program, MEMCHECK, them, r"total heap usage: ([\d,]+) allocs", []), lines)
        print(f"| {name} | {instructions:,.0f} | {memory:.1f} |", flush=True)
        if limits and instructions > 1.1 * limits[name]:
            print(f"{name}: over a tenth more than the page's {limits[name]:,}", flush=True)
            worse = 1
    return worse


if __name__ == "__main__":
    sys.exit(main(sys.argv[1:]))
