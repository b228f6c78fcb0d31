#!/usr/bin/env python3
"""Stops a node inside each of its device calls, and compares what two programs tell of it, byte for byte.

    bench/crashes.py SCRIPTS 'COMMAND' 'COMMAND' ['JUDGE']      for example bench/crashes.py 1000 'crates/dcp_main/out/dcp_main run' 'other run'

SCRIPTS is how many scripts are made, of 60 lines each: writes, links, batches, takeovers, changes of role and restarts
over three nodes. For each node of a script, each device call that it makes there, and each outcome of a crash, one run stops inside
that call; one more has the call fail. Behind the last line all nodes are started and shown. A JUDGE is given each script,
a line `----` and the transcript of the first program, and ends with 0 where that is lawful.

It prints how much was compared, and the first scripts that differ or are refused, which it keeps; then it ends with 1. It
takes a processor's time, as many at once as there are: some 250 runs of each program a script.
"""

import collections
import itertools
import os
import random
import subprocess
import sys
import tempfile

from concurrent.futures import ThreadPoolExecutor
from typing import Iterator

from measured import get_frame, set_frame

LINES = 60
NODES = 3
ARMS = ["stop {} {} old", "stop {} {} new", "stop {} {} fill 0", "stop {} {} fill 1", "fail {} {}"]
MOST_CALLS = 400
KEPT = 5


def body(seed: int) -> list[str]:
    """The lines of a script behind its nodes."""
    rolls = random.Random(seed)
    uuid = itertools.count(100)
    lines = ["vb 0 0 active 10", "vb 1 0 replica", "vb 2 0 replica"] + [f"client {n} {n}" for n in range(NODES)]

    def link() -> list[str]:
        one, other = rolls.sample(range(NODES), 2)
        number = rolls.randrange(1, 4)
        return [f"link {number} {one} {other} 0 0 follow", f"up {number} 1000", f"pump {number} {rolls.randrange(1, 9)}", f"down {number} 1000"]

    def takeover() -> list[str]:
        """A vBucket on its way to another node, as far as three rounds go, or fewer; where one has just become active."""
        one, other = rolls.sample(range(NODES), 2)
        number = rolls.randrange(1, 4)
        rounds = [f"pump {number} 9", f"down {number} 1000", f"up {number} 1000"] * rolls.choice([2, 3, 3])
        asked = [f"cut {number}"] * rolls.randrange(2) + [f"promote {one} 0 {next(uuid)}"] * rolls.randrange(2)
        return [*asked, f"follow {other} 0", f"link {number} {one} {other} 0 0 takeover", f"up {number} 1000", *rounds]

    def moved() -> list[str]:
        number = rolls.randrange(1, 4)
        return [f"up {number} 1000", f"pump {number} {rolls.randrange(1, 9)}", f"down {number} {rolls.choice([60, 200, 1000])}"]

    def write() -> list[str]:
        n = rolls.randrange(NODES)
        return [f"bytes {n} {n} {set_frame(rolls.choice([b'a', b'b', b'c']), b'%d' % rolls.randrange(100), 1)}"]

    def flush() -> list[str]:
        n = rolls.randrange(NODES)
        return [f"take {n} 0", f"save {n} 0", f"done {n} 0"][: rolls.choice([2, 3, 3, 3])]

    def role() -> list[str]:
        n = rolls.randrange(NODES)
        return [rolls.choice([f"promote {n} 0 {next(uuid)}", f"promote {n} 0 {next(uuid)}", f"follow {n} 0", f"dead {n} 0"])]

    def restart() -> list[str]:
        n = rolls.randrange(NODES)
        return [f"crash {n} {rolls.choice(['old', 'new'])}", f"start {n} {next(uuid)} {next(uuid)}", f"client {n} {n}"]

    def other() -> list[str]:
        n = rolls.randrange(NODES)
        return [rolls.choice([f"seal {n} 0", f"show {n} 0", f"stat {n} 0", f"bytes {n} {n} {get_frame(b'a', 2)}", f"cut {rolls.randrange(1, 4)}", f"vb {n} 1 active {next(uuid)}"])]

    parts = [link, takeover, takeover, moved, moved, write, write, write, flush, flush, role, restart, other]
    while len(lines) < LINES - NODES:
        lines += rolls.choice(parts)()
    return lines[: LINES - NODES]


def places(lines: list[str], n: int) -> list[int]:
    """Where the node n is given an arm: as soon as it is made, and behind each of its crashes, as a crash ends the arm."""
    return [0] + [i + 1 for i, line in enumerate(lines) if line.startswith(f"crash {n} ")]


def script(lines: list[str], place: int, arm: str) -> str:
    """The script with an arm in front of this line."""
    text = [f"node {m}" for m in range(NODES)]
    ends = [line for m in range(NODES) for line in (f"stop {m} 0 old", f"start {m} {900 + 3 * m} {901 + 3 * m} {902 + 3 * m}")]
    shows = [f"{verb} {m} {v}" for m in range(NODES) for v in (0, 1) for verb in ("show", "log", "stat")]
    return "\n".join(text + lines[:place] + [arm] + lines[place:] + ends + shows) + "\n"


def told(command: str, text: str) -> tuple[int, bytes]:
    ran = subprocess.run(command.split(), input=text.encode(), stdout=subprocess.PIPE)
    return ran.returncode, ran.stdout


def armed(lines: list[str], n: int, place: int, arm: str, first: str) -> Iterator[tuple[str, tuple[int, bytes]]]:
    """The scripts in which this arm is at each device call that the node n makes from there to its next crash, with what the first program tells."""
    for call in range(1, MOST_CALLS):
        text = script(lines, place, arm.format(n, call))
        came = told(first, text)
        if not any(line in came[1].split(b"\n") for line in (b"stopped %d" % n, b"failed %d" % n)):
            return
        yield text, came
    sys.exit(f"a node makes {MOST_CALLS} device calls")


def tried(seed: int, first: str, second: str, judge: str | None) -> tuple[collections.Counter, list[str]]:
    lines = body(seed)
    counts: collections.Counter = collections.Counter(scripts=1)
    wrong = []
    armings = [(n, place, arm) for n in range(NODES) for place in places(lines, n) for arm in ARMS]
    for n, place, arm in armings:
        for text, came in armed(lines, n, place, arm, first):
            counts["runs"] += 1
            counts["calls"] += arm == ARMS[0]
            unlawful = judge is not None and told(judge, f"{text}----\n{came[1].decode()}")[0] != 0
            if unlawful or told(second, text) != came:
                wrong.append(text)
    return counts, wrong


def main(words: list[str]) -> None:
    if len(words) not in (3, 4):
        sys.exit(__doc__)
    counts: collections.Counter = collections.Counter()
    wrong: list[str] = []
    with ThreadPoolExecutor(os.cpu_count()) as lanes:
        for some, texts in lanes.map(lambda seed: tried(seed, *words[1:3], words[3] if len(words) == 4 else None), range(int(words[0]))):
            counts += some
            wrong += texts
    print("| Scripts | Device calls | Runs of each program | Differ or are refused |")
    print("|---|---|---|---|")
    print(f"| {counts['scripts']:,} | {counts['calls']:,} | {counts['runs']:,} | {len(wrong):,} |")
    for text in wrong[:KEPT]:
        with tempfile.NamedTemporaryFile("w", suffix=".dcp", delete=False) as file:
            file.write(text)
            print(file.name)
    sys.exit(1 if wrong else 0)


main(sys.argv[1:])
