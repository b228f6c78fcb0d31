#!/usr/bin/env python3
"""Sends clients' bytes that are spoilt, and compares what two programs tell of them, byte for byte.

    bench/hostile.py BYTES SEED 'COMMAND' ['COMMAND']     for example bench/hostile.py 10000000 1 'crates/dcp_main/out/dcp_main run' 'other run'

The bytes are frames of the corpus: some stay as they are, and of the others bits are flipped, pieces dropped, doubled or
put in, lengths changed, or the end is cut off. They come in pieces, at connections that are opened anew, to two nodes of
four vBuckets each, which have chains, links and journals. Each script has 64 KiB of them, and is the same for the same
seed. Without a second COMMAND the program alone is run: each script has to end with status 0, and take at most a second
of a processor's time.

It prints how much was compared, how many frames were answered with which status, and the longest run; and the first
scripts that differ, fail or take longer, which it keeps; then it ends with 1. As many run at once as there are processors.
"""

import collections
import glob
import os
import random
import re
import resource
import subprocess
import sys
import tempfile
import time
from concurrent.futures import ThreadPoolExecutor

from measured import TOP

SCRIPT = 65_536
MOST_FRAME = 4_096
MOST_SECONDS = 1.0
KEPT = 5
NODES, VBUCKETS = 2, 4
LENGTHS = [0, 1, 7, 8, 9, 31, 48, 250, 251, 255, 256, 65_535, 20_971_520, 22_020_096, 22_020_097, 2**31, 2**32 - 1]


def frames_in(held: bytes) -> list[bytes]:
    """What it begins with, as long as it is whole frames."""
    found = []
    while len(held) >= 24 and held[0] in (0x80, 0x81, 0x08):
        end = 24 + int.from_bytes(held[8:12], "big")
        if end > min(len(held), MOST_FRAME):
            break
        found.append(held[:end])
        held = held[end:]
    return found


def stored_streams() -> list[list[bytes]]:
    """What each client of the corpus sends in whole frames, in its order, once each."""
    found: dict[tuple[bytes, ...], None] = {}
    for path in sorted(glob.glob(os.path.join(TOP, "corpus/*/*.dcp"))):
        held: dict[bytes, bytearray] = collections.defaultdict(bytearray)
        with open(path, "rb") as file:
            for line in file.read().split(b"\n"):
                if re.fullmatch(rb"bytes \d+ \d+ ([0-9A-Fa-f]{2})+", line):
                    _, n, c, text = line.split(b" ")
                    held[n + b" " + c] += bytes.fromhex(text.decode())
        found.update((tuple(frames), None) for frames in map(frames_in, map(bytes, held.values())) if frames)
    return [list(frames) for frames in found]


def spoilt(frame: bytes, rolls: random.Random) -> bytes:
    held = bytearray(frame)
    at = rolls.randrange(len(held))
    piece = slice(at, at + rolls.choice([1, 1, 2, 4, 8, 24]))
    match rolls.randrange(7):
        case 0:
            for _ in range(rolls.choice([1, 1, 2, 8])):
                held[rolls.randrange(len(held))] ^= 1 << rolls.randrange(8)
        case 1:
            del held[piece]
        case 2:
            held[at:at] = held[piece]
        case 3:
            held[at:at] = rolls.randbytes(rolls.choice([1, 2, 24]))
        case 4:
            first, count = rolls.choice([(2, 2), (2, 1), (3, 1), (4, 1), (8, 4), (8, 4)])
            number = rolls.choice(LENGTHS + [len(held) - 24, len(held) - 23, len(held) - 25])
            held[first : first + count] = (number % 256**count).to_bytes(count, "big")
        case 5:
            del held[at:]
        case 6:
            # Another opcode, vBucket or datatype: the frame stays whole.
            held[rolls.choice([1, 1, 1, 5, 7])] = rolls.choice([0, 1, 2, 3, 4, 5, *range(0x50, 0x66), 255])
    return bytes(held)


def stream(streams: list[list[bytes]], rolls: random.Random) -> bytes:
    """What one connection is sent: the front of a stored stream, so that it greets and opens first, or any frames. Most of
    it is spoilt in few places, so that what follows is read too."""
    chosen = rolls.choice(streams)[: rolls.randrange(1, 24)]
    if rolls.random() < 0.4:
        chosen = [rolls.choice(rolls.choice(streams)) for _ in range(rolls.randrange(1, 16))]
    share = rolls.choice([0.05, 0.1, 0.3, 1.0])
    return b"".join(spoilt(it, rolls) if rolls.random() < share else it for it in chosen)


def opening() -> list[str]:
    lines = [f"node {n}" for n in range(NODES)]
    for v in range(VBUCKETS):
        lines += [f"vb 0 {v} active {v + 1}", f"vb 1 {v} replica"]
    lines += ["chain 0 1 1", "chain 0 2 - -", "chain 0 3 1 2"]
    return lines + [f"link {v} 0 1 {v} {v % 2 * 500} follow" for v in range(VBUCKETS)]


def between(rolls: random.Random) -> list[str]:
    """What goes on beside the clients."""
    v = rolls.randrange(VBUCKETS)
    moved = [f"up {v} 1000", f"pump {v} 20", f"down {v} 5000", f"up {v} 1000"]
    flushed = [f"{verb} 0 {v}" for verb in ("take", "save", "done")]
    return rolls.choice([moved, moved, flushed, [f"clock 0 {rolls.randrange(2**40)}", f"tick 0 {v}"], [f"stat 0 {v}"], [f"seal 0 {v}"]])


def script(streams: list[list[bytes]], seed: int) -> tuple[str, int]:
    """A script, and how many bytes clients send in it."""
    rolls = random.Random(seed)
    lines, sent = opening(), 0
    while sent < SCRIPT:
        n, c = rolls.choice([0, 0, 0, 1]), rolls.randrange(1000)
        lines.append(f"client {n} {c}")
        held = stream(streams, rolls)[: SCRIPT - sent]
        sent += len(held)
        while held:
            count = rolls.choice([len(held), rolls.randrange(1, len(held) + 1)])
            lines.append(f"bytes {n} {c} {held[:count].hex()}")
            held = held[count:]
        lines += rolls.choice([[], [f"pull {n} {c} 5"], [f"hang {n} {c}"], between(rolls)])
    return "\n".join([*lines, *(f"show {n} {v}" for n in range(NODES) for v in range(VBUCKETS))]) + "\n", sent


def told(command: str, text: str) -> tuple[int, bytes, float]:
    """The status, the transcript, and the seconds that a processor took."""
    with tempfile.TemporaryFile() as source, tempfile.TemporaryFile() as sink:
        source.write(text.encode())
        source.seek(0)
        words = command.split()
        actions = [(os.POSIX_SPAWN_DUP2, source.fileno(), 0), (os.POSIX_SPAWN_DUP2, sink.fileno(), 1)]
        child = os.posix_spawnp(words[0], words, os.environ, file_actions=actions)
        _, status, usage = os.wait4(child, 0)
        sink.seek(0)
        return os.waitstatus_to_exitcode(status), sink.read(), usage.ru_utime + usage.ru_stime


def tried(streams: list[list[bytes]], seed: int, commands: list[str]) -> tuple[collections.Counter, float, list[tuple[str, str]]]:
    text, sent = script(streams, seed)
    status, transcript, seconds = told(commands[0], text)
    counts = collections.Counter(scripts=1, sent=sent)
    for line in transcript.split(b"\n"):
        if line.startswith(b"reply "):
            counts["answered with " + line.split(b" ")[3][12:16].decode()] += 1
        elif line.startswith(b"closed "):
            counts["closed"] += 1
    wrong = [f"status {status}"] * (status != 0) + [f"{seconds:.2f} s"] * (seconds > MOST_SECONDS)
    if len(commands) == 2 and told(commands[1], text)[:2] != (status, transcript):
        wrong.append("the programs differ")
    return counts, seconds, [(it, text) for it in wrong]


def main(words: list[str]) -> None:
    if len(words) not in (3, 4) or not (words[0] + words[1]).isdigit():
        sys.exit(__doc__)
    resource.setrlimit(resource.RLIMIT_CORE, (0, 0))
    scripts, first, begun = -(-int(words[0]) // SCRIPT), int(words[1]), time.perf_counter()
    streams = stored_streams()
    counts: collections.Counter = collections.Counter()
    longest, wrong = 0.0, []
    with ThreadPoolExecutor(os.cpu_count()) as lanes:
        for some, seconds, found in lanes.map(lambda i: tried(streams, first * 1_000_000 + i, words[2:]), range(scripts)):
            counts += some
            longest = max(longest, seconds)
            wrong += found
    print("| Frames of the corpus | Scripts | Bytes | Connections closed | Longest run, s | Seconds | Wrong |\n|---|---|---|---|---|---|---|")
    cells = [f"{sum(map(len, streams)):,}", f"{counts['scripts']:,}", f"{counts['sent']:,}", f"{counts['closed']:,}", f"{longest:.2f}"]
    print(f"| {' | '.join(cells)} | {time.perf_counter() - begun:.0f} | {len(wrong):,} |\n")
    print("| Status of answers | How many |\n|---|---|")
    print(*(f"| {key[-4:]} | {counts[key]:,} |" for key in sorted(counts) if key.startswith("answered")), sep="\n")
    for what, text in wrong[:KEPT]:
        with tempfile.NamedTemporaryFile("w", suffix=".dcp", delete=False) as file:
            file.write(text)
            print(f"{what}: {file.name}")
    sys.exit(1 if wrong else 0)


main(sys.argv[1:])
