#!/usr/bin/env python3
# SPDX-License-Identifier: Apache-2.0
"""storm.py SEED CLIENTS WRITES prints the four lines of `storm`, by a program that shares nothing with the core.

It knows the generator of writes and what the words of a line mean, and nothing of a vBucket: a vBucket is a dictionary and a
count. So it is no proof that the core is right; the tests compare the two. Words outside the limits are refused with status 2.
"""
import sys

VBUCKETS = 4
USAGE = "usage: storm.py SEED CLIENTS WRITES"


def writes_of(seed, client, count):
    """Each write of a client, in order: its vBucket, its key and its value."""
    word = (seed + client) % 2**64
    for number in range(1, count + 1):
        word = (word * 6364136223846793005 + 1442695040888963407) % 2**64
        yield (word >> 33) % 4, f"c{client}k{(word >> 40) % 100}", str(number)


def storm_lines(seed, clients, writes):
    """The line of each vBucket. All is saved and read to the end, so three words repeat others."""
    highs = [0] * VBUCKETS
    docs = [{} for _ in range(VBUCKETS)]
    for client in range(clients):
        for vb, key, value in writes_of(seed, client, writes):
            highs[vb] += 1
            docs[vb][key] = value
    lines = []
    for vb in range(VBUCKETS):
        total = sum(map(int, docs[vb].values())) % 2**64
        lines.append(f"vb {vb} high {highs[vb]} docs {len(docs[vb])} sum {total} saved {highs[vb]} read {total} {total}")
    return lines


def number(word, most):
    """The number that a word spells, without a leading zero, or None."""
    if not (word.isascii() and word.isdigit()) or (len(word) > 1 and word[0] == "0") or int(word) > most:
        return None
    return int(word)


def main(words):
    if len(words) != 3:
        print(USAGE, file=sys.stderr)
        sys.exit(2)
    seed, clients, writes = number(words[0], 2**64 - 1), number(words[1], 64), number(words[2], 1_000_000)
    if seed is None or not clients or not writes or clients * writes > 1_000_000:
        print(USAGE, file=sys.stderr)
        sys.exit(2)
    print("\n".join(storm_lines(seed, clients, writes)))


if __name__ == "__main__":
    main(sys.argv[1:])
