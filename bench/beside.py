#!/usr/bin/env python3
"""Times N SETs and N GETs beside memcached, which gets the same frames, pipelined over loopback.

    bench/beside.py [DCP]      DCP is the built program, by default crates/dcp_main/out/dcp_main

memcached runs one worker. Both take turns; a row has the best time of each. The program reads its script from a file and
writes its transcript away, so that it has no socket, and prints each line. Where memcached is not installed, that is said.
It tests nothing: a wrong status, or an answer of another length, ends it.
"""

import os
import shutil
import socket
import subprocess
import sys
import tempfile
import threading
import time

from measured import PROGRAM, get_frame, set_frame

N = 40_000
TURNS = 10
PORT = 21_511
# An answer to SET is a header, and one to GET has the flags and the value behind it.
ANSWERS = N * 24 + N * (24 + 4 + len(b"value%06d" % 0))


def frames() -> list[str]:
    sets = [set_frame(b"key%06d" % i, b"value%06d" % i, i) for i in range(N)]
    return sets + [get_frame(b"key%06d" % i, i) for i in range(N)]


def connected() -> socket.socket:
    for _ in range(100):
        try:
            return socket.create_connection(("127.0.0.1", PORT))
        except ConnectionRefusedError:
            time.sleep(0.05)
    sys.exit("memcached does not answer")


def theirs(asked: bytes) -> float:
    """The seconds from the first byte that is sent to the last one that is answered, by a memcached that is new."""
    words = ["memcached", "-t", "1", "-l", "127.0.0.1", "-p", str(PORT), "-U", "0", "-m", "1024", "-u", "nobody"]
    server = subprocess.Popen(words, stderr=subprocess.DEVNULL)
    try:
        with connected() as link:
            begun = time.perf_counter()
            sender = threading.Thread(target=link.sendall, args=(asked,))
            sender.start()
            left = ANSWERS
            while left > 0:
                piece = link.recv(1 << 20)
                if not piece:
                    sys.exit("memcached hung up")
                left -= len(piece)
            seconds = time.perf_counter() - begun
            sender.join()
        if left:
            sys.exit("memcached answered something else")
        return seconds
    finally:
        server.kill()
        server.wait()


def ours(program: str, path: str) -> float:
    with open(path, "rb") as script, open(os.devnull, "wb") as sink:
        begun = time.perf_counter()
        ended = subprocess.run([program, "run"], stdin=script, stdout=sink).returncode
        seconds = time.perf_counter() - begun
    if ended:
        sys.exit(f"{program} ended with {ended}")
    return seconds


def main() -> None:
    program = sys.argv[1] if len(sys.argv) > 1 else PROGRAM
    if not shutil.which("memcached"):
        sys.exit("skipped, there is no memcached")
    asked = frames()
    with tempfile.NamedTemporaryFile("w") as file:
        start = ["node 0", "vb 0 0 active 11", "client 0 1"]
        file.write("\n".join(start + [f"bytes 0 1 {frame}" for frame in asked]) + "\n")
        file.flush()
        times = [(ours(program, file.name), theirs(bytes.fromhex("".join(asked)))) for _ in range(TURNS)]
    mine, other = (min(column) for column in zip(*times))
    print("| SETs and GETs | Seconds | memcached's | To those |")
    print("|---|---|---|---|")
    print(f"| {N:,} and {N:,} | {mine:.3f} | {other:.3f} | {mine / other:.2f} |")


if __name__ == "__main__":
    main()
