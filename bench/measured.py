"""Frames of clients, runs of the built program with their time and memory, and rows of a table."""

import os
import resource
import subprocess
import sys
import tempfile
from typing import Callable, Iterable

TOP = os.path.dirname(os.path.dirname(os.path.abspath(__file__)))
PROGRAM = os.path.join(TOP, "crates/dcp_main/out/dcp_main")
RUNS = 3

# Starts the program and tells its seconds, its peak of memory in KiB and its status. It is a small process of its
# own: a child's peak is at least what its parent held when it was started. So no peak below some 9 MiB is seen.
LAUNCHER = """
import os, sys, time
begun = time.perf_counter()
child = os.posix_spawn(sys.argv[1], sys.argv[1:], os.environ)
_, status, usage = os.wait4(child, 0)
seconds = time.perf_counter() - begun
print(usage.ru_utime + usage.ru_stime, seconds, usage.ru_maxrss, os.waitstatus_to_exitcode(status), file=sys.stderr)
"""


def frame(opcode: int, key: bytes, extras: bytes, value: bytes, opaque: int) -> str:
    body = extras + key + value
    header = (
        bytes([0x80, opcode])
        + len(key).to_bytes(2, "big")
        + bytes([len(extras), 0, 0, 0])
        + len(body).to_bytes(4, "big")
        + opaque.to_bytes(4, "big")
        + bytes(8)
    )
    return (header + body).hex()


def set_frame(key: bytes, value: bytes, opaque: int) -> str:
    return frame(0x01, key, bytes(8), value, opaque)


def get_frame(key: bytes, opaque: int) -> str:
    return frame(0x00, key, b"", b"", opaque)


def run(program: str, path: str, words: Iterable[str] = ("run",)) -> tuple[float, int, str]:
    """The seconds, the peak of memory in KiB, and the transcript."""
    return run_counted(program, path, words)[1:]


def run_counted(program: str, path: str, words: Iterable[str] = ("run",)) -> tuple[float, float, int, str]:
    """The seconds of a processor, those that passed, the peak of memory in KiB, and the transcript."""
    launch = [sys.executable, "-I", "-S", "-c", LAUNCHER, program, *words]
    with open(path, "rb") as source, tempfile.TemporaryFile() as sink:
        told = subprocess.run(launch, stdin=source, stdout=sink, stderr=subprocess.PIPE, text=True)
        if told.returncode != 0:
            sys.exit(told.stderr)
        taken, seconds, peak, status = told.stderr.split()[-4:]
        if status != "0":
            sys.exit(f"{program} ended with {status}")
        sink.seek(0)
        return float(taken), float(seconds), int(peak), sink.read().decode()


def table(
    sizes: Iterable[int], script: Callable[[int], str], complaint: Callable[[int, str], str], runs: int = RUNS
) -> None:
    """Prints a row for each size: the best time of the runs, the highest peak, and the ratio to the row before.

    The sizes take turns, so that a slow moment of the machine is not that of one size alone.
    """
    program = sys.argv[1] if len(sys.argv) > 1 else PROGRAM
    resource.setrlimit(resource.RLIMIT_CORE, (0, 0))
    with tempfile.TemporaryDirectory() as folder:
        paths, lines = {}, {}
        for n in sizes:
            text = script(n)
            paths[n], lines[n] = os.path.join(folder, f"{n}.dcp"), text.count("\n")
            with open(paths[n], "w") as file:
                file.write(text)
        times, peaks = {n: [] for n in paths}, dict.fromkeys(paths, 0)
        for turn in range(runs):
            for n, path in paths.items():
                seconds, peak, transcript = run(program, path)
                times[n].append(seconds)
                peaks[n] = max(peaks[n], peak)
                wrong = complaint(n, transcript) if turn == 0 else ""
                if wrong:
                    sys.exit(wrong)
    print("| N | Script lines | Seconds | Lines a second | Peak, MiB | Time to that of half |")
    print("|---|---|---|---|---|---|")
    last = None
    for n in paths:
        best = min(times[n])
        ratio = "" if last is None else f"{best / last:.2f}"
        print(f"| {n:,} | {lines[n]:,} | {best:.3f} | {lines[n] / best:,.0f} | {peaks[n] / 1024:.1f} | {ratio} |", flush=True)
        last = best
