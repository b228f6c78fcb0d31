"""What every tool does around its work: --help, one line about bad input, and a quiet end where nobody reads on."""

import os
import sys
from typing import Callable

from formats import Complaint


def run(name: str, usage: str, work: Callable[[list[str]], int | None]) -> None:
    """Works on the words of the command line, and ends with the status that the work gives. Bad input ends with 2."""
    words = sys.argv[1:]
    status = None
    try:
        if words == ["--help"]:
            print(usage, end="")
        else:
            status = work(words)
        sys.stdout.flush()
    except BrokenPipeError:
        # What is still to be written goes nowhere, so that nothing complains at the end.
        os.dup2(os.open(os.devnull, os.O_WRONLY), sys.stdout.fileno())
    except Complaint as complaint:
        fail(name, str(complaint))
    except OSError as fault:
        fail(name, f"{fault.filename or 'standard input or output'}: {fault.strerror}")
    if status:
        sys.exit(status)


def fail(name: str, why: str) -> None:
    print(f"{name}: {why}".replace("\n", " "), file=sys.stderr)
    try:
        sys.stdout.flush()
    except OSError:
        os.dup2(os.open(os.devnull, os.O_WRONLY), sys.stdout.fileno())
    sys.exit(2)


def text_of(held: bytes, what: str) -> str:
    try:
        return held.decode("ascii")
    except UnicodeDecodeError as fault:
        line = held.count(b"\n", 0, fault.start) + 1
        raise Complaint(f"{what}, line {line}: a byte that is no ASCII") from None
