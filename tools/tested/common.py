"""What several tests of the tools use: files, the tools themselves, and the stored scripts with their transcripts."""

import functools
import glob
import io
import os
import subprocess
import sys
from importlib.machinery import SourceFileLoader
from importlib.util import module_from_spec, spec_from_loader
from types import ModuleType
from typing import Callable

from formats import following, script, transcript
from formats import tool as tools

TOOLS = os.path.dirname(os.path.dirname(os.path.abspath(__file__)))
TOP = os.path.dirname(TOOLS)


def path(*parts: str) -> str:
    return os.path.join(TOP, *parts)


def content(*parts: str) -> bytes:
    with open(path(*parts), "rb") as file:
        return file.read()


def started(name: str, *given: str, **pipes: object) -> subprocess.CompletedProcess[bytes]:
    """A tool as its user starts it."""
    return subprocess.run([os.path.join(TOOLS, name), *given], stderr=subprocess.PIPE, **pipes)


@functools.cache
def loaded(name: str) -> ModuleType:
    loader = SourceFileLoader(name, os.path.join(TOOLS, name))
    module = module_from_spec(spec_from_loader(name, loader))
    loader.exec_module(module)
    return module


def tool(name: str, *given: str, input: bytes = b"") -> tuple[int, bytes, str]:
    """The status, the output and the complaints of a tool, which is run inside this process: that is quicker."""
    held = sys.argv, sys.stdin, sys.stdout, sys.stderr
    sys.argv = [name, *given]
    sys.stdin, sys.stdout, sys.stderr = (
        io.TextIOWrapper(io.BytesIO(input)),
        io.TextIOWrapper(io.BytesIO()),
        io.StringIO(),
    )
    status = 0
    try:
        tools.run(name, loaded(name).__doc__, loaded(name).work)
    except SystemExit as end:
        status = end.code
    finally:
        out, err = sys.stdout, sys.stderr
        sys.argv, sys.stdin, sys.stdout, sys.stderr = held
    out.flush()
    return status, out.buffer.getvalue(), err.getvalue()


def stored() -> list[str]:
    """The examples and the corpus, each without its ending."""
    places = ("examples/*.dcp", "corpus/*/*.dcp", "tools/expected/*.dcp")
    return [it.removesuffix(".dcp") for place in places for it in sorted(glob.glob(path(place)))]


@functools.cache
def told_by(base: str) -> transcript.Transcript:
    return transcript.read(io.BytesIO(content(f"{base}.out")))


@functools.cache
def played_by(base: str) -> script.Script:
    return script.read(path(f"{base}.dcp"), told_by(base).bad_line is None)


def run() -> list[str]:
    """The stored scripts that were run: those without a bad line."""
    return [base for base in stored() if told_by(base).bad_line is None]


# What is seen behind a group: the line, the group and what was told up to it.
Watch = Callable[[script.Line, transcript.Group, following.Followed], None]
FOLLOWED: dict[str, following.Followed] = {}


def follow(base: str, watch: Watch) -> None:
    """Follows a stored script, shows each group, and keeps what is told at the end."""
    followed = following.Followed()
    for group, followed in following.steps(told_by(base), played_by(base)):
        watch(played_by(base).lines[group.number], group, followed)
    FOLLOWED[base] = followed


def followed_by(base: str) -> following.Followed:
    if base not in FOLLOWED:
        follow(base, lambda line, group, followed: None)
    return FOLLOWED[base]


@functools.cache
def program() -> str:
    """The program as it stands: where that one is not proved, ./dcp builds it without proof and keeps it."""
    for word, built in (("--proved", "dcp_main"), ("--unproved", "unproved")):
        errors = subprocess.DEVNULL if word == "--proved" else None
        ran = subprocess.run([path("dcp"), word, "run"], stdin=subprocess.DEVNULL, stderr=errors)
        if ran.returncode == 0 and os.path.exists(path("crates/dcp_main/out", built)):
            return path("crates/dcp_main/out", built)
    raise AssertionError("there is no program to compare with, and ./dcp --unproved run builds none")


def below(crate: str) -> set[str]:
    """A crate and all of the repository's that it stands on."""
    lines = content("crates.txt").decode().split("\n")
    stands_on = {line.split()[0].strip(":"): line.split(":")[1].split() for line in lines if ":" in line}
    found, more = set(), {crate}
    while more:
        found |= more
        more = {name for it in more for name in stands_on[it] if name in stands_on} - found
    return found


@functools.cache
def reader() -> str:
    """transcript_back as it stands: where a source is newer than what is built, rt run proves and builds it first."""
    built = path("crates/transcript_back/out/transcript_back")
    parts = [path("crates", crate, part) for crate in below("transcript_back") for part in ("src", "specs", "proofs")]
    newer = ["find", *filter(os.path.exists, parts), "-type", "f", "-newer", built]
    if not os.path.exists(built) or subprocess.run(newer, capture_output=True, check=True).stdout:
        words = {"stdin": subprocess.DEVNULL, "stdout": subprocess.DEVNULL}
        subprocess.run(["rt", "run"], cwd=path("crates/transcript_back"), check=True, **words)
    return built


def pair(lines: list[str], groups: list[str]) -> tuple[transcript.Transcript, script.Script]:
    """A transcript and its script, whose line 1 gives the first group."""
    told = transcript.read(io.BytesIO("".join(f"#{i}\n{it}\n" for i, it in enumerate(groups, 1)).encode()))
    return told, script.Script({i: script.line_of(i, text) for i, text in enumerate(lines, 1)}, lines)
