"""Tests of lint: what it says of lines and frames, and that it calls bad what the program does."""

import os
import re
import tempfile
import unittest

from expected import lint_cases
from formats import grammar, words
from formats.clients import Clients, Sent
from formats.script import Line
from formats.transcript import Event
from formats.wire import STATUSES, number
from tested import mutations
from tested.common import content, path, played_by, stored, told_by, tool

# What a request is refused with whatever stands in the vBucket.
ALWAYS = ("unknown-command", "einval", "unknown-frame-info", "not-supported", "durability-invalid-level", "e2big")


def linted(held: bytes) -> tuple[int, str, str]:
    with tempfile.NamedTemporaryFile(suffix=".dcp") as file:
        file.write(held)
        file.flush()
        status, out, err = tool("lint", file.name)
    return status, out.decode(), err


class Grammar(unittest.TestCase):
    def test_table(self) -> None:
        """The lines are those of docs/FORMATS.md, and the limits that it has of their numbers."""
        table = content("docs/FORMATS.md").decode().split("\n| Line | What it does | Numbers |\n")[1].split("\n\n")[0]
        rows = [row.strip("| ").split(" | ") for row in table.split("\n")[1:]]
        self.assertEqual([row[0].replace("`", "") for row in rows], list(grammar.LINES))
        limits = 0
        for row in rows:
            verb, numbers = row[0].strip("`").split(" ")[0], row[2].replace(",", "") if len(row) > 2 else ""
            for sign, words, limit in re.findall(r"\b([A-Z]+) (below|at most|from 1 to) (\d+)", numbers):
                (kind,) = grammar.kinds_of(verb, [sign])
                self.assertEqual((kind.least, kind.most), (words == "from 1 to", int(limit) - (words == "below")), row)
                limits += 1
        self.assertGreaterEqual(limits, 10)

    def test_faults(self) -> None:
        """Each kind of message with its text, and in a script of many lines each bad one."""
        for line, told in lint_cases.FAULTS.items():
            self.assertEqual(str(grammar.fault_of(line)), told, line)
        lines = [b"", b"; a comment", *lint_cases.FAULTS, *lint_cases.GOOD]
        told = "".join(f"line {at}: {it}\n" for at, it in enumerate(lint_cases.FAULTS.values(), 3))
        for end in (b"", b"\n"):
            self.assertEqual(linted(b"\n".join(lines) + end), (1, told, ""))

    def test_good(self) -> None:
        for line in lint_cases.GOOD:
            self.assertIsNone(grammar.fault_of(line), line)
        for held in (b"", b"\n", b"\n\n", b";\r\0\xff", b"; it\nnode 0", b"\n".join(lint_cases.GOOD)):
            self.assertEqual(linted(held), (0, "", ""), held)

    def test_stored(self) -> None:
        """The first bad line of each stored script is that of its transcript, or there is none."""
        count = 0
        for base in stored():
            lines = grammar.lines_of(content(f"{base}.dcp"))
            first = next((at for at, line in enumerate(lines, 1) if mutations.is_bad(line)), None)
            self.assertEqual(first, told_by(base).bad_line, base)
            count += first is not None
        self.assertGreater(count, 60)

    def test_mutated(self) -> None:
        """It calls bad what the program does, of a few mutated lines; tools/test_lint compares more."""
        self.assertEqual(list(mutations.differences(mutations.chosen(1200, 1))), [])
        self.assertEqual(list(mutations.script_differences(40, 1)), [])

    def test_differences(self) -> None:
        """A difference is told: of a line that lint alone calls bad, and of one that the program alone does."""
        lines = [b"node 0", b"node 16", b"cut 0"]
        self.assertEqual(list(mutations.differences(lines)), [])
        kind = grammar.VERBS["node"][0].kinds[0]
        held = kind.most
        for most, told in ((16, "the program alone calls this bad: b'node 16'"), (-1, "lint alone calls this bad")):
            object.__setattr__(kind, "most", most)
            try:
                found = list(mutations.differences(lines))
            finally:
                object.__setattr__(kind, "most", held)
            self.assertEqual([it[: len(told)] for it in found], [told])


class Notes(unittest.TestCase):
    def test_notes(self) -> None:
        for text, told in lint_cases.NOTES.items():
            made = tool("frames", "script", input=text.encode())[1]
            self.assertEqual(linted(made), (0, f"{told}\n" if told else "", ""), text)

    def test_large(self) -> None:
        """A value that is only too long, in a frame of the longest body."""
        large = words.make(["set", "a", "v" * 20_971_521])
        held = f"node 0\nclient 0 1\nbytes 0 1 {large.hex()}\n".encode()
        told = "frame 1, SET, will be refused, E2big (0x0003): a value has at most 20,971,520 bytes, and this one has"
        self.assertEqual(linted(held), (0, f"line 3, note: {told} 20,971,521\n", ""))

    def test_bad_and_note(self) -> None:
        held = b"node 0\nclient 0 1\nbytes 0 1 12\nnode x\n"
        told = linted(held)
        self.assertEqual((told[0], [it[:7] for it in told[1].split("\n")]), (1, ["line 3,", "line 4:", ""]))

    def test_replies(self) -> None:
        """In each stored script the frames are refused that are told, with that status, and no others."""
        refused, taken = 0, 0
        for base in stored():
            for sent, reply in Answered(base).pairs if told_by(base).bad_line is None else []:
                frame, status = sent.frame, number(reply.held[6:8])
                self.assertEqual((reply.held[1], number(reply.held[12:16])), (frame.opcode, frame.opaque), base)
                if sent.refusal:
                    self.assertEqual(status, STATUSES[sent.refusal[0]], (base, reply.text))
                    refused += 1
                else:
                    self.assertNotIn(status, [STATUSES[name] for name in ALWAYS], (base, reply.text))
                    taken += 1
        self.assertGreater(refused, 400)
        self.assertGreater(taken, 4000)


def has_answer(sent: Sent) -> bool:
    """A response has none, nor has an acknowledgement of bytes that is counted."""
    is_counted = sent.frame.row.name == "buffer-acknowledgement" and sent.refusal is None
    return not sent.frame.is_answer and not is_counted


class Answered:
    """The frames of a stored script with their answers, of the connections that lint follows."""

    def __init__(self, base: str) -> None:
        self.clients = Clients()
        self.waiting: dict[tuple[int, int], list[Sent]] = {}
        self.pairs: list[tuple[Sent, Event]] = []
        for group in told_by(base).groups:
            line = played_by(base).lines[group.number]
            self.follow(line, group.answer[0] == "ok")
            for event in group.events:
                waiting = self.waiting.get((event.node, event.client)) if event.kind in ("reply", "closed") else None
                if event.kind == "reply" and waiting and event.is_answer:
                    self.pairs.append((waiting.pop(0), event))
                elif event.kind == "closed":
                    self.waiting.pop((event.node, event.client), None)

    def follow(self, line: Line, is_done: bool) -> None:
        if line.verb != "bytes":
            self.clients.follow(line)
        place = int(line.operands.get("node", -1)), int(line.operands.get("client", -1))
        if line.verb in ("client", "hang") and is_done:
            self.waiting.pop(place, None)
        elif line.verb == "bytes":
            is_followed = self.clients.inboxes.get(place) is not None
            sent = [it for it in self.clients.take(line)[0] if has_answer(it)]
            if is_followed and is_done:
                self.waiting.setdefault(place, []).extend(sent)


class Usage(unittest.TestCase):
    def test_usage(self) -> None:
        told = "lint: one word is wanted, the script; --help says more\n"
        for given in ([], [os.devnull] * 2):
            self.assertEqual(tool("lint", *given), (2, b"", told))
        absent = path("examples/no-such.dcp")
        self.assertEqual(tool("lint", absent), (2, b"", f"lint: {absent}: No such file or directory\n"))
        self.assertEqual(tool("lint", path("examples"))[:2], (2, b""))
        self.assertEqual(tool("lint", "--help")[::2], (0, ""))

    def test_too_long(self) -> None:
        with tempfile.NamedTemporaryFile() as file:
            file.truncate(grammar.SCRIPT_LIMIT + 1)
            told = f"lint: {file.name} is longer than any script, which has at most 268,435,456 bytes\n"
            self.assertEqual(tool("lint", file.name), (2, b"", told))
