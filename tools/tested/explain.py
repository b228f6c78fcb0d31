"""Tests of explain: its sentences, who waits for whom, and why a line is refused."""

import os
import re
import struct
import unittest
from typing import Iterator

from expected import explain_cases
from formats import causes, sentences, transcript, wire, words
from formats.dissect import fields, phrase
from formats.script import OPERANDS, Line, line_of
from formats.transcript import KINDS, Event, Group
from formats.waits import Waits
from formats.wire import STATUSES
from tested.common import content, path, played_by, stored, told_by, tool

# A script in which numbers that stand side by side differ.
NUMBERS = "corpus/durable/numbers-differ"


def explained() -> dict[str, bytes]:
    """What the tools make of stored scripts beside those that have pictures, by the file that it stands in."""
    ran = {
        f"tools/expected/{os.path.basename(base)}.explained": tool(
            "explain", path(f"{base}.dcp"), input=content(f"{base}.out")
        )
        for base in ("examples/durable", "examples/crashed", "examples/takeover", NUMBERS)
    }
    ran["tools/expected/numbers-differ.readable"] = tool("frames", "readable", input=content(f"{NUMBERS}.dcp"))
    ran["tools/expected/numbers-differ.pcap"] = tool("pcap", path(f"{NUMBERS}.dcp"), input=content(f"{NUMBERS}.out"))
    for file, (status, _, err) in ran.items():
        assert (status, err) == (0, ""), f"{file}: {err}"
    return {file: out for file, (_, out, _) in ran.items()}


class Explained(unittest.TestCase):
    def test_files(self) -> None:
        for file, made in explained().items():
            self.assertTrue(made == content(file), f"{file} is not what the tool makes; tools/test --renew renews it")

    def test_readable_and_back(self) -> None:
        back = tool("frames", "script", input=content("tools/expected/numbers-differ.readable"))
        self.assertEqual(back, (0, content(f"{NUMBERS}.dcp"), ""))

    def test_packets(self) -> None:
        """Packets are at the seconds of their lines, between the node's address and port and one of a client."""
        capture = tool("pcap", path(f"{NUMBERS}.dcp"), input=content(f"{NUMBERS}.out"))[1]
        found, at = set(), 24
        while at < len(capture):
            seconds, _, length, _ = struct.unpack("<IIII", capture[at : at + 16])
            held = capture[at + 16 : at + 16 + length]
            ends = [held[26:30] + held[34:36], held[30:34] + held[36:38]]
            nodes = [end[2] for end in ends if end[:2] + end[3:] == b"\x0a\x00\x01" + (11210).to_bytes(2, "big")]
            self.assertEqual((len(nodes), [end[:2] for end in ends if end[1]]), (1, [b"\x0a\x01"]))
            found.add((seconds, *nodes))
            at += 16 + length
        told = set()
        for group in told_by(NUMBERS).groups:
            line = played_by(NUMBERS).lines[group.number]
            told |= {(group.number, line["node"])} if line.verb in ("client", "bytes", "hang") else set()
            told |= {(group.number, event.node) for event in group.events if event.kind == "reply"}
        self.assertEqual(found, told)


def differ(text: str) -> bool:
    """Whether no two numbers of a text are alike; a 0 may stand for nothing more than once."""
    numbers = [it for it in re.findall(r"\d+", text) if it != "0"]
    return len(numbers) == len(set(numbers))


class Sentences(unittest.TestCase):
    def test_lines(self) -> None:
        for text, told in explain_cases.LINES.items():
            self.assertEqual(sentences.line_sentence(line_of(1, text)), told, text)
        self.assertEqual({text.split(" ")[0] for text in explain_cases.LINES}, set(OPERANDS))

    def test_events(self) -> None:
        for text, told in explain_cases.EVENTS.items():
            self.assertEqual(sentences.event_sentence(transcript.event_of(text)), told, text)
        self.assertEqual({text.split(" ")[0] for text in explain_cases.EVENTS}, set(KINDS))

    def test_handing_over(self) -> None:
        for (text, event), told in explain_cases.HANDING_OVER.items():
            self.assertEqual(sentences.handing_over(line_of(1, text), transcript.event_of(event)), told, (text, event))

    def test_answers(self) -> None:
        for (text, answer), told in explain_cases.ANSWERS.items():
            self.assertEqual(sentences.answer_sentence(line_of(1, text), answer.split(" ")), told, answer)

    def test_frames(self) -> None:
        for text, told in explain_cases.FRAMES.items():
            self.assertEqual(phrase(wire.frame_of(words.make(words.words_in(text)))), told)
            self.assertTrue(differ(text), text)

    def test_fields(self) -> None:
        for text, told in explain_cases.FIELDS.items():
            found, why, rest = fields(words.make(words.words_in(text)))
            self.assertEqual([(it.at, it.name, it.meaning) for it in found], told)
            self.assertEqual((why, rest), (None, b""))

    def test_numbers_differ(self) -> None:
        """Of each verb and of each kind there is a line in which no two numbers are alike, so no two can be swapped."""
        for texts in (explain_cases.LINES, explain_cases.EVENTS):
            kinds = {text.split(" ")[0] for text in texts}
            self.assertEqual({text.split(" ")[0] for text in texts if differ(text)}, kinds)


class Refusals(unittest.TestCase):
    def test_sentences(self) -> None:
        for (text, cause), told in explain_cases.REFUSALS.items():
            self.assertEqual(sentences.answer_sentence(line_of(1, text), ["no", cause]), told, (text, cause))
        self.assertEqual({cause for _, cause in explain_cases.REFUSALS}, {it.name for it in causes.CAUSES})

    def test_table(self) -> None:
        """The causes are those of docs/FORMATS.md, in its order, with the verbs that it names."""
        table = content("docs/FORMATS.md").decode().split("\n| CAUSE | When, the first of these |\n")[1]
        rows = [row.split(" | ") for row in table.split("\n\n")[0].split("\n")[1:]]
        self.assertEqual([row[0].strip("| `") for row in rows], [it.name for it in causes.CAUSES])
        for row, cause in zip(rows, causes.CAUSES):
            told = set(re.findall(r"`(\w+)`", row[1])) & set(OPERANDS)
            if cause.name == "node-down":
                self.assertEqual(set(causes.NODES) - set(cause.verbs), told - {"node"})
            elif told and cause.name != "unknown-node":
                self.assertEqual(told, set(cause.verbs), cause.name)

    def test_stored(self) -> None:
        """Each cause is given for each of its verbs in some stored transcript, and for no other."""
        given = {
            (played_by(base).lines[group.number].verb, group.answer[1])
            for base in stored()
            for group in told_by(base).groups
            if group.answer[0] == "no"
        }
        self.assertEqual(given, {(verb, it.name) for it in causes.CAUSES for verb in it.verbs})


def groups() -> Iterator[tuple[str, Line, Group, Waits]]:
    """Each group of the stored transcripts, with what is followed of who waits, up to its line's own part."""
    for base in stored():
        waits = Waits()
        for group in told_by(base).groups:
            line = played_by(base).lines[group.number]
            waits.begin(line, group)
            yield base, line, group, waits


class Waiting(unittest.TestCase):
    """What is said of who waits is what the stored transcripts do."""

    def test_commits(self) -> None:
        """What is committed waits for nothing more; and behind each line the lowest prepare waits for something."""
        committed, waiting = 0, 0
        for base, _, group, waits in groups():
            for event in group.events:
                if event.kind == "change" and event.act == "commit":
                    holder = waits.holder(event.vb, event.node)
                    prepare = holder.pending.get(event.key)
                    if prepare:
                        self.assertFalse(holder.needs(prepare), (base, event.text))
                        committed += 1
                waits.follow(event)
            for holder in waits.holders.values():
                for prepare in holder.in_order()[:1] if holder.is_active else []:
                    self.assertTrue(holder.needs(prepare), (base, group.number, prepare))
                    waiting += 1
        self.assertGreater(committed, 300)
        self.assertGreater(waiting, 5000)

    def test_replies(self) -> None:
        """Who waits is told Success where its write was committed, and else Ambiguous, which no other is told."""
        ambiguous, counts = STATUSES["sync-write-ambiguous"], {True: 0, False: 0}
        for base, _, group, waits in groups():
            for event in group.events:
                if event.kind == "reply" and event.is_answer:
                    status = wire.number(event.held[6:8])
                    place, seqno = waits.waiting.get((event.node, event.client), (None, 0))
                    settled = waits.holder(*place).settled.get(seqno) if place else None
                    done = settled is not None and settled.act == "commit"
                    if place:
                        self.assertEqual(status, STATUSES["success"] if done else ambiguous, (base, event.text))
                        counts[done] += 1
                    else:
                        self.assertNotEqual(status, ambiguous, (base, event.text))
                waits.follow(event)
        self.assertGreater(min(counts.values()), 100)

    def test_prepares(self) -> None:
        """The prepares that are followed are those that are shown, of nodes that never stopped."""
        count, stopped = 0, set()
        for base, line, group, waits in groups():
            if line.verb == "crash" and group.answer[0] == "ok":
                stopped.add((base, line["node"]))
            stopped |= {(base, event.node) for event in group.events if event.kind == "stopped"}
            for event in group.events:
                waits.follow(event)
                if event.kind == "shown" and (base, event.node) not in stopped:
                    self.compare(waits, event, group)
                    count += event.preps
        self.assertGreater(count, 150)

    def compare(self, waits: Waits, shown: Event, group: Group) -> None:
        pending = sorted(waits.holder(shown.vb, shown.node).pending.items())
        told = [(event.key, event.seqno, event.level) for event in group.events if event.kind == "prep"]
        self.assertEqual([(key, it.seqno, it.level) for key, it in pending], told, shown.text)

    def test_sentences(self) -> None:
        """Each kind of sentence about waiting, in the order in which a script of all different numbers has them."""
        told = list(waiting_sentences(NUMBERS))
        self.assertEqual(told, explain_cases.WAITING)
        texts = [text.replace("1 of 1", "").partition("held by")[0] for text in told]
        self.assertEqual([text for text in texts if not differ(text)], [])


def waiting_sentences(base: str) -> Iterator[str]:
    waits = Waits()
    for group in told_by(base).groups:
        line = played_by(base).lines[group.number]
        yield from waits.begin(line, group)
        for event in group.events:
            yield from waits.follow(event)
        yield from waits.end(line, group)
