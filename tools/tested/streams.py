"""Tests of what transcripts tell of clients' streams: each line with its frame behind it, and its vBucket."""

import collections
import unittest

from formats import script, transcript, wire
from formats.dcp_refusals import form_faults
from formats.following import Followed
from formats.transcript import Event
from tested.common import follow, played_by, run, told_by

ITEMS = {"set": "mutation", "remove": "deletion", "prepare": "prepare", "commit": "commit", "abort": "abort"}
PUT = ("mark", "item", "fin")
Client = tuple[int, int]


def is_of_client(event: Event) -> bool:
    return event.kind in (*PUT, "ask") and not isinstance(event.stream, int)


def told_in(event: Event) -> tuple[str, dict[str, object]]:
    """The frame that a line tells of: its name, and those of its parts that stand in the line."""
    match event.kind:
        case "mark":
            return "snapshot-marker", {"start": event.start, "end": event.end, "flags": event.flags}
        case "item":
            return ITEMS[event.act], {"seqno": event.seqno, "key": event.key}
        case "fin":
            return "stream-end", {"reason": event.reason}
    names = {"flags": "flags", "start": "start", "end": "end", "branch": "branch"}
    names |= {"snap_start": "snap-start", "snap_end": "snap-end"}
    return "stream-request", {named: vars(event)[name] for name, named in names.items()}


def parts_of(frame: wire.Frame) -> dict[str, object]:
    return {**(frame.named_extras() or {}), "key": frame.key}


class Requests:
    """The requests for streams that each connection sent, as far as they can be read, and what is less than a frame."""

    def __init__(self) -> None:
        self.sent: dict[Client, list[wire.Frame]] = collections.defaultdict(list)
        self.rest: dict[Client, bytes] = collections.defaultdict(bytes)

    def forget(self, client: Client) -> None:
        self.sent.pop(client, None)
        self.rest.pop(client, None)

    def take(self, line: script.Line, group: transcript.Group) -> None:
        if line.verb not in ("bytes", "hang") or group.answer[0] != "ok":
            return
        client = line["node"], line["client"]
        if line.verb == "hang":
            self.forget(client)
            return
        frames, self.rest[client] = wire.split(self.rest[client] + line.held)
        for frame in map(wire.frame_of, frames):
            if not frame.is_answer and frame.row.name == "stream-request" and not any(form_faults(frame)):
                self.sent[client].append(frame)


class Streams(unittest.TestCase):
    def test_frames(self) -> None:
        """Each line of a client's stream has its frame directly behind it, and a pull tells as many as it counts."""
        counts: collections.Counter[str] = collections.Counter()
        for base in run():
            for group in told_by(base).groups:
                for event, behind in zip(group.events, [*group.events[1:], None]):
                    if is_of_client(event) and event.kind != "ask":
                        self.check_frame(event, behind, base)
                        counts[f"{event.kind} {vars(event).get('act', '')}".strip()] += 1
                line = played_by(base).lines[group.number]
                if line.verb == "pull" and group.answer[0] == "ok":
                    self.assertEqual(sum(it.kind in PUT for it in group.events), int(group.answer[1]), base)
                    counts[group.answer[2]] += 1
        for kind in ("mark", "item set", "item remove", "item prepare", "item commit", "item abort", "fin"):
            self.assertGreater(counts[kind], 3, kind)
        for why in ("-", "idle", "full", "wait-saved"):
            self.assertGreater(counts[why], 1, why)

    def check_frame(self, event: Event, behind: Event | None, base: str) -> None:
        self.assertEqual((behind.kind, (behind.node, behind.client)), ("reply", event.stream), (base, event.text))
        self.assertFalse(behind.is_answer, (base, event.text))
        name, parts = told_in(event)
        frame = wire.frame_of(behind.held)
        self.assertEqual(frame.row.name, name, (base, event.text))
        self.assertEqual({part: parts_of(frame)[part] for part in parts}, parts, (base, event.text))

    def test_requests(self) -> None:
        """Each `ask` line of a client is of its next request that can be read, and its answer stands behind it."""
        counts: collections.Counter[str] = collections.Counter()
        for base in run():
            requests = Requests()
            for group in told_by(base).groups:
                requests.take(played_by(base).lines[group.number], group)
                for event, behind in zip(group.events, [*group.events[1:], None]):
                    if event.kind == "closed":
                        requests.forget((event.node, event.client))
                    elif is_of_client(event) and event.kind == "ask":
                        self.check_request(event, behind, requests.sent[event.stream].pop(0), base)
                        counts[event.answer] += 1
        for answer, least in (("go", 200), ("roll", 5), ("refuse", 50)):
            self.assertGreater(counts[answer], least, answer)

    def check_request(self, event: Event, behind: Event | None, request: wire.Frame, base: str) -> None:
        parts = told_in(event)[1]
        self.assertEqual({part: parts_of(request)[part] for part in parts}, parts, (base, event.text))
        answer = wire.frame_of(behind.held)
        self.assertEqual((behind.kind, request.place), ("reply", event.vb), (base, event.text))
        self.assertEqual((answer.opcode, answer.opaque), (request.opcode, request.opaque), (base, event.text))
        statuses = {"go": wire.STATUSES["success"], "roll": wire.STATUSES["rollback"]}
        self.assertEqual(answer.place, statuses.get(event.answer, vars(event).get("status")), (base, event.text))

    def test_vbuckets(self) -> None:
        """What is followed of a client's stream is at the vBucket of a request of it that was granted."""
        put: collections.Counter[bool] = collections.Counter()
        for base in run():
            granted: set[tuple[object, int]] = set()

            def watch(line: script.Line, group: transcript.Group, followed: Followed) -> None:
                stage = followed.histories.stages[-1]
                for link, event in stage.asked:
                    granted.update({(link.number, event.vb)} if event.answer == "go" else set())
                for link, event in stage.put:
                    if not isinstance(link.number, int):
                        self.assertIn((link.number, link.producer[0]), granted, (base, event.text))
                        put[event.kind == "item"] += 1
                told = [it for it in group.events if it.kind in PUT and is_of_client(it)]
                self.assertEqual([it for link, it in stage.put if not isinstance(link.number, int)], told, base)

            follow(base, watch)
        self.assertGreater(min(put.values()), 200)
