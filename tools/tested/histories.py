"""Tests of what transcripts tell: of vBuckets, of journals and what a crash leaves of them, and of durable writes."""

import collections
import re
import unittest
from xml.etree import ElementTree

from drawing import page, records
from expected import cases, shown
from formats import Complaint, following, histories, script, transcript, writes
from formats.disks import FAIL, STOP, Arm, Disk, Hit
from formats.journals import Append, Journal
from formats.records import Roll, Rows, State, payload
from formats.wire import frame_of
from tested.common import follow, followed_by, loaded, pair, path, played_by, run, told_by


class Followed(unittest.TestCase):
    """What a script and its transcript tell of each vBucket is what its lines show."""

    def test_all_stored(self) -> None:
        """Each `shown`, `logged` and `stat` line, each answer of `done`, and the opaque of each answer to a client."""
        counts: collections.Counter[str] = collections.Counter()
        for base in run():
            requests = writes.Writes()

            def watch(line: script.Line, group: transcript.Group, followed: following.Followed) -> None:
                counts["starts"] += bool(followed.histories.stages[-1].starts)
                counts["answers"] += self.check_answers(requests, line, group)
                self.check_saved(line, group, followed)
                for event in group.events:
                    counts[event.kind] += 1
                    if event.kind in ("shown", "logged"):
                        self.compare(followed.histories.holdings[event.vb, event.node], event, group, base)

            follow(base, watch)
        for kind, least in (("shown", 1000), ("logged", 100), ("stopped", 120), ("starts", 150), ("answers", 5000)):
            self.assertGreater(counts[kind], least, kind)

    def check_answers(self, requests: writes.Writes, line: script.Line, group: transcript.Group) -> int:
        """How many answers there are; each has the opaque of the request that it is taken for."""
        count = 0
        requests.before(line, group)
        for event in group.events:
            is_answer = event.kind == "reply" and event.is_answer
            held = requests.connections.get((event.node, event.client)) if is_answer else None
            if held and held.asked:
                answer = frame_of(event.held)
                held.serve(answer)
                asked = held.asked.pop(0)[1]
                self.assertEqual((answer.opcode, answer.opaque), (asked.opcode, asked.opaque), line.text)
                count += 1
            if event.kind == "closed":
                requests.leave((event.node, event.client), group.number)
        requests.after(line, group)
        return count

    def check_saved(self, line: script.Line, group: transcript.Group, followed: following.Followed) -> None:
        if line.verb == "done" and group.answer[0] == "ok":
            self.assertEqual(followed.journals[line["vb"], line["node"]].saved, int(group.answer[1]), line.text)
        for event in group.events:
            if event.kind == "stat":
                self.assertEqual(followed.journals[event.vb, event.node].saved, event.saved, line.text)

    def compare(self, holding: histories.Holding, event: transcript.Event, group: transcript.Group, base: str) -> None:
        if event.kind == "logged":
            self.assertEqual(holding.log, event.log, base)
            return
        position = histories.Position(event.role, event.branch or None, event.at, event.start, event.end)
        self.assertEqual(holding.position, position, base)
        documents = [(key, it.cas, it.value) for key, it in holding.documents().items()]
        self.assertEqual(documents, [(it.key, it.cas, it.value) for it in group.events if it.kind == "doc"], base)
        prepares = [(key, it.seqno, it.level) for key, it in holding.prepares().items()]
        self.assertEqual(prepares, [(it.key, it.seqno, it.level) for it in group.events if it.kind == "prep"], base)

    def test_handed(self) -> None:
        """Who gives up and who takes over, in which line, and what is written down of that: the heir's role alone."""
        followed = followed_by(path("examples/takeover"))
        handed = {stage.number: stage.handed for stage in followed.histories.stages if stage.handed}
        self.assertEqual(handed, {36: [(7, 0)], 41: [(7, 1)], 66: [(7, 1)]})
        for node, wanted in ((0, [(4, "active"), (52, "replica"), (75, "active")]), (1, [(5, "replica"), (41, "active"), (79, "replica")])):
            records = followed.journals[7, node].records()
            self.assertEqual([(group, it.role) for group, it in records if isinstance(it, State)], wanted)

    def test_without_script(self) -> None:
        """Without a script the transcripts in which no node stops are followed, and of others the script is wanted."""
        wanted = 0
        for base in run()[::3]:
            verbs = {line.verb for line in played_by(base).lines.values()}
            told = told_by(base)
            if not verbs & {"stop", "crash", "start"}:
                following.of(told)
            elif any(event.kind == "stopped" for group in told.groups for event in group.events):
                with self.assertRaisesRegex(Complaint, "the script alone", msg=base):
                    following.of(told)
                wanted += 1
        self.assertGreater(wanted, 10)

    def test_bad_branches(self) -> None:
        for lines in (
            "branch 0 7 11 - 0 0\nbranch 0 7 11 - 0 0\nok",
            "branch 0 7 11 12 0 0\nok",
            "branch 0 7 11 11 0 0\nok",
            "branch 0 7 11 - 0 5\nok",
        ):
            with self.assertRaises(Complaint, msg=lines):
                following.of(pair(["log 0 7"], [lines])[0])

    def test_bad_hits(self) -> None:
        """A device call is told as hit where the script has it hit, and nowhere else."""
        made = ["ok", "branch 3 9 21 - 0 0\nrole 3 9 active\nok"]
        lines = ["node 3", "vb 3 9 active 21"]
        for more, groups in (
            (["dead 3 9"], ["role 3 9 dead\nfailed 3\nno disk"]),
            (["stop 3 4 old", "dead 3 9"], ["ok", "role 3 9 dead\nok"]),
            (["stop 3 5 old", "dead 3 9"], ["ok", "role 3 9 dead\nstopped 3\nno stopped"]),
            (["fail 3 4", "dead 3 9"], ["ok", "role 3 9 dead\nstopped 3\nno stopped"]),
            (["down 5 7"], ["stopped 3\nno stopped"]),
        ):
            with self.assertRaisesRegex(Complaint, "device call", msg=more):
                following.of(*pair(lines + more, made + groups))
        following.of(*pair([*lines, "stop 3 4 old", "dead 3 9"], [*made, "ok", "role 3 9 dead\nstopped 3\nno stopped"]))


class Disks(unittest.TestCase):
    def test_outcomes(self) -> None:
        """What stands is as docs/FORMATS.md says, of each call, and what a crash leaves is what was not synced."""
        first, second = State("replica", [(258, 772)]), State("dead", [(1286, 1800)])
        held = payload(second)
        behind = len(held).to_bytes(4, "big") + held + b"\x00"
        for kind in (STOP, FAIL):
            for call in (1, 2, 3, 4):
                for outcome in ("old", "new", "fill 1", "fill 187"):
                    journal, arm = Journal(), Arm()
                    self.assertIsNone(journal.append(11, first, arm))
                    arm.set(kind, call, outcome)
                    hit = journal.append(13, second, arm)
                    self.assertEqual((hit.kind, hit.call), (kind, call))
                    is_open = kind == STOP or call == 4
                    self.assertIs(journal.appends[1].stands, None if is_open else False)
                    stands = journal.crash(outcome)
                    wanted = (call >= 3 if kind == STOP else call == 4) and outcome in ("new", "fill 1")
                    self.assertEqual((stands, journal.loaded().position.role), (wanted, ("replica", "dead")[wanted]))
                    self.assertEqual(len(journal.records()), 1 + wanted)
                    self.assertEqual(journal.appends[1].image, self.image(kind, call, outcome, behind))

    def image(self, kind: str, call: int, outcome: str, behind: bytes) -> bytes:
        """From the gate on: the bytes of calls that were made, the last two of which are not synced."""
        fill = None if outcome in ("old", "new") else bytes([int(outcome[5:])])
        is_behind = call >= 2 or kind == STOP
        is_gate = call == 4 or call == 3 and kind == STOP
        if call <= 2 and is_behind:
            behind = behind if outcome == "new" else b"" if outcome == "old" else fill * len(behind)
        gate = (b"\x01" if outcome == "new" else b"\x00" if outcome == "old" else fill) if is_gate else b"\x00"
        return gate + (behind if is_behind else b"")

    def test_gate_not_synced(self) -> None:
        """A gate that is written and not synced is open, and whether its record is there a crash decides."""
        journal, arm = Journal(), Arm()
        arm.set(FAIL, 4)
        journal.append(11, State("replica", []), arm)
        self.assertEqual((journal.gate(), journal.end(), journal.records()), ("01", 0, []))
        picture = records.drawn(journal, (9, 3), page.HEAD)
        self.assertIn("State: replica: a crash decides<", picture)
        self.assertIn("a gate that is not synced: a crash decides<", picture)
        lines = list(loaded("journal").rows(journal, None))
        self.assertEqual(lines[0][:50], "; record 1, at byte 0, broken off in line 11: the ")
        self.assertEqual(lines[0][50:], "disk failed at call 4; a crash decides")
        self.assertEqual(lines[-1].split("  ")[-1].strip(), "the gate, not synced")

    def test_left(self) -> None:
        """What a crash left of a record that is not there: its bytes, one in place of each, or others."""
        record = State("dead", [(258, 772)])
        held = payload(record)
        behind = len(held).to_bytes(4, "big") + held + b"\x00"
        for image, wanted in (
            (b"\x00" + behind, "00000014  the length of the payload, 20"),
            (b"\x07" + behind, "00000014  the length of the payload, 20"),
            (b"\x00", "; behind it the disk ends"),
            (b"\x00" + b"\xbb" * 25, "bb  25 bytes of this kind, in place of the record"),
            (b"\x00" + bytes(range(25)), "000102030405060708  the first of 25 bytes that stood there before"),
        ):
            it = Append(11, record, 0, Hit(STOP, 1, "old"), "old", False, image)
            first, second = list(loaded("journal").left(it))[:2]
            self.assertEqual(first.split(), [image[:1].hex(), "the", "gate,", "closed"])
            self.assertEqual(re.sub("  +", "  ", second), wanted)

    def test_arm(self) -> None:
        """It counts over disks and lines, hits once, and the last one that is set counts."""
        arm, journals = Arm(), [Journal(), Journal(), Journal()]
        arm.set(FAIL, 2)
        arm.set(STOP, 6, "old")
        hits = [it.append(1, State("dead", []), arm) for it in journals]
        self.assertEqual([(hit.kind, hit.call) if hit else None for hit in hits], [None, (STOP, 2), None])
        arm.set(STOP, 3, "new")
        arm.set(FAIL, 0)
        self.assertIsNone(arm.hits(1))

    def test_bytes(self) -> None:
        disk = Disk()
        disk.write(3, b"\x11\x12")
        disk.sync()
        disk.write(4, b"\x21\x22")
        self.assertEqual(disk.now(), b"\x00\x00\x00\x11\x21\x22")
        for outcome, wanted in (("old", b"\x11\x12"), ("new", b"\x11\x21\x22"), ("fill 49", b"\x11\x31\x31")):
            it = Disk(disk.synced, list(disk.since))
            it.crash(outcome)
            self.assertEqual(it.now(), b"\x00\x00\x00" + wanted)


class Journals(unittest.TestCase):
    """What lines tell of journals."""

    def test_payloads(self) -> None:
        changes = [transcript.event_of(text) for text in cases.BATCH_CHANGES]
        log = [(0x090A, 0x0B0C), (0x0D0E, 0x0F10)]
        for record, wanted in (
            (State("active", [(11, 0)]), cases.STATE_PAYLOAD),
            (Rows(0x0102, 0x0304, 0x0506, 0x0708, log, changes), cases.BATCH_PAYLOAD),
            (Roll(0x0102030405060708, 0), cases.ROLL_PAYLOAD),
        ):
            self.assertEqual(payload(record).hex(), wanted)

    def test_all_stored(self) -> None:
        """Rollbacks go where they may."""
        kept, lost = 0, 0
        for base in run():
            for journal in followed_by(base).journals.values():
                for i, it in enumerate(journal.appends):
                    if isinstance(it.record, Roll):
                        back = Journal(journal.appends[:i]).back(it.record.named)
                        self.assertEqual(back, it.record.to, base)
                        kept, lost = kept + (back > 0), lost + (back < it.record.named)
        self.assertGreater(min(kept, lost), 30)

    def test_read_again(self) -> None:
        """The bytes of a disk, gate by gate, are the records that stand."""
        count = 0
        for base in run():
            for journal in followed_by(base).journals.values():
                held, at = journal.disk.synced, 0
                for it in journal.standing():
                    length = int.from_bytes(held[at + 1 : at + 5], "big")
                    self.assertEqual((held[at], held[at + 5 : at + 5 + length]), (1, payload(it.record)), base)
                    at, count = at + 5 + length, count + 1
                self.assertEqual((held[at] == 1, at), (False, journal.end()), base)
        self.assertGreater(count, 1500)

    def test_pictures(self) -> None:
        """The picture of each journal is XML, and has a row for each record and for each start."""
        svg = "{http://www.w3.org/2000/svg}text"
        for base in [it for it in run() if "/journal/" in it or "/crash/" in it or "expected" in it][::8]:
            for place, journal in followed_by(base).journals.items():
                root = ElementTree.fromstring(records.drawn(journal, place, page.HEAD))
                gates = [it for it in root.iter(svg) if it.get("x") == "64" and it.get("class") == "name"]
                self.assertEqual(len(gates), len(journal.appends) + 1, base)
                starts = [it for it in root.iter(svg) if " start: " in (it.text or "")]
                self.assertEqual(len(starts), len(journal.readings), base)


class Writes(unittest.TestCase):
    """What becomes of durable writes."""

    def test_fates(self) -> None:
        found = []
        for it in followed_by(path("tools/expected/waits")).writes.all:
            prepare = it.prepare and (it.branch, it.prepare.seqno, it.prepared_in)
            settled = [(one.change.act, one.change.seqno, one.branch, one.node, one.group) for one in it.settled]
            found.append(((it.group, it.client, it.node, it.key, it.value, it.level), prepare, settled, it.answered))
        self.assertEqual(found, shown.FATES)

    def test_unread(self) -> None:
        unread = followed_by(path("tools/expected/waits")).writes.unread()
        self.assertEqual([(it.group, it.client, it.node, it.key, it.level) for it in unread], shown.UNREAD)

    def test_all_stored(self) -> None:
        """Each prepare was asked for, each success has its commit, and answers are those of what was asked."""
        answers: collections.Counter[str | None] = collections.Counter()
        for base in run():
            for write in followed_by(base).writes.all:
                self.assertIsNotNone(write.client, base)
                if write.prepare:
                    told = None if write.prepare.deleted else write.prepare.value
                    self.assertEqual((write.prepare.level, told), (write.level, write.value), base)
                status = write.answered[1] if write.answered else "none"
                answers[status] += 1
                if status == "success":
                    first = write.settled[0]
                    self.assertEqual((first.change.act, first.node), ("commit", write.node), base)
                    self.assertLessEqual(first.group, write.answered[0], base)
        for status in ("success", "sync-write-ambiguous", "durability-impossible", "none", None):
            self.assertGreater(answers[status], 20, status)
