"""Tests of tools/dissect, with a stand-in for tshark that writes given fields: none of them needs the real one."""

import os
import shutil
import tempfile
import unittest
from unittest import mock

from tested.common import content, loaded, path, tool

EXAMPLE = "examples/first-path.dcp"
# Its one frame and the answer, in packets 4 and 6 of the capture, and three more packets.
OPENED = ["1\t49152\t\t\t\t", "2\t11210\t\t\t\t", "3\t49152\t\t\t\t"]
SENT, ANSWER = "4\t49152\t\t0x80\t0x01\t10", "6\t11210\t\t0x81\t0x01\t0"
RIGHT = [*OPENED, SENT, "5\t11210\t\t\t\t", ANSWER]
MALFORMED = "[Malformed Packet: Couchbase],_ws.malformed"
# The line that sends it.
LINE = 4
# Keeps its words, and writes the fields or fails.
TSHARK = """#!/bin/sh
echo "$*" > "$ROOM/words"
[ ! -e "$ROOM/fails" ] || { echo "tshark: it has no such field" >&2; exit 1; }
cat "$ROOM/fields"
"""
DCP = """#!/bin/sh
cat > "$ROOM/played"
[ ! -e "$ROOM/unbuilt" ] || { echo "dcp: no toolchain" >&2; exit 127; }
cat "$ROOM/told"
"""


class Dissected(unittest.TestCase):
    def setUp(self) -> None:
        self.room = tempfile.mkdtemp(prefix="dcp-dissected-")
        self.addCleanup(shutil.rmtree, self.room)
        self.write("tshark", TSHARK)
        self.patch(os.environ, ROOM=self.room, PATH=f"{self.room}:{os.environ['PATH']}")
        self.list = loaded("dissect").ON_PURPOSE
        self.kept = dict(self.list)
        self.patch(self.list)
        self.list.clear()

    def patch(self, held: object, **values: str) -> None:
        patched = mock.patch.dict(held, values)
        patched.start()
        self.addCleanup(patched.stop)

    def write(self, name: str, text: str) -> None:
        os.makedirs(os.path.dirname(f"{self.room}/{name}"), exist_ok=True)
        with open(f"{self.room}/{name}", "w", encoding="utf-8") as file:
            file.write(text)
        os.chmod(file.name, 0o755)

    def told(self, rows: list[str], *scripts: str) -> tuple[int, list[str]]:
        """How the tool ends, and what it prints, where tshark writes these rows."""
        self.write("fields", "".join(f"{row}\n" for row in rows))
        status, out, err = tool("dissect", *scripts)
        self.assertEqual(err, "")
        return status, out.decode().splitlines()

    def wrong(self, rows: list[str]) -> str:
        """The one thing that is wrong with the rows."""
        status, (counted, *complaints) = self.told(rows, path(EXAMPLE))
        self.assertEqual((status, len(complaints)), (1, 1), complaints)
        self.assertTrue(counted.startswith(f"{EXAMPLE}: "))
        return complaints[0]

    def test_dissected(self) -> None:
        self.assertEqual(self.told(RIGHT, path(EXAMPLE)), (0, [f"{EXAMPLE}: 2 of 2 frames dissected"]))
        with open(f"{self.room}/words", encoding="utf-8") as file:
            words = file.read()
        for asked in ("-d tcp.port==11210,couchbase", "-T fields", "-e _ws.malformed", "-e couchbase.opcode"):
            self.assertIn(asked, words)

    def test_several_in_a_packet(self) -> None:
        """Of three frames in one packet each has to be there."""
        answers = [f"{at}\t11210\t\t0x81\t0x01\t0" for at in (6, 8, 10)]
        for count in (3, 2, 1):
            row = "\t".join(["4", "49152", "", *(",".join([it] * count) for it in ("0x80", "0x01", "10"))])
            status, (counted, *_) = self.told([row, *answers], path("examples/flow.dcp"))
            told = f"examples/flow.dcp: {3 + count} of 6 frames dissected"
            self.assertEqual((status, counted), (int(count < 3), told))

    def test_malformed(self) -> None:
        rows = [*RIGHT[:-1], f"6\t11210\t{MALFORMED}\t0x81\t0x01\t0"]
        told = f"{EXAMPLE}, line {LINE}, of the nodes: packet 6 of the capture is malformed: {MALFORMED}"
        self.assertEqual(self.wrong(rows), told)
        rows = [*OPENED, f"4\t49152\t{MALFORMED}\t0x80\t0x01\t10", ANSWER]
        self.assertIn("of the client: packet 4 of the capture is malformed", self.wrong(rows))

    def test_not_dissected(self) -> None:
        sent = f"{EXAMPLE}, line {LINE}, of the client: frame 1 that is sent is request set with a body of 10 bytes"
        for row in ("4\t49152\t\t\t\t", "4\t49152\t\t0x80\t\t10", "5\t11210\t\t\t\t"):
            self.assertEqual(self.wrong([*OPENED, row, ANSWER]), f"{sent}, and tshark reads nothing")
        for row, read in (
            ("4\t49152\t\t0x81\t0x01\t10", "response set with a body of 10 bytes"),
            ("4\t49152\t\t0x80\t0x02\t10", "request add with a body of 10 bytes"),
            ("4\t49152\t\t0x80\t0x01\t9", "request set with a body of 9 bytes"),
            ("4\t49152\t\t0x12\t0x99\t10", "magic 0x12 0x99 with a body of 10 bytes"),
        ):
            self.assertEqual(self.wrong([*OPENED, row, ANSWER]), f"{sent}, and tshark reads {read}")
        self.assertIn("of the nodes: frame 1 that is sent is response set", self.wrong([*OPENED, SENT]))

    def test_never_sent(self) -> None:
        """A frame more than was sent, in the packet of another one and in one without bytes."""
        double = "4\t49152\t\t0x80,0x80\t0x01,0x0a\t10,0"
        told = "frame 2 that is sent is nothing, and tshark reads request noop with a body of 0 bytes"
        self.assertIn(told, self.wrong([*OPENED, double, ANSWER]))
        self.assertIn("frame 1 that is sent is nothing", self.wrong(["1\t49152\t\t0x80\t0x0a\t0", *RIGHT[1:]]))

    def test_on_purpose(self) -> None:
        line = content(EXAMPLE).decode().split("\n")[LINE - 1]
        self.list[EXAMPLE, line] = "it is so"
        malformed = [*OPENED, f"4\t49152\t{MALFORMED}\t\t\t", ANSWER]
        told = [f"{EXAMPLE}: 1 of 2 frames dissected", f"    in bad form on purpose: {line}", "    it is so"]
        self.assertEqual(self.told(malformed, path(EXAMPLE)), (0, told))
        needless = f"{EXAMPLE}: in the tool's list, and not needed: {line}"
        self.assertEqual(self.wrong(RIGHT), needless)
        # What a node answers is never excused.
        status, told = self.told([*OPENED, SENT, f"6\t11210\t{MALFORMED}\t0x81\t0x01\t0"], path(EXAMPLE))
        self.assertEqual((status, len(told), told[-1]), (1, 3, needless))

    def test_list(self) -> None:
        """Each line of the list stands in its example."""
        for name, text in self.kept:
            self.assertIn(text, content(name).decode().split("\n"))

    def test_no_frame(self) -> None:
        """Bytes that begin no frame are told also where tshark says nothing of them; less than a frame is nothing."""
        told = ["#1\nok\n", "#2\nok\n", "#3\nclosed 0 1\nok\n"]
        for spelled, wrong in (("12", ["no frame: the first byte is 0x12"]), ("80", [])):
            self.write("a.dcp", f"node 0\nclient 0 1\nbytes 0 1 {spelled}\n")
            self.write("a.out", "".join(told))
            status, (_, *complaints) = self.told([], f"{self.room}/a.dcp")
            self.assertEqual(status, len(wrong))
            self.assertEqual([it.partition("line 3, of the client: ")[2] for it in complaints], wrong)

    def test_examples(self) -> None:
        """Without words it takes the examples, and a line of the list needs its example."""
        self.patch(vars(loaded("dissect")), TOP=self.room)
        shutil.copytree(path("examples"), f"{self.room}/examples", ignore=lambda _, names: [
            name for name in names if not name.startswith("first-path")
        ])
        counted = f"{EXAMPLE}: 2 of 2 frames dissected"
        self.assertEqual(self.told(RIGHT), (0, [counted]))
        self.list["examples/gone.dcp", "bytes 0 1 12"] = "it is gone"
        lost = "examples/gone.dcp: in the tool's list, and no such example is there"
        self.assertEqual(self.told(RIGHT), (1, [counted, lost]))
        self.assertEqual(self.told(RIGHT, f"{self.room}/{EXAMPLE}"), (0, [counted]))

    def test_without_transcript(self) -> None:
        """A script with no transcript beside it is run."""
        self.patch(vars(loaded("dissect")), TOP=self.room)
        self.write("dcp", DCP)
        self.write("told", content("examples/first-path.out").decode())
        self.write("new.dcp", content(EXAMPLE).decode())
        self.assertEqual(self.told(RIGHT, f"{self.room}/new.dcp"), (0, ["new.dcp: 2 of 2 frames dissected"]))
        with open(f"{self.room}/played", "rb") as file:
            self.assertEqual(file.read(), content(EXAMPLE))
        self.write("unbuilt", "")
        told = f"dissect: {self.room}/new.dcp: ./dcp run ended with 127: dcp: no toolchain\n"
        self.assertEqual(tool("dissect", f"{self.room}/new.dcp"), (2, b"", told))

    def test_no_tshark(self) -> None:
        """Where it is missing nothing is looked at, also not whether a line of the list is needed."""
        self.list["examples/gone.dcp", "bytes 0 1 12"] = "it is gone"
        os.remove(f"{self.room}/tshark")
        self.patch(os.environ, PATH=self.room)
        for scripts in ([], [path(EXAMPLE)]):
            self.assertEqual(self.told([], *scripts), (0, ["dissect: skipped, there is no tshark"]))

    def test_bad(self) -> None:
        self.write("fails", "")
        told = "dissect: tshark ended with 1: tshark: it has no such field\n"
        self.assertEqual(tool("dissect", path(EXAMPLE)), (2, b"", told))
        os.remove(f"{self.room}/fails")
        self.write("fields", "4\t49152\n")
        self.assertEqual(tool("dissect", path(EXAMPLE))[:2], (2, b""))
        absent = path("examples/no-such.dcp")
        self.assertEqual(tool("dissect", absent), (2, b"", f"dissect: {absent}: No such file or directory\n"))
        status, out, err = tool("dissect", "--help")
        self.assertEqual((status, err, max(map(len, out.decode().split("\n"))) < 121), (0, "", True))
