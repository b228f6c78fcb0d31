"""Tests of tools/places: over a small tree of two crates, in which enums stand, are gone, or stand twice."""

import os
import shutil
import subprocess
import sys
import tempfile
import unittest

from tested.common import TOP

VERBS = ["Verb", "NodeVerb", "VbVerb", "ClientVerb", "LinkVerb"]
# One line has two of the four variants, which is half of them; a line of another enum's variants, and one that is no
# case, have none.
DEFINITIONS = """
named (vb_verb.Make n) = n
named (VbVerb.Seal) = 1
other (vb_verb.Make n) = n
other rest = 1
seen (line.Make n) = n
seen line.Seal = 1
let it = vb_verb.Make
called (call.Get key) = key
called call.Stat = 1
told (event.Branch n) = n
told event.Role = 1
"""


def enum(name: str, *variants: str) -> str:
    rows = "".join(f"    {it},\n" for it in variants)
    return f"/// One.\npub enum {name} {{\n{rows}}}\n\n"


class Places(unittest.TestCase):
    def setUp(self) -> None:
        self.room = tempfile.mkdtemp(prefix="dcp-places-")
        self.addCleanup(shutil.rmtree, self.room)
        for folder in ("tools", "crates/one/src", "crates/two/specs", "crates/two/out/specs"):
            os.makedirs(f"{self.room}/{folder}")
        shutil.copy(f"{TOP}/tools/places", f"{self.room}/tools/places")
        self.write("crates/two/specs/Rows.antt", DEFINITIONS)
        self.write("crates/two/out/specs/Rows.antt", DEFINITIONS)
        self.enums = {it: enum(it, "Clock", "Start") for it in VERBS}
        self.enums |= {"VbVerb": enum("VbVerb", "Make { n: u64 }", "Seal", "Take", "Save")}
        self.enums |= {"VbCall": enum("VbCall", "Get { key: Key }", "Stat"), "Event": enum("Event", "Branch { n: u64 }", "Role")}

    def write(self, path: str, text: str) -> None:
        with open(f"{self.room}/{path}", "w", encoding="utf-8") as file:
            file.write(text)

    def told(self) -> tuple[int, list[str]]:
        self.write("crates/one/src/lib.rt", "".join(self.enums.values()))
        ran = subprocess.run([sys.executable, f"{self.room}/tools/places"], stdout=subprocess.PIPE, text=True, check=False)
        return ran.returncode, ran.stdout.split("\n")

    def test_tables_are_found(self) -> None:
        status, lines = self.told()
        self.assertEqual(status, 0)
        self.assertIn("a verb: 12 variants, 1 tables", lines)
        self.assertIn("    VbVerb: 4 variants, 1 tables", lines)
        self.assertIn("        crates/two/specs/Rows.antt named 2", lines)
        self.assertIn("    NodeVerb: 2 variants, 0 tables", lines)
        self.assertIn("a call: 2 variants, 1 tables", lines)
        self.assertIn("a kind of line: 2 variants, 1 tables", lines)
        self.assertNotIn("other", "".join(lines))

    def test_an_enum_that_is_gone_is_told(self) -> None:
        del self.enums["LinkVerb"]
        status, lines = self.told()
        self.assertEqual((status, lines[0]), (1, "a verb: there is not one enum LinkVerb"))
        self.assertIn("a call: 2 variants, 1 tables", lines)

    def test_an_enum_that_stands_twice_is_told(self) -> None:
        self.enums["again"] = enum("Event", "Branch { n: u64 }", "Role")
        status, lines = self.told()
        self.assertEqual(status, 1)
        self.assertIn("a kind of line: there is not one enum Event", lines)
