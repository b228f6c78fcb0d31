"""Tests of pictures: each kind of mark, what stands in words and where, and that nothing is on top of anything."""

import itertools
import unittest
from typing import Iterator
from xml.etree import ElementTree

from drawing import bands, page, records
from drawing.marks import COLOURS, GO, LOST, OPEN, Mark, View
from drawing.plan import Plan
from drawing.svg import Picture, fitted, wide, wrapped
from expected import shown
from formats import Complaint, following, script, transcript
from tested import overlaps
from tested.common import content, followed_by, pair, path, played_by, stored, told_by

SVG = "{http://www.w3.org/2000/svg}"


def drawn(base: str) -> str:
    return page.drawn(followed_by(base), played_by(base), told_by(base).bad_line)


def plan_of(base: str, vb: int) -> Plan:
    view = View(followed_by(base), vb)
    return Plan(view, view.columns, [page.label(stage, played_by(base)) for stage in view.columns])


def marks_of(mark: Mark) -> list[tuple[str, str | None]]:
    """The shapes of a mark: of circles how they are filled, of paths and lines their colour, of words these."""
    picture = Picture()
    mark.draw(picture, 20, 30)
    shapes = ElementTree.fromstring(picture.whole(100, 100, "", ""))[2:]
    names = {"circle": "fill", "path": "stroke", "line": "stroke"}
    tags = [it.tag.removeprefix(SVG) for it in shapes]
    return [(tag, it.text if tag == "text" else it.get(names[tag])) for tag, it in zip(tags, shapes)]


class Marks(unittest.TestCase):
    def test_each_kind(self) -> None:
        blue, white = COLOURS[0], "#ffffff"
        for mark, wanted in (
            (Mark(blue), [("circle", blue)]),
            (Mark(blue, "remove"), [("circle", white)]),
            (Mark(blue, "prepare", 3), [("circle", white), ("text", "3")]),
            (Mark(blue, "commit"), [("circle", blue), ("path", white)]),
            (Mark(blue, "abort"), [("circle", blue), ("line", white)]),
            (Mark(blue, is_lost=True), [("circle", blue), ("path", LOST)]),
            (Mark(blue, "prepare", 2, is_lost=True), [("circle", white), ("text", "2"), ("path", LOST)]),
            (Mark(blue, is_taken_over=True), [("circle", blue), ("circle", "none")]),
        ):
            self.assertEqual(marks_of(mark), wanted, mark)

    def test_joins(self) -> None:
        """A commit or an abort is joined to its prepare by an arc, from seqno to seqno and from branch to branch."""
        root = ElementTree.fromstring(drawn(path("tools/expected/waits")))
        arcs = [it for it in root.iter(f"{SVG}path") if it.get("stroke-width") == "1.2"]
        self.assertEqual(sum(bool(it.get("stroke-dasharray")) for it in arcs), 1)
        steps = [it.get("d").split() for it in arcs]
        # Where a change of a branch is, by what the pointer shows: `change 4 of branch 211: ..`.
        points = [it for it in root.iter(f"{SVG}circle") if len(it) and float(it.get("cy")) < 300]
        numbers = [tuple(map(int, it[0].text.split(":")[0].split()[1::3])) for it in points]
        x = {at: float(it.get("cx")) for at, it in zip(numbers, points)}
        joined = [(4, 211, 5, 211), (6, 211, 7, 211), (8, 211, 9, 211), (10, 211, 12, 307), (11, 211, 13, 307)]
        joined.append((14, 307, 15, 307))
        found = sorted((float(arc[0][1:]), float(arc[-2])) for arc in steps)
        self.assertEqual(found, sorted((x[p, b], x[c, d]) for p, b, c, d in joined))

    def test_lost(self) -> None:
        """In the tours: the changes that the old active vBucket made and nobody took over, or that its disk lacks."""
        for name, vb, lost in (
            ("promoted", 7, {(11, 3), (11, 5)}),
            ("sent-back", 7, {(11, 2), (11, 3)}),
            ("flushed", 7, {(11, 4), (11, 5)}),
            ("replica", 7, set()),
            ("durable", 0, set()),
            ("indexer", 7, {(11, 5), (11, 6)}),
            ("indexer", 8, set()),
            ("crashed", 7, {(11, 3), (22, 3), (33, 3), (55, 4)}),
            ("takeover", 7, set()),
        ):
            told = followed_by(path("examples", name)).histories
            branches = [branch for branch in told.branches.values() if branch.vb == vb]
            changes = {(branch.id, seqno) for branch in branches for seqno in branch.changes}
            self.assertEqual({it for it in changes if not told.is_kept(vb, *it)}, lost, name)


class Words(unittest.TestCase):
    """What stands where, in scripts whose numbers differ."""

    def test_notes(self) -> None:
        for (name, vb), wanted in shown.NOTES.items():
            plan, found = plan_of(path("tools/expected", name), vb), []
            for place, i in itertools.product(plan.places, range(len(plan.stages))):
                for side, held in (("above", plan.above), ("below", plan.below)):
                    if held[place][i]:
                        words = " / ".join(note.words for note in held[place][i])
                        found.append((plan.stages[i].number, place[1], side, words))
            self.assertEqual(found, wanted, name)

    def test_clients(self) -> None:
        """What clients ask for and are sent stands below the lane of the vBucket."""
        plan, found = plan_of(path("corpus/indexer/numbers-differ"), 702), []
        for notes, stage in zip(plan.below[702, 3], plan.stages):
            found += [(stage.number, " / ".join(note.words for note in notes))] if notes else []
        self.assertEqual(found, shown.CLIENT_NOTES)
        self.assertIn(", C0.1 is client 1 of node 0,", drawn(path("examples/indexer")))
        self.assertNotIn("C0.1", drawn(path("examples/durable")))

    def test_waits(self) -> None:
        """A bar is from the line of the prepare to the line of the answer, in a row that is free."""
        for (name, vb), wanted in shown.WAITS.items():
            plan, found = plan_of(path("tools/expected", name), vb), []
            for place in plan.places:
                for it in plan.waits[place]:
                    last = None if it.last is None else plan.stages[it.last].number
                    found.append((place[1], plan.stages[it.first].number, last, it.row, it.asked(), it.told()[0]))
            self.assertEqual(found, wanted, name)

    def test_disks(self) -> None:
        """How much is written down changes in these lines, at these nodes, to these seqnos."""
        for (name, vb), wanted in shown.DISKS.items():
            plan, found = plan_of(path("tools/expected", name), vb), []
            for place in plan.places:
                disks = plan.tracks[place].disks
                numbers = [stage.number for stage in plan.stages]
                found += [(place[1], n, to) for n, to, of in zip(numbers, disks, [0, *disks]) if to != of]
            self.assertEqual(found, wanted, name)

    def test_arrows(self) -> None:
        for (name, vb), wanted in shown.ARROWS.items():
            plan = plan_of(path("tools/expected", name), vb)
            found = [
                (stage.number, begin[1], end[1], what)
                for stage, arrows in zip(plan.stages, plan.arrows)
                for begin, end, what in arrows
            ]
            self.assertEqual(found, wanted, name)

    def test_fates(self) -> None:
        """The rows of the tables of durable writes."""
        for name, wanted in shown.FATE_ROWS.items():
            rows: dict[str, list[str]] = {}
            for it in ElementTree.fromstring(drawn(path("tools/expected", name))).iter(f"{SVG}text"):
                if it.get("class") == "part":
                    rows.setdefault(it.get("y"), []).append(it.text)
            found = ["|".join(row) for row in rows.values() if row[0].startswith("#")]
            self.assertEqual(found, wanted, name)

    def test_ends(self) -> None:
        """What is told of the end of each vBucket."""
        for name, wanted in shown.ENDS.items():
            texts = [it.text for it in ElementTree.fromstring(drawn(path("tools/expected", name))).iter(f"{SVG}text")]
            found = [texts[i + 1 :][: wanted[n].count("|") + 1] for n, i in enumerate(self.ends(texts))]
            self.assertEqual(["|".join(it) for it in found], wanted, name)

    def ends(self, texts: list[str]) -> Iterator[int]:
        yield from (i for i, text in enumerate(texts) if text == "at the end" and texts[i + 1].startswith("node "))

    def test_key(self) -> None:
        """The key has what the picture has: of durable writes and of stops alone where there are some."""
        durable, down, disk = "it is committed", "its node is down", "written down on its disk"
        for name, wanted in (
            ("examples/promoted", set()),
            ("examples/flushed", {disk}),
            ("examples/durable", {durable}),
            ("examples/crashed", {down, disk}),
            ("tools/expected/waits", {durable, disk}),
        ):
            picture = drawn(path(name))
            self.assertEqual({it for it in (durable, down, disk) if f">{it}</text>" in picture}, wanted, name)

    def test_colours(self) -> None:
        """Success is green, what is not known orange, no and nothing red."""
        plan = plan_of(path("tools/expected/waits"), 70)
        told = {words: colour for place in plan.places for words, colour in (it.told() for it in plan.waits[place])}
        wanted = {"success": GO, "ambiguous": OPEN, "": OPEN}
        self.assertEqual(told, wanted | {it: LOST for it in ("impossible", "invalid-level", "in-progress", "not told")})


class Layout(unittest.TestCase):
    def test_bands(self) -> None:
        """Columns are in order, nothing of a row touches anything, and a band is no wider than the page."""
        columns = [bands.Column([bands.Item(i % 3, -4, 30 + 13 * (i % 7))], 40 + i) for i in range(97)]
        found = bands.laid(columns, lambda i: [bands.Item(i % 3, 0, 55)])
        self.assertEqual([i for band in found for i in band.columns()], list(range(97)))
        self.assertGreater(len(found), 3)
        for band in found:
            ends = {band.first % 3: bands.LEFT + 55.0}
            for i, x in zip(band.columns(), band.xs):
                self.assertGreaterEqual(x - 4, ends.get(i % 3, 0) + bands.GAP - 0.01)
                ends[i % 3] = x + 30 + 13 * (i % 7)
            self.assertLessEqual(max(ends.values()), bands.WIDTH)

    def test_wide(self) -> None:
        """Words are at most as wide as the tool takes them to be: these as DejaVu Sans has them, a wide font."""
        for (words, size, is_bold), width in shown.WIDE.items():
            self.assertGreaterEqual(wide(words, size, is_bold), width, words)
            self.assertLess(wide(words, size, is_bold), 1.25 * width, words)
        self.assertEqual(fitted("abcdef", wide("abcdef")), "abcdef")
        self.assertLessEqual(wide(fitted("abcdef", 31)), 31)
        self.assertEqual(" ".join(wrapped("one two three four", 40, 10, False)), "one two three four")

    def test_overlaps(self) -> None:
        """No label is on another one, on a mark or on a line, in what is kept and in some of the corpus."""
        kept = [it for it in stored() if "/examples/" in it or "/expected/" in it]
        for base in kept + stored()[::40]:
            if "all-links" in base:
                continue
            self.assertEqual(overlaps.found(drawn(base)), [], base)
            for place, journal in followed_by(base).journals.items():
                self.assertEqual(overlaps.found(records.drawn(journal, place, page.HEAD)), [], (base, place))

    def test_found(self) -> None:
        """What is on top of something is found."""
        for shapes, what in shown.ON_TOP.items():
            picture = f'<svg xmlns="http://www.w3.org/2000/svg" width="100">{shapes}</svg>'
            self.assertEqual(overlaps.found(picture), what, shapes)


class Corpus(unittest.TestCase):
    def test_well_formed(self) -> None:
        """A picture is XML, and has a point for each change that is told; a longer one is refused."""
        for base in stored()[::25]:
            told = told_by(base)
            changes = {event.text for group in told.groups for event in group.events if event.kind in ("change", "got")}
            points = [it for it in ElementTree.fromstring(drawn(base)).iter(f"{SVG}circle") if len(it)]
            self.assertGreaterEqual(len(points), len(changes), base)

    def test_without_script(self) -> None:
        """The same without a script, as far as one can go."""
        count = 0
        for base in stored()[::25]:
            told = told_by(base)
            try:
                picture = page.drawn(following.of(told), None, told.bad_line)
            except Complaint as complaint:
                self.assertIn("the script alone", str(complaint), base)
                continue
            self.assertFalse(ElementTree.fromstring(picture).get("height") is None)
            count += 1
        self.assertGreater(count, 15)

    def test_clients_need_a_script(self) -> None:
        """Without a script no client is known, and the table says so in each row."""
        told = told_by(path("examples/durable"))
        picture = page.drawn(following.of(told), None)
        self.assertEqual((picture.count(">needs the script<"), picture.count(">success")), (4, 0))
        self.assertNotIn("client 1", picture)

    def test_too_long(self) -> None:
        limits = f"more than {page.MOST_COLUMNS} columns or a seqno above {page.MOST_SEQNO}"
        self.assertIn(limits, content("tools/picture").decode())
        many = page.MOST_COLUMNS + 1
        lines = ["node 0", *(f"vb 0 {i} active {i + 1}" for i in range(2))]
        groups = ["ok", *(f"branch 0 {i} {i + 1} - 0 0\nrole 0 {i} active\nok" for i in range(2))]
        lines += ["dead 0 0", "follow 0 0"] * many
        groups += ["role 0 0 dead\nok", "role 0 0 replica\nok"] * many
        told, played = pair(lines, groups)
        with self.assertRaisesRegex(Complaint, f"too long for a picture: it would have {2 * many + 2} columns"):
            page.drawn(following.of(told, played), played)

    def test_too_wide(self) -> None:
        last = page.MOST_SEQNO + 1
        told = "".join(f"change 0 0 1 {i} remove 61 {i} 1\n" for i in range(1, last + 1))
        groups = ["ok", "branch 0 0 1 - 0 0\nrole 0 0 active\nok", f"{told}ok"]
        pairs: tuple[transcript.Transcript, script.Script] = pair(["node 0", "vb 0 0 active 1", "client 0 0"], groups)
        with self.assertRaisesRegex(Complaint, f"too wide for a picture: it would go up to seqno {last}"):
            page.drawn(following.of(*pairs), pairs[1])
