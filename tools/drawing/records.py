"""The picture of a journal: a row for each record, with the seqnos that it has, and what was broken off and read."""

from drawing.marks import COLOURS, GREY, INK, LOST, Mark, Scale, bold, change_label, fill
from drawing.svg import Attributes, Picture, fitted
from formats.histories import Place
from formats.journals import Append, Journal, Reading
from formats.records import Record, Roll, Rows, State, payload
from formats.sentences import change_phrase, counted
from formats.wire import Log

TOP, ROW, THIN, FIRST, MIDDLE, WIDTH = 84, 46, 26, 150, 520, 1000
STEP = 42.0


def log_text(log: Log) -> str:
    return "log " + (" ".join(f"{branch}:{seqno}" for branch, seqno in log) or "empty")


def said(record: Record) -> tuple[str, str]:
    """What a record says, in two lines."""
    match record:
        case State(role, log):
            return f"State: {role}", log_text(log)
        case Rows(start, end, at, cas, log):
            point = f"at {at}, {'complete' if record.is_complete else 'not complete'}"
            return f"Rows: {point}", f"snapshot {start} to {end}, CAS {cas}, {log_text(log)}"
        case Roll(to, named):
            return f"Roll: to {to}", f"{named} was named; what is above {to} counts no more"


def read_text(reading: Reading) -> str:
    """What a start read, in one line."""
    found = reading.found
    if not found.role:
        return f"#{reading.group} start: no record is read, so the vBucket is not there"
    records = f"{counted(reading.count, 'record', 'records')} up to byte {reading.end}"
    return f"#{reading.group} start: reads {records}: {found.role}, at {found.at}, {log_text(reading.log)}"


class Records:
    """The rows of a journal, and which of its batches a later rollback took away."""

    def __init__(self, journal: Journal):
        self.journal, self.appends = journal, journal.appends
        self.batches = [(i, it.record) for i, it in enumerate(self.appends) if isinstance(it.record, Rows)]
        named = [it.record.named for it in self.appends if isinstance(it.record, Roll)]
        self.last = max([1, *(it.end for _, it in self.batches), *named])
        step = min(STEP, (WIDTH - MIDDLE - 40) / self.last)
        self.x = Scale(WIDTH - step * self.last - 34, step)
        logs = [it.record.log for it in self.appends if not isinstance(it.record, Roll)]
        names = [branch for log in logs for branch, _ in reversed(log)]
        self.colours = {name: COLOURS[i % len(COLOURS)] for i, name in enumerate(dict.fromkeys(names))}
        self.tops, y = [], float(TOP)
        for i in range(len(self.appends) + 1):
            y += THIN * sum(it.behind == i for it in journal.readings)
            self.tops.append(y)
            y += ROW
        self.bottom = y

    def rolls(self) -> list[tuple[int, Roll]]:
        """The rollbacks that stand."""
        return [(i, it.record) for i, it in enumerate(self.appends) if isinstance(it.record, Roll) and it.stands]

    def is_gone(self, i: int, at: int) -> bool:
        """Whether a rollback behind the record i takes what is at a seqno away, or the record is not there."""
        return self.appends[i].stands is False or any(j > i and it.to < at for j, it in self.rolls())

    def y(self, i: int) -> float:
        return self.tops[i] + ROW / 2

    def draw(self, picture: Picture) -> None:
        self.draw_axis(picture)
        for i, it in enumerate(self.appends):
            self.draw_row(picture, i, it)
            match it.record:
                case Rows():
                    self.draw_batch(picture, i, it.record)
                case Roll():
                    self.draw_roll(picture, i, it.record)
        for behind in {it.behind for it in self.journal.readings}:
            self.draw_readings(picture, [it for it in self.journal.readings if it.behind == behind])
        y, gate = self.y(len(self.appends)), self.journal.gate()
        picture.text(12, y + 4, str(self.journal.end()), "note")
        picture.text(64, y + 4, gate, "name")
        words = "a closed gate: the journal ends here" if gate != "01" else "a gate that is not synced: a crash decides"
        picture.text(FIRST, y + 4, words, "note")

    def draw_axis(self, picture: Picture) -> None:
        every = max(1, round(28 / self.x.step))
        for seqno in range(0, self.last + 1, every):
            picture.line((self.x(seqno), TOP), (self.x(seqno), self.bottom - ROW), class_="grid")
            picture.text(self.x(seqno), TOP - 6, str(seqno), "note", text_anchor="middle")
        for x, words in ((12, "byte"), (64, "gate"), (FIRST, "record"), (self.x(0) - 58, "seqno")):
            picture.text(x, TOP - 6, words, "note")

    def draw_readings(self, picture: Picture, readings: list[Reading]) -> None:
        """A thin row for each start, in front of what is appended behind it."""
        y = self.tops[readings[0].behind] - THIN * len(readings)
        for reading in readings:
            picture.box(12, y + 1, WIDTH - 24, THIN - 1, fill="#eef1f4")
            words = fitted(read_text(reading), WIDTH - 24 - FIRST, 11, True)
            picture.text(FIRST, y + 17, words, "part", style=bold(INK))
            y += THIN

    def draw_row(self, picture: Picture, i: int, it: Append) -> None:
        y, (first, second) = self.y(i), said(it.record)
        is_taken = isinstance(it.record, Rows) and it.stands is not False and self.is_gone(i, it.record.at)
        picture.line((12, y - ROW / 2), (WIDTH - 12, y - ROW / 2), class_="axis")
        picture.text(12, y - 2, str(it.at), "note")
        gate = f"{it.image[0]:02x}" if it.image else "00" if it.stands is False else "01"
        picture.text(64, y - 2, gate, "name", style=fill(LOST) if it.stands is False else None)
        picture.text(64, y + 13, f"{len(payload(it.record))} bytes", "small")
        is_red = is_taken or it.stands is False or isinstance(it.record, Roll)
        words = first + ", taken away" * is_taken + f": {it.verdict()}" * bool(it.hit)
        picture.text(FIRST, y - 2, words, "name", style=fill(LOST) if is_red else None)
        second = it.told() if it.hit else f"#{it.group}  {second}"
        room = self.x(0) - 66 - FIRST
        picture.text(FIRST, y + 13, fitted(second, room), "small", style=fill(GREY))

    def draw_batch(self, picture: Picture, i: int, rows: Rows) -> None:
        """Its snapshot as a box, its changes, and its point: filled where it is complete."""
        y = self.y(i)
        box: Attributes = {"x": self.x(rows.start), "y": y - 9, "width": self.x(rows.end) - self.x(rows.start) + 6}
        if rows.start < rows.end:
            tip = f"snapshot {rows.start} to {rows.end}"
            look: Attributes = {"height": 18, "rx": 3, "fill": "#80868b", "fill-opacity": 0.16, "stroke": "#9aa0a6"}
            picture.add("rect", {**box, **look}, tip=tip)
        for change in rows.changes:
            owner = next((branch for branch, made in rows.log if made < change.seqno), None)
            gone = self.is_gone(i, change.seqno)
            tip = f"change {change.seqno}: {change_phrase(change)}"
            mark = Mark(self.colours.get(owner, GREY), change.act, vars(change).get("level", 0), gone, tip=tip)
            mark.draw(picture, self.x(change.seqno), y)
            if self.x.step >= 30:
                style = fill(LOST) if gone else None
                label = fitted(change_label(change, 14), self.x.step - 3)
                picture.text(self.x(change.seqno), y - 12, label, "small halo", text_anchor="middle", style=style)
        if rows.is_complete:
            x, gone = self.x(rows.at), self.is_gone(i, rows.at)
            picture.path(f"M{x - 5:.1f} {y + 17} l5 -7 l5 7 z", stroke=LOST if gone else "#2b7a2b", stroke_width=1.8)

    def draw_roll(self, picture: Picture, i: int, roll: Roll) -> None:
        """From where the last batch ended to where it goes, over the seqno that was named."""
        y = self.y(i)
        before = [it.at for j, it in self.batches if j < i and self.appends[j].stands]
        if before and before[-1] > roll.to:
            begin, end = (self.x(before[-1]), y), (self.x(roll.to) + 2, y)
            picture.line(begin, end, stroke=LOST, stroke_width=2.5, marker_end="url(#back)")
        x = self.x(roll.named)
        picture.line((x, y - 14), (x, y + 14), stroke=LOST, stroke_width=1.5, stroke_dasharray="3 2")
        anchor = "end" if x + 50 > WIDTH else None
        picture.text(x - 5 if anchor else x + 5, y - 6, "named", "small", text_anchor=anchor, style=bold(LOST))


def draw_key(picture: Picture, journal: Journal, y: float) -> None:
    """What the shapes mean, in a row."""
    x = 12
    lost = "taken away by a rollback" + ", or not there" * any(it.stands is False for it in journal.appends)
    shapes = (("a change", Mark(GREY), 92), ("a removal", Mark(GREY, "remove"), 98))
    for words, mark, width in (*shapes, (lost, Mark(GREY, is_lost=True), 190 if "not" not in lost else 270)):
        mark.draw(picture, x + 6, y - 4)
        picture.text(x + 18, y, words, "note")
        x += width
    picture.path(f"M{x} {y} l5 -7 l5 7 z", stroke="#2b7a2b", stroke_width=1.8)
    picture.text(x + 17, y, "a complete point, where a rollback may go", "note")
    x += 280
    box: Attributes = {"x": x, "y": y - 10, "width": 16, "height": 12, "rx": 3}
    picture.add("rect", {**box, "fill": "#e4e5e7", "stroke": "#9aa0a6"})
    picture.text(x + 23, y, "its snapshot", "note")


def drawn(journal: Journal, place: Place, head: str) -> str:
    """The whole picture."""
    picture = Picture()
    title = f"The journal of vBucket {place[0]} of node {place[1]}, record by record"
    picture.text(12, 26, title, "title")
    draw_key(picture, journal, 50)
    records = Records(journal)
    records.draw(picture)
    return picture.whole(WIDTH, records.bottom + 6, title, head)
