"""The lower part of a picture: where each node's vBucket of a number stands, column by column, band below band."""

from math import ceil
from typing import Iterator

from drawing.bands import Band
from drawing.marks import DISK, GO, GREY, INK, LEFT, LOST, NONE, OPEN, WIDTH, bold, change_label, fill, mark_told
from drawing.plan import Plan, Rows
from drawing.svg import Attributes, Picture, fitted
from drawing.tracks import Box
from drawing.waits import Wait
from formats.histories import Place, Position

EDGE = WIDTH - 8


class Lanes:
    """A lane for each node, in which the height is the seqno, and a column for each group of the transcript."""

    def __init__(self, plan: Plan, band: Band, top: float):
        self.plan, self.view, self.band = plan, plan.view, band
        self.rows = Rows(plan, band, top)
        self.end = EDGE if len(plan.bands) > 1 else min(EDGE, band.end + 2)

    def draw(self, picture: Picture) -> None:
        self.draw_columns(picture)
        for place in self.plan.places:
            self.draw_ground(picture, place)
            self.draw_disk(picture, place)
            self.draw_boxes(picture, place)
        self.draw_arrows(picture)
        for place in self.plan.places:
            self.draw_path(picture, place)
            self.draw_changes(picture, place)
            self.draw_notes(picture, place)
            self.draw_waits(picture, place)

    def spans(self) -> Iterator[tuple[int, float, float]]:
        """Each column, where it is, and where the next one is."""
        ends = [*self.band.xs[1:], self.end]
        yield from zip(self.band.columns(), self.band.xs, ends)

    def draw_columns(self, picture: Picture) -> None:
        for i, x in zip(self.band.columns(), self.band.xs):
            y = self.rows.top - 4
            picture.line((x, self.rows.top), (x, self.rows.bottom - 10), class_="grid")
            picture.text(x, y, self.plan.labels[i], "small", transform=f"rotate(-50 {x:.1f} {y:.1f})")

    def draw_ground(self, picture: Picture, place: Place) -> None:
        base, top = self.rows.bases[place], self.rows.ceiling(place)
        picture.box(LEFT, top, self.end - LEFT, base + 6 - top, fill="#f7f7f9")
        for seqno in range(self.rows.low, self.rows.high + 1, ceil(10 / self.plan.unit)):
            y = self.rows.y(place, seqno) + 3
            picture.text(LEFT - 5, y, str(seqno), "small", text_anchor="end", style=fill(NONE))
        picture.line((LEFT, base), (self.end, base), class_="axis")
        middle = (base + top) / 2
        picture.text(12, middle + 2, f"node {place[1]}", "name")
        before = self.plan.tracks[place].before(self.band.first)
        if before and before.role:
            words = ["down" if before.is_down else before.role]
            words += [f"on {before.branch}"] * (before.branch is not None)
            for line, it in enumerate(words):
                picture.text(12, middle + 15 + 12 * line, fitted(it, LEFT - 38, 11), "note")

    def draw_disk(self, picture: Picture, place: Place) -> None:
        """What is written down, from the ground up; and where the node is down."""
        track, base = self.plan.tracks[place], self.rows.bases[place]
        level, begin = track.disk_before(self.band.first), float(LEFT)
        for i, x, end in self.spans():
            if level > self.rows.low:
                top = self.rows.y(place, level)
                picture.box(begin, top, x - begin, base - top, fill=DISK)
            level, begin = track.disks[i], x
            if level > self.rows.low and i == self.band.columns().stop - 1:
                top = self.rows.y(place, level)
                picture.box(x, top, end - x, base - top, fill=DISK)
        for begin, end in self.downs(place):
            top = self.rows.ceiling(place)
            picture.box(begin, top, end - begin, base + 6 - top, fill="url(#down)")

    def downs(self, place: Place) -> Iterator[tuple[float, float]]:
        track = self.plan.tracks[place]
        before = track.before(self.band.first)
        if before and before.is_down:
            yield LEFT, self.band.xs[0]
        for i, x, end in self.spans():
            now = track.positions[i]
            if now and now.is_down:
                yield x, end

    def draw_boxes(self, picture: Picture, place: Place) -> None:
        columns = self.band.columns()
        for box in self.plan.tracks[place].boxes:
            if box.is_in(columns.start, columns.stop):
                self.draw_box(picture, place, box)

    def draw_box(self, picture: Picture, place: Place, box: Box) -> None:
        columns, event = self.band.columns(), box.event
        begin = self.band.x(box.first) - 8 if box.first >= columns.start else LEFT
        is_inside = box.last is not None and box.last < columns.stop
        end = min(self.band.x(box.last) + 8, self.end) if is_inside else self.end
        top = self.rows.y(place, event.end) - 7
        look: Attributes = {"fill": "#80868b", "fill-opacity": 0.16, "stroke": "#9aa0a6" if box.is_whole else LOST}
        dash: Attributes = {} if box.is_whole else {"stroke-dasharray": "3 2"}
        tip = f"snapshot {event.start} to {event.end}, {'whole' if box.is_whole else 'never whole'}"
        height = self.rows.y(place, event.start) - top
        frame: Attributes = {"x": begin, "y": top, "width": end - begin, "height": height, "rx": 3}
        picture.add("rect", {**frame, **look, **dash}, tip=tip)

    def draw_arrows(self, picture: Picture) -> None:
        """Dashed for a request, green for an acknowledgement, and one for what a link carries to its consumer."""
        looks: dict[str, dict[str, str]] = {
            "ask": {"stroke": GREY, "stroke_dasharray": "4 3", "marker_end": "url(#tip)"},
            "carry": {"stroke": GREY, "marker_end": "url(#tip)"},
            "ack": {"stroke": GO, "marker_end": "url(#ack)"},
        }
        for i, x in zip(self.band.columns(), self.band.xs):
            for begin, end, what in self.plan.arrows[i]:
                y, to = self.rows.arrow(begin, end)
                picture.line((x, y), (x, to), stroke_width=1.5, **looks[what])

    def draw_path(self, picture: Picture, place: Place) -> None:
        """The last seqno: level between columns, up where changes come, and red where it goes back."""
        track = self.plan.tracks[place]
        before = track.before(self.band.first)
        if before and before.role:
            self.draw_level(picture, place, before, (LEFT, self.band.xs[0]))
        for i, x, end in self.spans():
            now = track.positions[i]
            if now is None:
                continue
            low = self.rows.y(place, before.at if before else self.rows.low)
            for high, to in track.falls(i):
                low = self.rows.y(place, to)
                begin = (x, self.rows.y(place, high))
                picture.line(begin, (x, low), stroke=LOST, stroke_width=2.5, marker_end="url(#back)")
            y = self.rows.y(place, now.at)
            if y < low:
                picture.line((x, low), (x, y), stroke=self.view.colour(now.branch), stroke_width=2)
            if now.role:
                self.draw_level(picture, place, now, (x, end))
            before = now

    def draw_level(self, picture: Picture, place: Place, now: Position, span: tuple[float, float]) -> None:
        dash = "1 4" if now.is_down else "4 4" if now.role == "dead" else None
        width = 2 if now.is_down or now.role != "active" else 4
        y, colour = self.rows.y(place, now.at), GREY if now.is_down else self.view.colour(now.branch)
        picture.line((span[0], y), (span[1], y), stroke=colour, stroke_width=width, stroke_dasharray=dash)

    def draw_changes(self, picture: Picture, place: Place) -> None:
        for i, x in zip(self.band.columns(), self.band.xs):
            for at, branch, change in self.plan.told(i):
                if at == place:
                    y = self.rows.y(place, change.seqno)
                    self.view.mark(branch, change).draw(picture, x, y)
                    if self.plan.is_labelled:
                        picture.text(x + 9, y - 3.5, change_label(change, 14), "small halo")

    def draw_notes(self, picture: Picture, place: Place) -> None:
        for i, x in zip(self.band.columns(), self.band.xs):
            for side, held, y in (
                ("above", self.plan.above, self.rows.above),
                ("below", self.plan.below, self.rows.below),
            ):
                for row, note in self.plan.placed(place, side, held[place][i]):
                    style = bold(note.colour) if note.is_bold else fill(note.colour)
                    picture.text(x + self.plan.left(i, row), y(place, row[2]), note.words, "small halo", style=style)

    def draw_waits(self, picture: Picture, place: Place) -> None:
        columns = self.band.columns()
        for wait in self.plan.waits[place]:
            if wait.is_in(columns.start, columns.stop):
                self.draw_wait(picture, place, wait)

    def draw_wait(self, picture: Picture, place: Place, wait: Wait) -> None:
        """A bar from the prepare to the answer, what was asked over it, and what was told behind it."""
        columns, y = self.band.columns(), self.rows.wait(place, wait.row)
        begins, told = wait.first >= columns.start, wait.last is not None and wait.last < columns.stop
        begin = self.band.x(wait.first) if begins else float(LEFT)
        end = self.band.x(wait.last) if told else self.end
        words, colour = wait.told()
        left = self.plan.left(wait.first, (place, "wait", wait.row, 0)) if begins else 0
        picture.text(begin + left, y - 7, wait.asked(), "small halo", style=fill(INK))
        picture.line((begin, y), (end, y), stroke=OPEN if not told else colour, stroke_width=3)
        if begins:
            picture.line((begin, y - 4), (begin, y + 4), stroke=OPEN if not told else colour, stroke_width=2)
        if told:
            mark_told(picture, end, y, colour)
            picture.text(end + 9, y + 4, words, "small halo", style=bold(colour))
