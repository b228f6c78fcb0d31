"""What marks, lines and colours mean: of the ones that a picture has, in rows."""

from dataclasses import dataclass
from typing import Callable, Iterator

from drawing.marks import DISK, GO, GREY, INK, LOST, OPEN, WIDTH, Mark, mark_told
from drawing.svg import Attributes, Picture, wide
from formats.following import Followed
from formats.histories import Stage

ROW, BETWEEN = 20, 16
Drawn = Callable[[Picture, float, float], None]


@dataclass(frozen=True)
class Entry:
    words: str
    width: float
    draw: Drawn


def mark(words: str, mark: Mark) -> Entry:
    return Entry(words, 14, lambda picture, x, y: mark.draw(picture, x + 7, y))


def line(words: str, **look: str | float) -> Entry:
    given = {"stroke": INK, **look}
    return Entry(words, 20, lambda picture, x, y: picture.line((x, y), (x + 20, y), **given))


def box(words: str, **look: str | float) -> Entry:
    return Entry(words, 18, lambda picture, x, y: picture.box(x, y - 6, 18, 12, **look))


def told(words: str, colour: str) -> Entry:
    def draw(picture: Picture, x: float, y: float) -> None:
        picture.line((x, y), (x + 20, y), stroke=colour, stroke_width=3)
        mark_told(picture, x + 22, y, colour)

    return Entry(words, 27, draw)


def has(stages: list[Stage], name: str) -> bool:
    return any(getattr(stage, name) for stage in stages)


def mark_entries(followed: Followed) -> Iterator[Entry]:
    histories = followed.histories
    changes = [it for branch in histories.branches.values() for it in branch.changes.values()]
    acts = {it.act for it in changes}
    if acts - {"prepare", "commit", "abort"} or not acts:
        yield mark("a change", Mark(INK))
        yield mark("a removal", Mark(INK, "remove"))
    if "prepare" in acts:
        yield mark("a durable write is prepared, level 1: a majority is to have it", Mark(INK, "prepare", 1))
        yield mark("level 2: and the active's disk", Mark(INK, "prepare", 2))
        yield mark("level 3: a majority's disks", Mark(INK, "prepare", 3))
        yield mark("it is committed", Mark(INK, "commit"))
        yield mark("or aborted: given up", Mark(INK, "abort"))
    if any(it.taken_over for it in histories.branches.values()) or "prepare" not in acts:
        yield mark("taken over by a new branch", Mark(INK, is_taken_over=True))
    yield mark("lost: at the end no active vBucket and no replica has it", Mark(INK, is_lost=True))


def line_entries(stages: list[Stage]) -> Iterator[Entry]:
    yield line("active", stroke_width=4)
    yield line("replica", stroke_width=2)
    yield line("dead", stroke_width=2, stroke_dasharray="4 4")
    if has(stages, "stops"):
        yield box("its node is down", fill="url(#down)")
    if any(level for stage in stages for level in stage.written.values()):
        yield box("written down on its disk", fill=DISK)
    yield line("goes back", stroke=LOST, stroke_width=2.5, marker_end="url(#back)")
    yield box("snapshot", fill="#e4e5e7", stroke="#9aa0a6", rx=3)
    never: Attributes = {"fill": "#fdf3f4", "stroke": LOST, "stroke_dasharray": "3 2", "rx": 3}
    yield box("never whole", **never)


def link_entries(stages: list[Stage], has_writes: bool) -> Iterator[Entry]:
    asks = {"stroke": GREY, "stroke_width": 1.5, "stroke_dasharray": "4 3", "marker_end": "url(#tip)"}
    is_client = any(not isinstance(link.number, int) for stage in stages for link, _ in [*stage.asked, *stage.put])
    yield line("a link's request, from a seqno, and the answer", **asks)
    yield line("what arrives over a link", stroke=GREY, stroke_width=1.5, marker_end="url(#tip)")
    if has(stages, "counted"):
        yield line("an acknowledgement is counted", stroke=GO, stroke_width=1.5, marker_end="url(#ack)")
    if has_writes:
        yield told("a client waits, and is told success", GO)
        yield told("that it is not known", OPEN)
        yield told("no, or nothing", LOST)
    client = ", C0.1 is client 1 of node 0" if is_client else ""
    words = f"#5 is line 5 of the script, L1 is link 1{client}, on 11 is on branch 11"
    yield Entry(words, 0, lambda picture, x, y: None)


def draw(picture: Picture, followed: Followed, top: float) -> float:
    """Draws the rows, and gives where they end."""
    stages, has_writes = followed.histories.stages, any(it.client is not None for it in followed.writes.all)
    for entries in (mark_entries(followed), line_entries(stages), link_entries(stages, has_writes)):
        x = 12.0
        for entry in entries:
            width = entry.width + 6 + wide(entry.words, 11)
            if x + width > WIDTH:
                x, top = 12.0, top + ROW
            entry.draw(picture, x, top - 4)
            picture.text(x + entry.width + 6, top, entry.words, "note")
            x += width + BETWEEN
        top += ROW
    return top
