"""A whole picture: its title, what shapes mean, and of each vBucket number the branches, durable writes and lanes."""

from itertools import takewhile

from drawing import fates, key
from drawing.branches import Branches
from drawing.lanes import Lanes
from drawing.marks import GO, GREY, INK, LOST, WIDTH, View, short
from drawing.plan import Plan
from drawing.svg import Picture, wide, wrapped
from formats import Complaint
from formats.following import Followed
from formats.histories import Stage
from formats.script import Line, Script
from formats.wire import Frame, frame_of, requirements, split
from formats.words import words_of

FIRST, SLANT = 26, 0.78
# More columns than these, or a greater seqno, is no picture that anybody reads.
MOST_COLUMNS, MOST_SEQNO = 800, 500
HEAD = f"""<style>
text {{ font: 12px sans-serif; fill: {INK}; }}
.title {{ font-size: 15px; font-weight: bold; }}
.vb {{ font-size: 14px; font-weight: bold; }}
.name {{ font-weight: bold; }}
.part {{ font-size: 11px; }}
.small {{ font-size: 10px; }}
.note {{ fill: #6b6b6b; font-size: 11px; }}
.grid {{ stroke: #ececec; stroke-width: 1; }}
.axis {{ stroke: #c8c8c8; stroke-width: 1; }}
.halo {{ paint-order: stroke; stroke: #ffffff; stroke-width: 3px; }}
</style>
<defs>
<marker id="tip" viewBox="0 0 8 8" refX="7" refY="4" markerWidth="7" markerHeight="7" orient="auto">
<path d="M0 0 L8 4 L0 8 z" fill="{GREY}"/></marker>
<marker id="ack" viewBox="0 0 8 8" refX="7" refY="4" markerWidth="7" markerHeight="7" orient="auto">
<path d="M0 0 L8 4 L0 8 z" fill="{GO}"/></marker>
<marker id="back" viewBox="0 0 8 8" refX="7" refY="4" markerWidth="6" markerHeight="6" orient="auto">
<path d="M0 0 L8 4 L0 8 z" fill="{LOST}"/></marker>
<pattern id="down" width="6" height="6" patternUnits="userSpaceOnUse" patternTransform="rotate(45)">
<rect width="6" height="6" fill="#8a8a8a" fill-opacity="0.14"/>
<line x1="0" y1="0" x2="0" y2="6" stroke="#8a8a8a" stroke-opacity="0.3" stroke-width="2"/></pattern>
</defs>"""


def frame_label(frame: Frame) -> str:
    words = list(takewhile(lambda word: not word.startswith("--"), words_of(frame)[:3]))
    levels = [f"level {it.level}" for it in requirements(frame.framing) if it.level is not None]
    return " ".join(words + levels)


def line_label(line: Line) -> str:
    """A line with its frames as words."""
    if line.verb != "bytes":
        return line.text
    frames, rest = split(line.held)
    text = ", ".join([frame_label(frame_of(frame)) for frame in frames] + ["a piece"] * bool(rest))
    return f"{short(text, 24)} → node {line['node']}"


def label(stage: Stage, played: Script | None) -> str:
    """A group's number, and its line."""
    return f"#{stage.number} {short(line_label(played.lines[stage.number]), 34)}" if played else f"#{stage.number}"


def title_of(played: Script | None, bad_line: int | None) -> str:
    """The script's first line, where that is a comment."""
    if bad_line is not None:
        return f"Line {bad_line} is none of the grammar, so nothing was run."
    first = played.texts[0] if played else ""
    comment = first.lstrip("; ") if first.startswith(";") else ""
    return "".join(it if it.isprintable() else "?" for it in comment) or "A transcript"


def check_size(views: list[View]) -> None:
    count = sum(len(view.columns) for view in views)
    if count > MOST_COLUMNS:
        raise Complaint(f"too long for a picture: it would have {count} columns, and has at most {MOST_COLUMNS}")
    last = max([0, *(seqno for view in views for branch in view.branches.values() for seqno in branch.changes)])
    if last > MOST_SEQNO:
        raise Complaint(f"too wide for a picture: it would go up to seqno {last}, and goes at most up to {MOST_SEQNO}")


def draw_vb(picture: Picture, view: View, played: Script | None, top: float) -> float:
    """Both parts of a vBucket number, with its durable writes between; gives where they end."""
    stages = view.columns
    picture.text(12, top, f"vBucket {view.vb}", "vb")
    branches = Branches(view, top + 18)
    branches.draw(picture)
    top = fates.draw(picture, view, branches.bottom + 22)
    labels = [label(stage, played) for stage in stages]
    plan = Plan(view, stages, labels)
    for band in plan.bands:
        widest = max(wide(labels[i]) for i in band.columns())
        lanes = Lanes(plan, band, top + SLANT * widest + 4)
        lanes.draw(picture)
        top = lanes.rows.bottom + 8
    return fates.draw_ends(picture, view, top + 8) + 24


def drawn(followed: Followed, played: Script | None, bad_line: int | None = None) -> str:
    """The whole picture."""
    picture = Picture()
    title = title_of(played, bad_line)
    top = float(FIRST)
    for words in wrapped(title, WIDTH - 24, 15, True):
        picture.text(12, top, words, "title")
        top += 20
    top = key.draw(picture, followed, top + 4) + 14
    views = [View(followed, vb) for vb in sorted({vb for vb, _ in followed.histories.holdings})]
    check_size(views)
    for view in views:
        top = draw_vb(picture, view, played, top)
    return picture.whole(WIDTH, top, title, HEAD)
