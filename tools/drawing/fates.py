"""The durable writes of a vBucket number as a table, and what its nodes have at the end."""

from drawing.marks import GO, GREY, INK, LEFT, LOST, WIDTH, View, bold, change_label, document_label, fill, short
from drawing.svg import Picture, fitted
from drawing.waits import told_of
from formats.histories import Place
from formats.writes import Settled, Write

ROW = 16
PREPARED, SETTLED, TOLD, END, HAS = 322, 472, 750, 894, 440
HEADS = {12: "durable write", PREPARED: "prepared by", SETTLED: "and then", TOLD: "its client is told"}
HEADS[END] = "at the end"


def asked(write: Write) -> str:
    """Who asked for what; who that was the script alone tells."""
    command = document_label(write.key, write.value, 20)
    within = "" if write.timeout is None else f", within {write.timeout / 1000:g} s"
    who = f"client {write.client} of node {write.node}" if write.client is not None else f"node {write.node}"
    return f"#{write.group} {who}: {command}, level {write.level}{within}"


def settled(write: Write, it: Settled) -> str:
    """By which change; also where, if that is another branch than the prepare's."""
    where = "" if it.node == write.node else f", node {it.node}"
    where = where if it.branch == write.branch else f" of branch {short(it.branch, 6)}, node {it.node}"
    what = "committed" if it.change.act == "commit" else "aborted"
    return f"{what} by {it.change.seqno}{where}, #{it.group}"


def fate(view: View, write: Write) -> tuple[str, str]:
    """Whether it stands at the end, and the colour of that."""
    if write.prepare is None:
        return "was not made", GREY
    kept = [it.change.act for it in write.settled if view.histories.is_kept(view.vb, it.branch, it.change.seqno)]
    if "commit" in kept:
        return "stands", GO
    if "abort" in kept:
        return "does not stand", GREY
    if not view.histories.is_kept(view.vb, write.branch, write.prepare.seqno):
        return "is lost", LOST
    return "is open", INK


def told(write: Write) -> tuple[str, str]:
    words, colour = told_of(write)
    if write.client is None:
        return "needs the script", GREY
    if not words:
        return "nothing so far", colour
    return f"{words}, #{write.answered[0]}", colour


def draw(picture: Picture, view: View, top: float) -> float:
    """A row for each durable write, and more where it was settled on more than one branch; gives where it ends."""
    if not view.writes and not view.unread:
        return top
    for x, words in HEADS.items():
        picture.text(x, top, words, "note")
    for write in [*view.writes, *view.unread]:
        top += ROW
        picture.line((12, top - 11), (988, top - 11), class_="axis")
        picture.text(12, top, fitted(asked(write), PREPARED - 18, 11), "part")
        words, colour = fate(view, write)
        picture.text(END, top, words, "part", style=bold(colour))
        words, colour = told(write)
        if write.prepare is None:
            words = f"refused: {words}" if write.answered else "not read so far, as its client waits for another write"
            picture.text(PREPARED, top, words, "part", style=bold(colour))
            continue
        picture.text(TOLD, top, fitted(words, END - TOLD - 6, 11, True), "part", style=bold(colour))
        words = f"{write.prepare.seqno} of branch {short(write.branch, 6)}, #{write.prepared_in}"
        words = fitted(words, SETTLED - PREPARED - 6, 11)
        picture.text(PREPARED, top, words, "part", style=fill(view.colour(write.branch)))
        for i, it in enumerate(write.settled):
            top += ROW * bool(i)
            words = fitted(settled(write, it), TOLD - SETTLED - 6, 11)
            picture.text(SETTLED, top, words, "part", style=fill(view.colour(it.branch)))
        if not write.settled:
            picture.text(SETTLED, top, "neither committed nor aborted", "part", style=fill(GREY))
    return top + 2 * ROW


def state(view: View, place: Place) -> tuple[str, str]:
    """Where a vBucket is at the end, in short, and what it has."""
    holding = view.histories.holdings[place]
    position = holding.position
    branch = f" on branch {short(position.branch)}" if position.branch is not None else ""
    inside = f", inside the snapshot {position.start} to {position.end}" if position.at != position.end else ""
    down = "down; its disk has: " if position.is_down else ""
    if not position.role:
        return "is not there" + (", its node is down" if position.is_down else ""), ""
    log = " ".join(f"{branch}:{seqno}" for branch, seqno in holding.log) or "empty"
    documents = "  ".join(document_label(key, it.value, 24) for key, it in holding.documents().items())
    prepares = "  ".join(f"{change_label(it, 20)} at {it.seqno}" for it in holding.prepares().values())
    has = f"log {short(log, 30)};  {short(documents, 40) or 'no documents'}"
    has += f";  prepared {short(prepares, 24)}" if prepares else ""
    return f"{down}{position.role}{branch}, at {position.at}{inside}", has


def draw_ends(picture: Picture, view: View, top: float) -> float:
    picture.text(12, top, "at the end", "note")
    for place in view.places:
        top += ROW
        picture.line((12, top - 11), (988, top - 11), class_="axis")
        stands, has = state(view, place)
        style = fill(view.colour(view.histories.holdings[place].position.branch))
        picture.text(12, top, f"node {place[1]}", "name", style=style)
        picture.text(LEFT, top, fitted(stands, HAS - LEFT - 6, 11), "part", style=style)
        picture.text(HAS, top, fitted(has, WIDTH - 10 - HAS, 11), "part")
    return top + ROW
