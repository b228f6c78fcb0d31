"""What the parts of a picture have in common: colours, names, and marks of changes."""

from dataclasses import dataclass
from functools import cached_property

from drawing.svg import Attributes, Picture
from formats.following import Followed
from formats.histories import Stage
from formats.sentences import change_phrase
from formats.transcript import Event
from formats.words import plain

WIDTH, LEFT = 1000, 92
COLOURS = ["#0072b2", "#009e73", "#d98e00", "#7b4fa3", "#3aa0d8", "#8c6d1f", "#44aa99", "#555555"]
NONE, LOST, GO, INK, GREY = "#9a9a9a", "#d0021b", "#2b7a2b", "#333333", "#777777"
OPEN, DISK = "#b35c00", "#efe3c6"


def short(text: str | int | None, most: int = 9) -> str:
    text = str(text)
    return text if len(text) <= most else f"{text[: most - 1]}…"


def fill(colour: str) -> str:
    return f"fill:{colour}"


def bold(colour: str) -> str:
    return f"fill:{colour};font-weight:bold"


def text_of(held: bytes) -> str:
    text = plain(held)
    return f"0x{held.hex()}" if text is None else text


def document_label(key: bytes, value: bytes | None, most: int) -> str:
    """A key and its value, or a key behind a minus where it is removed."""
    return short(f"−{text_of(key)}" if value is None else f"{text_of(key)}={text_of(value)}", most)


def change_label(change: Event, most: int) -> str:
    """What a change does; a commit or an abort names its prepare."""
    if change.act in ("commit", "abort"):
        return short(f"{change.act}s {change.prepared}", most)
    is_removal = change.act == "remove" or change.act == "prepare" and change.deleted
    return document_label(change.key, None if is_removal else change.value, most)


@dataclass
class Scale:
    """Where a seqno is."""

    first: float
    step: float

    def __call__(self, at: float) -> float:
        return self.first + at * self.step


@dataclass(frozen=True)
class Mark:
    """How a change looks; `act` is that of its line."""

    colour: str
    act: str = "set"
    level: int = 0
    is_lost: bool = False
    is_taken_over: bool = False
    tip: str = ""

    def draw(self, picture: Picture, x: float, y: float) -> None:
        """Ringed where a new branch took it over, crossed where it is lost."""
        is_hollow, radius = self.act in ("remove", "prepare"), 6 if self.act in ("prepare", "commit", "abort") else 4
        inside, edge = "#ffffff" if is_hollow else self.colour, LOST if self.is_lost else self.colour
        circle: Attributes = {"cx": x, "cy": y, "r": radius, "fill": inside, "stroke": edge, "stroke-width": 1.5}
        picture.add("circle", circle, tip=self.tip)
        match self.act:
            case "prepare":
                style = f"{bold(self.colour)};font-size:8px"
                picture.text(x, y + 3, str(self.level), "digit", text_anchor="middle", style=style)
            case "commit":
                picture.path(f"M{x - 3:.1f} {y:.1f} l2.2 2.6 l3.8 -5", stroke="#ffffff", stroke_width=1.6)
            case "abort":
                picture.line((x - 3.5, y), (x + 3.5, y), stroke="#ffffff", stroke_width=2)
        if self.is_lost:
            picture.path(f"M{x - 6:.1f} {y - 6:.1f} l12 12 m0 -12 l-12 12", stroke=LOST, stroke_width=1.8)
        if self.is_taken_over:
            ring: Attributes = {"cx": x, "cy": y, "r": radius + 3, "fill": "none", "stroke": self.colour}
            picture.add("circle", {**ring, "stroke-dasharray": "2 2"})


def mark_told(picture: Picture, x: float, y: float, colour: str) -> None:
    """A diamond: a client is told."""
    picture.add("path", {"d": f"M{x - 5:.1f} {y:.1f} l5 -5 l5 5 l-5 5 z", "fill": colour})


class View:
    """What is told of one vBucket number, whose branches have colours in the order in which they were made."""

    def __init__(self, followed: Followed, vb: int):
        self.followed, self.histories, self.vb = followed, followed.histories, vb
        self.branches = {branch.id: branch for branch in self.histories.branches.values() if branch.vb == vb}
        self.places = sorted(place for place in self.histories.holdings if place[0] == vb)
        self.colours = {branch: COLOURS[i % len(COLOURS)] for i, branch in enumerate(self.branches)}
        self.writes = [write for write in followed.writes.all if write.vb == vb]
        self.unread = [write for write in followed.writes.unread() if write.vb == vb]

    @cached_property
    def columns(self) -> list[Stage]:
        """The stages that tell anything of the number, or in which a client of it is told."""
        told = {it.prepared_in for it in self.writes} | {it.answered[0] for it in self.writes if it.answered}
        told |= self.histories.lines.get(self.vb, set())
        return [stage for stage in self.histories.stages if stage.number in told]

    def colour(self, branch: int | None) -> str:
        return self.colours.get(branch, NONE) if branch is not None else NONE

    def mark(self, branch: int | None, change: Event, is_own: bool = True) -> Mark:
        """How a change of a branch looks; one that is not its own was taken over from its parent."""
        is_lost = branch is not None and not self.histories.is_kept(self.vb, branch, change.seqno)
        told = "" if is_own or branch is None else f", taken over from branch {self.branches[branch].parent}"
        told += ", lost" if is_lost else ""
        tip = f"change {change.seqno} of branch {branch}{told}: {change_phrase(change)}"
        return Mark(self.colour(branch), change.act, vars(change).get("level", 0), is_lost, not is_own, tip)
