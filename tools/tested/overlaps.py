"""What a picture has on top of something else: words on words, words on a mark, and words under a thick line."""

import math
import re
from dataclasses import dataclass
from typing import Iterator
from xml.etree import ElementTree

from drawing.svg import wide

SVG = "{http://www.w3.org/2000/svg}"
SIZES = {"title": 15, "vb": 14, "name": 12, "part": 11, "note": 11, "small": 10}
BOLD = ("title", "vb", "name")
# How high a shelf is, and how labels of columns rise.
ROW, ANGLE = 50, math.radians(50)


@dataclass(frozen=True)
class Box:
    """From left to right and from top to bottom, and what is there."""

    left: float
    top: float
    right: float
    bottom: float
    what: str

    def meets(self, other: "Box") -> bool:
        is_beside = self.right <= other.left or other.right <= self.left
        return not (is_beside or self.bottom <= other.top or other.bottom <= self.top)


def number(shape: ElementTree.Element, name: str) -> float:
    return float(shape.get(name, "0"))


def text_box(shape: ElementTree.Element) -> Box:
    """Where words are, by a font that is a wide one; slanted ones as if they were level."""
    class_ = shape.get("class", "").split()[0]
    is_bold = class_ in BOLD or "bold" in shape.get("style", "")
    size, words = SIZES[class_], shape.text or ""
    width, x, y = wide(words, size, is_bold), number(shape, "x"), number(shape, "y")
    left = x - {"middle": width / 2, "end": width}.get(shape.get("text-anchor", ""), 0)
    return Box(left, y - 0.75 * size, left + width, y + 0.1 * size, words)


def texts(root: ElementTree.Element) -> Iterator[Box]:
    for shape in root.iter(f"{SVG}text"):
        if shape.get("class") != "digit" and "transform" not in shape.attrib:
            yield text_box(shape)


def slanted(root: ElementTree.Element) -> list[Box]:
    return [text_box(shape) for shape in root.iter(f"{SVG}text") if "transform" in shape.attrib]


def marks(root: ElementTree.Element) -> Iterator[Box]:
    """Changes, and the diamonds of what clients are told."""
    for shape in root.iter(f"{SVG}circle"):
        x, y, r = (number(shape, name) for name in ("cx", "cy", "r"))
        yield Box(x - r, y - r, x + r, y + r, "a mark")
    for shape in root.iter(f"{SVG}path"):
        found = re.match(r"M([\d.]+) ([\d.]+) l5 -5 l5 5", shape.get("d", ""))
        if found:
            x, y = float(found[1]), float(found[2])
            yield Box(x, y - 5, x + 10, y + 5, "a diamond")


def lines(root: ElementTree.Element) -> Iterator[Box]:
    """Arrows, and the lines that tell where a vBucket is."""
    for shape in root.iter(f"{SVG}line"):
        if float(shape.get("stroke-width", "0")) >= 1.5 and shape.get("stroke") != "#ffffff":
            x1, x2 = sorted((number(shape, "x1"), number(shape, "x2")))
            y1, y2 = sorted((number(shape, "y1"), number(shape, "y2")))
            thick = float(shape.get("stroke-width")) / 2
            yield Box(x1 - thick, y1 - thick, x2 + thick, y2 + thick, "a line")


class Shelves:
    """Boxes by how far down they are, so that those near to one are few."""

    def __init__(self, boxes: list[Box]):
        self.held: dict[int, list[Box]] = {}
        for box in boxes:
            for row in self.rows(box):
                self.held.setdefault(row, []).append(box)

    @staticmethod
    def rows(box: Box) -> range:
        return range(int(box.top) // ROW, int(box.bottom) // ROW + 1)

    def near(self, box: Box) -> list[Box]:
        return list({id(it): it for row in self.rows(box) for it in self.held.get(row, [])}.values())


def on_words(words: list[Box], shelves: Shelves) -> Iterator[tuple[str, str]]:
    for one in words:
        for other in shelves.near(one):
            if one is not other and one.meets(other) and (one.top, one.left) <= (other.top, other.left):
                yield one.what, other.what


def along(label: Box) -> Iterator[Box]:
    """Points in the middle of a label that rises to the right at 50 degrees."""
    for at in range(0, int(label.right - label.left), 4):
        x, y = label.left + at * math.cos(ANGLE), label.bottom - 4 - at * math.sin(ANGLE)
        yield Box(x, y, x + 0.1, y + 0.1, label.what)


def on_slanted(labels: list[Box], shelves: Shelves) -> Iterator[tuple[str, str]]:
    """Slanted labels beside each other, and over what is level."""
    for one, other in zip(labels, labels[1:]):
        if one.bottom == other.bottom and (other.left - one.left) * math.sin(ANGLE) < 10:
            yield one.what, other.what
    for point in (point for label in labels for point in along(label)):
        yield from ((point.what, other.what) for other in shelves.near(point) if point.meets(other))


def found(picture: str) -> list[tuple[str, str]]:
    """All of it, and what is beyond the right edge."""
    root = ElementTree.fromstring(picture)
    words = list(texts(root))
    shelves, things = Shelves(words), Shelves([*marks(root), *lines(root)])
    over = [*on_words(words, shelves), *on_slanted(slanted(root), shelves)]
    over += [(one.what, other.what) for one in words for other in things.near(one) if one.meets(other)]
    return over + [(it.what, "the edge") for it in words if it.right > number(root, "width")]
