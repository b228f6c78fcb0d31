"""Shapes of an SVG picture, as text. Coordinates are rounded, so that the same picture is the same text."""

from typing import Mapping
from xml.sax.saxutils import escape, quoteattr

# How wide letters are, in hundredths of their size, in a wide font; any other one is as wide as OTHER.
WIDTHS = {"ijl'": 28, "IJf .,:;/|": 36, "tr()-!\"[]": 44, "csxyzkvLF?": 59}
WIDTHS |= {"ABCDGHKNOPQRUVX&": 78, "mwMW%@#+=<>→": 98}
LETTERS = {letter: width for letters, width in WIDTHS.items() for letter in letters}
OTHER, BOLD = 64.5, 1.12

Attribute = str | float | None
Attributes = Mapping[str, Attribute]


def wide(words: str, size: float = 10, is_bold: bool = False) -> float:
    """How wide words are at most."""
    found = sum(LETTERS.get(letter, OTHER) for letter in words)
    return found * size / 100 * (BOLD if is_bold else 1)


def fitted(words: str, width: float, size: float = 10, is_bold: bool = False) -> str:
    """Words that are cut where they are wider."""
    if wide(words, size, is_bold) <= width:
        return words
    while words and wide(f"{words}…", size, is_bold) > width:
        words = words[:-1]
    return f"{words}…"


def wrapped(words: str, width: float, size: float, is_bold: bool) -> list[str]:
    """Words in lines of a width."""
    lines = [""]
    for word in words.split(" "):
        longer = f"{lines[-1]} {word}".lstrip()
        if wide(longer, size, is_bold) > width and lines[-1]:
            lines.append(word)
        else:
            lines[-1] = longer
    return [fitted(line, width, size, is_bold) for line in lines]


def number(value: float) -> str:
    return f"{round(value, 1):g}"


def attributes(given: Attributes) -> str:
    """Names with `-` for `_`, without one at the end; numbers rounded; None left out."""
    texts = {name.rstrip("_").replace("_", "-"): it for name, it in given.items() if it is not None}
    return "".join(f" {name}={quoteattr(it if isinstance(it, str) else number(it))}" for name, it in texts.items())


class Picture:
    """Shapes in the order in which they are drawn."""

    def __init__(self) -> None:
        self.shapes: list[str] = []

    def add(self, name: str, given: Attributes, content: str = "", tip: str = "") -> None:
        inside = (f"<title>{escape(tip)}</title>" if tip else "") + content
        self.shapes.append(f"<{name}{attributes(given)}" + (f">{inside}</{name}>" if inside else "/>"))

    def text(self, x: float, y: float, words: str, class_: str, **given: Attribute) -> None:
        self.add("text", {"x": x, "y": y, "class": class_, **given}, escape(words))

    def line(self, begin: tuple[float, float], end: tuple[float, float], **given: Attribute) -> None:
        self.add("line", {"x1": begin[0], "y1": begin[1], "x2": end[0], "y2": end[1], **given})

    def path(self, steps: str, **given: Attribute) -> None:
        self.add("path", {"d": steps, "fill": "none", **given})

    def box(self, x: float, y: float, width: float, height: float, **given: Attribute) -> None:
        self.add("rect", {"x": x, "y": y, "width": width, "height": height, **given})

    def whole(self, width: float, height: float, title: str, head: str) -> str:
        size = attributes({"width": width, "height": height, "viewBox": f"0 0 {number(width)} {number(height)}"})
        begin = f'<svg xmlns="http://www.w3.org/2000/svg"{size} role="img"><title>{escape(title)}</title>'
        ground = f'<rect width="{number(width)}" height="{number(height)}" fill="#ffffff"/>'
        return "\n".join([begin, head, ground, *self.shapes, "</svg>\n"])
