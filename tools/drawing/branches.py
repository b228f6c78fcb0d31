"""The upper part of a picture: the branches of a vBucket number, by seqno."""

from drawing.marks import INK, LEFT, LOST, WIDTH, Scale, View, change_label, fill, short
from drawing.svg import Attributes, Picture, fitted
from formats.histories import Branch
from formats.transcript import Event

# A row's height, how wide what stands behind a line is, and the least step at which changes have labels.
ROW, BEHIND, LABELLED = 48, 390, 30


def last_of(branch: Branch) -> int:
    return max([branch.fork, *branch.changes])


class Branches:
    """A line for each branch, in the order in which they were made."""

    def __init__(self, view: View, top: float):
        self.view, self.top = view, top
        self.last = max(map(last_of, view.branches.values()), default=0)
        self.x = Scale(LEFT + 24, min(64, (WIDTH - LEFT - 24 - BEHIND) / max(self.last, 1)))
        self.rows = {branch: top + 36 + ROW * i for i, branch in enumerate(view.branches)}
        self.bottom = top + 16 + ROW * len(self.rows)

    def draw(self, picture: Picture) -> None:
        self.draw_axis(picture)
        for branch in self.view.branches.values():
            self.draw_line(picture, branch)
        for branch in self.view.branches.values():
            for change in branch.changes.values():
                if change.act in ("commit", "abort"):
                    self.draw_join(picture, branch, change)
        for branch in self.view.branches.values():
            self.draw_changes(picture, branch)

    def draw_axis(self, picture: Picture) -> None:
        every = max(1, round(28 / self.x.step))
        for seqno in range(0, self.last + 1, every):
            x = self.x(seqno)
            picture.line((x, self.top + 12), (x, self.bottom), class_="grid")
            picture.text(x, self.top + 8, str(seqno), "note", text_anchor="middle")
        picture.text(12, self.top + 8, "seqno", "note")

    def draw_line(self, picture: Picture, branch: Branch) -> None:
        y, colour = self.rows[branch.id], self.view.colour(branch.id)
        begin, end = self.x(branch.fork), self.x(last_of(branch)) + 14
        root = self.root(branch)
        if root is not None:
            above, bend = self.rows[root], min(26, self.x.step * 0.8)
            curve = f"M{begin:.1f} {above} C{begin + bend / 2:.1f} {above} {begin:.1f} {y} {begin + bend:.1f} {y}"
            picture.path(curve, stroke=colour, stroke_width=2.5)
            place: Attributes = {"cx": begin, "cy": above, "r": 3, "fill": "#ffffff"}
            picture.add("circle", {**place, "stroke": colour, "stroke-width": 2})
            begin, end = begin + bend, max(end, begin + bend)
        picture.line((begin, y), (end, y), stroke=colour, stroke_width=2.5)
        picture.text(12, y + 4, fitted(f"branch {branch.id}", LEFT - 12, 12, True), "name", style=fill(colour))
        behind = self.x(self.last) + 30
        picture.text(behind, y + 4, fitted(self.told(branch), WIDTH - 12 - behind, 11), "note")

    def root(self, branch: Branch) -> int | None:
        """The branch on whose line the fork is: an earlier one than the parent, where that begins there or above."""
        root = branch.parent
        while root is not None:
            it = self.view.branches[root]
            if it.fork < branch.fork or it.parent is None:
                break
            root = it.parent
        return root

    def told(self, branch: Branch) -> str:
        """Where the branch was made, what it left, and which nodes are on it at the end."""
        holdings = self.view.histories.holdings
        nodes = [str(node) for vb, node in self.view.places if holdings[vb, node].position.branch == branch.id]
        on = f"node{'s' * (len(nodes) > 1)} {', '.join(nodes)}" if nodes else "no node"
        left = "" if branch.parent is None else f", leaves {short(branch.parent)} at {branch.fork}"
        return f"#{branch.group}, node {branch.node}{left}; at the end: {on}"

    def draw_join(self, picture: Picture, branch: Branch, change: Event) -> None:
        """An arc from a prepare to what settles it, below the line; from another branch's line it comes down."""
        maker = branch.id if change.prepared in branch.changes else self.maker(branch, change.prepared)
        if maker is None:
            return
        begin, above = self.x(change.prepared), self.rows[maker] + 7
        end, y = self.x(change.seqno), self.rows[branch.id] + 7
        deep = y + min(16, 6 + (end - begin) / 16)
        middle = f"{begin:.1f} {deep:.1f} {end:.1f} {deep:.1f}"
        dash = "3 2" if change.act == "abort" else None
        steps = f"M{begin:.1f} {above:.1f} C{middle} {end:.1f} {y:.1f}"
        picture.path(steps, stroke=INK, stroke_width=1.2, stroke_dasharray=dash)

    def maker(self, branch: Branch, seqno: int) -> int | None:
        """The line above a branch that has a seqno."""
        while branch.parent is not None:
            branch = self.view.branches[branch.parent]
            if seqno in branch.changes:
                return branch.id
        return None

    def draw_changes(self, picture: Picture, branch: Branch) -> None:
        y = self.rows[branch.id]
        for seqno, change in sorted(branch.changes.items()):
            mark = self.view.mark(branch.id, change, seqno not in branch.taken_over)
            mark.draw(picture, self.x(seqno), y)
            if self.x.step >= LABELLED:
                style = fill(LOST) if mark.is_lost else None
                picture.text(self.x(seqno), y - 11, self.label(change), "small halo", text_anchor="middle", style=style)

    def label(self, change: Event) -> str:
        """What a change does, cut where it is too wide; what an arc tells too is left out then."""
        words = change_label(change, 14)
        cut = fitted(words, self.x.step - 3)
        return "" if cut != words and change.act in ("commit", "abort") else cut
