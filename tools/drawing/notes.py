"""What stands in words above and below the lane of a vBucket, column by column."""

from dataclasses import dataclass

from drawing.marks import GO, GREY, INK, LOST, NONE, View, short
from formats.disks import bytes_left
from formats.histories import Link, Place, Stage, Start, Stop
from formats.sentences import counted
from formats.transcript import Event
from formats.wire import STATUSES, name_of

BAD_ENDS = ("cut", "protocol", "refused", "disk")


@dataclass(frozen=True)
class Note:
    words: str
    colour: str = INK
    is_bold: bool = False


def bold(words: str, colour: str = INK) -> Note:
    return Note(words, colour, True)


class Notes:
    """The lines above a lane, of which the last is next to it, and those below, of which the first is."""

    def __init__(self, view: View):
        self.view = view

    def above(self, place: Place, stage: Stage) -> list[Note]:
        notes = self.arriving(place, stage, True) + self.counting(place, stage, True)
        for start in (it for it in stage.starts if it.place == place):
            notes += self.starting(start)
        notes += self.roles(place, stage)
        for members in (members for at, members in stage.chains if at == place):
            notes.append(bold(f"chain {members}, majority {len(members.split()) // 2 + 1}"))
        for event in (event for at, _, event in stage.rolled if at == place):
            notes.append(bold(f"sent to {event.named}, goes to {event.to}", LOST))
        for call in (call for at, call in stage.failed if at == place):
            notes += [bold(f"call {call} of the append fails", LOST), Note("its journal is closed", LOST)]
        for stop in (it for it in stage.stops if it.place == place):
            notes += self.stopping(stop)
        return notes

    def roles(self, place: Place, stage: Stage) -> list[Note]:
        """A role that it takes, or goes on with on a new branch."""
        fork = next((it for it in stage.forks if (it.vb, it.node) == place), None)
        names = [role for at, role in stage.roles if at == place] or (["active"] if fork else [])
        colour = self.view.colour(stage.positions[place].branch) if names else INK
        on = f" on {short(fork.id)}, from {fork.fork}" if fork else ""
        on += ": takes over" if "active" in names and place in stage.handed else ""
        on += ": gives up" if "dead" in names and place in stage.handed else ""
        return [bold(name + on, INK if colour == NONE else colour) for name in names]

    def stopping(self, stop: Stop) -> list[Note]:
        """How a node stops, what of its bytes is left, whether its record is there, and which changes are gone."""
        where = "crash" if stop.call is None else f"stops in call {stop.call}" if stop.call else "stops"
        is_broken = stop.stands is not None
        notes = [bold(f"{where} of the append" if is_broken and stop.call else where, LOST)]
        notes += [Note(f"leaves {bytes_left(stop.outcome)}", LOST)] * is_broken
        record = {True: "record there: ", False: "no record: ", None: ""}[stop.stands]
        return [*notes, bold(record + self.gone(stop), LOST)]

    def gone(self, stop: Stop) -> str:
        """What was in memory alone."""
        before, disk = stop.before, stop.disk
        if not disk.role:
            return "nothing is left"
        if before.at > disk.at:
            return f"{before.at} is gone" if before.at == disk.at + 1 else f"{disk.at + 1} to {before.at} are gone"
        if before.branch != disk.branch:
            return f"branch {short(before.branch)} is gone"
        return "nothing is gone" if before.role == disk.role else f"it is {disk.role} again"

    def starting(self, start: Start) -> list[Note]:
        if start.why:
            whys = {"stops": "it stops as it opens a disk", "disk": "a disk is not opened", "ids-short": "too few ids"}
            return [bold("stays down", LOST), Note(whys[start.why], LOST)]
        if not start.found.role:
            return [bold("starts, finds nothing")]
        fork = "" if start.found.role == "active" else f", {start.found.role}"
        return [bold(f"starts, finds {start.found.at}{fork}")]

    def arriving(self, place: Place, stage: Stage, is_above: bool) -> list[Note]:
        """What arrives over links at a consumer, and what it acknowledges, at the side of the producer."""
        notes = []
        links = {it.number: it for it in [*stage.carried, *(link for link, _ in stage.acks)] if it.consumer == place}
        for link in links.values():
            if (link.producer < link.consumer) == is_above:
                seqnos = [str(event.seqno) for it, event in stage.acks if it is link]
                acks = f", acks {' '.join(seqnos)}" if seqnos else ""
                notes.append(bold(f"{link.name}{acks}", GO if seqnos else GREY))
        return notes

    def counting(self, place: Place, stage: Stage, is_above: bool) -> list[Note]:
        """What an active vBucket counts as acknowledged, at the side of the replica."""
        last = {event.member: (link, event) for link, event in stage.counted if link.producer == place}
        return [
            bold(f"node {member} has up to {event.seqno}", GO)
            for member, (link, event) in last.items()
            if (link.consumer < link.producer) == is_above
        ]

    def below(self, place: Place, stage: Stage) -> list[Note]:
        notes = []
        for link, event in (it for it in stage.asked if it[0].producer == place):
            notes += self.asking(link, event)
        notes += self.counting(place, stage, False) + self.arriving(place, stage, False)
        notes += self.sending(place, stage)
        for link, event in (it for it in stage.ended if it[0].consumer == place):
            colour = LOST if event.why in BAD_ENDS else GREY
            notes.append(bold(f"× {link.name} ends: {event.why}", colour))
            if link.underway:
                notes.append(Note(f"{counted(len(link.underway), 'change', 'changes')} not arrived", colour))
            if link.acks:
                notes.append(Note(f"ack {link.acks[-1]} not arrived", colour))
        return notes

    def asking(self, link: Link, event: Event) -> list[Note]:
        branch = f" on {short(event.branch)}" if event.branch else ""
        asked = Note(f"{link.name} from {event.start}{branch}", GREY)
        match event.answer:
            case "go":
                return [asked, bold("go on", GO)]
            case "roll":
                return [asked, bold(f"back to {event.to}", LOST)]
        return [asked, bold(name_of(event.status, STATUSES), LOST)]

    def sending(self, place: Place, stage: Stage) -> list[Note]:
        """What producers send: snapshots by their ends, or how many more changes, states, and the stream's end."""
        notes = []
        for link in {id(link): link for link, _ in stage.put if link.producer == place}.values():
            events = [event for it, event in stage.put if it is link]
            marks = [f"{event.start}–{event.end}" for event in events if event.kind == "mark"]
            count = sum(event.kind == "item" for event in events)
            words = [short(" ".join(marks), 18)] if marks else [f"{count} more"] * bool(count)
            words += [event.role for event in events if event.kind == "state"]
            words += ["end"] * any(event.kind == "fin" for event in events)
            notes.append(Note(f"{link.name} sends {' '.join(words)}", GREY))
        return notes
