"""A transcript beside its script, followed group by group: histories, journals, and durable writes."""

from dataclasses import dataclass, field
from typing import Iterator

from formats import Complaint
from formats.disks import FAIL, STOP, Arm, Hit
from formats.histories import UNKNOWN, Histories, Link, Place, Stage, Start
from formats.journals import Journal
from formats.records import ROLE_BYTES, Roll, State
from formats.script import Line, Script
from formats.transcript import Event, Group, Transcript
from formats.writes import Writes

NEEDS_SCRIPT = "a node stops, and what it finds again can be told with the script alone"


@dataclass
class Followed:
    """What was told up to a group. Without a script there are no journals, and nobody knows what clients asked."""

    histories: Histories = field(default_factory=Histories)
    journals: dict[Place, Journal] = field(default_factory=dict)
    arms: dict[int, Arm] = field(default_factory=dict)
    writes: Writes = field(default_factory=Writes)
    hits: list[Hit] = field(default_factory=list)

    def journal(self, place: Place) -> Journal:
        return self.journals.setdefault(place, Journal())

    def arm(self, node: int) -> Arm:
        return self.arms.setdefault(node, Arm())

    def places(self, node: int) -> list[Place]:
        return sorted(place for place in self.journals if place[1] == node)

    def follow(self, group: Group, line: Line | None) -> None:
        stage = Stage(group.number)
        self.histories.stages.append(stage)
        self.hits = []
        if line:
            self.writes.before(line, group)
            self.before(stage, line, group.answer)
        for event in group.events:
            if event.kind in ("failed", "stopped"):
                self.on_hit(stage, event, line)
            self.histories.take(stage, event)
            self.writes.take(group, event, self.histories)
            if line:
                self.hand_over(stage, event, line)
                self.append_to(stage, event, line)
        if line:
            self.writes.after(line, group)
            self.check(group)

    def before(self, stage: Stage, line: Line, answer: list[str]) -> None:
        """What a line does that no event tells, or that comes in front of its events."""
        act = getattr(self, f"do_{line.verb}", None)
        if act and (answer[0] == "ok" or line.verb in ("save", "start")):
            act(stage, line, answer)

    def do_link(self, stage: Stage, line: Line, answer: list[str]) -> None:
        ends = (line["vb"], line["producer"]), (line["vb"], line["consumer"])
        self.histories.links[line["link"]] = Link(line["link"], *ends)

    def do_chain(self, stage: Stage, line: Line, answer: list[str]) -> None:
        members = f"{line['node']} {line.operands['members']}".rstrip()
        stage.chains.append(((line["vb"], line["node"]), members))

    def do_stop(self, stage: Stage, line: Line, answer: list[str]) -> None:
        self.arm(line["node"]).set(line.verb, line["call"], line.operands.get("outcome", ""))

    do_fail = do_stop

    def do_crash(self, stage: Stage, line: Line, answer: list[str]) -> None:
        self.arm(line["node"]).set("", 0)
        self.stop(stage, line["node"], None, line.operands["outcome"])

    def do_done(self, stage: Stage, line: Line, answer: list[str]) -> None:
        self.journal((line["vb"], line["node"])).done(line.number)

    def do_save(self, stage: Stage, line: Line, answer: list[str]) -> None:
        place = line["vb"], line["node"]
        if answer[-1] in ("ok", "disk", "stopped"):
            batch = self.journal(place).batch
            if self.noted(stage, place, self.journal(place).save(line.number, self.arm(line["node"]))):
                stage.written[place] = batch.at
        elif answer[-1] == "closed":
            self.journal(place).batch = None

    def do_start(self, stage: Stage, line: Line, answer: list[str]) -> None:
        node = line["node"]
        if answer[-1] not in ("ok", "disk", "stopped", "ids-short"):
            return
        for place in self.places(node):
            hit = self.arm(node).hits(0)
            if hit:
                self.hits.append(hit)
                break
        if self.hits or answer[-1] == "ids-short":
            why = answer[-1] if not self.hits else "stops" if self.hits[0].kind == STOP else "disk"
            stage.starts += [Start(it, self.histories.holdings[it].position, why) for it in self.places(node)]
            return
        for place in self.places(node):
            self.journal(place).read(line.number)
            self.histories.start(stage, place)

    def noted(self, stage: Stage, place: Place, hit: Hit | None) -> bool:
        """Whether an append came to its end; notes it where it was hit."""
        if hit:
            self.hits.append(hit)
            if hit.kind == FAIL:
                stage.failed.append((place, hit.call))
        return hit is None

    def hand_over(self, stage: Stage, event: Event, line: Line) -> None:
        """A role that a link's line changes: a state brings it, or its vBucket is given up."""
        if event.kind != "role" or line.verb not in ("down", "pump"):
            return
        if event.role != "pending":
            stage.handed.append((event.vb, event.node))
        link = self.histories.link(line["link"])
        if line.verb == "down" and link not in stage.carried:
            stage.carried.append(link)

    def append_to(self, stage: Stage, event: Event, line: Line) -> None:
        """What an event lets its vBucket append to its journal, or take for a batch; giving up is written nowhere."""
        is_told = event.kind in ("role", "branch", "rolled", "batch", "change", "got")
        if not is_told or (event.kind, line.verb) == ("role", "pump"):
            return
        place = event.vb, event.node
        journal, holding, arm = self.journal(place), self.histories.holdings[place], self.arm(event.node)
        is_state = event.kind == "role" and event.role in ROLE_BYTES or event.kind == "branch" and line.verb == "start"
        if is_state and not journal.is_closed:
            role = event.role if event.kind == "role" else "active"
            self.noted(stage, place, journal.append(stage.number, State(role, list(holding.log)), arm))
        elif event.kind == "rolled":
            self.noted(stage, place, journal.roll(stage.number, Roll(event.to, event.named), arm))
            stage.written[place] = journal.loaded().position.at
        elif event.kind == "batch":
            journal.take(event, holding)
        elif event.kind in ("change", "got"):
            journal.cas = max(journal.cas, vars(event).get("cas", 0))

    def on_hit(self, stage: Stage, event: Event, line: Line | None) -> None:
        """A device call is told as hit. In a `down` it is one of a rollback, which has no line of its own then, where
        no vBucket took over in front of it."""
        if line is None:
            if event.kind == "stopped":
                raise Complaint(f"group #{stage.number}: {NEEDS_SCRIPT}")
            return
        if line.verb == "down" and not self.hits:
            link = self.histories.link(line["link"])
            if link.consumer == UNKNOWN or link.sent_back is None:
                raise Complaint(f"group #{stage.number}: a device call is told as hit, and nothing was to be appended")
            journal = self.journal(link.consumer)
            record = Roll(journal.back(link.sent_back), link.sent_back)
            self.noted(stage, link.consumer, journal.roll(stage.number, record, self.arm(event.node)))
        if event.kind == "stopped":
            if not self.hits or self.hits[-1].kind != STOP:
                raise Complaint(f"group #{stage.number}: a node stops inside a device call where none is to be hit")
            self.stop(stage, event.node, self.hits[-1].call, self.hits[-1].outcome)

    def stop(self, stage: Stage, node: int, call: int | None, outcome: str) -> None:
        """All disks of a node have what the outcome leaves, and its memory is lost."""
        for place in self.places(node):
            stands = self.journals[place].crash(outcome)
            self.histories.stop(stage, place, self.journals[place].loaded(), (call, outcome, stands))

    def check(self, group: Group) -> None:
        """That calls are told as hit where the script has them hit."""
        told = [event.kind for event in group.events if event.kind in ("failed", "stopped")]
        hit = ["failed" if it.kind == FAIL else "stopped" for it in self.hits]
        if told != hit:
            words = ["nothing" if not them else " and ".join(them) for them in (told, hit)]
            raise Complaint(f"group #{group.number}: {words[0]} is told of device calls, where it is {words[1]}")


def steps(told: Transcript, played: Script | None = None) -> Iterator[tuple[Group, Followed]]:
    """Each group with what was told up to it."""
    followed = Followed()
    for group in told.groups:
        followed.follow(group, played.lines[group.number] if played else None)
        yield group, followed


def of(told: Transcript, played: Script | None = None) -> Followed:
    followed = Followed()
    for _, followed in steps(told, played):
        pass
    return followed


def journal_of(told: Transcript, played: Script, place: Place) -> Journal:
    followed = of(told, played)
    if place not in followed.journals:
        raise Complaint(f"node {place[1]} has no vBucket {place[0]}")
    return followed.journals[place]
