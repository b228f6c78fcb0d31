"""Why a line of a script is refused, as the cause table of docs/FORMATS.md has it, and what was asked before."""

from dataclasses import dataclass, field

from formats.script import OPERANDS, Line

LINKS = ("up", "down", "pump", "drop", "cut")
NODES = tuple(verb for verb in OPERANDS if verb not in (*LINKS, "node"))
VBUCKETS = ("promote", "follow", "dead", "seal", "trim", "take", "save", "done", "chain", "tick", "stat", "log", "show", "link")
APPENDING = ("promote", "follow", "dead", "save", "down")


@dataclass(frozen=True)
class Cause:
    """A cause: the verbs that it may refuse, what it says of a line, and what is so where it does not hold.

    Both may be other words for a verb. Without a denial nothing is said of it: what fails behind something that was
    done may do so before it is found out whether there are ids enough.
    """

    name: str
    verbs: tuple[str, ...]
    says: str
    denial: str = ""
    others: dict[str, tuple[str, str]] = field(default_factory=dict)

    def words(self, line: Line) -> tuple[str, str]:
        """What it says of a line, and what is so where it does not hold."""
        told = self.others.get(line.verb, (self.says, self.denial))
        return told[0].format(**line.operands), told[1].format(**line.operands)


# In the order in which they are asked.
CAUSES = (
    Cause(
        "unknown-node",
        NODES,
        "node {node} is not made",
        "node {node} is made",
        {"link": ("node {producer} or node {consumer} is not made", "node {producer} and node {consumer} are made")},
    ),
    Cause("node-exists", ("node",), "node {node} is made already"),
    Cause("node-up", ("start",), "node {node} is running", "it is down"),
    Cause(
        "node-down",
        tuple(verb for verb in NODES if verb not in ("start", "stop", "fail")),
        "node {node} is down",
        "it is running",
        {"link": ("node {producer} or node {consumer} is down", "they are running")},
    ),
    Cause(
        "unknown-vb",
        VBUCKETS,
        "node {node} has no vBucket {vb}",
        "it has vBucket {vb}",
        {"link": ("node {consumer} has no vBucket {vb}", "node {consumer} has vBucket {vb}")},
    ),
    Cause("vb-exists", ("vb",), "node {node} has vBucket {vb} already", "it has no vBucket {vb}"),
    Cause("limit", ("vb",), "node {node} has 64 vBuckets", "it has fewer than 64"),
    Cause(
        "wrong-role",
        ("promote", "follow", "dead", "chain", "tick", "link"),
        "vBucket {vb} of node {node} is not active",
        "that is active",
        {
            "promote": ("vBucket {vb} of node {node} is active", "that is not active"),
            "follow": ("vBucket {vb} of node {node} is a replica", "that is no replica"),
            "dead": ("vBucket {vb} of node {node} is dead", "that is not dead"),
            "link": ("vBucket {vb} of node {consumer} is active or dead", "that is neither active nor dead"),
        },
    ),
    Cause(
        "uuid-zero",
        ("vb", "promote", "start"),
        "no branch has the id 0",
        "the id is not 0",
        {"start": ("no branch has the id 0", "no id is 0")},
    ),
    Cause(
        "uuid-used",
        ("vb", "promote", "start"),
        "an earlier branch has the id {branch}",
        "no earlier branch has it",
        {
            "start": (
                "an earlier branch has one of the ids {branches}, or one stands twice",
                "none is that of an earlier branch or stands twice",
            )
        },
    ),
    Cause("ids-short", ("start",), "more of the vBuckets of node {node} were active than there are ids"),
    Cause("chain-bad", ("chain",), "a member is node {node} itself, or stands twice"),
    Cause(
        "link-open",
        ("client", "link"),
        "client {client} is connected to node {node} already",
        others={"link": ("link {link} is open already, or another one feeds vBucket {vb} of node {consumer}", "")},
    ),
    Cause(
        "link-closed",
        ("bytes", "pull", "hang", *LINKS),
        "link {link} is not open",
        "link {link} is open",
        {verb: ("client {client} is not connected to node {node}", "") for verb in ("bytes", "pull", "hang")},
    ),
    Cause("batch-out", ("take",), "a batch was taken or appended before, and is not done"),
    Cause(
        "nothing-taken",
        ("save", "done"),
        "no batch was taken that is not appended",
        "a batch was taken",
        {"done": ("no batch was appended that is not done", "")},
    ),
    Cause("closed", APPENDING, "an earlier append to this journal failed, so nothing is appended"),
    Cause("disk", ("vb", *APPENDING, "start"), "the disk failed"),
    Cause(
        "stopped",
        ("vb", *APPENDING, "start"),
        "the node stopped, and whether the record is there only a start can tell",
        others={"start": ("node {node} stopped again", "")},
    ),
)
# These come behind something that was done.
LATE = ("closed", "disk", "stopped")


def causes_of(line: Line) -> list[Cause]:
    """The causes that may refuse the line; a replica takes no id."""
    is_replica = line.verb == "vb" and line.operands["role"] == "replica"
    return [it for it in CAUSES if line.verb in it.verbs and not (is_replica and it.name in ("uuid-zero", "uuid-used"))]


def listed(words: list[str]) -> str:
    *first, last = words
    return f"{', '.join(first)} and {last}" if first else last


def refused_sentence(line: Line, name: str) -> str:
    """Why the line is refused, and that the causes that come before do not hold."""
    known = causes_of(line)
    at = next((at for at, it in enumerate(known) if it.name == name), None)
    if at is None:
        return f"Nothing is done: {name}."
    said = known[at].words(line)[0]
    before = [denial for it in known[:at] if (denial := it.words(line)[1])]
    if name in LATE:
        return f"{said[0].upper()}{said[1:]}. Before that nothing was against it: {listed(before)}."
    if before:
        return f"Nothing is done: {said}. No cause before it holds: {listed(before)}."
    return f"Nothing is done: {said}." + " No cause comes before it." * (len(known) > 1)
