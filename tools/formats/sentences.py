"""One sentence for each line of a script and of a transcript."""

from formats.causes import refused_sentence
from formats.dissect import shown
from formats.script import Line
from formats.transcript import Connection, Event
from formats.wire import LEVELS, NO_END, REASONS, STATUSES, Log, name_of

LINES = {
    "node": "Node {node} is to be made.",
    "clock": "The clock of node {node} is to stand at {time} ns.",
    "client": "Client {client} is to connect to node {node}.",
    "bytes": "Client {client} sends to node {node}:",
    "pull": "Client {client} of node {node} is to be sent {count} frames of its streams.",
    "hang": "Client {client} is to leave node {node}.",
    "up": "At most {count} bytes of link {link} are to reach its producer.",
    "down": "At most {count} bytes of link {link} are to reach its consumer.",
    "pump": "The producer of link {link} is to put {count} frames.",
    "drop": "The cursor of the stream of link {link} is to be taken away.",
    "cut": "Link {link} is to be cut.",
    "promote": "vBucket {vb} of node {node} is to become active, on branch {branch}.",
    "follow": "vBucket {vb} of node {node} is to become a replica.",
    "dead": "vBucket {vb} of node {node} is to be dead.",
    "tick": "The prepares of vBucket {vb} of node {node} whose deadlines are over are to be given up.",
    "seal": "The open span of vBucket {vb} of node {node} is to end.",
    "trim": "The ended spans of vBucket {vb} of node {node} that nobody needs any more are to be given up.",
    "take": "What vBucket {vb} of node {node} has not written down is to be taken, up to a span's end.",
    "save": "The batch of vBucket {vb} of node {node} is to be appended to its journal.",
    "done": "vBucket {vb} of node {node} is to be told that its batch is saved.",
    "stop": "Node {node} is to stop inside its device call {call} from now on, and to keep {outcome}.",
    "fail": "The device call {call} of node {node} from now on is to fail.",
    "crash": "Node {node} is to stop now, and to keep {outcome}.",
    "log": "vBucket {vb} of node {node} is to show its failover log.",
    "show": "vBucket {vb} of node {node} is to show itself.",
    "stat": "vBucket {vb} of node {node} is to tell its numbers.",
}
ENDS = {
    "cut": "it is cut, and the bytes on their way are lost",
    "refused": "its producer refused",
    "protocol": "one end sent what the other cannot take",
    "disk": "its vBucket could not write down that it goes back, or that it took over",
    "done": "its stream came to its end, and its vBucket has taken over",
    "state": "its stream was ended, as the producer's vBucket changed its role",
}
ROLES = {
    "active": "is active now, and takes writes",
    "replica": "is a replica now",
    "pending": "is pending now, and waits to take over",
    "dead": "is dead now",
}


def counted(count: int, one: str, more: str) -> str:
    return f"{count} {one if count == 1 else more}"


def kept(outcome: str) -> str:
    """What a crash leaves of what was written and not synced."""
    if outcome.startswith("fill "):
        return f"the byte {outcome[5:]} for each byte that was not synced"
    return f"the {outcome} bytes of what was not synced"


def start_sentence(line: Line) -> str:
    ids = line.operands["branches"].split()
    given = f", with the {'ids' if len(ids) > 1 else 'id'} {', '.join(ids)} for new branches" if ids else ""
    return f"Node {line['node']} is to start{given}."


def chain_sentence(line: Line) -> str:
    members = ["a member that is not set" if it == "-" else f"node {it}" for it in line.operands["members"].split()]
    chain = ", ".join([f"node {line['node']}", *members])
    return f"vBucket {line['vb']} of node {line['node']} is to have a chain: {chain}."


def link_sentence(line: Line) -> str:
    buffer = f", with a buffer of {counted(line['buffer'], 'byte', 'bytes')}" if line["buffer"] else ""
    act = "take over" if line.operands["mode"] == "takeover" else "follow"
    ends = f"Node {line['consumer']} is to {act} vBucket {line['vb']} of node {line['producer']}"
    return f"{ends}, {'by' if act == 'take over' else 'over'} link {line['link']}{buffer}."


def line_sentence(line: Line) -> str:
    if line.verb == "vb":
        what = f"active on branch {line['branch']}" if line.operands["role"] == "active" else "an empty replica"
        return f"Node {line['node']} is to have vBucket {line['vb']}, {what}."
    if line.verb == "link":
        return link_sentence(line)
    if line.verb == "start":
        return start_sentence(line)
    if line.verb == "chain":
        return chain_sentence(line)
    if line.operands.get("call") == "0":
        return f"No device call of node {line['node']} is to be hit any more."
    operands = line.operands | {"outcome": kept(line.operands.get("outcome", ""))}
    return LINES[line.verb].format(**operands)


def answer_sentence(line: Line, answer: list[str]) -> str:
    match answer:
        case ["no", cause]:
            return refused_sentence(line, cause)
        case ["ok", moved] if line.verb in ("up", "down"):
            return f"{counted(int(moved), 'byte was', 'bytes were')} moved."
        case ["ok", "1"] if line.verb == "seal":
            return "There was an open span."
        case ["ok", "0"] if line.verb == "seal":
            return "There was no open span."
        case ["ok", "0"] if line.verb == "trim":
            return "No span was given up."
        case ["ok", count] if line.verb == "trim":
            return f"{counted(int(count), 'span was', 'spans were')} given up."
        case ["ok", "1"] if line.verb == "drop":
            return "The stream had a cursor."
        case ["ok", "0"] if line.verb == "drop":
            return "There was no cursor."
        case ["ok", "0"] if line.verb == "take":
            return "There was nothing to take."
        case ["ok", count] if line.verb == "take":
            return f"{counted(int(count), 'change was', 'changes were')} taken."
        case ["ok", saved] if line.verb == "done":
            return f"All up to {saved} is saved."
        case ["ok", count, "idle"]:
            return f"{counted(int(count), 'frame was', 'frames were')} put, and there is no more to put now."
        case ["ok", count, "full"]:
            return f"{counted(int(count), 'frame was', 'frames were')} put, and the window is shut."
        case ["ok", count, "wait-state"]:
            return f"{counted(int(count), 'frame was', 'frames were')} put, and a state is to be answered first."
        case ["ok", count, "wait-saved"]:
            put = counted(int(count), "frame was", "frames were")
            return f"{put} put, and what comes next is in the journal alone."
        case ["ok", count, "disk"]:
            put = counted(int(count), "frame was", "frames were")
            return f"{put} put, and the journal that has what comes next can't be read."
        case ["ok", count, "-"]:
            return f"{counted(int(count), 'frame was', 'frames were')} put."
    return ""


def log_phrase(log: Log) -> str:
    entries = [f"branch {branch} from {seqno} on" for branch, seqno in log]
    return f"a failover log with {', '.join(entries)}" if entries else "an empty failover log"


def details(event: Event) -> str:
    """A change's or a document's CAS and revision, and what else it has that is not 0."""
    parts = [f"CAS {event.cas}", f"revision {event.revision}"]
    parts += [f"{name} {vars(event)[name]}" for name in ("flags", "expiration") if vars(event).get(name)]
    parts += ["JSON"] if vars(event).get("datatype") == 1 else []
    return ", ".join(parts)


def put_phrase(event: Event) -> str:
    """What a prepare or a commit puts in the place of its key's document."""
    return "a removal" if event.deleted else shown(event.value)


def change_phrase(event: Event) -> str:
    key = shown(event.key)
    match event.act:
        case "set":
            return f"{key} is set to {shown(event.value)} ({details(event)})"
        case "remove":
            return f"{key} is removed ({details(event)})"
        case "prepare":
            return f"{key} is prepared as {put_phrase(event)}, {LEVELS.get(event.level)} ({details(event)})"
        case "commit":
            return f"{key}, prepared at {event.prepared}, is committed as {put_phrase(event)} ({details(event)})"
    return f"{key}, prepared at {event.prepared}, is aborted"


def item_phrase(event: Event) -> str:
    did = {"set": "set", "remove": "removed", "prepare": "prepared", "commit": "committed", "abort": "aborted"}
    return f"{shown(event.key)} is {did[event.act]}"


def branch_sentence(event: Event, owner: str) -> str:
    made = f"Branch {event.branch} begins at {owner}"
    if event.parent is None:
        return f"{made}, from nothing."
    if event.high > event.fork:
        changes = f"its changes above {event.fork}, up to {event.high}, are the new branch's own"
        return f"{made}: it leaves branch {event.parent} at {event.fork}, and {changes}."
    return f"{made}: it leaves branch {event.parent} at {event.fork}."


def ask_sentence(event: Event, owner: str) -> str:
    end = "without end" if event.end == NO_END else f"to {event.end}"
    branch = f"branch {event.branch}" if event.branch else "any branch"
    who = f"Link {event.stream}" if isinstance(event.stream, int) else f"Client {event.stream[1]}"
    asked = f"{who} asks {owner} for {branch} from {event.start} on, {end}"
    if event.snap_start != event.snap_end:
        asked += f", being inside the snapshot {event.snap_start} to {event.snap_end}"
    match event.answer:
        case "go":
            return f"{asked}: granted."
        case "roll":
            return f"{asked}: sent back to {event.to}, as it has {log_phrase(event.log)}, and is at {event.high}."
    return f"{asked}: refused, {name_of(event.status, STATUSES)}."


def carrier(stream: Connection) -> str:
    """Whom a frame of a stream is for, and that it is sent."""
    return f"Link {stream} carries" if isinstance(stream, int) else f"Client {stream[1]} of node {stream[0]} is sent"


def stream_sentence(event: Event) -> str | None:
    match event.kind:
        case "mark":
            return f"{carrier(event.stream)} a snapshot from {event.start} to {event.end}."
        case "item":
            return f"{carrier(event.stream)} change {event.seqno}: {item_phrase(event)}."
        case "fin" if isinstance(event.stream, int) and event.reason == 0:
            return f"{carrier(event.stream)} its stream's end: the vBucket at its end has taken over."
        case "fin":
            whose = "its" if isinstance(event.stream, int) else "a"
            return f"{carrier(event.stream)} {whose} stream's end: {REASONS.get(event.reason, event.reason)}."
        case "state":
            role = "a replica" if event.role == "replica" else event.role
            return f"{carrier(event.stream)} a state: the vBucket at its end is to be {role}."
        case "end":
            return f"Link {event.link} ends: {ENDS.get(event.why, event.why)}."
    return None


def handing_over(line: Line, event: Event) -> list[str]:
    """What a change of role is in a line that names none: a vBucket is given up, or taken over."""
    match event.kind, line.verb:
        case "role", "pump":
            return ["It is given up: nobody takes writes on its branch until the link's other end takes over."]
        case "role", "down" if event.role == "active":
            return ["It takes over, on the branch that it followed, and its chain is its node alone."]
    return []


def vbucket_sentence(event: Event) -> str:
    owner = f"vBucket {event.vb} of node {event.node}"
    match event.kind:
        case "branch":
            return branch_sentence(event, owner)
        case "role":
            return f"{owner} {ROLES.get(event.role, 'is ' + event.role)}."
        case "change":
            return f"{owner} makes change {event.seqno} on branch {event.branch}: {change_phrase(event)}."
        case "ask":
            return ask_sentence(event, owner)
        case "adopt":
            return f"{owner} takes over {log_phrase(event.log)}."
        case "range":
            return f"{owner} enters the snapshot from {event.start} to {event.end}."
        case "got":
            return f"{owner} takes change {event.seqno} of link {event.link}: {change_phrase(event)}."
        case "rolled":
            return f"{owner}, sent back to {event.named}, goes back to {event.to}."
        case "ack":
            return f"{owner} acknowledges {event.seqno} on link {event.link}; its disk has all up to {event.saved}."
        case "acked":
            return f"{owner} counts that node {event.member} holds all up to {event.seqno}, by link {event.link}."
        case "batch":
            return batch_sentence(event, owner)
        case "logged":
            return f"{owner} has {log_phrase(event.log)}."
        case "stat":
            return stat_sentence(event, owner)
    return shown_sentence(event, owner)


def batch_sentence(event: Event, owner: str) -> str:
    of = f", inside the snapshot {event.start} to {event.end}" if event.at != event.end else ""
    return f"{owner} is taken up to {event.at}{of}: {counted(event.count, 'change', 'changes')}."


def stat_sentence(event: Event, owner: str) -> str:
    holds = f"{counted(event.items, 'change', 'changes')} in {counted(event.checkpoints, 'span', 'spans')}"
    cursors = counted(event.cursors, "cursor", "cursors")
    return f"{owner} has {holds}, {cursors}, is saved up to {event.saved}, and is at {event.high}."


def shown_sentence(event: Event, owner: str) -> str:
    whole = "complete" if event.at == event.end else f"inside the snapshot {event.start} to {event.end}"
    prepares = f" and {counted(event.preps, 'prepare', 'prepares')}" if event.preps else ""
    role = "a replica" if event.role == "replica" else event.role
    branch = f" on branch {event.branch}" if event.branch else ""
    documents = counted(event.docs, "document", "documents")
    return f"{owner} is {role}{branch}, at {event.at} ({whole}), with {documents}{prepares}."


def event_sentence(event: Event) -> str:
    match event.kind:
        case "reply":
            does = "answers" if event.is_answer else "sends"
            return f"Node {event.node} {does} client {event.client}:"
        case "closed":
            return f"Node {event.node} closes the connection of client {event.client}."
        case "failed":
            return f"A device call of node {event.node} fails."
        case "stopped":
            return f"Node {event.node} stops inside a device call."
        case "doc":
            return f"{shown(event.key)} is {shown(event.value)} ({details(event)})."
        case "prep":
            return f"{shown(event.key)} is prepared at {event.seqno}, {LEVELS.get(event.level, event.level)}."
    return stream_sentence(event) or vbucket_sentence(event)
