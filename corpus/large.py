#!/usr/bin/env python3
"""Scripts that are too large to be stored, and their transcripts, both made from words alone.

  large.py                  a line for each case: its name, a colon, and what it is for
  large.py script NAME      the script
  large.py wanted NAME      the transcript that the program has to write
"""

import sys
from typing import Callable, Iterator

Case = tuple[Callable[[], Iterator[str]], Callable[[], Iterator[str]]]

VALUE_LIMIT = 20_971_520
SET_OPCODE = 0x01
SUCCESS, E2BIG, EINVAL = 0x0000, 0x0003, 0x0004


def set_frame(key: bytes, value: bytes, opaque: int, vb: int = 0) -> str:
    body = bytes(8) + key + value
    header = bytes([0x80, SET_OPCODE]) + len(key).to_bytes(2, "big") + bytes([8, 0]) + vb.to_bytes(2, "big")
    return (header + len(body).to_bytes(4, "big") + opaque.to_bytes(4, "big") + bytes(8) + body).hex()


def answer(status: int, opaque: int, cas: int) -> str:
    header = bytes([0x81, SET_OPCODE, 0, 0, 0, 0]) + status.to_bytes(2, "big")
    return (header + bytes(4) + opaque.to_bytes(4, "big") + cas.to_bytes(8, "big")).hex()


def sets(keys: list[bytes]) -> Iterator[str]:
    for opaque, key in enumerate(keys, 1):
        yield f"bytes 0 1 {set_frame(key, b'1', opaque)}"


def groups(bodies: Iterator[str]) -> Iterator[str]:
    """Numbers the groups of a script without comments and empty lines."""
    for number, body in enumerate(bodies, 1):
        yield f"#{number}\n{body}"


def joined(*parts: Iterator[str] | list[str]) -> Iterator[str]:
    for part in parts:
        yield from part


def made(key: bytes, value: bytes, seqno: int, cas: int, rev: int) -> str:
    return f"{seqno} set {key.hex()} {cas} {rev} 0 0 0 {value.hex()}"


ONE_NODE = ["node 0", "vb 0 0 active 11", "client 0 1"]
ONE_NODE_TOLD = ["ok", "branch 0 0 11 - 0 0\nrole 0 0 active\nok", "ok"]

# A checkpoint holds at most 1,000 changes: of 1,001 keys the last one stands in a checkpoint of its own.
KEYS = [b"%04d" % i for i in range(1001)]


def checkpoint_script() -> Iterator[str]:
    replica = ["node 1", "vb 1 0 replica"]
    link = ["link 1 0 1 0 0 follow", "up 1 1000", "down 1 1000", "pump 1 1000000", "down 1 1000000"]
    return joined(ONE_NODE, replica, sets(KEYS), link)


def checkpoint_wanted() -> Iterator[str]:
    changes = [made(key, b"1", i, i, 1) for i, key in enumerate(KEYS, 1)]
    written = [f"change 0 0 11 {change}\nreply 0 1 {answer(SUCCESS, i, i)}\nok" for i, change in enumerate(changes, 1)]
    asked = "ask L1 0 0 0 0 18446744073709551615 0 0 0 1001 11:0 go\nok 191"
    items = [f"item L1 {i} set {key.hex()}" for i, key in enumerate(KEYS, 1)]
    put = ["mark L1 0 1000 1", *items[:1000], "mark L1 1000 1001 1", *items[1000:], "ok 1003 idle"]
    got = [f"got 1 0 L1 {change}" for change in changes]
    taken = ["range 1 0 0 1000", *got[:1000], "range 1 0 1000 1001", *got[1000:], f"ok {2 * 44 + 1001 * 60}"]
    link = ["ok", asked, "adopt 1 0 11:0\nok 112", "\n".join(put), "\n".join(taken)]
    return groups(joined(ONE_NODE_TOLD, ["ok", "role 1 0 replica\nok"], written, link))


# A value has at most 20 MiB. One byte more is E2big, which comes before NotMyVbucket and behind Einval.
def value_frames() -> Iterator[str]:
    too_long = b"v" * (VALUE_LIMIT + 1)
    yield set_frame(b"a", too_long, 1)
    yield set_frame(b"a", too_long, 2, vb=5)
    yield set_frame(b"", too_long, 3)
    yield set_frame(b"a", too_long[1:], 4)


def value_script() -> Iterator[str]:
    return joined(ONE_NODE, (f"bytes 0 1 {frame}" for frame in value_frames()))


def value_wanted() -> Iterator[str]:
    refused = [f"reply 0 1 {answer(status, i, 0)}\nok" for i, status in enumerate((E2BIG, E2BIG, EINVAL), 1)]
    stored = f"change 0 0 11 {made(b'a', b'v' * VALUE_LIMIT, 1, 1, 1)}\nreply 0 1 {answer(SUCCESS, 4, 1)}\nok"
    return groups(joined(ONE_NODE_TOLD, refused, [stored]))


# A checkpoint weighs at most 33,554,432: 64 for each change, and the lengths of its key and its value. Two changes
# weigh just as much. With the second one's value a byte longer they do not, so that one begins a new checkpoint.
HALF = 33_554_432 // 2 - 64 - 1
WEIGHTS = [(b"a", HALF, 1), (b"b", HALF, 1), (b"b", HALF + 1, 2)]


def weight_script() -> Iterator[str]:
    replica = ["node 1", "vb 1 0 replica"]
    writes = (f"bytes 0 1 {set_frame(key, b'v' * size, i)}" for i, (key, size, _) in enumerate(WEIGHTS, 1))
    return joined(ONE_NODE, replica, writes, ["link 1 0 1 0 0 follow", "up 1 1000", "pump 1 100"])


def weight_wanted() -> Iterator[str]:
    def written() -> Iterator[str]:
        for i, (key, size, rev) in enumerate(WEIGHTS, 1):
            yield f"change 0 0 11 {made(key, b'v' * size, i, i, rev)}\nreply 0 1 {answer(SUCCESS, i, i)}\nok"

    asked = "ask L1 0 0 0 0 18446744073709551615 0 0 0 3 11:0 go\nok 191"
    first = "mark L1 0 2 1\nitem L1 1 set 61\nitem L1 2 set 62"
    put = f"{first}\nmark L1 2 3 1\nitem L1 3 set 62\nok 5 idle"
    return groups(joined(ONE_NODE_TOLD, ["ok", "role 1 0 replica\nok"], written(), ["ok", asked, put]))


# The clock at its last number gives the CAS 2^64 - 2^16. It rises by one a write, and stays at 2^64 - 1.
CAS_WRITES = 2**16 + 2


def cas_script() -> Iterator[str]:
    return joined(ONE_NODE, [f"clock 0 {2**64 - 1}"], sets([b"a"] * CAS_WRITES))


def cas_wanted() -> Iterator[str]:
    def written() -> Iterator[str]:
        for i in range(1, CAS_WRITES + 1):
            cas = min(2**64 - 2**16 + i - 1, 2**64 - 1)
            yield f"change 0 0 11 {made(b'a', b'1', i, cas, i)}\nreply 0 1 {answer(SUCCESS, i, cas)}\nok"

    return groups(joined(ONE_NODE_TOLD, ["ok"], written()))


# Each client that a node may have waits for a durable write of its own, the last number for the first seqno.
CLIENTS = range(999, -1, -1)
MAJORITY = bytes([0x11, 0x01])


def waiting_frame(key: bytes, opaque: int) -> str:
    body = MAJORITY + bytes(8) + key + b"1"
    header = bytes([0x08, SET_OPCODE, len(MAJORITY), len(key), 8, 0, 0, 0])
    return (header + len(body).to_bytes(4, "big") + opaque.to_bytes(4, "big") + bytes(8) + body).hex()


def clients_script() -> Iterator[str]:
    nodes = ["node 0", "node 1", "vb 0 0 active 11", "vb 1 0 replica", "chain 0 0 1"]
    opened = (f"client 0 {client}" for client in CLIENTS)
    asked = (f"bytes 0 {client} {waiting_frame(b'%03d' % client, client)}" for client in CLIENTS)
    link = ["link 1 0 1 0 0 follow", "up 1 1000", "down 1 1000", "pump 1 1000000", "down 1 1000000", "up 1 1000"]
    return joined(nodes, opened, asked, link)


def clients_wanted() -> Iterator[str]:
    def each(what: str) -> list[str]:
        """What is told of each write, in the order of the seqnos."""
        told = []
        for seqno, client in enumerate(CLIENTS, 1):
            key, document = (b"%03d" % client).hex(), f"{seqno} 1 0 0 0 31"
            told.append(
                {
                    "made": f"change 0 0 11 {seqno} prepare {key} {document} 1 0\nok",
                    "item": f"item L1 {seqno} prepare {key}",
                    "got": f"got 1 0 L1 {seqno} prepare {key} {document} 1 0",
                    "commit": f"change 0 0 11 {1000 + seqno} commit {key} {document} {seqno} 0",
                    "reply": f"reply 0 {client} {answer(SUCCESS, client, seqno)}",
                }[what]
            )
        return told

    nodes = ["ok", "ok", ONE_NODE_TOLD[1], "role 1 0 replica\nok", "ok"]
    asked = "ask L1 0 0 0 0 18446744073709551615 0 0 0 1000 11:0 go\nok 191"
    put = ["mark L1 0 1000 1", *each("item"), "ok 1001 idle"]
    got = ["range 1 0 0 1000", *each("got"), "ack L1 1 0 1000 0", f"ok {44 + 1000 * 59}"]
    told = ["acked L1 0 0 1 1000", *each("commit"), *each("reply"), "ok 32"]
    link = ["ok", asked, "adopt 1 0 11:0\nok 112", "\n".join(put), "\n".join(got), "\n".join(told)]
    return groups(joined(nodes, ["ok"] * 1000, each("made"), link))


CASES: dict[str, tuple[str, Case]] = {
    "checkpoint": ("1,000 changes in a checkpoint, and one more", (checkpoint_script, checkpoint_wanted)),
    "weight": ("32 MiB in a checkpoint, and one byte more", (weight_script, weight_wanted)),
    "value": ("a value of 20 MiB, and of one byte more", (value_script, value_wanted)),
    "clients": ("1,000 clients that wait at once, and one acknowledgement", (clients_script, clients_wanted)),
    "cas": ("CASes up to 2^64 - 1, and two more", (cas_script, cas_wanted)),
}


def main(words: list[str]) -> None:
    match words:
        case []:
            for name, (purpose, _) in CASES.items():
                print(f"{name}: {purpose}")
        case ["script" | "wanted" as what, name] if name in CASES:
            script, wanted = CASES[name][1]
            for text in script() if what == "script" else wanted():
                sys.stdout.write(text + "\n")
        case _:
            print(__doc__, file=sys.stderr, end="")
            sys.exit(2)


main(sys.argv[1:])
