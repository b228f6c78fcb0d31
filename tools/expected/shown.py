"""What is drawn and told of waits.dcp and stops.dcp, worked out from their lines, and how wide words are."""

# The durable writes of waits.dcp, worked out by hand: who asked in which line, for what, at which level; on which
# branch and by which change it was prepared, and where; what settled it; and where its client was told what.
FATES = [
    ((22, 31, 4, b"s", b"54", 1), None, [], (22, "durability-impossible")),
    ((23, 31, 4, b"s", b"55", 9), None, [], (23, "durability-invalid-level")),
    ((27, 31, 4, b"t", b"56", 1), (211, 4, 27), [("commit", 5, 211, 4, 30)], (30, "success")),
    ((33, 33, 4, b"u", b"57", 2), (211, 6, 33), [("commit", 7, 211, 4, 42)], (42, "success")),
    ((45, 31, 4, b"v", b"58", 3), (211, 8, 45), [("abort", 9, 211, 4, 48)], (48, "sync-write-ambiguous")),
    ((46, 33, 4, b"v", b"59", 1), None, [], (46, "sync-write-in-progress")),
    ((51, 33, 4, b"t", None, 1), (211, 10, 51), [("commit", 12, 307, 6, 56)], (52, None)),
    ((53, 31, 4, b"w", b"60", 1), (211, 11, 53), [("commit", 13, 307, 6, 56)], (57, "sync-write-ambiguous")),
    ((60, 35, 6, b"z", b"64", 1), (307, 14, 60), [("commit", 15, 307, 6, 60)], (60, "success")),
    ((61, 35, 6, b"x", b"62", 2), (307, 16, 61), [], None),
]
UNREAD = [(66, 35, 6, b"y", 1)]

# The rows of tables of durable writes, from left to right.
FATE_ROWS = {
    "waits": [
        "#22 client 31 of node 4: s=54, level 1|was not made|refused: durability-impossible, #22",
        "#23 client 31 of node 4: s=55, level 9|was not made|refused: durability-invalid-level, #23",
        "#27 client 31 of node 4: t=56, level 1|stands|success, #30|4 of branch 211, #27|committed by 5, #30",
        "#33 client 33 of node 4: u=57, level 2|stands|success, #42|6 of branch 211, #33|committed by 7, #42",
        "#45 client 31 of node 4: v=58, level 3, within 0.7 s|does not stand|ambiguous, #48|8 of branch 211, #45"
        "|aborted by 9, #48",
        "#46 client 33 of node 4: v=59, level 1|was not made|refused: sync-write-in-progress, #46",
        "#51 client 33 of node 4: −t, level 1|stands|not told, #52|10 of branch 211, #51"
        "|committed by 12 of branch 307, node 6, #56",
        "#53 client 31 of node 4: w=60, level 1|stands|ambiguous, #57|11 of branch 211, #53"
        "|committed by 13 of branch 307, node 6, #56",
        "#60 client 35 of node 6: z=64, level 1|stands|success, #60|14 of branch 307, #60|committed by 15, #60",
        "#61 client 35 of node 6: x=62, level 2|is open|nothing so far|16 of branch 307, #61"
        "|neither committed nor aborted",
        "#66 client 35 of node 6: y=63, level 1|was not made|not read so far, as its client waits for another write",
    ],
    "stops": ["#63 client 25 of node 3: f=76, level 1|is lost|not told, #64|3 of branch 506, #63"
        "|neither committed nor aborted"],
}

# What stands of each vBucket at the end.
ENDS = {
    "waits": [
        "node 4|replica on branch 211, at 11|log 211:0;  p=51  q=52  r=53  t=56  u=57;  prepared −t at 10  w=60 at 11"
        "|node 6|active on branch 307, at 16|log 307:11 211:0;  p=51  q=52  r=53  u=57  w=60  z=64;  prepared x=62 at 16",
    ],
    "stops": [
        "node 3|down; its disk has: active on branch 506, at 2|log 506:2 502:1 401:0;  a=71  e=75"
        "|node 5|active on branch 603, at 3|log 603:3 602:3 401:0;  a=71  b=72  c=73",
        "node 3|down; its disk has: active on branch 507, at 0|log 507:0 503:0 402:0;  no documents",
    ],
}

# What stands above and below lanes: the line, the node, the side, and the words from top to bottom.
NOTES = {
    ("waits", 70): [
        (4, 4, "above", "active on 211, from 0"),
        (16, 4, "below", "L81 from 0 / go on"),
        (17, 4, "below", "L81 sends 0–3"),
        (21, 4, "above", "chain 4 -, majority 2"),
        (26, 4, "above", "chain 4 6, majority 2"),
        (28, 4, "below", "L81 sends 3–4"),
        (30, 4, "below", "node 6 has up to 4"),
        (34, 4, "below", "L81 sends 4–6"),
        (36, 4, "below", "node 6 has up to 6"),
        (54, 4, "below", "L81 sends 6–8 8–11"),
        (57, 4, "above", "replica"),
        (5, 6, "above", "replica"),
        (18, 6, "above", "L81"),
        (29, 6, "above", "L81, acks 4"),
        (35, 6, "above", "L81, acks 6"),
        (55, 6, "above", "L81, acks 11"),
        (56, 6, "above", "active on 307, from 11"),
        (56, 6, "below", "× L81 ends: cut / ack 11 not arrived"),
        (65, 6, "above", "chain 6 4 -, majority 2"),
    ],
    ("stops", 80): [
        (4, 3, "above", "active on 401, from 0"),
        (18, 3, "below", "L91 from 0 / go on"),
        (19, 3, "below", "L91 sends 0–3"),
        (25, 3, "above", "stops in call 1 / 2 to 3 are gone"),
        (26, 3, "above", "stays down / too few ids"),
        (27, 3, "above", "starts, finds 1 / active on 502, from 1"),
        (34, 3, "above", "call 4 of the append fails / its journal is closed"),
        (36, 3, "above", "crash / leaves bytes of 1 / record there: nothing is gone"),
        (38, 3, "above", "stays down / a disk is not opened"),
        (39, 3, "above", "starts, finds 2 / active on 506, from 2"),
        (46, 3, "below", "L92 from 3 on 401 / back to 1"),
        (62, 3, "above", "chain 3 5, majority 2"),
        (64, 3, "above", "crash / 3 is gone"),
        (6, 5, "above", "replica"),
        (20, 5, "above", "L91"),
        (25, 5, "below", "× L91 ends: cut"),
        (48, 5, "above", "stops in call 2 of the append / leaves old bytes / no record: nothing is gone"),
        (48, 5, "below", "× L92 ends: cut"),
        (49, 5, "above", "starts, finds 3, replica"),
        (54, 5, "above", "active on 601, from 3 / stops in call 3 of the append"
            " / leaves old bytes / no record: branch 601 is gone"),
        (55, 5, "above", "starts, finds 3, replica"),
        (57, 5, "above", "active on 602, from 3 / stops in call 4 of the append"
            " / leaves new bytes / record there: nothing is gone"),
        (58, 5, "above", "starts, finds 3 / active on 603, from 3"),
    ],
    ("stops", 90): [
        (5, 3, "above", "active on 402, from 0"),
        (25, 3, "above", "stops in call 1 of the append / leaves bytes of 187 / no record: 1 is gone"),
        (26, 3, "above", "stays down / too few ids"),
        (27, 3, "above", "starts, finds 0 / active on 503, from 0"),
        (36, 3, "above", "crash / nothing is gone"),
        (38, 3, "above", "stays down / a disk is not opened"),
        (39, 3, "above", "starts, finds 0 / active on 507, from 0"),
        (64, 3, "above", "crash / nothing is gone"),
    ],
}

# Of corpus/indexer/numbers-differ: what client 52 of node 3 asks vBucket 702 for, and is sent.
CLIENT_NOTES = [
    (16, "C3.52 from 0 / go on"),
    (19, "C3.52 sends 0–2"),
    (22, "C3.52 sends 1 more"),
    (26, "C3.52 from 1 on 1101 / go on"),
    (29, "C3.52 sends 0–2"),
]

# The bars of waits: the node, the line of the prepare or of a refusal, that of the answer, the row, and the words.
WAITS = {
    ("waits", 70): [
        (4, 22, 22, 0, "client 31: s=54, level 1", "impossible"),
        (4, 23, 23, 0, "client 31: s=55, level 9", "invalid-level"),
        (4, 27, 30, 0, "client 31: t=56, level 1", "success"),
        (4, 33, 42, 0, "client 33: u=57, level 2", "success"),
        (4, 45, 48, 0, "client 31: v=58, level 3", "ambiguous"),
        (4, 46, 46, 1, "client 33: v=59, level 1", "in-progress"),
        (4, 51, 52, 0, "client 33: −t, level 1", "not told"),
        (4, 53, 57, 0, "client 31: w=60, level 1", "ambiguous"),
        (6, 60, 60, 0, "client 35: z=64, level 1", "success"),
        (6, 61, None, 0, "client 35: x=62, level 2", ""),
    ],
    ("stops", 80): [
        (3, 63, 64, 0, "client 25: f=76, level 1", "not told"),
    ],
    ("stops", 90): [],
}

# In which lines what is written down changes: the node, the line, and up to which seqno.
DISKS = {
    ("waits", 70): [
        (4, 38, 4),
        (4, 41, 6),
        (6, 63, 3),
    ],
    ("stops", 80): [
        (3, 12, 1),
        (3, 36, 2),
        (5, 43, 3),
    ],
    ("stops", 90): [],
}

# Arrows: the line, the nodes from which and to which, and what for.
ARROWS = {
    ("waits", 70): [
        (16, 6, 4, "ask"),
        (18, 4, 6, "carry"),
        (29, 4, 6, "carry"),
        (30, 6, 4, "ack"),
        (35, 4, 6, "carry"),
        (36, 6, 4, "ack"),
        (55, 4, 6, "carry"),
    ],
    ("stops", 80): [
        (18, 5, 3, "ask"),
        (20, 3, 5, "carry"),
        (46, 5, 3, "ask"),
    ],
    ("stops", 90): [],
}

# How wide words are in DejaVu Sans, by its own table.
WIDE = {
    ("client 31: u=57, level 2", 10, False): 117.0,
    ("record there: nothing is gone", 10, True): 165.8,
    ("active on 307, from 11", 10, True): 127.3,
    ("committed by 12 of branch 307, node 6, #56", 11, False): 249.6,
    ("#56, node 6, leaves 211 at 11; at the end node 6", 11, False): 272.7,
    ("Rows: at 3, complete: it is not there", 12, True): 244.0,
    ("L81 sends 6–8 8–11", 10, False): 98.9,
    ("node 6 has up to 4", 10, True): 105.0,
    ("#45 set v 58 level 3 → node 4", 10, False): 150.3,
    ("Stops and starts of every kind, in numbers that differ.", 15, True): 459.9,
}

# Shapes, and which of them are on top of which.
TEXT = '<text x="{}" y="{}" class="small">{}</text>'
ON_TOP = {
    TEXT.format(10, 20, "one") + TEXT.format(24, 25, "two"): [("one", "two")],
    TEXT.format(10, 20, "one") + TEXT.format(34, 25, "two"): [],
    TEXT.format(10, 20, "one") + TEXT.format(10, 29, "two"): [],
    TEXT.format(10, 20, "one") + '<circle cx="30" cy="16" r="4"/>': [("one", "a mark")],
    TEXT.format(10, 20, "one") + '<path d="M24.0 17.0 l5 -5 l5 5 l-5 5 z"/>': [("one", "a diamond")],
    TEXT.format(10, 20, "one") + '<line x1="15" y1="2" x2="15" y2="90" stroke-width="1.5"/>': [("one", "a line")],
    TEXT.format(10, 20, "one") + '<line x1="5" y1="23" x2="90" y2="23" stroke-width="2"/>': [],
    TEXT.format(90, 20, "one"): [("one", "the edge")],
}
