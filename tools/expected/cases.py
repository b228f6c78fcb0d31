"""Frames that were worked out by hand, and what no tool takes."""

BY_HAND = {
    "get ab --vb 7 --opaque 2 --cas 3": "80 00 0002 00 00 0007 00000002 00000002 0000000000000003 6162",
    "get 'a b'": "80 00 0003 00 00 0000 00000003 00000000 0000000000000000 612062",
    "set a 1 --opaque 1": "80 01 0001 08 00 0000 0000000a 00000001 0000000000000000 0000000000000000 61 31",
    "set '' 1": "80 01 0000 08 00 0000 00000009 00000000 0000000000000000 0000000000000000 31",
    "add 0x00 --flags 1 --expiration 2": "80 02 0001 08 00 0000 00000009 00000000 0000000000000000 00000001 00000002 00",
    "replace a 1 --datatype 1": "80 03 0001 08 01 0000 0000000a 00000000 0000000000000000 0000000000000000 61 31",
    "delete a --durability 2,500": "08 04 04 01 00 00 0000 00000005 00000000 0000000000000000 13 02 01f4 61",
    "delete a --durability 1": "08 04 02 01 00 00 0000 00000003 00000000 0000000000000000 11 01 61",
    "noop": "80 0a 0000 00 00 0000 00000000 00000000 0000000000000000",
    "noop --magic 0x08": "08 0a 00 00 00 00 0000 00000000 00000000 0000000000000000",
    "hello me --features json,0x0012": "80 1f 0002 00 00 0000 00000006 00000000 0000000000000000 6d65 000b 0012",
    "open n1 --flags 1 --opaque 1": "80 50 0002 08 00 0000 0000000a 00000001 0000000000000000 00000000 00000001 6e31",
    "control n1 yes": "80 5e 0002 00 00 0000 00000005 00000000 0000000000000000 6e31 796573",
    "stream-request --start 1 --end 2 --branch 3 --snap-start 4 --snap-end 5 --vb 6": "80 53 0000 30 00 0006 00000030"
    " 00000000 0000000000000000 00000000 00000000 0000000000000001 0000000000000002 0000000000000003"
    " 0000000000000004 0000000000000005",
    "snapshot-marker --start 1 --end 2 --flags 1": "80 56 0000 14 00 0000 00000014 00000000 0000000000000000"
    " 0000000000000001 0000000000000002 00000001",
    "mutation k v --seqno 1 --revision 2 --flags 3 --expiration 4 --cas 5": "80 57 0001 1f 00 0000 00000021 00000000"
    " 0000000000000005 0000000000000001 0000000000000002 00000003 00000004 00000000 0000 00 6b 76",
    "deletion k --seqno 1 --revision 2": "80 58 0001 12 00 0000 00000013 00000000 0000000000000000"
    " 0000000000000001 0000000000000002 0000 6b",
    "prepare k v --seqno 1 --revision 2 --flags 3 --expiration 4 --lock-time 5 --nru 6 --deleted 7 --level 8 --vb 10"
    " --datatype 9 --opaque 11 --cas 12": "80 60 0001 1f 09 000a 00000021 0000000b 000000000000000c 0000000000000001"
    " 0000000000000002 00000003 00000004 00000005 06 07 08 6b 76",
    "seqno-acknowledged --seqno 1 --vb 2 --opaque 3": "80 61 0000 08 00 0002 00000008 00000003 0000000000000000"
    " 0000000000000001",
    "commit k --prepared 1 --seqno 2 --vb 3 --opaque 4": "80 62 0001 10 00 0003 00000011 00000004 0000000000000000"
    " 0000000000000001 0000000000000002 6b",
    "abort k --prepared 1 --seqno 2 --vb 3 --opaque 4": "80 63 0001 10 00 0003 00000011 00000004 0000000000000000"
    " 0000000000000001 0000000000000002 6b",
    "stream-request --flags 1 --reserved 2 --start 3 --end 4 --branch 5 --snap-start 6 --snap-end 7 --vb 8 --opaque 9"
    " --cas 10": "80 53 0000 30 00 0008 00000030 00000009 000000000000000a 00000001 00000002 0000000000000003"
    " 0000000000000004 0000000000000005 0000000000000006 0000000000000007",
    "open n1 --number 1 --flags 2 --vb 3 --opaque 4 --cas 5": "80 50 0002 08 00 0003 0000000a 00000004 0000000000000005"
    " 00000001 00000002 6e31",
    "mutation k v --seqno 1 --revision 2 --flags 3 --expiration 4 --lock-time 5 --metadata-length 6 --nru 7 --vb 9"
    " --datatype 8 --opaque 10 --cas 11": "80 57 0001 1f 08 0009 00000021 0000000a 000000000000000b 0000000000000001"
    " 0000000000000002 00000003 00000004 00000005 0006 07 6b 76",
    "deletion k --seqno 1 --revision 2 --metadata-length 3 --vb 4 --opaque 5 --cas 6": "80 58 0001 12 00 0004 00000013"
    " 00000005 0000000000000006 0000000000000001 0000000000000002 0003 6b",
    "set k v --flags 1 --expiration 2 --vb 4 --datatype 3 --opaque 5 --cas 6 --durability 1,7": "08 01 04 01 08 03 0004"
    " 0000000e 00000005 0000000000000006 13 01 0007 00000001 00000002 6b 76",
    "close-stream --vb 1 --opaque 2": "80 52 0000 00 00 0001 00000000 00000002 0000000000000000",
    "get-failover-log --vb 1 --opaque 2": "80 54 0000 00 00 0001 00000000 00000002 0000000000000000",
    "dcp-noop --opaque 2": "80 5c 0000 00 00 0000 00000000 00000002 0000000000000000",
    "buffer-acknowledgement --bytes 258 --opaque 2": "80 5d 0000 04 00 0000 00000004 00000002 0000000000000000 00000102",
    "answer get-failover-log --log 22:2,11:0 --status success --opaque 3": "81 54 0000 00 00 0000 00000020 00000003"
    " 0000000000000000 0000000000000016 0000000000000002 000000000000000b 0000000000000000",
    "set-vbucket-state --state 3 --vb 7 --opaque 6": "80 5b 0000 01 00 0007 00000001 00000006 0000000000000000 03",
    "answer set-vbucket-state --status success --opaque 6": "81 5b 0000 00 00 0000 00000000 00000006 0000000000000000",
    "stream-end --reason 2": "80 55 0000 04 00 0000 00000004 00000000 0000000000000000 00000002",
    "answer get v --status success --flags 0": "81 00 0000 04 00 0000 00000005 00000000 0000000000000000 00000000 76",
    "answer get --status key-enoent --opaque 7": "81 00 0000 00 00 0001 00000000 00000007 0000000000000000",
    "answer set --status success --branch 11 --seqno 5 --cas 9": "81 01 0000 10 00 0000 00000010 00000000"
    " 0000000000000009 000000000000000b 0000000000000005",
    "answer hello --features json --status success": "81 1f 0000 00 00 0000 00000002 00000000 0000000000000000 000b",
    "answer stream-request --log 22:2,11:0 --status success": "81 53 0000 00 00 0000 00000020 00000000"
    " 0000000000000000 0000000000000016 0000000000000002 000000000000000b 0000000000000000",
    "answer stream-request --to 2 --status rollback": "81 53 0000 00 00 0023 00000008 00000000 0000000000000000"
    " 0000000000000002",
    "0x99 --key a --value 1": "80 99 0001 00 00 0000 00000002 00000000 0000000000000000 61 31",
    "set a --extras 0x0001 --datatype 2": "80 01 0001 02 02 0000 00000003 00000000 0000000000000000 0001 61",
    "get a --value 1": "80 00 0001 00 00 0000 00000002 00000000 0000000000000000 61 31",
    "get a --framing 0x2100": "08 00 02 01 00 00 0000 00000003 00000000 0000000000000000 2100 61",
}

# The statuses of docs/FORMATS.md.
STATUSES = {
    "success": "0000",
    "key-enoent": "0001",
    "key-eexists": "0002",
    "e2big": "0003",
    "einval": "0004",
    "not-my-vbucket": "0007",
    "erange": "0022",
    "rollback": "0023",
    "unknown-frame-info": "0080",
    "unknown-command": "0081",
    "enomem": "0082",
    "not-supported": "0083",
    "etmpfail": "0086",
    "durability-invalid-level": "00a0",
    "durability-impossible": "00a1",
    "sync-write-in-progress": "00a2",
    "sync-write-ambiguous": "00a3",
    "sync-write-recommit-in-progress": "00a4",
}

# Frames whose header does not say what the body has are made, and shown as no frame or as another one.
RAW = {
    "get a --body-length 0": "80 00 0001 00 00 0000 00000000 00000000 0000000000000000 61",
    "get a --key-length 2 --extras-length 3": "80 00 0002 03 00 0000 00000001 00000000 0000000000000000 61",
    "get a --magic 0x08 --framing-length 4": "08 00 04 01 00 00 0000 00000001 00000000 0000000000000000 61",
    "noop --magic 0x12": "12 0a 0000 00 00 0000 00000000 00000000 0000000000000000",
}

NO_FRAMES = {
    "00": "no frame: the first byte is 0x00",
    "8001": "less than a frame: 2 of 24 bytes of the header",
    "80000001000000000000000100000000" + "00" * 8: "less than a frame: 0 of 1 bytes of the body",
    "80000001000000000000000000000000" + "00" * 8: "no frame: a body of 0 bytes is shorter than its parts, 1",
    "80000000000000000150000100000000" + "00" * 8: "no frame: a body of 22,020,097 bytes is too long",
}

# fmt: off
BAD_WORDS = [
    "gte", "get --kye a", "set --vb 65536", "set --cas many", "set --cas -1", "set a --vb", "set a b c", "set a --key b",
    "0x100", "get 0x1", "answer get --status fine", "hello a --features j", "answer", "set a --durability ''",
    "answer stream-request --log 1", "get a --key-length 65536", "get 'a",
]

# Each is what stands in a transcript of one group.
BAD_GROUPS = [
    "nothing", "role 0 0", "role 0 x active", "role 0 0 active 1", "role 0 0 alive", "reply 0 1 8", "logged 0 0 1",
    "change 0 0 1 1 put 61", "closed 0 \xff", "ask L1 0 7 0 0 9 0 0 0 2 11:0 maybe", "item 1 2 set 61",
    "item C1 2 set 61", "item C1.2.3 2 set 61", "mark C0.01 0 1 1", "mark c0.1 0 1 1", "fin C.1 2", "end C0.1 cut",
    "state L1", "state L1 Pending", "state L1 pending x", "state pending", "state 1 pending", "state L01 pending",
    "got 0 0 C0.1 1 remove 61 1 1",
    "doc 61 1 1 0 0 0 3G", "ok x", "ok 1 more", "ok 1 wait-", "ok 1 wait-State", "ok wait-state", "ok 1 wait-state 1", "ok disk", "ok 1 Disk", "ok 1 disks", "ok 1 disk 1", "ok 18446744073709551616", "no", "#2", "ok\nok",
]
BAD_TRANSCRIPTS = [
    b"ok\n", b"#1\n", b"#01\nok\n", b"\xff", b"bad line 1\n#1\n", b"bad line\n",
    *(f"#1\n{lines}\nok\n".encode("latin-1") for lines in BAD_GROUPS),
]

BAD_LINES = [
    "walk 0", "node", "node 0 0", "node x", "node -1", "node 00", "vb 0 0 dead 1", "bytes 0 1 8", "bytes 0 1 xx",
    "link 1 0 1 7 0 lead", "trim 0", "trim 0 0 1", "drop", "drop 1000", " node 0", "up 1 18446744073709551616",
]

# Each record of a journal once, no two numbers of the batch alike, and its payload.
BATCH_CHANGES = [
    "change 0 0 1 17 set 61 4627 5141 5655 6169 26 1b1c",
    "change 0 0 1 33 remove 62 8739 9253",
    "change 0 0 1 49 prepare 63 12851 13365 13879 14393 58 3b 2 0",
    "change 0 0 1 65 commit 64 17477 17991 18505 19019 76 - 16963 1",
    "change 0 0 1 81 abort 6566 21075",
]
BATCH_PAYLOAD = (
    "0102000000000000010200000000000003040000000000000506000000000000070802000000000000090a0000000000"
    "000b0c0000000000000d0e0000000000000f100000000500000000000000110101610000000000001213000000000000"
    "141500001617000018191a000000021b1c00000000000000210201620000000000002223000000000000242500000000"
    "0000003103016302000000000000003233000000000000343500003637000038393a000000013b000000000000004104"
    "0164000000000000424301000000000000444500000000000046470000484900004a4b4c000000000000000000000051"
    "050265660000000000005253"
)
STATE_PAYLOAD = "010101" "01000000000000000b0000000000000000"
ROLL_PAYLOAD = "0103" "0102030405060708"
