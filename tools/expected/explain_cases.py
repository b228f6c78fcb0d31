"""Lines of scripts and of transcripts, and the sentences of explain. No two numbers of most of them are alike."""

LINES = {
    "node 3": "Node 3 is to be made.",
    "vb 3 702 active 1101": "Node 3 is to have vBucket 702, active on branch 1101.",
    "vb 3 702 replica": "Node 3 is to have vBucket 702, an empty replica.",
    "clock 3 170000": "The clock of node 3 is to stand at 170000 ns.",
    "client 3 41": "Client 41 is to connect to node 3.",
    "bytes 3 41 800a": "Client 41 sends to node 3:",
    "pull 3 41 80": "Client 41 of node 3 is to be sent 80 frames of its streams.",
    "hang 3 41": "Client 41 is to leave node 3.",
    "link 505 3 9 702 0 follow": "Node 9 is to follow vBucket 702 of node 3, over link 505.",
    "link 505 3 9 702 11 follow":
    "Node 9 is to follow vBucket 702 of node 3, over link 505, with a buffer of 11 bytes.",
    "link 505 3 9 702 0 takeover": "Node 9 is to take over vBucket 702 of node 3, by link 505.",
    "link 505 3 9 702 11 takeover":
    "Node 9 is to take over vBucket 702 of node 3, by link 505, with a buffer of 11 bytes.",
    "link 505 3 9 702 1 follow": "Node 9 is to follow vBucket 702 of node 3, over link 505, with a buffer of 1 byte.",
    "up 505 60": "At most 60 bytes of link 505 are to reach its producer.",
    "down 505 70": "At most 70 bytes of link 505 are to reach its consumer.",
    "pump 505 80": "The producer of link 505 is to put 80 frames.",
    "drop 505": "The cursor of the stream of link 505 is to be taken away.",
    "cut 505": "Link 505 is to be cut.",
    "promote 3 702 2202": "vBucket 702 of node 3 is to become active, on branch 2202.",
    "follow 3 702": "vBucket 702 of node 3 is to become a replica.",
    "dead 3 702": "vBucket 702 of node 3 is to be dead.",
    "chain 3 702": "vBucket 702 of node 3 is to have a chain: node 3.",
    "chain 3 702 9 - 12":
    "vBucket 702 of node 3 is to have a chain: node 3, node 9, a member that is not set, node 12.",
    "tick 3 702": "The prepares of vBucket 702 of node 3 whose deadlines are over are to be given up.",
    "seal 3 702": "The open span of vBucket 702 of node 3 is to end.",
    "trim 3 702": "The ended spans of vBucket 702 of node 3 that nobody needs any more are to be given up.",
    "take 3 702": "What vBucket 702 of node 3 has not written down is to be taken, up to a span's end.",
    "save 3 702": "The batch of vBucket 702 of node 3 is to be appended to its journal.",
    "done 3 702": "vBucket 702 of node 3 is to be told that its batch is saved.",
    "stop 3 17 old":
    "Node 3 is to stop inside its device call 17 from now on, and to keep the old bytes of what was not "
    "synced.",
    "stop 3 17 fill 255":
    "Node 3 is to stop inside its device call 17 from now on, and to keep the byte 255 for each byte that "
    "was not synced.",
    "stop 3 0 new": "No device call of node 3 is to be hit any more.",
    "fail 3 18": "The device call 18 of node 3 from now on is to fail.",
    "fail 3 0": "No device call of node 3 is to be hit any more.",
    "crash 3 new": "Node 3 is to stop now, and to keep the new bytes of what was not synced.",
    "start 3": "Node 3 is to start.",
    "start 3 2202": "Node 3 is to start, with the id 2202 for new branches.",
    "start 3 2202 3303": "Node 3 is to start, with the ids 2202, 3303 for new branches.",
    "stat 3 702": "vBucket 702 of node 3 is to tell its numbers.",
    "log 3 702": "vBucket 702 of node 3 is to show its failover log.",
    "show 3 702": "vBucket 702 of node 3 is to show itself.",
}
EVENTS = {
    "branch 3 702 1101 - 0 0": "Branch 1101 begins at vBucket 702 of node 3, from nothing.",
    "branch 3 702 2202 1101 21 21": "Branch 2202 begins at vBucket 702 of node 3: it leaves branch 1101 at 21.",
    "branch 3 702 2202 1101 21 28":
    "Branch 2202 begins at vBucket 702 of node 3: it leaves branch 1101 at 21, and its changes above 21, up "
    "to 28, are the new branch's own.",
    "role 3 702 active": "vBucket 702 of node 3 is active now, and takes writes.",
    "role 3 702 replica": "vBucket 702 of node 3 is a replica now.",
    "role 3 702 pending": "vBucket 702 of node 3 is pending now, and waits to take over.",
    "role 3 702 dead": "vBucket 702 of node 3 is dead now.",
    "change 3 702 1101 21 set 6b 31 32 33 34 1 76":
    'vBucket 702 of node 3 makes change 21 on branch 1101: "k" is set to "v" (CAS 31, revision 32, flags 33, '
    "expiration 34, JSON).",
    "change 3 702 1101 22 remove 6b 31 32":
    'vBucket 702 of node 3 makes change 22 on branch 1101: "k" is removed (CAS 31, revision 32).',
    "change 3 702 1101 23 prepare 6b 31 32 33 34 0 76 2 0":
    'vBucket 702 of node 3 makes change 23 on branch 1101: "k" is prepared as "v", majority and persisted at '
    "the active (CAS 31, revision 32, flags 33, expiration 34).",
    "change 3 702 1101 23 prepare 6b 31 32 0 0 0 - 1 1":
    'vBucket 702 of node 3 makes change 23 on branch 1101: "k" is prepared as a removal, majority (CAS 31, '
    "revision 32).",
    "change 3 702 1101 24 commit 6b 31 32 33 34 1 76 23 0":
    'vBucket 702 of node 3 makes change 24 on branch 1101: "k", prepared at 23, is committed as "v" (CAS 31, '
    "revision 32, flags 33, expiration 34, JSON).",
    "change 3 702 1101 24 commit 6b 31 32 0 0 0 - 23 1":
    'vBucket 702 of node 3 makes change 24 on branch 1101: "k", prepared at 23, is committed as a removal '
    "(CAS 31, revision 32).",
    "change 3 702 1101 25 abort 6b 23":
    'vBucket 702 of node 3 makes change 25 on branch 1101: "k", prepared at 23, is aborted.',
    "reply 3 41 810a": "Node 3 answers client 41:",
    "reply 3 41 8056": "Node 3 sends client 41:",
    "closed 3 41": "Node 3 closes the connection of client 41.",
    "ask L505 3 702 1101 21 18446744073709551615 20 22 0 29 2202:28,1101:0 go":
    "Link 505 asks vBucket 702 of node 3 for branch 1101 from 21 on, without end, being inside the snapshot "
    "20 to 22: granted.",
    "ask L505 3 702 0 0 26 0 0 0 29 2202:28 roll 11":
    "Link 505 asks vBucket 702 of node 3 for any branch from 0 on, to 26: sent back to 11, as it has a "
    "failover log with branch 2202 from 28 on, and is at 29.",
    "ask L505 3 702 1101 21 27 21 21 0 29 2202:28 refuse 34":
    "Link 505 asks vBucket 702 of node 3 for branch 1101 from 21 on, to 27: refused, erange.",
    "ask C3.41 3 702 1101 21 27 20 22 0 29 2202:28,1101:0 go":
    "Client 41 asks vBucket 702 of node 3 for branch 1101 from 21 on, to 27, being inside the snapshot 20 to 22: "
    "granted.",
    "ask C3.41 3 702 0 0 18446744073709551615 0 0 1 29 2202:28 refuse 131":
    "Client 41 asks vBucket 702 of node 3 for any branch from 0 on, without end: refused, not-supported.",
    "mark C3.41 21 27 1": "Client 41 of node 3 is sent a snapshot from 21 to 27.",
    "item C3.41 21 set 6b": 'Client 41 of node 3 is sent change 21: "k" is set.',
    "fin C3.41 0": "Client 41 of node 3 is sent a stream's end: its stream reached the end that was asked for.",
    "fin C3.41 2": "Client 41 of node 3 is sent a stream's end: its vBucket changed its role.",
    "mark L505 21 27 1": "Link 505 carries a snapshot from 21 to 27.",
    "item L505 21 set 6b": 'Link 505 carries change 21: "k" is set.',
    "item L505 22 remove 6b": 'Link 505 carries change 22: "k" is removed.',
    "item L505 23 prepare 6b": 'Link 505 carries change 23: "k" is prepared.',
    "item L505 24 commit 6b": 'Link 505 carries change 24: "k" is committed.',
    "item L505 25 abort 6b": 'Link 505 carries change 25: "k" is aborted.',
    "fin L505 0": "Link 505 carries its stream's end: the vBucket at its end has taken over.",
    "fin L505 2": "Link 505 carries its stream's end: its vBucket changed its role.",
    "state L505 pending": "Link 505 carries a state: the vBucket at its end is to be pending.",
    "state L505 active": "Link 505 carries a state: the vBucket at its end is to be active.",
    "state L505 replica": "Link 505 carries a state: the vBucket at its end is to be a replica.",
    "state C3.41 dead": "Client 41 of node 3 is sent a state: the vBucket at its end is to be dead.",
    "adopt 9 702 2202:28,1101:4":
    "vBucket 702 of node 9 takes over a failover log with branch 2202 from 28 on, branch 1101 from 4 on.",
    "adopt 9 702 -": "vBucket 702 of node 9 takes over an empty failover log.",
    "range 9 702 21 27": "vBucket 702 of node 9 enters the snapshot from 21 to 27.",
    "got 9 702 L505 21 set 6b 31 32 33 34 1 76":
    'vBucket 702 of node 9 takes change 21 of link 505: "k" is set to "v" (CAS 31, revision 32, flags 33, '
    "expiration 34, JSON).",
    "rolled 9 702 19 11": "vBucket 702 of node 9, sent back to 19, goes back to 11.",
    "ack L505 9 702 23 22": "vBucket 702 of node 9 acknowledges 23 on link 505; its disk has all up to 22.",
    "acked L505 3 702 9 23": "vBucket 702 of node 3 counts that node 9 holds all up to 23, by link 505.",
    "batch 3 702 21 27 24 5": "vBucket 702 of node 3 is taken up to 24, inside the snapshot 21 to 27: 5 changes.",
    "batch 3 702 24 24 24 1": "vBucket 702 of node 3 is taken up to 24: 1 change.",
    "end L505 cut": "Link 505 ends: it is cut, and the bytes on their way are lost.",
    "end L505 refused": "Link 505 ends: its producer refused.",
    "end L505 protocol": "Link 505 ends: one end sent what the other cannot take.",
    "end L505 disk": "Link 505 ends: its vBucket could not write down that it goes back, or that it took over.",
    "end L505 done": "Link 505 ends: its stream came to its end, and its vBucket has taken over.",
    "end L505 state": "Link 505 ends: its stream was ended, as the producer's vBucket changed its role.",
    "shown 3 702 active 1101 24 21 27 5 2":
    "vBucket 702 of node 3 is active on branch 1101, at 24 (inside the snapshot 21 to 27), with 5 documents "
    "and 2 prepares.",
    "shown 9 702 replica 0 0 0 0 1 0": "vBucket 702 of node 9 is a replica, at 0 (complete), with 1 document.",
    "shown 9 702 dead 1101 27 21 27 0 1":
    "vBucket 702 of node 9 is dead on branch 1101, at 27 (complete), with 0 documents and 1 prepare.",
    "failed 3": "A device call of node 3 fails.",
    "stopped 3": "Node 3 stops inside a device call.",
    "stat 3 702 2 5 4 22 27":
    "vBucket 702 of node 3 has 5 changes in 2 spans, 4 cursors, is saved up to 22, and is at 27.",
    "stat 3 702 1 1 1 22 27":
    "vBucket 702 of node 3 has 1 change in 1 span, 1 cursor, is saved up to 22, and is at 27.",
    "logged 3 702 2202:28,1101:4":
    "vBucket 702 of node 3 has a failover log with branch 2202 from 28 on, branch 1101 from 4 on.",
    "doc 6b 31 32 33 34 1 76": '"k" is "v" (CAS 31, revision 32, flags 33, expiration 34, JSON).',
    "prep 6b 23 3": '"k" is prepared at 23, persisted at a majority.',
}
ANSWERS = {
    ("up 505 60", "ok 61"): "61 bytes were moved.",
    ("down 505 60", "ok 1"): "1 byte was moved.",
    ("seal 3 702", "ok 1"): "There was an open span.",
    ("seal 3 702", "ok 0"): "There was no open span.",
    ("trim 3 702", "ok 0"): "No span was given up.",
    ("trim 3 702", "ok 1"): "1 span was given up.",
    ("trim 3 702", "ok 3"): "3 spans were given up.",
    ("drop 505", "ok 1"): "The stream had a cursor.",
    ("drop 505", "ok 0"): "There was no cursor.",
    ("take 3 702", "ok 5"): "5 changes were taken.",
    ("take 3 702", "ok 1"): "1 change was taken.",
    ("take 3 702", "ok 0"): "There was nothing to take.",
    ("done 3 702", "ok 22"): "All up to 22 is saved.",
    ("pump 505 80", "ok 6 idle"): "6 frames were put, and there is no more to put now.",
    ("pump 505 80", "ok 2 full"): "2 frames were put, and the window is shut.",
    ("pump 505 80", "ok 4 wait-state"): "4 frames were put, and a state is to be answered first.",
    ("pump 505 80", "ok 1 wait-saved"): "1 frame was put, and what comes next is in the journal alone.",
    ("pump 505 80", "ok 1 disk"): "1 frame was put, and the journal that has what comes next can't be read.",
    ("pump 505 80", "ok 80 -"): "80 frames were put.",
    ("pull 3 41 80", "ok 6 idle"): "6 frames were put, and there is no more to put now.",
    ("pull 3 41 80", "ok 0 full"): "0 frames were put, and the window is shut.",
    ("pull 3 41 80", "ok 80 -"): "80 frames were put.",
    ("node 3", "ok"): "",
}
REFUSALS = {
    ("node 3", "node-exists"): "Nothing is done: node 3 is made already.",
    ("start 3 2202", "unknown-node"): "Nothing is done: node 3 is not made. No cause comes before it.",
    ("start 3 2202", "node-up"): "Nothing is done: node 3 is running. No cause before it holds: node 3 is made.",
    ("fail 3 18", "unknown-node"): "Nothing is done: node 3 is not made.",
    ("stop 3 17 old", "unknown-node"): "Nothing is done: node 3 is not made.",
    ("crash 3 new", "node-down"): "Nothing is done: node 3 is down. No cause before it holds: node 3 is made.",
    ("show 3 702", "unknown-node"): "Nothing is done: node 3 is not made. No cause comes before it.",
    ("show 3 702", "unknown-vb"):
    "Nothing is done: node 3 has no vBucket 702. No cause before it holds: node 3 is made and it is running.",
    ("trim 3 702", "unknown-vb"):
    "Nothing is done: node 3 has no vBucket 702. No cause before it holds: node 3 is made and it is running.",
    ("vb 3 702 active 1101", "vb-exists"):
    "Nothing is done: node 3 has vBucket 702 already. No cause before it holds: node 3 is made and it is "
    "running.",
    ("vb 3 702 active 1101", "limit"):
    "Nothing is done: node 3 has 64 vBuckets. No cause before it holds: node 3 is made, it is running and it "
    "has no vBucket 702.",
    ("vb 3 702 active 0", "uuid-zero"):
    "Nothing is done: no branch has the id 0. No cause before it holds: node 3 is made, it is running, it "
    "has no vBucket 702 and it has fewer than 64.",
    ("vb 3 702 active 1101", "uuid-used"):
    "Nothing is done: an earlier branch has the id 1101. No cause before it holds: node 3 is made, it is "
    "running, it has no vBucket 702, it has fewer than 64 and the id is not 0.",
    ("vb 3 702 active 1101", "disk"):
    "The disk failed. Before that nothing was against it: node 3 is made, it is running, it has no vBucket "
    "702, it has fewer than 64, the id is not 0 and no earlier branch has it.",
    ("vb 3 702 replica", "stopped"):
    "The node stopped, and whether the record is there only a start can tell. Before that nothing was "
    "against it: node 3 is made, it is running, it has no vBucket 702 and it has fewer than 64.",
    ("promote 3 702 2202", "wrong-role"):
    "Nothing is done: vBucket 702 of node 3 is active. No cause before it holds: node 3 is made, it is "
    "running and it has vBucket 702.",
    ("promote 3 702 2202", "uuid-used"):
    "Nothing is done: an earlier branch has the id 2202. No cause before it holds: node 3 is made, it is "
    "running, it has vBucket 702, that is not active and the id is not 0.",
    ("promote 3 702 2202", "closed"):
    "An earlier append to this journal failed, so nothing is appended. Before that nothing was against it: "
    "node 3 is made, it is running, it has vBucket 702, that is not active, the id is not 0 and no earlier "
    "branch has it.",
    ("follow 3 702", "wrong-role"):
    "Nothing is done: vBucket 702 of node 3 is a replica. No cause before it holds: node 3 is made, it is "
    "running and it has vBucket 702.",
    ("dead 3 702", "wrong-role"):
    "Nothing is done: vBucket 702 of node 3 is dead. No cause before it holds: node 3 is made, it is running "
    "and it has vBucket 702.",
    ("tick 3 702", "wrong-role"):
    "Nothing is done: vBucket 702 of node 3 is not active. No cause before it holds: node 3 is made, it is "
    "running and it has vBucket 702.",
    ("chain 3 702 9 - 12", "chain-bad"):
    "Nothing is done: a member is node 3 itself, or stands twice. No cause before it holds: node 3 is made, "
    "it is running, it has vBucket 702 and that is active.",
    ("link 505 3 9 702 0 follow", "unknown-node"):
    "Nothing is done: node 3 or node 9 is not made. No cause comes before it.",
    ("link 505 3 9 702 0 follow", "node-down"):
    "Nothing is done: node 3 or node 9 is down. No cause before it holds: node 3 and node 9 are made.",
    ("link 505 3 9 702 0 follow", "unknown-vb"):
    "Nothing is done: node 9 has no vBucket 702. No cause before it holds: node 3 and node 9 are made and "
    "they are running.",
    ("link 505 3 9 702 0 follow", "wrong-role"):
    "Nothing is done: vBucket 702 of node 9 is active or dead. No cause before it holds: node 3 and node 9 "
    "are made, they are running and node 9 has vBucket 702.",
    ("link 505 3 9 702 0 follow", "link-open"):
    "Nothing is done: link 505 is open already, or another one feeds vBucket 702 of node 9. No cause before "
    "it holds: node 3 and node 9 are made, they are running, node 9 has vBucket 702 and that is neither "
    "active nor dead.",
    ("client 3 41", "link-open"):
    "Nothing is done: client 41 is connected to node 3 already. No cause before it holds: node 3 is made and "
    "it is running.",
    ("bytes 3 41 800a", "link-closed"):
    "Nothing is done: client 41 is not connected to node 3. No cause before it holds: node 3 is made and it "
    "is running.",
    ("pull 3 41 80", "link-closed"):
    "Nothing is done: client 41 is not connected to node 3. No cause before it holds: node 3 is made and it "
    "is running.",
    ("hang 3 41", "link-closed"):
    "Nothing is done: client 41 is not connected to node 3. No cause before it holds: node 3 is made and it "
    "is running.",
    ("up 505 60", "link-closed"): "Nothing is done: link 505 is not open.",
    ("drop 505", "link-closed"): "Nothing is done: link 505 is not open.",
    ("cut 505", "link-closed"): "Nothing is done: link 505 is not open.",
    ("down 505 70", "stopped"):
    "The node stopped, and whether the record is there only a start can tell. Before that nothing was "
    "against it: link 505 is open.",
    ("take 3 702", "batch-out"):
    "Nothing is done: a batch was taken or appended before, and is not done. No cause before it holds: node "
    "3 is made, it is running and it has vBucket 702.",
    ("save 3 702", "nothing-taken"):
    "Nothing is done: no batch was taken that is not appended. No cause before it holds: node 3 is made, it "
    "is running and it has vBucket 702.",
    ("done 3 702", "nothing-taken"):
    "Nothing is done: no batch was appended that is not done. No cause before it holds: node 3 is made, it "
    "is running and it has vBucket 702.",
    ("save 3 702", "disk"):
    "The disk failed. Before that nothing was against it: node 3 is made, it is running, it has vBucket 702 "
    "and a batch was taken.",
    ("start 3 0", "uuid-zero"):
    "Nothing is done: no branch has the id 0. No cause before it holds: node 3 is made and it is down.",
    ("start 3 2202 3303", "uuid-used"):
    "Nothing is done: an earlier branch has one of the ids 2202 3303, or one stands twice. No cause before "
    "it holds: node 3 is made, it is down and no id is 0.",
    ("start 3 2202", "ids-short"):
    "Nothing is done: more of the vBuckets of node 3 were active than there are ids. No cause before it "
    "holds: node 3 is made, it is down, no id is 0 and none is that of an earlier branch or stands twice.",
    ("start 3 2202", "disk"):
    "The disk failed. Before that nothing was against it: node 3 is made, it is down, no id is 0 and none is "
    "that of an earlier branch or stands twice.",
    ("start 3 2202", "stopped"):
    "Node 3 stopped again. Before that nothing was against it: node 3 is made, it is down, no id is 0 and "
    "none is that of an earlier branch or stands twice.",
}
# Frames in words, and as phrases.
FRAMES = {
    "get k --vb 7 --opaque 8 --cas 9": 'GET: vBucket 7, key "k", opaque 8, CAS 9',
    "set k v --flags 8 --expiration 2 --vb 4 --datatype 1 --opaque 5 --cas 6 --durability 3,7":
    "SET: vBucket 4, framing extra durability 3, persisted at a majority, timeout 7 ms, flags 8, expiration "
    '2, key "k", value "v", datatype JSON, opaque 5, CAS 6',
    "delete k --durability 2 --vb 4 --opaque 5":
    'DELETE: vBucket 4, framing extra durability 2, majority and persisted at the active, key "k", opaque 5',
    "answer set --status success --branch 11 --seqno 5 --opaque 6 --cas 9":
    "SET answered success: branch 11, seqno 5, opaque 6, CAS 9",
    "answer get v --status success --flags 3 --opaque 4 --cas 5":
    'GET answered success: flags 3, value "v", opaque 4, CAS 5',
    "stream-request --flags 1 --reserved 2 --start 3 --end 4 --branch 5 --snap-start 6 --snap-end 7 --vb 8 --opaque 9":
    "STREAM-REQUEST: vBucket 8, flags 1, reserved 2, start 3, end 4, branch 5, snap start 6, snap end 7, "
    "opaque 9",
    "answer stream-request --log 22:2,11:1 --status success --opaque 7":
    "STREAM-REQUEST answered success: log entry branch 22, made at 2, log entry branch 11, made at 1, opaque "
    "7",
    "answer stream-request --to 3 --status rollback --opaque 7":
    "STREAM-REQUEST answered rollback: roll back to 3, opaque 7",
    "snapshot-marker --start 1 --end 2 --flags 3 --vb 4 --opaque 5":
    "SNAPSHOT-MARKER: vBucket 4, start 1, end 2, flags 3, opaque 5",
    "mutation k v --seqno 1 --revision 2 --flags 3 --expiration 4 --lock-time 5 --metadata-length 6 --nru 7 --vb 9":
    "MUTATION: vBucket 9, seqno 1, revision 2, flags 3, expiration 4, lock time 5, metadata length 6, nru 7, "
    'key "k", value "v"',
    "deletion k --seqno 1 --revision 2 --metadata-length 3 --vb 4 --opaque 5 --cas 6":
    'DELETION: vBucket 4, seqno 1, revision 2, metadata length 3, key "k", opaque 5, CAS 6',
    "prepare k v --seqno 1 --revision 2 --flags 3 --expiration 4 --lock-time 5 --nru 6 --deleted 7 --level 8":
    'PREPARE: seqno 1, revision 2, flags 3, expiration 4, lock time 5, nru 6, deleted 7, level 8, key "k", '
    'value "v"',
    "commit k --prepared 1 --seqno 2 --vb 3 --opaque 4": 'COMMIT: vBucket 3, prepared 1, seqno 2, key "k", opaque 4',
    "abort k --prepared 1 --seqno 2 --vb 3 --opaque 4": 'ABORT: vBucket 3, prepared 1, seqno 2, key "k", opaque 4',
    "seqno-acknowledged --seqno 1 --vb 2 --opaque 3": "SEQNO-ACKNOWLEDGED: vBucket 2, seqno 1, opaque 3",
    "set-vbucket-state --state 1 --vb 3 --opaque 4": "SET-VBUCKET-STATE: vBucket 3, state 1, active, opaque 4",
    "set-vbucket-state --state 3 --vb 4 --opaque 5": "SET-VBUCKET-STATE: vBucket 4, state 3, pending, opaque 5",
    "stream-end --reason 2 --vb 3 --opaque 4":
    "STREAM-END: vBucket 3, reason 2, its vBucket changed its role, opaque 4",
    "set k v --extras 0x010203 --opaque 4": 'SET: extras 3 bytes, where the row has 8, key "k", value "v", opaque 4',
    "get k --framing 0x2307 --opaque 4": 'GET: framing extra id 2, 1 of 3 bytes, key "k", opaque 4',
    f"set k 0x80{'ff' * 64}": f'SET: key "k", value 0x80{"ff" * 63}... (65 bytes)',
    "open n1 --number 2 --flags 3 --opaque 4": 'OPEN: number 2, flags 3, name "n1", opaque 4',
    "close-stream --vb 3 --opaque 4": "CLOSE-STREAM: vBucket 3, opaque 4",
    "get-failover-log --vb 3 --opaque 4": "GET-FAILOVER-LOG: vBucket 3, opaque 4",
    "answer get-failover-log --log 22:2,11:1 --status success --opaque 7":
    "GET-FAILOVER-LOG answered success: log entry branch 22, made at 2, log entry branch 11, made at 1, opaque 7",
    "answer get-failover-log --status not-my-vbucket --opaque 7": "GET-FAILOVER-LOG answered not-my-vbucket: opaque 7",
    "dcp-noop --opaque 4": "DCP-NOOP: opaque 4",
    "buffer-acknowledgement --bytes 5 --opaque 4": "BUFFER-ACKNOWLEDGEMENT: bytes 5, opaque 4",
}
# What a change of role is beside its own sentence, by the line in which it is told.
HANDING_OVER = {
    ("pump 505 80", "role 3 702 dead"): [
        "It is given up: nobody takes writes on its branch until the link's other end takes over."
    ],
    ("down 505 70", "role 9 702 active"): [
        "It takes over, on the branch that it followed, and its chain is its node alone."
    ],
    ("down 505 70", "role 9 702 pending"): [],
    ("dead 3 702", "role 3 702 dead"): [],
    ("promote 9 702 2202", "role 9 702 active"): [],
    ("pump 505 80", "mark L505 11 13 1"): [],
}
# What is said of writes that wait in corpus/durable/numbers-differ, in its order.
WAITING = [
    "A majority of the chain is 2 of 3.",
    "Client 41 waits for 1 of node 9 and node 12 to acknowledge it: a majority of the chain is 2 of 3.",
    "Client 43 waits for 1 of node 9 and node 12 to acknowledge it, and for node 5 to save it, and for change 21 "
    "to be committed first: a majority of the chain is 2 of 3.",
    "Client 47 waits for 1 of node 9 and node 12 to save and acknowledge it, and for node 5 to save it, and for "
    "change 22 to be committed first: a majority of the chain is 2 of 3.",
    "A majority of the chain is 3 of 4.",
    "Change 21 still waits for more members than are set.",
    "Change 22 still waits for more members than are set, and for node 5 to save it, and for change 21 to be "
    "committed first.",
    "Change 23 still waits for more members than are set, and for node 5 to save it, and for change 22 to be "
    "committed first.",
    "A majority of the chain is 3 of 4.",
    "Change 21 still waits for node 12 and node 9 to acknowledge it.",
    "Change 22 still waits for node 12 and node 9 to acknowledge it, and for node 5 to save it, and for change "
    "21 to be committed first.",
    "Change 23 still waits for node 12 and node 9 to save and acknowledge it, and for node 5 to save it, and for "
    "change 22 to be committed first.",
    "A majority of the chain is 3 of 4.",
    "Change 21 still waits for 2 of node 9, node 15 and node 12 to acknowledge it.",
    "Change 22 still waits for 2 of node 9, node 15 and node 12 to acknowledge it, and for node 5 to save it, "
    "and for change 21 to be committed first.",
    "Change 23 still waits for 2 of node 9, node 15 and node 12 to save and acknowledge it, and for node 5 to "
    "save it, and for change 22 to be committed first.",
    "A majority of the chain is 2 of 3.",
    "Change 21 still waits for 1 of node 9 and node 12 to acknowledge it.",
    "Change 22 still waits for 1 of node 9 and node 12 to acknowledge it, and for node 5 to save it, and for "
    "change 21 to be committed first.",
    "Change 23 still waits for 1 of node 9 and node 12 to save and acknowledge it, and for node 5 to save it, "
    "and for change 22 to be committed first.",
    "This is kept unread, as change 21 waits.",
    "Node 15 is no member of the chain, so nothing waits for that.",
    "Client 41 of node 5 waits for that with change 21.",
    "Client 43 of node 5 waits for that with change 22.",
    "Change 21 waits for nothing more.",
    "Change 22 still waits for node 5 to save it, and for change 21 to be committed first.",
    "Change 21 is held by node 5 and node 9: a majority of the chain is 2 of 3.",
    "It waited with change 21, which is committed by change 24.",
    "Change 22 is held by node 5 and node 9, and node 5 has saved it: a majority of the chain is 2 of 3.",
    "It waited with change 22, which is committed by change 25.",
    "Change 23 still waits for 1 of node 9 and node 12 to save and acknowledge it.",
    "Its deadline is over, and it still waited for 1 of node 9 and node 12 to save and acknowledge it.",
    "It waited with change 23, which is given up by change 26.",
    "Client 53 waits for 1 of node 9 and node 12 to acknowledge it: a majority of the chain is 2 of 3.",
    "Client 59 waits for 1 of node 9 and node 12 to acknowledge it, and for change 27 to be committed first: a "
    "majority of the chain is 2 of 3.",
    "Node 5 waits for that with change 27.",
    "Client 59 of node 5 waits for that with change 28.",
    "Change 27 is held by node 9: a majority of the chain is 1 of 1.",
    "Change 28 is held by node 9: a majority of the chain is 1 of 1.",
    "It waited with change 28, and nobody knows yet whether that stands.",
    "Client 61 waits for no other node: a majority of the chain is 1 of 1.",
    "Change 31 is held by node 9: a majority of the chain is 1 of 1.",
    "It waited with change 31, which is committed by change 32.",
]
# Frames in words, and field by field: the byte at which each stands, its name and what it means.
FIELDS = {
    "set key value --flags 18 --expiration 19 --vb 30 --datatype 1 --opaque 21 --cas 22 --durability 2,23": [
        (0, "magic", "request with framing extras"), (1, "opcode", "set"), (2, "framing length", "4"),
        (3, "key length", "3"), (4, "extras length", "8"), (5, "datatype", "1, JSON"), (6, "vBucket", "30"),
        (8, "body length", "20"), (12, "opaque", "21"), (16, "CAS", "22"),
        (24, "framing extra", "durability 2, majority and persisted at the active, timeout 23 ms"),
        (28, "flags", "18"), (32, "expiration", "19"), (36, "key", '"key"'), (39, "value", '"value"'),
    ],
    "answer stream-request --log 22:2,11:1 --status success --opaque 7 --cas 9": [
        (0, "magic", "response"), (1, "opcode", "stream-request"), (2, "key length", "0"), (4, "extras length", "0"),
        (5, "datatype", "0, raw"), (6, "status", "success"), (8, "body length", "32"), (12, "opaque", "7"),
        (16, "CAS", "9"), (24, "log entry", "branch 22, made at 2"), (40, "log entry", "branch 11, made at 1"),
    ],
    "answer stream-request --to 9 --status rollback --opaque 7": [
        (0, "magic", "response"), (1, "opcode", "stream-request"), (2, "key length", "0"), (4, "extras length", "0"),
        (5, "datatype", "0, raw"), (6, "status", "rollback"), (8, "body length", "8"), (12, "opaque", "7"),
        (16, "CAS", "0"), (24, "roll back to", "9"),
    ],
    "hello me --features json,0x0012 --opaque 3": [
        (0, "magic", "request"), (1, "opcode", "hello"), (2, "key length", "2"), (4, "extras length", "0"),
        (5, "datatype", "0, raw"), (6, "vBucket", "0"), (8, "body length", "6"), (12, "opaque", "3"),
        (16, "CAS", "0"), (24, "name", '"me"'), (26, "feature", "json"), (28, "feature", "0x0012"),
    ],
}  # fmt: skip
