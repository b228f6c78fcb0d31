"""Lines of scripts, and what lint says of each."""

BRANCH = "a branch id from 0 to 18446744073709551615"
BUFFER = "a number of bytes from 0 to 4294967295"
LINKS = "link L M N V BUF follow, or link L M N V BUF takeover"
VB = "vb N V active U, or vb N V replica"

# Each kind of message, and each kind of place once.
FAULTS = {
    b"nod 0": 'word 1 "nod" is no verb; the nearest is node: node N',
    b"shwo 0 0": 'word 1 "shwo" is no verb; the nearest is show: show N V',
    b"comit 0": 'word 1 "comit" is no verb; the nearest is client: client N C',
    b"Follow 0 0": 'word 1 "Follow" is not in small letters; the nearest is follow: follow N V',
    b"vbs 0 7 active 11": f'word 1 "vbs" is no verb; the nearest is vb: {VB}',
    b"%!": 'word 1 "%!" is no verb; wanted is a verb',
    b" node 0": 'word 1 "" is empty, as there is a space too many; wanted is a verb',
    b" ; no comment": 'word 1 "" is empty, as there is a space too many; wanted is a verb',
    b"\r": 'word 1 "\\r" has a carriage return; wanted is a verb',
    b"node\t0": 'word 1 "node\\t0" has a tab; the nearest is node: node N',
    b"node 0\r": 'word 2 "0\\r" has a carriage return; wanted is a node from 0 to 15: node N',
    b"node \0": 'word 2 "\\x00" has a NUL; wanted is a node from 0 to 15: node N',
    b"node \xd9\xa1": 'word 2 "\\xd9\\xa1" has the byte 0xd9; wanted is a node from 0 to 15: node N',
    b"node": "word 2 is missing; wanted is a node from 0 to 15: node N",
    b"node ": 'word 2 "" is empty, as there is a space too many; wanted is a node from 0 to 15: node N',
    b"node 0 ": 'word 3 "" is empty, as there is a space too many; wanted is the line\'s end: node N',
    b"node 0 1": 'word 3 "1" is one too many; wanted is the line\'s end: node N',
    b"node 16": 'word 2 "16" is above 15; wanted is a node from 0 to 15: node N',
    b"node 00": 'word 2 "00" has a needless zero; wanted is a node from 0 to 15: node N',
    b"node -1": 'word 2 "-1" is no number; wanted is a node from 0 to 15: node N',
    b"vb 0 1024 replica": f'word 3 "1024" is above 1023; wanted is a vBucket from 0 to 1023: {VB}',
    b"vb 0 7 dead": f'word 4 "dead" is none that may stand there; wanted is active or replica: {VB}',
    b"vb 0 7 Replica": f'word 4 "Replica" is not in small letters; wanted is active or replica: {VB}',
    b"vb 0 7": f"word 4 is missing; wanted is active or replica: {VB}",
    b"vb 0 7 active": f"word 5 is missing; wanted is {BRANCH}: vb N V active U",
    b"vb 0 7 replica 11": 'word 5 "11" is one too many; wanted is the line\'s end: vb N V replica',
    b"promote 0 7 18446744073709551616": 'word 4 "18446744073709551616" is above 18446744073709551615;'
    f" wanted is {BRANCH}: promote N V U",
    b"clock 0 x": 'word 3 "x" is no number;'
    " wanted is a time in nanoseconds from 0 to 18446744073709551615: clock N T",
    b"chain 0 7 1 16": 'word 5 "16" is above 15;'
    " wanted is - or a node from 0 to 15 or the line's end: chain N V and M..",
    b"chain 0 7 1 - 3 4": 'word 7 "4" is one too many; wanted is the line\'s end: chain N V and M..',
    b"client 0 1000": 'word 3 "1000" is above 999; wanted is a client from 0 to 999: client N C',
    b"bytes 0 1 80f": 'word 4 "80f" has an odd number of digits, 3;'
    " wanted is bytes, each two hexadecimal digits: bytes N C HEX",
    b"bytes 0 1 80og": 'word 4 "80og" has no hexadecimal digit at its place 3;'
    " wanted is bytes, each two hexadecimal digits: bytes N C HEX",
    b"bytes 0 1 " + b"8" * 41: f'word 4 "{"8" * 40}".. has an odd number of digits, 41;'
    " wanted is bytes, each two hexadecimal digits: bytes N C HEX",
    b"link 1000 0 1 7 0 follow": f'word 2 "1000" is above 999; wanted is a link from 0 to 999: {LINKS}',
    b"link 1 16 1 7 0 takeover": f'word 3 "16" is above 15; wanted is a node from 0 to 15: {LINKS}',
    b"link 1 0 1 7 4294967296 follow": f'word 6 "4294967296" is above 4294967295; wanted is {BUFFER}: {LINKS}',
    b"link 1 0 1 7 007 follow": f'word 6 "007" has a needless zero; wanted is {BUFFER}: {LINKS}',
    b"link 1 0 1 7 takeover": f'word 6 "takeover" is no number; wanted is {BUFFER}: {LINKS}',
    b"link 1 0 1 7 0 Takeover": f'word 7 "Takeover" is not in small letters; wanted is follow or takeover: {LINKS}',
    b"link 1 0 1 7 0 takeover2": 'word 7 "takeover2" is none that may stand there;'
    f" wanted is follow or takeover: {LINKS}",
    b"link 1 0 1 7 0": f"word 7 is missing; wanted is follow or takeover: {LINKS}",
    b"link 1 0 1 7 0 takeover 0": 'word 8 "0" is one too many; wanted is the line\'s end: link L M N V BUF takeover',
    b"up 1 1000000001": 'word 3 "1000000001" is above 1000000000;'
    " wanted is a number of bytes from 0 to 1000000000: up L B",
    b"pull 0 1 0": 'word 4 "0" is below 1; wanted is a number of frames from 1 to 1000000: pull N C K',
    b"pull 0 1 1000001": 'word 4 "1000001" is above 1000000;'
    " wanted is a number of frames from 1 to 1000000: pull N C K",
    b"pull 0 1000 1": 'word 3 "1000" is above 999; wanted is a client from 0 to 999: pull N C K',
    b"pump 1 0": 'word 3 "0" is below 1; wanted is a number of frames from 1 to 1000000: pump L K',
    b"pump 1 1000001": 'word 3 "1000001" is above 1000000; wanted is a number of frames from 1 to 1000000: pump L K',
    b"fail 0 1000000001": 'word 3 "1000000001" is above 1000000000;'
    " wanted is a device call from 0 to 1000000000: fail N K",
    b"stop 0 1": "word 4 is missing; wanted is old or new or fill: stop N K OUT",
    b"stop 0 1 fill 256": 'word 5 "256" is above 255; wanted is a byte from 0 to 255: stop N K OUT',
    b"crash 0 old 1": 'word 4 "1" is one too many; wanted is the line\'s end: crash N OUT',
    b"crash 0 none": 'word 3 "none" is none that may stand there; wanted is old or new or fill: crash N OUT',
    b"start 0 01": f'word 3 "01" has a needless zero; wanted is {BRANCH} or the line\'s end: start N and U..',
    b"start 0" + b" 1" * 65: 'word 67 "1" is one too many; wanted is the line\'s end: start N and U..',
}
# The longest and the shortest of each kind.
GOOD = [
    b"node 15", b"vb 15 1023 active 18446744073709551615", b"vb 0 0 active 0", b"chain 0 0", b"chain 15 1023 15 - 0",
    b"clock 0 18446744073709551615", b"client 0 999", b"bytes 0 999 aF", b"link 0 0 0 0 0 follow",
    b"link 999 15 15 1023 4294967295 follow", b"link 0 0 0 0 0 takeover",
    b"link 999 15 15 1023 4294967295 takeover", b"up 0 1000000000", b"down 999 0", b"pump 999 1000000", b"pump 0 1", b"pull 15 999 1000000", b"pull 0 0 1",
    b"stop 0 1000000000 fill 255", b"stop 0 0 fill 0", b"fail 0 0", b"crash 0 new", b"start 15", b"start 0" + b" 0" * 64,
]  # fmt: skip

BEGUN = "node 3\nclient 3 41\n"
OPENED = f"{BEGUN}@open 3 41 x --flags 1\n"
# A script with frames in words, and the notes.
NOTES = {
    "node 3\n@0x99 3 41": "",
    BEGUN + "@get 3 41 a\n@hello 3 41 --features json\n@get 3 41 a --datatype 1\n@noop 3 41": "",
    BEGUN + "@0x99 3 41": "line 3, note: frame 1, opcode 0x99, will be refused, UnknownCommand (0x0081):"
    " neither a command of a client nor DCP has the opcode 0x99",
    # Messages of DCP: behind OPEN, before it, and with what no producer takes.
    OPENED + "@control 3 41 connection_buffer_size 4294967295\n@control 3 41 set_noop_interval 0\n"
    "@control 3 41 enable_noop true\n@control 3 41 enable_sync_writes false\n@control 3 41 consumer_name x\n"
    "@stream-request 3 41\n@close-stream 3 41\n@get-failover-log 3 41\n@dcp-noop 3 41 --magic 0x08\n"
    "@buffer-acknowledgement 3 41 --bytes 7": "",
    BEGUN + "@stream-request 3 41\n@open 3 41 x --flags 0\n@dcp-noop 3 41\n@open 3 41 x --flags 1\n@dcp-noop 3 41\n"
    "hang 3 41\nclient 3 41\n@dcp-noop 3 41": "line 3, note: frame 1, STREAM-REQUEST, will be refused, Einval (0x0004):"
    " there was no OPEN on the connection\n"
    "line 4, note: frame 1, OPEN, will be refused, NotSupported (0x0083): the flags of OPEN are 1, and these are 0\n"
    "line 5, note: frame 1, DCP-NOOP, will be refused, Einval (0x0004): there was no OPEN on the connection\n"
    "line 10, note: frame 1, DCP-NOOP, will be refused, Einval (0x0004): there was no OPEN on the connection",
    OPENED + "@open 3 41 y --flags 1": "line 4, note: frame 1, OPEN, will be refused, Einval (0x0004):"
    " there was an OPEN on the connection",
    BEGUN + "@open 3 41 x --flags 2": "line 3, note: frame 1, OPEN, will be refused, Einval (0x0004):"
    " the flags of OPEN are 1, and these are 2",
    BEGUN + "@open 3 41 --flags 1": "line 3, note: frame 1, OPEN, will be refused, Einval (0x0004):"
    " a name has 1 to 250 bytes, and this one has 0",
    OPENED + "@dcp-noop 3 41 --datatype 1": "line 4, note: frame 1, DCP-NOOP, will be refused, Einval (0x0004):"
    " a client's message of DCP has the datatype 0, and this one has 1",
    OPENED + "@dcp-noop 3 41 --framing 0x1101": "line 4, note: frame 1, DCP-NOOP, will be refused, Einval (0x0004):"
    " a message of DCP has no framing extras, and this one has 2 bytes",
    OPENED + "@buffer-acknowledgement 3 41 --extras 0x01": "line 4, note: frame 1, BUFFER-ACKNOWLEDGEMENT, will be"
    " refused, Einval (0x0004): BUFFER-ACKNOWLEDGEMENT has extras of 4 bytes, and these have 1 byte",
    OPENED + "@close-stream 3 41 --key k": "line 4, note: frame 1, CLOSE-STREAM, will be refused, Einval (0x0004):"
    " CLOSE-STREAM has no key, and this one has 1 byte",
    OPENED + "@close-stream 3 41 --value vv": "line 4, note: frame 1, CLOSE-STREAM, will be refused, Einval (0x0004):"
    " CLOSE-STREAM has no value, and this one has 2 bytes",
    OPENED + "@snapshot-marker 3 41": "line 4, note: frame 1, SNAPSHOT-MARKER, will be refused, Einval (0x0004):"
    " no producer takes SNAPSHOT-MARKER",
    OPENED + "@set-vbucket-state 3 41 --state 1": "line 4, note: frame 1, SET-VBUCKET-STATE, will be refused,"
    " Einval (0x0004): no producer takes SET-VBUCKET-STATE",
    OPENED + "@control 3 41 marker_version 2": "line 4, note: frame 1, CONTROL, will be refused, Einval (0x0004):"
    " CONTROL has no such parameter",
    OPENED + "@control 3 41 connection_buffer_size 007": "line 4, note: frame 1, CONTROL, will be refused,"
    " Einval (0x0004): CONTROL's parameter connection_buffer_size does not take this value",
    OPENED + f"@control 3 41 consumer_name {'k' * 251}": "line 4, note: frame 1, CONTROL, will be refused,"
    " Einval (0x0004): CONTROL's parameter consumer_name does not take this value",
    OPENED + "@control 3 41 enable_noop yes": "line 4, note: frame 1, CONTROL, will be refused,"
    " Einval (0x0004): CONTROL's parameter enable_noop does not take this value",
    OPENED + "@stream-request 3 41 --flags 3": "line 4, note: frame 1, STREAM-REQUEST, will be refused,"
    " Einval (0x0004): the flags of STREAM-REQUEST are 0, and these are 3",
    OPENED + "@stream-request 3 41 --flags 1": "line 4, note: frame 1, STREAM-REQUEST, will be refused,"
    " NotSupported (0x0083): a client does not take a vBucket over, which the flags 1 ask for",
    OPENED + "@seqno-acknowledged 3 41 --seqno 7": "line 4, note: frame 1, SEQNO-ACKNOWLEDGED, will be refused,"
    " NotSupported (0x0083): a client acknowledges no seqnos",
    BEGUN + "@get 3 41 a --datatype 2": "line 3, note: frame 1, GET, will be refused, Einval (0x0004):"
    " a datatype is 0 or 1, and this one is 2",
    BEGUN + "@get 3 41 a --datatype 1": "line 3, note: frame 1, GET, will be refused, Einval (0x0004):"
    " the datatype is 1, and the connection has not set the feature JSON",
    BEGUN + "@hello 3 41 --features json\n@hello 3 41 --features mutation-seqnos\n@set 3 41 a --datatype 1": "line 5,"
    " note: frame 1, SET, will be refused, Einval (0x0004):"
    " the datatype is 1, and the connection has not set the feature JSON",
    BEGUN + "@set 3 41 a 1 --framing 0x1101230102": "line 3, note: frame 1, SET, will be refused,"
    " UnknownFrameInfo (0x0080): a framing extra has the id 1, and this one has 2",
    BEGUN + "@set 3 41 a 1 --framing 0x1301": "line 3, note: frame 1, SET, will be refused, Einval (0x0004):"
    " a durability requirement is cut short, at 1 of 3 bytes",
    BEGUN + "@set 3 41 a 1 --framing 0x120102": "line 3, note: frame 1, SET, will be refused, Einval (0x0004):"
    " a durability requirement has 1 or 3 bytes, and this one has 2",
    BEGUN + "@set 3 41 a 1 --framing 0x11011102": "line 3, note: frame 1, SET, will be refused, Einval (0x0004):"
    " there is a second durability requirement",
    BEGUN + "@get 3 41 a --durability 4": "line 3, note: frame 1, GET, will be refused, NotSupported (0x0083):"
    " GET has no durability requirement, and this one has one",
    BEGUN + "@set 3 41 a --durability 4": "line 3, note: frame 1, SET, will be refused,"
    " DurabilityInvalidLevel (0x00a0): a durability level is 1, 2 or 3, and this one is 4",
    BEGUN + "@set 3 41 a --extras 0x00": "line 3, note: frame 1, SET, will be refused, Einval (0x0004):"
    " SET has extras of 8 bytes, and these have 1 byte",
    BEGUN + "@noop 3 41 --key abc": "line 3, note: frame 1, NOOP, will be refused, Einval (0x0004):"
    " NOOP has no key, and this one has 3 bytes",
    BEGUN + f"@get 3 41 {'k' * 251}": "line 3, note: frame 1, GET, will be refused, Einval (0x0004):"
    " a key has 1 to 250 bytes, and this one has 251",
    BEGUN + f"@hello 3 41 {'k' * 251}": "line 3, note: frame 1, HELLO, will be refused, Einval (0x0004):"
    " a name has 0 to 250 bytes, and this one has 251",
    BEGUN + "@get 3 41 --extras 0x": "line 3, note: frame 1, GET, will be refused, Einval (0x0004):"
    " a key has 1 to 250 bytes, and this one has 0",
    BEGUN + "@delete 3 41 a --value 1": "line 3, note: frame 1, DELETE, will be refused, Einval (0x0004):"
    " DELETE has no value, and this one has 1 byte",
    BEGUN + "@hello 3 41 --value abc": "line 3, note: frame 1, HELLO, will be refused, Einval (0x0004):"
    " features have 2 bytes each, and these have 3 bytes together",
    BEGUN + "@add 3 41 a 1 --cas 5": "line 3, note: frame 1, ADD, will be refused, Einval (0x0004):"
    " ADD has the CAS 0, and this one has 5",
    BEGUN + "@answer 3 41 get": "line 3, note: frame 1, GET, is a response, which the node drops",
    BEGUN + "bytes 3 41 80\nclock 3 7\nhang 3 41": "line 5, note: what line 3 sent is lost,"
    " less than a frame: 1 of 24 bytes of the header",
    BEGUN + "bytes 3 41 80\ncrash 3 new": "line 4, note: what line 3 sent is lost,"
    " less than a frame: 1 of 24 bytes of the header",
    BEGUN + "bytes 3 41 80\nbytes 3 41 01\nclock 3 7": "line 4, note: client 41 of node 3 is left with"
    " less than a frame: 2 of 24 bytes of the header",
    BEGUN + "bytes 3 41 12\n@0x99 3 41": "line 3, note: no frame begins here, BadMagic: the first byte is 0x12;"
    " the node will close the connection",
    BEGUN + "@noop 3 41 --body-length 22020097": "line 3, note: no frame begins here, BodyTooLong:"
    " a body of 22,020,097 bytes is too long; the node will close the connection",
    BEGUN + "@get 3 41 a --body-length 0": "line 3, note: no frame begins here, BadLengths:"
    " a body of 0 bytes is shorter than its parts, 1; the node will close the connection",
    BEGUN + "bytes 3 41 12\nclient 3 41\n@0x99 3 41": "line 3, note: no frame begins here, BadMagic:"
    " the first byte is 0x12; the node will close the connection\n"
    "line 5, note: frame 1, opcode 0x99, will be refused, UnknownCommand (0x0081):"
    " neither a command of a client nor DCP has the opcode 0x99",
    # Behind a line that arms the node the connection may be gone, and behind a crash it is.
    BEGUN + "stop 3 5 old\n@0x99 3 41\nclient 3 41\n@0x99 3 41\ncrash 3 old\nclient 3 41\n@0x99 3 41\nstart 3\n"
    "client 3 41\n@0x99 3 41": "line 12, note: frame 1, opcode 0x99, will be refused, UnknownCommand (0x0081):"
    " neither a command of a client nor DCP has the opcode 0x99",
    # The first start may have failed.
    BEGUN + "crash 3 old\nstart 3\nclient 3 41\nstart 3\n@0x99 3 41": "",
    # A durable write may hold the fault up, and with it the end of the connection.
    BEGUN + "@set 3 41 a 1 --durability 1\nbytes 3 41 12\nclient 3 41\n@0x99 3 41\nhang 3 41\nclient 3 41\n"
    "@0x99 3 41": "line 4, note: no frame begins here, BadMagic: the first byte is 0x12;"
    " the node will close the connection\n"
    "line 9, note: frame 1, opcode 0x99, will be refused, UnknownCommand (0x0081):"
    " neither a command of a client nor DCP has the opcode 0x99",
}
