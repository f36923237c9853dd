"""Setup files: what `check` says of each mistake, of edits that are refused, of what is seldom meant, and of what would run."""
from peers import same
from test_startup import printed

# Files, and behind a line `=>` what is said of each, from the line's number on; nothing stands there where the file is right. Cases are parted by a line
# of hyphens.
FAULTS = r"""
[[pmu]]
id = 7
connect = []
[[pmu]]
id = 8
connect = ["10.0.0.1:4712", "h:1", "h:2", "h:3", "h:4"]
[[pmu]]
id = 9
connect = ["10.0.0.1:4712", "10.0.0.256:4712"]
[[pmu]]
id = 10
connect = 4712
prefer_first = 1
[[pmu]]
id = 11
prefer_first = true
[[pmu]]
id = 12
source = 11
prefer_first = false
[[subscriber]]
id = 1
ring = 64
=>
3: pmu.connect: is a list with 0 items; it has to be a text "A.B.C.D:PORT" or "NAME:PORT", or a list of 1 to 4 of these
6: pmu.connect: is a list with 5 items; it has to be a text "A.B.C.D:PORT" or "NAME:PORT", or a list of 1 to 4 of these
9: pmu.connect: item 2 is the text "10.0.0.256:4712"; it has to be a text "A.B.C.D:PORT" or "NAME:PORT", or a list of 1 to 4 of these
12: pmu.connect: is 4712; it has to be a text "A.B.C.D:PORT" or "NAME:PORT", or a list of 1 to 4 of these
13: pmu.prefer_first: is 1; it has to be true or false
20: pmu.prefer_first: differs from another table of source 11; all its tables have to agree
----
[[pmu]]
id = 7

[[subscriber]]
id = 1
ring = 64
=>
----
tick_ms = 0
[[pmu]]
id = 7
[[subscriber]]
id = 1
ring = 64
=>
1: tick_ms: is 0; it has to be a whole number from 1 to 1000
----
[[pmu]]
id = 7
[[subscriber]]
id = 1
=>
3: subscriber.ring: is missing; it has to be a whole number from 1 to 1024
----
[[pmu]]
id = 7
conect = "10.0.0.1:4712"
[[subscriber]]
id = 1
ring = 64
=>
3: pmu.conect: unknown key; known keys: id, source, connect, prefer_first, silence, clock_ms, ahead_ms
----
[[pmu]]
id = 7
connect = "10.0.0.256:4712"
[[subscriber]]
id = 1
ring = 64
=>
3: pmu.connect: is the text "10.0.0.256:4712"; it has to be a text "A.B.C.D:PORT" or "NAME:PORT", or a list of 1 to 4 of these
----
[[pmu]]
id = "7"
[[subscriber]]
id = 1
ring = 64
=>
2: pmu.id: is the text "7"; it has to be a whole number from 1 to 65534
----
[[pmu]]
id = 7
connect = "10.0.0.1:4712"

[[pmu]]
id = 8
source = 7
connect = "10.0.0.2:4712"
[[subscriber]]
id = 1
ring = 64
=>
8: pmu.connect: is given twice for source 7; only one of its tables may have it
----
[[pmu]]
id = 7
silence = 10
[[pmu]]
id = 8
source = 7
silence = 20
clock_ms = 100
[[pmu]]
id = 9
source = 7
clock_ms = 200
ahead_ms = 0
[[pmu]]
id = 10
source = 7
silence = 10
ahead_ms = 200
[[subscriber]]
id = 1
ring = 64
=>
7: pmu.silence: differs from another table of source 7; all its tables have to agree
12: pmu.clock_ms: differs from another table of source 7; all its tables have to agree
18: pmu.ahead_ms: differs from another table of source 7; all its tables have to agree
----
[[subscriber]]
id = 1
ring = 64
=>
1: pmu: is missing; it has to be one table or more, each under [[pmu]]
----
[pmu]
id = 7
[[subscriber]]
id = 1
ring = 64
=>
1: pmu: is a table; it has to be one table or more, each under [[pmu]]
----
[[pmu]]
id = 7
[[subscriber]]
id = 1
ring = 64
allow = ["10.0.0.0/8", "10.0.0.0/33"]
=>
6: subscriber.allow: item 2 is the text "10.0.0.0/33"; it has to be a list of texts "A.B.C.D" or "A.B.C.D/BITS"
----
[[pmu]]
id = 7
[[subscriber]]
id = 1
ring = 64
takeover = 1
=>
6: subscriber.takeover: is 1; it has to be true or false
----
[[pmu]]
id = 7
[[subscriber]]
id = 1
ring = 64
address = "localhost"
=>
6: subscriber.address: is the text "localhost"; it has to be a text "A.B.C.D"
----
[[pmu]]
id = 7
[[subscriber]]
id = 1
ring = 64
grants = [7, "7/70000"]
=>
6: subscriber.grants: item 2 is the text "7/70000"; it has to be a list of PMUs, each a number from 1 to 65534 or a text "SOURCE/PMU" of two
----
[[pmu]]
id = 7
[[subscriber]]
id = 1
ring = 64
[[subscriber.stream]]
id = 101
rate = 30
base = 1000000
wait = 2
window = 4
members = []
=>
12: subscriber.stream.members: is a list with 0 items; it has to be a list of 1 to 32 PMUs, each a number from 1 to 65534 or a text "SOURCE/PMU" of two
----
[[pmu]]
id = 7
[[subscriber]]
id = 1
ring = 64
[[subscriber.stream]]
id = 101
rate = 30.5
base = 1000000
wait = 2
members = [7]
header = 5
=>
6: subscriber.stream.window: is missing; it has to be a whole number from 1 to 64
8: subscriber.stream.rate: is a number with a fraction, a date or a time; it has to be a whole number from 1 to 120
12: subscriber.stream.header: is 5; it has to be a text
----
[[pmu]]
id = 7
[[subscriber]]
id = 1
ring = 64
[[subscriber.stream]]
id = 101
rate = 121
base = 16777216
wait = 60001
window = 65
members = [7]
rat = 30
=>
8: subscriber.stream.rate: is 121; it has to be a whole number from 1 to 120
9: subscriber.stream.base: is 16777216; it has to be a whole number from 1 to 16777215
10: subscriber.stream.wait: is 60001; it has to be a whole number from 0 to 60000
11: subscriber.stream.window: is 65; it has to be a whole number from 1 to 64
13: subscriber.stream.rat: unknown key; known keys: id, rate, base, wait, window, header, members
----
tick_ms = = 10
[[pmu]]
id = 7
=>
1: invalid value, expected a string, number, boolean, date-time, array or inline table; a setup file is TOML
----
[[pmu]]
id = 7
id = 8
[[subscriber]]
id = 1
ring = 64
=>
3: duplicate key; a setup file is TOML
----
# Members over several lines.
[[pmu]]
id = 7

[[subscriber]]
id = 1
ring = 64
grants = [
    7,
]
# The second one.
[[subscriber]]
id = 2
ring = 2000
grants = [
    7,
    true,
]
port = 70000
=>
14: subscriber.ring: is 2000; it has to be a whole number from 1 to 1024
15: subscriber.grants: item 2 is true; it has to be a list of PMUs, each a number from 1 to 65534 or a text "SOURCE/PMU" of two
19: subscriber.port: is 70000; it has to be a whole number from 1 to 65535
----
logging = "info"
serve = 9
[[pmu]]
source = 7
[[pmu]]
id = 0
[[subscriber]]
id = 65536
ring = 1
stall = 3601
[[subscriber.streams]]
id = 101
=>
1: logging: unknown key; known keys: tick_ms, ingest, serve, log, control, status, name, record, record_mb, record_hours, pmu, subscriber
2: serve: is 9; it has to be a whole number from 1 to 8
3: pmu.id: is missing; it has to be a whole number from 1 to 65534
6: pmu.id: is 0; it has to be a whole number from 1 to 65534
8: subscriber.id: is 65536; it has to be a whole number from 1 to 65535
10: subscriber.stall: is 3601; it has to be a whole number from 0 to 3600
11: subscriber.streams: unknown key; known keys: id, port, ring, bytes, grants, stream, address, allow, takeover, stall, idle, change
----
pmu = [{ id = 7 }, 5]
[[subscriber]]
id = 1
ring = 64
bytes = 15
=>
1: pmu: item 2 is 5; it has to be one table or more, each under [[pmu]]
5: subscriber.bytes: is 15; it has to be a whole number from 16 to 16777216
----
pmu = 7
subscriber = [{ id = 1, ring = 64, idle = -1 }]
=>
1: pmu: is 7; it has to be one table or more, each under [[pmu]]
2: subscriber.idle: is -1; it has to be a whole number from 0 to 3600
----
[[pmu]]
id = 7
ahead_ms = 30001
[[subscriber]]
id = 1
ring = 64
change = "hang up"
[[subscriber]]
id = 2
ring = 64
change = true
=>
3: pmu.ahead_ms: is 30001; it has to be a whole number from 0 to 30000
7: subscriber.change: is the text "hang up"; it has to be "safe", "hangup" or "keep"
11: subscriber.change: is true; it has to be "safe", "hangup" or "keep"
----
log = "debug"
control = "/run/012345678901234567890123456789012345678901234567890123456789012345678901234567890123456789012345678901"
status = "127.0.0.1:9100"
[[pmu]]
id = 7
[[subscriber]]
id = 1
ring = 64
=>
----
log = "loud"
control = ""
status = "localhost:80"
[[pmu]]
id = 7
[[subscriber]]
id = 1
ring = 64
=>
1: log: is the text "loud"; it has to be "error", "warn", "info" or "debug"
2: control: is the text ""; it has to be the path of a socket, a text of 1 to 107 bytes without a zero byte
3: status: is the text "localhost:80"; it has to be a text "A.B.C.D:PORT"
----
record = ""
record_mb = 15
record_hours = "a day"
[[pmu]]
id = 7
[[subscriber]]
id = 1
ring = 64
=>
1: record: is the text ""; it has to be the path of a folder, a text of 1 to 107 bytes without a zero byte
2: record_mb: is 15; it has to be a whole number from 16 to 10000000
3: record_hours: is the text "a day"; it has to be a whole number from 1 to 100000
----
status = 9100

# A path of 108 bytes.
control = "/run/012345678901234567890123456789012345678901234567890123456789012345678901234567890123456789012345678901x"
log = true
[[pmu]]
id = 7
[[subscriber]]
id = 1
ring = 64
=>
1: status: is 9100; it has to be a text "A.B.C.D:PORT"
4: control: is the text "/run/012345678901234567890123456789012345678901234567890123456789012345678901234567890123456789012345678901x"; it has to be the path of a socket, a text of 1 to 107 bytes without a zero byte
5: log: is true; it has to be "error", "warn", "info" or "debug"
----
[[pmu]]
id = 7
[[subscriber]]
id = 1
ring = 64
[[subscriber.stream]]
header = "a \" # [ ' b"
id = 101
rate = 30
base = 1000000
wait = 2
window = 4
members = [ # ] "
    7, '7/8',
]
rat = 1 # '
[[subscriber]]
id = 0
ring = 64
=>
16: subscriber.stream.rat: unknown key; known keys: id, rate, base, wait, window, header, members
18: subscriber.id: is 0; it has to be a whole number from 1 to 65535
----
[[pmu]]
id = 7
[[subscriber]]
id = 1
ring = 64
stream = [{ id = 1, rate = 600, base = 1000000, wait = 2, window = 4, members = [7] }]
[[subscriber]]
id = 2
ring = 64
[[subscriber.stream]]
id = 1
rate = 600
base = 1000000
wait = 2
window = 4
members = [7]
[subscriber.stream.x]
rate = 1
[[subscriber.stream]]
id = 0
rate = 30
base = 1000000
wait = 2
window = 4
members = [7]
=>
6: subscriber.stream.rate: is 600; it has to be a whole number from 1 to 120
12: subscriber.stream.rate: is 600; it has to be a whole number from 1 to 120
17: subscriber.stream.x: unknown key; known keys: id, rate, base, wait, window, header, members
20: subscriber.stream.id: is 0; it has to be a whole number from 1 to 65534
"""

# Lines that end as on Windows.
WINDOWS = """
# A comment.
tick_ms = 10
serve = 9
[[pmu]]
id = 7
[[subscriber]]
id = 1
ring = 0
=>
3: serve: is 9; it has to be a whole number from 1 to 8
8: subscriber.ring: is 0; it has to be a whole number from 1 to 1024
----
tick_ms = 10
[[pmu]]
id = = 7
=>
3: invalid value, expected a string, number, boolean, date-time, array or inline table; a setup file is TOML
"""
# Texts of several lines, and marks at their ends.
QUOTED = '''
# What looks like headings, in texts of several lines.
control = """
[[pmu]]
id = 0
"""
log = \'\'\'
[[subscriber]]
\'\'\''
[[pmu]]
id = 0
[[subscriber]]
id = 1
ring = 64
=>
6: log: is the text "[[subscriber]]\\n'"; it has to be "error", "warn", "info" or "debug"
10: pmu.id: is 0; it has to be a whole number from 1 to 65534
----
"serve" = 9
log = """[""""
ingest = 9
[[ pmu ]]
'id' = 7
"silenc" = 5
[pmu.extra]
id = 1
[[subscriber]]
id = 1
ring = 64
other . key = 1
[subscriber.more.deep]
ring = 0
[subscriber.more.steep]
ring = 0
=>
1: serve: is 9; it has to be a whole number from 1 to 8
2: log: is the text "[\\""; it has to be "error", "warn", "info" or "debug"
3: ingest: is 9; it has to be a whole number from 1 to 8
6: pmu.silenc: unknown key; known keys: id, source, connect, prefer_first, silence, clock_ms, ahead_ms
7: pmu.extra: unknown key; known keys: id, source, connect, prefer_first, silence, clock_ms, ahead_ms
12: subscriber.other: unknown key; known keys: id, port, ring, bytes, grants, stream, address, allow, takeover, stall, idle, change
13: subscriber.more: unknown key; known keys: id, port, ring, bytes, grants, stream, address, allow, takeover, stall, idle, change
'''

# Keys of a stream, from line 7 of the file on, and what is said of them.
DEFINITIONS = """
rate = 0
base = 1000000
wait = 2
window = 4
members = [7]
=>
s.toml:7: subscriber 1: stream 101: refused BadDefinition: rate is 0; it has to be a whole number from 1 to 120
----
rate = 240
base = 100
wait = 2
window = 4
members = [7]
=>
s.toml:7: subscriber 1: stream 101: refused BadDefinition: rate is 240; it has to be a whole number from 1 to 120
s.toml:8: subscriber 1: stream 101: refused BadDefinition: base is 100; it has to be a whole number from 240 to 16777215
----
rate = 30
base = 16777216
wait = 60001
window = 65
members = [7]
=>
s.toml:8: subscriber 1: stream 101: refused BadDefinition: base is 16777216; it has to be a whole number from 30 to 16777215
s.toml:9: subscriber 1: stream 101: refused BadDefinition: wait is 60001; it has to be a whole number from 0 to 60000
s.toml:10: subscriber 1: stream 101: refused BadDefinition: window is 65; it has to be a whole number from 1 to 64
----
rate = 30
base = 1000000
wait = 2
window = 4
members = [7,8,7]
=>
s.toml:11: subscriber 1: stream 101: refused BadDefinition: members has PMU 7/7 twice; once is allowed
----
rate = 30
base = 1000000
wait = 2
window = 4
members = [7]
header = "é"
=>
s.toml:12: subscriber 1: stream 101: refused BadDefinition: header has 2 bytes; it has to be ASCII of at most 1024 bytes
"""
# Files that are right, and what is seldom meant by them.
WARNINGS = """
status = "10.0.0.4:4800"
[[pmu]]
id = 7
connect = "10.0.0.1:4712"
[[subscriber]]
id = 1
ring = 1
port = 4800
address = "10.0.0.4"
[[subscriber]]
id = 2
ring = 1
port = 4800
address = "10.0.0.5"
[[subscriber]]
id = 3
ring = 1
port = 4800
=>
s.toml:1: warning: status: 10.0.0.4:4800 is the port of subscriber 1 too, so one of them can't be bound; give the page its own port
s.toml:1: warning: status: 10.0.0.4:4800 is the port of subscriber 3 too, so one of them can't be bound; give the page its own port
s.toml:18: warning: subscriber 3: port 4800 on 0.0.0.0 is the port of subscriber 1 too, so one of them can't be bound; give each its own port
----
[[pmu]]
id = 7
connect = "127.0.0.1:4800"
[[pmu]]
id = 8
connect = "10.0.0.1:4712"
[[pmu]]
id = 9
connect = "10.0.0.1:4712"
[[subscriber]]
id = 1
ring = 1
port = 4800
=>
s.toml:3: warning: source 7: 127.0.0.1:4800 is the port of subscriber 1 of this gateway itself; give the address of the PMU or PDC
s.toml:9: warning: source 9: 10.0.0.1:4712 is the address of source 8 too; give each source its own
----
[[pmu]]
id = 7
connect = ["10.0.0.1:4712", "b.example:1", "10.0.0.1:4712"]
[[pmu]]
id = 9
prefer_first = true
connect = ["b.example:1"]
[[subscriber]]
id = 1
ring = 1
=>
s.toml:3: warning: source 7: 10.0.0.1:4712 is in connect twice; give each address once
s.toml:6: warning: source 9: prefer_first without a second address in connect does nothing; add one, or leave prefer_first out
s.toml:7: warning: source 9: b.example:1 is the address of source 7 too; give each source its own
----
[[pmu]]
id = 7
connect = "10.0.0.1:4712"
[[pmu]]
id = 8
source = 7
[[subscriber]]
id = 1
ring = 4
grants = [7]
[[subscriber.stream]]
id = 101
rate = 30
base = 1000000
wait = 2
window = 4
members = [
    7, "7/8",
    8,
]
=>
s.toml:17: warning: subscriber 1: stream 101: member 7/8: it is not granted, so it is never in a frame; add it to grants, or correct the member
s.toml:17: warning: subscriber 1: stream 101: member 8/8: no table [[pmu]] has it, so it is never in a frame; add the table, or correct the member
----
# 30 x 10 x 20 / 1000 is 6.
tick_ms = 20
[[pmu]]
id = 7
connect = "10.0.0.1:4712"
[[subscriber]]
id = 1
ring = 4
grants = [7]
stream = [
    { id = 101, rate = 30, base = 1000000, wait = 10, window = 6, members = [7] },
]
[[subscriber]]
id = 2
ring = 4
grants = [7]
[[subscriber.stream]]
id = 101
rate = 30
base = 1000000
wait = 10
window = 5
members = [7]
[[subscriber.stream]]
id = 102
rate = 100
base = 1000000
wait = 50
window = 64
members = [7]
=>
s.toml:22: warning: subscriber 2: stream 101: window 5 is below rate x wait x tick_ms / 1000, 6 frames, so frames are sent before wait is over; at least as many are needed
s.toml:29: warning: subscriber 2: stream 102: window 64 is below rate x wait x tick_ms / 1000, 100 frames, so frames are sent before wait is over; 64 is the most possible, so shorten wait
----
# The wait is 100 ms, the window 133 ms.
[[pmu]]
id = 7
connect = "10.0.0.1:4712"
clock_ms = 101
[[pmu]]
id = 8
connect = "10.0.0.2:4712"
clock_ms = 100
[[subscriber]]
id = 1
ring = 4
grants = [7, 8]
[[subscriber.stream]]
id = 101
rate = 30
base = 1000000
wait = 10
window = 4
members = [7, 8]
=>
s.toml:5: warning: source 7: clock_ms 101 is above the 100 ms that stream 101 of subscriber 1 holds a frame (the less of wait x tick_ms and window x 1000 / rate), so its clock can be so far ahead that the data of others come late; lower clock_ms, or raise wait and window
----
# A frame of one block has 22 bytes or more.
[[pmu]]
id = 7
connect = "10.0.0.1:4712"
[[subscriber]]
id = 1
ring = 2
bytes = 22
grants = [7]
[[subscriber.stream]]
id = 101
rate = 30
base = 1000000
wait = 2
window = 4
members = [7]
[[subscriber]]
id = 2
ring = 1
bytes = 21
grants = [7]
[[subscriber.stream]]
id = 101
rate = 30
base = 1000000
wait = 2
window = 4
members = [7]
[[subscriber.stream]]
id = 102
rate = 30
base = 1000000
wait = 2
window = 4
members = [7]
=>
s.toml:19: warning: subscriber 2: ring 1 is too small for one frame of each of its 2 streams; at least 2
s.toml:20: warning: subscriber 2: bytes 21 is below one full frame of stream 101 (22 bytes or more), so its frames are dropped; at least 22
s.toml:20: warning: subscriber 2: bytes 21 is below one full frame of stream 102 (22 bytes or more), so its frames are dropped; at least 22
"""
# A file that is right, and what would run by it.
RIGHT = """
tick_ms = 20
serve = 2
[[pmu]]
id = 7
connect = "10.0.0.1:4712"
[[pmu]]
id = 8
source = 7
[[pmu]]
id = 9
clock_ms = 500
ahead_ms = 50
[[subscriber]]
id = 1
port = 4800
ring = 64
grants = [7, "7/8"]
[[subscriber.stream]]
id = 101
rate = 30
base = 1000000
wait = 2
window = 4
members = [7, "7/8"]
[[subscriber]]
id = 20
port = 4801
address = "10.0.0.9"
allow = ["10.1.0.0/16"]
ring = 2
bytes = 1000
[[subscriber]]
id = 30
ring = 1
"""
REPORT = """
2 sources, 2 ports; a tick every 20 ms; threads: 1 for sources, 2 for subscribers
source 7: 2 PMUs; connect 10.0.0.1:4712; silence 10 s, ahead_ms 200
source 9: 1 PMU; no connect; silence 10 s, clock_ms 500, ahead_ms 50
subscriber 1: port 4800 on 0.0.0.0, from any host; ring of 64 frames, 16777216 bytes
subscriber 1: stream 101: 30 frames/s of 7/7 7/8
subscriber 20: port 4801 on 10.0.0.9, from the hosts in allow; ring of 2 frames, 1000 bytes
subscriber 30: no port; ring of 1 frame, 16777216 bytes
"""
# A file with edits that are refused, and why.
REFUSED = """
[[pmu]]
id = 7
[[pmu]]
id = 7
[[subscriber]]
id = 1
ring = 64
grants = [7, 8]
[[subscriber.stream]]
id = 101
rate = 121
base = 1000000
wait = 2
window = 4
members = [7]
[[subscriber]]
id = 1
ring = 64
"""
REASONS = """
s.toml:4: PMU 7/7: refused PmuExists: an earlier table has the same source and id; each PMU has one table
s.toml:8: subscriber 1: grant of PMU 8/8: refused NoSuchPmu: no table [[pmu]] has it; add one, or remove the grant
s.toml:11: subscriber 1: stream 101: refused BadDefinition: rate is 121; it has to be a whole number from 1 to 120
s.toml:17: subscriber 1: refused SubExists: an earlier table has the same id; each subscriber has its own
"""


def cases(text):
    """The files, and what is said of each."""
    return [case.split("=>\n") for case in text[1:].split("----\n")]


def is_checked(bench, text, status, out, errors):
    """`check` prints this of a file with this text, `s.toml`, and has this status."""
    same(printed(bench, text, "check", "s"), (status, out, errors), f"{text}\n`check`:")


def has_faults(bench, text, told):
    """`check` and `run` say this of a file; where nothing is said, `check` takes it."""
    if told:
        errors = "".join(f"s.toml:{it}\n" for it in told.splitlines()) + "pdcgw: 37 BadSetup\n"
        is_checked(bench, text, 1, "", errors)
        same(printed(bench, text, "run", "s"), (1, "", errors), f"{text}\n`run`:")
    else:
        status, _, errors = printed(bench, text, "check", "s")
        same((status, [it for it in errors.splitlines() if ": warning: " not in it]), (0, []), f"{text}\n`check`:")


def test_each_fault_of_a_setup(bench):
    """Each fault of a file is told with its line, with what stands there and with what has to; a file without a fault is taken."""
    for text, told in cases(FAULTS) + cases(QUOTED):
        has_faults(bench, text, told)
    for text, told in cases(WINDOWS):
        has_faults(bench, text.replace("\n", "\r\n"), told)


def test_what_would_run_by_a_setup(bench):
    """Sources, ports, streams and threads of a file, each with its numbers."""
    uncalled = "s.toml:9: warning: source 9: none of its tables has connect, so no connection is made; add connect to one\n"
    is_checked(bench, RIGHT[1:], 0, REPORT[1:], uncalled)
    text = '[[pmu]]\nid = 7\nconnect = "h:1"\nsilence = 0\nclock_ms = 1\nahead_ms = 0\n[[subscriber]]\nid = 1\nport = 1\nring = 1\n'
    is_checked(bench, text, 0, "1 source, 1 port; a tick every 10 ms; threads: 1 for sources, 1 for subscribers\n"
               "source 7: 1 PMU; connect h:1; silence 0 (never), clock_ms 1, ahead_ms 0 (never)\n"
               "subscriber 1: port 1 on 0.0.0.0, from any host; ring of 1 frame, 16777216 bytes\n", "")
    text = '[[pmu]]\nid = 7\nconnect = ["10.0.0.1:1", "h:2"]\nprefer_first = true\n[[subscriber]]\nid = 1\nring = 1\n'
    is_checked(bench, text, 0, "1 source, 0 ports; a tick every 10 ms; threads: 1 for sources, 1 for subscribers\n"
               "source 7: 1 PMU; connect 10.0.0.1:1, h:2; prefer_first; silence 10 s, ahead_ms 200\n"
               "subscriber 1: no port; ring of 1 frame, 16777216 bytes\n", "")
    tick = "s.toml:1: tick_ms: is 0; it has to be a whole number from 1 to 1000\n"
    is_checked(bench, "tick_ms = 0\npmu = []\nsubscriber = []\n", 1, "", tick + "pdcgw: 37 BadSetup\n")


def test_each_edit_that_is_refused(bench):
    """Each edit of a file that the gateway refuses is told with its line; the number and name are those of the first."""
    is_checked(bench, REFUSED[1:], 1, "", REASONS[1:] + "pdcgw: 24 PmuExists\n")
    before = "[[pmu]]\nid=7\n[[subscriber]]\nid=1\nring=4\n[[subscriber.stream]]\n"
    for keys, told in cases(DEFINITIONS):
        is_checked(bench, f"{before}{keys}id=101\n", 1, "", told + "pdcgw: 32 BadDefinition\n")


def test_what_is_seldom_meant(bench):
    """Files that are right, and which `check` warns of: ports that are taken twice, members without a grant, windows and rings that are too small."""
    for text, told in cases(WARNINGS):
        status, _, errors = printed(bench, text, "check", "s")
        same((status, errors), (0, told), f"{text}\n`check`:")


def test_more_faults_than_are_told(bench):
    """The first 100 faults or refused edits of a file are told, and the others counted."""
    for text, last, rest, name in (
            ("[[pmu]]\nid = 0\n", "s.toml:201: pmu.id: is 0; it has to be a whole number from 1 to 65534",
             "s.toml: 901 more mistakes", "37 BadSetup"),
            ("[[pmu]]\nid = 7\n", "s.toml:203: PMU 7/7: refused PmuExists: an earlier table has the same source and id; each PMU has one table",
             "s.toml: 900 more refused edits", "24 PmuExists")):
        status, out, errors = printed(bench, "subscriber = []\n" + 1001 * text, "check", "s")
        lines = errors.splitlines()
        same((status, out, len(lines), lines[99:]), (1, "", 102, [last, rest, f"pdcgw: {name}"]))
