"""The whole texts of `status`, `/metrics` and `/state` of a known state, whose counts all differ. They are written by the rules of docs/OPERATING.md."""
import json
import re
import socket
import time

from peers import RATE, expect, http, metrics, pmu, same, stream, stream_frame, subscriber, until, with_wrong_check

STATUS = """\
source 7 {seven} up frames 10 events 7 ignored BadCheck=2 WrongId=1 last N
pmu 7/7 "PMU 7" 30/s got 100.0% delay N N N ms sync locked stat 0000 60.000 Hz
source 8 {eight} up frames 2 events 2 ignored - last N
pmu 8/8 "PMU 8" 30/s got 100.0% delay N N N ms sync locked stat 0000 60.000 Hz
source 9 {nine} pause N frames 0 events 0 ignored - last -
pmu 9/9 - - not announced
source 300 {full} calling frames 0 events 0 ignored - last -
pmu 300/300 - - not announced
source 65534 - pause - frames 0 events 0 ignored - last -
pmu 65534/65534 - - not announced
subscriber 1 {port} connected {client} made 9 dropped 3 lost 0 late 6 twice 3 handed 528 queue 0 0
subscriber 65535 - waiting N made 0 dropped 0 lost 0 late 0 twice 0 handed 0 queue 0 0
stream 1 101 on members 1/1 complete 3 waited 0 pushed 0 changed 0
missing 7/7 0 late 3
stream 1 102 on members 2/3 complete 1 waited 2 pushed 0 changed 0
missing 8/8 2 late 0
absent 9/9 not announced
stream 1 103 on members 1/1 complete 3 waited 0 pushed 0 changed 0
missing 7/7 0 late 3
stream 65535 7 off members 0/1 complete 0 waited 0 pushed 0 changed 0
absent 9/9 not announced
"""
ONE, TWO = 'subscriber="1"', 'subscriber="65535"'
# Each stream's frames by why they left, and its members' fillers and late blocks. Slots of stream 102 leave by their wait where source 8 sent nothing.
CAUSES = {f'{ONE},stream="101"': (3, 0), f'{ONE},stream="102"': (1, 2), f'{ONE},stream="103"': (3, 0), f'{TWO},stream="7"': (0, 0)}
MEMBERS = {f'{ONE},stream="101",member="7/7"': (0, 3), f'{ONE},stream="102",member="7/7"': (0, 0), f'{ONE},stream="102",member="8/8"': (2, 0),
           f'{ONE},stream="102",member="9/9"': (0, 0), f'{ONE},stream="103",member="7/7"': (0, 3), f'{TWO},stream="7",member="9/9"': (0, 0)}
PMUS = ('source="7",pmu="7",station="PMU 7"', 'source="8",pmu="8",station="PMU 8"')
FLAGS = ("pmu_error", "test_or_absent", "do_not_use", "out_of_sync", "by_arrival", "triggered", "config_change", "modified")
# The bounds of delays in seconds, of which that of each frame is above all but one.
DELAYS = ("-1.024", "-0.128", "-0.016", "0.000", "0.016", "0.032", "0.064", "0.128", "0.256", "0.512", "1.024", "2.048", "8.192")
# Name, type and text of each metric, and its value by its labels.
METRICS = [
    ("info", "gauge", "The gateway's name.", {r'name="North \"7\" \\ PDC"': 1}),
    ("source_up", "gauge", "1 if the source is connected and sent data that count, else 0.", {7: 1, 8: 1, 9: 0, 300: 0, 65534: 0}),
    ("source_connected", "gauge", "1 if the source is connected, else 0.", {7: 1, 8: 1, 9: 0, 300: 0, 65534: 0}),
    ("source_pause_seconds", "gauge", "Seconds until the next attempt to connect to the source, 0 if none is due.", {7: 0, 8: 0, 9: "N", 300: 0, 65534: 0}),
    ("source_frames_total", "counter", "Frames received from the source.", {7: 10, 8: 2, 9: 0, 300: 0, 65534: 0}),
    ("source_events_total", "counter", "Configurations and data frames taken from the source.", {7: 7, 8: 2, 9: 0, 300: 0, 65534: 0}),
    ("source_since_event_seconds", "gauge", "Seconds since the last configuration or data frame taken from the source.", {7: "N", 8: "N"}),
    ("source_ignored_total", "counter", "Frames of the source that were ignored, and bytes that begin no frame, by reason.",
     {'source="7",reason="BadCheck"': 2, 'source="7",reason="WrongId"': 1}),
    ("source_data_frames_total", "counter", "Data frames read from the source.", {7: 6, 8: 1, 9: 0, 300: 0}),
    ("source_expected_data_frames_total", "counter",
     "Data frames that DATA_RATE asks for, between the first and the last since the source connected.", {7: 3, 8: 1, 9: 0, 300: 0}),
    ("source_received_data_frames_total", "counter", "Expected data frames that came since the source connected.", {7: 3, 8: 1, 9: 0, 300: 0}),
    ("source_repeated_data_frames_total", "counter", "Data frames with a timestamp that had come.", {7: 3, 8: 0, 9: 0, 300: 0}),
    ("source_disordered_data_frames_total", "counter", "Data frames with a timestamp before the last one.", {7: 0, 8: 0, 9: 0, 300: 0}),
    ("source_spans_total", "counter", "Runs of data frames without a jump of their timestamps.", {7: 1, 8: 1, 9: 0, 300: 0}),
    ("source_unlocked_data_frames_total", "counter", "Data frames whose time quality says that the clock is not locked.", {7: 0, 8: 0, 9: 0, 300: 0}),
    ("source_time_quality", "gauge", "Time quality of the last data frame: 0 locked, up to 15 not reliable.", {7: 0, 8: 0, 9: 0, 300: 0}),
    ("source_leap_second_pending", "gauge", "1 if the last data frame says that a leap second comes, else 0.", {7: 0, 8: 0, 9: 0, 300: 0}),
    ("source_completeness_ratio", "gauge", "Data frames that came in the last minute, of those expected, rounded down.", {7: "1.000", 8: "1.000"}),
    ("source_delay_seconds", "histogram", "This machine's clock minus the timestamp of a data frame, when it is read.", {7: 6, 8: 1, 9: 0, 300: 0}),
    ("pmu_announced", "gauge", "1 if the source's configuration has the registered PMU, else 0.",
     {f'source="{it}",pmu="{it}"': int(it < 9) for it in (7, 8, 9, 300, 65534)}),
    ("pmu_stat_blocks_total", "counter", "Blocks of the PMU whose STAT has the flag.", {f'{label},flag="{flag}"': 0 for label in PMUS for flag in FLAGS}),
    ("pmu_in_sync", "gauge", "1 if the PMU's last block is in sync with UTC, else 0.", {label: 1 for label in PMUS}),
    ("pmu_frequency_hertz", "gauge", "FREQ of the PMU's last block.", {label: "60.000" for label in PMUS}),
    ("pmu_rocof_hertz_per_second", "gauge", "DFREQ of the PMU's last block.", {label: "0.000" for label in PMUS}),
    ("subscriber_connected", "gauge", "1 if the subscriber is connected, else 0.", {ONE: 1, TWO: 0}),
    ("subscriber_waiting_seconds", "gauge", "Seconds since the subscriber was last connected, 0 while it is.", {ONE: 0, TWO: "N"}),
    ("subscriber_made_frames_total", "counter", "Data frames made for the subscriber.", {ONE: 9, TWO: 0}),
    ("subscriber_dropped_frames_total", "counter", "Data frames dropped from the subscriber's full queue.", {ONE: 3, TWO: 0}),
    ("subscriber_lost_frames_total", "counter", "Data frames lost because memory ran out.", {ONE: 0, TWO: 0}),
    ("subscriber_late_blocks_total", "counter", "Data blocks that came after their frame was sent.", {ONE: 6, TWO: 0}),
    ("subscriber_twice_blocks_total", "counter", "Data blocks that came a second time for one frame.", {ONE: 3, TWO: 0}),
    ("subscriber_handed_bytes_total", "counter", "Bytes sent to the subscriber.", {ONE: 528, TWO: 0}),
    ("subscriber_handed_frames_total", "counter", "Data frames sent to the subscriber.", {ONE: 6, TWO: 0}),
    ("subscriber_gap_frames_total", "counter", "Data frames dropped or lost before one that was sent to the subscriber.", {ONE: 2, TWO: 0}),
    ("subscriber_queue_frames", "gauge", "Data frames in the subscriber's queue.", {ONE: 0, TWO: 0}),
    ("subscriber_queue_bytes", "gauge", "Bytes in the subscriber's queue.", {ONE: 0, TWO: 0}),
    ("stream_on", "gauge", "1 if the subscriber has started the stream, else 0.",
     {f'{ONE},stream="101"': 1, f'{ONE},stream="102"': 1, f'{ONE},stream="103"': 1, f'{TWO},stream="7"': 0}),
    ("stream_effective_members", "gauge", "Members of the stream that are granted and announced.",
     {f'{ONE},stream="101"': 1, f'{ONE},stream="102"': 2, f'{ONE},stream="103"': 1, f'{TWO},stream="7"': 0}),
    ("stream_members", "gauge", "Members of the stream.",
     {f'{ONE},stream="101"': 1, f'{ONE},stream="102"': 3, f'{ONE},stream="103"': 1, f'{TWO},stream="7"': 1}),
    ("stream_frames_total", "counter",
     "Data frames of the stream since it was defined, by why they left: complete, wait, window, or a change of its configuration.",
     {f'{key},cause="{cause}"': count for key, counts in CAUSES.items() for cause, count in zip(("complete", "wait", "window", "change"), (*counts, 0, 0))}),
    ("stream_absent_member", "gauge", "1 for each member that the frames of the stream do not carry: not registered, not granted or not announced.",
     {f'{key},member="9/9",reason="not announced"': 1 for key in (f'{ONE},stream="102"', f'{TWO},stream="7"')}),
    ("stream_member_missing_frames_total", "counter", "Data frames of the stream with a filler in place of the member's block.",
     {key: missing for key, (missing, late) in MEMBERS.items()}),
    ("stream_member_late_blocks_total", "counter", "Blocks of the member that came for a slot which had left.",
     {key: late for key, (missing, late) in MEMBERS.items()}),
]
# The bounds of the ages in seconds, and how many of the six frames are as old at most: each is more than 2 and less than 5 seconds old.
AGES = [("0.005000", 0), ("0.010000", 0), ("0.020000", 0), ("0.050000", 0), ("0.100000", 0), ("0.200000", 0), ("0.500000", 0), ("1.000000", 0),
        ("2.000000", 0), ("5.000000", 6), ("10.000000", 6), ("30.000000", 6), ("+Inf", 6)]
STATE = """\
{"name":"North \\"7\\" \\\\ PDC",\
"sources":[\
{"source":7,"address":"SEVEN","call":"up","pause":null,"frames":10,"events":7,\
"ignored":[{"reason":"BadCheck","count":2},{"reason":"WrongId","count":1}],"last":N,\
"quality":{"rate":30,"minute":1000,"hour":1000,"expected":3,"received":3,"repeated":3,"out_of_order":0,"spans":1,DELAY,"time":"locked"},\
"pmus":[{"pmu":7,"blocks":BLOCKS}]},\
{"source":8,"address":"EIGHT","call":"up","pause":null,"frames":2,"events":2,"ignored":[],"last":N,\
"quality":{"rate":30,"minute":1000,"hour":1000,"expected":1,"received":1,"repeated":0,"out_of_order":0,"spans":1,DELAY,"time":"locked"},\
"pmus":[{"pmu":8,"blocks":BLOCKS}]},\
{"source":9,"address":"NINE","call":"pause","pause":N,"frames":0,"events":0,"ignored":[],"last":null,"quality":NONE,"pmus":[{"pmu":9,"blocks":null}]},\
{"source":300,"address":"FULL","call":"calling","pause":null,"frames":0,"events":0,"ignored":[],"last":null,"quality":NONE,\
"pmus":[{"pmu":300,"blocks":null}]},\
{"source":65534,"address":null,"call":"rests","pause":null,"frames":0,"events":0,"ignored":[],"last":null,"quality":null,\
"pmus":[{"pmu":65534,"blocks":null}]}],\
"subscribers":[\
{"subscriber":1,"port":PORT,"address":"CLIENT","waiting":null,"made":9,"dropped":3,"lost":0,"late":6,"twice":3,"handed":528,"gaps":2,\
"queue_frames":0,"queue_bytes":0,"seconds":SECONDS},\
{"subscriber":65535,"port":null,"address":null,"waiting":N,"made":0,"dropped":0,"lost":0,"late":0,"twice":0,"handed":0,"gaps":0,\
"queue_frames":0,"queue_bytes":0,"seconds":SECONDS}],\
"streams":[\
{"subscriber":1,"stream":101,"on":true,"effective":1,"members":1,"complete":3,"waited":0,"pushed":0,"changed":0,\
"pmus":[{"source":7,"pmu":7,"missing":0,"late":3,"absent":null}]},\
{"subscriber":1,"stream":102,"on":true,"effective":2,"members":3,"complete":1,"waited":2,"pushed":0,"changed":0,\
"pmus":[{"source":7,"pmu":7,"missing":0,"late":0,"absent":null},{"source":8,"pmu":8,"missing":2,"late":0,"absent":null},\
{"source":9,"pmu":9,"missing":0,"late":0,"absent":"not announced"}]},\
{"subscriber":1,"stream":103,"on":true,"effective":1,"members":1,"complete":3,"waited":0,"pushed":0,"changed":0,\
"pmus":[{"source":7,"pmu":7,"missing":0,"late":3,"absent":null}]},\
{"subscriber":65535,"stream":7,"on":false,"effective":0,"members":1,"complete":0,"waited":0,"pushed":0,"changed":0,\
"pmus":[{"source":9,"pmu":9,"missing":0,"late":0,"absent":"not announced"}]}]}"""

# What is said of a source of which no data frame came, and of a PMU; the stations' names are masked.
NONE = """{"rate":0,"minute":null,"hour":null,"expected":0,"received":0,"repeated":0,"out_of_order":0,"spans":0,"delay":null,"time":null}"""
GOOD = """{"station":"NAME","stat":0,"sync":1,"pmu_error":0,"test_or_absent":0,"do_not_use":0,"out_of_sync":0,"by_arrival":0,"triggered":0,\
"config_change":0,"modified":0,"freq":60000,"dfreq":0}"""


def metrics_text():
    """The whole text of the metrics, but for the sum of the ages."""
    lines = []
    for name, kind, text, values in METRICS:
        lines += [f"# HELP pdcgw_{name} {text}", f"# TYPE pdcgw_{name} {kind}"]
        for key, value in values.items():
            labels = key if isinstance(key, str) else f'source="{key}"'
            if kind == "histogram":
                lines += [f'pdcgw_{name}_bucket{{{labels},le="{bound}"}} {value if bound == DELAYS[-1] else 0}' for bound in DELAYS]
                lines += [f'pdcgw_{name}_bucket{{{labels},le="+Inf"}} {value}', f"pdcgw_{name}_count{{{labels}}} {value}"]
                continue
            lines.append(f"pdcgw_{name}{{{labels}}} {value}")
    name = "pdcgw_frame_age_seconds"
    lines += [f"# HELP {name} This machine's clock minus the timestamp of a data frame, when it is sent.", f"# TYPE {name} histogram"]
    lines += [f'{name}_bucket{{le="{bound}"}} {count}' for bound, count in AGES]
    return "\n".join([*lines, f"{name}_sum SUM", f"{name}_count 6", ""])


def full_host(bench):
    """The address of a listener that leaves calls without an answer, since its queue is full."""
    full = bench.source(300, host="127.0.0.7", backlog=0)
    for _ in range(4):
        held = socket.socket()
        bench.made.append(held)
        held.setblocking(False)
        held.connect_ex(full.listener.getsockname())
    time.sleep(0.05)
    return full.address


def known_state(bench, page):
    """A gateway in the state that the texts above have, and the values of their names."""
    seven, eight, nine = bench.source(7), bench.source(8, host="127.0.0.2", phasors=6), bench.source(9, host="127.0.0.3")
    nine.listener.close()
    port, full = bench.port(), full_host(bench)
    text = f'status = "127.0.0.1:{page}"\n' + "name = 'North \"7\" \\ PDC'\n" + pmu(7, connect=seven.address) + pmu(8, connect=eight.address) + pmu(9, connect=nine.address)
    text += pmu(300, connect=full) + pmu(65534)
    # Frames of streams 101 and 103 have 26 bytes. Those of stream 102 have 56, so that each of them is dropped.
    text += subscriber(1, port, bytes=52, grants=[7, 8, 9]) + stream(101, [7]) + stream(102, [7, 8, 9], wait=30) + stream(103, [7])
    text += subscriber(65535, grants=[9]) + stream(7, [9])
    gateway = bench.gateway(text).serves(1)
    seven.come()
    eight.come()
    gateway.logs("source (7|8): announced.*", 2)
    client = bench.subscriber(port)
    for it in (101, 102, 103):
        client.start(it)
    slot = int((time.time() - 3) * RATE)

    def comes(slot, number):
        same(sorted(client.frame() for _ in range(2)), [stream_frame(it, slot, number) for it in (101, 103)], "frames of streams 101 and 103")

    # The first slot leaves streams 101 and 103 at once, so that what comes again is late there, three times; in stream 102 it is there twice.
    for number in (1, 2, 3, 4):
        seven.measure(slot, number)
    comes(slot, 1)
    until(lambda: gateway.counters("stats 1")["dropped"] == 1, "a frame of stream 102")
    seven.measure(slot + 1, 5)
    comes(slot + 1, 5)
    eight.measure(slot + 1, 6)
    until(lambda: gateway.counters("stats 1")["dropped"] == 2, "another frame of stream 102")
    seven.measure(slot + 2, 7)
    comes(slot + 2, 7)
    wrong = with_wrong_check(seven.data(slot, 8))
    seven.link.send(wrong + eight.data(slot, 9) + wrong)
    until(lambda: gateway.counters("stats 1")["dropped"] == 3, "a third frame of stream 102")
    return gateway, {"seven": seven.address, "eight": eight.address, "nine": nine.address, "full": full, "port": port, "client": client.name}


def masked(text):
    """A text without what changes by the second."""
    for pattern, put in ((r'("delay":){[^}]*}', "DELAY"), (r'("station":)"PMU [78]"', r'\1"NAME"'), (r"delay \d+ \d+ \d+ ms", "delay N N N ms"),
                         (r'("last":|"waiting":|"pause":|last |waiting |pause )\d+', r"\1N"), (r'("seconds":){[^}]*}', r"\1SECONDS"),
                         (r'(source_pause_seconds{source="9"}|since_event_seconds{[^}]*}|waiting_seconds{' + TWO + r"}) \d+", r"\1 N"),
                         (r"(pdcgw_frame_age_seconds_sum) \S+", r"\1 SUM")):
        text = re.sub(pattern, put, text)
    return text


def test_all_that_is_shown(bench):
    """`status`, the metrics and the state as JSON have all sources, subscribers and streams of a known state, and nothing else."""
    page = bench.port()
    gateway, values = known_state(bench, page)
    until(lambda: metrics(page)['pdcgw_subscriber_dropped_frames_total{subscriber="1"}'] == "3", "the page's second")
    came = masked("".join(f"{it}\n" for it in gateway.answer("status")))
    same(came.splitlines(), STATUS.format(**values).splitlines())
    shown = http(page, "/metrics")[1]
    same(masked(shown).splitlines(), metrics_text().splitlines())
    total = float(re.search(r"_sum (\S+)\n", shown)[1])
    expect(18 <= total <= 30, f"the sum of six ages of 3 seconds and a little more is {total}")
    wanted = STATE.replace("NONE", NONE).replace("BLOCKS", GOOD)
    for name, value in values.items():
        wanted = wanted.replace(name.upper(), str(value))
    shown = http(page, "/state")[1]
    same(masked(shown), wanted)
    seconds = [it["seconds"] for it in json.loads(shown)["subscribers"]]
    same([(sum(it["handed"]), sum(it["dropped"])) for it in seconds], [(6, 3), (0, 0)], "frames handed out and dropped in all seconds")
    gateway.quit()
