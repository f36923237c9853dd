"""`pdcgw bridge`: its lines in each format, and what it does where its peer or its reader goes away."""
import csv
import io
import json
import os
import re
import signal
import struct
import subprocess
import time
from datetime import datetime, timezone

from c37118 import BASE, CONFIG_2, DATA, HEADER, SEND_CONFIG_2, SEND_HEADER, START, frame, stamp
from peers import PATIENCE, RATE, Lines, Simulated, expect, pmu, same, stream, subscriber, takes, until, with_wrong_check

COLUMNS = ("type time gateway stream idcode station stat good filled time_quality leap_second frequency rocof from to slots why "
           "detail").split()
# The names of stations and channels, as bytes of a configuration, and the texts that stand for them.
QUOTES, BYTES, WORD, EMPTY = b'a"b\\c,d =e\n\tf', b"\xff\xfe\x80 \xe9", "Zürich".encode(), b""
TEXTS = {QUOTES: 'a"b\\c,d =e\n\tf', BYTES: "\xff\xfe\x80 \xe9", WORD: "Zürich", EMPTY: ""}


class Bridged:
    """`pdcgw bridge` at work, whose lines are gathered."""

    def __init__(self, bench, address, idcode, *words, gathers=True, out=subprocess.PIPE):
        self.process = subprocess.Popen([bench.program, "bridge", address, "--stream", str(idcode), *words], cwd=bench.folder,
                                        stdin=subprocess.DEVNULL, stdout=out, stderr=subprocess.PIPE)
        bench.made.append(self)
        self.errors = Lines(self.process.stderr)
        self.out = Lines(self.process.stdout) if gathers else None
        self.read = []

    def close(self):
        self.process.kill()
        self.process.wait()

    def lines(self, kind=None):
        """The JSON lines that came so far."""
        self.read += [json.loads(it) for it in self.out.lines[len(self.read):]]
        return [it for it in self.read if kind in (None, it["type"])]

    def has(self, kind, count, seconds=PATIENCE):
        """The lines of this type, at least so many."""
        until(lambda: len(self.lines(kind)) >= count, f"{count} lines of type {kind}: {self.out.lines[-3:]} {self.errors.lines[-3:]}", seconds)
        return self.lines(kind)

    def says(self, pattern, seconds=PATIENCE):
        until(lambda: any(re.search(pattern, it) for it in list(self.errors.lines)), f"{pattern!r} in {self.errors.lines[-5:]}", seconds)

    def ended(self, seconds=PATIENCE):
        return self.process.wait(seconds)


def padded(name):
    return name[:16].ljust(16)


def pmu_block(station, idcode, phasors=(), analogs=(), digitals=(), fnom=0, count=0, polar=False):
    """A block of CFG-2. A phasor is a name and PHUNIT, an analog value a name and ANUNIT, a digital word its 16 names."""
    names = [it[0] for it in (*phasors, *analogs)] + [it for word in digitals for it in word]
    body = padded(station) + struct.pack(">HHHHH", idcode, int(polar), len(phasors), len(analogs), len(digitals))
    body += b"".join(padded(it) for it in names) + b"".join(struct.pack(">I", it[1]) for it in (*phasors, *analogs))
    return body + struct.pack(">HH", 0, 0xFFFF) * len(digitals) + struct.pack(">HH", fnom, count)


def config_of(idcode, *blocks, rate=RATE):
    return frame(CONFIG_2, idcode, int(time.time()), 0, struct.pack(">IH", BASE, len(blocks)) + b"".join(blocks) + struct.pack(">h", rate))


HOSTILE = config_of(
    7,
    pmu_block(QUOTES, 7, [(QUOTES, 1_000_000), (b"I A", 0x0100_0000 + 5_000)], [(b"MW", 0x0100_0002)],
              [[b"BREAKER", BYTES, QUOTES] + [b"SPARE"] * 13], fnom=1, count=3),
    pmu_block(BYTES, 8, [(b"V", 100_000), (b"V", 100_000), (b"V#2", 100_000), (EMPTY, 100_000)]),
    pmu_block(WORD, 9), pmu_block(EMPTY, 10))


def data_at(slot, blocks, rate=RATE, idcode=7, quality=0):
    soc, frac = stamp(slot, rate)
    return frame(DATA, idcode, soc, quality << 24 | frac, b"".join(blocks))


def hostile_data(slot):
    """PMU 7: phasors of 3 + 4i and 0 - 2i counts, FREQ 4 mHz above 50 Hz, DFREQ -0.25 Hz/s, an analog value of -7 counts, inputs 0 and 2;
    PMU 8: data with an error, magnitudes 1 to 4 V; PMU 9: a filler; PMU 10: good, and no FREQ."""
    return data_at(slot, [struct.pack(">H4hhhhH", 0, 3, 4, 0, -2, 4, -25, -7, 5), struct.pack(">H8hhh", 0x4000, 1, 0, 2, 0, 3, 0, 4, 0, 0, 0),
                          struct.pack(">H2H", 0x8000, 0x8000, 0x8000), struct.pack(">H2H", 0, 0x8000, 0x8000)], quality=0x2F)


def answers(link, config, idcode=7):
    """Answers the commands of one that connects, up to the header behind command 2."""
    started = False
    while True:
        word = link.frame()[15]
        if word == SEND_CONFIG_2:
            link.send(config)
        elif word == START:
            started = True
        elif word == SEND_HEADER:
            link.send(frame(HEADER, idcode, int(time.time()), 0, b"a source"))
            if started:
                return


def slot_now(rate=RATE):
    return int(time.time() * rate)


def text_of(slot, rate=RATE):
    """The time of a slot, as a line has it."""
    soc, frac = stamp(slot, rate)
    return f"{datetime.fromtimestamp(soc, timezone.utc):%Y-%m-%dT%H:%M:%S}.{frac:06}Z"


def slot_of(text, rate=RATE):
    found = datetime.strptime(text, "%Y-%m-%dT%H:%M:%S.%fZ").replace(tzinfo=timezone.utc)
    return round((found.timestamp()) * rate)


def accounted(lines, rate=RATE):
    """Sees to it that the data lines and gaps of a stream are all its slots, each once. Answers the gaps, and how many frames there are."""
    last, before, gap, gaps, frames = None, None, None, [], 0
    for line in lines:
        if line["type"] == "gap":
            expect(gap is None, f"two gaps without a frame between: {gap} {line}")
            same(line["from"], before, f"a gap begins at the last frame: {line}")
            expect(line["why"] in ("missing", "reconnect", "change", "output"), line)
            gap = line
            gaps.append(line)
        elif line["type"] == "data" and line["time"] != before:
            slot = slot_of(line["time"], rate)
            slots = gap["slots"] if gap else 0
            if gap:
                same(gap["to"], line["time"], f"a gap ends at the next frame: {gap}")
            if last is not None:
                same(slot, last + slots + 1, f"the slot behind {before}, {gap}")
            last, before, gap, frames = slot, line["time"], None, frames + 1
    return gaps, frames


def influx(line):
    """A line of InfluxDB line protocol, read strictly: its measurement, tags, fields and time."""
    at = 0

    def word(ends):
        nonlocal at
        found = ""
        while line[at] not in ends:
            expect(line[at] not in " ,=\n", f"{line[at]!r} at {at} is not escaped: {line}")
            if line[at] == "\\":
                at += 1
                expect(line[at] in " ,=", f"no escape at {at}: {line}")
            found += line[at]
            at += 1
        at += 1
        return found, line[at - 1]

    def value():
        nonlocal at
        if line[at] != '"':
            found = re.compile(r"true|false|-?\d+i|-?\d+\.\d+").match(line, at)
            expect(found, f"no value at {at}: {line}")
            at = found.end()
            text = found[0]
            if text in ("true", "false"):
                return text == "true"
            return int(text[:-1]) if text[-1] == "i" else float(text)
        at, found = at + 1, ""
        while line[at] != '"':
            if line[at] == "\\":
                at += 1
                expect(line[at] in '"\\', f"no escape at {at}: {line}")
            found += line[at]
            at += 1
        at += 1
        return found

    measurement, end = word(", ")
    tags, fields = {}, {}
    while end == ",":
        key, _ = word("=")
        tags[key], end = word(", ")
        expect(key and tags[key], f"an empty tag: {line}")
    while True:
        key, _ = word("=")
        expect(key and key not in fields, f"the field {key!r} is there twice: {line}")
        fields[key] = value()
        at += 1
        if line[at - 1] == " ":
            break
        same(line[at - 1], ",", line)
    expect(re.fullmatch(r"\d{19}", line[at:]), f"no time: {line}")
    return measurement, tags, fields, int(line[at:])


def of_hostile(bench, *words):
    """The lines for the hostile configuration and two frames of it, and a state behind them; and the slot of the first frame."""
    source = bench.source(7)
    bridged = Bridged(bench, source.address, 7, "--heartbeat", "1", *words)
    answers(source.accept(), HOSTILE)
    slot = slot_now()
    source.link.send(hostile_data(slot) + hostile_data(slot + 3))

    def lines(is_state):
        return [it for it in list(bridged.out.lines) if bool(re.search(r'"type":"state"|^pmu_state|(^|\t)state,', it)) == is_state]

    until(lambda: len(lines(False)) >= 13, f"13 lines: {bridged.out.lines} {bridged.errors.lines}")
    state = until(lambda: next((it for it in lines(True) if re.search(r'frames"*[:=]2\b', it.replace("2i", "2"))), None), "a state of 2 frames")
    return lines(False)[:13] + [state], slot


def test_bridge_lines_as_json(bench):
    """Each line of a stream with hostile names is a JSON object that has them as they came: four of the configuration, four of each frame, a gap between
    them, the state."""
    lines, slot = of_hostile(bench, "--name", 'control "room"')
    came = [json.loads(it) for it in lines]
    same({it["gateway"] for it in came}, {'control "room"'})
    same({it["stream"] for it in came}, {7})
    same([it["type"] for it in came], ["config"] * 4 + ["data"] * 4 + ["gap"] + ["data"] * 4 + ["state"])
    same([it["station"] for it in came[:8]], list(TEXTS.values()) * 2)
    same([it["idcode"] for it in came[:8]], [7, 8, 9, 10] * 2)
    first = came[0]
    same([first[it] for it in ("rate", "nominal", "cfgcnt", "pmus")], [30, 50, 3, [7, 8, 9, 10]])
    same(first["phasors"], [{"name": TEXTS[QUOTES], "unit": "V"}, {"name": "I A", "unit": "A"}])
    same(first["analogs"], [{"name": "MW", "unit": "rms"}])
    same(first["digitals"], [{"inputs": ["BREAKER", TEXTS[BYTES], TEXTS[QUOTES]] + ["SPARE"] * 13}])
    first = came[4]
    same([first[it] for it in ("time", "stat", "good", "filled", "time_quality", "leap_second", "frequency", "rocof")],
         [text_of(slot), "0000", True, False, 15, 2, 50.004, -0.25])
    same(first["phasors"], [{"name": TEXTS[QUOTES], "unit": "V", "magnitude": 50.0, "angle": 53.1301},
                            {"name": "I A", "unit": "A", "magnitude": 0.1, "angle": -90.0}])
    same(first["analogs"], [{"name": "MW", "unit": "rms", "value": -14}])
    same(first["digitals"], [{"word": "0005", "set": ["BREAKER", TEXTS[QUOTES]]}])
    same([(it["stat"], it["good"], it["filled"], it["frequency"]) for it in came[5:8]],
         [("4000", False, False, 60.0), ("8000", False, True, None), ("0000", True, False, None)])
    same([(it["name"], it["magnitude"]) for it in came[5]["phasors"]], [("V", 1.0), ("V", 2.0), ("V#2", 3.0), ("", 4.0)])
    same(came[8], {"type": "gap", "time": text_of(slot + 3), "gateway": 'control "room"', "stream": 7, "from": text_of(slot),
                   "to": text_of(slot + 3), "slots": 2, "why": "missing"})
    state = came[13]
    same([state[it] for it in ("connected", "frames", "missing", "fillers", "reconnects", "ignored", "dropped")], [True, 2, 2, 2, 0, 0, 0])
    expect(-1000 < state["behind_ms"] < 60_000, state)


def test_bridge_lines_as_csv(bench):
    """Each line is a row of 18 columns, whatever its type."""
    lines, slot = of_hostile(bench, "--format", "csv", "--key", "--name", "a,b")
    same([it.split("\t", 1)[0] for it in lines], [f"7/{it}" for it in [7, 8, 9, 10] * 2 + [7] + [7, 8, 9, 10] + [7]])
    rows = list(csv.reader(io.StringIO("\n".join(it.split("\t", 1)[1] for it in lines), newline=""), strict=True))
    same([len(it) for it in rows], [len(COLUMNS)] * 14)
    came = [dict(zip(COLUMNS, it)) for it in rows]
    same([it["type"] for it in came], ["config"] * 4 + ["data"] * 4 + ["gap"] + ["data"] * 4 + ["state"])
    same({it["gateway"] for it in came}, {"a,b"})
    # (control characters are `_`, so that a line is a row)
    same([it["station"] for it in came[:4]], ['a"b\\c,d =e__f', "\xff\xfe_ \xe9", "Zürich", ""])
    first = came[4]
    same([first[it] for it in COLUMNS[1:17]], [text_of(slot), "a,b", "7", "7", 'a"b\\c,d =e__f', "0000", "true", "false", "15", "2", "50.004", "-0.25",
                                               "", "", "", ""])
    same(json.loads(first["detail"])["phasors"][0], {"name": TEXTS[QUOTES], "unit": "V", "magnitude": 50.0, "angle": 53.1301})
    same((came[6]["filled"], came[6]["frequency"], came[6]["rocof"]), ("true", "", ""))
    same([came[8][it] for it in ("from", "to", "slots", "why", "detail")], [text_of(slot), text_of(slot + 3), "2", "missing", ""])
    same(json.loads(came[0]["detail"])["pmus"], [7, 8, 9, 10])
    same(json.loads(came[13]["detail"])["frames"], 2)


def test_bridge_lines_as_line_protocol(bench):
    """Each line is read by a strict reader of InfluxDB line protocol; each channel has a field of its own."""
    lines, slot = of_hostile(bench, "--format", "influx", "--name", "control room")
    came = [influx(it) for it in lines]
    same([it[0] for it in came], ["pmu_config"] * 4 + ["pmu"] * 4 + ["pmu_gap"] + ["pmu"] * 4 + ["pmu_state"])
    same({it[1]["gateway"] for it in came}, {"control room"})
    same([it[1].get("station") for it in came[:4]], ['a"b_c,d =e__f', "\xff\xfe_ \xe9", "Zürich", None])
    same([it[1]["idcode"] for it in came[:4]], ["7", "8", "9", "10"])
    soc, frac = stamp(slot, RATE)
    same(came[4][3], (soc * 1_000_000 + frac) * 1000)
    same(came[4][2], {"stat": "0000", "good": True, "filled": False, "time_quality": 15, "leap_second": 2, "frequency": 50.004, "rocof": -0.25,
                      'a"b_c,d =e__f#1.V': 50.0, 'a"b_c,d =e__f#1.deg': 53.1301, "I A.A": 0.1, "I A.deg": -90.0, "MW.rms": -14, "digital0.word": 5})
    same({key: it for key, it in came[5][2].items() if key.endswith(".V")}, {"V#1.V": 1.0, "V#2.V": 2.0, "V#2#3.V": 3.0, "#4.V": 4.0})
    same(came[6][2], {"stat": "8000", "good": False, "filled": True, "time_quality": 15, "leap_second": 2})
    same((came[8][1]["why"], came[8][2]), ("missing", {"slots": 2, "from": text_of(slot), "to": text_of(slot + 3)}))
    same((came[0][2]["rate"], came[0][2]["nominal"], json.loads(came[0][2]["channels"])["pmus"]), (30, 50, [7, 8, 9, 10]))
    same((came[13][2]["frames"], came[13][2]["connected"]), (2, True))


def test_bridge_repeats_and_reports(bench):
    """The configuration is repeated after `--repeat`, the state after `--heartbeat`, also while there is no connection."""
    source = Simulated(bench, "--pmus", "2")
    bridged = Bridged(bench, source.address, 7, "--repeat", "1", "--heartbeat", "1")
    configs = bridged.has("config", 6)
    same([it["idcode"] for it in configs[:6]], [7, 8] * 3)
    source.close()
    bridged.says("the peer closed the connection; the next try is in 1 s")
    bridged.says("can't be reached: .*; the next try is in 2 s")
    bridged.says("can't be reached: .*; the next try is in 4 s")
    until(lambda: not bridged.lines("state")[-1]["connected"], "a state without a connection")
    same(bridged.lines("state")[-1]["reconnects"], 1)
    expect(any(it["connected"] for it in bridged.lines("state")), bridged.lines("state"))


def setup_of(sources, port, rate=RATE):
    return (pmu(7, connect=sources[0].address) + pmu(8, connect=sources[1].address)
            + subscriber(1, port, grants=[7, 8]) + stream(101, [7, 8], rate=rate, wait=10, window=16))


def is_served(bridged, more=20):
    """So many frames more come."""
    before = len(bridged.lines("data"))
    until(lambda: len(bridged.lines("data")) >= before + more, f"{more} more data lines: {bridged.errors.lines[-3:]}", 40)


@takes(30)
def test_bridge_accounts_for_each_slot(bench):
    """The gateway is restarted, hung for longer than `--silence`, its stream loses a member and gets it back: the data lines and gaps are all slots."""
    sources, port = (bench.live(7), bench.live(8)), bench.port()
    gateway = bench.gateway(setup_of(sources, port)).serves(1)
    bridged = Bridged(bench, f"127.0.0.1:{port}", 101, "--silence", "2", "--heartbeat", "1")
    is_served(bridged)
    gateway.process.kill()
    gateway.process.wait()
    gateway = bench.gateway(setup_of(sources, port), "again").serves(1)
    is_served(bridged)
    gateway.process.send_signal(signal.SIGSTOP)
    bridged.says("no frame came for 2 s")
    gateway.process.send_signal(signal.SIGCONT)
    is_served(bridged)
    expect(gateway.ask("revoke 1 8")[0].startswith("done "), "PMU 8 is revoked")
    until(lambda: bridged.lines("config")[-1]["pmus"] == [7], "a configuration without PMU 8")
    is_served(bridged)
    expect(gateway.ask("grant 1 8")[0].startswith("done "), "PMU 8 is granted")
    until(lambda: bridged.lines("config")[-1]["pmus"] == [7, 8], "a configuration with PMU 8")
    is_served(bridged)
    gaps, frames = accounted(bridged.lines())
    expect({it["why"] for it in gaps} >= {"reconnect"}, gaps)
    state = bridged.has("state", len(bridged.lines("state")) + 1)[-1]
    # (a gateway that hangs still takes connections)
    expect(state["reconnects"] >= 2 and frames >= 40, (state, frames))


def test_bridge_of_frames_that_do_not_fit(bench):
    """A data frame of another length, one with a wrong CHK and one whose time does not rise have no line and are counted; a configuration that changes is
    printed, and the slots without a frame are a gap of why `change`. Where the rate changes slots are counted by the new one."""
    source = bench.source(7)
    bridged = Bridged(bench, source.address, 7, "--heartbeat", "1")
    one, two = pmu_block(b"ONE", 7), pmu_block(b"ONE", 7, [(b"V", 100_000)])
    answers(source.accept(), config_of(7, one))
    link, slot, good = source.link, slot_now() // RATE * RATE, struct.pack(">Hhh", 0, 0, 0)
    wide = struct.pack(">H2hhh", 0, 7, 0, 0, 0)
    link.send(data_at(slot, [good]) + data_at(slot + 1, [wide]) + with_wrong_check(data_at(slot + 2, [good])) + data_at(slot, [good]))
    link.send(config_of(7, two) + data_at(slot + 3, [wide]) + config_of(7, two) + data_at(slot + 5, [wide]))
    link.send(config_of(7, two, rate=10) + data_at((slot + 9) // 3, [wide], rate=10) + data_at((slot + 15) // 3, [wide], rate=10))
    bridged.has("data", 5)
    kinds = [(it["type"], it.get("slots"), it.get("why")) for it in bridged.lines() if it["type"] != "state"]
    config, data = ("config", None, None), ("data", None, None)
    same(kinds, [config, data, config, ("gap", 2, "change"), data, ("gap", 1, "missing"), data, config, data, ("gap", 1, "missing"), data])
    state = bridged.has("state", 1)[-1]
    same((state["frames"], state["ignored"]), (5, 3))


@takes(8)
def test_bridge_where_the_time_is_set_back(bench):
    """Frames whose times are below that of the last one have no lines; after `--silence` of them the connection is made again, and the slots are counted
    anew, which a gap without slots shows."""
    source = bench.source(7)
    bridged = Bridged(bench, source.address, 7, "--silence", "1")
    config, good = config_of(7, pmu_block(b"ONE", 7)), struct.pack(">Hhh", 0, 0, 0)
    answers(source.accept(), config)
    ahead = slot_now() + 3600 * RATE
    source.link.send(data_at(ahead, [good]))
    bridged.has("data", 1)
    for at in range(40):
        try:
            source.link.send(data_at(slot_now() - 100 + at, [good]))
        except OSError:
            break
        time.sleep(0.05)
    bridged.says("the times of the data frames do not rise")
    answers(source.accept(), config)
    slot = slot_now()
    source.link.send(data_at(slot, [good]) + data_at(slot + 1, [good]))
    bridged.has("data", 3)
    gap = bridged.lines("gap")
    same([(it["from"], it["to"], it["slots"], it["why"]) for it in gap], [(text_of(ahead), text_of(slot), 0, "reconnect")])


def memory_of(process):
    with open(f"/proc/{process.pid}/status") as f:
        return int(re.search(r"VmRSS:\s+(\d+) kB", f.read())[1])


@takes(12)
def test_bridge_behind_a_slow_reader(bench):
    """Nobody reads standard output for some seconds: at most `--keep` lines wait, the socket is read all the same, and what was dropped is a gap of why
    `output`. Memory does not grow."""
    source = Simulated(bench, "--pmus", "4", "--rate", "120")
    bridged = Bridged(bench, source.address, 7, "--keep", "40", "--heartbeat", "1", gathers=False)
    time.sleep(2)
    before = memory_of(bridged.process)
    time.sleep(4)
    expect(memory_of(bridged.process) < before + 2_000, f"{before} kB, and then {memory_of(bridged.process)} kB")
    same(source.said("the client does not read: frames are left out"), 0)
    bridged.out = Lines(bridged.process.stdout)
    until(lambda: bridged.lines("gap") and len(bridged.lines("data")) > 2_000, "lines behind the gap")
    gaps, frames = accounted(bridged.lines(), 120)
    lost = [it for it in gaps if it["why"] == "output"]
    expect(lost and sum(it["slots"] for it in lost) > 240, gaps)
    state = bridged.has("state", len(bridged.lines("state")) + 1)[-1]
    same((state["dropped"], state["reconnects"]), (sum(it["slots"] for it in bridged.lines("gap") if it["why"] == "output"), 0))


def test_bridge_loses_nothing_in_a_burst(bench):
    """A backlog of four seconds comes at once, and its reader reads: each frame has its lines."""
    source = Simulated(bench, "--pmus", "4", "--rate", "120", "--fault", "backlog=4")
    bridged = Bridged(bench, source.address, 7)
    until(lambda: len(bridged.lines("data")) > 4 * 600, "more than a backlog", 20)
    gaps, _ = accounted(bridged.lines(), 120)
    same([it for it in gaps if it["why"] == "output"], [])


def test_bridge_ends_with_its_output(bench):
    """It ends with status 1 where its reader goes away, also while nothing is to be written, and at a device that is full. Files take all."""
    source = Simulated(bench)
    bridged = Bridged(bench, source.address, 7, gathers=False)
    bridged.process.stdout.readline()
    bridged.process.stdout.close()
    same(bridged.ended(), 1)
    until(lambda: "pdcgw: standard output can't be written" in bridged.errors.lines, bridged.errors.lines)
    bridged = Bridged(bench, f"127.0.0.1:{bench.port()}", 7, "--heartbeat", "3600", gathers=False)
    bridged.says("can't be reached")
    bridged.process.stdout.close()
    same(bridged.ended(3), 1)
    with open("/dev/full", "w") as full:
        bridged = Bridged(bench, source.address, 7, gathers=False, out=full)
    same(bridged.ended(), 1)
    with open(f"{bench.folder}/lines", "wb") as file:
        bridged = Bridged(bench, source.address, 7, gathers=False, out=file)
    until(lambda: os.path.getsize(f"{bench.folder}/lines") > 10_000, "lines in a file")


def test_words_of_bridge(bench):
    """Wrong words give status 2, and say what is right."""
    address = f"127.0.0.1:{bench.port()}"
    for words, text in ((["--format", "xml"], "--format takes json, influx or csv"), (["--keep", "0"], "--keep takes lines, 1 to 1000000"),
                        (["--repeat", "0"], "--repeat takes seconds, 1 to 86400"), (["--heartbeat", "x"], "--heartbeat takes seconds"),
                        (["--silence", "86401"], "--silence takes seconds"), (["--name", ""], "--name takes a name"),
                        (["--name", "a\nb"], "--name takes a name"), (["--stream", "65535"], "--stream takes a number of 1 to 65534"),
                        (["--nothing"], "--nothing")):
        command = [bench.program, "bridge", address, *([] if "--stream" in words else ["--stream", "7"]), *words]
        done = subprocess.run(command, stdin=subprocess.DEVNULL, stdout=subprocess.PIPE, stderr=subprocess.PIPE, timeout=PATIENCE)
        same((done.returncode, done.stdout), (2, b""), words)
        expect(text in done.stderr.decode(), f"{words}: {done.stderr.decode()}")
    done = subprocess.run([bench.program, "bridge", address], stdin=subprocess.DEVNULL, stdout=subprocess.PIPE, stderr=subprocess.PIPE, timeout=PATIENCE)
    same(done.returncode, 2)
