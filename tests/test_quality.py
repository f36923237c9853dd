"""How good data are: each fault of a source or of a PMU moves its own measure and no other, in `status`, the metrics and the state as JSON."""
import json
import math
import re
import struct
import time

from peers import (CONFIG_2, DATA, RATE, SEND_CONFIG_2, Simulated, block, configuration, expect, frame, http, metrics, pmu, same, slot_of, stamp,
                   stream, subscriber, takes, until)

# The flags of STAT that are counted, each with a STAT that has it alone (IEEE C37.118.2-2011, table 7).
FLAGS = {"pmu_error": 0x4000, "test_or_absent": 0x8000, "do_not_use": 0xC000, "out_of_sync": 0x2000, "by_arrival": 0x1000, "triggered": 0x0800,
         "config_change": 0x0400, "modified": 0x0200}
GOOD = {name: 0 for name in FLAGS}


class Measured:
    """A gateway whose source 7 has PMUs 7 and 8, and source 9 PMU 9; both announced."""

    def __init__(self, bench, station=b"PMU %-12d", pmus=(7, 8)):
        self.page = bench.port()
        self.seven, self.nine = bench.source(7, pmus=pmus), bench.source(9, host="127.0.0.2")
        self.station = station
        text = f'status = "127.0.0.1:{self.page}"\n' + pmu(7, connect=self.seven.address) + pmu(8, source=7) + pmu(9, connect=self.nine.address) + subscriber(1)
        self.gateway = bench.gateway(text)
        for it in (self.seven, self.nine):
            it.accept()
            it.is_asked(5)
            it.link.send(configuration(it.idcode, it.pmus, it.rate, station=station))
            it.is_asked(2)
        self.gateway.logs("source (7|9): announced.*", 2)

    def state(self, source):
        return next(it for it in json.loads(http(self.page, "/state")[1])["sources"] if it["source"] == source)

    def quality(self, source):
        return self.state(source)["quality"]

    def flags(self, source):
        """The counts of each PMU of a source."""
        return [{name: it["blocks"][name] for name in FLAGS} for it in self.state(source)["pmus"]]

    def has_read(self, source, frames):
        """The page has what came of a source."""
        name = f'pdcgw_source_data_frames_total{{source="{source}"}}'
        until(lambda: metrics(self.page)[name] == str(frames), f"{frames} data frames of source {source}")


def send(source, slots, stats=(0, 0), quality=0, freq=0):
    """A data frame of each slot, with these STATs."""
    blocks = b"".join(block(b"\x10\0\x20\0", stat=stat)[:-4] + struct.pack(">hh", freq, min(-freq, 32767)) for stat in stats[:len(source.pmus)])
    for slot in slots:
        soc, frac = stamp(slot, source.rate)
        source.link.send(frame(DATA, source.idcode, soc, quality << 24 | frac, blocks))


def first_slot(seconds):
    """The slot that begins so many seconds before now."""
    return (int(time.time()) - seconds) * RATE


def test_each_flag_of_stat(bench):
    """Each flag of a PMU's STAT is counted by itself: neither the PMU beside it nor the other source has it."""
    measured, slot, wanted, frames = Measured(bench), first_slot(5), dict(GOOD), 0
    for count, (name, stat) in enumerate(FLAGS.items(), 1):
        send(measured.seven, range(slot, slot + count), (stat, 0))
        send(measured.nine, range(slot, slot + count))
        slot, wanted[name], frames = slot + count, count, frames + count
    measured.has_read(7, frames)
    measured.has_read(9, frames)
    same(measured.flags(7), [wanted, GOOD])
    same(measured.flags(9), [GOOD])
    shown = metrics(measured.page)
    for name, count in wanted.items():
        same(shown[f'pdcgw_pmu_stat_blocks_total{{source="7",pmu="7",station="PMU 7",flag="{name}"}}'], str(count), name)
    same(measured.quality(7)["minute"], 1000, "no frame is missing")
    send(measured.seven, [slot], (0x2000, 0))
    until(lambda: metrics(measured.page)['pdcgw_pmu_in_sync{source="7",pmu="7",station="PMU 7"}'] == "0", "PMU 7 out of sync")
    status = measured.gateway.status()
    expect(" nosync locked stat 2000 60.000 Hz" in status["pmu 7/7"] and " sync locked stat 0000 60.000 Hz" in status["pmu 7/8"], str(status))


def test_what_is_missing(bench):
    """Of 2,500 frames one is missing: 99.9 per cent, and not 100.0. Of the other source all came, some twice and some out of order."""
    measured, slot = Measured(bench), first_slot(100)
    send(measured.seven, [*range(slot, slot + 1200), *range(slot + 1201, slot + 2500)])
    send(measured.nine, [*range(slot, slot + 60), slot + 59, slot + 30, slot + 61, slot + 60, *range(slot + 62, slot + 100)])
    measured.has_read(7, 2499)
    measured.has_read(9, 102)
    quality = measured.quality(7)
    same([quality[it] for it in ("minute", "hour", "expected", "received", "repeated", "out_of_order", "spans")], [999, 999, 2500, 2499, 0, 0, 1])
    quality = measured.quality(9)
    same([quality[it] for it in ("minute", "hour", "expected", "received", "repeated", "out_of_order", "spans")], [1000, 1000, 100, 100, 2, 1, 1])
    same(metrics(measured.page)['pdcgw_source_completeness_ratio{source="7"}'], "0.999")
    expect(' "PMU 7" 30/s got 99.9% delay ' in measured.gateway.status()["pmu 7/7"], "the line of `status`")
    # It connects anew: what was missing before is that of the connection before.
    measured.seven.link.close()
    measured.seven.come()
    send(measured.seven, range(slot + 2600, slot + 2610))
    measured.has_read(7, 2509)
    quality = measured.quality(7)
    same([quality[it] for it in ("expected", "received", "spans")], [10, 10, 2])


def test_a_clock_that_jumps(bench):
    """Timestamps an hour further begin a new span, and count no frame as missing; so do those of an hour before."""
    measured, slot = Measured(bench), first_slot(5)
    for begin in (slot, slot + 3600 * RATE, slot - 3600 * RATE):
        send(measured.seven, range(begin, begin + 30))
    measured.has_read(7, 90)
    quality = measured.quality(7)
    same([quality[it] for it in ("minute", "expected", "received", "spans")], [1000, 90, 90, 3])
    least, greatest = quality["delay"]["least"], quality["delay"]["greatest"]
    expect(-3_600_000 < least < -3_590_000 and 3_600_000 < greatest < 3_610_000, f"delays of {least} and {greatest} ms")


def test_time_and_frequency(bench):
    """The time quality of frames and the frequency of blocks, as far as there is one."""
    measured, slot = Measured(bench), first_slot(5)
    send(measured.seven, [slot], quality=0x1F, freq=-1250)
    send(measured.nine, [slot], quality=0x40, freq=-32768)
    measured.has_read(7, 1)
    measured.has_read(9, 1)
    status, shown = measured.gateway.status(), metrics(measured.page)
    expect(status["pmu 7/8"].endswith(" sync unreliable stat 0000 58.750 Hz"), status["pmu 7/8"])
    expect(status["pmu 9/9"].endswith(" sync locked stat 0000 - Hz"), status["pmu 9/9"])
    for name, values in (("source_time_quality", ("15", "0")), ("source_unlocked_data_frames_total", ("1", "0")),
                         ("source_leap_second_pending", ("1", "0"))):
        same(tuple(shown[f'pdcgw_{name}{{source="{it}"}}'] for it in (7, 9)), values, name)
    for name, values in (("frequency_hertz", ("58.750", "NaN")), ("rocof_hertz_per_second", ("12.500", "327.670"))):
        same(tuple(shown[f'pdcgw_pmu_{name}{{source="{it}",pmu="{it}",station="PMU {it}"}}'] for it in (7, 9)), values, name)


def test_states_of_sources_and_pmus(bench):
    """A source is `up` only once data came; a PMU that its source does not announce is not announced, and one without data silent."""
    page, seven = bench.port(), bench.source(7)
    gateway = bench.gateway(f'status = "127.0.0.1:{page}"\n' + pmu(7, connect=seven.address) + pmu(8, source=7) + pmu(300) + subscriber(1))
    seven.come()
    gateway.line("source 7: announced")
    status = gateway.status()
    expect(f" {seven.address} connected frames 1 events 1 " in status["source 7"], status["source 7"])
    same([status[it] for it in ("pmu 7/7", "pmu 7/8", "pmu 300/300")],
         ['pmu 7/7 "PMU 7" 30/s silent', "pmu 7/8 - - not announced", "pmu 300/300 - - not announced"])
    until(lambda: metrics(page)['pdcgw_source_connected{source="7"}'] == "1", "source 7 connected")
    same(metrics(page)['pdcgw_source_up{source="7"}'], "0")
    send(seven, [first_slot(5)])
    until(lambda: metrics(page)['pdcgw_source_up{source="7"}'] == "1", "source 7 up in the metrics")
    until(lambda: " up frames 2 events 2 " in gateway.status()["source 7"], "source 7 up")
    expect(gateway.status()["pmu 7/7"].startswith('pmu 7/7 "PMU 7" 30/s got 100.0% delay '), "the line of PMU 7")
    same(metrics(page)['pdcgw_pmu_announced{source="7",pmu="8"}'], "0")
    seven.link.close()
    until(lambda: " up " not in gateway.status()["source 7"], "source 7 down")


def test_changes_are_logged(bench):
    """A PMU that is out of sync or reports a data error, and a source whose frames are missing, are logged as they change: once, and once more as they
    are well again. PMU 8 of the same source is not named, as nothing changed of it; nor is PMU 6, which is not registered."""
    measured = Measured(bench, pmus=[7, 8, 6])
    gateway, slot = measured.gateway, first_slot(30)
    for stats in ((0x2000, 0, 0x2000), (0xC000, 0, 0)):
        for _ in range(2):
            send(measured.seven, range(slot, slot + 5), stats)
            slot += 5
            time.sleep(1.1)
    send(measured.seven, range(slot, slot + 1), (0, 0, 0))
    time.sleep(1.1)
    # Of 600 frames 60 are missing, and then of 7,200 again 60.
    slot += 1
    send(measured.seven, [it for it in range(slot, slot + 600) if it % 10], (0, 0, 0))
    time.sleep(1.1)
    send(measured.seven, [slot + 600], (0, 0, 0))
    time.sleep(1.1)
    send(measured.seven, range(slot + 601, slot + 7800), (0, 0, 0))
    time.sleep(1.1)
    send(measured.seven, range(slot + 7800, slot + 7801), (0, 0, 0))
    for text in (r"WARN source 7: out of sync with UTC \(STAT bit 13\): PMU 7", "INFO source 7: in sync with UTC again: PMU 7",
                 r"WARN source 7: data error \(STAT bits 15, 14\): PMU 7", "INFO source 7: no data error any more: PMU 7",
                 r"WARN source 7: data frames are missing: 9[01]\.\d% came in the last minute",
                 r"INFO source 7: data frames come again: 99\.\d% came in the last minute"):
        gateway.logs(text)
    same(gateway.logged("source 7: .*: PMU [68]"), 0)
    same(gateway.logged("source 9: (.*: PMU|data frames) .*"), 0)


def test_names_of_stations(bench):
    """A station's name is any 16 bytes: what is not printable is a question mark, and nothing of it is markup or ends a text."""
    measured = Measured(bench, station=b'</td>"\\\n\x01\x7f\xff %d\0\0\0')
    send(measured.nine, [first_slot(5)])
    measured.has_read(9, 1)
    same(measured.state(9)["pmus"][0]["blocks"]["station"], '</td>"\\???? 9')
    line = measured.gateway.status()["pmu 9/9"]
    expect(line.startswith(r'pmu 9/9 "</td>\"\\???? 9" 30/s got 100.0% '), line)
    same(metrics(measured.page)[r'pdcgw_pmu_in_sync{source="9",pmu="9",station="</td>\"\\???? 9"}'], "1")


def test_faults_of_simulated_sources(bench):
    """Of six simulated sources each has a fault of its own, and the last none. Each fault is found by its own measure within 12 seconds."""
    faults = (["late=150"], ["clock=1000"], ["drop=50"], ["wrong-check=50"], ["no-config"], [])
    page, text = bench.port(), ""
    for number, fault in enumerate(faults, 11):
        words = [word for it in fault for word in ("--fault", it)]
        text += pmu(number, connect=Simulated(bench, "--source", str(number), *words).address)
    gateway = bench.gateway(f'status = "127.0.0.1:{page}"\n' + text + subscriber(1))
    time.sleep(10)
    lines = {it: gateway.status()[f"pmu {it}/{it}"] for it in range(11, 17)}
    same(lines.pop(15), "pmu 15/15 - - not announced")
    found = {number: re.search(r'30/s got (\S+)% delay (\S+) \S+ \S+ ms sync locked stat 0000 ', line) for number, line in lines.items()}
    expect(all(found.values()), str(lines))
    got = {number: float(it[1]) for number, it in found.items()}
    median = {number: int(it[2]) for number, it in found.items()}
    expect(150 <= median[11] < 250 and -1000 <= median[12] < -900, f"delays of 11, late, and 12, ahead: {median}")
    expect(all(0 <= median[it] < 100 for it in (13, 14, 16)), f"delays of the others: {median}")
    expect(30 < got[13] < 70 and 30 < got[14] < 70, f"half of the frames of 13 and 14 count: {got}")
    expect(all(got[it] == 100 for it in (11, 12, 16)), f"all frames of the others: {got}")


# Simulated sources by their IDCODE: the options of each, and how its measures differ from those of one without a fault. That it loses its clock is found by
# three measures, as the standard says it in three places.
FAULTY = {
    21: ("--fault stat=C000", {"flags": ["do_not_use"], "stat": 0xC000}),
    22: ("--fault stat=0803", {"flags": ["triggered"], "stat": 0x0803}),
    23: ("--fault quality=15", {"time": 5, "leap": 1}),
    24: ("--fault unlock=0", {"flags": ["out_of_sync"], "time": 6, "stat": 0x2110}),
    25: ("--fault backlog=2", {"is_held": True}),
    26: ("--fault reconfigure=4", {"flags": ["config_change"], "is_announced_anew": True}),
    27: ("--rate 60", {"rate": 60, "is_unfit": True}),
    28: ("--fault unasked --fault no-config", {}),
    29: ("--clients 2", {}),
}
NO_FAULT = {"flags": [], "stat": 0, "time": 0, "leap": 0, "minute": 1000, "is_held": False, "is_announced_anew": False, "rate": 30, "is_unfit": False}


def measures(gateway, page, source):
    """The measures of the one PMU of a simulated source, by the metrics, the state as JSON and `stats` of the one subscriber that has it."""
    shown = metrics(page)
    state = next(it for it in json.loads(http(page, "/state")[1])["sources"] if it["source"] == source)
    quality, blocks = state["quality"], state["pmus"][0]["blocks"]
    labels = f'source="{source}",pmu="{source}",station="SIMULATED {source}"'
    counted = gateway.counters(f"stats {source}")
    same([name for name in FLAGS if blocks[name]], [name for name in FLAGS if shown[f'pdcgw_pmu_stat_blocks_total{{{labels},flag="{name}"}}'] != "0"])
    return {"flags": [name for name in FLAGS if blocks[name]],
            # (bit 10 comes and goes)
            "stat": blocks["stat"] & ~0x0400,
            "time": int(shown[f'pdcgw_source_time_quality{{source="{source}"}}']),
            "leap": int(shown[f'pdcgw_source_leap_second_pending{{source="{source}"}}']),
            "minute": quality["minute"],
            "is_held": quality["delay"]["greatest"] > 1_500,
            "is_announced_anew": gateway.logged(f"source {source}: its configuration changed: .*") > 1,
            "rate": quality["rate"],
            "is_unfit": counted["late"] + counted["twice"] > 0}


@takes(14)
def test_each_fault_moves_its_own_measure(bench):
    """Each of nine simulated sources has a fault of its own, or a rate that is not the stream's, or serves two. Each moves its own measures and no other, each
    stream has its member throughout, and those of the sources with the rate of the stream have a frame for each slot."""
    page, text, ports = bench.port(), "", {}
    sources = {number: Simulated(bench, "--source", str(number), *words.split()) for number, (words, _) in FAULTY.items()}
    for number, source in sources.items():
        ports[number] = bench.port()
        text += pmu(number, connect=source.address)
        text += subscriber(number, ports[number], ring=1024, grants=[number], change="keep") + stream(100, [number])
    gateway = bench.gateway(f'status = "127.0.0.1:{page}"\n' + text).serves(*ports)
    beside = bench.subscriber(sources[29].port)
    beside.start(29)
    clients = {}
    for number, port in ports.items():
        gateway.line(f"source {number}: announced")
        clients[number] = bench.subscriber(port)
        clients[number].start(100)
    time.sleep(11)
    for number, (words, own) in FAULTY.items():
        same(measures(gateway, page, number), {**NO_FAULT, **own}, f"{words}:")
    status = gateway.status()
    same({number: status[f"stream {number} 100"].split()[5] for number in FAULTY}, dict.fromkeys(FAULTY, "1/1"))
    for number, wanted in ((21, " sync locked stat c000 "), (22, " sync locked stat 0803 "), (23, " sync within-10us stat 0000 "),
                           (24, " nosync within-100us stat 2110 "), (27, " 60/s got 100.0% "), (28, " sync locked stat 0000 ")):
        expect(wanted in status[f"pmu {number}/{number}"], f"{wanted} in {status[f'pmu {number}/{number}']}")
    came = {number: [it.data() for _ in range(200)] for number, it in clients.items() if number != 27}
    for number, frames in came.items():
        slots = [slot_of(it, RATE) for it in frames]
        same(slots, list(range(slots[0], slots[0] + 200)), f"slots of source {number}")
    # In every other four seconds PHUNIT of source 26 is twice as large, and the parts of its phasors half as large: 288.68 kV, and at most 4.5 kV more or less.
    sizes = [math.hypot(*struct.unpack(">hh", it[16:20])) * doubled_at(it) for it in came[26]]
    expect(28_400 < min(sizes) and max(sizes) < 29_330, f"magnitudes of {min(sizes)} to {max(sizes)} counts of 10 V")
    until(lambda: phunit_of(clients[26]) == 1_000_000 * (1 + int(time.time()) // 4 % 2), "PHUNIT that is in force now")
    frames = [beside.data() for _ in range(200)]
    same({(len(it), it[4:6]) for it in frames}, {(38, b"\0\35")})
    gateway.quit()


def doubled_at(got):
    """By how much the units of source 26 are larger at the time of a frame."""
    return 1 + int.from_bytes(got[6:10], "big") // 4 % 2


def phunit_of(client):
    """PHUNIT of the first phasor, of the CFG-2 that it is sent now."""
    client.command(100, SEND_CONFIG_2)
    while True:
        got = client.frame()
        if got[1] >> 4 == CONFIG_2:
            return int.from_bytes(got[366:370], "big")
