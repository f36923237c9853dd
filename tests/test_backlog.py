"""Backlogs: a source whose link recovers sends seconds of frames at once, and each subscriber that reads gets all of them."""
import time

from c37118 import DATA, SEND_CONFIG_2, START, frame, stamp
from peers import RATE, expect, now_soc, pmu, same, stream, stream_frame, subscriber, takes


class Crowd:
    """Source 7 and source 9 of another address, subscribers 1 to `count` with stream 100 + their number of PMU 7, and subscriber 90 with
    stream 900 of PMU 9."""

    def __init__(self, bench, count=1, ring=64, more="", setup=""):
        self.bench, self.ring = bench, ring
        self.seven, self.nine = bench.source(7), bench.source(9, host="127.0.0.2")
        self.ports = {number: bench.port() for number in [*range(1, count + 1), 90]}
        text = setup + pmu(7, connect=self.seven.address) + pmu(9, connect=self.nine.address)
        for number in range(1, count + 1):
            text += subscriber(number, self.ports[number], ring=ring, grants=[7]) + stream(100 + number, [7])
        text += subscriber(90, self.ports[90], ring=ring, grants=[9]) + stream(900, [9])
        self.gateway = bench.gateway(text + more).serves(*self.ports)
        self.seven.come()
        self.nine.come()
        self.gateway.line("source 7: announced")
        self.gateway.line("source 9: announced")
        self.readers = {number: bench.subscriber(port) for number, port in self.ports.items()}
        for number, reader in self.readers.items():
            reader.start(900 if number == 90 else 100 + number)
        # (a measurement may be 30 s from now)
        self.slot = (now_soc() - 25) * RATE

    def backlog(self, count):
        """So many frames of source 7 at once: the next slots."""
        begun, self.slot = self.slot, self.slot + count
        self.seven.link.send(b"".join(self.seven.data(slot, slot - begun) for slot in range(begun, begun + count)))
        return begun

    def all_come(self, begun, count, numbers):
        """These subscribers get each of the frames, byte for byte and in order."""
        for number in numbers:
            for slot in range(begun, begun + count):
                self.readers[number].comes(stream_frame(100 + number, slot, slot - begun))

    def none_is_dropped(self, numbers):
        for number in numbers:
            counted = self.gateway.counters(f"stats {number}")
            same((counted["dropped"], counted["lost"]), (0, 0), f"dropped and lost of subscriber {number}")


def test_backlogs_reach_a_reader(bench):
    """Backlogs of 60, 300 and 600 frames, ring 64, one reader: all frames come."""
    crowd = Crowd(bench)
    for count in (60, 300, 600):
        crowd.all_come(crowd.backlog(count), count, [1])
    crowd.none_is_dropped([1, 90])
    crowd.gateway.quit()


def test_a_backlog_of_fifty_seconds_reaches_a_reader(bench):
    """1,500 frames at once, ring 16: all come, within 6 seconds. (Steps of 12 frames that end by the longest hold of 100 ms would take 12.)"""
    crowd = Crowd(bench, ring=16)
    begun = time.monotonic()
    crowd.all_come(crowd.backlog(1_500), 1_500, [1])
    expect(time.monotonic() - begun < 6, f"it took {time.monotonic() - begun:.1f} s")
    crowd.none_is_dropped([1])
    crowd.gateway.quit()


@takes(16)
def test_a_stalled_link_loses_no_backlog(bench):
    """A source whose link stands still for 4 and for 8 seconds, once between two frames and once amid a frame, is asked again where it is. What it
    sends then, the rest of the frame first, comes whole to its reader, before and behind the CFG-2 that it answers; it is not called anew, and the
    other source is left alone."""
    crowd = Crowd(bench)
    for seconds, sent, asked in ((4, 0, 1), (8, 25, 2)):
        begun = max(crowd.slot, (now_soc() - 10) * RATE)
        crowd.slot = begun + 120
        whole = b"".join(crowd.seven.data(slot, slot - begun) for slot in range(begun, begun + 120))
        crowd.seven.link.send(whole[:sent])
        for at in range(seconds * 4):
            crowd.nine.measure(begun + at, 500)
            time.sleep(0.25)
        crowd.seven.link.send(whole[sent:])
        crowd.all_come(begun, 120, [1])
        for _ in range(asked):
            crowd.seven.is_asked(SEND_CONFIG_2)
            crowd.seven.is_asked(START)
        expect(crowd.seven.link.is_quiet(0.1), "source 7 was asked more often")
        crowd.seven.link.send(crowd.seven.configuration())
        crowd.all_come(crowd.backlog(60), 60, [1])
    same(crowd.gateway.logged("source 7: connecting to .*"), 1, "calls of source 7")
    same(crowd.gateway.logged("source 9: sends no data; .*"), 0, "source 9 was asked again")
    expect(" ignored - " in crowd.gateway.status()["source 7"], "frames of source 7 are ignored")
    crowd.none_is_dropped([1, 90])
    crowd.gateway.quit()


def test_a_backlog_reaches_sixteen_readers(bench):
    """300 frames at once, ring 64, 16 readers, and one that never reads: all frames come to each reader."""
    crowd = Crowd(bench, count=17)
    numbers = range(1, 17)
    for _ in range(4):
        begun = crowd.backlog(300)
        crowd.all_come(begun, 300, numbers)
    crowd.none_is_dropped(numbers)
    crowd.gateway.quit()


def test_a_backlog_delays_no_other_source(bench):
    """Beside backlogs of source 7 the frames of source 9 come, one by one."""
    crowd = Crowd(bench, count=2)
    for at in range(5):
        begun = crowd.backlog(300)
        slot = now_soc() * RATE + at
        crowd.nine.measure(slot, at)
        crowd.readers[90].comes(stream_frame(900, slot, at), seconds=2)
        crowd.all_come(begun, 300, [1, 2])
    crowd.none_is_dropped([1, 2, 90])
    crowd.gateway.quit()


@takes(10)
def test_a_subscriber_that_never_reads_holds_no_source(bench):
    """A subscriber whose socket takes no more drops from its own ring; a reader of the same PMUs gets all of 4,000 frames that come in backlogs
    of 200."""
    rate, pmus = 120, list(range(41, 57))
    wide = bench.source(300, host="127.0.0.3", pmus=pmus, rate=rate, phasors=27)
    ports = bench.port(), bench.port()
    keys = [f"300/{it}" for it in pmus]
    text = "".join(pmu(it, source=300, **({"connect": wide.address} if it == pmus[0] else {})) for it in pmus)
    for number, port in zip((1, 20), ports):
        text += subscriber(number, port, ring=16, grants=keys) + stream(100 + number, keys, rate=rate)
    gateway = bench.gateway(text).serves(1, 20)
    wide.come()
    gateway.line("source 300: announced")
    reader, deaf = bench.subscriber(ports[0]), bench.subscriber(ports[1], receive=4096)
    reader.start(101)
    deaf.start(120)
    begun, since = (now_soc() - 20) * rate, time.monotonic()
    for first in range(0, 4_000, 200):
        slots = range(begun + first, begun + first + 200)
        wide.link.send(b"".join(wide.data(slot, slot - begun) for slot in slots))
        for slot in slots:
            reader.comes(frame(DATA, 101, *stamp(slot, rate), wide.blocks(slot - begun)))
    # (330 steps of 12 frames that wait for the deaf one would take 33 seconds)
    expect(time.monotonic() - since < 15, f"it took {time.monotonic() - since:.1f} s")
    same(gateway.counters("stats 1")["dropped"], 0, "dropped of the reader")
    expect(gateway.counters("stats 20")["dropped"] > 0, "the subscriber that never reads has lost nothing")
    gateway.quit()


@takes(10)
def test_small_rings_lose_no_backlog(bench):
    """Rings of 1, 2 and 4 frames: a reader gets all of 300 frames at once."""
    for ring in (1, 2, 4):
        crowd = Crowd(bench, count=2, ring=ring)
        crowd.all_come(crowd.backlog(300), 300, [1, 2])
        crowd.none_is_dropped([1, 2])
        crowd.gateway.quit()
        crowd.seven.close()
        crowd.nine.close()


def test_a_ring_that_is_added_later_counts(bench):
    """Subscriber 3 with a ring of 4 frames is added by lines: it gets all of 300 frames at once."""
    crowd = Crowd(bench, ring=512)
    port = bench.port()
    for line in ("addsub 3 4", "grant 3 7", f"listen 3 {port}"):
        crowd.gateway.does(line, "done 0 0")
    crowd.gateway.does("define 3 103 30 1000000 1 4 none 7", "done 0 0")
    crowd.readers[3] = bench.subscriber(port)
    crowd.readers[3].start(103)
    crowd.all_come(crowd.backlog(300), 300, [1, 3])
    crowd.none_is_dropped([1, 3])
    crowd.gateway.quit()


@takes(8)
def test_a_backlog_with_two_workers_of_each_kind(bench):
    """`ingest = 2`, `serve = 2`: all of 600 frames come to each of four readers."""
    crowd = Crowd(bench, count=4, setup="ingest = 2\nserve = 2\n")
    for _ in range(3):
        begun = crowd.backlog(300)
        crowd.all_come(begun, 300, range(1, 5))
    crowd.none_is_dropped(range(1, 5))
    crowd.gateway.quit()
