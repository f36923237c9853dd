"""`ahead_ms`: a PMU whose clock runs ahead of its neighbours is refused, and costs them nothing."""
import time

from peers import RATE, Pair, expect, now_soc, pmu, same, slot_of, stream, subscriber, until

# A frame waits 300 ms for its members, so that a busy machine makes no filler.
WAIT = {"wait": 30, "window": 16}


class Ahead:
    """Sources 7, 9 and 300, whose clocks are ahead by so many seconds. Subscriber 1 has stream 101 of all three, subscriber 20 stream 2000 of PMUs
    300 and 9."""

    def __init__(self, bench, aheads, keys=None, beside=None):
        """`keys` are more keys of PMU 7, `beside` of the others."""
        self.sources = {number: bench.live(number, host=f"127.0.0.{at + 1}", ahead=ahead)
                        for at, (number, ahead) in enumerate(zip((7, 9, 300), aheads))}
        self.ports, self.keys, self.beside = (bench.port(), bench.port()), keys or {}, beside or {}
        self.gateway = bench.gateway(self.text()).serves(1, 20)
        for it in self.sources:
            self.gateway.line(f"source {it}: announced")
        self.first, self.second = bench.reader(self.ports[0], [101]), bench.reader(self.ports[1], [2000])

    def text(self):
        tables = "".join(pmu(number, connect=it.address, **{"ahead_ms": None, **(self.keys if number == 7 else self.beside)}) for number, it in self.sources.items())
        tables += subscriber(1, self.ports[0], grants=[7, 9, 300]) + stream(101, [7, 9, 300], **WAIT)
        return tables + subscriber(20, self.ports[1], grants=[300, 9]) + stream(2000, [300, 9], **WAIT)

    def frames(self, reader, count):
        """The next frames that come to a reader. The first slots of a connection are left out, as some sources may not have sent yet."""
        begun = len(reader.came) + RATE // 3
        return until(lambda: [it for it in reader.came[begun:] if it.what in ("right", "filled", "misread", "unfit")][:count]
                     if len(reader.came) >= begun + count else None, f"{count} frames")

    def refused(self, number):
        """How many frames of a source were refused as FarClock, by `status`."""
        words = self.gateway.status()[f"source {number}"].split()
        return next((int(it.split("=")[1]) for it in words if it.startswith("FarClock=")), 0)


def members_with_data(frames):
    """How many frames have data of each of the three members of stream 101."""
    return [sum(it.bytes[at:at + 2] == b"\0\0" for it in frames) for at in (14, 24, 34)]


def seven_is_refused(bench, aheads, text, keys=None, least=60):
    """The frames of PMU 7 are refused under its source and logged with this difference. The blocks of PMUs 9 and 300 are whole, in the stream that
    they share with it and in the other."""
    ahead = Ahead(bench, aheads, keys)
    frames = ahead.frames(ahead.first, 60)
    counts = members_with_data(frames)
    same({it.what for it in frames} - {"right", "filled"}, set(), "how frames are read")
    expect(counts[0] <= 60 - least and min(counts[1:]) >= least, f"of 60 frames so many have data of PMUs 7, 9, 300: {counts}")
    line = ahead.gateway.line(r"WARN source 7: data refused \(21 FarClock\)")
    expect(any(it in line for it in text), line)
    begun = ahead.refused(7)
    until(lambda: ahead.refused(7) >= begun + 30, "frames refused under source 7 in `status`")
    same((ahead.refused(9), ahead.refused(300)), (0, 0), "refused frames of the sources whose clocks are right")
    same(ahead.gateway.logged("source (9|300): data refused.*"), 0)
    ahead.second.is_whole(2000, 60)
    return ahead


def test_three_seconds_ahead(bench):
    """One PMU is 3 s ahead of its two neighbours. It counts as no event, and so `last` of its source grows."""
    ahead = seven_is_refused(bench, (3, 0, 0), (" 2.9", " 3.0"))
    until(lambda: int(ahead.gateway.status()["source 7"].split(" last ")[1]) >= 2, "`last` of source 7")
    expect(" events 1 " in ahead.gateway.status()["source 7"], ahead.gateway.status()["source 7"])
    same(ahead.gateway.logged("this machine's clock is probably wrong.*"), 0)
    ahead.gateway.quit()


def test_three_hundred_milliseconds_ahead(bench):
    """The same with 300 ms, which is more than 200. (A frame that this machine sends 100 ms late is not ahead by that much.)"""
    ahead = seven_is_refused(bench, (0.3, 0, 0), (" 0.2", " 0.3"), least=54)
    ahead.gateway.quit()


def test_ahead_ms_of_another_value(bench):
    """`ahead_ms = 1000`: of three sources that are 1.9 s, 0.7 s and not ahead the reference is the second, so the first is refused, which is 1.2 s
    ahead of it."""
    ahead = Ahead(bench, (1.9, 0.7, 0), keys={"ahead_ms": 1000}, beside={"ahead_ms": 1000})
    until(lambda: ahead.refused(7) >= 30, "frames refused under source 7 in `status`")
    same((ahead.refused(9), ahead.refused(300)), (0, 0), "refused frames of the others")
    expect(ahead.gateway.counters("pmustats 9")["taken"] >= 20, "data of PMU 9 are taken")
    same(ahead.gateway.counters("pmustats 7")["taken"], 0, "data of PMU 7 that are taken")
    ahead.gateway.quit()


def test_a_hundred_milliseconds_ahead_are_taken(bench):
    """What is ahead by less than 200 ms is taken, and the frames of its slots wait for the others."""
    ahead = Ahead(bench, (0.1, 0, 0))
    counts = members_with_data(ahead.frames(ahead.first, 60))
    expect(min(counts) >= 54, f"of 60 frames so many have data of PMUs 7, 9, 300: {counts}")
    same(ahead.refused(7), 0)
    ahead.gateway.quit()


def test_ahead_ms_of_nought(bench):
    """`ahead_ms = 0` of a source refuses nothing of it that is within 30 s: data that are 3 s ahead are taken."""
    ahead = Ahead(bench, (3, 0, 0), keys={"ahead_ms": 0})
    until(lambda: ahead.gateway.counters("pmustats 7")["taken"] >= 60, "data of PMU 7 are taken")
    counts = members_with_data(ahead.frames(ahead.first, 60))
    expect(counts[0] >= 45, f"of 60 frames so many have data of PMUs 7, 9, 300: {counts}")
    same([ahead.refused(it) for it in (7, 9, 300)], [0, 0, 0], "refused frames")
    ahead.second.is_whole(2000, 60)
    ahead.gateway.quit()


def test_this_machine_is_behind(bench):
    """All three sources are 3 s ahead of this machine's clock, so nobody is refused: the reference is the lower median of their newest stamps."""
    ahead = Ahead(bench, (3, 3, 3))
    frames = ahead.frames(ahead.first, 30)
    refused = [ahead.refused(it) for it in ahead.sources]
    # (until the second source has sent there is no such stamp)
    expect(max(refused) <= RATE, f"frames that were refused at the start: {refused}")
    frames = ahead.frames(ahead.first, 60)
    same({it.what for it in frames}, {"right"}, "how frames are read")
    expect(all(2 <= slot_of(it.bytes, RATE) / RATE - time.time() + 4 <= 7 for it in frames), "their time is that of the sources")
    same([ahead.refused(it) for it in ahead.sources], refused, "frames that were refused, a second later")
    ahead.gateway.quit()


def test_one_of_three_is_ahead_of_the_others_and_this_machine_is_behind(bench):
    """Two sources are 3 s ahead of this machine's clock and one 6 s: that one is refused, the others are not."""
    ahead = Ahead(bench, (6, 3, 3))
    counts = members_with_data(ahead.frames(ahead.first, 60))
    counts = members_with_data(ahead.frames(ahead.first, 60))
    same(counts, [0, 60, 60], "frames with data of PMUs 7, 9, 300")
    until(lambda: ahead.refused(7) >= 60, "frames refused under source 7 in `status`")
    ahead.gateway.quit()


def test_the_lower_one_of_two_sources_counts(bench):
    """Of two sources one is 3 s ahead: the lower median is the other's stamp, and so it is refused though it sends first."""
    pair = Pair(bench, seven={"ahead_ms": None}, nine={"ahead_ms": None})
    pair.run()
    pair.start()
    for slot, number in pair.slots(5):
        pair.seven.measure(slot, number, seconds_off=3)
        pair.nine.measure(slot, 900 + number)
        same(pair.second.data()[6:10], (slot // RATE).to_bytes(4, "big"), "SOC of the frame of source 9")
    pair.gateway.line(r"WARN source 7: data refused \(21 FarClock\): their timestamps are [23]\.\d* s ahead")
    same(pair.gateway.counters("pmustats 7")["taken"], 0, "data of PMU 7 that are taken")
    same(pair.gateway.counters("pmustats 9")["taken"], 5, "data of PMU 9 that are taken")
    pair.gateway.quit()


def test_one_source_is_held_against_the_clock_alone(bench):
    """Where there is one source alone and it is 3 s ahead, it is refused; once its clock is right it is served."""
    source, port = bench.live(7, ahead=3), bench.port()
    gateway = bench.gateway(pmu(7, ahead_ms=None, connect=source.address) + subscriber(5, port, grants=[7]) + stream(55, [7])).serves(5)
    reader = bench.reader(port, [55])
    gateway.line(r"WARN source 7: data refused \(21 FarClock\): their timestamps are [23]\.\d* s ahead")
    same(reader.count("right"), 0, "frames of PMU 7")
    source.ahead = 0
    reader.reads(55, [7])
    gateway.quit()


def test_clock_ms_beside_ahead_ms(bench):
    """`clock_ms` refuses in both directions, also where `ahead_ms` is 0; of each source its own values count."""
    pair = Pair(bench, seven={"clock_ms": 1000, "ahead_ms": 0}, nine={"clock_ms": 9000, "ahead_ms": 0})
    pair.run()
    pair.start()
    slot = now_soc() * RATE
    for off, number in ((-5, 1), (5, 2), (0, 3)):
        pair.seven.measure(slot + number, number, seconds_off=off)
        pair.nine.measure(slot + number, 900 + number, seconds_off=off)
    until(lambda: "FarClock=2" in pair.gateway.status()["source 7"], "two frames of source 7 are refused")
    until(lambda: pair.gateway.counters("pmustats 9")["taken"] == 3, "three frames of source 9 are taken")
    same(pair.gateway.counters("pmustats 7")["taken"], 1, "data of PMU 7 that are taken")
    expect("FarClock" not in pair.gateway.status()["source 9"], "source 9 has wider bounds")
    pair.gateway.quit()


def test_ahead_ms_after_a_reload(bench):
    """Another `ahead_ms` by a reload holds from then on, for its own source."""
    ahead = Ahead(bench, (3, 0, 0))
    until(lambda: ahead.refused(7) >= 5, "frames refused under source 7 in `status`")
    same(ahead.gateway.counters("pmustats 7")["taken"], 0, "data of PMU 7 that are taken")
    ahead.keys = {"ahead_ms": 0}
    answer = ahead.gateway.reloads(ahead.text())
    expect(answer[0].startswith("reloaded: "), answer)
    until(lambda: ahead.gateway.counters("pmustats 7")["taken"] >= 5, "data of PMU 7 are taken")
    ahead.second.reads(2000, [300, 9], 10)
    ahead.second.is_whole(2000, 10)
    ahead.gateway.quit()
