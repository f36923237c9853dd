"""Clocks: a wrong clock of a source or of this machine is found in the log, in `status` and in the metrics; where clocks are set back, streams go on."""
import time

from peers import RATE, SetClock, expect, http, metrics, now_soc, pmu, same, slot_of, stream, stream_frame, subscriber, takes, until


class Three:
    """Sources 7, 9 and 300 of unlike addresses; subscriber 1 has stream 101 of PMU 9."""

    def __init__(self, bench, setup="", keys=None):
        self.sources = [bench.source(7), bench.source(9, host="127.0.0.2"), bench.source(300, host="127.0.0.3")]
        self.page = bench.port()
        port = bench.port()
        text = f'status = "127.0.0.1:{self.page}"\n' + setup
        text += "".join(pmu(it.idcode, connect=it.address, **(keys or {})) for it in self.sources)
        text += subscriber(1, port, grants=[9]) + stream(101, [9])
        self.gateway = bench.gateway(text).serves(1)
        for it in self.sources:
            it.come()
            self.gateway.line(f"source {it.idcode}: announced")
        self.reader = bench.subscriber(port)
        self.reader.start(101)
        # The gateway has a clock from its first tick on.
        until(lambda: self.gateway.counters("pmustats 7") is not None, "an answer")
        self.slot = now_soc() * RATE

    def measure(self, offs):
        """A frame of each source, whose times are so many seconds off."""
        self.slot += 1
        for source, off in zip(self.sources, offs):
            source.measure(self.slot, self.slot % 1_000, off)
        return self.slot


def test_a_source_with_a_wrong_clock_is_named(bench):
    """One source of three is 40 s behind: data refused, named in the log with the seconds, counted in `status` and metrics; its last
    event grows old. The other sources are served."""
    three = Three(bench)
    for _ in range(5):
        slot = three.measure([-40, 0, 0])
        three.reader.comes(stream_frame(101, slot, slot % 1_000))
    line = three.gateway.line("source 7: data refused")
    expect(" WARN " in line and "(21 FarClock): their timestamps are 40." in line and " s behind this machine's clock" in line, line)
    until(lambda: "FarClock=5" in three.gateway.status()["source 7"], "the refused frames in `status`")
    status = three.gateway.status()
    expect(" events 1 " in status["source 7"], status["source 7"])
    expect(" events 6 ignored - " in status["source 9"], status["source 9"])
    name = 'pdcgw_source_ignored_total{source="7",reason="FarClock"}'
    until(lambda: metrics(three.page).get(name) == "5", "the refused frames in the metrics")
    same(three.gateway.logged("this machine's clock is probably wrong.*"), 0)
    three.gateway.quit()


def test_a_wrong_clock_of_this_machine_is_named(bench):
    """The data of two sources of three are 40 s ahead: as many ERRORs as one say that this machine's clock is probably wrong, and by how
    much."""
    three = Three(bench)
    for _ in range(3):
        three.measure([41, 0, 40])
    for number, seconds in ((7, 40), (300, 39)):
        line = three.gateway.line(f"source {number}: data refused")
        expect(f"their timestamps are {seconds}." in line or f"their timestamps are {seconds + 1}." in line, line)
    line = three.gateway.line("this machine's clock is probably wrong")
    expect(" ERROR " in line and ": the timestamps of most sources are " in line and " s ahead of this machine's clock" in line, line)
    three.gateway.quit()


def test_a_source_that_measures_right_again_is_served(bench):
    """The clock of a source is set right: its data are taken, and its last event is fresh."""
    three = Three(bench)
    three.measure([0, -40, 0])
    three.gateway.line("source 9: data refused")
    slot = three.measure([0, 0, 0])
    three.reader.comes(stream_frame(101, slot, slot % 1_000))
    expect(three.gateway.status()["source 9"].endswith(" last 0"), three.gateway.status()["source 9"])
    three.gateway.quit()


def test_the_clock_guard_names_the_difference(bench):
    """`clock_ms = 5000`: data 10 s ahead are refused before they reach the gateway, and named."""
    three = Three(bench, keys={"clock_ms": 5000})
    slot = three.measure([10, 0, 0])
    three.reader.comes(stream_frame(101, slot, slot % 1_000))
    line = three.gateway.line("source 7: data refused")
    expect("their timestamps are 9." in line or "their timestamps are 10." in line, line)
    same(three.gateway.counters("pmustats 7"), {"taken": 0})
    until(lambda: '"FarClock"' in http(three.page, "/state")[1], "the refused frame on the page")
    same(three.gateway.logged("source 9: data refused.*"), 0)
    three.gateway.quit()


@takes(45)
def test_where_clocks_are_set_back_streams_begin_anew(bench):
    """The clocks of this machine and of source 7 are an hour ahead, and set back: its data are too late for the stream that is on, whose first member sends
    none. Within 45 s the log says so and its subscriber is disconnected; once it has connected again it gets data. One that gets frames stays connected,
    though all data of a member are late."""
    clock, wrong, right, late = SetClock(bench.folder), bench.live(7, ahead=3_600.0), bench.live(9), bench.live(11, ahead=-0.5)
    clock.ahead(3_600)
    ports = bench.port(), bench.port()
    text = "".join(pmu(it.idcode, connect=it.address) for it in (wrong, right, late)) + pmu(8, source=7)
    text += subscriber(1, ports[0], grants=["7/8", 7]) + stream(101, ["7/8", 7]) + subscriber(2, ports[1], grants=[9, 11]) + stream(101, [9, 11])
    gateway = bench.gateway(text, words=clock.words).serves(1, 2)
    for source in (wrong, right, late):
        gateway.line(f"source {source.idcode}: announced")
    links = [bench.subscriber(it) for it in ports]
    for it in links:
        it.start(101)
    links[0].data()
    wrong.ahead = 0.0
    clock.ahead(0)
    begun = time.monotonic()
    gateway.line(" WARN subscriber 1: stream 101: disconnected, so that its streams begin anew: for 20 s all data were older", 45)
    expect(time.monotonic() - begun > 19, f"it took {time.monotonic() - begun:.1f} s")
    expect(links[0].is_closed(2), "subscriber 1 is disconnected")
    again = bench.subscriber(ports[0])
    again.start(101)
    off = slot_of(again.data(), RATE) / RATE - time.time()
    expect(-2 < off < 1, f"its data are of {off:.1f} s")
    links[1].data()
    time.sleep(2)
    links[1].data()
    counts = gateway.counters("stats 2")
    expect(counts["late"] > 500 and counts["made"] > 500, f"subscriber 2 {counts}")
    same([gateway.logged(f".* subscriber {number}: .*disconnected.*") for number in (1, 2)], [1, 0])
    gateway.quit()
