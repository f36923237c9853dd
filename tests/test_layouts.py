"""Never misread: a data frame does not say what stands in it, so where the blocks of a stream change while it is on, its reader is disconnected
before a frame that it would read by the old CFG-2, or has the new CFG-2 unasked."""
import random
import time

from c37118 import BASE, CONFIG_2, SEND_CONFIG_2, START, STOP
from peers import Closed, Late, Pair, expect, frame_like, layout_of, pmu, read_by, same, stream, subscriber, takes, until

RATE = 50
# A frame waits 300 ms for its members, so that a busy machine makes no filler.
WAIT = {"rate": RATE, "wait": 30, "window": 20}
# How many frames of the new layout may come before its CFG-2, where their length differs from that of the old.
BEFORE = 5


class Swap:
    """Sources 7, 20 and 21, whose blocks are equally long, and source 8 with a longer one. Subscriber 1 has stream 101 of all four, as far as it
    is granted them. Subscriber 30, its neighbour, has stream 3000 of PMUs 21 and 8."""

    def __init__(self, bench, grants, change=None, streams=None, pmus=None, **keys):
        """`pmus` are the members of stream 101 that it reads, where that are not all grants; none where nobody reads yet."""
        self.bench, self.ports, self.change = bench, (bench.port(), bench.port()), change
        self.streams = streams or stream(101, [7, 20, 21, 8], **WAIT)
        self.sources = {it: bench.live(it, host=f"127.0.0.{it}", rate=RATE, phasors=2 if it == 8 else 1) for it in (7, 8, 20, 21)}
        self.gateway = bench.gateway(self.text(grants)).serves(1, 30)
        for it in self.sources:
            self.gateway.line(f"source {it}: announced")
        self.neighbour = bench.reader(self.ports[1], [3000], rate=RATE)
        self.neighbour.reads(3000, [21, 8])
        self.reader = None if pmus == [] else bench.reader(self.ports[0], [101], rate=RATE, **keys)
        if self.reader:
            self.reader.reads(101, pmus or grants)

    def text(self, grants, streams=None):
        """The setup, where subscriber 1 has these grants."""
        pmus = "".join(pmu(number, connect=it.address) for number, it in self.sources.items())
        rules = {"change": self.change} if self.change else {}
        return (pmus + subscriber(1, self.ports[0], grants=grants, **rules) + (streams or self.streams)
                + subscriber(30, self.ports[1], grants=[21, 8]) + stream(3000, [21, 8], **WAIT))

    def edit(self, *lines):
        for it in lines:
            expect(self.gateway.ask(it)[0].startswith("done "), f"{it} is done")

    def reload(self, grants, streams=None):
        answer = self.gateway.reloads(self.text(grants, streams))
        expect(len(answer) == 1 and answer[0].startswith("reloaded: "), answer)

    def swap(self):
        """PMU 7 becomes PMU 20."""
        self.edit("revoke 1 7", "grant 1 20")

    def is_closed(self, idcode=101):
        """Subscriber 1 was disconnected once, and a WARN names it and the stream."""
        until(lambda: self.reader.count("closed") >= 1, "subscriber 1 is disconnected", 5)
        self.gateway.line(rf" WARN subscriber 1: stream {idcode}: disconnected: its layout changed")

    def end(self, closed, unfit=0):
        """Subscriber 1 was disconnected so often; so many frames at most did not fit, and none was misread. The neighbour has each frame over one
        connection."""
        counts = {it: self.reader.count(it) for it in ("misread", "broken", "closed")}
        same(counts, {"misread": 0, "broken": 0, "closed": closed}, "what came to subscriber 1")
        expect(self.reader.count("unfit") <= unfit, f"{self.reader.count('unfit')} frames do not fit, and there are {unfit} at most")
        self.neighbour_is_whole()
        self.gateway.quit()

    def neighbour_is_whole(self):
        self.neighbour.reads(3000, [21, 8])
        self.neighbour.is_whole(3000, 10)
        same(self.neighbour.count("configuration"), 1, "CFG-2s of the neighbour")


def test_swap_by_lines(bench):
    """`revoke` and `grant` swap a PMU for one of an equally long block: closed before a frame of PMU 20. Who connects again reads PMU 20."""
    swap = Swap(bench, [7])
    swap.swap()
    swap.is_closed()
    swap.reader.reads(101, [20])
    swap.end(closed=1)


def test_swap_by_lines_the_other_way_round(bench):
    """`grant` before `revoke`: there are frames of both PMUs in between, and yet none of PMU 20 is read as one of PMU 7."""
    swap = Swap(bench, [7])
    swap.edit("grant 1 20", "revoke 1 7")
    swap.reader.reads(101, [20])
    expect(swap.reader.count("closed") <= 1, "closed once at most")
    swap.end(closed=swap.reader.count("closed"), unfit=BEFORE)


def test_swap_by_a_reload(bench):
    """The same by one `reload`."""
    swap = Swap(bench, [7])
    swap.reload([20])
    swap.is_closed()
    swap.reader.reads(101, [20])
    swap.end(closed=1)


def test_swap_at_a_reader_that_asked_for_no_configuration(bench):
    """A reader that never asked for CFG-2 reads by the layout in force when it started the stream."""
    swap = Swap(bench, [7], asks=[(7, 1, 0)], again=False)
    swap.swap()
    swap.is_closed()
    swap.end(closed=1)


@takes(8)
def test_through_a_layout_that_is_as_long(bench):
    """One reload leads from PMUs 7, 20 through 20, 21, which is as long, to 20, 21, 8: no frame of the middle one is read as one of the first."""
    swap = Swap(bench, [7, 20])
    for _ in range(8):
        for grants, pmus in (([20, 21, 8], [20, 21, 8]), ([7, 20], [7, 20])):
            swap.reload(grants)
            swap.reader.reads(101, pmus, 3)
    # (each reload has it closed once at most)
    expect(swap.reader.count("closed") <= 16, "closed more often than the blocks changed")
    swap.end(closed=swap.reader.count("closed"), unfit=16 * BEFORE)


@takes(3)
def test_a_source_comes_back_with_another_fnom(bench):
    """A source ends its connection and announces another FNOM: its block is as long, and means something else. Closed."""
    swap = Swap(bench, [7])
    swap.sources[7].restarts(fnom=1)
    swap.is_closed()
    swap.reader.reads(101, [7])
    same(swap.reader.layouts[101], [(7, 1, 1)], "the layout that is read by at the end")
    swap.end(closed=1)


def test_a_source_announces_another_fnom_unasked(bench):
    """The same by a CFG-2 that the source sends in the middle of its data."""
    swap = Swap(bench, [7, 20])
    swap.sources[20].announces(fnom=1)
    swap.is_closed()
    swap.reader.reads(101, [7, 20])
    same(swap.reader.layouts[101], [(7, 1, 0), (20, 1, 1)], "the layout that is read by at the end")
    swap.end(closed=1)


def test_a_source_announces_another_unit_unasked(bench):
    """The same where the factor of a phasor is another one, by which its number means something else."""
    pair = Pair(bench)
    pair.run()
    pair.start()
    pair.first_is_served(2)
    config = bytearray(pair.seven.configuration())
    # TIME_BASE, NUM_PMU, STN, IDCODE, FORMAT and three counts, one name of 16 bytes, type of the phasor: then its factor.
    config[14 + 6 + 26 + 16 + 3] ^= 1
    pair.seven.link.send(frame_like(bytes(config)))
    for slot, number in pair.slots(3):
        pair.seven.measure(slot, number)
    try:
        raise AssertionError(f"a frame came that is read by the old unit: {pair.first.frame(3).hex()}")
    except (Closed, ConnectionError):
        pass
    pair.gateway.line(" WARN subscriber 1: stream 101: disconnected: its layout changed")
    pair.first = bench.subscriber(pair.ports[0])
    same(pair.first.start(101)[62:66].hex(), bytes(config)[62:66].hex(), "PHUNIT of the CFG-2 that is asked for then")
    pair.first_is_served(2)
    pair.second_is_served(2)
    same(pair.gateway.logged("subscriber 20: connected from .*"), 1, "connections of subscriber 20")
    pair.gateway.quit()


def test_another_length_brings_the_configuration(bench):
    """Three changes in turn, each to another length: CFG-2 comes unasked, before the first frame that fits it; the connection stays and all later
    frames fit."""
    swap = Swap(bench, [7])
    for at, (line, pmus) in enumerate((("grant 1 8", [7, 8]), ("revoke 1 7", [8]), ("grant 1 20", [20, 8]))):
        begun = len(swap.reader.came)
        swap.edit(line)
        swap.reader.reads(101, pmus, 10)
        came = [it.what for it in swap.reader.came[begun:]]
        same(swap.reader.count("configuration"), at + 2, "CFG-2s")
        same([it for it in came[came.index("configuration"):] if it not in ("configuration", "right")], [], "frames that do not fit behind CFG-2")
    swap.gateway.logs("INFO subscriber 1: stream 101: its layout changed; CFG-2 sent unasked", 3)
    swap.end(closed=0, unfit=3 * BEFORE)


def test_a_longer_block_of_a_source_brings_the_configuration(bench):
    """A source announces one more phasor: CFG-2 comes unasked, and the connection stays."""
    swap = Swap(bench, [7, 20])
    swap.sources[7].announces(phasors=3)
    until(lambda: swap.reader.layouts[101] == [(7, 3, 0), (20, 1, 0)], "CFG-2 unasked")
    swap.reader.reads(101, [7, 20])
    same(swap.reader.count("configuration"), 2, "CFG-2s")
    swap.end(closed=0, unfit=BEFORE)


def test_change_hangup(bench):
    """`change = "hangup"`: closed also where the length is another one."""
    swap = Swap(bench, [7], change="hangup")
    swap.edit("grant 1 8")
    swap.is_closed()
    swap.reader.reads(101, [7, 8])
    swap.end(closed=1)


def test_change_keep(bench):
    """`change = "keep"`: not closed, and no CFG-2 unasked, neither where the blocks are as long nor where they are not."""
    swap = Swap(bench, [7], change="keep")
    swap.swap()
    until(lambda: swap.reader.count("misread") >= 5, "frames of PMU 20, which `keep` lets be read as those of PMU 7")
    swap.edit("grant 1 8")
    until(lambda: swap.reader.count("unfit") >= 5, "frames of another length")
    same((swap.reader.count("configuration"), swap.reader.count("closed")), (1, 0), "CFG-2s, and how often it was closed")
    swap.neighbour_is_whole()
    swap.gateway.quit()


def test_change_after_a_reload(bench):
    """Another `change` by a reload holds from then on."""
    swap = Swap(bench, [7], change="keep")
    swap.change = "hangup"
    swap.reload([7])
    until(lambda: swap.reader.count("closed") == 1, "a port whose rules changed is opened anew", 5)
    swap.reader.reads(101, [7])
    swap.edit("grant 1 8")
    until(lambda: swap.reader.count("closed") == 2, "closed at another length", 5)
    swap.reader.reads(101, [7, 8])
    swap.end(closed=2)


def test_change_of_another_value_is_refused(bench):
    """`change` is one of three texts; `check` says which."""
    swap = Swap(bench, [7])
    swap.change = "close"
    answer = swap.gateway.reloads(swap.text([7]))
    same(answer[-1], "refused 37 BadSetup")
    expect("subscriber.change: " in answer[0] and all(it in answer[0] for it in ("safe", "hangup", "keep")), answer[0])
    swap.end(closed=0)


def define(idcode, *pmus):
    return f"define 1 {idcode} {RATE} {BASE} 30 20 none {' '.join(map(str, pmus))}"


def test_a_stream_defined_anew_is_started_without_its_configuration(bench):
    """A stream is removed and defined with another member of an equally long block, and started by command 2 alone: closed, none misread."""
    swap = Swap(bench, [7, 20], streams=stream(101, [7], **WAIT), pmus=[7])
    swap.edit("remove 1 101", define(101, 20))
    if not swap.reader.count("closed"):
        try:
            swap.reader.link.command(101, START)
        except OSError:
            pass
    swap.is_closed()
    swap.reader.reads(101, [20])
    swap.end(closed=1)


@takes(6)
def test_a_stream_is_removed_while_its_configuration_is_asked_for(bench):
    """Forty times stream 101 is removed, within the milliseconds in which its subscriber asks for CFG-2, and is defined with the other one of two equally
    long blocks; then it is started. A frame is right by the CFG-2 that came last, or none comes, or the connection is closed."""
    swap = Swap(bench, [7, 20], streams=stream(101, [7], **WAIT), pmus=[])
    chance, came = random.Random(51), {"CFG-2": 0, "right": 0, "not to be read": 0, "silent": 0, "closed": 0}
    for turn in range(40):
        client, layout, pause = bench.subscriber(swap.ports[0]), None, chance.uniform(-0.001, 0.002)
        try:
            if pause >= 0:
                client.command(101, SEND_CONFIG_2)
            time.sleep(abs(pause))
            swap.gateway.say("remove 1 101")
            if pause < 0:
                client.command(101, SEND_CONFIG_2)
            swap.gateway.say(define(101, (20, 7)[turn % 2]))
            swap.gateway.lines(2)
            client.command(101, START)
            for _ in range(6):
                got = client.frame(0.2)
                if got[1] >> 4 == CONFIG_2:
                    layout = layout_of(got)
                    came["CFG-2"] += 1
                    continue
                if layout:
                    same(read_by(got, layout, RATE), "right", f"a frame by CFG-2 of PMU {layout[0][0]}: {got.hex()}")
                came["right" if layout else "not to be read"] += 1
        except Late:
            came["silent"] += 1
        except (Closed, ConnectionError):
            came["closed"] += 1
        client.close()
        # (its port is free once the gateway has read its end)
        time.sleep(0.03)
    expect(came["CFG-2"] and came["closed"], f"no subscriber had CFG-2 of a stream that was then removed: {came}")
    swap.reader = bench.reader(swap.ports[0], [101], rate=RATE)
    swap.reader.reads(101, [7])
    swap.end(closed=0)


class TwoStreams(Swap):
    """Subscriber 1 has stream 101 of PMUs 7 and 20 as well as stream 102 of PMU 21. Stream 101 is stopped, and PMU 7 becomes PMU 20 meanwhile."""

    def __init__(self, bench):
        super().__init__(bench, [7, 21], streams=stream(101, [7, 20], **WAIT) + stream(102, [21], **WAIT), pmus=[])
        self.reader = bench.reader(self.ports[0], [101, 102], rate=RATE)
        self.reader.reads(101, [7])
        self.reader.reads(102, [21])
        self.reader.link.command(101, STOP)
        self.gateway.line("subscriber 1: stopped stream 101")
        self.swap()
        # Stream 102 is another one's as before.
        self.reader.reads(102, [21], 10)
        same((self.reader.count("closed"), self.reader.count("configuration")), (0, 2), "what a swap does to a stream that is off")


def test_a_stream_swapped_while_it_is_off_is_started(bench):
    """By command 2 alone: closed, none misread."""
    swap = TwoStreams(bench)
    swap.reader.link.command(101, START)
    swap.is_closed()
    swap.reader.reads(101, [20])
    swap.reader.reads(102, [21])
    swap.end(closed=1)


def test_a_stream_swapped_while_it_is_off_is_started_behind_its_configuration(bench):
    """By command 5 and then 2: the connection stays, and both streams are read right."""
    swap = TwoStreams(bench)
    swap.reader.link.command(101, SEND_CONFIG_2)
    swap.reader.link.command(101, START)
    swap.reader.reads(101, [20])
    swap.reader.is_whole(102, 20)
    swap.end(closed=0)


def test_a_stream_that_is_off_is_defined_anew_with_the_same_blocks(bench):
    """CFG-2 is asked for, a reload changes `wait` alone, and the stream is started by command 2. Its definition is a new one, before which there may have
    been others: so its subscriber is disconnected, with a WARN, or goes on. No frame is misread, and who connects again is served."""
    swap = Swap(bench, [7, 21], streams=stream(101, [7], **WAIT), pmus=[])
    client = bench.subscriber(swap.ports[0])
    client.command(101, SEND_CONFIG_2)
    layout = layout_of(client.frame())
    swap.reload([7, 21], stream(101, [7], rate=RATE, wait=29, window=20))
    client.command(101, START)
    try:
        for _ in range(5):
            same(read_by(client.data(3), layout, RATE), "right", "how a frame is read")
    except (Closed, ConnectionError):
        swap.gateway.line(" WARN subscriber 1: stream 101: disconnected: its layout changed")
    client.close()
    swap.reader = bench.reader(swap.ports[0], [101], rate=RATE)
    swap.reader.reads(101, [7])
    swap.end(closed=0)


def test_what_does_not_change_a_stream_closes_nothing(bench):
    """Grants beside the stream's members, edits of other subscribers, and the same CFG-2 of a source 20 times: nothing is closed, and no CFG-2
    comes unasked."""
    swap = Swap(bench, [7, 20], streams=stream(101, [7, 20], **WAIT))
    for line in ("grant 1 21", "grant 1 8", "revoke 1 21", "revoke 1 8", define(102, 7), "remove 1 102",
                 "grant 30 7", "revoke 30 7", "addsub 40 16", "grant 40 7", "dropsub 40"):
        swap.edit(line)
        swap.reader.reads(101, [7, 20], 1)
    for _ in range(20):
        swap.sources[7].announces()
        time.sleep(0.02)
    swap.reader.reads(101, [7, 20])
    same(swap.reader.count("configuration"), 1, "CFG-2s")
    swap.reader.is_whole(101, 20)
    swap.end(closed=0)


@takes(8)
def test_chain_through_a_swap_at_the_first(bench):
    """Two gateways in a row, and PMU 7 becomes PMU 20 at the first: at the second subscriber 30, which is granted PMU 7 alone, gets no block that
    PMU 20 sent, and subscriber 31 none that PMU 7 sent."""
    sources = [bench.live(it, host=f"127.0.0.{it}", rate=RATE) for it in (7, 20)]
    between, ports = bench.port(), (bench.port(), bench.port())
    first = bench.gateway("".join(pmu(it.idcode, connect=it.address) for it in sources)
                          + subscriber(1, between, grants=[7]) + stream(101, [7, 20], **WAIT), "first").serves(1)
    for it in sources:
        first.line(f"source {it.idcode}: announced")
    second = bench.gateway(pmu(7, source=101, connect=f"127.0.0.1:{between}") + pmu(20, source=101)
                           + "".join(subscriber(number, port, grants=[f"101/{it}"]) + stream(idcode, [f"101/{it}"], **WAIT)
                                     for number, port, it, idcode in ((30, ports[0], 7, 300), (31, ports[1], 20, 310))), "second").serves(30, 31)
    second.line("source 101: announced")
    seven = bench.reader(ports[0], [300], rate=RATE)
    seven.reads(300, [7])
    expect(first.ask("revoke 1 7")[0].startswith("done ") and first.ask("grant 1 20")[0].startswith("done "), "the swap")
    # The first disconnects the second, which calls again and is told of PMU 20.
    second.logs("source 101: announced its configuration.*", 2)
    twenty = bench.reader(ports[1], [310], rate=RATE)
    twenty.reads(310, [20])
    # Which PMU sent a block is in its phasor.
    for reader, number in ((seven, 7), (twenty, 20)):
        strange = [it.bytes.hex() for it in list(reader.came) if it.what in ("right", "filled", "misread", "unfit")
                   and any(it.bytes[at:at + 2] not in (b"\x80\0", number.to_bytes(2, "big")) for at in range(16, len(it.bytes) - 2, 10))]
        same(strange, [], f"frames with a block of another PMU than {number}")
    first.quit()
    second.quit()


@takes(6)
def test_sixteen_members_granted_one_by_one(bench):
    """Sixteen PMUs of two sources are granted one after another, at once and then with a pause: each layout has another length, so nothing is closed and
    none is misread."""
    low, high = list(range(41, 49)), list(range(51, 59))
    sources = {400: bench.live(400, pmus=low, rate=RATE), 500: bench.live(500, host="127.0.0.2", pmus=high, rate=RATE)}
    keys = [f"400/{it}" for it in low] + [f"500/{it}" for it in high]
    ports = bench.port(), bench.port()
    tables = "".join(pmu(it, source=source.idcode, **({"connect": source.address} if at == 0 else {}))
                     for source in sources.values() for at, it in enumerate(source.pmus))
    gateway = bench.gateway(tables + subscriber(1, ports[0], grants=keys[:1]) + stream(101, keys, **WAIT)
                            + subscriber(2, ports[1], grants=keys[:1]) + stream(2000, keys, **WAIT)).serves(1, 2)
    gateway.line("source 400: announced")
    gateway.line("source 500: announced")
    readers = {1: bench.reader(ports[0], [101], rate=RATE), 2: bench.reader(ports[1], [2000], rate=RATE)}
    readers[1].reads(101, low[:1])
    readers[2].reads(2000, low[:1])
    for number, idcode, pause in ((1, 101, 0), (2, 2000, 0.1)):
        for key in keys[1:]:
            expect(gateway.ask(f"grant {number} {key}")[0].startswith("done "), f"grant {key}")
            time.sleep(pause)
        readers[number].reads(idcode, low + high)
    for it in readers.values():
        same({what: it.count(what) for what in ("misread", "broken", "closed")}, {"misread": 0, "broken": 0, "closed": 0}, "what came")
        expect(it.count("unfit") <= 15 * BEFORE and it.count("configuration") <= 17, f"{it.count('unfit')} do not fit")
    gateway.quit()
