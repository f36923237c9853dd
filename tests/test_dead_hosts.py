"""A subscriber's host loses its power: the gateway gets no FIN, no RST and no acknowledgement, and finds it in `stall` seconds. The hosts are
network namespaces of the test's own, and the gateway runs in one whose table of TCP connections is its own too."""
import time

from c37118 import data_of, stamp
from peers import Host, expect, named_block, pmu, same, slot_of, stream, subscriber, takes, until

RATE = 5


def hosted(bench, first=None, second=None):
    """Live sources 7 and 9 of 5 frames a second beside the gateway. Subscriber 1, whose `stall` is 3, has stream 101 of PMU 7; subscriber 20 has stream
    2000 of PMU 9. Each is connected from a host of its own."""
    Host.enter_own_network()
    hosts = Host(1), Host(2)
    sources = bench.live(7, rate=RATE), bench.live(9, host="127.0.0.2", rate=RATE)
    ports = bench.port(), bench.port()
    text = "".join(pmu(it.idcode, connect=it.address) for it in sources)
    text += subscriber(1, ports[0], grants=[7], **{"stall": 3, **(first or {})}) + stream(101, [7], rate=RATE)
    text += subscriber(20, ports[1], grants=[9], **(second or {})) + stream(2000, [9], rate=RATE)
    gateway = bench.gateway(text).serves(1, 20)
    gateway.line("source 7: announced")
    gateway.line("source 9: announced")
    readers = hosts[0].connect(ports[0]), hosts[1].connect(ports[1])
    bench.made.extend(readers)
    readers[0].start(101)
    readers[1].start(2000)
    return gateway, hosts, ports, readers


def is_served(reader, idcode, number, seconds):
    """So long a subscriber gets each frame of its stream, byte for byte and within a second."""
    last, end = None, time.monotonic() + seconds
    while time.monotonic() < end:
        got = reader.data(2)
        slot = slot_of(got, RATE)
        same(got.hex(), data_of(idcode, *stamp(slot, RATE), [named_block(number, slot)]).hex(), f"a frame of stream {idcode}")
        expect(last is None or slot == last + 1, f"slot {slot} behind {last}")
        last = slot


@takes(10)
def test_a_host_without_power_is_found(bench):
    """`stall = 3`: disconnected 3 to 6 seconds after its host lost its power, with a WARN. Its port is free for another host; the neighbour, whose
    `stall` is as short, has each frame."""
    gateway, hosts, ports, (first, second) = hosted(bench, second={"stall": 3})
    is_served(first, 101, 7, 1)
    hosts[0].loses_power()
    begun = time.monotonic()
    is_served(second, 2000, 9, 2.5)
    same(gateway.logged("subscriber 1: disconnected.*"), 0, "disconnected before `stall`")
    until(lambda: gateway.logged("WARN subscriber 1: disconnected.*"), "subscriber 1 is disconnected", 6)
    took = time.monotonic() - begun
    expect(2.7 <= took <= 6.5, f"`stall` is 3, and it was disconnected after {took:.1f} s")
    again = hosts[1].connect(ports[0])
    bench.made.append(again)
    again.start(101)
    is_served(again, 101, 7, 1)
    is_served(second, 2000, 9, 1)
    same(gateway.logged("subscriber 20: disconnected.*"), 0, "the neighbour was disconnected")
    gateway.quit()


@takes(10)
def test_a_cable_that_is_pulled_out(bench):
    """The same where the link of the subscriber's host goes down."""
    gateway, hosts, _, (_, second) = hosted(bench)
    hosts[0].within(lambda: hosts[0].ip("link", "set", "in1", "down"))
    begun = time.monotonic()
    is_served(second, 2000, 9, 2.5)
    until(lambda: gateway.logged("WARN subscriber 1: disconnected.*"), "subscriber 1 is disconnected", 6)
    took = time.monotonic() - begun
    expect(2.7 <= took <= 6.5, f"`stall` is 3, and it was disconnected after {took:.1f} s")
    is_served(second, 2000, 9, 1)
    gateway.quit()


@takes(13)
def test_a_slow_reader_that_acknowledges_is_not_hung_up(bench):
    """`stall = 3`: a subscriber whose program reads a frame in two seconds stays for 12 seconds, since its host acknowledges; and one whose host
    is away for a second stays too."""
    gateway, hosts, _, (first, second) = hosted(bench, second={"stall": 3})
    end = time.monotonic() + 12
    while time.monotonic() < end:
        first.socket.settimeout(2)
        first.socket.recv(26)
        is_served(second, 2000, 9, 1.5)
    hosts[1].loses_power()
    time.sleep(1)
    hosts[1].has_power()
    is_served(second, 2000, 9, 3)
    same(gateway.logged("subscriber (1|20): disconnected.*"), 0, "disconnected")
    gateway.quit()


@takes(9)
def test_stall_of_nought_waits_for_ever(bench):
    """`stall = 0`: a host without power is not disconnected for 8 seconds; a neighbour with `stall = 3` in the same state is."""
    gateway, hosts, _, (first, second) = hosted(bench, second={"stall": 0})
    hosts[0].loses_power()
    hosts[1].loses_power()
    gateway.logs("WARN subscriber 1: disconnected.*", 1, 8)
    time.sleep(3)
    same(gateway.logged("subscriber 20: disconnected.*"), 0, "disconnected without `stall`")
    came = 0
    while not second.is_quiet(0.3):
        came += 1
    hosts[1].has_power()
    second.data(10)
    gateway.quit()


@takes(6)
def test_a_host_without_power_that_is_sent_nothing(bench):
    """Where nothing is sent nothing is to be acknowledged: `idle` finds such a host, and `stall` does not."""
    gateway, hosts, ports, (first, second) = hosted(bench, first={"idle": 4})
    first.command(101, 1)
    gateway.line("subscriber 1: stopped stream 101")
    hosts[0].loses_power()
    gateway.logs("WARN subscriber 1: disconnected: no traffic.*", 1, 8)
    is_served(second, 2000, 9, 1)
    gateway.quit()
