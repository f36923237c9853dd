"""Subscribers: what is handed out, to whom, and which hosts may connect."""
import os
import resource
import socket
import struct
import time

from c37118 import (CONFIG_1, CONFIG_2, HEADER, SEND_CONFIG_1, SEND_CONFIG_2, SEND_HEADER, STOP, command, configuration, data_of,
                    stamp)
from peers import (RATE, Failed, Pair, expect, filler, is_refused, now_soc, number_block, pmu, same, stream, stream_frame, subscriber,
                   takes, until)


def own_configuration(got, idcode, pmus, count):
    """The CFG-2 of a stream, whose SOC is that of the last tick."""
    soc = struct.unpack(">I", got[6:10])[0]
    expect(abs(soc - now_soc()) <= 2, f"CFG-2 of stream {idcode} has SOC {soc}, and it is {now_soc()}")
    return configuration(idcode, pmus, RATE, soc=soc, count=count, frac=0x0F000000)


def test_each_stream_has_the_frames_of_its_members(bench):
    """Two sources, two subscribers and three streams of unlike numbers: each gets CFG-2 and data of its own members, byte for byte."""
    pair = Pair(bench)
    gateway = pair.run()
    first, second = bench.subscriber(pair.ports[0]), bench.subscriber(pair.ports[1])
    got = first.start(101)
    same(got, own_configuration(got, 101, [7], 1))
    for idcode, pmus in ((2000, [9]), (2001, [7])):
        # Two PMUs that subscriber 20 is granted have announced.
        got = second.start(idcode)
        same(got, own_configuration(got, idcode, pmus, 2))
    for slot, number in pair.slots(5):
        pair.nine.measure(slot, 900 + number)
        second.comes(stream_frame(2000, slot, 900 + number))
        pair.seven.measure(slot, 700 + number)
        first.comes(stream_frame(101, slot, 700 + number))
        second.comes(stream_frame(2001, slot, 700 + number))
    for what in ("subscriber 1: connected from " + first.name, "subscriber 20: connected from " + second.name,
                 "subscriber 1: started stream 101", "subscriber 20: started stream 2000", "subscriber 20: started stream 2001"):
        gateway.logs(what)
        same(gateway.logged(what), 1, what)
    expect(first.is_quiet(0.2) and second.is_quiet(0.2), "more came than the frames of the members")
    gateway.quit()


def of_two_sources(bench, tick_ms, streams):
    """A gateway with a tick of so many milliseconds, its sources 7 and 8, which have announced, and a client of subscriber 5, which has the streams."""
    one, other, port = bench.source(7), bench.source(8), bench.port()
    text = f"tick_ms = {tick_ms}\n" + pmu(7, connect=one.address) + pmu(8, connect=other.address)
    gateway = bench.gateway(text + subscriber(5, port, grants=[7, 8]) + streams).serves(5)
    one.come()
    other.come()
    gateway.logs("announced.*", 2)
    return gateway, one, other, bench.subscriber(port)


def test_a_member_that_does_not_come_has_a_filler(bench):
    """A stream of two members waits for the second, and then has its filler."""
    gateway, one, other, client = of_two_sources(bench, 10, stream(55, [8, 7], wait=30))
    client.start(55)
    slot = now_soc() * RATE
    begun = time.monotonic()
    one.measure(slot, 1)
    client.comes(data_of(55, *stamp(slot, RATE), [filler(), number_block(1)]))
    took = time.monotonic() - begun
    expect(0.2 <= took <= 1.5, f"`wait` is 30 ticks of 10 ms, and the frame came after {took:.3f} s")
    one.measure(slot + 1, 2)
    other.measure(slot + 1, 3)
    client.comes(stream_frame(55, slot + 1, 3, 2))
    gateway.quit()


@takes(3)
def test_a_frame_waits_as_many_ticks_as_its_stream_says(bench):
    """`wait` of a stream counts ticks of `tick_ms`: of two streams of one subscriber each waits as long as its own says."""
    gateway, one, other, client = of_two_sources(bench, 200, stream(55, [7, 8], wait=8) + stream(56, [8, 7], wait=2))
    client.start(55)
    client.start(56)
    slot, begun = now_soc() * RATE, time.monotonic()
    one.measure(slot, 1)
    client.comes(data_of(56, *stamp(slot, RATE), [filler(), number_block(1)]))
    took = time.monotonic() - begun
    expect(0.2 <= took <= 0.9, f"`wait` is 2 ticks of 200 ms, and the frame came after {took:.2f} s")
    client.comes(data_of(55, *stamp(slot, RATE), [number_block(1), filler()]))
    took = time.monotonic() - begun
    expect(1.3 <= took <= 2.3, f"`wait` is 8 ticks of 200 ms, and the frame came after {took:.2f} s")
    gateway.quit()


def test_header_and_stop(bench):
    """Commands 3, 4 and 1: HDR and CFG-1 of the stream that is asked, and no frame of a stream that was stopped."""
    seven, port = bench.source(7), bench.port()
    text = pmu(7, connect=seven.address) + subscriber(3, port, grants=[7])
    text += stream(30, [7], header="north") + stream(31, [7], header="south-west")
    gateway = bench.gateway(text).serves(3)
    seven.come()
    gateway.logs("announced.*")
    client = bench.subscriber(port)
    for idcode, header in ((31, b"south-west"), (30, b"north")):
        client.command(idcode, SEND_HEADER)
        got = client.frame()
        same((got[1] >> 4, got[4:6], got[14:-2]), (HEADER, struct.pack(">H", idcode), header))
        client.command(idcode, SEND_CONFIG_1)
        got = client.frame()
        same((got[1] >> 4, got[4:6]), (CONFIG_1, struct.pack(">H", idcode)))
    client.start(30)
    client.start(31)
    client.command(30, STOP)
    gateway.logs("subscriber 3: stopped stream 30")
    slot = now_soc() * RATE
    seven.measure(slot, 5)
    client.comes(stream_frame(31, slot, 5))
    expect(client.is_quiet(0.3), "stream 30 is off, and something came")
    gateway.quit()


def test_a_second_connection_is_refused(bench):
    """While one is connected another one is closed, and logged with its reason; the first goes on, and so does the other subscriber."""
    pair = Pair(bench)
    gateway = pair.run()
    pair.start()
    busy = bench.subscriber(pair.ports[1], own="127.0.0.3")
    expect(busy.is_closed(), "a second connection of subscriber 20 was not closed")
    gateway.logs(r"WARN subscriber 20: connection refused from 127\.0\.0\.3:\d+: \S+ is connected already \(34 Busy\)")
    pair.second_is_served()
    pair.first_is_served()
    same(gateway.logged("subscriber 1: connection refused.*"), 0)
    gateway.quit()


def test_a_subscriber_that_reconnects_at_once_is_served(bench):
    """Twenty connections one after another, each made right after the one before was closed: none is refused because of its own old one."""
    pair = Pair(bench)
    gateway = pair.run()
    first, second = pair.start()
    for _ in range(20):
        second.close()
        second = pair.second = bench.subscriber(pair.ports[1])
        second.start(2000)
        pair.second_is_served()
    pair.first_is_served()
    same(gateway.logged(".*refused.*"), 0)
    gateway.logs("subscriber 20: connected from .*", 21)
    gateway.quit()


def test_a_connection_that_its_subscriber_ended_is_closed(bench):
    """A subscriber that ends its side is closed, though no other one connects."""
    pair = Pair(bench)
    gateway = pair.run()
    pair.start()
    pair.second.socket.shutdown(socket.SHUT_WR)
    expect(pair.second.is_closed(3), "the gateway did not close its side")
    gateway.logs("subscriber 20: the connection ended: closed by the other side")
    pair.first_is_served()
    gateway.quit()


def test_bytes_that_begin_no_frame_end_the_connection(bench):
    pair = Pair(bench)
    gateway = pair.run()
    pair.start()
    pair.second.send(b"GET / HTTP/1.1\r\n\r\n")
    expect(pair.second.is_closed(3), "it was not closed")
    gateway.logs(r"subscriber 20: the connection ended: not C37.118: no frame begins here \(2 BadFirst\)")
    pair.first_is_served()
    gateway.quit()


def is_let_in(bench, port, own, idcode):
    """Whether a host gets an answer to a command at a port; else it is closed before anything comes."""
    client = bench.subscriber(port, own=own)
    try:
        client.send(command(idcode, SEND_CONFIG_2))
        same(client.frame(3)[1] >> 4, CONFIG_2)
        return True
    except OSError:
        return False
    except Failed:
        expect(not client.frames and not client.buffer and client.is_closed(1), "it got no answer, and was not closed")
        return False
    finally:
        client.close()


def allows(bench, gateway, ports, wanted):
    """Which hosts may connect at the ports of subscribers 1 and 20: each is logged with its address where it may not."""
    for host, may_first, may_second in wanted:
        for number, port, idcode, may in ((1, ports[0], 101, may_first), (20, ports[1], 2000, may_second)):
            same(is_let_in(bench, port, host, idcode), may, f"{host} at subscriber {number}")
            what = f"WARN subscriber {number}: refused: `allow` does not list this host: {host}:.*"
            if may:
                gateway.logs(f"INFO subscriber {number}: the connection ended.*")
                same(gateway.logged(what), 0, "the log of a host that may connect")
            else:
                gateway.logs(what)
            time.sleep(0.05)


FIRST_ALLOW, SECOND_ALLOW = ["127.0.0.2"], ["127.0.0.3", "127.0.1.0/24"]
WANTED = [("127.0.0.2", True, False), ("127.0.0.3", False, True), ("127.0.1.77", False, True), ("127.0.0.1", False, False)]


@takes(3)
def test_allow_at_the_start(bench):
    """Only hosts that `allow` of the subscriber names are let in, others are closed at once and logged."""
    pair = Pair(bench, first={"allow": FIRST_ALLOW}, second={"allow": SECOND_ALLOW})
    gateway = pair.run()
    allows(bench, gateway, pair.ports, WANTED)
    gateway.quit()


@takes(3)
def test_allow_after_a_reload(bench):
    """A reload that changes `allow` has the new hosts let in, and no others."""
    pair = Pair(bench, first={"allow": ["127.0.0.9"]}, second={"allow": []})
    gateway = pair.run()
    changed = pair.tables[:2] + [pair.tables[2].replace('["127.0.0.9"]', '["127.0.0.2"]'),
                                 pair.tables[3].replace("allow = []", 'allow = ["127.0.0.3", "127.0.1.0/24"]')]
    gateway.reload("".join(changed), "reloaded: 0 edits, 4 changes of connections and ports")
    gateway.logs("subscriber 20: may connect.*", 2)
    allows(bench, gateway, pair.ports, [WANTED[0], WANTED[2]])
    gateway.quit()


@takes(3)
def test_allow_by_a_line(bench):
    """A port that `listen` opens keeps `allow` of the setup, of its own subscriber."""
    pair = Pair(bench, first={"allow": FIRST_ALLOW}, second={"allow": SECOND_ALLOW})
    gateway = pair.run()
    ports = bench.port(), bench.port()
    gateway.does(f"listen 20 {ports[1]}", "done 0 0")
    gateway.does(f"listen 1 {ports[0]}", "done 0 0")
    gateway.logs("subscriber 20: may connect.*", 2)
    gateway.logs("subscriber 1: may connect.*", 2)
    expect(is_refused(pair.ports[0]) and is_refused(pair.ports[1]), "`listen` closes the port that was open")
    allows(bench, gateway, ports, WANTED[:3])
    gateway.quit()


def test_a_port_is_bound_on_its_address(bench):
    """A port with `address` is reached there alone, one without it at each address; so it is after a reload and by `listen`."""
    pair = Pair(bench, second={"address": "127.0.0.2"})
    gateway = pair.run()

    def reached(wanted, ports):
        came = [not is_refused(port, host) for port in ports for host in ("127.0.0.1", "127.0.0.2", "127.0.0.3")]
        same(came, wanted, "reached at 127.0.0.1, 127.0.0.2, 127.0.0.3")

    reached([True, True, True, False, True, False], pair.ports)
    gateway.logs(f"subscriber 20: may connect at 127.0.0.2:{pair.ports[1]}")
    gateway.logs(f"subscriber 1: may connect at 0.0.0.0:{pair.ports[0]}")
    changed = pair.text.replace('"127.0.0.2"\n', '"127.0.0.3"\n')
    gateway.reload(changed, "reloaded: 0 edits, 2 changes of connections and ports")
    until(lambda: not is_refused(pair.ports[1], "127.0.0.3"), "the port at its new address")
    reached([True, True, True, False, False, True], pair.ports)
    other = bench.port()
    gateway.does(f"listen 1 {other} 127.0.0.1", "done 0 0")
    until(lambda: not is_refused(other), "the port that `listen` opens")
    reached([True, False, False], [other])
    gateway.quit()


@takes(8)
def test_takeover(bench):
    """With `takeover` a new connection takes the place of one that stands for 5 seconds, which is closed and logged; the other subscriber has
    none."""
    pair = Pair(bench, second={"takeover": True})
    gateway = pair.run()
    first, old = pair.start()
    pair.settle()
    pair.second = new = bench.subscriber(pair.ports[1], own="127.0.0.4")
    new.start(2000)
    expect(old.is_closed(3), "the old connection was not closed")
    gateway.logs(f"INFO subscriber 20: disconnected: replaced by a new connection from {old.name}")
    pair.second_is_served()
    expect(bench.subscriber(pair.ports[0]).is_closed(3), "subscriber 1 has no `takeover`, and a second connection stands")
    pair.first_is_served()
    same(gateway.logged("subscriber 20: connection refused.*"), 0)
    gateway.quit()


def test_a_host_that_may_not_connect_replaces_nobody(bench):
    """With `takeover` and `allow` a host that `allow` does not name is closed, and the connection that stands goes on."""
    pair = Pair(bench, second={"takeover": True, "allow": ["127.0.0.1", "127.0.0.4"]})
    gateway = pair.run()
    pair.start()
    expect(bench.subscriber(pair.ports[1], own="127.0.0.9").is_closed(3), "a host that `allow` does not name is let in")
    gateway.logs("WARN subscriber 20: refused: `allow` does not list this host: 127.0.0.9:.*")
    pair.second_is_served()
    same(gateway.logged("subscriber 20: disconnected.*"), 0)
    gateway.quit()


@takes(8)
def test_listen_keeps_the_rules_of_the_subscriber(bench):
    """A port that `listen` opens keeps `takeover` and `idle` of its own subscriber."""
    pair = Pair(bench, first={"idle": 1}, second={"takeover": True})
    gateway = pair.run()
    pair.ports = bench.port(), bench.port()
    gateway.does(f"listen 1 {pair.ports[0]}", "done 0 0")
    gateway.does(f"listen 20 {pair.ports[1]}", "done 0 0")
    first, old = pair.start()
    pair.settle()
    pair.second = bench.subscriber(pair.ports[1])
    pair.second.start(2000)
    expect(old.is_closed(3), "`takeover` of subscriber 20")
    expect(first.is_closed(1), "`idle` of subscriber 1")
    gateway.logs("WARN subscriber 1: disconnected: no traffic.*")
    pair.second_is_served()
    gateway.quit()


@takes(4)
def test_stall_of_each_subscriber(bench):
    """A subscriber that reads nothing is hung up after its own `stall` seconds, and the other one is not: its socket takes nothing, and its host
    acknowledges nothing."""
    pair = Pair(bench, first={"stall": 30}, second={"stall": 1}, wide=True)
    gateway = pair.run()
    first, second = pair.start(receive=4096)
    pair.fill()
    gateway.logs("WARN subscriber 20: disconnected: its? (accepted|host acknowledged) no data for the time that `stall` allows")
    same(gateway.logged("subscriber 1: disconnected.*"), 0)
    pair.slot = now_soc() * RATE
    pair.first_is_served()
    gateway.quit()


@takes(4)
def test_idle_of_each_subscriber(bench):
    """A subscriber that neither sends nor gets a byte is hung up after its own `idle` seconds, and the other one is not. A byte of half a
    command begins them anew."""
    pair = Pair(bench, first={"idle": 30}, second={"idle": 1})
    gateway = pair.run()
    pair.start()
    time.sleep(0.6)
    pair.second.send(b"\xaa")
    begun = time.monotonic()
    expect(pair.second.is_closed(4), "subscriber 20 is idle, and was not hung up")
    expect(0.8 <= time.monotonic() - begun <= 3, f"`idle` is 1, and it was hung up after {time.monotonic() - begun:.1f} s")
    gateway.logs("WARN subscriber 20: disconnected: no traffic for the time that `idle` allows")
    pair.first_is_served()
    gateway.quit()


@takes(4)
def test_accept_is_tried_again(bench):
    """Where the process has no descriptor left, that is logged, and a client that waits is accepted once there is one."""
    pair = Pair(bench)
    gateway = pair.run()
    used = [int(it) for it in os.listdir(f"/proc/{gateway.process.pid}/fd")]
    resource.prlimit(gateway.process.pid, resource.RLIMIT_NOFILE, (max(used) + 2, resource.getrlimit(resource.RLIMIT_NOFILE)[1]))
    first, second = bench.subscriber(pair.ports[0]), bench.subscriber(pair.ports[1])
    first.start(101)
    gateway.logs("WARN subscriber 20: a connection can't be accepted: .*out of file descriptors.*; retrying in 1 s")
    first.close()
    # Its command came before it was accepted.
    second.start(2000)
    pair.second = second
    pair.second_is_served()
    gateway.quit()
