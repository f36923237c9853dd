"""Whether the gateway does its work, as those see it that watch over it: `/health` is answered 200 or 503, with the reason in a line."""
import signal
import socket
import time

from peers import DATA, RATE, Failed, expect, frame, http, pmu, same, stamp, subscriber, takes, until

WELL = "each worker answers, and a source sent data within {} s\n"
NO_DATA = "no source sent data within {} s\n"


def health(page, query=""):
    head, body = http(page, "/health" + query)
    return head.split("\r\n")[0].split(" ", 1)[1], body


def served(bench):
    """A gateway with two sources, of which 7 announced."""
    page, seven = bench.port(), bench.source(7)
    gateway = bench.gateway(f'status = "127.0.0.1:{page}"\n' + pmu(7, connect=seven.address) + pmu(9) + subscriber(1))
    seven.come()
    gateway.line("source 7: announced")
    return page, seven, gateway


@takes(5)
def test_health_by_data(bench):
    """Without data it is 503; with the data of one source 200, until as many seconds are past as are asked for."""
    page, seven, gateway = served(bench)
    same(health(page), ("503 Service Unavailable", NO_DATA.format(10)))
    seven.measure(int(time.time() * RATE), 1)
    sent = time.monotonic()
    until(lambda: health(page) == ("200 OK", WELL.format(10)), "200")
    same(health(page, "?within=86400"), ("200 OK", WELL.format(86400)))
    until(lambda: health(page, "?within=2") == ("503 Service Unavailable", NO_DATA.format(2)), "503")
    took = time.monotonic() - sent
    expect(1.9 < took < 3.5, f"2 seconds without data were seen after {took:.1f} s")
    same(health(page), ("200 OK", WELL.format(10)))
    head, body = http(page, "/health", method="HEAD")
    same((head.split("\r\n")[0], body), ("HTTP/1.1 200 OK", ""))
    # Data that do not count are none: their IDCODE is another.
    soc, frac = stamp(int(time.time() * RATE), RATE)
    seven.link.send(frame(DATA, 8, soc, frac, seven.blocks(1)))
    until(lambda: " WrongId=1 " in gateway.status()["source 7"], "a frame that is ignored")
    time.sleep(1.1)
    same(health(page, "?within=2"), ("503 Service Unavailable", NO_DATA.format(2)))
    gateway.quit()


@takes(3)
def test_health_without_data(bench):
    """A source that announces again and again, and sends no data, does not make the gateway well; `last` of `status` counts its announcements."""
    page, seven, gateway = served(bench)
    time.sleep(1.1)
    seven.link.send(seven.configuration())
    until(lambda: " events 2 " in gateway.status()["source 7"], "another configuration")
    expect(gateway.status()["source 7"].endswith((" last 0", " last 1")), "the configuration is the last event")
    # The page looks once a second.
    time.sleep(1.1)
    same(health(page), ("503 Service Unavailable", NO_DATA.format(10)))
    same(health(page, "?within=86400"), ("503 Service Unavailable", NO_DATA.format(86400)))
    seven.measure(int(time.time() * RATE), 1)
    until(lambda: health(page) == ("200 OK", WELL.format(10)), "200")
    gateway.quit()


def test_health_of_a_frozen_gateway(bench):
    """A gateway whose process is stopped answers nobody; once it goes on, it does."""
    page, seven, gateway = served(bench)
    seven.measure(int(time.time() * RATE), 1)
    until(lambda: health(page)[0] == "200 OK", "200")
    gateway.freeze()
    try:
        with socket.create_connection(("127.0.0.1", page), 1) as peer:
            peer.sendall(b"GET /health HTTP/1.1\r\n\r\n")
            peer.settimeout(1)
            try:
                raise Failed(f"answered: {peer.recv(100)}")
            except socket.timeout:
                pass
    finally:
        gateway.process.send_signal(signal.SIGCONT)
    until(lambda: health(page)[0] == "200 OK", "200 again")
    gateway.quit()
