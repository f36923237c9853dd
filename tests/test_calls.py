"""Calls of sources: pauses, sources asked again, changed configurations, and names."""
import socket
import subprocess
import threading
import time

from c37118 import SEND_CONFIG_2, START
from peers import RATE, Closed, Pair, expect, frame_like, now_soc, pmu, same, stream, stream_frame, subscriber, takes, until, with_wrong_check


def calls_within(source, seconds, answer):
    """How often a source is called within so many seconds, where each connection is answered so and closed."""
    end, calls = time.monotonic() + seconds, 0
    while time.monotonic() < end:
        if source.is_called(max(0.05, end - time.monotonic())):
            calls += 1
            try:
                answer(source)
            except (Closed, ConnectionError, OSError):
                pass
            source.link.close()
    return calls


@takes(12)
def test_a_source_that_closes_is_called_seldom(bench):
    """Sources that send a configuration, a data frame behind it, or nonsense, and close: each is called after 1, 2 and 4 seconds, so 4 times at
    most in 7 seconds. Meanwhile each connection and end of subscriber 20 is in the log."""
    closing = [bench.source(number, host=f"127.0.0.{at}") for at, number in enumerate((7, 9, 300), 2)]
    port = bench.port()
    text = "".join(pmu(it.idcode, connect=it.address) for it in closing) + subscriber(20, port, grants=[7]) + stream(2000, [7])
    gateway = bench.gateway(text).serves(20)

    def announces(source):
        source.is_asked(SEND_CONFIG_2)
        source.link.send(source.configuration())

    def measures(source):
        source.announce()
        source.measure(now_soc() * RATE, 1)

    def nonsense(source):
        source.link.send(b"no frame begins so")

    counts = {}
    threads = [threading.Thread(target=lambda it=it, how=how: counts.update({it.idcode: calls_within(it, 6.5, how)}), daemon=True)
               for it, how in zip(closing, (announces, measures, nonsense))]
    for it in threads:
        it.start()
    for _ in range(8):
        bench.subscriber(port).close()
        time.sleep(0.5)
    for it in threads:
        it.join()
    for source in closing:
        expect(2 <= counts[source.idcode] <= 4, f"source {source.idcode} was called {counts[source.idcode]} times")
    gateway.logs(r"subscriber 20: connected from \S+", 8)
    gateway.logs("subscriber 20: the connection ended: closed by the other side", 8)
    same(gateway.logged(r"\d+ log entr.* lost: too many at once"), 0)
    gateway.quit()


@takes(7)
def test_a_source_deaf_at_first_comes_up(bench):
    """A device that drops all that it is sent in the first half second of a connection is asked again after 3 seconds where it is: it comes up
    within 4, over its first connection. The log says so; the other source is left alone."""
    pair = Pair(bench)
    gateway = bench.gateway(pair.text).serves(1, 20)
    pair.nine.come()
    begun = time.monotonic()
    pair.seven.accept()
    pair.seven.is_asked(SEND_CONFIG_2)
    pair.seven.announce()
    took = time.monotonic() - begun
    expect(2.5 < took < 4.5, f"it came up after {took:.1f} s")
    expect(" WARN " in gateway.line("source 7: sends no data; asking again"), "the log's level")
    same(gateway.logged("source 7: connecting to .*"), 1)
    gateway.quit()


@takes(7)
def test_a_lost_start_is_sent_again(bench):
    """A source whose first command 2 is lost, and which sends CFG-2 by itself, is asked again after 3 seconds: for its configuration and for its data,
    without a call."""
    pair = Pair(bench)
    gateway = bench.gateway(pair.text).serves(1, 20)
    pair.nine.come()
    pair.seven.accept()
    pair.seven.announce()
    time.sleep(1.5)
    pair.seven.link.send(pair.seven.configuration())
    pair.seven.is_asked(SEND_CONFIG_2)
    pair.seven.is_asked(START)
    pair.seven.link.send(pair.seven.configuration())
    pair.gateway = gateway
    pair.first = bench.subscriber(pair.ports[0])
    pair.first.start(101)
    pair.first_is_served(3)
    expect(" ignored - " in gateway.status()["source 7"], "frames of source 7 are ignored")
    same(gateway.logged("source 7: connecting to .*"), 1)
    gateway.quit()


@takes(7)
def test_a_configuration_with_a_wrong_check_is_asked_for_again(bench):
    """The first CFG-2 of a connection has a wrong CHK: it is asked for again after 3 seconds."""
    pair = Pair(bench)
    gateway = bench.gateway(pair.text).serves(1, 20)
    pair.nine.come()
    pair.seven.accept()
    pair.seven.is_asked(SEND_CONFIG_2)
    pair.seven.link.send(with_wrong_check(pair.seven.configuration()))
    begun = time.monotonic()
    pair.seven.announce()
    expect(time.monotonic() - begun < 4.5, "it was asked again late")
    gateway.line("source 7: announced its configuration")
    gateway.quit()


@takes(6)
def test_a_source_that_measures_is_not_asked_again(bench):
    """A source that sends a frame each half second is sent no more commands, and nothing is said of it."""
    pair = Pair(bench)
    gateway = pair.run()
    pair.start()
    for _ in range(9):
        pair.first_is_served()
        time.sleep(0.5)
    expect(pair.seven.link.is_quiet(0.1), "source 7 is sent something")
    same(gateway.logged("source 7: sends no data; .*"), 0)
    gateway.quit()


def test_another_configuration_is_logged(bench):
    """A source that announces other units and another FNOM unasked, and another rate on its next connection: each is a WARN with what
    differs; the same configuration once more is none."""
    pair = Pair(bench)
    gateway = pair.run()
    config = pair.seven.configuration()

    def changed(*places):
        """The configuration with these bytes changed, and a right CHK."""
        made = bytearray(config)
        for place in places:
            made[place] ^= 1
        return frame_like(bytes(made))

    # TIME_BASE, NUM_PMU, STN, IDCODE, FORMAT and three counts, one name of 16 bytes: then PHUNIT, FNOM, CFGCNT, DATA_RATE, CHK.
    unit, nominal = 14 + 6 + 26 + 16, 14 + 6 + 26 + 16 + 4
    pair.seven.link.send(changed())
    pair.seven.link.send(changed(unit + 3, nominal + 1))
    line = gateway.line("source 7: its configuration changed")
    expect(" WARN " in line and line.endswith("its configuration changed: units, FNOM"), line)
    same(gateway.logged("source 7: its configuration changed.*"), 1)
    pair.seven.rate = 60
    pair.seven.link.close()
    pair.seven.come()
    gateway.logs("source 7: its configuration changed: units, FNOM, DATA_RATE")
    same(gateway.logged("source 9: its configuration changed.*"), 0)
    gateway.quit()


def test_a_source_called_by_name(bench):
    """A source may be called by a name; it is looked up before each call."""
    source, port = bench.source(7, host="127.0.0.1"), bench.port()
    other = bench.source(9, host="127.0.0.2")
    name = "localhost:" + source.address.split(":")[1]
    text = pmu(7, connect=name) + pmu(9, connect=other.address) + subscriber(1, port, grants=[7]) + stream(101, [7])
    gateway = bench.gateway(text, name="named").serves(1)
    source.come()
    gateway.line("source 7: connecting to 127.0.0.1:")
    source.link.close()
    source.come()
    until(lambda: gateway.logged(r"source 7: connecting to \S+") == 2, "a second call")
    guest = bench.subscriber(port)
    guest.start(101)
    slot = now_soc() * RATE
    source.measure(slot, 5)
    guest.comes(stream_frame(101, slot, 5))
    gateway.quit()


@takes(14)
def test_takeover_calms_down(bench):
    """Two clients that both connect again at once, with `takeover`: one takes the other's place each 5 seconds at most; who is refused is
    logged with both hosts."""
    pair = Pair(bench, first={"takeover": True})
    gateway = pair.run()
    end, taken = time.monotonic() + 8, []

    def client(own):
        while time.monotonic() < end:
            try:
                mine = bench.subscriber(pair.ports[0], own=own)
            except OSError:
                continue
            mine.command(101, SEND_CONFIG_2)
            try:
                mine.frame(1)
                taken.append(own)
                mine.is_closed(max(0.1, end - time.monotonic()))
            except Exception:  # noqa: B902 (refused: it connects again)
                pass
            mine.close()

    threads = [threading.Thread(target=client, args=(own,), daemon=True) for own in ("127.0.0.1", "127.0.0.2")]
    for it in threads:
        it.start()
    for it in threads:
        it.join()
    expect(1 <= len(taken) <= 4, f"{len(taken)} connections were served in 8 seconds")
    line = gateway.line("subscriber 1: connection refused ")
    expect(line.count("127.0.0.") == 2 and "is connected already (34 Busy)" in line, line)
    gateway.quit()


def silent_name_server(bench):
    """A command that runs the program where the one name server never answers. None: this user may not have one."""
    server = socket.socket(socket.AF_INET, socket.SOCK_DGRAM)
    bench.made.append(server)
    file = f"{bench.folder}/resolv.conf"
    with open(file, "w") as f:
        f.write("nameserver 127.0.0.53\n")
    words = ["unshare", "--mount", "sh", "-c", f'mount --bind {file} /etc/resolv.conf && exec "$@"', "sh"]
    try:
        server.bind(("127.0.0.53", 53))
        tried = subprocess.run([*words, "true"], stdout=subprocess.DEVNULL, stderr=subprocess.DEVNULL)
    except OSError:
        return None
    return words if tried.returncode == 0 else None


@takes(8)
def test_a_name_without_an_answer_holds_up_no_other(bench):
    """One source's name is answered by no name server: another that is called by a name comes up at once, and the log says of the first what it
    waits for. (Where this user may not set a name server, nothing is tried.)"""
    words = silent_name_server(bench)
    if not words:
        return
    seven, nine = bench.source(7), bench.source(9)
    ports = [it.address.split(":")[1] for it in (seven, nine)]
    text = "".join(pmu(number, connect=f"no-answer-{number}.test:{ports[0]}") for number in (7, 8, 300))
    text += pmu(9, connect=f"localhost:{ports[1]}") + subscriber(1, bench.port())
    gateway = bench.gateway(text, words=words)
    nine.come(3)
    for number in (7, 8, 300):
        gateway.line(f"source {number}: the name in `connect` is not found: no answer of a name server for 5 s")
    gateway.process.kill()


@takes(3)
def test_quit_waits_for_no_look_up(bench):
    """Half a second after two sources were called by names that no server answers, `quit` ends the program within 2 seconds, with status 0. (Where
    this user may not set a name server, nothing is tried.)"""
    words = silent_name_server(bench)
    if not words:
        return
    text = "".join(pmu(number, connect=f"no-answer-{number}.test:4712") for number in (7, 300)) + subscriber(1, bench.port())
    gateway = bench.gateway(text, words=words).serves(1)
    time.sleep(0.5)
    begun = time.monotonic()
    gateway.quit()
    took = time.monotonic() - begun
    expect(took < 2, f"`quit` took {took:.1f} s")


@takes(5)
def test_a_source_is_not_asked_again_amid_bytes(bench):
    """A source that sends no data, but a byte each 0.4 seconds, is not asked again."""
    pair = Pair(bench)
    gateway = pair.run()
    frame = pair.seven.configuration()
    for byte in frame[:11]:
        pair.seven.link.send(bytes([byte]))
        expect(pair.seven.link.is_quiet(0.4), "source 7 is asked again amid a frame")
    pair.seven.link.send(frame[11:])
    pair.first = bench.subscriber(pair.ports[0])
    pair.first.start(101)
    pair.first_is_served()
    gateway.quit()
