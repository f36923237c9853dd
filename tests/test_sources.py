"""Sources: when each is called, what it is asked, and which of its frames count."""
import socket
import time

from c37118 import SEND_CONFIG_2, START
from peers import RATE, Pair, expect, now_soc, pmu, same, stream, stream_frame, subscriber, takes, until, with_wrong_check


def ends(source, seconds=3):
    """The gateway closes the connection of a source."""
    expect(source.link.is_closed(seconds), f"the connection of source {source.idcode} was not closed within {seconds} s")


def stays(source):
    """The gateway keeps the connection of a source."""
    expect(not source.link.is_closed(0.1), f"the connection of source {source.idcode} was closed")


def test_a_source_is_asked_by_its_own_idcode(bench):
    """Each source is sent command 5 and, after its first configuration, command 2, both with its own IDCODE."""
    seven, pdc, port = bench.source(7), bench.source(300, host="127.0.0.3", pmus=[11, 12]), bench.port()
    text = pmu(7, connect=seven.address) + pmu(11, source=300, connect=pdc.address) + pmu(12, source=300)
    text += subscriber(4, port, grants=["300/12", 7]) + stream(40, [7, "300/12"])
    gateway = bench.gateway(text).serves(4)
    for source in (pdc, seven):
        source.accept()
        source.is_asked(SEND_CONFIG_2)
        expect(source.link.is_quiet(0.2), "data are asked for after the configuration")
        source.link.send(source.configuration())
        source.is_asked(START)
    gateway.logs("source 300: announced its configuration, DATA_RATE 30, PMUs 11 12")
    gateway.logs("source 7: announced its configuration, DATA_RATE 30, PMUs 7")
    client = bench.subscriber(port)
    client.start(40)
    slot = now_soc() * RATE
    pdc.measure(slot, 50)
    seven.measure(slot, 60)
    # PMU 12 is the second of its source.
    client.comes(stream_frame(40, slot, 60, 51))
    same(gateway.counters("pmustats 300/12"), {"taken": 1})
    same(gateway.counters("pmustats 7"), {"taken": 1})
    gateway.quit()


def test_a_new_pmu_has_its_source_called_again(bench):
    """`addpmu` for a source that is connected: it is called again and announces, and the log says so again; the other source stays."""
    pair = Pair(bench)
    gateway = pair.run()
    gateway.does("addpmu 7/70", "done 0 0")
    ends(pair.seven)
    pair.seven.pmus = [7, 70]
    pair.seven.come()
    gateway.logs("source 7: announced its configuration, DATA_RATE 30, PMUs 7 70")
    stays(pair.nine)
    same(gateway.logged("source 9: connecting to .*"), 1)
    gateway.quit()


def test_a_source_rests_without_a_pmu(bench):
    """A source whose last PMU is dropped is closed, and called again once it has one; after `undial` it is not. The other source stays."""
    pair = Pair(bench)
    gateway = pair.run()
    gateway.does("droppmu 7", "done 0 0")
    ends(pair.seven)
    expect(not pair.seven.is_called(1.5), "source 7 has no PMU, and was called")
    expect(" pause - " in gateway.status()["source 7"], "`status` says that no connection is wanted")
    gateway.does("addpmu 7", "done 0 0")
    pair.seven.come(3)
    gateway.does("undial 7", "done 0 0")
    ends(pair.seven)
    gateway.logs("source 7: no longer connected, and not connecting again")
    gateway.does("addpmu 7/71", "done 0 0")
    expect(not pair.seven.is_called(1.5), "source 7 is called no longer, and was called")
    stays(pair.nine)
    gateway.quit()


def test_a_source_called_again_is_logged_as_announced_again(bench):
    """Each connection of a source has its own `announced` in the log."""
    pair = Pair(bench)
    gateway = pair.run()
    for times in (2, 3):
        gateway.does(f"dial 7 {pair.seven.address}", "done 0 0")
        pair.seven.come()
        gateway.logs("source 7: announced its configuration, DATA_RATE 30, PMUs 7", times)
    same(gateway.logged("source 9: announced.*"), 1)
    gateway.quit()


def silent_for(source, begun=None):
    """The seconds until a silent source is called again, from its answer on."""
    begun = begun or time.monotonic()
    ends(source, 8)
    return time.monotonic() - begun


@takes(5)
def test_silence_of_each_source(bench):
    """A source that sends nothing is called again after its own `silence` seconds; with 0 it is not."""
    pair = Pair(bench, seven={"silence": 0}, nine={"silence": 1})
    gateway = pair.run()
    took = silent_for(pair.nine)
    expect(0.5 <= took <= 2, f"`silence` of source 9 is 1, and it took {took:.1f} s")
    gateway.logs("WARN source 9: no data for the time that `silence` allows; connecting again")
    pair.nine.come()
    took = silent_for(pair.nine)
    expect(0.8 <= took <= 2, f"`silence` of source 9 is 1, and it took {took:.1f} s")
    stays(pair.seven)
    gateway.quit()


@takes(4)
def test_silence_ends_with_data_alone(bench):
    """Frames that count keep a connection; wrong ones do not."""
    pair = Pair(bench, seven={"silence": 1}, nine={"silence": 1})
    gateway = pair.run()
    wrong = with_wrong_check(pair.nine.data(now_soc() * RATE, 1))
    begun = time.monotonic()
    for slot, number in pair.slots(20):
        pair.seven.measure(slot, number)
        if pair.nine.link.is_closed(0.1):
            break
        pair.nine.link.send(wrong)
    expect(time.monotonic() - begun < 2, "source 9 sends wrong frames alone, and was not called again")
    stays(pair.seven)
    same(gateway.logged("source 7: connecting to .*"), 1)
    gateway.quit()


@takes(6)
def test_dial_keeps_the_rules_of_the_source(bench):
    """A source that `dial` moves keeps its own `silence` and `clock_ms`."""
    pair = Pair(bench, seven={"silence": 30}, nine={"silence": 1, "clock_ms": 1000})
    gateway = pair.run()
    moved_nine, moved_seven = bench.source(9, host="127.0.0.5"), bench.source(7)
    for moved in (moved_seven, moved_nine):
        gateway.does(f"dial {moved.idcode} {moved.address}", "done 0 0")
        moved.come()
    ends(pair.seven)
    ends(pair.nine)
    moved_nine.measure(now_soc() * RATE, 1, seconds_off=-5)
    until(lambda: "ignored FarClock=1 " in gateway.status()["source 9"], "FarClock=1 of source 9")
    took = silent_for(moved_nine)
    expect(took <= 2, f"`silence` of source 9 is 1, and it took {took:.1f} s")
    stays(moved_seven)
    gateway.quit()


def clocks(pair, guarded, other):
    """Data of both sources, 5 s from this machine's clock: those of the guarded one are refused, and counted under it."""
    gateway = pair.run()
    pair.start()
    for at in range(3):
        guarded.measure(now_soc() * RATE + at, 1, seconds_off=-5)
        other.measure(now_soc() * RATE + at, 2, seconds_off=-5)
    until(lambda: gateway.counters(f"pmustats {other.idcode}")["taken"] == 3, "data of the source without a guard")
    until(lambda: "ignored FarClock=3 " in gateway.status()[f"source {guarded.idcode}"], "FarClock=3 in `status`")
    same(gateway.counters(f"pmustats {guarded.idcode}"), {"taken": 0}, "data of the guarded source")
    expect(" ignored - " in gateway.status()[f"source {other.idcode}"], "the other source has no such frames")
    gateway.logs(rf"WARN source {guarded.idcode}: data refused \(21 FarClock\): their timestamps are \d\.\d+ s behind this machine's clock.*")
    same(gateway.logged(f"source {other.idcode}: data refused.*"), 0)
    guarded.measure(now_soc() * RATE, 3)
    until(lambda: gateway.counters(f"pmustats {guarded.idcode}")["taken"] == 1, "data of the guarded source with a right clock")
    gateway.quit()


def test_clock_ms_of_the_first_source(bench):
    """`clock_ms` of source 7 has its far data refused and counted, and those of source 9 taken."""
    pair = Pair(bench, seven={"clock_ms": 1000})
    clocks(pair, pair.seven, pair.nine)


def test_clock_ms_of_the_second_source(bench):
    """`clock_ms` of source 9 has its far data refused and counted, and those of source 7 taken."""
    pair = Pair(bench, nine={"clock_ms": 1000})
    clocks(pair, pair.nine, pair.seven)


def test_data_far_from_the_clock_are_refused(bench):
    """Without `clock_ms` data of 60 s ago are refused as 21 FarClock by the tick's clock, and those of now are taken."""
    pair = Pair(bench)
    gateway = pair.run()
    pair.start()
    for off in (-60, 60):
        pair.nine.measure(now_soc() * RATE, 1, seconds_off=off)
    until(lambda: gateway.counters("pmustats 9") == {"taken": 0, "21": 2}, "`21:2` in the counters of PMU 9")
    pair.nine.measure(now_soc() * RATE, 1, seconds_off=-20)
    pair.nine.measure(now_soc() * RATE, 2, seconds_off=20)
    until(lambda: gateway.counters("pmustats 9") == {"taken": 2, "21": 2}, "data 20 s from the clock")
    same(gateway.counters("pmustats 7"), {"taken": 0})
    gateway.quit()


def test_frames_that_are_ignored_are_counted_by_reason(bench):
    """Frames of a source that can't be read are counted and logged under it, by their reason; the right ones between them are taken."""
    pair = Pair(bench)
    gateway = pair.run()
    pair.start()
    pair.nine.link.send(with_wrong_check(pair.nine.data(now_soc() * RATE, 1)) * 2 + pair.seven.data(now_soc() * RATE, 1))
    pair.second_is_served(2)
    line = gateway.status()["source 9"]
    expect(" up frames 6 events 3 ignored BadCheck=2 WrongId=1 last " in line, f"six frames came, of which three count: {line}")
    expect(" connected frames 1 events 1 ignored - last " in gateway.status()["source 7"], "source 7 sent its configuration alone")
    gateway.logs(r"WARN source 9: frames are ignored: 5 BadCheck \(2 frames\)")
    gateway.logs(r"WARN source 9: frames are ignored: 17 WrongId( \(1 frames\))?")
    same(gateway.logged("source 7: frames.*"), 0)
    gateway.quit()


def test_bytes_that_begin_no_frame_end_a_source(bench):
    """A source that sends no C37.118 is closed and called again after a second; the other one goes on."""
    pair = Pair(bench)
    gateway = pair.run()
    pair.start()
    pair.nine.link.send(b"SSH-2.0-OpenSSH_9.6\r\n")
    ends(pair.nine)
    gateway.logs(r"WARN source 9: connection lost: not C37.118: no frame begins here \(2 BadFirst\); connecting again")
    pair.first_is_served()
    pair.nine.come()
    pair.second_is_served()
    gateway.quit()


@takes(8)
def test_the_pause_after_a_call_that_failed_is_doubled(bench):
    """A source that refuses is called again after 1, 2 and 4 seconds; the log says why, and `status` says how long it is."""
    pair = Pair(bench)
    pair.nine.listener.close()
    gateway = bench.gateway(pair.text).serves(1, 20)
    gateway.logs(f"WARN source 9: can't connect to {pair.nine.address}: connection refused; retrying")
    expect(f"source 9 {pair.nine.address} pause 1 " in gateway.status()["source 9"], "the pause is in `status`")
    gateway.logs("source 9: connecting to .*", 4)
    times = [time.strptime(it.split(".")[0], "%Y-%m-%dT%H:%M:%S") for it in gateway.log.lines if "source 9: connecting to" in it]
    gaps = [time.mktime(later) - time.mktime(earlier) for earlier, later in zip(times, times[1:])]
    expect(all(abs(gap - pause) <= 1 for gap, pause in zip(gaps, (1, 2, 4))), f"pauses of 1, 2 and 4 s were {gaps}")
    again = bench.source(9, host="127.0.0.6")
    gateway.does(f"dial 9 {again.address}", "done 0 0")
    again.come(2)
    same(gateway.logged("source 7: can't connect.*"), 0)
    gateway.quit()


@takes(12)
def test_a_call_that_hangs_is_given_up(bench):
    """A call that nobody answers is given up after 10 seconds, and the source called again; the other one is served meanwhile."""
    # A listener whose queue is full leaves the calls of others without an answer.
    full = bench.source(9, host="127.0.0.7", backlog=0)
    held = []
    for _ in range(4):
        made = socket.socket()
        made.setblocking(False)
        made.connect_ex(full.listener.getsockname())
        held.append(made)
    time.sleep(0.1)
    pair = Pair(bench, seven={"silence": 0}, nine={"connect": full.address})
    begun = time.monotonic()
    gateway = bench.gateway(pair.text).serves(1, 20)
    pair.seven.come()
    gateway.line("source 7: announced")
    pair.first = bench.subscriber(pair.ports[0])
    pair.first.start(101)
    expect(f"source 9 {full.address} calling " in gateway.status()["source 9"], "`status` says that it is being connected to")
    pair.first_is_served()
    gateway.line("WARN source 9: can't connect: no answer within 10 s; retrying")
    took = time.monotonic() - begun
    expect(9 <= took <= 13, f"it was given up after {took:.1f} s")
    for made in held:
        made.close()
    full.listener.listen(64)

    def calls():
        # (those that were held come first)
        return full.is_called(5) and not full.link.is_closed(0.2)

    until(calls, "another call")
    gateway.quit()


def test_names_are_looked_up(bench):
    """Sources whose `connect` is a name are looked up and called, whichever of two threads each of them has."""
    pair = Pair(bench)
    named, third = bench.source(9), bench.source(11)
    text = "ingest = 2\n" + pair.text.replace(pair.nine.address, named.address.replace("127.0.0.1", "localhost"))
    text = text.replace(pair.seven.address, pair.seven.address.replace("127.0.0.1", "localhost"))
    text += pmu(11, connect=third.address.replace("127.0.0.1", "localhost"))
    gateway = bench.gateway(text).serves(1, 20)
    for source in (named, pair.seven, third):
        source.come()
        gateway.line(f"source {source.idcode}: announced")
    name = named.address.replace("127.0.0.1", "localhost")
    expect(gateway.status()["source 9"].startswith(f"source 9 {name} connected "), "`status` has the name")
    pair.start()
    pair.nine = named
    pair.second_is_served()
    pair.first_is_served()
    gateway.quit()


@takes(5)
def test_a_name_without_an_address_is_looked_up_again(bench):
    """A name that has no address is logged as that, and looked up again; the other source is served meanwhile."""
    pair = Pair(bench)
    gateway = bench.gateway(pair.text.replace(pair.nine.address, "no-such-host.invalid:4712")).serves(1, 20)
    pair.seven.come()
    gateway.line("source 7: announced")
    pair.first = bench.subscriber(pair.ports[0])
    pair.first.start(101)
    pair.first_is_served()
    gateway.logs("WARN source 9: the name in `connect` has no address; retrying.*", 2, 30)
    pair.first_is_served()
    gateway.quit()


def test_a_changed_configuration_is_asked_for(bench):
    """A data frame that is not as long as the configuration says has CFG-2 asked for, over the same connection."""
    pair = Pair(bench)
    gateway = pair.run()
    pair.start()
    pair.nine.phasors = 2
    pair.nine.measure(now_soc() * RATE, 5)
    pair.nine.is_asked(SEND_CONFIG_2)
    pair.nine.link.send(pair.nine.configuration())
    gateway.logs(r"WARN source 9: frames are ignored: 8 BadLength( \(1 frames\))?")
    pair.first_is_served()
    gateway.quit()
