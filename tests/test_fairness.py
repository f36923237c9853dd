"""Fairness: a peer that floods or does not read costs a neighbour on the same thread nothing; frames that a socket does not take wait, and
are dropped whole."""
import os
import re
import time

from c37118 import START, STOP, command, frame, stamp
from peers import Pair, expect, http, metrics, now_soc, same, takes, until, with_wrong_check

RING = 16
# A frame of 16 PMUs of 27 phasors: head, blocks of STAT, phasors, FREQ and DFREQ, and CHK.
WIDE = 14 + 16 * (2 + 4 * 27 + 4) + 2


def stalled(bench, more=""):
    """A pair whose subscriber 20 does not read, with more frames than its socket takes: the pair, and the frames by their stamps."""
    pair = Pair(bench, second={"ring": RING, "stall": 0}, wide=True, more=more)
    pair.run()
    pair.start(receive=4096)
    wanted = pair.fill()
    until(lambda: pair.gateway.counters("pmustats 9/41")["taken"] == len(wanted), "all frames of source 9")
    return pair, wanted


def read_on(pair, wanted, count):
    """The next frames of subscriber 20: each is one of these, byte for byte, and they rise."""
    got = []
    for _ in range(count):
        came = pair.second.frame()
        key = int.from_bytes(came[6:10], "big"), int.from_bytes(came[10:14], "big") & 0xFFFFFF
        same(came, wanted.get(key), f"the frame of {key}")
        got.append(key)
    expect(got == sorted(set(got)), "the frames do not rise")
    return got


@takes(3)
def test_what_a_stalled_socket_takes_later_is_whole(bench):
    """A subscriber that reads late gets whole frames, each as its source sent it: what its socket took first, and then those of its ring."""
    pair, wanted = stalled(bench)
    counts = pair.gateway.counters("stats 20")
    expect(counts["dropped"] > 100, f"the socket took nearly all: {counts}")
    got = read_on(pair, wanted, len(wanted) - counts["dropped"])
    same(got[-RING:], sorted(wanted)[-RING:], "the last frames are those of the ring")
    expect(pair.second.is_quiet(0.2), "more came")
    pair.slot = now_soc() * 30
    pair.first_is_served()
    pair.gateway.quit()


@takes(4)
def test_what_waits_is_shown(bench):
    """Of a subscriber that does not read `status` and metrics have the frames and bytes that wait, and the frames that were dropped."""
    page = bench.port()
    pair, wanted = stalled(bench, more=f'status = "127.0.0.1:{page}"\n')
    gateway = pair.gateway
    counts, status = gateway.counters("stats 20"), gateway.status()
    frames, size = map(int, status["subscriber 20"].split()[-2:])
    # What waits is a full ring, and what is left of the buffer from which its socket is written: 16,384 bytes at most.
    expect(RING <= frames <= RING + 9 and RING * WIDE <= size <= RING * WIDE + 16_384, status["subscriber 20"])
    expect(status["subscriber 1"].endswith(" queue 0 0"), status["subscriber 1"])
    same(counts["made"], len(wanted))
    time.sleep(1.1)
    shown = metrics(page)
    for name, value in (("queue_frames", frames), ("queue_bytes", size), ("dropped_frames_total", counts["dropped"])):
        same((name, shown[f'pdcgw_subscriber_{name}{{subscriber="20"}}']), (name, str(value)))
    expect(f'"queue_frames":{frames},"queue_bytes":{size},' in http(page, "/state")[1], "what waits, in the state")
    gateway.quit()


@takes(4)
def test_dropped_frames_are_counted_when_the_next_are_handed_out(bench):
    """Once a subscriber reads again log and metrics have the count of the frames that were dropped before, under its name alone."""
    page = bench.port()
    pair, wanted = stalled(bench, more=f'status = "127.0.0.1:{page}"\n')
    gateway = pair.gateway
    dropped = gateway.counters("stats 20")["dropped"]
    read_on(pair, wanted, len(wanted) - dropped)

    def logged():
        lines = [re.search(r"WARN subscriber 20: (\d+) data frames? dropped: the subscriber reads too slowly, or its `ring` or `bytes` is too small$", it)
                 for it in list(gateway.log.lines)]
        return sum(int(it[1]) for it in lines if it)

    until(lambda: logged() == dropped, f"{dropped} dropped frames in the log")
    time.sleep(1.1)
    shown = metrics(page)
    for name, value in (("queue_frames", 0), ("queue_bytes", 0), ("gap_frames_total", dropped),
                        ("handed_frames_total", len(wanted) - dropped)):
        same((name, shown[f'pdcgw_subscriber_{name}{{subscriber="20"}}']), (name, str(value)))
    same(shown['pdcgw_subscriber_gap_frames_total{subscriber="1"}'], "0")
    same(gateway.logged(r"subscriber 1: \d+ data frames? dropped.*"), 0)
    gateway.quit()


@takes(4)
def test_a_connection_after_one_that_ended_in_a_frame(bench):
    """A subscriber that connects again, after its connection ended in the middle of a frame, gets whole frames, and each is counted."""
    page = bench.port()
    pair, wanted = stalled(bench, more=f'status = "127.0.0.1:{page}"\n')
    pair.second.close()
    pair.gateway.line("subscriber 20: the connection ended")
    time.sleep(1.1)
    before = metrics(page)
    again = pair.second = bench.subscriber(pair.ports[1])
    again.start(2000)
    begun = now_soc() * pair.nine.rate
    for at in range(7):
        pair.nine.measure(begun + at, at)
        again.comes(frame(0, 2000, *stamp(begun + at, pair.nine.rate), pair.nine.blocks(at)))
    time.sleep(1.1)
    after = metrics(page)
    for name in ('pdcgw_subscriber_handed_frames_total{subscriber="20"}', "pdcgw_frame_age_seconds_count"):
        same((name, int(after[name]) - int(before[name])), (name, 7))
    pair.gateway.quit()


@takes(4)
def test_a_source_that_floods(bench):
    """A source that sends as fast as it can costs another one on its worker no frame, and loses none itself: each of its frames is taken."""
    pair = Pair(bench)
    gateway = pair.run()
    pair.start()
    sent = 0
    for _ in range(20):
        # (2,600 frames are more than a worker reads at a time)
        slot = now_soc() * 30
        pair.nine.link.send(pair.nine.data(slot, 1) * 2600)
        sent += 2600
        pair.first_is_served(2)
    until(lambda: gateway.counters("pmustats 9")["taken"] == sent, f"{sent} frames of source 9")
    same(gateway.logged("source 9: connection lost.*"), 0)
    gateway.quit()


@takes(4)
def test_a_source_that_floods_with_garbage(bench):
    """A source that sends wrong frames and then no frames costs another one on its worker nothing."""
    pair = Pair(bench)
    gateway = pair.run()
    pair.start()
    wrong = with_wrong_check(pair.nine.data(now_soc() * 30, 1))
    for _ in range(10):
        pair.nine.link.send(wrong * 2600)
        pair.first_is_served(2)
    until(lambda: " BadCheck=26000 " in gateway.status()["source 9"], "26,000 frames of source 9 that are ignored")
    for _ in range(3):
        try:
            pair.nine.link.send(os.urandom(200_000))
        except OSError:
            pass
        pair.first_is_served(2)
        pair.nine.accept()
    gateway.quit()


@takes(4)
def test_a_subscriber_that_floods(bench):
    """A subscriber that sends commands as fast as it can costs another one on its worker no frame; each of its commands is counted."""
    pair = Pair(bench)
    gateway = pair.run()
    pair.start()
    sent = 0
    for _ in range(10):
        # Stream 101 is subscriber 1's.
        pair.second.send((command(101, START) + command(101, STOP)) * 2000)
        sent += 4000
        pair.first_is_served(2)
    until(lambda: gateway.counters("stats 20").get("9") == sent, f"{sent} commands of subscriber 20 that are refused")
    same(gateway.counters("stats 1").get("9"), None)
    pair.second_is_served()
    same(gateway.logged("subscriber 20: the connection ended.*"), 0)
    gateway.quit()


def switches(gateway):
    """How often each thread of the program has waited or was interrupted."""
    folder, found = f"/proc/{gateway.process.pid}/task", {}
    for thread in os.listdir(folder):
        with open(f"{folder}/{thread}/status") as f:
            found[thread] = sum(int(it.split()[1]) for it in f if "ctxt_switches" in it)
    return found


def test_threads_share_sources_and_subscribers(bench):
    """With two threads for sources and two for subscribers each of two sources, and of two subscribers, has a thread of its own."""
    pair = Pair(bench, more="tick_ms = 1000\ningest = 2\nserve = 2\n")
    gateway = pair.run()
    pair.start()
    before, begun = switches(gateway), time.monotonic()
    for _ in range(150):
        pair.first_is_served()
        pair.second_is_served()
    # (other threads wait ten times a second)
    least = max(40, 15 * (time.monotonic() - begun))
    busy = [thread for thread, count in switches(gateway).items() if count - before[thread] >= least]
    expect(len(busy) >= 4, f"{len(busy)} threads had work for 150 frames of each source")
    gateway.quit()
