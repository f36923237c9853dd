#!/usr/bin/env python3
"""Soaks the running service: one fault after another beside two quiet neighbours, of which one has 16 members, while sources and
subscribers flood and connect in storms.

    python3 bench/soak.py PROGRAM [--minutes N] [--seed N] [--first] [FAULT..]     30 minutes if not told; all faults, or these alone

What the neighbours get is compared byte for byte with what their sources sent. Each fault has to be found in the log or in `status` within
10 seconds, and whoever has it has to be served again once it is over; a reader of a stream whose members change may misread none of its frames.
Memory and descriptors of the gateway are read once a second. A host without power is a network namespace: where none can be made that fault
is left out, which is printed. With --first the gateway, the neighbours and their sources run before whatever else the machine does (SCHED_RR), for a
machine that has other work. It ends by itself, with status 1 where any of this is not so.
"""
import argparse
import multiprocessing
import os
import random
import re
import socket
import sys
import tempfile
import threading
import time
import traceback

from service import flood_source, flood_subscriber

for folder in ("tools", "tests"):
    sys.path.insert(0, os.path.join(os.path.dirname(os.path.abspath(__file__)), "..", folder))
from c37118 import BASE, CONFIG_2, SEND_CONFIG_2, START, command, data_of, stamp  # noqa: E402
from peers import (Bench, Failed, Host, LiveSource, PassedBy, Subscriber, layout_of, named_block, pmu, read_by, same,  # noqa: E402
                   slot_of, stream, subscriber, until)

RATE = 30
# A frame waits 600 ms for its members, so that a busy machine makes no filler.
WAIT = {"rate": RATE, "wait": 60, "window": 40}
# How soon a fault has to be found, in seconds.
SOON = 10
# The lines of the log that are printed with a failure: the last ones of a fault, the first ones of the neighbours.
SHOWN = 12
SIXTEEN = [[800, list(range(801, 809))], [900, list(range(901, 909))]]
MEMBERS = [f"{source}/{it}" for source, pmus in SIXTEEN for it in pmus]


class Quiet(threading.Thread):
    """A neighbour's reader. Each frame of its stream behind the first, which may lack data from before its start, has to come in order, byte
    for byte and over one connection."""

    def __init__(self, port, idcode, pmus):
        super().__init__(daemon=True)
        self.port, self.idcode, self.pmus = port, idcode, pmus
        self.frames, self.oldest, self.wrong = 0, 0.0, []

    def run(self):
        try:
            link = Subscriber(self.port)
            link.start(self.idcode)
            slot = slot_of(link.data(5), RATE)
            while True:
                got, slot = link.data(5), slot + 1
                wanted = data_of(self.idcode, *stamp(slot, RATE), [named_block(it, slot) for it in self.pmus])
                if got != wanted:
                    self.wrong.append(f"{now()} a frame is {got.hex()}, and it has to be {wanted.hex()}")
                    slot = slot_of(got, RATE)
                self.frames += 1
                self.oldest = max(self.oldest, time.time() - slot / RATE)
        except (Failed, OSError) as error:
            self.wrong.append(f"{now()} {type(error).__name__}: {error}")


def neighbours(hosts, ports, asked, told, first):
    """The neighbours and their sources, in a process of their own, so that the other peers hold none of them up."""
    if first:
        os.sched_setscheduler(0, os.SCHED_RR, os.sched_param(1))
    for (idcode, pmus), (host, port) in zip([[700, [700]], *SIXTEEN], hosts):
        LiveSource(idcode, host, port, pmus=pmus, rate=RATE)
    told.put("listening")
    asked.get()
    readers = [Quiet(ports[0], 71, [700]), Quiet(ports[1], 72, [it for _, pmus in SIXTEEN for it in pmus])]
    for it in readers:
        it.start()
    asked.get()
    told.put([(it.frames, it.oldest, it.wrong) for it in readers])


def storm(port, slow):
    """A subscriber that connects again and again from several sockets, or reads a few bytes a second."""
    chance = random.Random(port)
    while True:
        links, end = [], time.time() + (chance.uniform(5, 40) if slow else chance.uniform(0, 0.5))
        try:
            for _ in range(1 if slow else chance.randrange(1, 8)):
                links.append(socket.create_connection(("127.0.0.1", port)))
                links[-1].sendall(command(73, START) + os.urandom(chance.randrange(0, 3)))
            while time.time() < end:
                links[0].recv(20 if slow else 4096)
                time.sleep(0.3 if slow else 0.02)
        except OSError:
            time.sleep(0.05)
        for it in links:
            it.close()


class World:
    """The gateway with the neighbours, the noise and those who have the faults: sources 7, 20, 21 and subscribers 1 (stream 101), 2 (stream 201)."""

    def __init__(self, program, folder, first):
        self.chance, self.failed = random.Random(), []
        self.bench = bench = Bench(program, folder)
        self.host = self.host_of_its_own()
        quiet = [(f"127.0.1.{it}", bench.port()) for it in (1, 2, 3)]
        self.ports = {number: bench.port() for number in (1, 2, 3, 4, 5, 71, 72, 73, 74, 75)}
        flood = bench.port()
        self.asked, self.told = multiprocessing.SimpleQueue(), multiprocessing.SimpleQueue()
        self.children = [multiprocessing.Process(target=work, args=args, daemon=True) for work, *args in (
            (neighbours, quiet, (self.ports[71], self.ports[72]), self.asked, self.told, first), (flood_source, flood, "whole", 4),
            (storm, self.ports[73], False), (storm, self.ports[74], True), (flood_subscriber, self.ports[75], 4))]
        for it in self.children:
            it.start()
        same(self.told.get(), "listening")
        self.sources = {it: bench.live(it, host=f"127.0.0.{it}", rate=RATE) for it in (7, 20, 21)}
        self.still = "tick_ms = 10\n" + pmu(700, ahead_ms=None, connect="{}:{}".format(*quiet[0])) + pmu(1, ahead_ms=None, connect=f"127.0.0.1:{flood}")
        for (source, pmus), it in zip(SIXTEEN, quiet[1:]):
            self.still += "".join(pmu(number, ahead_ms=None, source=source, **({"connect": "{}:{}".format(*it)} if number == pmus[0] else {}))
                                  for number in pmus)
        self.still += subscriber(71, self.ports[71], grants=[700]) + stream(71, [700], **WAIT)
        self.still += subscriber(72, self.ports[72], ring=128, grants=MEMBERS) + stream(72, MEMBERS, **WAIT)
        self.still += "".join(subscriber(it, self.ports[it], grants=[1, 21]) + stream(idcode, [number], **WAIT)
                              for it, idcode, number in ((73, 73, 21), (74, 73, 21), (75, 2000, 1)))
        self.still += subscriber(5, self.ports[5], grants=[20, 21]) + stream(501, [20], **WAIT)
        self.set_back()
        self.gateway = bench.gateway(self.text(), words=("chrt", "--rr", "1") if first else ()).serves(1, 2, 71, 72)
        for it in (7, 20, 21, 700, 800, 900):
            self.gateway.line(f"source {it}: announced")
        self.asked.put("start")
        self.readers = {1: bench.reader(self.ports[1], [101], rate=RATE), 2: bench.reader(self.ports[2], [201], rate=RATE)}

    def host_of_its_own(self):
        try:
            Host.enter_own_network()
            return Host(1)
        except PassedBy as reason:
            print(f"no host loses its power: {reason}")

    def set_back(self):
        """The setup as it is between faults."""
        self.pmus = {it: {"ahead_ms": None, "connect": source.address} for it, source in self.sources.items()}
        self.first, self.second = {"ring": 64, "grants": [7, 21], "stall": 3}, {"ring": 64, "grants": [21]}
        self.streams = {1: stream(101, [7, 20, 21], **WAIT), 2: stream(201, [21], **WAIT)}
        self.more = ""

    def text(self):
        return (self.still + "".join(pmu(it, **keys) for it, keys in self.pmus.items()) + subscriber(1, self.ports[1], **self.first) + self.streams[1]
                + subscriber(2, self.ports[2], **self.second) + self.streams[2] + self.more)

    def reload(self):
        answer = self.gateway.reloads(self.text())
        same(len(answer), 1, f"lines of the answer to `reload`: {answer}")

    def mark(self):
        """What is found from now on is of the next fault."""
        self.begun, self.line, self.found = time.monotonic(), len(self.gateway.log.lines), None
        for it in self.readers.values():
            it.came.clear()

    def comes(self, condition, what, seconds=SOON):
        """Waits for it. The first such thing of a fault is when that was found."""
        until(condition, what, seconds)
        self.found = self.found or time.monotonic() - self.begun

    def logs(self, pattern, seconds=SOON):
        """The log has this, since the fault began."""
        self.comes(lambda: any(re.search(pattern, it) for it in self.gateway.log.lines[self.line:]), f"{pattern!r} in the log", seconds)

    def counts(self, source, name):
        """The frames of a source that `status` counts as ignored for this."""
        found = re.search(rf" {name}=(\d+)", self.gateway.status()[f"source {source}"])
        return int(found[1]) if found else 0

    def rises(self, source, name, before):
        self.comes(lambda: self.counts(source, name) > before, f"{name} of source {source} in `status`")

    def is_well(self):
        """Subscribers 1 and 2 are served as they should be, and misread nothing since the fault began."""
        for number, idcode, pmus in ((1, 101, self.first["grants"]), (2, 201, self.second["grants"])):
            self.readers[number].reads(idcode, pmus, 5, 35)
            for what in ("misread", "broken"):
                same(self.readers[number].count(what), 0, f"frames that subscriber {number} has {what}")


def swap(world, change):
    """A grant is swapped for one of an equally long block. Where subscriber 1 was served between two lines, CFG-2 came for each of the two."""
    world.first["grants"] = [20, 21] if 7 in world.first["grants"] else [7, 21]
    change()
    world.logs("subscriber 1: stream 101: (disconnected: its layout changed|its layout changed; CFG-2 sent unasked)")


def swap_by_lines(world):
    gone, new = (7, 20) if 7 in world.first["grants"] else (20, 7)
    swap(world, lambda: [world.gateway.ask(it) for it in (f"revoke 1 {gone}", f"grant 1 {new}")])
    # (the file says now what the lines did)
    world.gateway.reloads(world.text())


def swap_by_reload(world):
    swap(world, world.reload)


def another_length(world):
    """A grant makes the frames longer, and its revocation shorter: CFG-2 unasked, and the connection stays."""
    other = 20 if 7 in world.first["grants"] else 7
    for line, pmus in ((f"grant 1 {other}", [7, 20, 21]), (f"revoke 1 {other}", world.first["grants"])):
        world.gateway.ask(line)
        world.readers[1].reads(101, pmus, 5, SOON)
    world.logs("INFO subscriber 1: stream 101: its layout changed; CFG-2 sent unasked")
    same(world.readers[1].count("closed"), 0, "disconnected")


def started_meanwhile(world):
    """Thirty times a stream is removed and defined with another member of an equally long block while its subscriber, which has the old CFG-2, starts
    it: no frame is misread."""
    for _ in range(30):
        client = Subscriber(world.ports[5])
        client.command(501, SEND_CONFIG_2)
        layout = layout_of(client.frame(5))
        world.gateway.say("remove 5 501")
        world.gateway.say(f"define 5 501 {RATE} {BASE} 60 40 none {41 - layout[0][0]}")
        time.sleep(world.chance.uniform(0, 0.006))
        try:
            client.command(501, START)
            got = client.frame(0.1)
            if got[1] >> 4 != CONFIG_2:
                same(read_by(got, layout, RATE), "right", f"a frame by CFG-2 of PMU {layout[0][0]}: {got.hex()}")
        except (OSError, Failed) as error:
            # (it is disconnected, or the stream was started before it was removed, and then is silent)
            if "a frame by CFG-2" in str(error):
                raise
        finally:
            client.close()
            world.gateway.lines(2)
        time.sleep(0.05)


def off_time(world, seconds):
    """The clock of a source is wrong by so much, until it is found in `status`."""
    before = world.counts(7, "FarClock")
    world.sources[7].ahead = seconds
    world.rises(7, "FarClock", before)
    world.sources[7].ahead = 0


def ahead(world):
    off_time(world, world.chance.choice((0.5, 3, 40)))


def behind(world):
    off_time(world, -40)


def redial(world):
    """A source ends its connection."""
    world.sources[7].restarts()
    world.logs("WARN source 7: connection lost")
    # (the pause before a call grows up to 30 s)
    world.logs("INFO source 7: announced", 35)


def another_fnom(world):
    """A source of subscriber 1 sends another CFG-2 in the middle of its data."""
    number = world.first["grants"][0]
    world.sources[number].announces(fnom=1 - world.sources[number].fnom)
    world.logs(f"WARN source {number}: its configuration changed: FNOM")
    world.logs("WARN subscriber 1: stream 101: disconnected: its layout changed")


def mute(world):
    """A source sends nothing for some seconds."""
    world.sources[7].is_mute = True
    world.logs("WARN source 7: sends no data")
    world.sources[7].is_mute = False


def garbage(world):
    """A source sends a frame whose CHK is wrong."""
    before = world.counts(7, "BadCheck")
    with world.sources[7].lock:
        got = bytearray(world.sources[7].data(0, 0))
        got[-1] ^= 1
        world.sources[7].link.send(got)
    world.rises(7, "BadCheck", before)


def backlog(world):
    """A source holds 2 s of frames back, and then sends them at once: each one comes to both subscribers."""
    world.sources[21].is_held = True
    time.sleep(2)
    world.sources[21].is_held = False
    all_came(world, 60)


def stalled(world):
    """The link of a source stands still for 5 s, so that it is asked again, and then delivers what it held: each frame comes to both subscribers."""
    # (it can neither send nor answer)
    with world.sources[21].lock:
        time.sleep(5)
    world.logs("WARN source 21: sends no data; asking again")
    all_came(world, 150)


def all_came(world, count):
    """Frames of stream 201 came, so many at least, of each slot behind the first one."""
    world.readers[2].reads(201, [21], count, SOON)
    slots = [slot_of(it.bytes, RATE) for it in list(world.readers[2].came) if it.what == "right"]
    same(slots, list(range(slots[0], slots[0] + len(slots))), "slots of stream 201")


def new_pmu(world):
    """A reload adds a PMU, a subscriber and its stream, and another one drops them."""
    world.more = pmu(30, source=30) + subscriber(3, world.ports[3], grants=[30, 21]) + stream(301, [21], **WAIT)
    world.reload()
    world.logs("subscriber 3: may connect")
    reader = world.bench.reader(world.ports[3], [301], rate=RATE, again=False)
    reader.reads(301, [21], 5, SOON)
    world.more = ""
    world.reload()
    world.logs("subscriber 3: dropped")
    until(lambda: reader.count("closed"), "the connection of a subscriber that is dropped", SOON)


def new_ring(world):
    """A reload changes `ring`, which drops subscriber 2 and adds it again."""
    world.second["ring"] = 192 - world.second["ring"]
    world.reload()
    world.logs("subscriber 2: added")


def new_port(world):
    """A reload moves a port."""
    world.ports[2], world.ports[4] = world.ports[4], world.ports[2]
    world.readers[2].port = world.ports[2]
    world.reload()
    world.logs(f"subscriber 2: may connect at .*:{world.ports[2]}")


def new_wait(world):
    """A reload changes `wait` of a stream that is on: it goes on behind its CFG-2."""
    world.streams[2] = stream(201, [21], rate=RATE, wait=world.chance.randrange(30, 60), window=world.chance.randrange(30, 60))
    world.reload()
    until(lambda: world.readers[2].count("configuration"), "CFG-2 behind which the stream goes on", SOON)
    same(world.readers[2].count("closed"), 0, "disconnected")


def new_address(world):
    """A reload changes a rule of a source, which has it called again."""
    world.pmus[7]["silence"] = 25 - world.pmus[7].get("silence", 10)
    world.reload()
    world.logs("INFO source 7: announced")


def broken_file(world):
    """A reload of a file with a mistake changes nothing."""
    answer = world.gateway.reloads(world.text() + "[[pmu]]\nid = 0\n")
    same(answer[-1], "refused 37 BadSetup")
    world.logs("WARN `reload` failed, nothing was changed: its answer says why")


def dead_host(world):
    """The host of subscriber 1 loses its power."""
    world.readers[1].moves(world.host.connect)
    world.readers[1].reads(101, world.first["grants"], 5, SOON)
    world.line = len(world.gateway.log.lines)
    world.host.loses_power()
    try:
        world.logs("WARN subscriber 1: disconnected")
    finally:
        world.host.has_power()
        world.readers[1].moves(Subscriber)


FAULTS = [swap_by_lines, swap_by_reload, another_length, started_meanwhile, ahead, behind, redial, another_fnom, mute, garbage, backlog, stalled,
          new_pmu, new_ring, new_port, new_wait, new_address, broken_file, dead_host]


def now():
    return time.strftime("%H:%M:%S", time.gmtime())


def used(process):
    """Resident memory in KiB, and open descriptors."""
    with open(f"/proc/{process.pid}/status") as f:
        memory = next(int(line.split()[1]) for line in f if line.startswith("VmRSS"))
    return memory, len(os.listdir(f"/proc/{process.pid}/fd"))


def read_use(process, readings):
    while process.poll() is None:
        try:
            readings.append(used(process))
        except (OSError, StopIteration):
            return
        time.sleep(1)


def grown(readings):
    """By how much memory and descriptors are more in the last tenth than in the second."""
    part = max(1, len(readings) // 10)
    early, late = readings[part:2 * part] or readings, readings[-part:]
    return [max(it[at] for it in late) - max(it[at] for it in early) for at in (0, 1)]


def commit(world, fault, took):
    """One fault: it is found soon, and all are well behind it."""
    world.mark()
    try:
        fault(world)
        took.setdefault(fault.__name__, []).append(world.found or time.monotonic() - world.begun)
        world.is_well()
    except (Failed, OSError) as error:
        place = traceback.extract_tb(error.__traceback__)
        line = next(it.lineno for it in reversed(place) if it.filename.endswith("soak.py"))
        world.failed.append(f"{now()} {fault.__name__}, line {line}: {error}")
        print(world.failed[-1])
        for number, it in world.readers.items():
            kinds = ("right", "filled", "unfit", "misread", "broken", "closed")
            print(f"    subscriber {number}: " + ", ".join(f"{what} {it.count(what)}" for what in kinds))
        shown = [it for it in world.gateway.log.lines[world.line:] if re.search(r" (subscriber [12]|source (7|20|21)): ", it)]
        print("".join(f"    {it}\n" for it in shown[-SHOWN:]), end="", flush=True)
        recover(world)


def recover(world):
    """All is as it is between faults."""
    for it in world.sources.values():
        it.ahead, it.is_mute, it.is_held = 0, False, False
    world.set_back()
    world.gateway.reloads(world.text())
    world.mark()
    try:
        world.is_well()
    except Failed as error:
        world.failed.append(f"{now()} not well behind it: {error}")
        print(world.failed[-1], flush=True)


def main():
    words = argparse.ArgumentParser(usage=__doc__)
    words.add_argument("program")
    words.add_argument("faults", nargs="*")
    words.add_argument("--minutes", type=float, default=30)
    words.add_argument("--seed", type=int, default=int(time.time()))
    words.add_argument("--first", action="store_true")
    words = words.parse_intermixed_args()
    with tempfile.TemporaryDirectory() as folder:
        world = World(os.path.abspath(words.program), folder, words.first)
        try:
            sys.exit(soak(world, words))
        finally:
            world.bench.end()
            for it in world.children:
                it.kill()


def soak(world, words):
    print(f"seed {words.seed}")
    world.chance.seed(words.seed)
    faults = [it for it in FAULTS if not words.faults or it.__name__ in words.faults]
    faults = [it for it in faults if it is not dead_host or world.host]
    readings, took, end, left = [], {}, time.monotonic() + 60 * words.minutes, []
    threading.Thread(target=read_use, args=(world.gateway.process, readings), daemon=True).start()
    world.is_well()
    while time.monotonic() < end and world.gateway.process.poll() is None:
        left = left or world.chance.sample(faults, len(faults))
        commit(world, left.pop(), took)
    world.asked.put("end")
    good = not world.failed
    for name, (frames, oldest, wrong) in zip(("one member", "16 members"), world.told.get()):
        print(f"neighbour with {name}: {frames:,} frames, {len(wrong)} wrong or missing; the oldest was read after {oldest:.3f} s")
        print("".join(f"    {it[:600]}\n" for it in wrong[:5]), end="")
        good = good and frames > 0 and not wrong
    if not good:
        status = world.gateway.status()
        print("".join(f"    {status[f'source {it}']}\n" for it in (700, 800, 900)), end="")
        logged = [it for it in world.gateway.log.lines if re.search(r" (WARN|ERROR) (source (700|800|900)|subscriber 7[12]): ", it)]
        print("".join(f"    {it}\n" for it in logged[:SHOWN]), end="")
    for number in (71, 72):
        counts = world.gateway.counters(f"stats {number}")
        print(f"the gateway's own counts of subscriber {number}: {counts}")
        good = good and counts["dropped"] == 0
    more = grown(readings)
    world.gateway.say("quit")
    status = world.gateway.ended()
    for name, seconds in sorted(took.items()):
        print(f"{name}: {len(seconds)} times, found within {max(seconds):.1f} s")
    print(f"memory: {max(it[0] for it in readings):,} KiB at most, {more[0]:+,} from the second tenth to the last")
    print(f"descriptors: {max(it[1] for it in readings)} at most, {more[1]:+} from the second tenth to the last")
    print(f"status at quit: {status}; {len(world.failed)} faults were not as they have to be")
    good = good and status == 0 and more[0] < 1_024 and more[1] < 8
    print("ok" if good else "FAILED")
    return 0 if good else 1


if __name__ == "__main__":
    main()
