#!/usr/bin/env python3
"""Loads of the running service that are recorded: their replay hands each subscriber the bytes that its sockets were sent.

    python3 bench/recorded_loads.py PROGRAM [CASE..]      CASE: demo steady burst trouble flood; none: all of them

PROGRAM is `pdcgw` as `rt run` left it in crates/pdcgw/out. Each load has `ingest = 2`, `serve = 2` and `record`. The bytes of each connection are
kept here; then `pdcgw verify` has to find nothing missing and nothing that differs, and what `pdcgw script | pdcgw replay` hands out between
`connect` and `hangup` has to be the bytes of that connection. A connection that ends whole stops its streams, asks for CFG-1 and hangs up behind
it, when nothing is on the way: all its bytes are compared. What came over one that is broken off amid its frames has to be the beginning of what
was handed out. The status is 1 where a figure is past its bound.
"""
import glob
import multiprocessing
import os
import socket
import subprocess
import sys
import tempfile
import threading
import time

import recordings
import service

for folder in ("tools", "tests"):
    sys.path.insert(0, os.path.join(os.path.dirname(os.path.abspath(__file__)), "..", folder))
import peers  # noqa: E402
from c37118 import CONFIG_1, DATA, SEND_CONFIG_1, SEND_CONFIG_2, SEND_HEADER, START, STOP, command, frames_in  # noqa: E402
from test_records import verdict_in  # noqa: E402

# (its own, so that it can run beside the other scripts)
service.FIRST_SOURCE_PORT, service.FIRST_PORT, service.PAGE_PORT = 22_100, 22_300, 22_099
# How long something is waited for on a busy machine, in seconds.
PATIENCE = 60
# How long a peer that floods rests between two pieces, in seconds, so that what is recorded fits on a disk.
REST = 0.02


def opened(port, receive):
    """A connection to this port, if it is open."""
    try:
        made = peers.Subscriber(port, receive=receive).socket
    except OSError:
        return None
    made.settimeout(None)
    return made


class Client:
    """A subscriber that keeps the bytes of each of its connections, and whether that ended whole."""

    def __init__(self, port, streams):
        self.port, self.streams, self.ended, self.broken = port, streams, [], 0

    def connect(self, receive=None):
        """Connects and starts its streams. With a `receive` buffer of so many bytes it reads nothing yet."""
        self.socket, self.kept, self.last = peers.until(lambda: opened(self.port, receive), f"port {self.port}", PATIENCE), bytearray(), None
        self.say(*self.streams, words=(SEND_CONFIG_2, START))
        if not receive:
            self.read()

    def read(self):
        self.thread = threading.Thread(target=self.gather, daemon=True)
        self.thread.start()

    def gather(self):
        buffer = bytearray()
        try:
            while piece := self.socket.recv(1 << 16):
                self.kept += piece
                buffer += piece
                self.last = ([self.last] + [it[1] >> 4 for it in frames_in(buffer)])[-1]
        except OSError:
            pass

    def say(self, *streams, words):
        try:
            self.socket.sendall(b"".join(command(it, word) for it in streams for word in words))
        except OSError:
            pass  # The gateway closed it: then it does not end whole.

    def flood(self, end):
        """Sends commands, and reads what comes."""
        while time.monotonic() < end:
            self.say(*self.streams, words=[SEND_CONFIG_2, START, SEND_HEADER, 9, STOP, START] * 30)
            time.sleep(REST)

    def come_and_go(self, end):
        """Connects again and again. Each second connection ends whole."""
        while time.monotonic() < end:
            is_whole = len(self.ended) % 2 == 0
            self.broken += not is_whole and len(self.kept) > 0
            self.leave(is_whole)
            self.connect()
            while len(self.kept) < (1 if is_whole else 2_000) and self.thread.is_alive() and time.monotonic() < end:
                time.sleep(0.005)

    def leave(self, is_whole=True):
        """Ends its connection, whole or amid its frames."""
        if is_whole:
            self.say(*self.streams, words=(STOP,))
            self.say(self.streams[0], words=(SEND_CONFIG_1,))
            peers.until(lambda: self.last == CONFIG_1 or not self.thread.is_alive(), f"CFG-1 at port {self.port}", PATIENCE)
        try:
            self.socket.shutdown(socket.SHUT_RDWR)
        except OSError:
            pass
        self.thread.join(PATIENCE)
        self.socket.close()
        # (one that was refused, since the one before still stood, has got nothing)
        if self.kept:
            self.ended.append((bytes(self.kept), is_whole and self.last == CONFIG_1))


def handed_by_replay(program, files):
    """What a replay hands to each subscriber, connection by connection."""
    handed = {}
    with tempfile.NamedTemporaryFile() as script:
        subprocess.run([program, "script", *files], stdout=script, check=True)
        with open(script.name, "rb") as lines, open(script.name, "rb") as read:
            replay = subprocess.Popen([program, "replay"], stdin=read, stdout=subprocess.PIPE)
            answers = (it for it in replay.stdout if it.startswith(b"drained "))
            for words in map(bytes.split, lines):
                if words[:1] == [b"connect"]:
                    handed.setdefault(int(words[1]), []).append(bytearray())
                elif words[:1] == [b"drain"]:
                    handed[int(words[1])][-1] += bytes.fromhex(next(answers).split()[4].decode().replace("-", ""))
            peers.same((next(answers, None), replay.wait(PATIENCE)), (None, 0), "the end of `replay`")
    return {number: [bytes(it) for it in connections if it] for number, connections in handed.items()}


class Recorded:
    """A gateway that records, and its clients, whose connections are compared with a replay at the end."""

    def __init__(self, program, name, text, clients):
        self.program, self.name, self.clients, self.room, self.missed = program, name, clients, tempfile.TemporaryDirectory(), 0
        self.records, self.control = f"{self.room.name}/records", f"{self.room.name}/control"
        os.mkdir(self.records)
        self.text = f'record = "{self.records}"\ncontrol = "{self.control}"\nstatus = "127.0.0.1:{service.PAGE_PORT}"\n' + text
        self.gateway = service.Gateway(self.program, self.text)

    def __enter__(self):
        return self

    def connect(self):
        for it in self.clients.values():
            it.connect()
        time.sleep(0.5)

    def settle(self):
        """Waits until nothing comes for a second."""
        size, before = 0, -1
        while size != before:
            time.sleep(1)
            size, before = sum(len(it.kept) for it in self.clients.values()), size

    def __exit__(self, kind, *_):
        try:
            if not kind:
                for it in self.clients.values():
                    it.leave()
        finally:
            status = self.gateway.quit()
        if not kind:
            self.compare(status)
        self.room.cleanup()

    def compare(self, status):
        files = sorted(glob.glob(f"{self.records}/*.pdcrec"))
        done = subprocess.run([self.program, "verify", *files], stdout=subprocess.PIPE, text=True)
        found, handed, differ = verdict_in(done.stdout), handed_by_replay(self.program, files), []
        for number, client in self.clients.items():
            wanted, came = handed.get(number, []), [it for it, _ in client.ended]
            alike = [it if is_whole else it[:len(own)] for it, (own, is_whole) in zip(wanted, client.ended)]
            if came != alike or len(came) != len(wanted) or sum(not is_whole for _, is_whole in client.ended) != client.broken:
                differ.append(f"    subscriber {number}: bytes {list(map(len, came))}, of the replay {list(map(len, wanted))}")
        ended = [it for client in self.clients.values() for it, _ in client.ended]
        service.tell(f"{self.name}: records, drains, missing; connections, bytes",
                     f"{found['records']:,}, {found['drains']:,}, {found['missing']:,}; {len(ended):,}, {sum(map(len, ended)):,}",
                     "the same, missing as metrics" if self.missed else "the same, 0 missing",
                     (status, done.returncode, differ, found["missing"]) == (0, int(self.missed > 0), [], self.missed))
        if differ:
            print("\n".join(differ[:5] + done.stdout.splitlines()[-3:]), flush=True)


def recorded(program, name, sources, subscribers):
    clients = {sub: Client(service.FIRST_PORT + sub, [it for it, _, _ in streams]) for sub, _, streams in subscribers}
    return Recorded(program, name, service.setup_text(10, sources, subscribers, ingest=2, serve=2), clients)


def case_demo(program):
    """The sources, subscribers and streams of `pdcgw demo`, and the lines that it says can be tried."""
    with tempfile.TemporaryDirectory() as room:
        bench = peers.Bench(program, room)
        text, keys = "tick_ms = 10\ningest = 2\nserve = 2\n", {"wait": 6_000, "window": 64, "header": "pdcgw demo"}
        clients = {number: Client(bench.port(), [100 + number]) for number in (1, 2)}
        for number in (7, 8):
            text += peers.pmu(number, ahead_ms=None, connect=peers.Simulated(bench, "--source", str(number)).address)
        for number, members in ((1, [7, 8]), (2, [8])):
            text += peers.subscriber(number, clients[number].port, ring=1_024, grants=members) + peers.stream(100 + number, members, **keys)
        try:
            with Recorded(program, "the demo for 10 s", text, clients) as it:
                it.connect()
                for line in ("revoke 1 8", "grant 1 8", "droppmu 7", "addpmu 7", "stats 1"):
                    time.sleep(2)
                    it.gateway.ask(line)
        finally:
            bench.end()


def played(program, name, load, play, *words, deaf=None):
    """Plays a load. The subscriber `deaf` reads nothing until it is over."""
    source, told = service.spawn(play, load[0], *words)
    told.get()
    with recorded(program, name, *load) as it:
        told.get()
        late = it.clients.pop(deaf, None)
        it.connect()
        if late:
            late.connect(receive=4_096)
        told.go.put("go")
        told.get()
        it.settle()
        if late:
            it.clients[deaf] = late
            late.read()
            it.settle()
            lost = int(it.gateway.ask(f"stats {deaf}").split()[4])
            service.tell("    frames that it lost", f"{lost:,}", "some", lost > 0)
    source.kill()
    source.join()


def case_steady(program):
    for name, load in (("64 sources, 64 subscribers", recordings.one_stream(64, 60)), ("16 sources, 16 streams of all", recordings.stream_of_all(16, 60, 16))):
        played(program, f"{name}, 60/s", load, service.run_sources, 60, 10, 1)


def case_burst(program):
    """The bursts of bench/service.py; beside one a subscriber of eight streams reads nothing before it is over."""
    wide, members = {100: list(range(100, 116))}, [(100, it) for it in range(100, 116)]
    of_one = [(1 + at, 1_024, [(1_000 + at, 120, [(100, 100)])]) for at in range(64)]
    of_wide = [(1 + at, 64, [(1_000 + at, 120, members)]) for at in range(16)] + [(99, 64, [(2_000 + at, 120, members) for at in range(8)])]
    played(program, "a burst of a PMU, S64, ring 1,024", ({100: [100]}, of_one), service.burst_sources, service.BURST)
    played(program, "a burst of 64 PMUs, S64", recordings.one_stream(64, 120), service.burst_sources, service.SHORT_BURST)
    played(program, "a burst of 16 PMUs, S16, and one deaf at first", (wide, of_wide), service.burst_sources, service.BURST, deaf=99)


def send_all(peer, junk, _rest):
    """Sends without end, with a rest behind each piece."""
    while True:
        peer.sendall(junk)
        time.sleep(REST)


def edit_and_reload(it):
    """`pdcgw ctl` revokes and grants PMUs of subscriber 5; then subscriber 6 has one more stream by a reload, and starts it. (Between two data
    frames both a revocation and a grant would disconnect subscriber 5, with a frame held back.)"""
    peers.until(lambda: it.clients[5].last == DATA, "a data frame of subscriber 5", PATIENCE)
    for line in ["revoke 5 100/100", "revoke 5 103/103", "grant 5 103/103", "grant 5 100/100"] * 2:
        done = subprocess.run([it.program, "ctl", "--control", it.control, line], stdout=subprocess.PIPE, text=True)
        peers.same((done.returncode, done.stdout[:5]), (0, "done "), line)
        time.sleep(0.3)
    with open(it.gateway.file.name, "w") as f:
        f.write(it.text.replace("[[subscriber]]\nid = 7\n", peers.stream(3_000, ["104/104"], rate=60) + "[[subscriber]]\nid = 7\n"))
    peers.same(it.gateway.ask("reload"), "reloaded: 1 edit, 0 changes of connections and ports", "reload")
    it.clients[6].streams.append(3_000)
    it.clients[6].say(3_000, words=(SEND_CONFIG_2, START))


def case_trouble(program):
    """Sources that flood, floods of commands, connections and hang-ups without end, misuse of control socket and page, edits, a reload."""
    service.send_all, paced = send_all, {100 + at: [100 + at] for at in range(8)}
    subscribers = [(1 + at, 64, [(1_000 + at, 60, [(it, it) for it in paced] + [(1, 1)] * (at == 1))]) for at in range(8)]
    subscribers.append((9, 64, [(2_000, 60, [(100, 100)])]))
    source, told = service.spawn(service.run_sources, paced, 60, 12, 1)
    told.get()
    works = [(service.flood_source, service.FIRST_SOURCE_PORT + 8 + at, kind) for at, kind in enumerate(("whole", "wrong", "garbage"))]
    with recorded(program, "8 sources, floods, misuse, edits, a reload", {**paced, 1: [1], 2: [2], 3: [3]}, subscribers) as it:
        works += [(service.flood_subscriber, it.clients.pop(9).port), (service.misuse, it.control, service.PAGE_PORT)]
        others = [multiprocessing.Process(target=work, args=words, daemon=True) for work, *words in works]
        for other in others:
            other.start()
        told.get()
        it.connect()
        told.go.put("go")
        end = time.monotonic() + 9
        threads = [threading.Thread(target=it.clients[7].flood, args=(end,)), threading.Thread(target=it.clients[8].come_and_go, args=(end,))]
        for thread in threads:
            thread.start()
        edit_and_reload(it)
        for thread in threads:
            thread.join()
        told.get()
        for other in [*others, source]:
            other.kill()
            other.join()


def case_flood(program):
    """More commands at once than a thread has room for: none is missing, or as many as the metrics say."""
    with recorded(program, "100,000 commands at once", *recordings.one_stream(1, 60)) as it:
        it.connect()
        it.clients[1].say(*it.clients[1].streams, words=[STOP] * 100_000)
        time.sleep(3)
        it.missed = int(peers.metrics(service.PAGE_PORT)["pdcgw_recording_missed_calls_total"])


CASES = {"demo": case_demo, "steady": case_steady, "burst": case_burst, "trouble": case_trouble, "flood": case_flood}


def main():
    if len(sys.argv) < 2:
        sys.exit(__doc__)
    for name in sys.argv[2:] or list(CASES):
        CASES[name](os.path.abspath(sys.argv[1]))
    sys.exit(1 if service.failures else 0)


if __name__ == "__main__":
    main()
