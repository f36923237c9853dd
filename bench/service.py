#!/usr/bin/env python3
"""Measures the running service: starts the program with sources and subscribers of its own, and prints each figure beside its
bound.

    python3 bench/service.py PROGRAM [CASE..]      CASE: direct latency idle flood hostile reader backlog burst throughput address name
                                                   descriptors; none: all of them

A latency is from the moment before the last source's frame of a slot is written to the moment at which the kernel has the
subscriber's frame at its socket, by the kernel's own stamp; bounds are of this one, so that it does not count when this script is
scheduled. Behind it stands the same up to the end of the read, so with the readers' Python, which takes those that came at once one
after another. PROGRAM is `pdcgw` as `rt run` left it in crates/pdcgw/out. Nothing beside Python's standard library is needed (and `strace` or
`perf` for system calls, where one of them is there). The status is 1 where a figure is past its bound.
"""
import multiprocessing
import os
import resource
import selectors
import socket
import struct
import subprocess
import sys
import tempfile
import threading
import time

for folder in ("tools", "tests"):
    sys.path.insert(0, os.path.join(os.path.dirname(os.path.abspath(__file__)), "..", folder))
import peers  # noqa: E402
from c37118 import BASE, SEND_CONFIG_2, START, command, configuration, data, frames_in, stamp  # noqa: E402
from test_backlog import Crowd  # noqa: E402

FIRST_SOURCE_PORT = 20_100
FIRST_PORT = 20_300
PAGE_PORT = 20_099
SO_TIMESTAMPNS = 35
P50_P99 = "p50, p99 ms at the socket; read"


def setup_text(tick_ms, sources, subscribers, ingest=1, serve=1, more=(), window=16):
    """sources: {source: pmus}; subscribers: list of (id, ring, [streams]), a stream (id, rate, members); more: lines for the file itself."""
    lines = [f"tick_ms = {tick_ms}", f"ingest = {ingest}", f"serve = {serve}", *more]
    for at, (source, pmus) in enumerate(sources.items()):
        for place, pmu in enumerate(pmus):
            # (a backlog's frames are of times to come)
            lines += ["[[pmu]]", f"id = {pmu}", f"source = {source}", "ahead_ms = 0"]
            if place == 0:
                lines.append(f'connect = "127.0.0.1:{FIRST_SOURCE_PORT + at}"')
    for sub, ring, streams in subscribers:
        keys = sorted({key for _, _, members in streams for key in members})
        lines += ["[[subscriber]]", f"id = {sub}", f"port = {FIRST_PORT + sub}", f"ring = {ring}"]
        lines.append("grants = [" + ", ".join(f'"{s}/{p}"' for s, p in keys) + "]")
        for stream, rate, members in streams:
            listed = ", ".join(f'"{s}/{p}"' for s, p in members)
            lines += ["[[subscriber.stream]]", f"id = {stream}", f"rate = {rate}", f"base = {BASE}", "wait = 20", f"window = {window}",
                      f"members = [{listed}]"]
    return "\n".join(lines) + "\n"


class Gateway:
    """The program with a setup, until it is told to quit."""

    def __init__(self, program, text, begin=None):
        self.file = tempfile.NamedTemporaryFile("w", suffix=".toml")
        self.file.write(text)
        self.file.flush()
        self.process = subprocess.Popen([program, "run", "--setup", self.file.name], stdin=subprocess.PIPE,
                                        stdout=subprocess.PIPE, stderr=subprocess.PIPE, preexec_fn=begin)

    def ask(self, line):
        self.process.stdin.write(line.encode() + b"\n")
        self.process.stdin.flush()
        return self.process.stdout.readline().decode().strip()

    def quit(self):
        try:
            self.process.stdin.write(b"quit\n")
            self.process.stdin.flush()
            return self.process.wait(10)
        except (subprocess.TimeoutExpired, BrokenPipeError):
            self.process.kill()
            return None


def listen(port):
    made = socket.socket()
    made.setsockopt(socket.SOL_SOCKET, socket.SO_REUSEADDR, 1)
    made.bind(("127.0.0.1", port))
    made.listen(64)
    return made


def run_sources(sources, rate, seconds, phasors, told):
    """Plays all sources: answers commands, and once all are started sends each one's frames on the clock's slots, spread over
    the time of a slot as they would come over a network. Tells when each frame was sent."""
    listeners = [listen(FIRST_SOURCE_PORT + at) for at in range(len(sources))]
    told.put("ready")
    numbers, made = list(sources), []
    for at, listener in enumerate(listeners):
        peer, _ = listener.accept()
        peer.setsockopt(socket.IPPROTO_TCP, socket.TCP_NODELAY, 1)
        made.append(peer)
    for at, peer in enumerate(made):
        buffer, started = bytearray(), False
        while not started:
            buffer += peer.recv(4096)
            for got in frames_in(buffer):
                word = got[15]
                if word == 5:
                    peer.sendall(configuration(numbers[at], sources[numbers[at]], rate, phasors))
                started = started or word == 2
    told.put("started")
    told_go = told.get_go()
    first = int(time.time()) + 1
    sent = []
    count = len(made)
    for slot in range(int(seconds * rate)):
        soc, frac = stamp(first * rate + slot, rate)
        for at, peer in enumerate(made):
            due = first + (slot + at / count) / rate
            wait = due - time.time()
            if wait > 0:
                time.sleep(wait)
            bytes_out = data(numbers[at], len(sources[numbers[at]]), soc, frac, phasors)
            sent.append((numbers[at], soc, frac, time.time_ns()))
            peer.sendall(bytes_out)
    told.put(sent)
    time.sleep(1.5)


class Told:
    """What a child tells its parent, and the parent's word to go on."""

    def __init__(self):
        self.out = multiprocessing.SimpleQueue()
        self.go = multiprocessing.SimpleQueue()

    def put(self, it):
        self.out.put(it)

    def get(self):
        return self.out.get()

    def get_go(self):
        return self.go.get()


def connect_stamped(port):
    """A connection whose pieces the kernel stamps as they come in."""
    made = socket.create_connection(("127.0.0.1", port))
    made.setsockopt(socket.IPPROTO_TCP, socket.TCP_NODELAY, 1)
    made.setsockopt(socket.SOL_SOCKET, SO_TIMESTAMPNS, 1)
    return made


def read_stamped(peer):
    """A piece, when its last byte came to the socket by the kernel's stamp, and when it was read; nanoseconds of the clock."""
    piece, told, _, _ = peer.recvmsg(1 << 18, 64)
    now = time.time_ns()
    came = now
    for level, kind, value in told:
        if level == socket.SOL_SOCKET and kind == SO_TIMESTAMPNS:
            seconds, nanoseconds = struct.unpack("qq", value)
            came = seconds * 1_000_000_000 + nanoseconds
    return piece, came, now


def run_subscribers(subscribers, seconds, told):
    """Plays all subscribers: starts each stream and notes when each data frame came to its socket, and when it was read."""
    chosen = selectors.DefaultSelector()
    for sub, _, streams in subscribers:
        made = connect_stamped(FIRST_PORT + sub)
        for stream, _, _ in streams:
            made.sendall(command(stream, 2))
        made.setblocking(False)
        chosen.register(made, selectors.EVENT_READ, (sub, bytearray()))
    told.put("started")
    end = time.monotonic() + seconds
    got = []
    while time.monotonic() < end:
        for key, _ in chosen.select(0.1):
            sub, buffer = key.data
            piece, came, now = read_stamped(key.fileobj)
            if not piece:
                chosen.unregister(key.fileobj)
                got.append((sub, 0, 0, 0, came, now))
                continue
            buffer += piece
            for it in frames_in(buffer):
                if it[1] >> 4 == 0:
                    stream, soc, frac = struct.unpack(">HII", it[4:14])
                    got.append((sub, stream, soc, frac & 0xFFFFFF, came, now))
    told.put(got)


def spawn(work, *args):
    told = Told()
    child = multiprocessing.Process(target=work, args=(*args, told), daemon=True)
    child.start()
    return child, told


def measure(program, sources, subscribers, rate, seconds, phasors=1, tick_ms=10, beside=None, ingest=1, serve=1, more=()):
    """Sent and got frames of a run."""
    source, of_sources = spawn(run_sources, sources, rate, seconds, phasors)
    of_sources.get()
    gateway = Gateway(program, setup_text(tick_ms, sources, subscribers, ingest, serve, more))
    of_sources.get()
    time.sleep(0.3)
    reader, of_readers = spawn(run_subscribers, subscribers, seconds + 3)
    of_readers.get()
    time.sleep(0.3)
    of_sources.go.put("go")
    helpers = beside(gateway) if beside else []
    sent, got = of_sources.get(), of_readers.get()
    for it in helpers:
        it.kill()
    status = gateway.quit()
    for child in (source, reader):
        child.join(5)
    return sent, got, status


def percentile(values, part):
    values = sorted(values)
    return values[min(len(values) - 1, int(len(values) * part))] if values else float("nan")


def latencies(sent, got, streams):
    """Milliseconds from the moment before the last of a frame's blocks was sent to its coming to the subscriber's socket, the
    same to its having been read, and how many are missing."""
    at = {}
    for source, soc, frac, when in sent:
        at[source, soc, frac] = when
    slots = sorted({(soc, frac) for _, soc, frac, _ in sent})
    all_got = {(sub, stream, soc, frac): (came, now) for sub, stream, soc, frac, came, now in got}
    found, read, missing = [], [], 0
    for sub, stream, members in streams:
        for soc, frac in slots:
            if (sub, stream, soc, frac) not in all_got:
                missing += 1
                continue
            came, now = all_got[sub, stream, soc, frac]
            begun = max(at[s, soc, frac] for s, _ in members)
            found.append((came - begun) / 1e6)
            read.append((now - begun) / 1e6)
    return found, read, missing


def told_of(found, read, missing):
    came, seen = ([percentile(it, part) for part in (0.5, 0.99)] for it in (found, read))
    return f"{came[0]:.2f}, {came[1]:.2f}; {seen[0]:.2f}, {seen[1]:.2f} ({missing} lost)"


failures = []


def tell(what, figure, bound, is_met):
    print(f"{what:88} {figure:>36}   {bound:18} {'ok' if is_met else 'PAST IT'}", flush=True)
    if not is_met:
        failures.append(what)


def read_directly(seconds, told):
    """Plays the one subscriber of the first source itself."""
    made = connect_stamped(FIRST_SOURCE_PORT)
    made.sendall(command(100, 2))
    made.settimeout(0.1)
    told.put("started")
    end, got, buffer = time.monotonic() + seconds, [], bytearray()
    while time.monotonic() < end:
        try:
            piece, came, now = read_stamped(made)
        except socket.timeout:
            continue
        buffer += piece
        for it in frames_in(buffer):
            soc, frac = struct.unpack(">II", it[6:14])
            got.append((1, 100, soc, frac & 0xFFFFFF, came, now))
    told.put(got)


def case_direct(_program):
    """What both ends' Python and this machine take without a gateway between them."""
    source, of_sources = spawn(run_sources, {100: [100]}, 60, 8, 1)
    of_sources.get()
    reader, of_reader = spawn(read_directly, 11)
    of_reader.get()
    of_sources.get()
    time.sleep(0.3)
    of_sources.go.put("go")
    sent, got = of_sources.get(), of_reader.get()
    tell(f"no gateway, source to reader at 60/s: {P50_P99}", told_of(*latencies(sent, got, [(1, 100, [(100, 100)])])), "(no bound)", True)


def case_latency(program):
    for count, members, tick_ms, serve in ((1, 1, 10, 1), (1, 1, 100, 1), (1, 1, 1000, 1), (16, 16, 10, 1), (16, 16, 100, 1),
                                           (16, 16, 10, 2), (64, 1, 10, 1), (64, 1, 1000, 1)):
        sources = {100 + at: [100 + at] for at in range(count)}
        keys = [(s, s) for s in sources]
        subscribers = []
        for at in range(count):
            listed = keys if members > 1 else [keys[at]]
            subscribers.append((at + 1, 64, [(1000 + at, 60, listed)]))
        sent, got, _ = measure(program, sources, subscribers, 60, 8, tick_ms=tick_ms, ingest=1, serve=serve)
        streams = [(sub, stream, listed) for sub, _, defined in subscribers for stream, _, listed in defined]
        found, read, missing = latencies(sent, got, streams)
        name = f"{count} x {count} x {members} at 60/s, tick_ms {tick_ms}, serve {serve}: {P50_P99}"
        tell(name, told_of(found, read, missing), "p99 < 1, 0 lost", percentile(found, 0.99) < 1 and missing == 0)


def send_all(peer, junk, rest):
    """Sends without end; with `rest` for a second, then not for so many seconds."""
    end = time.monotonic() + 1
    while True:
        peer.sendall(junk)
        if rest and time.monotonic() > end:
            time.sleep(rest)
            end = time.monotonic() + 1


def flood_source(port, kind, rest=0):
    """A source that sends without end as soon as it is called, in the time that others leave: it would not be on this machine."""
    os.nice(19)
    listener = listen(port)
    whole = configuration(1, [1], 60) + data(1, 1, int(time.time()), 0) * 500
    wrong = bytearray(data(1, 1, int(time.time()), 0))
    wrong[-1] ^= 1
    junk = {"whole": whole, "wrong": configuration(1, [1], 60) + bytes(wrong) * 500, "garbage": os.urandom(16_384)}[kind]
    while True:
        peer, _ = listener.accept()
        try:
            send_all(peer, junk, rest)
        except OSError:
            pass


def flood_subscriber(port, rest=0):
    """A subscriber that sends commands 2 and 1 without end, in the time that others leave."""
    os.nice(19)
    while True:
        try:
            peer = socket.create_connection(("127.0.0.1", port))
            peer.setblocking(True)
            junk = (command(2000, 2) + command(2000, 1)) * 200
            send_all(peer, junk, rest)
        except OSError:
            time.sleep(0.05)


def case_flood(program):
    for kind in ("whole", "wrong", "garbage", "commands"):
        sources = {100: [100], 1: [1]}
        subscribers = [(1, 64, [(1000, 60, [(100, 100)])]), (2, 64, [(2000, 60, [(1, 1)])])]
        text = setup_text(10, sources, subscribers)
        flooding = multiprocessing.Process(
            target=flood_subscriber if kind == "commands" else flood_source,
            args=(FIRST_PORT + 2,) if kind == "commands" else (FIRST_SOURCE_PORT + 1, kind), daemon=True)
        source, of_sources = spawn(run_sources, {100: [100]}, 60, 8, 1)
        of_sources.get()
        if kind != "commands":
            flooding.start()
            time.sleep(0.3)
        gateway = Gateway(program, text)
        of_sources.get()
        reader, of_readers = spawn(run_subscribers, subscribers[:1], 11)
        of_readers.get()
        if kind == "commands":
            flooding.start()
        time.sleep(0.3)
        of_sources.go.put("go")
        sent, got = of_sources.get(), of_readers.get()
        flooding.kill()
        gateway.quit()
        found, read, missing = latencies(sent, got, [(1, 1000, [(100, 100)])])
        tell(f"flood of {kind}, neighbour at 60/s: {P50_P99}", told_of(found, read, missing), "p99 < 20, 0 lost",
             percentile(found, 0.99) < 20 and missing == 0)


def again_and_again(client, rest):
    """What a client does, and once it is over the same again."""
    while True:
        try:
            client()
        except OSError:
            pass
        time.sleep(rest)


def endless_line(path):
    """A control line that has no end."""
    with socket.socket(socket.AF_UNIX) as peer:
        peer.connect(path)
        while True:
            peer.sendall(b"x" * 16_384)


def deaf_client(path):
    """A control client that asks and never reads."""
    with socket.socket(socket.AF_UNIX) as peer:
        peer.connect(path)
        while True:
            peer.sendall(b"status\n" * 100)


def slow_client(port):
    """An HTTP client that sends a byte a second."""
    with socket.create_connection(("127.0.0.1", port)) as peer:
        for byte in b"GET /metrics HTTP/1.1\r\nHost: here\r\n" * 100:
            peer.sendall(bytes([byte]))
            time.sleep(1)


def long_head(port):
    """A request head of a megabyte."""
    with socket.create_connection(("127.0.0.1", port)) as peer:
        peer.sendall(b"GET / HTTP/1.1\r\nX: " + b"a" * 1_000_000)


def misuse(path, port):
    """All of them at once, in the time that others leave: they would not be on this machine."""
    os.nice(19)
    clients = [(lambda: slow_client(port), 0.1)] * 100
    clients += [(lambda: endless_line(path), 0.01), (lambda: deaf_client(path), 0.01), (lambda: long_head(port), 0.2)]
    threads = [threading.Thread(target=again_and_again, args=client, daemon=True) for client in clients]
    for it in threads:
        it.start()
    threads[0].join()


def case_hostile(program):
    """A quiet stream, without and beside those who misuse the control socket and the page."""
    subscribers = [(1, 64, [(1000, 60, [(100, 100)])])]
    with tempfile.TemporaryDirectory() as folder:
        path = f"{folder}/control"
        more = [f'control = "{path}"', f'status = "127.0.0.1:{PAGE_PORT}"']

        def beside(_gateway):
            child = multiprocessing.Process(target=misuse, args=(path, PAGE_PORT), daemon=True)
            child.start()
            time.sleep(1)
            return [child]

        for name, others in (("nobody", None), ("those who misuse control socket and page", beside)):
            sent, got, status = measure(program, {100: [100]}, subscribers, 60, 8, beside=others, more=more)
            found, read, missing = latencies(sent, got, [(1, 1000, [(100, 100)])])
            is_met = others is None or (percentile(found, 0.99) < 20 and missing == 0 and status == 0)
            tell(f"{name} beside a stream at 60/s: {P50_P99}", told_of(found, read, missing),
                 "p99 < 20, 0 lost" if others else "(no bound)", is_met)


def case_reader(program):
    # 16 PMUs of 27 phasors: 16 + 16 * (6 + 4 * 27) bytes are 1,840; a stream has all of them.
    sources = {100: list(range(100, 116))}
    members = [(100, pmu) for pmu in sources[100]]
    subscribers = [(1, 64, [(1000 + at, 120, members) for at in range(8)])]
    sent, got, _ = measure(program, sources, subscribers, 120, 8, phasors=27)
    found, read, missing = latencies(sent, got, [(1, 1000 + at, [(100, 100)]) for at in range(8)])
    tell(f"8 streams of 1,840 bytes at 120/s, healthy reader: {P50_P99}", told_of(found, read, missing), "0 lost", missing == 0)


def system_calls(process, seconds):
    """System calls a second of a process, by strace; None where it is not there."""
    try:
        tracer = subprocess.Popen(["strace", "-f", "-c", "-p", str(process.pid)], stdout=subprocess.DEVNULL,
                                  stderr=subprocess.PIPE, text=True)
    except FileNotFoundError:
        return None
    time.sleep(seconds)
    tracer.send_signal(2)
    lines = tracer.communicate()[1].splitlines()
    for line in lines:
        if line.split()[-1:] == ["total"]:
            return int(line.split()[-3] if line.split()[-2].isdigit() and len(line.split()) > 5 else line.split()[-2]) / seconds
    return None


def case_idle(program):
    subscribers = [(at + 1, 64, [(1000 + at, 60, [(100, 100)])]) for at in range(64)]
    gateway = Gateway(program, setup_text(10, {100: [100]}, subscribers))
    time.sleep(0.5)
    made = [socket.create_connection(("127.0.0.1", FIRST_PORT + sub)) for sub, _, _ in subscribers]
    time.sleep(1)
    calls = system_calls(gateway.process, 5)
    tell("64 subscribers, nothing to do: system calls a second", "no strace" if calls is None else f"{calls:.0f}", "< 500",
         calls is not None and calls < 500)
    for it in made:
        it.close()
    gateway.quit()


# The frames that come at once where a source's link recovers: 2, 10 and 50 seconds of them.
BACKLOGS = 60, 300, 1_500
# Subscribers of a backlog: the reader of the other source, and the one that never reads with its stream.
BESIDE, DEAF, DEAF_STREAM = 90, 99, 199
# Frames between two drains of `replay`, whose rings have 64.
DRAINED = 32


class PacedSource(threading.Thread):
    """A source that sends a frame for each slot of the clock, and keeps what it sent and when."""

    def __init__(self, source):
        super().__init__(daemon=True)
        self.source, self.sent, self.is_over = source, [], False

    def run(self):
        slot = int(time.time() * self.source.rate) + 1
        while not self.is_over:
            time.sleep(max(0, slot / self.source.rate - time.time()))
            got = self.source.data(slot, len(self.sent))
            self.sent.append((got, time.monotonic()))
            self.source.link.send(got)
            slot += 1


def fill(link, stream):
    """Asks for CFG-2 without reading, until neither side takes a byte."""
    link.socket.settimeout(0.5)
    try:
        while True:
            link.socket.sendall(command(stream, SEND_CONFIG_2) * 1_000)
    except socket.timeout:
        pass


class Gathered:
    """The frames that come to subscribers, and when each was read."""

    def __init__(self, readers):
        self.chosen, self.frames = selectors.DefaultSelector(), {number: [] for number in readers}
        for number, reader in readers.items():
            reader.socket.setblocking(False)
            self.chosen.register(reader.socket, selectors.EVENT_READ, (number, bytearray()))

    def until(self, condition, seconds):
        """Reads until this is so, and for so many seconds at most."""
        end = time.monotonic() + seconds
        while not condition() and time.monotonic() < end:
            for key, _ in self.chosen.select(0.05):
                number, buffer = key.data
                piece = key.fileobj.recv(1 << 18)
                if not piece:
                    self.chosen.unregister(key.fileobj)
                buffer += piece
                self.frames[number] += [(it, time.monotonic()) for it in frames_in(buffer)]


def replay_lines(crowd, readers, data_of):
    """A script for `replay`: the setup of a crowd, and then the frames of each source, which are drained in pieces. The subscriber of each drain."""
    lines, drains = ["addpmu 7", "addpmu 9"], []
    for source in (crowd.seven, crowd.nine):
        lines += [f"linkup {source.idcode}", f"pmu {source.idcode} {source.configuration().hex()}"]
    for number, (source, stream) in readers.items():
        lines += [f"addsub {number} 64", f"grant {number} {source}", f"define {number} {stream} {peers.RATE} {BASE} 1 4 none {source}",
                  f"connect {number}", f"sub {number} {command(stream, START).hex()}"]
    for source, frames in data_of.items():
        for at in range(0, len(frames), DRAINED):
            lines.append(f"pmu {source} " + b"".join(frames[at:at + DRAINED]).hex())
            own = [number for number, (other, _) in readers.items() if other == source]
            lines += [f"drain {number} 65535" for number in own]
            drains += own
    return "\n".join(lines) + "\n", drains


def replayed(program, crowd, readers, data_of):
    """The frames that `replay` hands out to each reader."""
    script, drains = replay_lines(crowd, readers, data_of)
    out = subprocess.run([program, "replay"], input=script.encode(), stdout=subprocess.PIPE, check=True).stdout.decode()
    pieces = [bytes.fromhex(line.split()[4].replace("-", "")) for line in out.splitlines() if line.startswith("drained ")]
    found = {number: bytearray() for number in readers}
    for number, piece in zip(drains, pieces):
        found[number] += piece
    return {number: frames_in(it) for number, it in found.items()}


def differences(came, wanted):
    """At how many places two lists of frames differ."""
    return sum(it != other for it, other in zip(came, wanted)) + abs(len(came) - len(wanted))


def backlog(bench, count, subscribers):
    """One source's frames come at once, beside another one that sends a frame for each slot, and a subscriber that never reads."""
    port = bench.port()
    crowd = Crowd(bench, subscribers, more=peers.subscriber(DEAF, port, ring=64, stall=0, grants=[7]) + peers.stream(DEAF_STREAM, [7]))
    readers = {number: (9, 900) if number == BESIDE else (7, 100 + number) for number in crowd.readers}
    deaf = bench.subscriber(port, receive=4_096)
    deaf.start(DEAF_STREAM)
    fill(deaf, DEAF_STREAM)
    beside, gathered = PacedSource(crowd.nine), Gathered(crowd.readers)
    beside.start()
    gathered.until(lambda: len(gathered.frames[BESIDE]) >= 15, 5)
    begun = time.monotonic()
    first = crowd.backlog(count)
    gathered.until(lambda: all(len(it) >= count for number, it in gathered.frames.items() if number != BESIDE), 30)
    took = time.monotonic() - begun
    gathered.until(lambda: time.monotonic() > begun + took + 0.5, 1)
    beside.is_over = True
    beside.join()
    gathered.until(lambda: len(gathered.frames[BESIDE]) >= len(beside.sent), 5)
    data_of = {7: [crowd.seven.data(slot, slot - first) for slot in range(first, first + count)], 9: [it for it, _ in beside.sent]}
    wanted = replayed(bench.program, crowd, readers, data_of)
    came = {number: [it for it, _ in frames] for number, frames in gathered.frames.items()}
    differ = sum(differences(came[number], wanted[number]) for number in readers)
    total, all_wanted = sum(map(len, came.values())), count * subscribers + len(beside.sent)
    counted = [crowd.gateway.counters(f"stats {number}") for number in readers]
    dropped = sum(it["dropped"] + it["lost"] for it in counted)
    oldest = max((read - sent for (_, read), (_, sent) in zip(gathered.frames[BESIDE], beside.sent)), default=float("nan"))
    left = crowd.gateway.counters(f"stats {DEAF}")["dropped"]
    crowd.gateway.quit()
    name = f"a backlog of {count:,} frames, S{subscribers}, beside a source at 30/s and one that never reads"
    tell(f"{name}: came; dropped; differ", f"{total:,} of {all_wanted:,}; {dropped}; {differ}", "all, 0, 0", (total, dropped, differ) == (all_wanted, 0, 0))
    tell("    last one read after, ms; oldest of the other source, ms; dropped of who never reads", f"{took * 1e3:.0f}; {oldest * 1e3:.1f}; {left}",
         "its ring's rest", left == max(0, count - 64))


def case_backlog(program):
    """Backlogs at ring 64: each healthy reader gets all frames, and these are those of `replay`."""
    for subscribers in (1, 16):
        for count in BACKLOGS:
            with tempfile.TemporaryDirectory() as folder:
                bench = peers.Bench(os.path.abspath(program), folder)
                try:
                    backlog(bench, count, subscribers)
                finally:
                    bench.end()


# The data frames that a source sends at once: 56 seconds at 120/s, as stamps may be 30 seconds from the clock; of 64 sources 7 seconds.
BURST, SHORT_BURST = 56 * 120, 7 * 120


def burst_sources(sources, count, told):
    """Plays all sources: once all are started each sends its burst as fast as its connection takes it. Tells when they began."""
    listeners = [listen(FIRST_SOURCE_PORT + at) for at in range(len(sources))]
    told.put("ready")
    peers = [listener.accept()[0] for listener in listeners]
    for peer, (source, pmus) in zip(peers, sources.items()):
        buffer, started = bytearray(), False
        while not started:
            buffer += peer.recv(4096)
            for got in frames_in(buffer):
                if got[15] == 5:
                    peer.sendall(configuration(source, pmus, 120))
                started = started or got[15] == 2
    told.put("started")
    told.get_go()
    first = (int(time.time()) - 28) * 120
    pieces = [b"".join(data(source, len(pmus), *stamp(slot, 120)) for slot in range(first, first + count)) for source, pmus in sources.items()]
    told.put(time.time_ns())
    threads = [threading.Thread(target=peer.sendall, args=(piece,), daemon=True) for peer, piece in zip(peers, pieces)]
    for it in threads:
        it.start()
    time.sleep(60)


def deaf_subscriber(port, stream, told):
    """A subscriber that starts its stream and never reads."""
    with socket.socket() as peer:
        peer.setsockopt(socket.SOL_SOCKET, socket.SO_RCVBUF, 4096)
        peer.connect(("127.0.0.1", port))
        peer.sendall(command(stream, 2))
        told.put("started")
        time.sleep(60)


def burst(program, name, sources, subscribers, bound, count=BURST, serve=1, deaf=None):
    """The bursts of all sources to these subscribers: what comes, how fast, and what the gateway dropped of theirs. `deaf` is a subscriber that
    never reads beside them."""
    source, of_source = spawn(burst_sources, sources, count)
    of_source.get()
    gateway = Gateway(program, setup_text(10, sources, subscribers + ([deaf] if deaf else []), serve=serve))
    of_source.get()
    if deaf:
        beside, of_deaf = spawn(deaf_subscriber, FIRST_PORT + deaf[0], deaf[2][0][0])
        of_deaf.get()
    readers = [spawn(run_subscribers, subscribers[at::2], 15) for at in range(min(2, len(subscribers)))]
    for _, told in readers:
        told.get()
    time.sleep(0.5)
    of_source.go.put("go")
    begun = of_source.get()
    got = [it for _, told in readers for it in told.get()]
    dropped = sum(int(gateway.ask(f"stats {sub}").split()[4]) for sub, _, _ in subscribers)
    gateway.quit()
    for it in [source] + ([beside] if deaf else []):
        it.kill()
        it.join()
    wanted = count * sum(len(streams) for _, _, streams in subscribers)
    last = max(read for *_, read in got) if got else begun + 1
    tell(f"{name}: frames a second out; came; dropped", f"{len(got) / ((last - begun) / 1e9):,.0f}; {len(got):,} of {wanted:,}; {dropped}",
         "all came, 0 dropped" if bound else "(no bound)", not bound or (len(got) == wanted and dropped == 0))


def case_burst(program):
    """Bursts as fast as they go, ring 64: each healthy reader gets all frames."""
    one, many = {100: [100]}, {100 + at: [100 + at] for at in range(64)}
    wide = {100: list(range(100, 116))}
    of_one = [(at + 1, 64, [(1000 + at, 120, [(100, 100)])]) for at in range(64)]
    burst(program, "a burst, 1 source to 1 subscriber", one, of_one[:1], True)
    burst(program, "the same beside a subscriber that never reads", one, of_one[:1], True, deaf=(99, 64, [(3000, 120, [(100, 100)])]))
    burst(program, "a burst, 1 source to 64 subscribers", one, of_one, True)
    burst(program, "a burst, 64 sources to 64 subscribers", many,
          [(at + 1, 64, [(1000 + at, 120, [(100 + at, 100 + at)])]) for at in range(64)], True, count=SHORT_BURST)
    burst(program, "a burst, 1 source of 16 PMUs to 16 subscribers", wide,
          [(at + 1, 64, [(1000 + at, 120, [(100, pmu) for pmu in wide[100]])]) for at in range(16)], True)


def case_throughput(program):
    burst(program, "a burst of one PMU to 64 subscribers, ring 1,024", {100: [100]},
          [(at + 1, 1024, [(1000 + at, 120, [(100, 100)])]) for at in range(64)], False, serve=2)


def can_connect(host, port):
    try:
        socket.create_connection((host, port), 1).close()
        return True
    except OSError:
        return False


def case_address(program):
    """A port is bound on its address alone."""
    text = setup_text(10, {100: [100]}, [(1, 64, []), (2, 64, [])])
    text = text.replace("[[subscriber]]\nid = 2", '[[subscriber]]\naddress = "127.0.0.2"\nid = 2')
    gateway = Gateway(program, text)
    time.sleep(0.5)
    got = [can_connect(host, FIRST_PORT + sub) for sub in (1, 2) for host in ("127.0.0.1", "127.0.0.2")]
    tell("address: everywhere, and 127.0.0.2 alone", " ".join("yes" if it else "no" for it in got), "yes yes no yes",
         got == [True, True, False, True])
    gateway.quit()


def case_name(program):
    """A source whose address is a name is looked up and called."""
    listener = listen(FIRST_SOURCE_PORT)
    listener.settimeout(5)
    gateway = Gateway(program, setup_text(10, {100: [100]}, [(1, 64, [])]).replace('"127.0.0.1:', '"localhost:'))
    try:
        peer, _ = listener.accept()
        peer.settimeout(5)
        is_asked = peer.recv(18)[:2] == b"\xaa\x42"
    except OSError:
        is_asked = False
    tell("a source at localhost is called, and asked", "yes" if is_asked else "no", "yes", is_asked)
    gateway.quit()


def is_let_in(peer, stream):
    """Whether who has connected is asked in: whether the header that it asks for comes."""
    try:
        peer.sendall(command(stream, 4))
        peer.settimeout(0.5)
        return len(peer.recv(4096)) >= 16
    except OSError:
        return False


def case_descriptors(program):
    """Where the process has no descriptor left, who waits is accepted as soon as there is one again, and a neighbour is served."""
    subscribers = [(at + 1, 64, [(1000 + at, 60, [(100, 100)])]) for at in range(8)]
    gateway = Gateway(program, setup_text(10, {100: [100]}, subscribers))
    time.sleep(0.5)
    used = len(os.listdir(f"/proc/{gateway.process.pid}/fd"))
    resource.prlimit(gateway.process.pid, resource.RLIMIT_NOFILE, (used + 4, used + 4))
    made = [socket.create_connection(("127.0.0.1", FIRST_PORT + sub)) for sub, _, _ in subscribers]
    time.sleep(1.5)
    before = [is_let_in(it, 1000 + at) for at, it in enumerate(made)]
    for it in made[:4]:
        it.close()
    time.sleep(2.5)
    after = [is_let_in(it, 1004 + at) for at, it in enumerate(made[4:])]
    tell("8 connect, descriptors for 4: let in, and once 4 have gone", f"{sum(before)}, {sum(after)}", "4, 4", (sum(before), sum(after)) == (4, 4))
    for it in made:
        it.close()
    gateway.quit()


CASES = {"direct": case_direct, "address": case_address, "name": case_name, "descriptors": case_descriptors, "latency": case_latency, "idle": case_idle,
         "flood": case_flood, "hostile": case_hostile, "reader": case_reader, "backlog": case_backlog,
         "burst": case_burst, "throughput": case_throughput}


def main():
    if len(sys.argv) < 2:
        sys.exit(__doc__)
    chosen = sys.argv[2:] or list(CASES)
    for name in chosen:
        CASES[name](sys.argv[1])
    sys.exit(1 if failures else 0)


if __name__ == "__main__":
    main()
