#!/usr/bin/env python3
"""Counts what the running service takes for each input frame under load: instructions of its own code, by callgrind, beside those that
the core takes for the same frames in `pdcgw replay` (bench/instructions.py); and system calls, by strace.

    python3 bench/service_cost.py PROGRAM

PROGRAM is `pdcgw` as `rt run` left it in crates/pdcgw/out. Each figure is the difference of two runs, of few and of many instants, divided
by the input frames between them, so that start, setup and end do not count. Frames come in bursts, each when all subscribers have the last one: of 64
instants, and where streams wait for several sources, so that one source's frames come before the next one's, of 32 and of eight too. System
calls are told for each frame that comes in or goes out. A figure past its bound ends the script with status 1. In a burst of eight instants
each socket has eight frames, and is read or written once at least, so that no program with a call for each socket makes fewer than 0.125 calls
a frame: its calls are told without a bound.
"""
import os
import re
import selectors
import socket
import subprocess
import sys
import tempfile
import time

import instructions
import service

sys.path.insert(0, os.path.join(os.path.dirname(os.path.abspath(__file__)), "..", "tools"))
import c37118  # noqa: E402

RATE = 60
# (its own, so that it can run beside the other scripts)
service.FIRST_SOURCE_PORT, service.FIRST_PORT = 21_100, 21_300


class Players:
    """Sources and subscribers of a setup, in this process."""

    def __init__(self, sources, subscribers):
        self.sources, self.subscribers = sources, subscribers
        self.listeners = [service.listen(service.FIRST_SOURCE_PORT + at) for at in range(len(sources))]
        self.links, self.guests = [], []

    def meet(self):
        """Answers the gateway's calls, connects the subscribers and starts their streams."""
        for (source, pmus), listener in zip(self.sources.items(), self.listeners):
            listener.settimeout(60)
            peer, _ = listener.accept()
            buffer, started = bytearray(), False
            while not started:
                buffer += peer.recv(4096)
                for got in c37118.frames_in(buffer):
                    if got[15] == 5:
                        peer.sendall(c37118.configuration(source, pmus, RATE))
                    started = started or got[15] == 2
            self.links.append(peer)
        for sub, _, streams in self.subscribers:
            guest = connect_when_open(service.FIRST_PORT + sub)
            for stream, _, _ in streams:
                guest.sendall(c37118.command(stream, 2) + c37118.command(stream, 5))
            # Each stream's CFG-2 comes behind its start.
            waited, buffer = len(streams), bytearray()
            while waited:
                buffer += guest.recv(65536)
                waited -= sum(it[1] >> 4 == 3 for it in c37118.frames_in(buffer))
            self.guests.append((guest, buffer))

    def play(self, instants, burst):
        """Sends so many instants of all sources, and reads all that is made of them."""
        chosen = selectors.DefaultSelector()
        for at, (guest, buffer) in enumerate(self.guests):
            guest.setblocking(False)
            chosen.register(guest, selectors.EVENT_READ, (buffer, len(self.subscribers[at][2])))
        begun = int(time.time())
        for first in range(0, instants, burst):
            slots = range(first, min(first + burst, instants))
            for (source, pmus), link in zip(self.sources.items(), self.links):
                link.sendall(b"".join(c37118.data(source, len(pmus), *c37118.stamp(begun * RATE + slot, RATE)) for slot in slots))
            waited = len(slots) * sum(len(streams) for _, _, streams in self.subscribers)
            while waited > 0:
                ready = chosen.select(60)
                if not ready:
                    sys.exit("frames are missing")
                for key, _ in ready:
                    buffer, _ = key.data
                    buffer += key.fileobj.recv(1 << 18)
                    waited -= sum(it[1] >> 4 == 0 for it in c37118.frames_in(buffer))

    def leave(self):
        for it in [*self.links, *self.listeners, *(guest for guest, _ in self.guests)]:
            it.close()


def connect_when_open(port):
    for _ in range(600):
        try:
            return socket.create_connection(("127.0.0.1", port))
        except ConnectionRefusedError:
            time.sleep(0.1)
    sys.exit(f"port {port} is not open")


def run(words, sources, subscribers, instants, burst):
    """The program under `words`, until the frames of so many instants are out."""
    players = Players(sources, subscribers)
    # (no tick between two bursts: what a tick takes is no frame's)
    text = service.setup_text(1000, sources, subscribers, window=64)
    with tempfile.NamedTemporaryFile("w", suffix=".toml") as file:
        file.write(text)
        file.flush()
        process = subprocess.Popen([*words, "run", "--setup", file.name], stdin=subprocess.PIPE, stdout=subprocess.DEVNULL,
                                   stderr=subprocess.DEVNULL, env=instructions.ENVIRONMENT)
        players.meet()
        players.play(instants, burst)
        process.stdin.write(b"quit\n")
        process.stdin.flush()
        process.wait(60)
        players.leave()


def instructions_of_service(program, sources, subscribers, instants, burst):
    with tempfile.TemporaryDirectory() as folder:
        out = os.path.join(folder, "callgrind")
        run(["valgrind", "--tool=callgrind", "--fair-sched=yes", f"--callgrind-out-file={out}", program], sources, subscribers, instants, burst)
        return total_of(out)


def total_of(file):
    with open(file) as f:
        for line in f:
            if line.startswith(("summary:", "totals:")):
                return int(line.split()[1])
    sys.exit("callgrind told no total")


def calls_of_service(program, sources, subscribers, instants, burst):
    with tempfile.NamedTemporaryFile("r") as out:
        run(["strace", "-f", "-c", "-U", "calls,name", "-o", out.name, program], sources, subscribers, instants, burst)
        counts = [int(line.split()[0]) for line in out.read().splitlines() if re.match(r"\s*\d+ +[a-z_0-9]+$", line)]
    # (the last line is their sum)
    return counts[-1]


def load(name, program, sources, subscribers, options, burst, has_bound=True):
    few, many = 128, 384
    frames_in = (many - few) * len(sources)
    frames_out = (many - few) * sum(len(streams) for _, _, streams in subscribers)
    service_cost = (instructions_of_service(program, sources, subscribers, many, burst)
                    - instructions_of_service(program, sources, subscribers, few, burst)) / frames_in
    replay_cost = instructions.per_frame(program, options, len(sources))
    calls = (calls_of_service(program, sources, subscribers, many, burst)
             - calls_of_service(program, sources, subscribers, few, burst)) / (frames_in + frames_out)
    service.tell(f"{name}: instructions for each input frame; the core's in a replay", f"{service_cost:,.0f}; {replay_cost:,.0f}",
                 "at most 1.2 times", service_cost <= 1.2 * replay_cost)
    service.tell(f"{name}: system calls a frame that comes in or goes out", f"{calls:.3f}", "below 0.1" if has_bound else "none",
                 calls < 0.1 or not has_bound)


def main():
    if len(sys.argv) != 2:
        sys.exit(__doc__)
    program = os.path.abspath(sys.argv[1])
    one = {100: [100]}
    load("P1 S1", program, one, [(1, 256, [(1000, RATE, [(100, 100)])])], ["--sources", "1"], 64)
    load("P1 S64", program, one, [(1 + at, 256, [(1000 + at, RATE, [(100, 100)])]) for at in range(64)], ["--sources", "1", "--subscribers", "64"], 64)
    each = {100 + at: [100 + at] for at in range(64)}
    load("P64 S64", program, each, [(1 + at, 256, [(1000 + at, RATE, [(100 + at, 100 + at)])]) for at in range(64)],
         ["--sources", "64", "--subscribers", "64"], 64)
    many = {100 + at: [100 + at] for at in range(16)}
    members = [(it, it) for it in many]
    for burst in (64, 32, 8):
        load(f"P16 S16, streams of 16, {burst} instants at once", program, many, [(1 + at, 256, [(1000 + at, RATE, members)]) for at in range(16)],
             ["--sources", "16", "--subscribers", "16", "--members", "16"], burst, burst > 8)
    sys.exit(1 if service.failures else 0)


if __name__ == "__main__":
    main()
