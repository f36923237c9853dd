#!/usr/bin/env python3
"""What a recording costs in the running service, and how large it is.

    python3 bench/recordings.py PROGRAM

PROGRAM is `pdcgw` as `rt run` left it in crates/pdcgw/out, or a build of bench/unproved.py. Instructions of the program's own code are counted
by callgrind thread by thread, for each input frame, without `record` and with it, and the thread that writes the recording apart: the
difference of two runs, of few and of many timestamps. Ticks of a slow machine count too. Then sources and subscribers play in real time for
some seconds; their recording is measured, and `verify` is timed. A figure past its bound ends the script with status 1.
"""
import glob
import os
import selectors
import subprocess
import sys
import tempfile
import time

import service
import service_cost as cost

sys.path.insert(0, os.path.join(os.path.dirname(os.path.abspath(__file__)), "..", "tools"))
import c37118  # noqa: E402

# (its own, so that it can run beside the other scripts)
service.FIRST_SOURCE_PORT, service.FIRST_PORT = 22_500, 22_700
DAY = 86_400


def one_stream(count, rate):
    """So many sources of a PMU, and as many subscribers of one each."""
    return {100 + at: [100 + at] for at in range(count)}, [(1 + at, 256, [(1000 + at, rate, [(100 + at, 100 + at)])]) for at in range(count)]


def stream_of_all(count, rate, subscribers):
    """So many sources of a PMU, and subscribers of a stream of all."""
    sources = {100 + at: [100 + at] for at in range(count)}
    return sources, [(1 + at, 256, [(1000 + at, rate, [(it, it) for it in sources])]) for at in range(subscribers)]


def with_record(folder, work):
    """Does this with setups that have `record`, where a folder is given."""
    plain = service.setup_text
    if folder:
        service.setup_text = lambda *words, **keys: f'record = "{folder}"\n' + plain(*words, **keys)
    try:
        return work()
    finally:
        service.setup_text = plain


def instructions_by_thread(program, load, timestamps, folder):
    """The instructions of each thread of a run, and of the one that writes recordings, which starts with the others but alone has `folder`."""
    with tempfile.TemporaryDirectory() as room:
        out = os.path.join(room, "callgrind")
        words = ["valgrind", "--tool=callgrind", "--fair-sched=yes", "--separate-threads=yes", f"--callgrind-out-file={out}", program]
        with_record(folder, lambda: cost.run(words, *load, timestamps, 64))
        writer = others = 0
        for file in glob.glob(f"{out}-*"):
            with open(file) as f:
                text = f.read()
            total = sum(int(line.split()[1]) for line in text.splitlines() if line.startswith("totals:"))
            if "RecordWriter" in text:
                writer += total
            else:
                others += total
        return others, writer


def frame_costs(program, name, load):
    few, many = 128, 384
    frames = (many - few) * len(load[0])
    found = []
    for records in (False, True):
        with tempfile.TemporaryDirectory() as folder:
            pairs = [instructions_by_thread(program, load, it, folder if records else None) for it in (few, many)]
        found.append([(more - less) / frames for less, more in zip(*pairs)])
    (plain, _), (workers, writer) = found
    service.tell(f"{name}: instructions for each input frame without `record`; with it, workers; the writer", f"{plain:,.0f}; {workers:,.0f}; {writer:,.0f}",
                 "at most 120 more of the workers", workers <= plain + 120)


def size_of(folder):
    return sum(os.path.getsize(f"{folder}/{it}") for it in os.listdir(folder))


def play(players, rate, seconds):
    """Plays all sources in real time, and reads what comes."""
    chosen = selectors.DefaultSelector()
    for guest, _ in players.guests:
        guest.setblocking(False)
        chosen.register(guest, selectors.EVENT_READ)
    slot = int(time.time() * rate) + 1
    for slot in range(slot, slot + rate * seconds):
        while (wait := slot / rate - time.time()) > 0:
            for key, _ in chosen.select(wait):
                key.fileobj.recv(1 << 16)
        for (source, pmus), link in zip(players.sources.items(), players.links):
            link.sendall(c37118.data(source, len(pmus), *c37118.stamp(slot, rate)))


def sizes(program, name, load, rate):
    seconds = 12
    with tempfile.TemporaryDirectory() as folder, tempfile.NamedTemporaryFile("w", suffix=".toml") as file:
        file.write(with_record(folder, lambda: service.setup_text(10, *load, window=16)))
        file.flush()
        players = cost.Players(*load)
        process = subprocess.Popen([program, "run", "--setup", file.name], stdin=subprocess.PIPE, stdout=subprocess.DEVNULL, stderr=subprocess.DEVNULL)
        players.meet()
        play(players, rate, 2)
        begun, size = time.time(), size_of(folder)
        play(players, rate, seconds)
        speed = (size_of(folder) - size) / (time.time() - begun)
        process.stdin.write(b"quit\n")
        process.stdin.flush()
        process.wait(60)
        players.leave()
        begun = time.time()
        done = subprocess.run([program, "verify", *sorted(glob.glob(f"{folder}/*"))], stdout=subprocess.PIPE, text=True, check=False)
        took = time.time() - begun
    records = int(done.stdout.split()[1])
    service.tell(f"{name}: gigabytes a day; microseconds a record of `verify`", f"{speed * DAY / 1e9:.1f}; {took / records * 1e6:.1f}", "whole and alike", done.returncode == 0)


def main():
    if len(sys.argv) != 2:
        sys.exit(__doc__)
    program = os.path.abspath(sys.argv[1])
    cost.RATE = 60
    frame_costs(program, "P1 S1", one_stream(1, 60))
    frame_costs(program, "P16 S16, streams of 16", stream_of_all(16, 60, 16))
    cost.RATE = 30
    sizes(program, "P16 S1 at 30/s, a stream of 16", stream_of_all(16, 30, 1), 30)
    cost.RATE = 60
    sizes(program, "P64 S64 at 60/s", one_stream(64, 60), 60)
    sys.exit(1 if service.failures else 0)


if __name__ == "__main__":
    main()
