#!/usr/bin/env python3
"""Writes replay scripts for the count of instructions per input frame: `replay_scripts.py INSTANTS [OPTION..]`.

Each source has BLOCKS PMUs, each with five phasors and one analog: with one block, data frames of 44 bytes. Each subscriber has
one stream of MEMBERS PMUs, the next ones in turn. In each of the INSTANTS, 30 a second, every source sends a data frame; FRAMES
of them stand on one line. With --drained each subscriber is handed every second what waits for it; else its ring of 64 frames
gives up the oldest. IDLE more subscribers have a stream of a PMU that sends nothing, and each subscriber has OFF more streams that
are not started. With 0 instants the script is the setup alone.
"""
import argparse

PHASORS, ANALOGS = 5, 1
WINDOW = 4
DAY = 100


def check(octets):
    total = 0xFFFF
    for octet in octets:
        total ^= octet << 8
        for _ in range(8):
            total = (total << 1 ^ 0x1021) & 0xFFFF if total & 0x8000 else total << 1 & 0xFFFF
    return total


def whole(octets):
    return (octets + check(octets).to_bytes(2, "big")).hex().upper()


def head(kind, size, idcode, soc, fraction):
    numbers = (size, 2), (idcode, 2), (soc, 4), (fraction, 4)
    return bytes([0xAA, kind]) + b"".join(number.to_bytes(width, "big") for number, width in numbers)


def described(pmu):
    names = [f"PHASOR {number}" for number in range(PHASORS)] + [f"ANALOG {number}" for number in range(ANALOGS)]
    counts = bytes([0, PHASORS, 0, ANALOGS, 0, 0])
    return (f"PMU {pmu}".ljust(16).encode() + pmu.to_bytes(2, "big") + bytes(2) + counts
            + b"".join(name.ljust(16).encode() for name in names) + bytes(4 * len(names)) + bytes(4))


def configuration(source, blocks):
    pmus = [source] if blocks == 1 else range(1, blocks + 1)
    body = ((1_000_000).to_bytes(4, "big") + blocks.to_bytes(2, "big") + b"".join(map(described, pmus))
            + (30).to_bytes(2, "big"))
    return whole(head(0x32, 16 + len(body), source, DAY, 0) + body)


def measured(source, blocks, instant):
    soc, fraction = DAY + instant // 30, (2 * (instant % 30) * 1_000_000 + 30) // 60
    body = (bytes(2) + bytes(range(4 * PHASORS)) + bytes(4) + bytes(2 * ANALOGS)) * blocks
    return whole(head(0x02, 16 + len(body), source, soc, fraction) + body)


def started(stream):
    return whole(head(0x42, 18, stream, DAY, 0) + (2).to_bytes(2, "big"))


def subscriber_lines(subscriber, keys, off):
    yield f"addsub {subscriber} 64"
    for key in keys:
        yield f"grant {subscriber} {key}"
    wait = 0 if len(keys) == 1 else 9
    for stream in range(101, 102 + off):
        yield f"define {subscriber} {stream} 30 1000000 {wait} {WINDOW} none " + " ".join(keys)
    yield f"connect {subscriber}"
    yield f"sub {subscriber} {started(101)}"


def lines(load):
    sources = range(1, load.sources + 1)
    keys = [f"{source}/{pmu}" for source in sources for pmu in ([source] if load.blocks == 1 else range(1, load.blocks + 1))]
    for key in keys:
        yield f"addpmu {key}"
    for source in sources:
        yield f"pmu {source} {configuration(source, load.blocks)}"
    for subscriber in range(1, load.subscribers + 1):
        own = [keys[(subscriber - 1 + place) % len(keys)] for place in range(load.members)]
        yield from subscriber_lines(subscriber, own, load.off)
    if load.idle:
        yield "addpmu 999"
        yield f"pmu 999 {configuration(999, 1)}"
    for subscriber in range(1001, 1001 + load.idle):
        yield from subscriber_lines(subscriber, ["999"], 0)
    for first in range(0, load.instants, load.frames):
        instants = range(first, min(first + load.frames, load.instants))
        for source in sources:
            yield f"pmu {source} " + "".join(measured(source, load.blocks, instant) for instant in instants)
        if load.drained and any(instant % 30 == 29 for instant in instants):
            for subscriber in range(1, load.subscribers + 1):
                yield f"drain {subscriber} 65535"


if __name__ == "__main__":
    parser = argparse.ArgumentParser(description="Writes a replay script.")
    parser.add_argument("instants", type=int)
    for name, usual in ("sources", 1), ("blocks", 1), ("subscribers", 1), ("members", 1), ("frames", 1), ("idle", 0), ("off", 0):
        parser.add_argument(f"--{name}", type=int, default=usual)
    parser.add_argument("--drained", action="store_true")
    print("\n".join(lines(parser.parse_args())))
