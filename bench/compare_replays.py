#!/usr/bin/env python3
"""Replays random scripts by two builds of the program and compares what they answer: `compare_replays.py OLD NEW [COUNT [FIRST]]`.

OLD and NEW are programs that replay, as `bench/unproved.py OUT --replay` builds one of any tree. Each of COUNT scripts (1,000 where none is
said), of seed FIRST and on, has up to four sources of up to five PMUs, and up to five subscribers with streams whose members, rates,
waits and windows are drawn. Data frames come in order, late, twice, with flags of the clock and now and then with a wrong CHK, between ticks,
drains, commands, grants, revokes, new configurations, hang-ups and PMUs that are dropped. A script whose answers differ is kept in
the folder where it is run, as differs-SEED.script, and then the status is 1.
"""
import random
import re
import subprocess
import sys

from replay_scripts import head, whole

FIRST_INSTANT = 3000  # at 30 a second, so second 100
STOP, START, HEADER, CFG_2 = 1, 2, 3, 5


def described(pmu, phasors, analogs, word):
    names = [f"{word} {number}" for number in range(phasors)] + [f"ANALOG {number}" for number in range(analogs)]
    return (f"PMU {pmu}".ljust(16).encode() + pmu.to_bytes(2, "big") + bytes(2) + bytes([0, phasors, 0, analogs, 0, 0])
            + b"".join(name.ljust(16).encode() for name in names) + bytes(4 * len(names)) + bytes(4))


def command(stream, word):
    return whole(head(0x42, 18, stream, FIRST_INSTANT // 30, 0) + word.to_bytes(2, "big"))


class Script:
    """A script of one seed: its sources and subscribers, and its lines."""

    def __init__(self, seed):
        self.random = random.Random(seed)
        self.lines = []
        self.sources, self.shapes, self.bases, self.streams = {}, {}, {}, {}
        self.instant = FIRST_INSTANT

    def add_sources(self):
        for source in range(100, 100 * self.random.randint(1, 4) + 1, 100):
            self.sources[source] = [source + number for number in range(self.random.choice([1, 1, 1, 2, 3, 5]))]
            self.bases[source] = self.random.choice([1_000_000, 1_000_000, 100_000, 90])
        self.keys = [f"{source}/{pmu}" for source, pmus in self.sources.items() for pmu in pmus]
        for key in self.keys:
            self.shapes[key] = self.random.randint(0, 3), self.random.randint(0, 2)
            if self.random.random() < 0.95:
                self.lines.append(f"addpmu {key}")

    def announce(self, source):
        word = self.random.choice(["VOLTAGE", "CURRENT"])
        blocks = b"".join(described(pmu, *self.shapes[f"{source}/{pmu}"], word) for pmu in self.sources[source])
        body = self.bases[source].to_bytes(4, "big") + len(self.sources[source]).to_bytes(2, "big") + blocks + (30).to_bytes(2, "big")
        self.lines.append(f"pmu {source} {whole(head(0x32, 16 + len(body), source, FIRST_INSTANT // 30, 0) + body)}")

    def members(self):
        drawn = self.random.random()
        if drawn < 0.3:
            return [self.random.choice(self.keys)]
        if drawn < 0.6:
            source = self.random.choice(list(self.sources))
            chosen = [f"{source}/{pmu}" for pmu in self.sources[source]]
        else:
            chosen = [key for key in self.keys if self.random.random() < 0.6] or self.keys[:1]
        if self.random.random() < 0.5:
            self.random.shuffle(chosen)
        return chosen

    def add_subscriber(self, subscriber):
        self.lines.append(f"addsub {subscriber} {self.random.choice([1, 2, 4, 64])}")
        for key in random.Random(subscriber).sample(self.keys, len(self.keys)):
            if self.random.random() < 0.8:
                self.lines.append(f"grant {subscriber} {key}")
        self.streams[subscriber] = range(101, 102 + self.random.randint(0, 2))
        for stream in self.streams[subscriber]:
            rate, base = self.random.choice([30, 30, 30, 25, 60, 1]), self.random.choice([1_000_000, 1_000_000, 90])
            wait, window = self.random.choice([0, 0, 1, 2, 9]), self.random.choice([1, 2, 4])
            self.lines.append(f"define {subscriber} {stream} {rate} {base} {wait} {window} none {' '.join(self.members())}")
        self.lines.append(f"connect {subscriber}")
        for stream in self.streams[subscriber]:
            if self.random.random() < 0.85:
                self.lines.append(f"sub {subscriber} {command(stream, START)}")

    def measured(self, source, instant):
        base = self.bases[source]
        fraction = min(base - 1, (2 * (instant % 30) * base + 30) // 60 + self.random.choice([0] * 9 + [1]))
        body = b""
        for pmu in self.sources[source]:
            phasors, analogs = self.shapes[f"{source}/{pmu}"]
            body += bytes([self.random.choice([0, 0, 0, 4]), 0]) + self.random.randbytes(4 * phasors) + bytes(4) + self.random.randbytes(2 * analogs)
        quality = self.random.choice([0, 0, 0, 0x0F, 0x24, 0x51, 0x80])
        frame = whole(head(0x02, 16 + len(body), source, instant // 30, quality << 24 | fraction) + body)
        return frame if self.random.random() < 0.97 else frame[:-1] + ("1" if frame[-1] == "0" else "0")

    def measure(self):
        self.instant += self.random.choice([0, 0, 1, 1, 1, 2])
        instant = max(FIRST_INSTANT, self.instant - self.random.choice([0, 0, 0, 0, 1, 2, 4]))
        source = self.random.choice(list(self.sources))
        frames = [self.measured(source, instant + later) for later in range(self.random.choice([1, 1, 1, 2, 3]))]
        self.lines.append(f"pmu {source} {''.join(frames)}")

    def happen(self):
        subscriber, key = self.random.choice(list(self.streams)), self.random.choice(self.keys)
        match self.random.choices(["measure", "tick", "drain", "command", "grants", "announce", "connection", "registry", "stats"],
                                  [72, 8, 10, 4, 2, 1.5, 1, 0.7, 0.8])[0]:
            case "measure":
                self.measure()
            case "tick":
                self.lines.append(f"tick {self.instant // 30}")
            case "drain":
                self.lines.append(f"drain {subscriber} {self.random.choice([50, 200, 1000, 65535])}")
            case "command":
                stream, word = self.random.choice(self.streams[subscriber]), self.random.choice([STOP, START, START, HEADER, CFG_2])
                self.lines.append(f"sub {subscriber} {command(stream, word)}")
            case "grants":
                self.lines.append(f"{self.random.choice(['grant', 'revoke'])} {subscriber} {key}")
            case "announce":
                self.announce(self.random.choice(list(self.sources)))
            case "connection":
                self.lines.append(f"{self.random.choice(['hangup', 'connect'])} {subscriber}")
            case "registry":
                self.lines.append(f"{self.random.choice(['droppmu', 'addpmu'])} {key}")
            case "stats":
                self.lines.append(f"stats {subscriber}")

    def text(self):
        self.add_sources()
        for subscriber in range(1, self.random.randint(2, 6)):
            self.add_subscriber(subscriber)
        for source in self.sources:
            self.announce(source)
        for _ in range(self.random.randint(10, 60)):
            self.happen()
        for subscriber in self.streams:
            self.lines += [f"drain {subscriber} 65535", f"stats {subscriber}"]
        return "\n".join(self.lines) + "\n"


def answers(program, script):
    ended = subprocess.run([program, "replay"], input=script.encode(), stdout=subprocess.PIPE, stderr=subprocess.PIPE, check=False)
    return ended.returncode, ended.stdout


def main():
    old, new = sys.argv[1:3]
    count = int(sys.argv[3]) if len(sys.argv) > 3 else 1000
    first = int(sys.argv[4]) if len(sys.argv) > 4 else 0
    differ = made = 0
    for seed in range(first, first + count):
        script = Script(seed).text()
        came = answers(old, script)
        made += sum(map(int, re.findall(rb"stats made (\d+)", came[1])))
        if came != answers(new, script):
            differ += 1
            with open(f"differs-{seed}.script", "w", encoding="utf-8") as kept:
                kept.write(script)
    print(f"{count} scripts, {made} data frames counted at their ends, {differ} differ")
    sys.exit(1 if differ else 0)


if __name__ == "__main__":
    if len(sys.argv) < 3:
        sys.exit(__doc__)
    main()
