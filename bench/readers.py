#!/usr/bin/env python3
"""How many readers get how many streams past one machine's limits: by a partitioned log, and by a second gateway.

    python3 bench/readers.py PROGRAM log|chain [SECONDS]

`log`: four bridges with `--key`, each of a stream of 16 PMUs with 30 frames a second, send to kafka_broker.py, and 32 readers (kcat) read all. Each has
to have each line once, and those of a PMU in order, without a slot missing. `chain`: the setups docs/setups/chain-first.toml and chain-second.toml, and
how long behind its timestamp each frame of a PMU comes from the first gateway and from the second. It prints what came, and ends with status 1 where
something lacks or is not in order. Of Debian's packages `log` needs librdkafka1 and kafkacat.
"""
import json
import os
import sys
import tempfile
import time
from concurrent.futures import ThreadPoolExecutor
from statistics import median

from bridges import RATE, Kafka, run, slot

for folder in ("tools", "tests"):
    sys.path.insert(0, os.path.join(os.path.dirname(os.path.abspath(__file__)), "..", folder))
import peers  # noqa: E402

STREAMS, PMUS, READERS = 4, 16, 32
SETUPS = os.path.join(os.path.dirname(os.path.abspath(__file__)), "..", "docs", "setups")


def setup_text():
    """A source of 16 PMUs, and a subscriber with a stream of all for each bridge."""
    members = [7, *(f"7/{number}" for number in range(8, 7 + PMUS))]
    text = peers.pmu(7, connect="127.0.0.1:26712") + "".join(peers.pmu(number, source=7) for number in range(8, 7 + PMUS))
    for at in range(1, STREAMS + 1):
        text += peers.subscriber(at, 26800 + at, grants=members) + peers.stream(100 + at, members, wait=10, window=8)
    return text


def judged(path):
    """How many lines a reader has; it ends this script where one is there twice, is not in order, or lacks."""
    count, last = 0, {}
    with open(path, encoding="utf-8") as file:
        for text in file:
            key, line = text.split("\t", 1)
            # (The last line of a bridge that was ended may be cut off.)
            line = json.loads(line) if line.endswith("}\n") else {"type": "none"}
            if line["type"] != "data":
                continue
            at, count = slot(line["time"]), count + 1
            if at != last.get(key, at - 1) + 1:
                sys.exit(f"{path}: {key} has {at} behind {last[key]}")
            last[key] = at
    if len(last) != STREAMS * PMUS:
        sys.exit(f"{path}: lines of {len(last)} PMUs of streams")
    return count


def log(program, folder, seconds):
    broker = Kafka(folder)
    with open(f"{folder}/setup.toml", "w", encoding="utf-8") as file:
        file.write(setup_text())
    held = [run(program, "simulate", "--listen", "127.0.0.1:26712", "--pmus", str(PMUS), "--rate", str(RATE)),
            run(program, "run", "--setup", f"{folder}/setup.toml")]
    try:
        time.sleep(3)
        paths = [f"{folder}/reader{at}" for at in range(READERS)]
        for path in paths:
            words = ["kcat", "-C", "-q", "-u", "-b", broker.address, "-t", "pmu", "-o", "beginning", "-f", r"%k\t%s\n"]
            with open(path, "w", encoding="utf-8") as file:
                held.append(run(*words, stdout=file))
        time.sleep(2)
        client = broker.client.replace(r"\t", r"'\t'")
        bridges = [run("sh", "-c", f"timeout {seconds} {program} bridge 127.0.0.1:{26800 + at} --stream {100 + at} --key | {client}")
                   for at in range(1, STREAMS + 1)]
        for it in bridges:
            it.wait()
        time.sleep(3)
    finally:
        for it in held:
            it.kill()
        broker.end()
    counts = {judged(path) for path in paths}
    if len(counts) != 1:
        sys.exit(f"the readers have {sorted(counts)} lines")
    wanted, count = seconds * STREAMS * PMUS * RATE, counts.pop()
    print(f"{READERS} readers have {count} data lines each, of {STREAMS} bridges with {PMUS} PMUs in {seconds} s, none twice and none missing")
    return count > 0.8 * wanted


def behind(port, stream, seconds):
    """The slots of the data frames that come within so many seconds, each with how many milliseconds behind its timestamp it came."""
    link, found, end = peers.Subscriber(port), {}, time.time() + seconds
    link.start(stream)
    while time.time() < end:
        at = peers.slot_of(link.data(), RATE)
        found[at] = (time.time() - at / RATE) * 1_000
    link.close()
    return found


def chain(program, folder, seconds):
    with open(f"{SETUPS}/chain-first.toml", encoding="utf-8") as file:
        text = file.read()
    beside = text[text.index("[[subscriber]]"):].replace("id = 1\n", "id = 2\n").replace("4800", "4801")
    with open(f"{folder}/first.toml", "w", encoding="utf-8") as file:
        file.write(text + beside)
    held = [run(program, "simulate", "--listen", "127.0.0.1:4712", "--rate", str(RATE)), run(program, "run", "--setup", f"{folder}/first.toml"),
            run(program, "run", "--setup", f"{SETUPS}/chain-second.toml")]
    try:
        time.sleep(8)
        with ThreadPoolExecutor() as pool:
            first, second = pool.map(lambda it: behind(*it, seconds), [(4801, 101), (4900, 2000)])
    finally:
        for it in held:
            it.kill()
    both = sorted(second[at] - first[at] for at in first.keys() & second.keys())
    print(f"{len(both)} frames; from the first gateway {median(first.values()):.2f} ms behind, from the second {median(second.values()):.2f}: "
          f"{median(both):.2f} later, {both[-1]:.2f} at most")
    return len(both) > 0.8 * seconds * RATE


def main():
    kinds = {"log": log, "chain": chain}
    if len(sys.argv) not in (3, 4) or sys.argv[2] not in kinds:
        sys.exit(__doc__)
    with tempfile.TemporaryDirectory() as folder:
        sys.exit(not kinds[sys.argv[2]](os.path.abspath(sys.argv[1]), folder, int(sys.argv[3]) if len(sys.argv) == 4 else 10))


if __name__ == "__main__":
    main()
