"""`explain`: why a subscriber was sent what it was sent, frame by frame, by a recording; and what it was sent as packets."""
import csv
import re
import shutil
import struct
import subprocess
import threading
import time

from c37118 import frames_in
from faults import FIRST, Play
from peers import RATE, Simulated, expect, pmu, same, stream, subscriber, takes, until
from test_records import files_in, folder_of, service, tool
from test_sixteen import SOURCES, Status, plays

FATES = {"came", "late", "refused", "ignored", "nothing", "not-granted", "not-announced"}
FILLED = {"late", "refused", "ignored", "nothing"}


def explained(bench, folder, *words, status=0):
    """The lines of `explain` of subscriber 1."""
    found, out, errors = tool(bench, "explain", [*files_in(folder), "--subscriber", "1", *words])
    same((found, errors), (status, ""), f"`explain`: {out}")
    return out.splitlines()


def totals_in(line):
    words = line.lstrip("# ").split()
    return dict(zip(words[::2], map(int, words[1::2])))


def utc(seconds):
    """A time as `explain` takes and prints it."""
    return time.strftime("%Y-%m-%dT%H:%M:%S", time.gmtime(seconds)) + f".{int(seconds * 1000 + .5) % 1000:03}Z"


def slot_time(slot):
    return utc(slot // RATE + slot % RATE * 1000 // RATE / 1000)


class Recorded:
    """A stream 101 of the PMUs 7 and 9, and of 92, which is never announced: it waits for 200 ms. PMU 9 is refused where it is more than 30 s old."""

    def __init__(self, bench):
        self.bench, self.folder, port = bench, folder_of(bench), bench.port()
        self.seven, self.nine = bench.source(7), bench.source(9)
        text = f'record = "{self.folder}"\n' + pmu(7, connect=self.seven.address) + pmu(9, connect=self.nine.address) + pmu(92, source=9)
        self.gateway = bench.gateway(text + subscriber(1, port, grants=[7, 9, "9/92"]) + stream(101, [7, 9, "9/92"], wait=20)).serves(1)
        self.seven.come()
        self.nine.come()
        self.gateway.logs("source (7|9): announced.*", 2)
        self.client = bench.subscriber(port)
        self.client.start(101)

    def left(self, frames):
        until(lambda: f" made {frames} " in self.gateway.status()["subscriber 1"], f"{frames} frames")


@takes(8)
def test_each_filler_has_its_cause(bench):
    """A frame that is complete; fillers of blocks that come late, are refused since they are too old, or never come; a frame that is pushed out and those
    that leave before a change; and a member that is not granted any more."""
    it = Recorded(bench)
    # Of the oldest time that is taken: two seconds later it is too old.
    slot = (int(time.time()) - 28) * RATE
    it.seven.measure(slot, 1)
    it.nine.measure(slot, 2)
    it.left(1)
    it.seven.measure(slot + 1, 3)
    it.left(2)
    it.nine.measure(slot + 1, 4)
    it.seven.measure(slot + 2, 5)
    it.left(3)
    it.seven.link.send(b"".join(it.seven.data(slot + 3 + more, 6) for more in range(5)))
    it.left(4)
    it.gateway.ask("revoke 1 9")
    it.left(8)
    it.seven.measure(slot + 8, 7)
    it.left(9)
    time.sleep(3)
    it.nine.measure(slot + 2, 8)
    until(lambda: it.gateway.ask("pmustats 9")[0].endswith("21:1"), "a block that is too old")
    it.gateway.quit()
    lines = explained(bench, it.folder)
    came, ago = r"\+\d+ ms", r"\+\d\d\d\d\d ms"
    wanted = [f"complete left {came} handed {came} gap 0: 7 {came}, 9 {came}", f"waited left {came} handed {came} gap 0: 7 {came}, 9 filler, late {came}",
              f"waited left {came} handed {came} gap 0: 7 {came}, 9 filler, refused FarClock {ago}",
              f"pushed left {came} handed {came} gap 0: 7 {came}, 9 filler, nothing came",
              *[f"changed left {came} handed {came} gap 0: 7 {came}, 9 filler, nothing came"] * 4,
              f"complete left {came} handed {came} gap 0: 7 {came}, 9 absent, not-granted"]
    same(len(lines), len(wanted) + 1, "\n".join(lines))
    for at, (line, pattern) in enumerate(zip(lines, wanted)):
        pattern = f"{re.escape(slot_time(slot + at))} stream 101 {pattern}, 9/92 absent, not-announced"
        expect(re.fullmatch(pattern, line), f"{pattern}, and not {line}")
    same(lines[-1], "frames 9 complete 2 waited 2 pushed 1 changed 4 nothing 5 late 1 refused 1 ignored 0 dropped 0 cleared 0 waiting 0 unseen 0 missing 0 unspelled 0")
    # A part of them, by the times of their slots; and as comma-separated values.
    part = ["--stream", "101", "--from", slot_time(slot + 1), "--to", slot_time(slot + 3)]
    same(explained(bench, it.folder, *part)[:-1], lines[1:3])
    rows = list(csv.DictReader(explained(bench, it.folder, *part, "--csv")[:-1]))
    same([(row["slot"], row["cause"], row["handing"], row["gap"], row["pmu"], row["fate"], row["reason"]) for row in rows],
         [(slot_time(slot + 1 + at), "waited", "handed", "0", key, fate, reason) for at in range(2) for key, fate, reason in
          (("7", "came", ""), ("9", ("late", "refused")[at], ("", "FarClock")[at]), ("9/92", "not-announced", ""))])
    same(explained(bench, it.folder, "--stream", "7")[0].split()[:2], ["frames", "0"])


@takes(8)
def test_what_was_not_handed_out(bench):
    """A subscriber that does not read: frames that are dropped are the gaps of those that it is sent later, and what waits is cleared when it goes."""
    folder, port, pmus, rate, count = folder_of(bench), bench.port(), list(range(71, 87)), 120, 900
    source = bench.source(7, pmus=pmus, rate=rate, phasors=60)
    keys = [f"7/{it}" for it in pmus]
    text = f'record = "{folder}"\n' + pmu(71, source=7, connect=source.address) + "".join(pmu(it, source=7) for it in pmus[1:])
    gateway = bench.gateway(text + subscriber(1, port, ring=4, grants=keys) + stream(101, keys, rate=rate)).serves(1)
    source.come()
    gateway.logs("source 7: announced.*")
    client = bench.subscriber(port, receive=4096)
    client.start(101)
    slot = int(time.time()) * rate
    for first in range(0, count, 20):
        source.link.send(b"".join(source.data(slot + at, at) for at in range(first, first + 20)))
        time.sleep(.05)
    until(lambda: f" made {count} " in gateway.status()["subscriber 1"], "all frames")
    numbers = []
    while not numbers or numbers[-1] < count - 1:
        numbers += [struct.unpack(">I", client.data()[16:20])[0]]
    gateway.quit()
    rows = list(csv.DictReader(explained(bench, folder, "--csv")[:-1]))[::len(pmus)]
    same(len(rows), count)
    handed = [at for at, row in enumerate(rows) if row["handing"] == "handed"]
    same(handed, numbers, "the frames that were handed out")
    same([int(rows[at]["gap"]) for at in handed], [at - before - 1 for before, at in zip([-1, *numbers], numbers)], "gaps")
    same({row["handing"] for row in rows}, {"handed", "dropped"})


@takes(12)
def test_sixteen_faults_are_explained(bench):
    """Each member of each stream has as many fillers and late blocks as `status` counts, and each has the cause that its source plays."""
    folder = folder_of(bench)
    play = Play([(f"127.0.1.{at + 1}", port) for port in [bench.port()] for at in range(SOURCES)], [bench.port() for _ in range(SOURCES)], all_come=True)
    gateway, ends = bench.gateway(f'record = "{folder}"\ningest = 2\nserve = 2\n' + play.setup_text()), threading.Event()
    player = threading.Thread(target=plays, args=(play, ends), daemon=True)
    player.start()
    try:
        gateway.logs("source .*: announced.*", SOURCES - 2)
        begin = utc(time.time() + 1)
        time.sleep(5)
        end = utc(time.time() - 1)
    finally:
        ends.set()
        player.join()
    time.sleep(1)
    status = Status(gateway)
    counted, absent = status.members(), status.absent()
    gateway.quit()
    causes = {103: "late", 104: "nothing", 109: "nothing", 112: "ignored", 113: "ignored", 114: "nothing", 102: "late"}
    for number in range(FIRST, FIRST + SOURCES):
        found, out, errors = tool(bench, "explain", [*files_in(folder), "--subscriber", str(number - 100), "--csv"])
        same((found, errors), (0, ""), out[-500:])
        rows = list(csv.DictReader(out.splitlines()[:-1]))
        expect(len(rows) > 40, f"rows of subscriber {number - 100}: {len(rows)}")
        for key in {FIRST, number}:
            own = [row for row in rows if row["pmu"] == str(key)]
            filled = [row for row in own if row["fate"] in FILLED]
            same(len(filled), counted.get((number, key), (0, 0))[0], f"fillers of {key} in stream {number}")
            is_faulty = key == FIRST if number == 103 else key == number
            # At the start not all have begun, and at the end blocks are still on the way.
            found = {row["fate"] for row in filled if begin < row["slot"] < end}
            same(found, {causes[number]} if number in causes and is_faulty else set(), f"{key} in stream {number}")
            fates = {row["fate"] for row in own}
            if (number, key, "not granted") in absent or (number, key, "not registered") in absent:
                same(fates, {"not-granted"}, f"{key} in stream {number}")
            if (number, key, "not announced") in absent:
                same(fates, {"not-announced"}, f"{key} in stream {number}")


@takes(10)
def test_ignored_frames_are_explained(bench):
    """Of one source a fifth of the frames has a wrong CHK, the clock of another is far ahead: each of their fillers has that as its reason."""
    folder, port = folder_of(bench), bench.port()
    sources = [Simulated(bench, "--source", str(number), "--fault", fault) for number, fault in ((7, "wrong-check=20"), (8, "clock=5000"), (9, "drop=20"))]
    text = f'record = "{folder}"\n' + "".join(pmu(number, ahead_ms=None, connect=it.address) for number, it in zip((7, 8, 9), sources))
    gateway = bench.gateway(text + subscriber(1, port, grants=[7, 8, 9]) + stream(101, [7, 8, 9], wait=20)).serves(1)
    gateway.logs("source (7|8|9): announced.*", 3)
    client = bench.subscriber(port)
    client.start(101)
    begin = utc(time.time() + 1)
    time.sleep(5)
    end = utc(time.time() - 1)
    gateway.quit()
    rows = list(csv.DictReader(explained(bench, folder, "--csv")[:-1]))
    found = {number: {(row["fate"], row["reason"]) for row in rows if row["pmu"] == number and begin < row["slot"] < end} for number in "789"}
    same(found, {"7": {("came", ""), ("ignored", "BadCheck")}, "8": {("ignored", "FarClock")}, "9": {("came", ""), ("nothing", "")}})


def packets(path):
    """What each side sent in a file of packets: the bytes, and the times. Heads and sums are checked."""
    with open(path, "rb") as f:
        data = f.read()
    same(data[:24], struct.pack(">IHHiIII", 0xA1B2C3D4, 2, 4, 0, 0, 0x40000, 101))
    at, sides, numbers = 24, {4712: b"", 50000: b""}, {}
    while at < len(data):
        _, _, size, whole = struct.unpack(">4I", data[at:at + 16])
        packet = data[at + 16:at + 16 + size]
        same((size, whole, packet[0], packet[9]), (len(packet), struct.unpack(">H", packet[2:4])[0], 0x45, 6))
        pseudo = packet[12:20] + struct.pack(">HH", 6, size - 20) + packet[20:] + bytes(size % 2)
        for piece in (packet[:20], pseudo):
            same(sum(struct.unpack(f">{len(piece) // 2}H", piece)) % 0xFFFF, 0, "a checksum")
        port, number, bits = struct.unpack(">H", packet[20:22])[0], struct.unpack(">I", packet[24:28])[0], packet[33]
        same(numbers.get(port, number), number, "a number of TCP")
        numbers[port] = number + size - 40 + (bits & 3 != 0)
        sides[port] += packet[40:]
        at += 16 + size
    return sides[4712], sides[50000]


@takes(6)
def test_what_was_sent_as_packets(bench):
    """The file of packets has the bytes that the subscriber's socket was sent, and its commands; and tshark, where it is there, reads each frame."""
    folder, path = folder_of(bench), f"{bench.folder}/sent.pcap"
    text, taps = service(bench, folder)
    gateway = bench.gateway(text).serves(1, 2, 3)
    taps[1].connect(101)
    taps[1].comes(6000)
    taps[1].stop(101)
    gateway.quit()
    frames = int(explained(bench, folder, "--pcap", path)[-1].split()[1])
    sent, received = packets(path)
    same(sent.hex(), bytes(taps[1].got).hex(), "what was sent")
    same([it[15] for it in frames_in(bytearray(received))], [5, 2, 1], "the commands")
    # From the middle on it begins with the configuration.
    begun = next(it for it in frames_in(bytearray(sent)) if it[1] >> 4 == 0)
    half = struct.unpack(">I", begun[6:10])[0] + 1
    explained(bench, folder, "--pcap", path, "--from", utc(half))
    kinds = [it[1] >> 4 for it in frames_in(bytearray(packets(path)[0]))]
    same((kinds[0], set(kinds[1:])), (3, {0}), "configuration first, then data")
    if shutil.which("tshark"):
        out = subprocess.run(["tshark", "-r", path, "-T", "fields", "-e", "_ws.col.Protocol", "-e", "_ws.malformed"], stdout=subprocess.PIPE, check=True).stdout.decode()
        expect("SYNCHROPHASOR" in out and "alformed" not in out, out[:500])
    expect(frames > 50, f"{frames} frames")


def test_wrong_questions(bench):
    """A time that is none, a subscriber that the recording does not have, a file that is not there, and one that can't be written."""
    it = Recorded(bench)
    it.gateway.quit()
    files = files_in(it.folder)
    same(tool(bench, "explain", [*files, "--subscriber", "1", "--from", "yesterday"])[::2],
         (2, "pdcgw: --from takes a time, as 2026-11-28T14:03:17Z; `--help` behind the command lists the options\n"))
    same(tool(bench, "explain", [*files, "--subscriber", "0"])[::2], (2, "pdcgw: --subscriber takes a number of 1 to 65535; `--help` behind the command lists the options\n"))
    same(tool(bench, "explain", [*files, "--subscriber", "9"])[::2], (1, "pdcgw: the recording has no stream of subscriber 9\n"))
    same(tool(bench, "explain", ["none", "--subscriber", "1"])[::2], (1, "pdcgw: none: can't be read: there is no such file\n"))
    same(tool(bench, "explain", [*files, "--subscriber", "1", "--pcap", bench.folder])[::2][0], 1)
