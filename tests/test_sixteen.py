"""Sixteen faults at once, each in a stream that it shares with a PMU that is well: what a script finds within ten seconds in the state as JSON, in the
metrics and in `status`, and that it finds nothing else."""
import json
import re
import threading
import time

from faults import FAULTS, FIRST, Play
from peers import http, metrics, same, takes

SOURCES, RATE = 24, 10
# What is found of each source and its PMU.
OF_SOURCES = {
    102: {"late"}, 103: {"ahead"}, 104: {"incomplete"}, 105: {"PMU error"}, 106: {"out of sync"}, 107: {"trigger"}, 108: {"not locked"}, 109: {"rate"},
    110: {"test or absent"}, 112: {"no data", "WrongId"}, 113: {"no data", "BadCheck"}, 114: {"no data"}, 115: {"not connected", "not announced"},
    116: {"not announced"},
}
# What is found of each stream: a member that it does not carry, or that is missing in frames; those of stream 103 wait for a PMU that is ahead.
OF_STREAMS = {
    102: {(102, "late")}, 103: {(101, "late")}, 104: {(104, "missing")}, 109: {(109, "missing")}, 111: {(111, "not granted")}, 112: {(112, "missing")},
    113: {(113, "missing")}, 114: {(114, "missing")}, 115: {(115, "not announced")}, 116: {(116, "not announced")}, 117: {(117, "not registered")},
}


def marks(is_so):
    """The words of those that are so."""
    return {word for word, holds in is_so.items() if holds}


def of_stat(stat):
    return {"PMU error": stat >> 14 in (1, 3), "test or absent": stat >> 14 == 2, "out of sync": stat & 0x2000, "trigger": stat & 0x0800}


def of_members(then, now):
    """What is found of streams by the missing frames and late blocks of their members, now and a while ago."""
    found = {}
    for key, (missing, late) in now.items():
        stream, member = key
        was_missing, was_late = then.get(key, (0, 0))
        if missing - was_missing > 10:
            found.setdefault(stream, set()).add((member, "late" if late - was_late > 10 else "missing"))
    return found


class State:
    """`/state`."""

    def __init__(self, page):
        self.state = json.loads(http(page, "/state")[1])

    def sources(self):
        found = {}
        for it in self.state["sources"]:
            quality, blocks = it["quality"], it["pmus"][0]["blocks"]
            delay = quality and quality["delay"]
            words = {"not connected": it["call"] in ("calling", "pause"), "no data": it["call"] == "connected", "not announced": not blocks}
            if delay:
                words |= {"late": delay["median"] > 100, "ahead": delay["median"] < -20, "incomplete": quality["minute"] < 950,
                          "not locked": quality["time"] != "locked", "rate": quality["rate"] != RATE, **of_stat(blocks["stat"] if blocks else 0)}
            found[it["source"]] = marks(words) | {one["reason"] for one in it["ignored"]}
        return found

    def members(self):
        return {(it["stream"], pmu["pmu"]): (pmu["missing"], pmu["late"]) for it in self.state["streams"] for pmu in it["pmus"]}

    def absent(self):
        return {(it["stream"], pmu["pmu"], pmu["absent"]) for it in self.state["streams"] for pmu in it["pmus"] if pmu["absent"]}


class Metrics:
    """`/metrics`: the values of each metric by the labels that are asked for."""

    def __init__(self, page):
        self.all = [(name.split("{")[0], dict(re.findall(r'(\w+)="([^"]*)"', name)), value) for name, value in metrics(page).items()]

    def by(self, name, *labels):
        return {tuple(has[it] for it in labels) if len(labels) > 1 else has[labels[0]]: float(value)
                for is_name, has, value in self.all if is_name == f"pdcgw_{name}"}

    def sources(self):
        up, connected, announced = (self.by(it, "source") for it in ("source_up", "source_connected", "pmu_announced"))
        rows = {"unlocked": self.by("source_unlocked_data_frames_total", "source"), "all": self.by("source_delay_seconds_count", "source"),
                "share": self.by("source_completeness_ratio", "source"), "sync": self.by("pmu_in_sync", "source")}
        below, flags = self.by("source_delay_seconds_bucket", "source", "le"), self.by("pmu_stat_blocks_total", "source", "flag")
        found = {}
        for it in up:
            words, count = {"not connected": not connected[it], "no data": connected[it] and not up[it], "not announced": not announced[it]}, rows["all"].get(it, 0)
            if count:
                words |= {"late": below[it, "0.128"] < count / 2, "ahead": below[it, "-0.016"] > count / 2, "incomplete": rows["share"][it] < 0.95,
                          "not locked": rows["unlocked"][it]}
            if announced[it] and count:
                words |= {"out of sync": rows["sync"][it] == 0, "trigger": flags[it, "triggered"], "test or absent": flags[it, "test_or_absent"],
                          "PMU error": flags[it, "pmu_error"] + flags[it, "do_not_use"]}
            found[int(it)] = marks(words)
        for (source, reason), count in self.by("source_ignored_total", "source", "reason").items():
            found[int(source)] |= {reason} if count else set()
        return found

    def members(self):
        missing, late = (self.by(f"stream_member_{it}_total", "stream", "member") for it in ("missing_frames", "late_blocks"))
        return {(int(stream), int(member.split("/")[1])): (count, late[stream, member]) for (stream, member), count in missing.items()}

    def absent(self):
        return {(int(stream), int(member.split("/")[1]), reason) for stream, member, reason in self.by("stream_absent_member", "stream", "member", "reason")}


class Status:
    """The lines of `status`."""

    def __init__(self, gateway):
        self.lines = gateway.answer("status")

    def sources(self):
        found = {}
        for line in self.lines:
            words = line.split()
            if words[0] == "source":
                call = words[3]
                of = found[int(words[1])] = marks({"not connected": call in ("calling", "pause"), "no data": call == "connected"})
                of |= set(re.findall(r" (\w+)=\d", line))
            elif words[0] == "pmu":
                of |= {"not announced"} if line.endswith("not announced") else set()
                data = re.search(r'" (\S+)/s got (\S+)% delay (\S+) \S+ \S+ ms (\w+) (\S+) stat (\w+) ', line)
                if data:
                    rate, share, median, sync, time_quality, stat = data.groups()
                    of |= marks({"late": int(median) > 100, "ahead": int(median) < -20, "incomplete": float(share) < 95, "rate": int(rate) != RATE,
                                 "not locked": time_quality != "locked", **of_stat(int(stat, 16))})
        return found

    def of_stream(self, word):
        stream = None
        for line in self.lines:
            words = line.split()
            stream = int(words[2]) if words[0] == "stream" else stream
            if words[0] == word:
                yield stream, int(words[1].split("/")[1]), words[2:]

    def members(self):
        return {(stream, member): (int(words[0]), int(words[2])) for stream, member, words in self.of_stream("missing")}

    def absent(self):
        return {(stream, member, " ".join(words)) for stream, member, words in self.of_stream("absent")}


def streams_of(then, now):
    found = of_members(then.members(), now.members())
    for stream, member, reason in now.absent():
        found.setdefault(stream, set()).add((member, reason))
    return found


def plays(play, ends):
    while not ends.is_set():
        play.step()


@takes(20)
def test_sixteen_faults_at_once(bench):
    """Each is found where it is, in each of the three, and the healthy sources and streams have no mark."""
    page, port = bench.port(), bench.port()
    play = Play([(f"127.0.1.{at + 1}", port) for at in range(SOURCES)], [bench.port() for _ in range(SOURCES)], all_come=True)
    gateway, ends = bench.gateway(f'status = "127.0.0.1:{page}"\n' + play.setup_text()), threading.Event()
    player = threading.Thread(target=plays, args=(play, ends), daemon=True)
    player.start()
    try:
        begun = time.monotonic()
        gateway.logs("source .*: announced.*", SOURCES - 2)
        time.sleep(3)
        then = State(page), Metrics(page), Status(gateway)
        time.sleep(4)
        now = State(page), Metrics(page), Status(gateway)
        took = time.monotonic() - begun
    finally:
        ends.set()
        player.join()
    same(len(FAULTS), 16)
    same(took < 10, True, f"after {took:.1f} s")
    for before, after in zip(then, now):
        of = type(after).__name__
        wanted = {number: OF_SOURCES.get(number, set()) for number in range(FIRST, FIRST + SOURCES) if number != 117}
        if of == "Metrics":
            # They have no DATA_RATE: that of PMU 109 shows in its stream.
            wanted[109] = set()
        same(after.sources(), wanted, of)
        same(streams_of(before, after), OF_STREAMS, of)
