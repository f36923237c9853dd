"""The log as a whole: its first and last lines, its times, its priorities for the system's journal, and that no line of a reload is lost."""
import calendar
import pathlib
import re
import socket
import statistics
import subprocess
import time

from peers import Pair, expect, pmu, same, stream, subscriber, takes, until

LINE = re.compile(r"^(<\d>)?(\d{4}-\d\d-\d\dT\d\d:\d\d:\d\d\.\d{3}Z) (ERROR|WARN|INFO|DEBUG) (.*)$")


def parts(line):
    """The priority, the time in seconds, the level and the text of a line of the log."""
    found = LINE.match(line)
    expect(found, f"no line of the log: {line!r}")
    seconds, _, rest = found[2].partition(".")
    return found[1], calendar.timegm(time.strptime(seconds, "%Y-%m-%dT%H:%M:%S")) + int(rest[:3]) / 1000, found[3], found[4]


def served(text):
    """What the first line of the log says of a setup: its PMUs, the sources with an address, its subscribers and streams."""
    pmus, called = text.count("[[pmu]]"), len(set(re.findall(r"(?m)^connect = (.*)$", text)))
    return (f"PMUs: {pmus}, sources with connect: {called}, subscribers: {text.count('[[subscriber]]')}, "
            f"streams: {text.count('[[subscriber.stream]]')}")


def test_the_log_begins_with_what_is_served_and_ends_with_the_end(bench):
    """The first line has the version, the setup's file and what it has; the last two say that `quit` came, and that the program has ended."""
    pair = Pair(bench, more=pmu(8) + subscriber(3) + stream(5, [8]) + stream(6, [8]))
    gateway = pair.run()
    pair.start()
    pair.first_is_served()
    gateway.quit()
    version = subprocess.run([bench.program, "--version"], stdout=subprocess.PIPE, check=True).stdout.decode().strip()
    texts = [parts(it)[2:] for it in gateway.log.lines]
    name = pathlib.Path("/proc/sys/kernel/hostname").read_text().strip()
    same(texts[0], ("INFO", f"the gateway starts: {version}, name {name}, setup {gateway.file}, {served(pair.text)}"), "the first line")
    same(texts[-2:], [("INFO", "`quit`: the gateway ends"), ("INFO", "the gateway has ended")], "the last lines")


def test_lines_begin_with_their_priority_for_the_journal(bench):
    """Where the system's journal reads standard error each line begins with its priority; else none does."""
    priorities = {"ERROR": "<3>", "WARN": "<4>", "INFO": "<6>"}
    for words, wanted in ((["env", "JOURNAL_STREAM=8:12345"], priorities), (["env", "-u", "JOURNAL_STREAM"], dict.fromkeys(priorities))):
        pair = Pair(bench)
        gateway = pair.run(words=words)
        pair.start()
        gateway.does("revoke 20 77", "refused 35 NotGranted")
        gateway.line("WARN subscriber 20: the grant of PMU 77/77 can't be revoked")
        gateway.quit()
        found = [parts(it) for it in gateway.log.lines]
        expect({it[2] for it in found} >= {"INFO", "WARN"}, "lines of both levels")
        same([it[0] for it in found], [wanted[it[2]] for it in found], f"the priorities with {words}")


def test_what_the_log_holds_back_is_written_at_the_end(bench):
    """Alike lines are held back for a second and counted; those that `quit` finds held back are written with their count."""
    pair = Pair(bench)
    gateway = pair.run()
    pair.start()
    gateway.does("revoke 20 77", "refused 35 NotGranted")
    revoked = "WARN subscriber 20: the grant of PMU 77/77 can't be revoked.*"
    gateway.line(revoked)
    for _ in range(6):
        gateway.does("revoke 20 77", "refused 35 NotGranted")
    gateway.does("revoke 1 77", "refused 35 NotGranted")
    gateway.quit()
    texts = [parts(it)[3] for it in gateway.log.lines]
    held = [it for it in texts if it.startswith("subscriber 20: the grant of PMU 77/77")]
    same(len(held), 2, "lines of the revocations")
    expect(held[1].endswith("(6 times)"), f"not 6 times: {held[1]}")
    same(sum(it.startswith("subscriber 1: the grant of PMU 77/77") for it in texts), 1, "lines of subscriber 1")
    same(texts[-1], "the gateway has ended", "the last line")


@takes(9)
def test_the_time_of_a_line_is_that_of_its_event(bench):
    """A line is written up to 0.1 seconds after what it tells of, but its time is that of the event. (Alike lines are written once a second.)"""
    pair = Pair(bench)
    gateway = pair.run()
    late = []
    for at in range(7):
        begun = time.time()
        client = bench.subscriber(pair.ports[0])
        until(lambda: gateway.status()["subscriber 1"].split()[3] == "connected", "subscriber 1 is connected")
        client.close()
        gateway.logs("subscriber 1: the connection ended: closed by the other side", at + 1)
        line = [it for it in gateway.log.lines if "subscriber 1: connected from" in it][-1]
        late.append(parts(line)[1] - begun)
        time.sleep(1.03)
    expect(min(late) >= -0.002, f"a line has a time before its event: {late}")
    expect(statistics.median(late) < 0.02, f"the times of the lines are late: {late}")
    gateway.quit()


@takes(5)
def test_no_line_of_a_large_reload_is_lost(bench):
    """A reload with 1,672 edits logs each of them."""
    pair = Pair(bench)
    gateway = pair.run()
    numbers = list(range(1000, 1032))
    more = "".join(pmu(number) for number in numbers)
    for sub in range(100, 140):
        more += subscriber(sub, grants=numbers) + "".join(stream(at, numbers[:at]) for at in range(1, 9))
    answer = gateway.reloads(pair.text + more)
    edits = 32 + 40 * (1 + 32 + 8)
    same(answer, [f"reloaded: {edits} edits, 0 changes of connections and ports"])
    gateway.line("`reload`: the setup was read, and its changes are done", 30)
    done = re.compile(r"INFO (source \d+: PMU \d+ is registered|subscriber 1\d\d: (added|PMU \S+ is granted|stream \d is defined))$")
    same(sum(bool(done.search(it)) for it in gateway.log.lines), edits, "edits in the log")
    expect(not gateway.logged(r"\d+ log entr.* lost: too many at once"), "the log lost lines")
    gateway.quit()


@takes(9)
def test_a_client_that_connects_and_closes_without_end(bench):
    """The first line of each kind comes at once. While it repeats, the next one comes after 1, 2, 4 seconds and so on, and counts the others; the
    other subscriber's lines come at once."""
    pair = Pair(bench)
    gateway = pair.run()
    made, end = 0, time.monotonic() + 7.6
    while time.monotonic() < end:
        with socket.create_connection(("127.0.0.1", pair.ports[1])):
            made += 1
        time.sleep(0.002)
    begun = time.monotonic()
    pair.first = bench.subscriber(pair.ports[0])
    pair.first.start(101)
    gateway.line("subscriber 1: connected from ", 1)
    gateway.line("subscriber 1: started stream 101", 1)
    expect(time.monotonic() - begun < 1.5, "lines of subscriber 1 are late")
    kinds = {}
    for it in list(gateway.log.lines):
        text = parts(it)[3]
        if text.startswith("subscriber 20: ") and "may connect" not in text:
            kinds.setdefault(re.sub(r"\S+:\d+| \(\d+ times\)$", "", text).strip(), []).append(it)
    connected = kinds["subscriber 20: connected from"]
    # At 0, 1, 3 and 7 seconds; one kind may begin later, and a refusal, which comes now and then, begins again.
    for kind, lines in kinds.items():
        expect(len(lines) <= (8 if "refused" in kind else 4), f"{made} connections in 7.6 s made {len(lines)} lines of {kind!r}: {lines}")
    same(len(connected), 4, "lines of connections")
    expect(gateway.logged("subscriber 20: connected from \\S+") > 50, f"the lines count too few of {made} connections: {connected}")
    gateway.quit()
