"""Questions of an operator: the version, what a subscriber has in the form of a setup file, and which `wait` and `window` delays ask for."""
import math
import re
import subprocess
import time

from peers import DATA, RATE, SetClock, block, expect, frame, pmu, same, stamp, stream, subscriber, takes, until


def printed(bench, *words):
    """What the program prints on standard output."""
    return subprocess.run([bench.program, *words], stdin=subprocess.DEVNULL, stdout=subprocess.PIPE, check=True).stdout.decode()


def without_comments(lines):
    """The lines of a setup without their comments, and without those that have nothing else."""
    return [it for it in (re.sub(r" *# [a-z0-9.:, ']*$", "", it) for it in lines) if it]


def test_version(bench):
    """`version` is answered as `pdcgw --version`, on standard input and at the control socket."""
    gateway = bench.gateway(f'control = "{bench.folder}/setup.control"\n' + pmu(7) + subscriber(1))
    wanted = printed(bench, "--version")
    expect(wanted.startswith("pdcgw "), wanted)
    same(gateway.answer(" version "), wanted.splitlines())
    gateway.line("commands are accepted")
    same(gateway.ctl("version", "version"), (0, wanted * 2, ""))
    for line in ("version 1", "Version", "versions", "show", "show 0", "show 65536", "show 01", "show 1 1", "show -1", "shows 1", "advise 1",
                 "advises"):
        gateway.does(line, "refused 36 BadLine")
    gateway.quit()


SHOWN = """\
[[subscriber]]
id = 1
port = {port} # connected from {client}
ring = 64
bytes = 16777216
grants = [7, "7/8", 9]
address = "127.0.0.1"
allow = ["127.0.0.1/8", "10.0.0.1/32"]
takeover = true
stall = 20
idle = 3600
change = "keep"

[[subscriber.stream]]
id = 101 # on
rate = 30
base = 1000000
wait = 1
window = 4
members = [
  "7/8",
  7,
]

[[subscriber.stream]]
id = 102 # off
rate = 25
base = 16777215
wait = 60000
window = 64
header = "a \\"quoted\\" \\\\ text\\u000A\\u007F"
members = [
  65534, # not registered
  8, # not granted
  9, # not announced
  7,
]
"""


def test_show(bench):
    """What a subscriber has, also by commands, is printed as tables of a setup file, with its state beside them. By these tables another
    gateway has the same."""
    seven, port = bench.source(7, pmus=[7, 8]), bench.port()
    pmus = pmu(7, connect=seven.address) + pmu(8, source=7) + pmu(8) + pmu(9)
    rules = dict(address="127.0.0.1", allow=["127.0.0.1/8", "10.0.0.1"], takeover=True, stall=20, idle=3600, change="keep")
    text = f'control = "{bench.folder}/setup.control"\n' + pmus + subscriber(1, port, grants=[9, 8, 7], **rules) + stream(100, [7])
    text += stream(101, ["7/8", 7]) + subscriber(20, ring=1, bytes=16)
    gateway = bench.gateway(text).serves(1)
    seven.come()
    gateway.line("source 7: announced")
    client = bench.subscriber(port)
    client.start(101)
    header = 'a "quoted" \\ text\n\x7f'.encode().hex()
    for line in ("grant 1 7/8", "grant 1 7/8", "revoke 1 8", "remove 1 100", f"define 1 102 25 16777215 60000 64 {header} 65534 8 9 7"):
        gateway.does(line, "done 0 0")
    wanted = SHOWN.format(port=port, client="%s:%d" % client.socket.getsockname())
    found = gateway.answer("show 1")
    # The grants stand in the order in which they were given.
    same("\n".join(found).replace('grants = [9, 7, "7/8"]', 'grants = [7, "7/8", 9]') + "\n", wanted)
    status, answer, _ = gateway.ctl("show 1")
    same((status, answer), (0, "\n".join(found) + "\n"))
    same(gateway.answer("show 20"), ["[[subscriber]]", "id = 20", "# no port is open", "ring = 1", "bytes = 16", "grants = []"])
    gateway.does("show 2", "refused 26 NoSuchSub")
    # A refused edit changes nothing of it.
    gateway.does("grant 1 10", "refused 23 NoSuchPmu")
    gateway.does("revoke 1 8", "refused 35 NotGranted")
    gateway.does("define 1 102 25 1000000 1 4 none 7", "refused 30 StreamExists")
    same(gateway.answer("show 1"), found)
    gateway.does("dropsub 20", "done 0 0")
    gateway.does("show 20", "refused 26 NoSuchSub")
    gateway.quit()
    again = bench.gateway(pmus + "\n".join(found) + "\n", name="again").serves(1)
    same(without_comments(again.answer("show 1")), without_comments(found))
    again.quit()


def test_show_after_changes_of_pmus_and_ports(bench):
    """A PMU that is dropped is granted no longer; a port that is opened or closed by a command is shown as it is now, with the rules of the setup."""
    port, other = bench.port(), bench.port()
    gateway = bench.gateway(pmu(7) + pmu(8) + subscriber(1, port, grants=[7, 8], allow=["127.0.0.1"]) + stream(101, [7, 8])).serves(1)

    def shown():
        return gateway.answer("show 1")

    expect(f"port = {port} # not connected" in shown() and 'address = "0.0.0.0"' in shown(), str(shown()))
    same(shown()[-4:], ["members = [", "  7, # not announced", "  8, # not announced", "]"])
    gateway.does("droppmu 8", "done 0 0")
    expect("grants = [7]" in shown() and "  8, # not registered" in shown(), str(shown()))
    gateway.does("addpmu 8", "done 0 0")
    expect("  8, # not granted" in shown(), str(shown()))
    gateway.does(f"listen 1 {other} 127.0.0.1", "done 0 0")
    gateway.line(f"subscriber 1: may connect at 127.0.0.1:{other}")
    expect(f"port = {other} # not connected" in shown() and 'address = "127.0.0.1"' in shown() and 'allow = ["127.0.0.1/32"]' in shown(), str(shown()))
    gateway.does("unlisten 1", "done 0 0")
    until(lambda: "# no port is open" in shown(), "a port that is closed")
    expect('allow = ["127.0.0.1/32"]' in shown() and not any(it.startswith("port") for it in shown()), str(shown()))
    gateway.does("dropsub 1", "done 0 0")
    gateway.does("show 1", "refused 26 NoSuchSub")
    gateway.does("addsub 1 3 100", "done 0 0")
    expect("ring = 3" in shown() and "bytes = 100" in shown() and "grants = []" in shown() and "[[subscriber.stream]]" not in shown(), str(shown()))
    gateway.quit()


def test_show_after_a_reload(bench):
    """What a reload changes is shown as it is now."""
    one = pmu(7) + pmu(8) + subscriber(1, grants=[7]) + stream(101, [7]) + stream(102, [7], wait=2)
    two = pmu(7) + pmu(8) + subscriber(1, ring=65, grants=[8]) + stream(102, [8, 7], wait=3)
    gateway = bench.gateway(one)
    gateway.reloads(two)
    found = gateway.answer("show 1")
    gateway.quit()
    again = bench.gateway(two, name="again")
    same(found, again.answer("show 1"))
    expect("ring = 65" in found and "grants = [8]" in found and "wait = 3" in found and "id = 101 # off" not in found, str(found))
    again.quit()


ADVICE = re.compile(r"advise (\d+)/(\d+) wait (\S+) in force (\d+) late (\d+) of (\d+) window (\S+) in force (\d+) tick (\d+) ms")


def advice(gateway):
    """What is advised, by stream: wait, its value in force, late blocks, all blocks, window and its value in force."""
    lines = [ADVICE.fullmatch(it) for it in gateway.answer("advise")]
    expect(all(lines), str(lines))
    return {f"{it[1]}/{it[2]}": [it[3], int(it[4]), int(it[5]), int(it[6]), it[7], int(it[8]), int(it[9])] for it in lines}


@takes(3)
def test_advise(bench):
    """A stream of two sources, of which one comes half a second later, asks for a wait of half a second; one with such a wait has no late blocks; a stream
    of one source asks for none; one whose members are not granted, or sent nothing, has no advice."""
    seven, nine = bench.source(7), bench.source(9, host="127.0.0.2")
    text = "tick_ms = 20\n" + pmu(7, connect=seven.address) + pmu(9, connect=nine.address) + pmu(10)
    text += subscriber(20, grants=[7, 9, 10]) + stream(1, [7, 9], wait=4, window=3) + stream(2, [9, 7], wait=60, window=64) + stream(3, [9], wait=4)
    text += stream(4, [10]) + subscriber(1, grants=[9]) + stream(101, [7]) + stream(102, [7, 9])
    gateway = bench.gateway(text)
    for source in (seven, nine):
        source.come()
        gateway.line(f"source {source.idcode}: announced")
    same(advice(gateway)["20/1"], ["-", 4, 0, 0, "-", 3, 20])

    def send(source, behind):
        """A data frame that is that many seconds old, and less than a period more."""
        soc, frac = stamp(math.floor((time.time() - behind) * RATE), RATE)
        source.link.send(frame(DATA, source.idcode, soc, frac, block(b"\0\0\0\1")))

    for _ in range(40):
        send(seven, 0.1)
        send(nine, 0.6)
        time.sleep(0.03)
    until(lambda: advice(gateway)["20/1"][3] == 80, "all data")
    found = advice(gateway)
    same(list(found), ["1/101", "1/102", "20/1", "20/2", "20/3", "20/4"], "in the order of the subscribers")
    wait, force, late, blocks, window, open_, tick = found["20/1"]
    # From 466 ms on: 600 less 134. A bucket ends at 639 ms, and a busy machine is later.
    expect(25 <= int(wait) <= 40 and (force, open_, tick) == (4, 3, 20), f"a wait of {wait}")
    same(int(window), math.ceil(int(wait) * 20 * RATE / 1000) + 1)
    expect(40 <= late <= 60 and blocks == 80, f"{late} late of {blocks}")
    same(found["20/2"], [wait, 60, 0, 80, window, 64, 20])
    same(found["20/3"], ["0", 4, 0, 40, "1", 4, 20])
    same(found["20/4"], ["-", 1, 0, 0, "-", 4, 20])
    same(found["1/101"], ["-", 1, 0, 0, "-", 4, 20])
    same(found["1/102"], ["0", 1, 0, 40, "1", 4, 20])
    gateway.quit()


@takes(25)
def test_late_data_are_logged(bench):
    """Data that come later than the `wait` of a stream allows are logged once, with the stream, and once more when they come in time again. A stream with a
    longer wait, and one of that source alone, are not named; nor is the other source."""
    seven, nine = bench.source(7), bench.source(9, host="127.0.0.2")
    text = "tick_ms = 20\n" + pmu(7, connect=seven.address) + pmu(9, connect=nine.address) + subscriber(20, grants=[7, 9])
    text += stream(1, [7, 9], wait=20, window=64) + stream(2, [7, 9], wait=50, window=64) + stream(3, [9])
    gateway = bench.gateway(text)
    for source in (seven, nine):
        source.come()
        gateway.line(f"source {source.idcode}: announced")

    def send(source, behind, times=1):
        soc, frac = stamp(math.floor((time.time() - behind) * RATE), RATE)
        source.link.send(frame(DATA, source.idcode, soc, frac, block(b"\0\0\0\1")) * times)

    for _ in range(40):
        send(seven, 0.1)
        send(nine, 0.6)
        time.sleep(0.03)
    late = r"WARN source 9: data come later than `wait` allows: subscriber 20, stream 1: 99% within \d+ ms of the first member, `wait` is 400 ms"
    gateway.logs(late)
    # Of the last minute's frames less than a hundredth is late.
    send(nine, 0.1, 6000)
    gateway.logs(r"INFO source 9: data come within `wait` again: subscriber 20, stream 1: 99% within \d+ ms of the first member, `wait` is 400 ms")
    same(gateway.logged(late), 1)
    same(gateway.logged(r".*data come .*`wait`.*"), 2)
    gateway.quit()


@takes(28)
def test_where_the_clock_is_set_no_data_are_late(bench):
    """This machine's clock is set ahead: delays by both clocks are looked at together, and neither source is named for that."""
    seven, nine, clock = bench.live(7), bench.live(9), SetClock(bench.folder)
    text = pmu(7, connect=seven.address) + pmu(9, connect=nine.address) + subscriber(20, grants=[7, 9]) + stream(1, [7, 9], wait=10)
    gateway = bench.gateway(text, words=clock.words)
    for source in (seven, nine):
        gateway.line(f"source {source.idcode}: announced")
    time.sleep(3)
    clock.ahead(20)
    until(lambda: re.search(r" delay \d+ 20\d\d\d 20\d\d\d ms ", gateway.status()["pmu 7/7"]), "delays by the clock that was set")
    # It is looked at the delays each ten seconds.
    time.sleep(21)
    same(gateway.logged(r".*data come .*`wait`.*"), 0)
    gateway.quit()
