"""`reload`: what changed in the file is done and nothing else, while a neighbour gets each frame over the connection that it has."""
import os
import socket
import time

from c37118 import CONFIG_2, data_of, stamp
from peers import (RATE, Pair, expect, http, is_refused, metrics, now_soc, number_block, pmu, read_all, same, stream, stream_frame, subscriber, takes,
                   until)
from test_control import Client, controlled
from test_layouts import RATE as SWAP_RATE, WAIT, Swap


class Reloads(Pair):
    """A pair of which subscriber 1 and source 7 never change. `tables` are those of the others, by their name."""

    def __init__(self, bench, **keys):
        super().__init__(bench, more="ingest = 2\nserve = 2\n", **keys)
        self.tables = {"seven": self.tables[0], "nine": self.tables[1], "first": self.tables[2],
                       "twenty": subscriber(20, self.ports[1], ring=16, grants=[9]), "streams": stream(2000, [9])}
        self.more, self.text = "ingest = 2\nserve = 2\n", "ingest = 2\nserve = 2\n" + "".join(self.tables.values())

    def begin(self):
        self.run()
        self.first, self.second = self.bench.subscriber(self.ports[0]), self.bench.subscriber(self.ports[1])
        self.first.start(101)
        self.second.start(2000)
        return self

    def change(self, *answer, **tables):
        """These tables become others; `reload` is answered so, and the neighbour goes on."""
        self.tables.update(tables)
        self.gateway.reload(self.more + "".join(self.tables.values()), *answer)
        self.first_is_served()

    def end(self):
        same(self.gateway.logged("subscriber 1: (disconnected|the connection ended|its port).*"), 0)
        same(self.gateway.logged("source 7: connecting to.*"), 1)
        self.gateway.quit()


def test_reload_of_the_same_file_changes_nothing(bench):
    """A file that says the same by other words, or has a mistake, changes nothing; the mistakes are the answer and the log says so."""
    pair = Reloads(bench).begin()
    pair.change("reloaded: 0 edits, 0 changes of connections and ports")
    pair.change("reloaded: 0 edits, 0 changes of connections and ports", nine="# a comment\n" + pair.tables["nine"] + "silence = 10\n")
    pair.gateway.logs("INFO `reload`: the setup was read, and its changes are done", 2)
    text = pair.more + "".join(pair.tables.values())
    line = text.count("\n") + 2
    pair.gateway.reload(text + "[[pmu]]\nid = 0\n",
                        f"{pair.gateway.file}:{line}: pmu.id: is 0; it has to be a whole number from 1 to 65534",
                        "refused 37 BadSetup")
    pair.gateway.logs("WARN `reload` failed, nothing was changed: its answer says why")
    pair.second_is_served()
    pair.change("reloaded: 0 edits, 0 changes of connections and ports")
    pair.end()


def test_reload_changes_grants_and_streams(bench):
    """New and changed streams and grants are edits, done over the connection that stands; a changed ring has the subscriber added anew."""
    pair = Reloads(bench).begin()
    pair.second_is_served()
    seven = stream(2001, [7])
    pair.change("reloaded: 2 edits, 0 changes of connections and ports", twenty=subscriber(20, pair.ports[1], ring=16, grants=[9, 7]),
                streams=pair.tables["streams"] + seven)
    pair.second_is_served()
    pair.second.start(2001)
    slot, number = next(pair.slots())
    pair.seven.measure(slot, number)
    pair.first.comes(stream_frame(101, slot, number))
    pair.second.comes(stream_frame(2001, slot, number))
    pair.gateway.reload(pair.more + "".join({**pair.tables, "streams": seven + stream(2000, [9], rate=15)}.values()), "reloaded: 2 edits, 0 changes of connections and ports")
    same(pair.second.frame()[1] >> 4, CONFIG_2, "the stream goes on behind its CFG-2")
    slot = (now_soc() + 2) * RATE
    pair.nine.measure(slot, 77)
    pair.second.comes(data_of(2000, *stamp(slot // 2, 15), [number_block(77)]))
    changed = stream(2000, [9], rate=15)
    pair.change("reloaded: 2 edits, 0 changes of connections and ports", twenty=subscriber(20, pair.ports[1], ring=16, grants=[9]), streams=changed)
    expect(pair.second.is_closed(3), "a stream that is on is gone, and its connection stays")
    pair.second = bench.subscriber(pair.ports[1])
    pair.second.start(2000)
    pair.change("reloaded: 4 edits, 0 changes of connections and ports", twenty=subscriber(20, pair.ports[1], ring=32, grants=[9]))
    expect(pair.second.is_closed(3), "a subscriber that is added anew keeps its connection")
    pair.second = bench.subscriber(pair.ports[1])
    pair.second.start(2000)
    pair.nine.measure(slot + 2, 78)
    pair.second.comes(data_of(2000, *stamp(slot // 2 + 1, 15), [number_block(78)]))
    pair.end()


def test_reload_adds_and_drops_a_source_and_a_subscriber(bench):
    """A new PMU is called and a new subscriber's port opened; once they are gone the connections are closed, and nobody listens there."""
    pair = Reloads(bench).begin()
    eight, port = bench.source(8, host="127.0.0.9"), bench.port()
    third = subscriber(3, port, ring=16, grants=[8]) + stream(300, [8])
    pair.change("reloaded: 4 edits, 2 changes of connections and ports", eight=pmu(8, connect=eight.address), third=third)
    eight.come()
    pair.gateway.line("source 8: announced")
    client = bench.subscriber(port)
    client.start(300)
    slot = now_soc() * RATE
    eight.measure(slot, 5)
    client.comes(stream_frame(300, slot, 5))
    # Source 8 is called no longer, though its PMU stays.
    pair.change("reloaded: 0 edits, 1 change of connections and ports", eight=pmu(8))
    expect(eight.link.is_closed(3), "the connection of source 8")
    pair.gateway.logs("source 8: no longer connected, and not connecting again")
    pair.change("reloaded: 2 edits, 1 change of connections and ports", eight="", third="")
    expect(client.is_closed(3) and is_refused(port), "subscriber 3 is gone")
    pair.gateway.does("pmustats 8", "refused 23 NoSuchPmu")
    pair.second_is_served()
    pair.end()


def test_reload_moves_a_port(bench):
    """A changed port is opened, and the old one closed with its connection; a port that is taken is reported, and the others are done."""
    pair = Reloads(bench).begin()
    port = bench.port()
    pair.change("reloaded: 0 edits, 2 changes of connections and ports", twenty=subscriber(20, port, ring=16, grants=[9]))
    expect(pair.second.is_closed(3) and is_refused(pair.ports[1]), "the old port")
    pair.second = bench.subscriber(port)
    pair.second.start(2000)
    pair.second_is_served()
    third = subscriber(3, pair.ports[0], address="127.0.0.1", ring=16)
    pair.change(f"subscriber 3: port 127.0.0.1:{pair.ports[0]}: address in use", "refused 39 ReadFault", "reloaded: 1 edit, 0 changes of connections and ports",
                third=third)
    pair.gateway.logs("WARN subscriber 3: its port can't be bound: address in use; retrying every 30 s")
    pair.second_is_served()
    pair.end()


@takes(8)
def test_reload_changes_the_rules_of_a_port(bench):
    """Changed rules of a port close and open it, and hold from then on."""
    pair = Reloads(bench).begin()
    pair.change("reloaded: 0 edits, 2 changes of connections and ports", twenty=subscriber(20, pair.ports[1], ring=16, grants=[9], takeover=True))
    expect(pair.second.is_closed(3), "the connection of a port whose rules changed")
    old = bench.subscriber(pair.ports[1])
    old.start(2000)
    pair.settle()
    pair.second = bench.subscriber(pair.ports[1])
    pair.second.start(2000)
    expect(old.is_closed(3), "`takeover` after a reload")
    pair.second_is_served()
    pair.change("reloaded: 0 edits, 2 changes of connections and ports", twenty=subscriber(20, pair.ports[1], ring=16, grants=[9], idle=1))
    expect(pair.second.is_closed(3), "the connection of a port whose rules changed")
    last = bench.subscriber(pair.ports[1])
    last.start(2000)
    expect(last.is_closed(3), "`idle` after a reload")
    pair.gateway.logs("WARN subscriber 20: disconnected: no traffic.*")
    pair.end()


def test_reload_changes_a_source(bench):
    """A new PMU of a source, its rules or its address have it called again, and hold from then on; the other source is not."""
    pair = Reloads(bench).begin()
    pair.change("reloaded: 1 edit, 2 changes of connections and ports", ten=pmu(10, source=9, silence=1))
    expect(pair.nine.link.is_closed(3), "the connection of source 9")
    pair.nine.pmus = [9, 10]
    pair.nine.come()
    pair.gateway.logs("source 9: announced its configuration, DATA_RATE 30, PMUs 9 10")
    slot, number = next(pair.slots())
    pair.nine.measure(slot, number)
    pair.second.comes(stream_frame(2000, slot, number))
    begun = time.monotonic()
    expect(pair.nine.link.is_closed(3) and time.monotonic() - begun > 0.5, "`silence` after a reload")
    pair.nine.pmus = [9]
    pair.change("reloaded: 1 edit, 2 changes of connections and ports", ten="")
    pair.nine.come()
    moved = bench.source(9, host="127.0.0.11")
    pair.change("reloaded: 0 edits, 2 changes of connections and ports", nine=pmu(9, connect=moved.address))
    moved.come()
    expect(pair.nine.link.is_closed(3), "the connection to the old address")
    pair.nine = moved
    pair.second_is_served()
    pair.end()


def test_reload_sets_clock_ms(bench):
    """A changed `clock_ms` holds from the reload on, for its own source."""
    pair = Reloads(bench).begin()
    pair.change("reloaded: 0 edits, 2 changes of connections and ports", nine=pmu(9, connect=pair.nine.address, clock_ms=1000))
    pair.nine.come()
    pair.nine.measure(now_soc() * RATE, 1, seconds_off=-5)
    until(lambda: "ignored FarClock=1 " in pair.gateway.status()["source 9"], "FarClock=1 of source 9")
    same(pair.gateway.counters("pmustats 9"), {"taken": 0})
    taken = pair.gateway.counters("pmustats 7")["taken"]
    pair.seven.measure(now_soc() * RATE, 2, seconds_off=-5)
    until(lambda: pair.gateway.counters("pmustats 7")["taken"] == taken + 1, "data of source 7, which has no `clock_ms`")
    pair.end()


def test_an_edit_that_a_reload_can_not_do_is_reported(bench):
    """A line had done something else: that edit is reported in the answer and the log, and the others are done."""
    pair = Reloads(bench).begin()
    pair.gateway.does("revoke 20 9", "done 0 0")
    pair.change("subscriber 20: the grant of PMU 9/9 can't be revoked: the PMU is not granted to it (35 NotGranted)", "refused 35 NotGranted",
                "reloaded: 3 edits, 0 changes of connections and ports", twenty=subscriber(20, pair.ports[1], ring=16, grants=[7]),
                streams=stream(2000, [9], header="west"))
    pair.gateway.logs(r"WARN subscriber 20: the grant of PMU 9/9 can't be revoked: the PMU is not granted to it \(35 NotGranted\)")
    pair.change("reloaded: 4 edits, 0 changes of connections and ports", twenty=subscriber(20, pair.ports[1], ring=16, grants=[9]), streams=stream(2000, [9]))
    # Stream 2000 goes on behind each reload, by CFG-2.
    for _ in range(2):
        same(pair.second.frame()[1] >> 4, CONFIG_2)
    pair.second_is_served()
    pair.end()


def test_status_has_each_once_after_many_changes(bench):
    """`status` has each source, PMU, subscriber and stream once, whatever was asked of which thread before."""
    pair = Reloads(bench).begin()
    port = bench.port()
    pair.change("reloaded: 0 edits, 2 changes of connections and ports", twenty=subscriber(20, port, ring=16, grants=[9]))
    moved = bench.source(9)
    pair.change("reloaded: 0 edits, 2 changes of connections and ports", nine=pmu(9, connect=moved.address))
    moved.come()
    pair.gateway.does(f"listen 20 {pair.ports[1]}", "done 0 0")
    pair.gateway.does(f"dial 9 {pair.nine.address}", "done 0 0")
    pair.nine.come()
    same([" ".join(it.split()[:4 if it.startswith("stream") else 2]) for it in pair.gateway.answer("status")],
         ["source 7", "pmu 7/7", "source 9", "pmu 9/9", "subscriber 1", "subscriber 20", "stream 1 101 on", "stream 20 2000 off"])
    pair.end()


def test_keys_that_need_a_restart_are_reported(bench):
    """A change of `tick_ms`, `ingest`, `serve`, `control`, `status` or `name` is reported by a reload, which does the rest."""
    pair = Reloads(bench).begin()
    pair.more = f'tick_ms = 20\ncontrol = "{bench.folder}/c"\nstatus = "127.0.0.1:{bench.port()}"\nname = "other"\n'
    answer = sorted(f"{key}: takes effect at the next restart" for key in ("tick_ms", "ingest", "serve", "control", "status", "name"))
    pair.gateway.write(pair.more + "".join(pair.tables.values()))
    came = pair.gateway.ask("reload", 7)
    same((sorted(came[:6]), came[6]), (answer, "reloaded: 0 edits, 0 changes of connections and ports"))
    pair.first_is_served()
    pair.end()


@takes(3)
def test_reload_sets_the_level_of_the_log(bench):
    """A changed `log` takes effect at once: lines below the level are not logged, and are again once the key is gone."""
    pair = Reloads(bench).begin()
    pair.gateway.logs("subscriber 20: connected from.*")
    pair.more = 'log = "warn"\n' + pair.more
    pair.change("reloaded: 0 edits, 0 changes of connections and ports")
    time.sleep(0.3)
    pair.second.close()
    for _ in range(2):
        again = bench.subscriber(pair.ports[1])
        again.start(2000)
        expect(bench.subscriber(pair.ports[1]).is_closed(3), "a second connection")
        again.close()
    pair.gateway.logs(r"WARN subscriber 20: connection refused from \S+: \S+ is connected already \(34 Busy\)")
    # (a line that is logged again is held back for a second)
    time.sleep(1.5)
    same(pair.gateway.logged("subscriber 20: connected from.*"), 1)
    pair.more = pair.more.replace('log = "warn"\n', "")
    pair.change("reloaded: 0 edits, 0 changes of connections and ports")
    bench.subscriber(pair.ports[1])
    pair.gateway.logs("INFO subscriber 20: connected from.*", 2)
    pair.end()


class Crowded(Swap):
    """A swap beside 40 subscribers without a port, each of which is granted 20 PMUs that no source has; which ones, each reload changes. So there
    is time between the edits of one reload."""
    turn = 0

    def text(self, grants, streams=None):
        low = 1000 + 20 * (self.turn % 2)
        crowd = "".join(pmu(it, source=900) for it in range(1000, 1040))
        crowd += "".join(subscriber(200 + it, grants=[f"900/{low + at}" for at in range(20)]) for it in range(40))
        return super().text(grants, streams) + crowd


@takes(14)
def test_reload_that_swaps_grants_and_changes_the_same_stream(bench):
    """Twenty reloads, each of which swaps a grant for one of an equally long block and changes `wait` of the stream: the stream is removed before any grant
    changes, and so no frame is misread, before the subscriber is disconnected or has its CFG-2."""
    swap = Crowded(bench, [7])
    for turn in range(1, 21):
        swap.turn, number = turn, (7, 20)[turn % 2]
        swap.reload([number], stream(101, [7, 20, 21, 8], rate=SWAP_RATE, wait=30 + turn % 2, window=20))
        swap.reader.reads(101, [number], 3)
    swap.end(closed=swap.reader.count("closed"))


def test_the_order_of_a_reload(bench):
    """The log has the edits of a reload in their order: the stream is removed, then grants change, then the stream is defined."""
    swap = Swap(bench, [7])
    swap.reload([20], stream(101, [7, 20, 21, 8], rate=SWAP_RATE, wait=29, window=20))
    wanted = ["stream 101 is removed", "the grant of PMU 7/7 is revoked", "PMU 20/20 is granted", "stream 101 is defined"]
    swap.gateway.logs("subscriber 1: stream 101 is defined")
    same([it.split("subscriber 1: ")[1] for it in swap.gateway.log.lines if it.endswith(tuple(wanted))], wanted, "what the log says of the edits")
    swap.reader.reads(101, [20])
    swap.end(closed=swap.reader.count("closed"))


@takes(3)
def test_reload_that_swaps_grants_and_removes_the_stream(bench):
    """The same where the stream is gone from the file: its subscriber is disconnected, and got no frame of the new grants."""
    swap = Crowded(bench, [7], again=False)
    swap.turn = 1
    swap.reload([20], stream(102, [20], **WAIT))
    until(lambda: swap.reader.count("closed") == 1, "a stream that is on is gone", 5)
    swap.end(closed=1)


class Taken(Reloads):
    """Somebody else has bound the port of subscriber 3, which a reload adds."""

    def __init__(self, bench):
        super().__init__(bench)
        self.begin()
        self.holder = bench.listener()
        self.port = self.holder.getsockname()[1]
        self.tables["third"] = subscriber(3, self.port, ring=16, grants=[9]) + stream(300, [9])
        self.is_taken()

    def reloads(self):
        answer = self.gateway.reloads(self.more + "".join(self.tables.values()))
        self.first_is_served()
        return answer

    def is_taken(self):
        answer = self.reloads()
        same(answer[:2], [f"subscriber 3: port 0.0.0.0:{self.port}: address in use", "refused 39 ReadFault"], "the answer to `reload`")
        same(self.gateway.logged("subscriber 3: may connect.*"), 0)

    def is_open(self):
        client = self.bench.subscriber(self.port)
        client.start(300)
        slot, number = next(self.slots())
        self.nine.measure(slot, number)
        client.comes(stream_frame(300, slot, number))
        self.second.comes(stream_frame(2000, slot, number))
        self.end()


def test_a_reload_tries_a_port_again(bench):
    """A port that is taken is tried again by each reload, also of the same file; once it is free the next reload opens it."""
    taken = Taken(bench)
    same(taken.reloads(), ["reloaded: 0 edits, 0 changes of connections and ports"], "the answer to `reload`")
    same(taken.gateway.logged("subscriber 3: may connect.*"), 0)
    taken.holder.close()
    same(taken.reloads(), ["reloaded: 0 edits, 0 changes of connections and ports"], "the answer to `reload`")
    taken.gateway.logs(rf"subscriber 3: may connect at 0\.0\.0\.0:{taken.port}")
    taken.is_open()
    same(taken.gateway.logged("WARN subscriber 3: its port can't be bound: address in use; retrying every 30 s"), 1)


@takes(36)
def test_a_port_is_tried_again_by_itself(bench):
    """A port that is taken is tried each 30 seconds: it is opened without a reload once it is free."""
    taken = Taken(bench)
    begun = time.monotonic()

    def is_opened():
        # (a source that sends nothing for seconds is asked again)
        time.sleep(0.5)
        taken.slot = max(taken.slot, now_soc() * RATE)
        taken.first_is_served()
        taken.second_is_served()
        if time.monotonic() > begun + 22:
            taken.holder.close()
        return taken.gateway.logged("subscriber 3: may connect.*")

    until(is_opened, "the port is opened", 36)
    expect(time.monotonic() > begun + 20, "the port was opened while somebody else had it")
    taken.is_open()


class Beside:
    """A pair with a control socket and a page, and all that goes on beside a reload that client `asking` asks for."""

    def __init__(self, bench):
        self.page = bench.port()
        self.pair, path = controlled(bench, more=f'status = "127.0.0.1:{self.page}"\n')
        self.gateway = self.pair.run()
        self.pair.start()
        self.asking, self.other = Client(bench, path), Client(bench, path)
        self.other.send(b"status\nend\n")
        self.status_comes()

    def status_comes(self):
        answer = bytearray()
        while not answer.endswith(b"end\n"):
            answer += self.other.socket.recv(1 << 16)
        expect(answer.startswith(b"source 7 "), bytes(answer))

    def says(self, line, answer):
        self.other.send(line)
        self.other.gets(answer)

    def goes_on(self, seconds, *more):
        """For so many seconds each is served within half a second: lines of another client, the page, the metrics, both streams and `more`."""
        works = (lambda: self.says(b"pmustats 77\n", b"refused 23 NoSuchPmu\n"), lambda: (self.other.send(b"status\nend\n"), self.status_comes()),
                 lambda: same(http(self.page, "/")[0][:15], "HTTP/1.1 200 OK"), lambda: metrics(self.page),
                 self.pair.first_is_served, self.pair.second_is_served, *more)
        end, turns = time.monotonic() + seconds, 0
        while time.monotonic() < end:
            for at, work in enumerate(works):
                begun = time.monotonic()
                work()
                took = time.monotonic() - begun
                expect(took < 0.5, f"amid a reload number {at} of what goes on took {took:.2f} s")
            turns += 1
            time.sleep(0.02)
        expect(turns > 5, f"{turns} turns in {seconds} s")

    def is_unanswered(self):
        self.asking.socket.settimeout(0.01)
        try:
            same(self.asking.socket.recv(100), None, "the answer to a reload that is not done")
        except socket.timeout:
            pass
        self.asking.socket.settimeout(15)


@takes(3)
def test_a_reload_keeps_nothing_waiting(bench):
    """While a reload waits two seconds for the text of its file, all else is served; then it is answered, and the line behind it. A second client's
    reload comes behind it."""
    beside = Beside(bench)
    file, text = beside.gateway.file, beside.pair.text.encode()
    os.remove(file)
    os.mkfifo(file)
    beside.asking.send(b"reload\npmustats 77\n")
    beside.goes_on(2)
    beside.is_unanswered()
    # Nobody reads the pipe unless the reload does.
    pipe = os.open(file, os.O_WRONLY | os.O_NONBLOCK)
    os.remove(file)
    beside.gateway.write(beside.pair.text + pmu(8))
    beside.other.send(b"reload\nstatus\nend\n")
    os.write(pipe, text)
    os.close(pipe)
    beside.asking.gets(b"reloaded: 0 edits, 0 changes of connections and ports\nrefused 23 NoSuchPmu\n")
    beside.other.gets(b"reloaded: 1 edit, 0 changes of connections and ports\nsource 7 ")
    beside.gateway.quit()


@takes(3)
def test_a_reload_of_a_large_file_keeps_nothing_waiting(bench):
    """All else is served while a reload reads a file of 100,000 tables with a mistake each, whose client sends no more."""
    beside = Beside(bench)
    beside.gateway.write(beside.pair.text + "[[pmu]]\nid = 0\n" * 100_000)
    beside.asking.send(b"reload")
    beside.asking.socket.shutdown(socket.SHUT_WR)
    beside.goes_on(0.5)
    lines = read_all(beside.asking.socket).decode().splitlines()
    same((len(lines), lines[100].split(": ")[1], lines[101]), (102, "99900 more mistakes", "refused 37 BadSetup"))
    beside.gateway.quit()


@takes(4)
def test_quit_amid_a_reload(bench):
    """A reload tries five ports that are taken, a second each. All else is served meanwhile, also a line that reads the setup in force; `quit` ends
    the program within two seconds."""
    beside, more = Beside(bench), []
    for at in range(5):
        more.append(subscriber(30 + at, bench.listener().getsockname()[1], ring=16))
    beside.gateway.write(beside.pair.text + pmu(8) + "".join(more))
    beside.asking.send(b"reload\n")
    beside.gateway.logs("subscriber 34: added")
    beside.goes_on(1.2, lambda: beside.says(b"dial 8 127.0.0.3:9\nundial 8\n", b"done 0 0\ndone 0 0\n"))
    beside.is_unanswered()
    begun = time.monotonic()
    beside.other.send(b"quit\n")
    same(beside.gateway.ended(), 0)
    took = time.monotonic() - begun
    expect(took < 2, f"the program ended {took:.2f} s after `quit`")
