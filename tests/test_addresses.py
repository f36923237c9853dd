"""Sources with several addresses: which one is called, and when; and how many frames of a stream have fillers meanwhile."""
import os
import time

from c37118 import SEND_CONFIG_2
from peers import RATE, Host, Pair, PassedBy, expect, pmu, same, slot_of, stream, subscriber, takes, until

# A call, a configuration and the first frame, in seconds.
CALL = 1.0


def with_backup(bench, **keys):
    """A pair whose source 9 has the address of another one behind its own, and that other one."""
    pair, backup = Pair(bench), bench.source(9, host="127.0.0.5")
    own = f'connect = "{pair.nine.address}"\n'
    expect(own in pair.text, "the table of source 9")
    more = "".join(f"{key} = {value}\n" for key, value in keys.items())
    pair.text = pair.text.replace(own, f'connect = ["{pair.nine.address}", "{backup.address}"]\n{more}')
    return pair, backup


def times_of(gateway, pattern):
    """The times of the lines of the log that have this pattern, in seconds."""
    lines = [it for it in list(gateway.log.lines) if pattern in it]
    return [time.mktime(time.strptime(it[:19], "%Y-%m-%dT%H:%M:%S")) + float(it[19:].split("Z")[0]) for it in lines]


def test_the_next_address_is_called_at_once(bench):
    """The first address refuses: the second is called at once, `status` and the log say which one; source 7 is served."""
    pair, backup = with_backup(bench)
    first = pair.nine.address
    pair.nine.listener.close()
    begun = time.monotonic()
    gateway = bench.gateway(pair.text).serves(1, 20)
    backup.come()
    pair.seven.come()
    gateway.line("source 9: announced")
    expect(time.monotonic() - begun < 2, "no pause before the second address")
    gateway.logs(f"WARN source 9: can't connect to {first}: connection refused; retrying")
    gateway.logs(f"source 9: connecting to {backup.address}")
    expect(gateway.status()["source 9"].startswith(f"source 9 {backup.address} connected "), "`status` has the second address")
    pair.nine = backup
    pair.start()
    pair.second_is_served()
    pair.first_is_served()
    expect(gateway.status()["source 9"].startswith(f"source 9 {backup.address} up "), "`status` has the second address")
    same(gateway.logged("source 7: connecting to .*"), 1)
    gateway.quit()


def test_a_connection_that_ended_goes_to_the_next(bench):
    """The first address ends its connection: the second is called at once. When that ends too, the first is called again, after the pause."""
    pair, backup = with_backup(bench)
    gateway = pair.run()
    pair.nine.link.close()
    begun = time.monotonic()
    backup.come()
    expect(time.monotonic() - begun < 0.8, "no pause before the second address")
    backup.link.close()
    begun = time.monotonic()
    pair.nine.come(3)
    took = time.monotonic() - begun
    expect(0.8 <= took <= 2, f"a pause of 1 s before the first address again took {took:.2f} s")
    gateway.logs("source 9: connecting to .*", 3)
    same(gateway.logged("source 7: connecting to .*"), 1)
    gateway.quit()


@takes(9)
def test_the_pause_comes_when_all_were_tried(bench):
    """Both addresses refuse: each is called in turn, and pauses of 1, 2 and 4 seconds come behind the second."""
    pair, backup = with_backup(bench)
    first = pair.nine.address
    pair.nine.listener.close()
    backup.listener.close()
    gateway = bench.gateway(pair.text).serves(1, 20)
    until(lambda: len(times_of(gateway, "source 9: can't connect to ")) >= 2, "both addresses refuse")
    until(lambda: " pause " in gateway.status()["source 9"], "a pause")
    until(lambda: len([it for it in list(gateway.log.lines) if "source 9: connecting to" in it]) >= 6, "six calls", 10)
    lines = [it for it in list(gateway.log.lines) if "source 9: connecting to" in it]
    same([it.split(" connecting to ")[1].split(" ")[0] for it in lines[:2]], [first, backup.address], "the first calls")
    same(gateway.logged("source 7: can't connect.*"), 0)
    gateway.quit()


def test_silence_goes_to_the_next(bench):
    """`silence = 1`: the first address is connected and sends nothing; then the second is called at once."""
    pair, backup = with_backup(bench, silence=1)
    gateway = pair.run()
    begun = time.monotonic()
    backup.come(4)
    took = time.monotonic() - begun
    expect(0.5 <= took <= 2, f"`silence` of source 9 is 1, and it took {took:.1f} s")
    gateway.logs("WARN source 9: no data for the time that `silence` allows; connecting again")
    pair.nine = backup
    pair.start()
    pair.second_is_served()
    pair.first_is_served()
    gateway.quit()


class Both:
    """Live source 7 at two addresses, the first one made by `first`; source 9 is another. Subscriber 1 reads stream 101 of PMUs 7 and 9."""

    def __init__(self, bench, first=None, **keys):
        self.one = first() if first else bench.live(7, host="127.0.0.3")
        self.other, self.nine, port = bench.live(7, host="127.0.0.4"), bench.live(9, host="127.0.0.2"), bench.port()
        text = pmu(7, connect=[self.one.address, self.other.address], silence=1, **keys) + pmu(9, connect=self.nine.address)
        text += subscriber(1, port, grants=[7, 9]) + stream(101, [7, 9], wait=20, window=16)
        self.gateway = bench.gateway(text).serves(1)
        self.gateway.line("source 7: announced")
        self.gateway.line("source 9: announced")
        self.reader = bench.reader(port, [101])
        self.reader.reads(101, [7, 9], 10)

    def is_at(self, source, seconds=10):
        """Waits until this address of source 7 is connected and sends data."""
        until(lambda: self.gateway.status()["source 7"].startswith(f"source 7 {source.address} up "), f"source 7 at {source.address}", seconds)

    def fails_over(self, how, source, longest=1 + CALL, seconds=10):
        """What happens by this leads to this address, with no more fillers than so many seconds have slots, and no slot without a frame."""
        begun = len(self.reader.came)
        how()
        self.is_at(source, seconds)
        self.reader.reads(101, [7, 9], 10)
        frames = [it for it in list(self.reader.came)[begun:] if it.what in ("right", "filled")]
        slots = [slot_of(it.bytes, RATE) for it in frames]
        same(slots, list(range(slots[0], slots[0] + len(slots))), "each slot has a frame")
        filled = sum(it.what == "filled" for it in frames)
        expect(filled <= longest * RATE, f"{filled} fillers")
        same([it.what for it in self.reader.came if it.what not in ("right", "filled", "configuration", "connected")], [], "frames that are not right")


@takes(8)
def test_fail_over_of_a_source_that_ends_or_freezes(bench):
    """The first address is killed, and comes back; then the second freezes: fillers for a call, and for `silence` and a call."""
    both = Both(bench)

    def dies():
        both.one.listener.close()
        both.one.restarts()

    both.fails_over(dies, both.other, CALL)
    number = int(both.one.address.split(":")[1])
    again = bench.live(7, host="127.0.0.3", port=number)

    def freezes():
        both.other.is_mute = True

    both.fails_over(freezes, again)
    both.gateway.quit()


@takes(10)
def test_fail_over_of_a_source_that_is_cut_off(bench):
    """The host of the first address loses its network: the second is called after `silence`."""
    Host.enter_own_network()
    host = Host(3)
    both = Both(bench, lambda: host.within(lambda: bench.live(7, host=host.inner)))
    both.fails_over(host.loses_power, both.other)
    both.gateway.quit()


@takes(125)
def test_the_first_address_is_gone_back_to(bench):
    """`prefer_first`: once the first address answers again, it is connected beside the second, and used within a minute of its first trial; the
    log says so. Without an answer the log says that too, and the second stays."""
    both = Both(bench, prefer_first=True)

    def dies():
        both.one.listener.close()
        both.one.restarts()

    both.fails_over(dies, both.other, CALL)
    both.gateway.logs(f"WARN source 7: can't go back to {both.one.address}: connection refused; retrying in 60 s", 1, 65)
    both.is_at(both.other)
    host, number = both.one.address.split(":")
    begun = len(both.reader.came)
    again = bench.live(7, host=host, port=int(number))
    both.fails_over(lambda: both.gateway.logs(f"source 7: the first address answers again, and is used from now on: {again.address}", 1, 65), again, CALL)
    both.reader.reads(101, [7, 9], 10)
    expect(both.other.link.is_closed(2), "the connection to the second address is closed")
    same([it.what for it in both.reader.came[begun:] if it.what == "closed"], [], "the subscriber stays connected")
    both.gateway.quit()


@takes(75)
def test_a_first_address_that_is_mute_is_not_used(bench):
    """`prefer_first`: the first address is connected again and sends no configuration: the second stays, and the log says why."""
    both = Both(bench, prefer_first=True)
    host, number = both.one.address.split(":")

    def dies():
        both.one.listener.close()
        both.one.restarts()

    both.fails_over(dies, both.other, CALL)
    mute = bench.source(7, host=host, port=int(number))
    begun = len(both.reader.came)
    mute.accept(65)
    mute.is_asked(SEND_CONFIG_2)
    both.gateway.logs("WARN source 7: can't go back: the first address sent no configuration within 10 s; retrying in 60 s", 1, 15)
    expect(mute.link.is_closed(2), "the connection to the first address is closed")
    both.is_at(both.other)
    same([it.what for it in both.reader.came[begun:] if it.what != "right"], [], "frames that are not right")
    both.gateway.quit()


@takes(4)
def test_the_second_name_is_called(bench):
    """The first name has no address: the second is looked up and called at once."""
    pair = Pair(bench)
    name = pair.nine.address.replace("127.0.0.2", "localhost")
    number = int(pair.nine.address.split(":")[1])
    local = bench.source(9, port=number)
    text = pair.text.replace(f'"{pair.nine.address}"', f'["no-such-host.invalid:4712", "{name}"]')
    gateway = bench.gateway(text).serves(1, 20)
    local.come(4)
    gateway.line("source 9: announced")
    expect(gateway.status()["source 9"].startswith(f"source 9 {name} connected "), "`status` has the second name")
    gateway.quit()


def test_a_list_is_reloaded(bench):
    """`reload`: the same list leaves the connection alone; another order, or another `prefer_first`, has the source called anew."""
    pair, backup = with_backup(bench)
    gateway = pair.run()
    gateway.reload(pair.text, "reloaded: 0 edits, 0 changes of connections and ports")
    same(gateway.logged("source 9: connecting to .*"), 1)
    lists = f'["{pair.nine.address}", "{backup.address}"]', f'["{backup.address}", "{pair.nine.address}"]'
    other = pair.text.replace(*lists)
    gateway.reload(other, "reloaded: 0 edits, 2 changes of connections and ports")
    backup.come()
    preferred = other.replace(lists[1], lists[1] + "\nprefer_first = true")
    gateway.reload(preferred, "reloaded: 0 edits, 2 changes of connections and ports")
    backup.come()
    gateway.does(f"dial 9 {pair.nine.address}", "done 0 0")
    pair.nine.come()
    pair.nine.link.close()
    pair.nine.come(3)
    same(gateway.logged("source 7: connecting to .*"), 1)
    gateway.quit()


def test_all_addresses_of_a_name_are_called(bench):
    """A name with two addresses: the second is called where the first refuses, and `status` says which one."""
    pair = Pair(bench)
    number = int(pair.nine.address.split(":")[1])
    hosts = f"{bench.folder}/hosts"
    with open(hosts, "w") as f:
        f.write("127.0.0.1 localhost\n127.0.0.2 two.example\n127.0.0.5 two.example\n")
    backup = bench.source(9, host="127.0.0.5", port=number)
    pair.nine.listener.close()
    words = ("unshare", "--mount", "sh", "-c", f'mount --bind {hosts} /etc/hosts && exec "$@"', "sh")
    if os.system(f"unshare --mount mount --bind {hosts} /etc/hosts 2> /dev/null"):
        raise PassedBy("no mount namespace can be made")
    gateway = bench.gateway(pair.text.replace(pair.nine.address, f"two.example:{number}"), words=words).serves(1, 20)
    backup.come(10)
    pair.seven.come()
    gateway.line("source 9: announced")
    expect(gateway.status()["source 9"].startswith(f"source 9 {backup.address} connected "), "`status` has the address")
    pair.nine = backup
    pair.start()
    pair.second_is_served()
    pair.first_is_served()
    gateway.quit()
