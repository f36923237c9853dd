"""A reload that changes a stream that is on: it goes on behind CFG-2, or its subscriber is disconnected; no stream falls silent."""
from c37118 import CONFIG_2, DATA, SEND_CONFIG_2, STOP
from peers import Pair, expect, same, stream, subscriber


class Redefined(Pair):
    """The pair of sources, where subscriber 1 has stream 101 by these keys, and subscriber 20 its own streams."""

    def text_with(self, members, **keys):
        tables = list(self.tables)
        tables[2] = subscriber(1, self.ports[0], grants=[7, 9]) + stream(101, members, **keys)
        return "".join(tables)


def begun(bench, members=(7,)):
    pair = Redefined(bench)
    pair.text = pair.text_with(list(members))
    pair.run()
    pair.start()
    return pair


def neighbour_is_whole(pair):
    pair.second_is_served(3)
    same(pair.gateway.logged("subscriber 20: connected from .*"), 1, "connections of subscriber 20")


def test_a_stream_goes_on_behind_a_reload(bench):
    """`wait`, `window`, `header` and `base` of a stream that is on change by a reload, one after another: behind each its reader gets CFG-2 and
    then the next frames, over the same connection."""
    pair = begun(bench)
    pair.first_is_served(2)
    for keys in ({"wait": 3}, {"wait": 3, "window": 9}, {"wait": 3, "window": 9, "header": "north"}):
        pair.gateway.reload(pair.text_with([7], **keys), "reloaded: 2 edits, 0 changes of connections and ports")
        same(pair.first.frame()[1] >> 4, CONFIG_2, "the type of the next frame")
        pair.first_is_served(2)
    pair.gateway.logs("subscriber 1: started stream 101", 4)
    same(pair.gateway.logged("subscriber 1: connected from .*"), 1, "connections of subscriber 1")
    pair.gateway.logs("subscriber 1: stream 101 is defined", 3)
    neighbour_is_whole(pair)
    pair.gateway.quit()


def test_frames_made_before_a_reload_come_before_its_configuration(bench):
    """What waits for the reader by the old definition comes first, then CFG-2."""
    pair = begun(bench)
    slots = list(pair.slots(50))
    pair.seven.link.send(b"".join(pair.seven.data(slot, number) for slot, number in slots))
    pair.gateway.reload(pair.text_with([7], rate=15), "reloaded: 2 edits, 0 changes of connections and ports")
    kinds = []
    while CONFIG_2 not in kinds:
        kinds.append(pair.first.frame()[1] >> 4)
    same(set(kinds[:-1]) <= {DATA}, True, "only data come before CFG-2")
    pair.gateway.quit()


def test_other_members_disconnect_their_reader(bench):
    """Another member, another order, or the stream gone, by a reload: the reader of the stream is disconnected, and may connect again."""
    for members, after in (([7, 9], [9, 7]), ([7], [9])):
        pair = begun(bench, members)
        pair.gateway.write(pair.text_with(after))
        expect(pair.gateway.ask("reload")[0].startswith("reloaded: "), "the reload is answered")
        expect(pair.first.is_closed(3), f"members {members} become {after}, and the connection stays")
        pair.gateway.logs("subscriber 1: disconnected by a command")
        pair.first = bench.subscriber(pair.ports[0])
        pair.first.start(101)
        neighbour_is_whole(pair)
        pair.gateway.quit()
        pair.seven.close()
        pair.nine.close()


def test_a_stream_that_is_off_stays_off(bench):
    """A stream that its subscriber did not start, or stopped, is not started by a reload; nor is its subscriber disconnected, where it has other members."""
    pair = Redefined(bench)
    pair.text = pair.text_with([7])
    pair.run()
    pair.first = bench.subscriber(pair.ports[0])
    pair.gateway.logs(r"subscriber 1: connected from \S+")
    for wait in (5, 6):
        for members in ([9], [7]):
            pair.gateway.reload(pair.text_with(members, wait=wait), "reloaded: 2 edits, 0 changes of connections and ports")
        slot = next(pair.slots())[0]
        pair.seven.measure(slot, 1)
        expect(pair.first.is_quiet(0.5), "something came, or it was disconnected, and the stream is off")
        # (who starts a stream by an old CFG-2 is disconnected)
        pair.first.command(101, SEND_CONFIG_2)
        same(pair.first.frame()[1] >> 4, CONFIG_2)
        pair.first.start(101)
        pair.first_is_served(1)
        pair.first.command(101, STOP)
        pair.gateway.logs("subscriber 1: stopped stream 101", wait - 4)
    pair.gateway.quit()


def test_edits_are_logged(bench):
    """Each edit of a line or a reload is in the log, with what was asked for and what came of it."""
    pair = begun(bench)
    pair.gateway.does("revoke 1 9", "done 0 0")
    pair.gateway.does("grant 1 9", "done 0 0")
    pair.gateway.does("revoke 20 70", "refused 35 NotGranted")
    for line in ("INFO subscriber 1: the grant of PMU 9/9 is revoked", "INFO subscriber 1: PMU 9/9 is granted",
                 r"WARN subscriber 20: the grant of PMU 70/70 can't be revoked: the PMU is not granted to it \(35 NotGranted\)"):
        pair.gateway.logs(line)
    pair.gateway.quit()
