"""A gateway behind a gateway, as docs/SCALING.md has it: the second one's subscriber gets the data of the first one's source."""
from c37118 import configuration
from peers import RATE, expect, now_soc, pmu, same, stream, stream_frame, subscriber, takes, until


class Chain:
    """The setups of two gateways: the first calls source 7, and its subscriber 1 has stream 101; the second calls the first one's port for
    source 101, and its subscriber 30 has stream 300 of PMU 101/7."""

    def __init__(self, bench):
        self.bench, self.seven = bench, bench.source(7)
        self.between, self.port = bench.port(), bench.port()
        self.texts = {"first": pmu(7, connect=self.seven.address) + subscriber(1, self.between, grants=[7]) + stream(101, [7]),
                      "second": pmu(7, source=101, connect=f"127.0.0.1:{self.between}", silence=1)
                      + subscriber(30, self.port, grants=["101/7"]) + stream(300, ["101/7"])}
        self.numbers = {"first": 1, "second": 30}

    def start(self, name):
        return self.bench.gateway(self.texts[name], name).serves(self.numbers[name])

    def comes_through(self, first, second):
        """Frames of source 7 come to subscriber 30 byte for byte."""
        self.client = self.bench.subscriber(self.port)
        self.client.start(300)
        # (the stream between them is on once the second has asked for its data)
        first.logs("subscriber 1: started stream 101.*", 1, 40)
        second.line("source 101: announced its configuration, DATA_RATE 30, PMUs 7$")
        got = self.client.start(300)
        same(got, configuration(300, [7], RATE, soc=int.from_bytes(got[6:10], "big"), count=1, frac=0x0F000000))
        slot = now_soc() * RATE
        for at in range(30):
            self.seven.measure(slot + at, at)
            # (where the stream was on before source 101 announced, CFG-2 comes unasked too)
            same(self.client.data().hex(), stream_frame(300, slot + at, at).hex(), "another frame came")


def test_chain_whose_first_is_started_first(bench):
    chain = Chain(bench)
    first = chain.start("first")
    chain.seven.come()
    second = chain.start("second")
    chain.comes_through(first, second)
    second.quit()
    first.logs("subscriber 1: the connection ended: closed by the other side")
    first.quit()


@takes(3)
def test_chain_whose_second_is_started_first(bench):
    """The second calls until the first is there."""
    chain = Chain(bench)
    second = chain.start("second")
    second.logs("source 101: can't connect to .*: connection refused; retrying")
    first = chain.start("first")
    chain.seven.come()
    chain.comes_through(first, second)
    first.quit()
    second.quit()


@takes(4)
def test_chain_whose_first_has_no_configuration_yet(bench):
    """The first's CFG-2 lists no PMU, which the second refuses; it asks again, connects again after `silence`, and gets data all the same."""
    chain = Chain(bench)
    first, second = chain.start("first"), chain.start("second")
    second.logs("WARN source 101: no data for the time that `silence` allows; connecting again")
    second.logs(r"WARN source 101: frames are ignored: 14 BadCounts.*")
    same(second.logged("source 101: announced.*"), 0)
    first.logs("subscriber 1: the connection ended: closed by the other side")
    chain.seven.come()
    chain.comes_through(first, second)
    first.quit()
    second.quit()


@takes(4)
def test_chain_whose_first_is_started_again(bench):
    """Where the first ends and comes back the second goes on with its subscriber's connection."""
    chain = Chain(bench)
    first = chain.start("first")
    chain.seven.come()
    second = chain.start("second")
    chain.comes_through(first, second)
    first.quit()
    second.logs("WARN source 101: connection lost: closed by the other side; connecting again")
    first = chain.bench.gateway(chain.texts["first"], "again").serves(1)
    chain.seven.come()
    first.logs("subscriber 1: started stream 101.*", 1, 40)
    slot = (now_soc() + 5) * RATE
    for at in range(5):
        chain.seven.measure(slot + at, at)
        chain.client.comes(stream_frame(300, slot + at, at))
    expect(until(lambda: second.logged("source 101: announced.*") == 2, "it announced again"), "")
    first.quit()
    second.quit()
