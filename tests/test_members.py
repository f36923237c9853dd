"""Which members of a stream were missing or late, which its frames do not carry and why, and why its frames left: in `status`, the metrics and the state."""
import json
import time

from peers import RATE, expect, http, metrics, pmu, same, stream, subscriber, until


class Members:
    """A stream 101 of the PMUs 7 and 9 that waits a second, with a window of four slots, and the PMUs of a source each."""

    def __init__(self, bench):
        self.page, port = bench.port(), bench.port()
        self.seven, self.nine = bench.source(7), bench.source(9, host="127.0.0.2")
        text = f'status = "127.0.0.1:{self.page}"\n' + pmu(7, connect=self.seven.address) + pmu(9, connect=self.nine.address)
        self.gateway = bench.gateway(text + subscriber(1, port, grants=[7, 9]) + stream(101, [7, 9], wait=100)).serves(1)
        self.seven.come()
        self.nine.come()
        self.gateway.logs("source (7|9): announced.*", 2)
        self.client = bench.subscriber(port)
        self.client.start(101)
        self.slot = int((time.time() - 1) * RATE)

    def lines(self):
        """The lines of `status` from that of the stream on."""
        lines = self.gateway.answer("status")
        return lines[next(i for i, line in enumerate(lines) if line.startswith("stream ")):]

    def shows(self, *lines):
        until(lambda: self.lines() == list(lines), f"{lines} and not {self.lines()}")


def test_members_and_causes(bench):
    """A frame that is complete, one that waited, one that is pushed out, and four that leave before a change; PMU 9 is missing in six, and late once."""
    it = Members(bench)
    it.shows("stream 1 101 on members 2/2 complete 0 waited 0 pushed 0 changed 0")
    it.seven.measure(it.slot, 1)
    it.nine.measure(it.slot, 2)
    it.shows("stream 1 101 on members 2/2 complete 1 waited 0 pushed 0 changed 0")
    it.seven.measure(it.slot + 1, 3)
    it.shows("stream 1 101 on members 2/2 complete 1 waited 1 pushed 0 changed 0", "missing 9/9 1 late 0")
    it.nine.measure(it.slot + 1, 4)
    it.shows("stream 1 101 on members 2/2 complete 1 waited 1 pushed 0 changed 0", "missing 9/9 1 late 1")
    it.seven.link.send(b"".join(it.seven.data(it.slot + 2 + more, 5) for more in range(5)))
    until(lambda: " made 3 " in it.gateway.status()["subscriber 1"], "a frame that is pushed out")
    it.gateway.ask("revoke 1 9")
    it.shows("stream 1 101 on members 1/2 complete 1 waited 1 pushed 1 changed 4", "absent 9/9 not granted", "missing 9/9 6 late 1")
    # Its frames have no place for it any more.
    it.seven.measure(it.slot + 7, 6)
    it.shows("stream 1 101 on members 1/2 complete 2 waited 1 pushed 1 changed 4", "absent 9/9 not granted", "missing 9/9 6 late 1")
    labels = '{subscriber="1",stream="101",'
    # The page has the state of the last second.
    until(lambda: metrics(it.page)[f'pdcgw_stream_frames_total{labels}cause="complete"}}'] == "2", "the page's second")
    shown = metrics(it.page)
    for name, value in ((f'frames_total{labels}cause="wait"}}', 1), (f'frames_total{labels}cause="window"}}', 1), (f'frames_total{labels}cause="change"}}', 4),
                        (f'member_missing_frames_total{labels}member="9/9"}}', 6), (f'member_late_blocks_total{labels}member="9/9"}}', 1),
                        (f'member_missing_frames_total{labels}member="7/7"}}', 0), (f'absent_member{labels}member="9/9",reason="not granted"}}', 1)):
        same(shown[f"pdcgw_stream_{name}"], str(value), name)
    state = json.loads(http(it.page, "/state")[1])["streams"]
    same([(it["complete"], it["waited"], it["pushed"], it["changed"]) for it in state], [(2, 1, 1, 4)])
    same([(it["pmu"], it["missing"], it["late"], it["absent"]) for it in state[0]["pmus"]], [(7, 0, 0, None), (9, 6, 1, "not granted")])
    it.gateway.ask("droppmu 9")
    expect("absent 9/9 not registered" in it.lines(), str(it.lines()))
    it.gateway.ask("addpmu 9")
    it.gateway.ask("grant 1 9")
    expect("absent 9/9 not announced" in it.lines(), str(it.lines()))
    it.gateway.quit()
