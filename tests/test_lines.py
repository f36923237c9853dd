"""Operator's lines on standard input: what each does to sources, ports and streams, and how the program ends."""
import time

from c37118 import data_of, stamp
from peers import RATE, Pair, expect, filler, is_refused, now_soc, number_block, pmu, same, stream, subscriber, takes, until


def test_lines_are_answered_in_their_order(bench):
    """Lines that come in one write, and in two pieces, are answered each, in order; empty lines and comments are not."""
    pair = Pair(bench)
    gateway = pair.run()
    gateway.process.stdin.write(b"addpmu 8\n\n# a comment\npmustats 8\ngrant 1 8\nstats 20\nnonsense\nrevo")
    gateway.process.stdin.flush()
    same(gateway.lines(5), ["done 0 0", "pmustats taken 0", "done 0 0",
                            "stats made 0 dropped 0 lost 0 late 0 twice 0 cleared 0 handed 0 replies 0", "refused 36 BadLine"])
    gateway.process.stdin.write(b"ke 1 8\n")
    gateway.process.stdin.flush()
    same(gateway.lines(1), ["done 0 0"])
    gateway.does("revoke 1 8", "refused 35 NotGranted")
    gateway.quit()


@takes(3)
def test_an_edit_that_makes_frames_hands_them_out_at_once(bench):
    """A frame that `revoke` completes is handed out at once, though ticks are a second apart."""
    seven, eight, ports = bench.source(7), bench.source(8), (bench.port(), bench.port())
    text = "tick_ms = 1000\nserve = 2\n" + pmu(7, connect=seven.address) + pmu(8, connect=eight.address)
    text += subscriber(1, ports[0], grants=[8]) + stream(101, [8])
    text += subscriber(20, ports[1], grants=[7, 8], change="keep") + stream(2000, [7, 8], wait=60)
    gateway = bench.gateway(text).serves(1, 20)
    eight.come()
    seven.come()
    gateway.line("source 7: announced")
    gateway.line("source 8: announced")
    client = bench.subscriber(ports[1])
    client.start(2000)
    for at in range(6):
        slot = now_soc() * RATE + at
        seven.measure(slot, at + 1)
        until(lambda: gateway.counters("pmustats 7")["taken"] == at + 1, "the data of PMU 7")
        begun = time.monotonic()
        gateway.does("revoke 20 8", "done 1 1")
        client.comes(data_of(2000, *stamp(slot, RATE), [number_block(at + 1), filler()]))
        took = time.monotonic() - begun
        expect(took < 0.5, f"the frame came after {took:.2f} s")
        gateway.does("grant 20 8", "done 0 0")
        time.sleep(0.17)
    gateway.quit()


def test_lines_steer_sources_and_ports(bench):
    """`disconnect`, `listen`, `unlisten`, `dial` and `undial` do what they say to the one that they name, while a neighbour is served."""
    pair = Pair(bench)
    gateway = pair.run()
    pair.start()

    def does(line):
        gateway.does(line, "done 0 0")
        pair.first_is_served()

    does("disconnect 20")
    expect(pair.second.is_closed(3), "`disconnect 20` leaves the connection")
    gateway.logs("INFO subscriber 20: disconnected by a command")
    again = bench.subscriber(pair.ports[1])
    again.start(2000)
    port = bench.port()
    does(f"listen 20 {port} 127.0.0.1")
    expect(again.is_closed(3) and is_refused(pair.ports[1]), "`listen` closes the port that was open")
    gateway.logs(f"subscriber 20: may connect at 127.0.0.1:{port}")
    pair.second = bench.subscriber(port)
    pair.second.start(2000)
    pair.second_is_served()
    does("unlisten 20")
    expect(pair.second.is_closed(3) and is_refused(port), "`unlisten` closes the port and the connection")
    gateway.logs("INFO subscriber 20: its port is closed", 2)
    moved = bench.source(9, host="127.0.0.8")
    does(f"dial 9 {moved.address}")
    moved.come()
    expect(pair.nine.link.is_closed(3), "`dial` closes the connection to the old address")
    does("undial 9")
    expect(moved.link.is_closed(3) and not moved.is_called(1.2), "`undial` closes the connection, and makes no other")
    same(gateway.logged("subscriber 1: (disconnected|its port).*"), 0)
    gateway.quit()


def test_lines_about_sources_and_ports_are_read(bench):
    """Each line does what it says, with one space between its words or several, at the ends of the ranges of its numbers."""
    gateway = bench.gateway(pmu(7) + subscriber(65535))
    port, said = bench.port(), "INFO subscriber 65535: "
    for line, log, times in (("dial 7 127.0.0.255:4712", r"INFO source 7: connecting to 127\.0\.0\.255:4712", 1),
                             ("  undial   7 ", "INFO source 7: no longer connected, and not connecting again", 1),
                             (f"listen 65535 {port}", rf"{said}may connect at 0\.0\.0\.0:{port}", 1),
                             ("listen 65535 65535 127.0.0.1", rf"{said}may connect at 127\.0\.0\.1:65535", 1),
                             ("unlisten 65535", f"{said}its port is closed", 2),
                             ("disconnect 65535", f"{said}its port is closed", 2)):
        gateway.does(line, "done 0 0")
        gateway.logs(log, times)
    gateway.quit()


def test_lines_of_another_form_are_refused(bench):
    """Lines about sources and ports with a word too few or too many, with numbers beyond their ranges, or with a name: none is a line."""
    gateway = bench.gateway(pmu(7) + subscriber(1))
    same(gateway.answer(""), [])
    for line in ("dial", "dial 7", "dial 7 10.0.0.1", "dial 7 10.0.0.1:0", "dial 7 10.0.0.256:4712", "dial 7 pmu7.example.org:4712",
                 "dial 65535 10.0.0.1:4712", "dial 7 10.0.0.1:4712 8", "undial 0", "listen 1", "listen 1 0", "listen 1 65536", "listen 1 04800",
                 "listen 1 4800 localhost", "unlisten", "disconnect 1 2", "Disconnect 1"):
        gateway.does(line, "refused 36 BadLine")
    # This line is another one: it registers a PMU.
    gateway.does("addpmu 7", "refused 24 PmuExists")
    gateway.quit()


def test_lines_that_are_refused(bench):
    """Lines about what is not there, of another form, or about a port that is taken: each is answered by its reason, and changes nothing."""
    pair = Pair(bench)
    gateway = pair.run()
    pair.start()
    for line, answer in (("dial 77 127.0.0.1:4712", ["refused 23 NoSuchPmu"]), ("dial 9 300.0.0.1:4712", ["refused 36 BadLine"]),
                         ("listen 99 4800", ["refused 26 NoSuchSub"]), ("addpmu 7", ["refused 24 PmuExists"]),
                         ("grant 1 77", ["refused 23 NoSuchPmu"]),
                         (f"listen 20 {pair.ports[0]} 127.0.0.1",
                          [f"subscriber 20: port 127.0.0.1:{pair.ports[0]}: address in use", "refused 39 ReadFault"])):
        gateway.does(line, *answer)
        pair.first_is_served()
        pair.second_is_served()
    gateway.quit()


def test_a_subscriber_is_dropped_and_added_by_lines(bench):
    """`dropsub` ends the connection; the port stays and refuses until `addsub`. Grants and streams by lines are served then."""
    pair = Pair(bench)
    gateway = pair.run()
    pair.start()
    gateway.does("dropsub 20", "done 0 0")
    expect(pair.second.is_closed(3), "`dropsub` leaves the connection")
    pair.first_is_served()
    refused = bench.subscriber(pair.ports[1])
    expect(refused.is_closed(3), "a dropped subscriber is let in")
    gateway.logs("WARN subscriber 20: connection refused: 26 NoSuchSub")
    for line in ("addsub 20 32", "grant 20 9", "define 20 2222 15 1000000 1 4 none 9"):
        gateway.does(line, "done 0 0")
    pair.second = bench.subscriber(pair.ports[1])
    pair.second.start(2222)
    slot = now_soc() * RATE
    pair.nine.measure(slot, 1)
    pair.second.comes(data_of(2222, *stamp(slot // 2, 15), [number_block(1)]))
    pair.first_is_served()
    gateway.quit()


def test_a_revoked_pmu_is_handed_out_no_more(bench):
    """`revoke` and `grant` decide what one subscriber gets, and nobody else."""
    pair = Pair(bench, second={"change": "keep"})
    gateway = pair.run()
    pair.start()
    pair.second_is_served()
    gateway.does("revoke 20 9", "done 0 0")
    slot, number = next(pair.slots())
    pair.nine.measure(slot, number)
    expect(pair.second.is_quiet(0.3), "PMU 9 was revoked, and a frame came")
    pair.first_is_served()
    gateway.does("grant 20 9", "done 0 0")
    pair.second.start(2000)
    pair.second_is_served()
    gateway.quit()


def test_quit_ends_the_program_at_once(bench):
    """`quit` on standard input ends all workers and connections well below a second, with status 0."""
    pair = Pair(bench, more="ingest = 2\nserve = 2\n")
    gateway = pair.run()
    first, second = pair.start()
    # (workers that wait for nothing else look up once a second)
    time.sleep(1.2)
    begun = time.monotonic()
    gateway.quit()
    took = time.monotonic() - begun
    expect(took < 0.5, f"the program ended {took:.2f} s after `quit`")
    expect(first.is_closed(1) and second.is_closed(1) and pair.seven.link.is_closed(1), "connections end with the program")


def test_the_end_of_standard_input_ends_nothing(bench):
    """Where standard input ends the service goes on; `quit` at the control socket ends it."""
    pair = Pair(bench)
    pair.text = f'control = "{bench.folder}/setup.control"\n' + pair.text
    gateway = pair.run()
    pair.start()
    gateway.process.stdin.close()
    time.sleep(0.7)
    pair.first_is_served()
    pair.second_is_served()
    same(gateway.ctl("quit"), (0, "", ""))
    same(gateway.ended(3), 0)


def test_closed_standard_output_ends_nothing(bench):
    """Where answers can't be written that is logged, and the service goes on."""
    pair = Pair(bench)
    pair.text = f'control = "{bench.folder}/setup.control"\n' + pair.text
    gateway = pair.run(gathers=False)
    pair.start()
    gateway.process.stdout.close()
    gateway.say("stats 1")
    gateway.logs("WARN a command can't be read, or its answer can't be written.*")
    pair.first_is_served()
    same(gateway.ctl("stats 99")[:2], (1, "refused 26 NoSuchSub\n"))
    same(gateway.ctl("quit"), (0, "", ""))
    same(gateway.ended(3), 0)
