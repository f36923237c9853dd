"""`pdcgw simulate` and `pdcgw watch`: what they obey, send, check and print, against each other, a gateway and peers that do wrong."""
import random
import re
import signal
import socket
import struct
import subprocess
import threading
import time

from c37118 import (BASE, COMMAND, CONFIG_1, CONFIG_2, DATA, HEADER, SEND_CONFIG_1, SEND_CONFIG_2, SEND_HEADER, START, STOP, command, configuration, frame,
                    frames_in)
from peers import (PATIENCE, RATE, PassedBy, SetClock, Simulated, Subscriber, expect, pmu, read_all, same, slot_of, stream, subscriber, takes, until,
                   with_wrong_check)

COUNTED = re.compile(r"(\d+) frames, (\d+) missing, (\d+) fillers, (\d+) troubles \((\d+) CHK, (\d+) order, (\d+) misfit\)")


def begin_watch(bench, address, idcode, *words, behind=()):
    return subprocess.Popen([*behind, bench.program, "watch", address, "--stream", str(idcode), *words], cwd=bench.folder, stdin=subprocess.DEVNULL,
                            stdout=subprocess.PIPE, stderr=subprocess.PIPE)


def end_watch(process):
    """The status, output and errors of `watch`."""
    out, errors = process.communicate(timeout=PATIENCE)
    return process.returncode, out.decode(), errors.decode()


def watched(bench, source, *words, idcode=7):
    return end_watch(begin_watch(bench, source.address, idcode, *words))


def counted(text):
    """The counts of `watch`: frames, missing, fillers, troubles; CHK, order, misfit."""
    found = COUNTED.search(text)
    expect(found, f"no counts in {text[-500:]!r}")
    return tuple(map(int, found.groups()))


def is_asked(link, *words, idcode=7):
    """The next commands are these."""
    came = [link.frame() for _ in words]
    same([(it[1] >> 4, it[4:6], it[14:16]) for it in came], [(COMMAND, struct.pack(">H", idcode), struct.pack(">H", word)) for word in words])


def test_simulate_obeys_commands(bench):
    """Commands 1 and 2 switch data, 3, 4 and 5 are answered, 6 and 8 are not, and 7 and those of another IDCODE are ignored; each has a line. Data begin with
    the slot behind the start, and have one frame for each slot."""
    source = Simulated(bench)
    same(source.out.lines[0], f"source 7 listens at {source.address}: 1 PMU from 7 on, 30 frames a second")
    client = bench.subscriber(source.port)
    source.says(f"{client.name} has connected")
    for word, kind, line in ((SEND_HEADER, HEADER, "the header is sent"), (SEND_CONFIG_1, CONFIG_1, "CFG-1 is sent"),
                             (SEND_CONFIG_2, CONFIG_2, "CFG-2 is sent")):
        client.command(7, word)
        got = client.frame()
        same((got[1] >> 4, got[4:6]), (kind, b"\0\7"))
        same(kind != HEADER or got[14:-2] == b"pdcgw simulate: 1 PMU, 30 frames a second", True, f"the header {got[14:-2]}")
        source.says(f"command {word}: {line}")
    client.command(8, START)
    source.says("a frame is ignored: NoSuchStream")
    client.command(7, 7)
    source.says("a frame is ignored: UnknownCommand")
    expect(client.is_quiet(0.1), "data came that were not asked for")
    begun = time.time()
    client.command(7, START)
    source.says("command 2: data is on")
    for word in (6, 8):
        client.command(7, word)
        source.says(f"command {word} is not answered")
    client.command(7, START)
    came = [client.frame() for _ in range(20)]
    # 16 bytes around STAT, three phasors, FREQ, DFREQ, an analog value and a digital word.
    same({(it[1] >> 4, len(it)) for it in came}, {(DATA, 38)})
    slots = [slot_of(it, RATE) for it in came]
    same(slots, list(range(slots[0], slots[0] + 20)))
    expect(0 < slots[0] - int(begun * RATE) <= 2, "the first slot is the one behind the start")
    client.command(7, STOP)
    source.says("command 1: data is off")
    until(lambda: client.is_quiet(0.1) or client.buffer.clear(), "the end of the data")
    client.command(7, START)
    expect(0 <= slot_of(client.data(), RATE) - int(time.time() * RATE) + 2 <= 3, "data go on at this time's slot")
    client.send(b"GET / HTTP/1.1\r\n\r\n")
    expect(client.is_closed(2), "bytes that are no frames end the connection")
    source.says("the bytes are no frames: BadFirst")


def sent_to(source, what):
    """All that comes of these bytes, behind which the peer ends its side."""
    with socket.create_connection(("127.0.0.1", source.port), PATIENCE) as peer:
        try:
            peer.sendall(what)
            peer.shutdown(socket.SHUT_WR)
        except OSError:
            pass
        return read_all(peer)


def test_simulate_obeys_nothing_that_is_no_command(bench):
    """A command with any bit changed, and random bytes, half of them behind the beginning of a command, start nothing and are not answered; the right command
    is, behind all of them."""
    source, numbers = Simulated(bench), random.Random(7)
    for word in (START, SEND_CONFIG_2):
        for bit in range(144):
            changed = bytearray(command(7, word))
            changed[bit // 8] ^= 1 << bit % 8
            same(sent_to(source, changed), b"", f"bit {bit} of command {word}")
    for at in range(100):
        noise = bytes(numbers.randrange(256) for _ in range(200))
        same(sent_to(source, (b"\xAA\x42\0\x12" if at % 2 else b"") + noise), b"", f"round {at}")
    source.says("the connection is closed; 0 data frames were sent", 388)
    same([it for it in source.out.lines if " command " in it], [])
    client = bench.subscriber(source.port)
    client.command(7, SEND_CONFIG_2)
    same(client.frame()[1] >> 4, CONFIG_2)


def test_simulate_serves_at_once_behind_those_that_left(bench):
    """500 clients connect and leave at once; the next one is served, and answered within 2 seconds. So is the one behind that, and what it asks behind 400 kB
    of commands. 100 that connect all at once, while one is served, are disconnected within a second."""
    source = Simulated(bench)
    for _ in range(500):
        Subscriber(source.port).close()
    begun, client = time.monotonic(), bench.subscriber(source.port)
    client.command(7, SEND_HEADER)
    same(client.frame(2)[1] >> 4, HEADER)
    client.close()
    second = bench.subscriber(source.port)
    second.command(7, SEND_HEADER)
    same(second.frame(0.8)[1] >> 4, HEADER)
    second.send(command(7, STOP) * 22_000 + command(7, SEND_CONFIG_2))
    same(second.frame(2)[1] >> 4, CONFIG_2)
    expect(time.monotonic() - begun < 5, f"it took {time.monotonic() - begun:.1f} s")
    source.process.send_signal(signal.SIGSTOP)
    many = [bench.subscriber(source.port) for _ in range(100)]
    source.process.send_signal(signal.SIGCONT)
    begun = time.monotonic()
    closed = sum(it.is_closed(max(0.01, begun + 0.8 - time.monotonic())) for it in many)
    same(closed, 100, "clients that are disconnected")


def test_clients_of_a_simulated_source(bench):
    """With `--clients 2` two are served at once. Data are on or off for each by itself, and the frames of a slot are the same for both. A third is disconnected,
    and named; once one of the two leaves, the next is served."""
    source = Simulated(bench, "--clients", "2")
    one, other = bench.subscriber(source.port), bench.subscriber(source.port)
    one.command(7, START)
    one.data()
    other.command(7, SEND_HEADER)
    same(other.frame()[1] >> 4, HEADER)
    expect(other.is_quiet(0.2), "data are on for a client that did not start them")
    third = bench.subscriber(source.port)
    expect(third.is_closed(2), "a third client is served")
    until(lambda: f"{third.name} is refused: 2 clients are connected, and --clients (1 to 8) allows no more" in source.out.lines, "the refused client")
    other.command(7, START)
    frames = {it[6:14]: it for it in (other.data() for _ in range(20))}
    alike = [frames[it[6:14]] == it for it in (one.data() for _ in range(40)) if it[6:14] in frames]
    expect(len(alike) >= 15 and all(alike), f"{sum(alike)} of {len(alike)} frames are the same for both")
    one.command(7, STOP)
    until(lambda: one.is_quiet(0.1) or one.buffer.clear() or one.frames.clear(), "the end of the data")
    before = slot_of(other.data(), RATE)
    same([slot_of(other.data(), RATE) for _ in range(10)], list(range(before + 1, before + 11)))
    for name, line in ((one.name, "command 1: data is off"), (other.name, "command 2: data is on")):
        until(lambda: f"{name}: {line}" in source.out.lines, f"{name}: {line}")
    one.close()
    until(lambda: any(it.startswith(f"{one.name}: the connection is closed; ") for it in source.out.lines), "the end of a client")
    again = bench.subscriber(source.port)
    again.command(7, SEND_CONFIG_2)
    same(again.frame()[1] >> 4, CONFIG_2)


@takes(5)
def test_configurations_that_come_unasked(bench):
    """With `unasked` CFG-2 comes as soon as a client has connected; with `reconfigure=2` again at each even second, another one each time: PHUNIT is doubled
    or halved, and CFGCNT one more. Data frames behind it are as long as before, and STAT bit 10 is set in the second before. With `no-config` too."""
    source = Simulated(bench, "--fault", "unasked", "--fault", "reconfigure=2", "--fault", "no-config")
    client = bench.subscriber(source.port)
    first = client.frame(1)
    same(first[1] >> 4, CONFIG_2)
    client.command(7, SEND_CONFIG_2)
    client.command(7, START)
    came, end = [first], time.monotonic() + 4.5
    while time.monotonic() < end:
        came.append(client.frame())
    # PHUNIT stands behind the names of three phasors, an analog value and 16 inputs.
    found = [(*struct.unpack(">I", it[366:370]), *struct.unpack(">H", it[388:390])) for it in came if it[1] >> 4 == CONFIG_2]
    expect(3 <= len(found) <= 4, f"{found}")
    same({phunit for phunit, _ in found}, {1_000_000, 2_000_000})
    same([count for _, count in found], [(found[0][1] + at) % 65_536 for at in range(len(found))])
    same([phunit for phunit, _ in found], [1_000_000 * (2 - count % 2) for _, count in found])
    data = [it for it in came if it[1] >> 4 == DATA]
    same({len(it) for it in data}, {38})
    same({(int.from_bytes(it[6:10], "big") % 2, it[14:16]) for it in data}, {(0, b"\0\0"), (1, b"\4\0")})
    slots = [slot_of(it, RATE) for it in data]
    same(slots, list(range(slots[0], slots[0] + len(slots))))
    # Each CFG-2 but the first is right before the first data frame of its second.
    behind = [came[at + 1] for at, it in enumerate(came[:-1]) if at and it[1] >> 4 == CONFIG_2]
    same([slot_of(it, RATE) % (2 * RATE) for it in behind], [0] * len(behind))
    source.says("command 5 is not answered")


@takes(6)
def test_frames_that_are_held_back(bench):
    """With `backlog=2` the frames of two seconds come at once, at each even second, and none is missing."""
    came = data_for(Simulated(bench, "--fault", "backlog=2").port, 5)
    slots = [slot_of(got, RATE) for got, _ in came]
    same(slots, list(range(slots[0], slots[0] + len(slots))))
    expect(len(slots) >= 2 * RATE, f"{len(slots)} frames")
    # A frame of an even second itself is sent then.
    ages = {(at - slot / RATE) - (-slot % (2 * RATE)) / RATE for slot, (_, at) in zip(slots, came)}
    expect(all(0 <= it < 0.3 for it in ages), f"behind the even seconds: {min(ages):.3f} to {max(ages):.3f} s")


def test_simulate_keeps_back_a_configuration(bench):
    """With `no-config` commands 4 and 5 are not answered, and 3 is."""
    source = Simulated(bench, "--fault", "no-config")
    client = bench.subscriber(source.port)
    for word in (SEND_CONFIG_1, SEND_CONFIG_2, SEND_HEADER):
        client.command(7, word)
    same(client.frame()[1] >> 4, HEADER)
    source.says("command 4 is not answered")
    source.says("command 5 is not answered")
    expect(client.is_quiet(0.1), "more came than the header")


def data_for(port, seconds, idcode=7):
    """The data frames of so many seconds, each with the time at which it came; wrong ones too."""
    client, came = Subscriber(port), []
    client.command(idcode, START)
    client.socket.settimeout(0.05)
    end = time.monotonic() + seconds
    while time.monotonic() < end:
        try:
            client.buffer += client.socket.recv(1 << 16)
        except socket.timeout:
            continue
        came += [(it, time.time()) for it in frames_in(client.buffer)]
    client.close()
    return came


def test_frames_that_are_dropped_or_wrong(bench):
    """With `drop=10` about a tenth of the frames is left out, and with `wrong-check=10` about a tenth has a wrong CHK; `watch` counts just those, as missing
    and as troubles."""
    names = ("drop=10", "wrong-check=10")
    sources = [Simulated(bench, "--rate", "120", "--fault", it) for it in names]
    running = [begin_watch(bench, it.address, 7, "--frames", "180") for it in sources]
    (status, out, _), (other_status, other_out, errors) = map(end_watch, running)
    frames, missing, *rest = counted(out)
    expect(status == 0 and frames == 180 and 5 <= missing <= 50 and rest == [0, 0, 0, 0, 0], f"drop=10: {out[-200:]}")
    frames, missing, fillers, troubles, *rest = counted(other_out)
    expect(other_status == 1 and frames == 180 and 5 <= troubles <= 50 and rest == [troubles, 0, 0], f"wrong-check=10: {other_out[-200:]}")
    expect(troubles - 3 <= missing <= troubles, "a frame with a wrong CHK is missing, and no other one is")
    same(errors, "pdcgw: a frame is left out: BadCheck\n" * troubles)


@takes(4)
def test_frames_are_as_late_as_the_fault_says(bench):
    """Each frame comes at its time, with `late=300` 300 ms behind it, and by a clock that is 5 s ahead or behind it has that one's time. None is missing."""
    for fault, least in ((None, 0), ("late=300", 0.3), ("clock=5000", -5), ("clock=-5000", 5)):
        came = data_for(Simulated(bench, *(["--fault", fault] if fault else [])).port, 0.7)
        slots = [slot_of(got, RATE) for got, _ in came]
        ages = [at - slot_of(got, RATE) / RATE for got, at in came]
        expect(len(ages) >= 8 and all(least <= it < least + 0.25 for it in ages), f"{fault}: {ages}")
        same(slots, list(range(slots[0], slots[0] + len(slots))), f"{fault}: slots")


@takes(3)
def test_the_silence_of_a_simulated_source(bench):
    """With `silence=1` none of the frames of each eleventh second comes, and each frame of the seconds beside it."""
    now = time.time()
    # The silent second is the next one.
    shift = (9 - int(now)) % 11
    source = Simulated(bench, "--rate", "120", "--fault", "silence=1", "--fault", f"clock={shift * 1000}")
    slots = [slot_of(got, 120) for got, _ in data_for(source.port, 2.4)]
    silent = (int(now) + shift + 1) * 120
    same(silent // 120 % 11, 10)
    wanted = [it for it in range(slots[0], slots[-1] + 1) if not silent <= it < silent + 120]
    same(slots, wanted)
    expect(slots[0] < silent and slots[-1] > silent + 120, f"slots of {slots[0]} to {slots[-1]}, and {silent} is the first silent one")


@takes(6)
def test_simulate_where_its_clock_is_set_back(bench):
    """A simulated source whose clock is set back by an hour goes on within a second by its clock. `watch` reports one stamp that does not rise, and takes the
    frames behind it."""
    clock = SetClock(bench.folder)
    source = Simulated(bench, behind=clock.words)
    process = begin_watch(bench, source.address, 7, "--seconds", "5")
    time.sleep(2)
    clock.ahead(-3_600)
    status, out, errors = end_watch(process)
    found = re.fullmatch(r"pdcgw: a stamp does not rise: (\d+)\+\d+ comes after (\d+)\+\d+\n", errors)
    expect(status == 1 and found, f"status {status}, {errors!r}")
    expect(3_598 <= int(found[2]) - int(found[1]) <= 3_600, found[0])
    frames, missing, fillers, *troubles = counted(out)
    expect(100 <= frames <= 5 * RATE, out)
    same((missing, fillers, troubles), (0, 0, [1, 0, 1, 0]))


@takes(7)
def test_watch_where_its_clock_is_set(bench):
    """The seconds of `watch` pass as before where its clock is set ahead and back by an hour: each has a line, and it ends on time."""
    source, clock = Simulated(bench), SetClock(bench.folder)
    for ahead in (3_600, 0):
        begun = time.monotonic()
        process = begin_watch(bench, source.address, 7, "--seconds", "3", behind=clock.words)
        time.sleep(1.5)
        clock.ahead(ahead)
        status, out, errors = end_watch(process)
        took = time.monotonic() - begun
        expect((status, errors) == (0, "") and 2.9 < took < 4.5, f"status {status} after {took:.1f} s, {errors!r}")
        same(len(out.splitlines()), 4, "lines of three seconds, and of what was counted")


def counts_of(block, *places):
    return [struct.unpack(">h", block[at:at + 2])[0] for at in places]


def test_the_signals_of_a_simulated_source(bench):
    """The three phases of a PMU are in balance and of one magnitude; the angle of another one turns by its deviation of frequency, which is 20 mHz at most. A
    second source with the same settings sends the same frames."""
    one, other = Simulated(bench, "--pmus", "2", "--rate", "120"), Simulated(bench, "--pmus", "2", "--rate", "120")
    links = [bench.subscriber(it.port) for it in (one, other)]
    for it in links:
        it.command(7, START)
    frames, twins = [[it.data() for _ in range(125)] for it in links]
    twins = {it[6:14]: it for it in twins}
    alike = [twins[it[6:14]] == it for it in frames if it[6:14] in twins]
    expect(len(alike) > 60 and all(alike), f"{sum(alike)} of {len(alike)} frames are those of another source with these settings")
    angles, turn = [], 0.0
    for it in frames:
        block, polar = it[14:36], it[36:58]
        real, imaginary = counts_of(block, 2, 6, 10), counts_of(block, 4, 8, 12)
        expect(abs(sum(real)) <= 4 and abs(sum(imaginary)) <= 4, f"phases out of balance: {real}, {imaginary}")
        # 28,868 counts, and at most 450 more or less.
        expect(all(28_410 ** 2 <= x * x + y * y < 29_320 ** 2 for x, y in zip(real, imaginary)), f"magnitudes of {real}, {imaginary}")
        deviation, angle = counts_of(polar, 14, 4)
        expect(abs(deviation) <= 20, f"{deviation} mHz")
        angles.append(angle)
        turn += deviation / 120 / 1000 * 62_832
    # In 10^-4 radians. A deviation is cut to whole millihertz.
    apart = (angles[-1] - angles[0] - turn) % 62_832
    expect(min(apart, 62_832 - apart) <= 72, f"the angle turned from {angles[0]} to {angles[-1]}, and by the frequency {turn:.0f}")


def test_watch_through_a_gateway(bench):
    """`watch` reads a stream of a simulated source's two PMUs, in another order, without trouble: each block is the source's own, as a twin of it sends
    them."""
    source, twin, port = Simulated(bench, "--pmus", "2"), Simulated(bench, "--pmus", "2"), bench.port()
    text = pmu(7, connect=source.address) + pmu(8, source=7) + subscriber(1, port, grants=["7/8", 7]) + stream(101, ["7/8", 7])
    gateway = bench.gateway(text).serves(1)
    gateway.line("source 7: announced")
    link = bench.subscriber(twin.port)
    link.command(7, START)
    status, out, errors = end_watch(begin_watch(bench, f"127.0.0.1:{port}", 101, "--frames", "30", "--raw", "kept"))
    same((status, errors, counted(out)), (0, "", (30, 0, 0, 0, 0, 0, 0)))
    with open(f"{bench.folder}/kept", "rb") as f:
        kept = [it for it in frames_in(bytearray(f.read())) if it[1] >> 4 == DATA]
    own = {it[6:14]: it for it in (link.data() for _ in range(30))}
    blocks = [(it[14:36], it[36:58]) == (own[it[6:14]][36:58], own[it[6:14]][14:36]) for it in kept if it[6:14] in own]
    expect(len(blocks) >= 20 and all(blocks), f"{sum(blocks)} of {len(blocks)} frames have the source's blocks")
    until(lambda: gateway.counters("pmustats 7/8")["taken"] >= 30, "data of PMU 8")
    same(gateway.counters("pmustats 7/8").keys(), {"taken"}, "no data are refused")
    gateway.quit()


def test_the_largest_simulated_source(bench):
    """16 PMUs whose configurations have nearly 2,000 bytes: a gateway and `watch` read them."""
    source = Simulated(bench, "--source", "65519", "--pmus", "16", "--phasors", "32", "--analogs", "32", "--digitals", "2", "--nominal", "50")
    same(source.out.lines[0], f"source 65519 listens at {source.address}: 16 PMUs from 65519 on, 30 frames a second")
    status, out, errors = watched(bench, source, "--frames", "2", idcode=65519)
    same((status, errors, counted(out)), (0, "", (2, 0, 0, 0, 0, 0, 0)))
    gateway = bench.gateway(pmu(65534, source=65519, connect=source.address) + subscriber(1))
    until(lambda: gateway.counters("pmustats 65519/65534")["taken"] >= 2, "data of the last PMU")
    expect(" ignored - " in gateway.status()["source 65519"], "frames are ignored")
    gateway.quit()


@takes(4)
def test_simulate_reads_no_further_than_its_peer(bench):
    """A peer that asks and does not read has a bounded number of answers waiting, and its other commands are not read; data frames that come due meanwhile are
    left out, which is said once. As it reads, all are answered, and data go on."""
    source, asked = Simulated(bench, "--pmus", "16"), 3_000
    client = bench.subscriber(source.port)
    client.command(7, START)
    slots, configurations = [slot_of(client.data(), RATE)], 0
    client.send(command(7, SEND_CONFIG_2) * asked)
    source.says("the client does not read: frames are left out")
    time.sleep(0.5)
    obeyed = source.said("command 5: CFG-2 is sent")
    expect(0 < obeyed < asked, f"{obeyed} of {asked} commands were obeyed, and no answer was read")
    while configurations < asked:
        got = client.frame()
        configurations += got[1] >> 4 == CONFIG_2
        slots += [slot_of(got, RATE)] if got[1] >> 4 == DATA else []
    slots += [slot_of(client.data(), RATE) for _ in range(10)]
    same(slots, sorted(set(slots)), "slots of the data frames")
    expect(slots[-1] - slots[0] + 1 - len(slots) >= 10, f"no data frames were left out: {slots}")
    source.says("command 5: CFG-2 is sent", asked)
    same(source.said("the client does not read: frames are left out"), 1)


def test_troubles_of_watch(bench):
    """Each frame that is wrong is named on standard error and counted, the others are taken, and the status is 1. Behind a frame of another length the
    configuration is asked for again, once."""
    source, second = bench.source(7), 1_800_000_000

    def data(idcode=7, soc=second, frac=0, body=bytes(10)):
        return frame(DATA, idcode, soc, frac, body)

    process = begin_watch(bench, source.address, 7)
    link = source.accept()
    is_asked(link, SEND_CONFIG_2, SEND_HEADER)
    rows = [(frame(HEADER, 8, 0, 0, b"north"), "a header can't be taken: WrongId"),
            (data(), "a data frame can't be taken: NoConfig"),
            (configuration(8, [8], RATE), "a configuration can't be taken: WrongId"),
            (source.configuration(), None), (data(), None),
            (data(), f"a stamp does not rise: {second}+0 comes after {second}+0"),
            (data(soc=second - 1), f"a stamp does not rise: {second - 1}+0 comes after {second}+0"),
            (data(idcode=8), "a data frame can't be taken: WrongId"),
            (data(soc=second + 1, frac=BASE), "a data frame can't be taken: BadFraction"),
            (data(soc=second + 1, body=bytes(8)), "a data frame can't be taken: BadLength"),
            (data(soc=second + 1, body=bytes(12)), "a data frame can't be taken: BadLength"),
            (with_wrong_check(data(soc=second + 1)), "a frame is left out: BadCheck"),
            (command(7, START), "a frame was not asked for: type 4"),
            (frame(CONFIG_1, 7, 0, 0, bytes(10)), "a frame was not asked for: type 2")]
    for what, _ in rows:
        link.send(what)
        if what == source.configuration():
            is_asked(link, START, SEND_HEADER)
    is_asked(link, SEND_CONFIG_2)
    expect(link.is_quiet(0.1), "it asks again, twice")
    link.send(b"\x55")
    link.close()
    status, out, errors = end_watch(process)
    wanted = [text for _, text in rows if text] + ["the bytes are no frames from here on: BadFirst"]
    same((status, errors.splitlines()), (1, [f"pdcgw: {it}" for it in wanted]))
    # Slots of which no frame came are not counted before a frame is taken.
    same(counted(out), (1, 0, 0, len(wanted), 1, 2, 5))


def test_a_peer_that_closes_and_lengths_that_lie(bench):
    """A peer that closes, and no data frame at all, are troubles. A frame that says that it has 65,535 bytes is waited for, and left out; what begins no frame
    behind it ends `watch`."""
    source = bench.source(7)
    for what, wanted in ((b"", ["the peer closed the connection", "no data frame came"]),
                         (b"\xAA\x32\xFF\xFF" + bytes(65_531), ["a frame is left out: BadCheck", "the peer closed the connection", "no data frame came"]),
                         (b"\xAA\x32\xFF\xFF" + bytes(65_532), ["a frame is left out: BadCheck", "the bytes are no frames from here on: BadFirst",
                                                               "no data frame came"])):
        process = begin_watch(bench, source.address, 7)
        link = source.accept()
        is_asked(link, SEND_CONFIG_2, SEND_HEADER)
        link.send(what)
        link.close()
        status, out, errors = end_watch(process)
        same((status, errors.splitlines(), counted(out)[3]), (1, [f"pdcgw: {it}" for it in wanted], len(wanted)))


def test_hostile_bytes_at_watch(bench):
    """A configuration with changed bytes and a right CHK, and data frames behind it: each data frame that is taken has a line of values, each other trouble a
    line on standard error, and `watch` ends."""
    simulated, source, numbers = Simulated(bench, "--pmus", "2", "--rate", "120"), bench.source(7), random.Random(11)
    client = bench.subscriber(simulated.port)
    client.command(7, SEND_CONFIG_2)
    right = client.frame()
    client.command(7, START)
    data = b"".join(client.data() for _ in range(20))
    for at in range(40):
        changed = bytearray(right)
        for _ in range(3):
            # Its length stays right.
            changed[numbers.randrange(4, len(right))] = numbers.randrange(256)
        wrong = frame(CONFIG_2, *struct.unpack(">HII", changed[4:14]), bytes(changed[14:-2]))
        process = begin_watch(bench, source.address, 7, "--csv")
        link = source.accept()
        is_asked(link, SEND_CONFIG_2, SEND_HEADER)
        link.send(wrong + data)
        link.close()
        status, out, errors = end_watch(process)
        frames, _, _, troubles, *_ = counted(errors)
        lines = [it for it in errors.splitlines() if not COUNTED.search(it)]
        values = re.findall(r"(?m)^\d{4}-\d\d-\d\dT", out)
        same((status, len(values), len(lines)), (1, frames, troubles), f"round {at}: {errors[-500:]}")


@takes(4)
def test_a_configuration_without_a_pmu(bench):
    """A CFG-2 without any PMU is no trouble: it is asked again each second, until one has come, which starts the stream."""
    source = bench.source(7)
    process = begin_watch(bench, source.address, 7)
    link = source.accept()
    is_asked(link, SEND_CONFIG_2, SEND_HEADER)
    for _ in range(2):
        begun = time.monotonic()
        link.send(configuration(7, [], RATE))
        is_asked(link, SEND_CONFIG_2)
        expect(time.monotonic() - begun < 1.5, "it was asked again late")
    link.send(configuration(8, [], RATE) + frame(CONFIG_2, 7, 0, 0, struct.pack(">IH", BASE, 0) + bytes(4)) + source.configuration())
    is_asked(link, START, SEND_HEADER)
    link.close()
    status, out, errors = end_watch(process)
    same((status, out.splitlines()[:2]), (1, ["no PMU yet; 0 troubles"] * 2))
    same(errors.splitlines()[:2], [f"pdcgw: a configuration can't be taken: {it}" for it in ("WrongId", "BadCounts")])


@takes(8)
def test_what_is_not_answered_is_asked_again(bench):
    """Without CFG-2 command 5 is sent each 3 seconds, and after 5 the want is reported; without data commands 2 and 3 are sent each 3 seconds, and with data
    they are not."""
    silent, source = bench.source(7), bench.source(9)
    unanswered = begin_watch(bench, silent.address, 7, "--seconds", "6")
    answered = begin_watch(bench, source.address, 9)
    link, begun = source.accept(), time.monotonic()
    is_asked(silent.accept(), SEND_CONFIG_2, SEND_HEADER)
    is_asked(link, SEND_CONFIG_2, SEND_HEADER, idcode=9)
    link.send(source.configuration())
    is_asked(link, START, SEND_HEADER, idcode=9)
    expect(link.is_quiet(2.5), "it is asked again early")
    is_asked(link, START, SEND_HEADER, idcode=9)
    is_asked(silent.link, SEND_CONFIG_2)
    took = time.monotonic() - begun
    expect(2.5 < took < 4, f"they were asked again after {took:.1f} s")
    time.sleep(max(0, begun + 4.5 - time.monotonic()))
    source.measure(int(time.time()) * RATE, 1)
    expect(link.is_quiet(2), "a data frame came, and data are asked for again")
    link.close()
    same(end_watch(answered)[2], "pdcgw: the peer closed the connection\n")
    status, out, errors = end_watch(unanswered)
    same((status, errors.splitlines()),
         (1, ["pdcgw: no configuration came; is the stream's number right?", "pdcgw: no data frame came"]))


@takes(4)
def test_a_flood_of_troubles_at_watch(bench):
    """A source sends frames with one timestamp without end: of these 50 lines a second stand on standard error, and how many more there were. All of them are
    counted, and `--seconds 2` ends it."""
    source, second = bench.source(7), int(time.time())
    process = begin_watch(bench, source.address, 7, "--seconds", "2")
    begun, link = time.monotonic(), source.accept()
    is_asked(link, SEND_CONFIG_2, SEND_HEADER)
    link.send(source.configuration())
    is_asked(link, START, SEND_HEADER)
    same_frames = frame(DATA, 7, second, 0, bytes(10)) * 1_000
    flood = threading.Thread(target=send_until_closed, args=(link, same_frames), daemon=True)
    flood.start()
    status, out, errors = end_watch(process)
    took, lines = time.monotonic() - begun, errors.splitlines()
    text = f"pdcgw: a stamp does not rise: {second}+0 comes after {second}+0"
    more = [re.fullmatch(r"pdcgw: (\d+) troubles more; the last: (.*)", it) for it in lines]
    told = [it for it in lines if it == text]
    expect(50 <= len(told) <= 200 and len(told) + sum(map(bool, more)) == len(lines), f"{len(told)} of {len(lines)} lines: {lines[-3:]}")
    same({it[2] for it in more if it}, {text.removeprefix("pdcgw: ")})
    _, _, _, troubles, _, order, _ = counted(out)
    same((status, troubles, order), (1, len(told) + sum(int(it[1]) for it in more if it), troubles))
    expect(troubles > 1_000 and took < 6, f"{troubles} troubles, and it took {took:.1f} s")


def send_until_closed(link, what):
    try:
        while True:
            link.send(what)
    except OSError:
        pass


def test_watch_of_a_name(bench):
    """`watch` takes a host's name: it is looked up. Where it has no address that is printed, with what would be right; a mistyped address is no name."""
    source = Simulated(bench)
    status, out, errors = end_watch(begin_watch(bench, f"localhost:{source.port}", 7, "--frames", "5"))
    same((status, errors, counted(out)), (0, "", (5, 0, 0, 0, 0, 0, 0)))
    # (a label of 64 letters is too long for any name server to be asked)
    nameless = "a" * 64 + ".test:4712"
    status, errors = said(bench, "watch", nameless, "--stream", "7")
    begin, end = (f"pdcgw: {nameless} can't be reached: no address of this name is found (",
                  "); it has to be in /etc/hosts or known to a name server, else give A.B.C.D:PORT\n")
    expect(status == 1 and errors.startswith(begin) and errors.endswith(end) and len(errors) > len(begin + end) + 3, f"{status}, {errors}")
    status, errors = said(bench, "watch", f"localhost:{bench.port()}", "--stream", "7")
    expect(status == 1 and " can't be reached: " in errors, f"{status}, {errors}")
    for word in ("localhost", "localhost:", "localhost:0", "localhost:65536", ":4712", "127.0.0.300:4712", "a.1:4712", "two words:4712", "under_score:4712",
                 "a" * 254 + ":4712"):
        status, errors = said(bench, "watch", word, "--stream", "7")
        expect(status == 2 and "ADDRESS takes an address A.B.C.D:PORT or NAME:PORT, as 127.0.0.1:4712 or localhost:4712" in errors, f"{word}: {status}, {errors}")


def test_watch_of_a_name_with_two_addresses(bench):
    """Of two addresses of a name the one where a source listens is taken. (The system sorts them, so that each of the two is the one. Where this user may not
    set names, nothing is tried.)"""
    hosts, file = ("127.0.0.1", "127.0.0.4"), f"{bench.folder}/hosts"
    with open(file, "w") as f:
        f.write("".join(f"{it} two-addresses.test\n" for it in hosts))
    words = ["unshare", "--mount", "sh", "-c", f'mount --bind {file} /etc/hosts && exec "$@"', "sh"]
    if subprocess.run([*words, "true"], stdout=subprocess.DEVNULL, stderr=subprocess.DEVNULL).returncode:
        raise PassedBy("no names can be set in a mount namespace")
    for host in hosts:
        port = bench.live(7, host=host).address.split(":")[1]
        done = subprocess.run([*words, bench.program, "watch", f"two-addresses.test:{port}", "--stream", "7", "--frames", "3"], stdin=subprocess.DEVNULL,
                              stdout=subprocess.PIPE, stderr=subprocess.PIPE, timeout=PATIENCE)
        same((done.returncode, done.stderr.decode(), counted(done.stdout.decode())[0]), (0, "", 3), f"a source at {host}")


WORDS = """\
listen 127.0.0.1 no
listen localhost:4712 no
source 65533 yes
source 65534 no
source 0 no
source +7 no
pmus 16 yes
pmus 17 no
rate 120 yes
rate 121 no
rate -1 no
phasors 32 yes
phasors 33 no
analogs 0 yes
digitals 7 yes
digitals 8 no
nominal 50 yes
nominal 55 no
fault silence=5 yes
fault silence=0 no
fault drop=100 yes
fault drop=101 no
fault late=60000 yes
fault late=60001 no
fault wrong-check=5 yes
fault clock=-500 yes
fault clock=--5 no
fault no-config yes
fault no-config=1 no
fault reconfigure=2 yes
fault reconfigure=1 no
fault unasked yes
fault unasked=1 no
fault stat=fFfF yes
fault stat=10000 no
fault stat=+1 no
fault stat= no
fault quality=FF yes
fault quality=100 no
fault quality=0x1 no
fault unlock=0 yes
fault unlock=3601 no
fault backlog=60 yes
fault backlog=0 no
fault backlog=61 no
fault noise=3 no
clients 8 yes
clients 0 no
clients 9 no"""


def said(bench, *words, out=subprocess.PIPE):
    """The status of the program with these words, and what it says on standard error."""
    done = subprocess.run([bench.program, *words], cwd=bench.folder, stdin=subprocess.DEVNULL, stdout=out, stderr=subprocess.PIPE, timeout=PATIENCE)
    return done.returncode, done.stderr.decode()


def test_words_of_the_tools(bench):
    """Each option of `simulate` is taken within its limits; else the status is 2, and the option is named. What can't be bound, reached or written is named,
    with status 1."""
    taken = Simulated(bench)
    for row in WORDS.splitlines():
        option, value, is_taken = row.split()
        words = {"listen": taken.address, "pmus": "2", option: value}
        status, errors = said(bench, "simulate", *(f"--{name}={word}" for name, word in words.items()))
        if is_taken == "yes":
            expect(status == 1 and f"{taken.address} can't be bound: " in errors, f"{row}: {status}, {errors}")
        else:
            expect(status == 2 and f"--{option} takes " in errors, f"{row}: {status}, {errors}")
    port = bench.port()
    for words, text in ((["simulate", "--listen", taken.address], f"pdcgw: {taken.address} can't be bound: "),
                        (["watch", f"127.0.0.1:{port}", "--stream", "7"], f"pdcgw: 127.0.0.1:{port} can't be reached: "),
                        (["watch", taken.address, "--stream", "7", "--raw", "/no/such/file"], "pdcgw: the file of --raw can't be written: ")):
        status, errors = said(bench, *words)
        expect(status == 1 and errors.startswith(text) and len(errors) > len(text) + 3, f"{words}: {status}, {errors}")
    with open("/dev/full", "w") as full:
        same(said(bench, "simulate", "--listen", f"127.0.0.1:{port}", out=full), (1, "pdcgw: standard output can't be written\n"))
    for words in (["watch", "here", "--stream", "7"], ["watch", taken.address, "--stream", "0"], ["watch", taken.address, "--stream", "7", "--frames", "0"]):
        status, errors = said(bench, *words)
        expect(status == 2 and " takes " in errors, f"{words}: {status}, {errors}")
