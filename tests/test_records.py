"""Recordings: what the service did is in files, and their replay hands each subscriber the bytes that its socket was sent."""
import glob
import os
import re
import shutil
import stat
import struct
import subprocess
import threading
import time

from c37118 import SEND_CONFIG_1, SEND_CONFIG_2, SEND_HEADER, START, STOP, command
from peers import PassedBy, Subscriber, expect, metrics, now_soc, pmu, same, stream, subscriber, takes, until


class Tap:
    """A subscriber that keeps all bytes that it is sent, over one connection after another."""

    def __init__(self, bench, port):
        self.bench, self.port, self.got, self.link = bench, port, bytearray(), None

    def connect(self, *streams):
        self.link = Subscriber(self.port)
        self.bench.made.append(self.link)
        self.thread = threading.Thread(target=self.gather, args=(self.link.socket,), daemon=True)
        self.thread.start()
        for it in streams:
            self.link.send(command(it, SEND_CONFIG_2) + command(it, START))

    def gather(self, made):
        made.settimeout(None)
        while True:
            try:
                piece = made.recv(1 << 16)
            except OSError:
                return
            if not piece:
                return
            self.got += piece

    def comes(self, size):
        """Waits until so many bytes more came."""
        wanted = len(self.got) + size
        until(lambda: len(self.got) >= wanted, f"{size} bytes for port {self.port}")

    def stop(self, *streams):
        """Ends its streams and then its connection, once nothing is on the way any more."""
        for it in streams:
            self.link.send(command(it, STOP))
        size = -1
        while size != len(self.got):
            size = len(self.got)
            time.sleep(0.3)
        self.link.socket.shutdown(2)
        self.thread.join(5)


# What `verify` prints where something before was not recorded.
LEFT_OUT = r"not compared: \d+ drains, of subscribers whose queues may differ, since calls before are not recorded"


def folder_of(bench, name="records"):
    path = f"{bench.folder}/{name}"
    os.mkdir(path)
    return path


def files_in(folder):
    return sorted(glob.glob(f"{folder}/*.pdcrec"))


def tool(bench, word, files, data=None):
    """The status, the output and the errors of a subcommand with these files."""
    done = subprocess.run([bench.program, word, *files], input=data, stdin=None if data is not None else subprocess.DEVNULL,
                          stdout=subprocess.PIPE, stderr=subprocess.PIPE, timeout=60)
    return done.returncode, done.stdout.decode(), done.stderr.decode()


def verified(bench, folder):
    """The verdict of `verify` by its names; it is right."""
    status, out, errors = tool(bench, "verify", files_in(folder))
    found = verdict_in(out)
    same((status, errors, out.count("\n")), (0, "", 1), f"`verify` of {folder}: {out}")
    return found


def verdict_in(out):
    last = out.splitlines()[-1].replace("answers differing", "answers").split()
    return dict(zip(last[::2], map(int, last[1::2])))


def handed_by_replay(bench, folder):
    """What `replay` of the script hands to each subscriber."""
    status, script, errors = tool(bench, "script", files_in(folder))
    same((status, errors), (0, ""), "`script`")
    lines = [it for it in script.splitlines() if it and not it.startswith("#")]
    status, out, errors = tool(bench, "replay", [], script.encode())
    same((status, errors), (0, ""), "`replay`")
    drains, handed = [int(it.split()[1]) for it in lines if it.startswith("drain ")], {}
    answers = [it.split() for it in out.splitlines() if it.startswith("drained ")]
    same(len(answers), len(drains), "drains with an answer")
    for number, words in zip(drains, answers):
        handed[number] = handed.get(number, b"") + (b"" if words[4] == "-" else bytes.fromhex(words[4]))
    return handed


def service(bench, folder, more=""):
    """Three subscribers of two live sources, served by two threads of each kind: the text of the setup, and the taps."""
    seven, nine = bench.live(7), bench.live(9, pmus=[91, 92])
    taps = {number: Tap(bench, bench.port()) for number in (1, 2, 3)}
    text = f'record = "{folder}"\ningest = 2\nserve = 2\n{more}' + "".join([
        pmu(7, ahead_ms=None, connect=seven.address), pmu(91, ahead_ms=None, source=9, connect=nine.address), pmu(92, source=9, ahead_ms=None),
        subscriber(1, taps[1].port, grants=[7, "9/91"]), stream(101, [7, "9/91"], wait=5),
        subscriber(2, taps[2].port, grants=["9/91", "9/92"]), stream(201, ["9/91", "9/92"]), stream(202, ["9/92"], header="PMU 92"),
        subscriber(3, taps[3].port, ring=8, grants=[7]), stream(301, [7])])
    return text, taps


def edits(gateway, line):
    """A line is done, whether or not it lets frames leave."""
    answer, = gateway.ask(line, 1)
    expect(re.fullmatch(r"done (\d+) \1", answer), f"{line}: {answer}")


@takes(8)
def test_a_recording_replays_alike(bench):
    """While PMUs are granted and revoked, a stream is added by a reload, subscribers connect again and one floods with commands: what `replay`
    of the script hands to each subscriber is what its socket was sent, byte for byte."""
    folder = folder_of(bench)
    text, taps = service(bench, folder)
    gateway = bench.gateway(text).serves(1, 2, 3)
    taps[1].connect(101)
    taps[2].connect(201, 202)
    taps[3].connect(301)
    for tap in taps.values():
        tap.comes(2000)
    edits(gateway, "revoke 1 9/91")
    taps[1].comes(1000)
    edits(gateway, "grant 1 9/91")
    taps[2].link.send(b"".join(command(202, word) for word in (SEND_HEADER, SEND_CONFIG_1, SEND_CONFIG_2, 9, 6, START) * 30))
    taps[2].link.send(b"\xAA\x41" + bytes(30))
    taps[3].stop(301)
    taps[3].connect(301)
    taps[3].comes(2000)
    text = text.replace(stream(301, [7]), stream(301, [7]) + stream(302, [7], rate=10, header="new"))
    gateway.reload(text, "reloaded: 1 edit, 0 changes of connections and ports")
    taps[3].link.send(command(302, SEND_CONFIG_2) + command(302, START))
    taps[3].comes(2000)
    gateway.status()
    taps[1].stop(101)
    taps[3].stop(301, 302)
    if taps[2].link.is_closed(0.1):
        taps[2].connect(201, 202)
        taps[2].comes(2000)
    taps[2].stop(201, 202)
    gateway.quit()
    found = verified(bench, folder)
    expect(found["drains"] > 100 and found["records"] > 500, f"{found}")
    handed = handed_by_replay(bench, folder)
    for number, tap in taps.items():
        same(handed[number].hex(), bytes(tap.got).hex(), f"the bytes of subscriber {number}")
    for path in files_in(folder):
        same(stat.S_IMODE(os.stat(path).st_mode), 0o600, f"the mode of {path}")


def short_recording(bench):
    """A recording of a second: its folder."""
    folder = folder_of(bench)
    text, taps = service(bench, folder)
    gateway = bench.gateway(text).serves(1, 2, 3)
    taps[1].connect(101)
    taps[1].comes(2000)
    taps[1].stop(101)
    gateway.quit()
    return folder


@takes(4)
def test_what_was_changed_is_found(bench):
    """A file without its last bytes, one with a changed byte, and one that is no recording: `verify` says what is missing, and ends with 1."""
    folder = short_recording(bench)
    found = verified(bench, folder)
    path = files_in(folder)[-1]
    with open(path, "rb") as f:
        whole = f.read()
    # From a pipe, which can be read once.
    piped = b"".join(block for it in files_in(folder) for _, block in blocks_in(it))
    status, out, _ = tool(bench, "verify", ["/dev/stdin"], piped)
    same((status, verdict_in(out)), (0, found), f"`verify` of a pipe: {out}")
    for changed, pattern in [(whole[:-5], r"ends within a block, \d+ bytes of it are there and left out"),
                             (whole[:100] + bytes([whole[100] ^ 1]) + whole[101:], r"the block at byte 0 was changed, its records are left out"),
                             (b"x" + whole[1:], r"no block begins at byte 0, the rest of the file is left out")]:
        with open(path, "wb") as f:
            f.write(changed)
        status, out, _ = tool(bench, "verify", files_in(folder))
        same(status, 1, f"`verify` of changed bytes: {out}")
        expect(re.search(re.escape(path) + ": " + pattern, out), f"{pattern} in {out}")
        status, out, _ = tool(bench, "script", files_in(folder))
        expect(status == 1 and re.search("# " + re.escape(path) + ": " + pattern, out), f"{pattern} in the script, with status {status}")
    with open(path, "wb") as f:
        f.write(whole)
    verified(bench, folder)
    # Without a file what it had is missing; its script says so.
    status, out, errors = tool(bench, "verify", [path + ".gone"])
    same((status, out, errors), (1, "", f"pdcgw: {path}.gone: can't be read: there is no such file\n"), "`verify` of a file that is not there")


def blocks_in(path):
    """The blocks of a file: when each was begun, in seconds, and its bytes."""
    with open(path, "rb") as f:
        whole = f.read()
    found, at = [], 0
    while at < len(whole):
        size, start = struct.unpack(">IQ", whole[at + 10:at + 22])
        found.append((start / 1_000, whole[at:at + 30 + size]))
        at += 30 + size
    return found


def begun_later(files, since, seconds):
    """The blocks of these files that were begun at a time or later are from now on begun so many seconds later. (Their sums are over their records.)"""
    for path in files:
        blocks = blocks_in(path)
        with open(path, "wb") as f:
            for begun, block in blocks:
                late = round(1_000 * (begun + (seconds if begun >= since else 0)))
                f.write(block[:14] + struct.pack(">Q", late) + block[22:])


def begun_slower(files, since, times):
    """The blocks of these files are begun so many times as long behind a time as they were."""
    for path in files:
        blocks = blocks_in(path)
        with open(path, "wb") as f:
            for begun, block in blocks:
                late = round(1_000 * (since + (begun - since) * times))
                f.write(block[:14] + struct.pack(">Q", late) + block[22:])


@takes(8)
def test_behind_missing_blocks(bench):
    """Of the blocks of a recording those of half a second are not there: `verify` says which places are missing, and compares a subscriber again that
    connects later."""
    folder = folder_of(bench)
    text, taps = service(bench, folder)
    gateway = bench.gateway(text).serves(1, 2, 3)
    taps[1].connect(101)
    taps[1].comes(1000)
    begin = time.time()
    taps[1].comes(4000)
    taps[1].stop(101)
    taps[1].connect(101)
    taps[1].comes(3000)
    gateway.quit()
    verified(bench, folder)
    path = files_in(folder)[0]
    blocks = blocks_in(path)
    left = [it for start, it in blocks if not begin < start < begin + 0.5]
    expect(len(left) < len(blocks), f"{len(blocks)} blocks, and {len(left)} without those of half a second")
    with open(path, "wb") as f:
        f.write(b"".join(left))
    status, out, _ = tool(bench, "verify", files_in(folder))
    found, lines = verdict_in(out), out.splitlines()
    expect(status == 1 and found["missing"] > 10 and lines[0].startswith("missing: places "), out)
    same((found["differing"], found["answers"]), (0, 0), out)
    expect(any(re.fullmatch(LEFT_OUT, it) for it in lines) and found["drains"] > 30, out)
    status, out, errors = tool(bench, "script", files_in(folder))
    same((status, errors, "# missing: places " in out), (1, "", True), "`script` of what is not whole")


@takes(4)
def test_old_files_go_two_at_a_time(bench):
    """This machine's clock may be set far ahead: of five files that are older than `record_hours` two are removed where one is begun."""
    folder = folder_of(bench)
    old = [f"{folder}/2025010{it}T000000.000Z.pdcrec" for it in range(1, 6)]
    for path in old:
        open(path, "wb").close()
        os.utime(path, (0, 0))
    text, taps = service(bench, folder, more="record_hours = 1\n")
    bench.gateway(text).serves(1, 2, 3)
    until(lambda: len(files_in(folder)) == 4, "the files of which one was begun and two were removed")
    time.sleep(0.5)
    same(files_in(folder)[:-1], old[2:], "the files that are left")


@takes(8)
def test_a_clock_that_is_set_back(bench):
    """This machine's clock is two hours ahead at first, as by its hardware, and set back while the service runs: `verify` finds all that was recorded,
    and `explain` the frames of a second behind that, as where the clock was right."""
    folder = folder_of(bench)
    text, taps = service(bench, folder)
    gateway = bench.gateway(text).serves(1, 2, 3)
    taps[1].connect(101)
    taps[2].connect(201, 202)
    taps[1].comes(3000)
    first = int(time.time()) + 1
    taps[1].comes(9000)
    for number, streams in ((1, [101]), (2, [201, 202])):
        taps[number].stop(*streams)
    gateway.quit()
    whole = verified(bench, folder)
    begin, end = (time.strftime("%Y-%m-%dT%H:%M:%SZ", time.gmtime(it)) for it in (first, first + 1))
    asked = [*files_in(folder), "--subscriber", "1", "--stream", "101", "--from", begin, "--to", end]
    status, wanted, _ = tool(bench, "explain", asked)
    expect(status == 0 and wanted.count("\n") > 20, wanted)
    # (By the time of its first block a recording is known.)
    begun_later(files_in(folder), blocks_in(files_in(folder)[0])[0][0] + 0.001, 7_200)
    begun_later(files_in(folder), first + 7_200 - 0.5, -7_200)
    same(verified(bench, folder), whole, "`verify` where the clock was set back")
    status, out, errors = tool(bench, "explain", asked)
    same((status, errors, out), (0, "", wanted), "`explain` where the clock was set back")


@takes(4)
def test_a_killed_service_leaves_what_was_written(bench):
    """The program is killed: all but the last second of what it did is there, and its replay is the same."""
    folder = folder_of(bench)
    text, taps = service(bench, folder)
    gateway = bench.gateway(text).serves(1, 2, 3)
    taps[1].connect(101)
    taps[1].comes(6000)
    gateway.process.kill()
    gateway.process.wait()
    status, out, _ = tool(bench, "verify", files_in(folder))
    found = verdict_in(out)
    same((found["differing"], found["answers"] if not found["missing"] else 0, found["unspelled"]), (0, 0, 0), out)
    expect(found["records"] > 100, out)
    missing = [int(it.split()[2]) for it in out.splitlines() if it.startswith("missing: ")]
    expect(all(it > found["records"] - 400 for it in missing), f"what is missing is at the end: {out}")


def explained(bench, files, begin):
    """The lines of `explain` for the frames of stream 101 from a second on."""
    words = [*files, "--subscriber", "1", "--stream", "101", "--from", begin, "--to", "2100-01-01T00:00:00Z"]
    status, out, errors = tool(bench, "explain", words)
    same((status, errors), (0, ""), f"`explain`: {out}")
    return [it for it in out.splitlines() if it.startswith(begin[:4])]


@takes(12)
def test_without_its_first_files(bench):
    """The first file is removed: from the next one on the recording is replayed, as the service was set up then. A subscriber that connects after that
    is compared, and each of its frames explained as by the whole recording."""
    folder, fast = folder_of(bench), bench.source(8)
    text, taps = service(bench, folder, more="record_mb = 16\n")
    gateway = bench.gateway(text + pmu(8, ahead_ms=None, connect=fast.address)).serves(1, 2, 3)
    link = fast.come()
    taps[1].connect(101)
    taps[2].connect(201, 202)
    edits(gateway, "revoke 1 9/91")
    taps[3].connect(301)
    taps[3].stop(301)
    first = now_soc() * fast.rate
    frames = b"".join(fast.data(first + at, at) for at in range(fast.rate))
    link.socket.settimeout(60)
    while len(files_in(folder)) < 3:
        link.send(frames * 100)
        time.sleep(0.3)
    edits(gateway, "grant 1 9/91")
    taps[1].stop(101)
    begin = time.strftime("%Y-%m-%dT%H:%M:%SZ", time.gmtime(time.time() + 2))
    taps[1].connect(101)
    taps[3].connect(301)
    taps[1].comes(6_000)
    taps[1].stop(101)
    gateway.quit()
    whole, files = verified(bench, folder), files_in(folder)
    # By their names the files of a clock that was set back come in another order.
    status, out, errors = tool(bench, "verify", files[::-1])
    same((status, errors, out.count("\n"), verdict_in(out)), (0, "", 1, whole), f"`verify` of the files in another order: {out}")
    status, out, errors = tool(bench, "verify", files[2:])
    lines, found = out.splitlines(), verdict_in(out)
    same((status, errors, len(lines)), (0, "", 3), out)
    expect(re.fullmatch(r"\S+Z: begins at place \d+, as the service was set up then", lines[0]), lines[0])
    expect(re.fullmatch(LEFT_OUT, lines[1]), lines[1])
    expect(50 < found["drains"] < whole["drains"], f"{found} of {whole}")
    wanted = explained(bench, files, begin)
    expect(len(wanted) > 30, f"{len(wanted)} lines")
    same(explained(bench, files[2:], begin), wanted, "the lines of `explain`")
    # The second subscriber did not connect again: it is compared a minute later.
    first, last = blocks_in(files[2])[0][0], blocks_in(files[-1])[-1][0]
    begun_slower(files[2:], first, 40 / (last - first))
    same(verdict_in(tool(bench, "verify", files[2:])[1])["drains"], found["drains"], "drains that are compared before the minute")
    begun_slower(files[2:], first, 2.5)
    status, out, _ = tool(bench, "verify", files[2:])
    same((status, verdict_in(out)["differing"]), (0, 0), out)
    expect(verdict_in(out)["drains"] > found["drains"] + 20, f"a minute later: {out}")


@takes(6)
def test_two_starts_in_one_folder(bench):
    """The service is started again: `verify` and `explain` take both recordings, one after the other."""
    folder = folder_of(bench)
    text, taps = service(bench, folder)
    counts = []
    begin = time.strftime("%Y-%m-%dT%H:%M:%SZ", time.gmtime())
    for _ in range(2):
        gateway = bench.gateway(text).serves(1, 2, 3)
        taps[1].connect(101)
        taps[1].comes(2000)
        taps[1].stop(101)
        gateway.quit()
        status, out, errors = tool(bench, "verify", files_in(folder))
        same((status, errors), (0, ""), out)
        counts.append((verdict_in(out)["drains"], len(explained(bench, files_in(folder), begin)), out.count("\n")))
    (drains, frames, lines), (both, frames_of_both, lines_of_both) = counts
    expect(both > drains + 20 and frames_of_both > frames + 10, f"{counts}")
    same((lines, lines_of_both), (1, 2), "lines of `verify`")
    expect(re.match(r"\S+Z: the service started again\n", out), out)
    # As by a service that wrote no block at the head of a file.
    path = files_in(folder)[0]
    with open(path, "rb") as f:
        whole = f.read()
    with open(path, "wb") as f:
        f.write(whole[30:])
    status, again, _ = tool(bench, "verify", files_in(folder))
    same((status, again.endswith(out)), (0, True), again)
    asked = ["--subscriber", "1", "--from", begin, "--to", "2100-01-01T00:00:00Z"]
    for words in (["script", *files_in(folder)], ["explain", *files_in(folder), *asked]):
        _, out, _ = tool(bench, words[0], words[1:])
        same(len(re.findall(r"^# \S+Z: the service started again$", out, re.M)), 1, out)


def recorded(page):
    """What the metrics say of the recording: bytes written and not written, calls missed and unspelled."""
    found = metrics(page)
    return [int(found[f"pdcgw_recording_{it}_total"]) for it in ("written_bytes", "unwritten_bytes", "missed_calls", "unspelled_calls")]


def slowed(bench, gateway, path, seconds):
    """A process that holds each write of the gateway to this file up for so long."""
    made = subprocess.Popen(["strace", "-f", "-q", "-p", str(gateway.process.pid), "-P", path, "-e", "trace=write",
                             "-e", f"inject=write:delay_enter={seconds * 1_000_000}", "-o", "/dev/null"],
                            stdin=subprocess.DEVNULL, stdout=subprocess.DEVNULL, stderr=subprocess.PIPE)
    time.sleep(1)
    if made.poll() is not None:
        raise PassedBy(f"strace can't trace a process here: {made.stderr.read().decode().strip()}")
    return made


@takes(20)
def test_a_slow_disk_holds_nothing_up(bench):
    """Each write to the first file takes four seconds, and a source sends 150,000 data frames: an ERROR and the metrics say how many calls are missing,
    so does `verify`, also of the last file alone, and meanwhile each subscriber gets each frame."""
    if not shutil.which("strace"):
        raise PassedBy("there is no strace")
    folder, page, fast = folder_of(bench), bench.port(), bench.source(8)
    text, taps = service(bench, folder, more=f'status = "127.0.0.1:{page}"\nrecord_mb = 16\n')
    gateway = bench.gateway(text + pmu(8, ahead_ms=None, connect=fast.address)).serves(1, 2, 3)
    link = fast.come()
    reader = bench.reader(taps[1].port, [101])
    until(lambda: files_in(folder) and recorded(page)[0] > 10_000, "a recording")
    slow = slowed(bench, gateway, files_in(folder)[0], 4)
    first = now_soc() * fast.rate
    frames = b"".join(fast.data(first + at, at) for at in range(fast.rate))
    link.socket.settimeout(60)
    for _ in range(150_000 // fast.rate):
        link.send(frames)
    begun = reader.count("right", 101)
    until(lambda: reader.count("right", 101) > begun + 60, "frames while the disk is slow")
    gateway.logs(r"ERROR \d+ records are missing in the recording: the disk is too slow.*", seconds=30)
    slow.terminate()
    slow.wait()
    reader.is_whole(101, 60)
    until(lambda: recorded(page)[2] > 0, "missed calls in the metrics", seconds=10)
    begins_a_file(folder, fast)
    time.sleep(1)
    missed = recorded(page)[2]
    gateway.quit()
    reported = [int(found[1]) for found in (re.search(r"ERROR (\d+) records? (?:is|are) missing in the recording", it) for it in gateway.log.lines) if found]
    same(sum(reported), missed, f"calls that the log reports as missing: {reported}")
    status, out, _ = tool(bench, "verify", files_in(folder))
    same(status, 1, f"`verify`: {out}")
    expect("missing: places " in out, out)
    same(verdict_in(out)["differing"], 0, out)
    status, out, _ = tool(bench, "verify", files_in(folder)[-1:])
    found = re.match(r"\S+Z: begins at place \d+, as the service was set up then, but for (\d+) calls before that, which are not kept\n", out)
    expect(found and int(found[1]) > 0, f"`verify` of the last file: {out}")


def begins_a_file(folder, source):
    """A source sends until one more file is begun."""
    files, first = len(files_in(folder)), now_soc() * source.rate
    frames = b"".join(source.data(first + at, at) for at in range(source.rate))
    until(lambda: source.link.send(frames * 100) or len(files_in(folder)) > files, "one more file")


@takes(6)
def test_configurations_that_are_forgotten(bench):
    """Of a source that changes its configuration eleven times the next file has the last eight, and says how many it has not."""
    folder, fast = folder_of(bench), bench.source(8)
    text, _ = service(bench, folder, more="record_mb = 16\n")
    gateway = bench.gateway(text + pmu(8, ahead_ms=None, connect=fast.address)).serves(1, 2, 3)
    link = fast.come()
    for count in range(1, 12):
        link.send(fast.configuration(count=count))
    begins_a_file(folder, fast)
    gateway.quit()
    verified(bench, folder)
    _, out, _ = tool(bench, "verify", files_in(folder)[1:])
    expect(re.match(r"\S+Z: begins at place \d+, as the service was set up then, but for 4 calls before that, which are not kept\n", out), out)


@takes(6)
def test_a_setup_larger_than_half_a_file(bench):
    """Edits that take more than half of a file are not repeated at the head of the next one, which the log says, and `verify` of that file alone."""
    folder, fast = folder_of(bench), bench.source(8)
    text, _ = service(bench, folder, more="record_mb = 16\n")
    gateway = bench.gateway(text + pmu(8, ahead_ms=None, connect=fast.address)).serves(1, 2, 3)
    fast.come()
    for _ in range(100):
        same(len(gateway.ask("\n".join(["revoke 1 9/91", "grant 1 9/91"] * 100), 200)), 200, "answers")
    begins_a_file(folder, fast)
    gateway.logs(r"WARN a file of the recording is replayed only behind those before it: .* \(raise `record_mb`\) or 16 MB \(restart the gateway\)")
    gateway.quit()
    verified(bench, folder)
    status, out, _ = tool(bench, "verify", files_in(folder)[1:])
    same((status, out.startswith("missing: places 0 to ")), (1, True), out)


@takes(6)
def test_a_full_disk_holds_nothing_up(bench):
    """The disk takes no more: the log has an ERROR, each subscriber gets each frame, and what is missing shows."""
    folder, page = folder_of(bench), bench.port()
    text, taps = service(bench, folder, more=f'status = "127.0.0.1:{page}"\n')
    words = ["sh", "-c", 'trap "" XFSZ; exec "$@"', "sh", "prlimit", "--fsize=30000"]
    gateway = bench.gateway(text, words=words).serves(1, 2, 3)
    reader = bench.reader(taps[1].port, [101])
    gateway.logs(r"ERROR the recording can't be written: .*; what happens meanwhile is missing in it", seconds=20)
    begun = reader.count("right", 101)
    until(lambda: reader.count("right", 101) > begun + 60, "frames while nothing is recorded")
    reader.is_whole(101, 60)
    written, unwritten, missed, unspelled = until(lambda: recorded(page)[1] and recorded(page), "bytes that were not written in the metrics")
    same((0 < written <= 30_000, missed, unspelled), (True, 0, 0), f"metrics of a full disk, with {unwritten} bytes that were not written")
    gateway.quit()
    status, out, _ = tool(bench, "verify", files_in(folder))
    same(status, 1, f"`verify`: {out}")
    expect("missing: places " in out, out)


def test_a_folder_that_is_not_there(bench):
    """Without its folder the program does not start, and says which line of the setup is wrong."""
    text, _ = service(bench, f"{bench.folder}/none")
    gateway = bench.gateway(text)
    same(gateway.ended(), 1)
    same([re.sub(r"^.*/", "", it) for it in gateway.log.lines[-2:]], ["setup.toml:1: record: there is no such folder", "pdcgw: 39 ReadFault"])
