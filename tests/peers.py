"""The peers of a test: simulated sources, subscribers, and the program under test with its setup file, its log, its lines and its page.

A test is a function that gets one `Bench`. The bench gives it ports and files of its own, and ends all that it started.
"""
import ctypes
import fcntl
import os
import re
import signal
import socket
import struct
import subprocess
import sys
import threading
import time
from collections import namedtuple

sys.path.insert(0, os.path.join(os.path.dirname(os.path.abspath(__file__)), "..", "tools"))
from c37118 import (BASE, COMMAND, CONFIG_2, DATA, SEND_CONFIG_2, START, STOP, block, command, configuration, data_of, frame, frames_in,  # noqa: E402
                    stamp)

# For how many seconds a test waits for something that has to come.
PATIENCE = 15
# The call of fcntl that sets the size of a pipe (Linux).
F_SETPIPE_SZ = 1031
RATE = 30
# Ports are below 32,768, since the system gives the others to clients. Each test claims a block of them.
FIRST_PORT, BLOCK, BLOCKS = 10_000, 40, 240


class Failed(Exception):
    """What a test expected is not so."""


class Closed(Failed):
    """The gateway closed a connection over which something was expected."""


class Late(Failed):
    """No frame came in the time that was given."""


class PassedBy(Exception):
    """This machine does not permit what a test needs."""


def expect(holds, what):
    if not holds:
        raise Failed(what)


def same(came, wanted, what=""):
    if came != wanted:
        raise Failed(f"{what}\n    came:   {repr(came)[:2000]}\n    wanted: {repr(wanted)[:2000]}")


def until(condition, what, seconds=PATIENCE):
    """The first true value of a condition that is looked at each 10 ms."""
    end = time.monotonic() + seconds
    while True:
        found = condition()
        if found:
            return found
        if time.monotonic() > end:
            raise Failed(f"did not come within {seconds} s: {what}")
        time.sleep(0.01)


def now_soc():
    return int(time.time())


def number_block(number, phasors=1):
    """A block whose phasors are a number, which says which frame it is."""
    return block(struct.pack(">I", number), phasors)


def filler(phasors=1):
    """The block of a member whose data did not come."""
    return b"\x80\0" + b"\x80\0\x80\0" * phasors + b"\x80\0\x80\0"


def text_of(value):
    if isinstance(value, bool):
        return "true" if value else "false"
    if isinstance(value, (list, tuple)):
        return "[" + ", ".join(text_of(it) for it in value) + "]"
    return str(value) if isinstance(value, int) else f'"{value}"'


def table(heading, keys):
    """The text of a table of a setup file."""
    return "\n".join([f"[[{heading}]]", *(f"{key} = {text_of(value)}" for key, value in keys.items())]) + "\n"


def pmu(number, ahead_ms=0, **keys):
    """A PMU. Most tests send data of a time to come, so that its clock is not guarded unless a test says so; `None` leaves the key out."""
    ahead = {} if ahead_ms is None else {"ahead_ms": ahead_ms}
    return table("pmu", {"id": number, **ahead, **keys})


def subscriber(number, port=None, ring=64, **keys):
    opened = {} if port is None else {"port": port}
    return table("subscriber", {"id": number, **opened, "ring": ring, **keys})


def stream(number, members, rate=RATE, wait=1, window=4, **keys):
    return table("subscriber.stream", {"id": number, "rate": rate, "base": BASE, "wait": wait, "window": window, "members": members, **keys})


class Connection:
    """A TCP connection that carries frames."""

    def __init__(self, made):
        self.socket, self.buffer, self.frames = made, bytearray(), []
        made.setsockopt(socket.IPPROTO_TCP, socket.TCP_NODELAY, 1)

    def send(self, what):
        self.socket.settimeout(PATIENCE)
        self.socket.sendall(what)

    def frame(self, seconds=PATIENCE):
        """The next frame. Its CHK is right."""
        end = time.monotonic() + seconds
        while not self.frames:
            left = end - time.monotonic()
            if left <= 0:
                raise Late(f"no frame came within {seconds} s")
            self.socket.settimeout(left)
            try:
                piece = self.socket.recv(1 << 16)
            except socket.timeout:
                continue
            if not piece:
                raise Closed("the gateway closed the connection, and a frame was expected")
            self.buffer += piece
            self.frames = frames_in(self.buffer)
        got = self.frames.pop(0)
        same(frame_like(got), got, "a frame is not as its fields, SYNC or CHK say")
        return got

    def comes(self, wanted, seconds=PATIENCE):
        """The next frame is this one."""
        same(self.frame(seconds).hex(), wanted.hex(), "another frame came")

    def is_closed(self, seconds=PATIENCE):
        """Whether the peer closes, before which some bytes may come."""
        end = time.monotonic() + seconds
        while time.monotonic() < end:
            self.socket.settimeout(max(0.01, end - time.monotonic()))
            try:
                if not self.socket.recv(1 << 16):
                    return True
            except socket.timeout:
                return False
            except ConnectionError:
                return True
        return False

    def is_quiet(self, seconds):
        """Whether nothing comes for so long, and the connection stays."""
        self.socket.settimeout(seconds)
        try:
            piece = self.socket.recv(1 << 16)
        except socket.timeout:
            return not self.frames and not self.buffer
        self.buffer += piece
        return False

    def close(self):
        self.socket.close()


def frame_like(got):
    """The frame that has the fields of this one."""
    idcode, soc, frac = struct.unpack(">HII", got[4:14])
    return frame(got[1] >> 4, idcode, soc, frac, got[14:-2])


class Source:
    """A simulated source: it listens, and the test answers its calls."""

    def __init__(self, idcode, host, port, pmus=None, rate=RATE, phasors=1, backlog=64):
        self.idcode, self.pmus, self.rate, self.phasors = idcode, pmus or [idcode], rate, phasors
        self.address, self.link = f"{host}:{port}", None
        self.listener = socket.socket()
        self.listener.setsockopt(socket.SOL_SOCKET, socket.SO_REUSEADDR, 1)
        self.listener.bind((host, port))
        self.listener.listen(backlog)

    def accept(self, seconds=PATIENCE):
        """The next call."""
        self.listener.settimeout(seconds)
        try:
            self.link = Connection(self.listener.accept()[0])
        except socket.timeout:
            raise Failed(f"source {self.idcode} was not called within {seconds} s") from None
        return self.link

    def is_called(self, seconds):
        try:
            self.accept(seconds)
        except Failed:
            return False
        return True

    def is_asked(self, word):
        """The next frame that comes is this command to this source: without a time, whose quality is "not reliable"."""
        self.link.comes(frame(COMMAND, self.idcode, 0, 0x0F000000, struct.pack(">H", word)))

    def configuration(self, count=0):
        return configuration(self.idcode, self.pmus, self.rate, self.phasors, count=count)

    def announce(self):
        """Answers command 5 by the configuration, and takes command 2."""
        self.is_asked(SEND_CONFIG_2)
        self.link.send(self.configuration())
        self.is_asked(START)

    def come(self, seconds=PATIENCE):
        """Takes a call, and announces. Calls that the gateway gave up before are passed over."""
        end = time.monotonic() + seconds
        while True:
            self.accept(max(0.1, end - time.monotonic()))
            try:
                self.announce()
                return self.link
            except (Closed, ConnectionError):
                self.link.close()

    def blocks(self, number):
        """The blocks of a data frame: the phasors are numbers, rising by 1 from PMU to PMU."""
        return b"".join(number_block(number + at, self.phasors) for at in range(len(self.pmus)))

    def data(self, slot, number, seconds_off=0):
        """A data frame of a slot."""
        soc, frac = stamp(slot, self.rate)
        return frame(DATA, self.idcode, soc + seconds_off, frac, self.blocks(number))

    def measure(self, slot, number, seconds_off=0):
        self.link.send(self.data(slot, number, seconds_off))

    def close(self):
        if self.link:
            self.link.close()
        self.listener.close()


def named_block(number, slot, phasors=1, fnom=0):
    """A block that says what it is: each phasor holds the PMU and the slot, and FREQ is the FNOM of its CFG-2."""
    return bytes(2) + struct.pack(">HH", number, slot % 10_000) * phasors + struct.pack(">HH", fnom, 0)


def layout_of(got):
    """What a CFG-2 says that data frames hold: PMU, phasors and FNOM of each block."""
    at, found = 20, []
    for _ in range(struct.unpack(">H", got[18:20])[0]):
        number, _, phasors, analogs, digitals = struct.unpack(">5H", got[at + 16:at + 26])
        at += 30 + 20 * phasors + 20 * analogs + (16 * 16 + 4) * digitals
        found.append((number, phasors, struct.unpack(">H", got[at - 4:at - 2])[0]))
    return found


def slot_of(got, rate):
    """The slot of a frame, by its SOC and FRACSEC."""
    soc, frac = struct.unpack(">II", got[6:14])
    return soc * rate + round((frac & 0xFFFFFF) * rate / BASE)


def read_by(got, layout, rate):
    """How a data frame of named blocks is read by a layout: `right`, and `filled` where a filler stands in it; `unfit` where its length is
    another one, which each reader sees; `misread` where a block is not what the layout says."""
    if len(got) != 16 + sum(6 + 4 * phasors for _, phasors, _ in layout):
        return "unfit"
    at, verdict = 14, "right"
    for number, phasors, fnom in layout:
        part = got[at:at + 6 + 4 * phasors]
        at += len(part)
        if part == filler(phasors):
            verdict = "filled"
        elif part != named_block(number, slot_of(got, rate), phasors, fnom):
            return "misread"
    return verdict


class LiveSource(Source):
    """A source that plays by itself: it answers command 5, and once it is started sends a data frame of named blocks for each slot of
    this machine's clock. `fnom` is FNOM of its configuration: 0 for 60 Hz, 1 for 50 Hz. Its clock is `ahead` by so many seconds."""

    def __init__(self, idcode, host, port, fnom=0, ahead=0.0, **keys):
        super().__init__(idcode, host, port, **keys)
        self.fnom, self.ahead, self.is_on, self.is_over = fnom, ahead, False, False
        # Mute, it leaves slots out; held, it sends them later.
        self.is_mute = self.is_held = False
        self.lock = threading.Lock()
        threading.Thread(target=self.play, daemon=True).start()

    def configuration(self, count=0):
        got = bytearray(super().configuration(count)[:-2])
        for at in range(len(self.pmus)):
            end = 20 + (30 + 20 * self.phasors) * (at + 1)
            got[end - 4:end - 2] = struct.pack(">H", self.fnom)
        return frame_like(bytes(got) + bytes(2))

    def blocks(self, number):
        return b"".join(named_block(it, number, self.phasors, self.fnom) for it in self.pmus)

    def play(self):
        while not self.is_over:
            try:
                self.accept(1)
                self.serve_call(self.link)
            except (Failed, OSError):
                pass

    def serve_call(self, link):
        self.is_on, slot = False, int(time.time() * self.rate) + 1
        while not self.is_over:
            try:
                word = link.frame(max(0.005, slot / self.rate - time.time()))[15]
            except Late:
                word = 0
            with self.lock:
                if word == SEND_CONFIG_2:
                    link.send(self.configuration())
                self.is_on = word == START or (self.is_on and word != STOP)
                while slot / self.rate <= time.time() and not self.is_held:
                    if self.is_on and not self.is_mute:
                        at = slot + round(self.ahead * self.rate)
                        link.send(self.data(at, at))
                    slot += 1

    def announces(self, **keys):
        """It has another configuration, which it sends unasked."""
        with self.lock:
            vars(self).update(keys)
            self.link.send(self.configuration())

    def restarts(self, **keys):
        """Its connection ends, and it comes back with another configuration."""
        with self.lock:
            vars(self).update(keys)
            self.link.socket.shutdown(socket.SHUT_RDWR)

    def close(self):
        self.is_over = True
        super().close()


def is_stopped(task):
    """Whether a thread, by its folder in /proc, is stopped."""
    with open(f"{task}/stat", encoding="utf-8") as file:
        return file.read().rpartition(") ")[2][0] == "T"


class Subscriber(Connection):
    """A subscriber's connection to its port."""

    def __init__(self, port, host="127.0.0.1", own="127.0.0.1", receive=None):
        made = socket.socket()
        if receive:
            made.setsockopt(socket.SOL_SOCKET, socket.SO_RCVBUF, receive)
        made.bind((own, 0))
        made.settimeout(PATIENCE)
        try:
            made.connect((host, port))
        except OSError:
            made.close()
            raise
        super().__init__(made)
        self.name = "{}:{}".format(*made.getsockname())

    def command(self, idcode, word):
        self.send(command(idcode, word))

    def start(self, idcode):
        """Starts a stream. It is on when this returns: its CFG-2, asked for behind, is the result."""
        self.command(idcode, START)
        self.command(idcode, SEND_CONFIG_2)
        while True:
            got = self.frame()
            if got[1] >> 4 == CONFIG_2:
                return got

    def data(self, seconds=PATIENCE):
        """The next data frame."""
        while True:
            got = self.frame(seconds)
            if got[1] >> 4 == DATA:
                return got


Came = namedtuple("Came", "what stream layout bytes")


class Reader:
    """A strict reader, which plays by itself: it asks for CFG-2 of each of its streams, starts them, and reads each data frame by the CFG-2
    of its stream that came last. Where it is closed it connects `again`. `came` is what came: `connected`, `configuration`, `right`, `filled`,
    `unfit`, `misread`, `broken`, `closed`."""

    def __init__(self, port, streams, rate=RATE, asks=True, again=True):
        """Where it does not ask for CFG-2, `asks` is the layout of each stream that it takes for granted."""
        self.port, self.streams, self.rate, self.asks, self.again = port, streams, rate, asks, again
        self.came, self.layouts, self.link, self.is_over, self.connect = [], {}, None, False, Subscriber
        threading.Thread(target=self.play, daemon=True).start()

    def play(self):
        while not self.is_over:
            served = False
            try:
                self.link = self.connect(self.port)
                for it in self.streams:
                    if self.asks is True:
                        self.link.command(it, SEND_CONFIG_2)
                    else:
                        self.layouts[it] = self.asks
                        self.link.command(it, START)
                self.unstarted = set(self.streams if self.asks is True else [])
                while not self.is_over:
                    try:
                        got = self.link.frame(0.5)
                    except Late:
                        continue
                    except Closed:
                        break
                    if not served:
                        served = self.notes("connected")
                    self.take(got)
            except OSError:
                pass
            except Failed:
                self.notes("broken")
            if served:
                self.notes("closed")
                self.is_over = self.is_over or not self.again
            time.sleep(0.02)

    def notes(self, what, stream=0, layout=None, got=b""):
        self.came.append(Came(what, stream, layout, got))
        return True

    def take(self, got):
        kind, stream = got[1] >> 4, int.from_bytes(got[4:6], "big")
        if kind == CONFIG_2:
            self.layouts[stream] = layout_of(got)
            self.notes("configuration", stream, self.layouts[stream], got)
            if stream in self.unstarted:
                self.unstarted.discard(stream)
                self.link.command(stream, START)
        elif kind == DATA:
            self.notes(read_by(got, self.layouts[stream], self.rate), stream, self.layouts[stream], got)

    def count(self, what, stream=None):
        return sum(it.what == what and stream in (None, it.stream) for it in list(self.came))

    def reads(self, stream, pmus, frames=5, seconds=PATIENCE):
        """Waits until it reads so many frames more of these PMUs right."""
        begun = len(self.came)
        until(lambda: sum(it.what == "right" and it.stream == stream and [number for number, _, _ in it.layout] == pmus
                          for it in self.came[begun:]) >= frames, f"{frames} frames of stream {stream} with PMUs {pmus}, read right", seconds)

    def is_whole(self, stream, least):
        """It has one connection, and each frame of the stream from the first on, in order and read right. (A stream that is started between the
        data of two members has a filler in its first frame.)"""
        came = list(self.came)
        frames = [it for it in came if it.stream == stream and it.what != "configuration"]
        frames = frames[1:] if frames and frames[0].what == "filled" else frames
        same([(at, it.what) for at, it in enumerate(frames) if it.what != "right"], [], f"frames of stream {stream} that are not right")
        slots = [slot_of(it.bytes, self.rate) for it in frames]
        same(slots, list(range(slots[0], slots[0] + len(slots))) if slots else [], f"slots of stream {stream}")
        same([it.what for it in came if not it.bytes], ["connected"], "connections")
        expect(len(slots) >= least, f"{len(slots)} frames of stream {stream} came, and there are {least} at least")

    def moves(self, connect):
        """It ends its connection, and connects by this from now on."""
        self.connect = connect
        self.link.socket.shutdown(socket.SHUT_RDWR)

    def close(self):
        self.is_over = True
        if self.link:
            self.link.close()


class Host:
    """A host with a network of its own, joined to the network of the test's thread, where the gateway runs: `inner` is its address, `outer`
    the gateway's."""
    clone_newnet = 0x40000000

    @classmethod
    def enter_own_network(cls):
        """From now on the test's thread, and what it starts, is on a network that nobody else has."""
        if ctypes.CDLL(None, use_errno=True).unshare(cls.clone_newnet):
            raise PassedBy(f"no network namespace can be made: {os.strerror(ctypes.get_errno())}")
        cls.ip("link", "set", "lo", "up")

    @staticmethod
    def ip(*words):
        try:
            done = subprocess.run(["ip", *words], stdin=subprocess.DEVNULL, stdout=subprocess.DEVNULL, stderr=subprocess.PIPE)
        except OSError as error:
            raise PassedBy(f"`ip` of iproute2 can't be run: {error}") from None
        if done.returncode:
            raise PassedBy(f"ip {' '.join(words)}: {done.stderr.decode().strip()}")

    def __init__(self, number):
        self.number, self.inner, self.outer = number, f"10.77.{number}.2", f"10.77.{number}.1"
        with open("/proc/thread-self/ns/net") as around:
            self.enter_own_network()
            self.network = open("/proc/thread-self/ns/net")
            self.enter(around)
        self.ip("link", "add", f"to{number}", "type", "veth", "peer", "name", f"in{number}", "netns", f"/proc/{os.getpid()}/fd/{self.network.fileno()}")
        self.ip("addr", "add", f"{self.outer}/24", "dev", f"to{number}")
        self.ip("link", "set", f"to{number}", "up")
        self.within(lambda: self.ip("link", "set", f"in{number}", "up"))
        self.has_power()

    @classmethod
    def enter(cls, network):
        if ctypes.CDLL(None, use_errno=True).setns(network.fileno(), cls.clone_newnet):
            raise PassedBy(f"a network namespace can't be entered: {os.strerror(ctypes.get_errno())}")

    def within(self, work):
        """Does something on this host."""
        with open("/proc/thread-self/ns/net") as around:
            self.enter(self.network)
            try:
                return work()
            finally:
                self.enter(around)

    def connect(self, port, **keys):
        """A subscriber's connection from this host."""
        return self.within(lambda: Subscriber(port, host=self.outer, own=self.inner, **keys))

    def loses_power(self):
        """From now on nobody here answers: no acknowledgement, no FIN and no RST."""
        self.within(lambda: self.ip("addr", "flush", "dev", f"in{self.number}"))

    def has_power(self):
        self.within(lambda: self.ip("addr", "add", f"{self.inner}/24", "dev", f"in{self.number}"))


def is_refused(port, host="127.0.0.1"):
    """Whether nobody listens there."""
    try:
        Subscriber(port, host).close()
    except OSError:
        return True
    return False


class Lines:
    """The lines that come from a pipe, gathered by a thread."""

    def __init__(self, pipe):
        self.lines = []
        self.thread = threading.Thread(target=self.gather, args=(pipe,), daemon=True)
        self.thread.start()

    def gather(self, pipe):
        for line in pipe:
            self.lines.append(line.decode(errors="replace").rstrip("\n"))


class Simulated:
    """`pdcgw simulate` with these options, of source 7 unless they say otherwise."""

    def __init__(self, bench, *words, behind=()):
        """`behind` is a command that runs the program."""
        self.port = bench.port()
        self.address = f"127.0.0.1:{self.port}"
        self.process = subprocess.Popen([*behind, bench.program, "simulate", "--listen", self.address, *words], stdin=subprocess.DEVNULL,
                                        stdout=subprocess.PIPE)
        bench.made.append(self)
        self.out = Lines(self.process.stdout)
        until(lambda: self.out.lines, "the first line of `simulate`")

    def close(self):
        self.process.kill()
        self.process.wait()

    def said(self, line):
        """How often it printed this line, whichever client that names at its beginning."""
        return [re.sub(r"^[\d.]+:\d+: ", "", it) for it in list(self.out.lines)].count(line)

    def says(self, line, times=1):
        until(lambda: self.said(line) >= times, f"{times} x {line!r} of {self.out.lines[-5:]}")


class Gateway:
    """The program with a setup."""

    def __init__(self, bench, text, name="setup", gathers=True, words=()):
        """With `gathers` its standard output is read to its end; else that is left to the test. `words` is a command that runs the program."""
        self.bench, self.file = bench, f"{bench.folder}/{name}.toml"
        self.control = f"{bench.folder}/{name}.control"
        self.taken = 0
        self.write(text)
        self.process = subprocess.Popen([*words, bench.program, "run", "--setup", self.file], stdin=subprocess.PIPE, stdout=subprocess.PIPE,
                                        stderr=subprocess.PIPE, cwd=bench.folder)
        # The gateway leaves out lines that standard error does not take. A pipe of 64 KB fills sooner than a busy test reads; the system's
        # journal takes megabytes.
        try:
            fcntl.fcntl(self.process.stderr, F_SETPIPE_SZ, 1 << 20)
        except OSError:
            pass  # The system permits less: its default stays.
        self.log, self.out = Lines(self.process.stderr), Lines(self.process.stdout) if gathers else None

    def write(self, text):
        with open(self.file, "w") as f:
            f.write(text)

    def logged(self, pattern):
        """How often the log has this pattern. A line that says `(N times)` counts as so many."""
        found = [it for it in list(self.log.lines) if re.search(pattern + r"( \(\d+ times\))?$", it)]
        return sum(int((re.search(r"\((\d+) times\)$", it) or [1, 1])[1]) for it in found)

    def logs(self, pattern, times=1, seconds=PATIENCE):
        """Waits until the log has a line that ends with this pattern, so many times."""
        until(lambda: self.logged(pattern) >= times, f"{times} x {pattern!r} in the log", seconds)

    def line(self, pattern, seconds=PATIENCE):
        """The first line of the log that has this pattern."""
        return until(lambda: next((it for it in list(self.log.lines) if re.search(pattern, it)), None), f"{pattern!r} in the log", seconds)

    def serves(self, *subscribers):
        """Waits until the ports of these subscribers are open."""
        for number in subscribers:
            self.line(f"subscriber {number}: may connect at ")
        return self

    def freeze(self):
        """Stops the program, with all its threads, until it is sent SIGCONT."""
        self.process.send_signal(signal.SIGSTOP)
        tasks = f"/proc/{self.process.pid}/task"
        until(lambda: all(is_stopped(f"{tasks}/{it}") for it in os.listdir(tasks)), "the program's stop")

    def say(self, line):
        """Writes a line to standard input."""
        self.process.stdin.write(line.encode() + b"\n")
        self.process.stdin.flush()

    def lines(self, count, seconds=PATIENCE):
        """The next lines of standard output."""
        until(lambda: len(self.out.lines) >= self.taken + count, f"{count} lines on standard output", seconds)
        self.taken += count
        return self.out.lines[self.taken - count:self.taken]

    def ask(self, line, count=1):
        """The lines that answer a line on standard input."""
        self.say(line)
        return self.lines(count)

    def does(self, line, *answer):
        """A line is answered so."""
        same(self.ask(line, len(answer)), list(answer), f"{line}:")

    def reload(self, text, *answer):
        """The file becomes this one; `reload` is answered so."""
        self.write(text)
        self.does("reload", *answer)

    def reloads(self, text):
        """The file becomes this one; the lines by which `reload` is answered."""
        self.write(text)
        self.say("reload")
        found = self.lines(1)
        while not found[-1].startswith(("reloaded: ", "refused 37")):
            found += self.lines(1)
        return found

    def answer(self, line):
        """All lines that answer a line on standard input: up to the answer to a second line, which is no command."""
        self.say(line)
        self.say("marker")
        found = []
        while not found or found[-1] != "refused 36 BadLine":
            found += self.lines(1)
        return found[:-1]

    def status(self):
        """The lines of `status`, by their first words: `source 7`, `subscriber 1`, `stream 1 101`."""
        return {" ".join(it.split()[:3 if it.startswith("stream") else 2]): it for it in self.answer("status")}

    def counters(self, line):
        """The numbers of `stats U` or `pmustats P` by name; those of a reason by its number."""
        words = self.ask(line)[0].replace(":", " ").split()[1:]
        return dict(zip(words[::2], map(int, words[1::2])))

    def ctl(self, *lines):
        """`pdcgw ctl` with these lines: its status, its output and its errors."""
        done = subprocess.run([self.bench.program, "ctl", "--control", self.control, *lines], stdin=subprocess.DEVNULL,
                              stdout=subprocess.PIPE, stderr=subprocess.PIPE, timeout=PATIENCE * 2)
        return done.returncode, done.stdout.decode(), done.stderr.decode()

    def ended(self, seconds=PATIENCE):
        """The status by which the program ends."""
        try:
            status = self.process.wait(seconds)
        except subprocess.TimeoutExpired:
            raise Failed(f"the program did not end within {seconds} s") from None
        self.log.thread.join(PATIENCE)
        return status

    def quit(self):
        self.say("quit")
        same(self.ended(), 0, "status at quit")


class SetClock:
    """The clock of a program that is run behind `words`, which a test can set. The C compiler `cc` makes the library for that."""

    def __init__(self, folder):
        library, source = f"{folder}/clock.so", os.path.join(os.path.dirname(os.path.abspath(__file__)), "clock.c")
        subprocess.run(["cc", "-O1", "-shared", "-fPIC", "-o", library, source, "-ldl"], check=True)
        self.file = f"{folder}/clock"
        self.words = ("env", f"LD_PRELOAD={library}", f"CLOCK_FILE={self.file}")
        with open(self.file, "wb") as f:
            f.write(bytes(8))

    def ahead(self, seconds):
        """It is so many seconds ahead from now on."""
        with open(self.file, "r+b") as f:
            f.write(struct.pack("=q", seconds))


def http(port, path, host="127.0.0.1", method="GET"):
    """The answer to a request of the page's host: its head, and its body."""
    with socket.create_connection((host, port), PATIENCE) as peer:
        peer.sendall(f"{method} {path} HTTP/1.1\r\nHost: here\r\n\r\n".encode())
        answer = read_all(peer)
    head, _, body = answer.partition(b"\r\n\r\n")
    return head.decode(), body.decode()


def read_all(peer):
    """All bytes until the peer closes."""
    peer.settimeout(PATIENCE)
    got = bytearray()
    while True:
        try:
            piece = peer.recv(1 << 16)
        except ConnectionResetError:
            piece = b""
        if not piece:
            return bytes(got)
        got += piece


def metrics(port):
    """The metrics, by their name with its labels."""
    head, body = http(port, "/metrics")
    same(head.split("\r\n")[0], "HTTP/1.1 200 OK")
    return dict(it.rsplit(" ", 1) for it in body.splitlines() if it and not it.startswith("#"))


class Bench:
    """What a test gets: the program, a folder, ports, and all that it started, which end with it."""

    def __init__(self, program, folder):
        self.program, self.folder = program, folder
        self.made, self.gateways = [], []
        self.claim, self.next_port = claimed_block()

    def port(self):
        """A port that nobody listens at."""
        while True:
            port, self.next_port = self.next_port, self.next_port + 1
            with socket.socket() as tried:
                tried.setsockopt(socket.SOL_SOCKET, socket.SO_REUSEADDR, 1)
                try:
                    tried.bind(("", port))
                except OSError:
                    continue
                return port

    def listener(self, host=""):
        """A socket of another program, which listens at a port of its own."""
        made = socket.socket()
        self.made.append(made)
        # (connections of an earlier test that had this port do not hold it back)
        made.setsockopt(socket.SOL_SOCKET, socket.SO_REUSEADDR, 1)
        made.bind((host, self.port()))
        made.listen()
        return made

    def source(self, idcode, host="127.0.0.1", port=None, **keys):
        made = Source(idcode, host, port or self.port(), **keys)
        self.made.append(made)
        return made

    def live(self, idcode, host="127.0.0.1", port=None, **keys):
        made = LiveSource(idcode, host, port or self.port(), **keys)
        self.made.append(made)
        return made

    def subscriber(self, port, **keys):
        made = Subscriber(port, **keys)
        self.made.append(made)
        return made

    def reader(self, port, streams, **keys):
        made = Reader(port, streams, **keys)
        self.made.append(made)
        return made

    def gateway(self, text, name="setup", **keys):
        """Starts the program."""
        made = Gateway(self, text, name, **keys)
        self.gateways.append(made)
        return made

    def end(self):
        for gateway in self.gateways:
            if gateway.process.poll() is None:
                gateway.process.kill()
            gateway.process.wait()
        for it in self.made:
            it.close()


def claimed_block():
    """A block of ports that no other test has: the socket that claims it, and its first port."""
    for at in range(BLOCKS):
        place = (os.getpid() + at) % BLOCKS
        claim = socket.socket(socket.AF_UNIX)
        try:
            claim.bind(f"\0pdcgw-tests-{place}")
            return claim, FIRST_PORT + BLOCK * place
        except OSError:
            claim.close()
    raise Failed("no block of ports is free")


def takes(seconds):
    """Marks a test that takes so many seconds, so that it begins early."""
    def marked(test):
        test.seconds = seconds
        return test
    return marked


class Pair:
    """Two sources and two subscribers of unlike numbers: source 7 and source 9, which has another address; subscriber 1 has stream 101 of
    PMU 7, and subscriber 20 has stream 2000 of source 9's PMUs and stream 2001 of PMU 7."""

    def __init__(self, bench, first=None, second=None, seven=None, nine=None, more="", wide=False):
        """`first` and `second` are more keys of the subscribers, `seven` and `nine` of the PMUs, `more` is the text before all tables. With
        `wide` source 9 has 16 PMUs of 27 phasors, 120 frames a second, so that few frames fill a socket."""
        self.bench, self.next, self.slot = bench, 0, 0
        pmus, self.nine_rate, phasors = (list(range(41, 57)), 120, 27) if wide else ([9], RATE, 1)
        self.seven, self.nine = bench.source(7), bench.source(9, host="127.0.0.2", pmus=pmus, rate=self.nine_rate, phasors=phasors)
        self.ports = bench.port(), bench.port()
        keys = [f"9/{it}" for it in pmus]
        of_nine = "".join(pmu(it, source=9, **({"connect": self.nine.address, **(nine or {})} if at == 0 else {})) for at, it in enumerate(pmus))
        self.tables = [pmu(7, **{"connect": self.seven.address, **(seven or {})}), of_nine,
                       subscriber(1, self.ports[0], **{"grants": [7], **(first or {})}) + stream(101, [7]),
                       subscriber(20, self.ports[1], **{"grants": [*keys, 7], **(second or {})}) + stream(2000, keys, rate=self.nine_rate)
                       + stream(2001, [7])]
        self.text = more + "".join(self.tables)

    def run(self, **keys):
        """Starts the gateway, and has both sources announce."""
        self.gateway = self.bench.gateway(self.text, **keys).serves(1, 20)
        self.nine.come()
        self.seven.come()
        self.gateway.line("source 7: announced")
        self.gateway.line("source 9: announced")
        return self.gateway

    def start(self, **keys):
        """Connects both subscribers, and starts streams 101 and 2000. `keys` are those of subscriber 20's connection."""
        self.first, self.second = self.bench.subscriber(self.ports[0]), self.bench.subscriber(self.ports[1], **keys)
        self.first.start(101)
        self.second.start(2000)
        return self.first, self.second

    def slots(self, count=1):
        """Slots that were not used before, each with a number for its blocks."""
        if not self.slot:
            self.slot = now_soc() * RATE
        for _ in range(count):
            self.slot, self.next = self.slot + 1, self.next + 1
            yield self.slot, self.next

    def settle(self):
        """Waits until the connections that stand may be replaced, which takes 5 seconds. Both sources, which send no data meanwhile, are asked
        again and announce."""
        time.sleep(5.1)
        for source in (self.seven, self.nine):
            source.announce()

    def first_is_served(self, count=1):
        """Subscriber 1 gets the next frames of source 7 and no other, byte for byte."""
        for slot, number in self.slots(count):
            self.seven.measure(slot, number)
            self.first.comes(stream_frame(101, slot, number))

    def second_is_served(self, count=1):
        """Subscriber 20 gets the next frames of source 9 by stream 2000 and no other, byte for byte."""
        for slot, number in self.slots(count):
            self.nine.measure(slot, number)
            self.second.comes(stream_frame(2000, slot, number))

    def fill(self, count=4000):
        """So many frames of source 9, as fast as they are taken: what stream 2000 has to have of each, by its SOC and FRACSEC."""
        # (stamps may be 30 s from now)
        begun, wanted = (now_soc() - 20) * self.nine_rate, {}
        for at in range(0, count, 20):
            slots = range(begun + at, begun + at + 20)
            self.nine.link.send(b"".join(self.nine.data(slot, slot - begun) for slot in slots))
            self.gateway.ask("stats 20")
            wanted.update({stamp(slot, self.nine_rate): frame(DATA, 2000, *stamp(slot, self.nine_rate), self.nine.blocks(slot - begun))
                           for slot in slots})
        return wanted


def with_wrong_check(got):
    """The same frame, but for its CHK."""
    return got[:-1] + bytes([got[-1] ^ 1])


def stream_frame(idcode, slot, *numbers, rate=RATE):
    """A data frame of a stream, whose blocks have these numbers."""
    return data_of(idcode, *stamp(slot, rate), [number_block(it) for it in numbers])
