"""The control socket: which user may connect, how lines are answered, and that no client of it costs another one anything."""
import os
import signal
import socket
import stat
import subprocess
import sys
import time

from peers import PATIENCE, Lines, Pair, PassedBy, expect, metrics, pmu, read_all, same, subscriber, takes, until


class Client:
    """A client of the control socket."""

    def __init__(self, bench, path, seconds=PATIENCE):
        self.socket, self.got = socket.socket(socket.AF_UNIX), bytearray()
        bench.made.append(self)
        self.socket.settimeout(seconds)
        self.socket.connect(path)

    def send(self, what):
        self.socket.sendall(what)

    def gets(self, wanted):
        """These bytes come next."""
        while len(self.got) < len(wanted):
            piece = self.socket.recv(1 << 16)
            if not piece:
                break
            self.got += piece
        same(bytes(self.got[:len(wanted)]), wanted)
        del self.got[:len(wanted)]

    def is_closed(self):
        """Whether nothing more comes, and the connection ends."""
        try:
            return not self.got and not self.socket.recv(1)
        except ConnectionError:
            return True
        except socket.timeout:
            return False

    def close(self):
        self.socket.close()


def controlled(bench, **keys):
    """A pair whose gateway has a control socket: the pair, and the socket's path."""
    pair, path = Pair(bench, **keys), f"{bench.folder}/setup.control"
    pair.text = f'control = "{path}"\n' + pair.text
    return pair, path


def test_lines_of_the_control_socket(bench):
    """Lines of one write are answered in their order, and one whose end comes later; `end` is answered `end`. Standard output has none."""
    pair, path = controlled(bench)
    gateway = pair.run()
    one, other = Client(bench, path), Client(bench, path)
    one.send(b"pmustats 7\n\n# nothing\npmustats 77\nend\nstats")
    one.gets(b"pmustats taken 0\nrefused 23 NoSuchPmu\nend\n")
    other.send(b"grant 1 9\n")
    other.gets(b"done 0 0\n")
    one.send(b" 20\n")
    one.gets(b"stats made 0 dropped 0 lost 0 late 0 twice 0 cleared 0 handed 0 replies 0\n")
    gateway.does("revoke 1 9", "done 0 0")
    gateway.quit()


def test_lines_however_they_are_cut(bench):
    """Lines end with LF or CR LF, and the last one with the connection; they are answered in order, however their bytes come. Lines that are like `quit` or
    `end`, but another word, end nothing."""
    pair, path = controlled(bench)
    gateway = pair.run()
    text = b"pmustats 7\ngrant 1 9\r\n\n\r\n# nothing\n revoke\r1 9 \nstats 99"
    answers = b"pmustats taken 0\ndone 0 0\nrefused 36 BadLine\nrefused 26 NoSuchSub\n"
    for size in (1, 2, 7, 1000):
        client = Client(bench, path)
        for at in range(0, len(text), size):
            client.send(text[at:at + size])
            time.sleep(0.002)
        client.socket.shutdown(socket.SHUT_WR)
        same(read_all(client.socket), answers, f"pieces of {size} bytes:")
        gateway.does("revoke 1 9", "done 0 0")
    client = Client(bench, path)
    client.socket.shutdown(socket.SHUT_WR)
    same(read_all(client.socket), b"", "a client that sends nothing")
    client = Client(bench, path)
    for line in (b"qui", b"quite", b"quit now", b"Quit", b"\tquit", b"end ", b" end", b"ends", b"en"):
        client.send(line + b"\nend\n")
        client.gets(b"refused 36 BadLine\nend\n")
    gateway.quit()


def test_a_line_at_its_bound(bench):
    """A line of 4,096 bytes is taken whole, and one of 4,097 is refused and not cut: as a comment it has no answer."""
    pair, path = controlled(bench)
    gateway = pair.run()
    client = Client(bench, path)
    for size in (4096, 4097, 4096):
        client.send(b"#" * size + b"\nend\n")
        client.gets(b"refused 36 BadLine\nend\n" if size > 4096 else b"end\n")
    client.send(b"#" * 1_000_000)
    client.send(b"\nend\n")
    client.gets(b"refused 36 BadLine\nend\n")
    gateway.quit()


def test_a_client_that_reads_late_gets_each_answer(bench):
    """A client that has 300,000 bytes of answers unread gets all of them, in order, though its socket took only a part at a time."""
    pair, path = controlled(bench)
    gateway = pair.run()
    client, wanted = Client(bench, path), bytearray()
    while len(wanted) < 300_000:
        client.send(b"stats 20\npmustats 99\n")
        wanted += b"stats made 0 dropped 0 lost 0 late 0 twice 0 cleared 0 handed 0 replies 0\nrefused 23 NoSuchPmu\n"
    time.sleep(0.3)
    client.gets(bytes(wanted))
    gateway.quit()


def test_quit_waits_for_the_answers_before_it(bench):
    """`quit` with spaces around it, behind answers that its client does not read, ends the program once these are read, and no sooner; a last line `quit`
    without an end does it too."""
    for line in (b" quit \r\nstatus\n", b"quit"):
        pair, path = controlled(bench)
        gateway = pair.run()
        client = Client(bench, path)
        client.send(b"status\n" * 800 + line)
        client.socket.shutdown(socket.SHUT_WR)
        time.sleep(0.5)
        same(gateway.process.poll(), None, "the program, before the answers are read:")
        # Two sources with a PMU each, two subscribers and three streams.
        same(read_all(client.socket).count(b"\n"), 800 * 9, "lines of `status`")
        same(gateway.ended(3), 0)
        for source in (pair.seven, pair.nine):
            source.close()


def test_the_end_behind_a_reload(bench):
    """A client that ends its side behind `reload`, with or without an end of its line, gets the answer, and so does one that sends `quit` behind it, which
    ends the program then. Lines between reloads are answered in order. One that goes at once costs the others nothing."""
    pair, path = controlled(bench)
    gateway = pair.run()
    done = b"reloaded: 0 edits, 0 changes of connections and ports\n"
    for text, answers in ((b"pmustats 7\nreload", b"pmustats taken 0\n" + done), (b"reload\n", done),
                          (b"reload\npmustats 9\nreload\nend\nstats 99\n", done + b"pmustats taken 0\n" + done + b"end\nrefused 26 NoSuchSub\n")):
        Client(bench, path).send(b"reload\n")
        bench.made[-1].close()
        client = Client(bench, path)
        client.send(text)
        client.socket.shutdown(socket.SHUT_WR)
        same(read_all(client.socket), answers)
    client = Client(bench, path)
    client.send(b"pmustats 7\nreload\nquit\npmustats 9\n")
    same(read_all(client.socket), b"pmustats taken 0\n" + done)
    same(gateway.ended(3), 0)


# Lines for `ctl`; what the other side sends; what it is sent; what `ctl` prints; the status, and what it says: `{}` is the socket's path.
REFUSED = "{}: a command was refused; its answer has the reason, and docs/OPERATING.md says what that means\n"
ENDED = "{{}}: the connection ended before `{}` was answered; whether it was done is not known\npdcgw: 39 ReadFault\n"
BUSY = "{}: 8 clients are connected already, the most possible; try again when one has left\npdcgw: 34 Busy\n"
CONVERSATIONS = [
    (["status"], "source 7 - up\nstream 1 101 on\nend\n", "status\nend\n", "source 7 - up\nstream 1 101 on\n", 0, ""),
    # A line without an answer.
    (["# a remark", "addpmu 9"], "end\ndone 0 0\nend\n", "# a remark\nend\naddpmu 9\nend\n", "done 0 0\n", 0, ""),
    # One that is refused, and the others are sent all the same.
    (["addpmu 9", "addpmu 10"], "refused 24 PmuExists\nend\ndone 0 0\nend\n", "addpmu 9\nend\naddpmu 10\nend\n",
     "refused 24 PmuExists\ndone 0 0\n", 1, REFUSED),
    # The service ended within an answer, and before one. An answer without the mark behind it is not taken for all of it.
    (["status"], "source 7 - up\nstr", "status\nend\n", "source 7 - up\nstr", 1, ENDED.format("status")),
    (["addpmu 9", "addpmu 10", "addpmu 11"], "done 0 0\nend\n", "addpmu 9\nend\naddpmu 10\nend\n", "done 0 0\n", 1,
     ENDED.format("addpmu 10")),
    (["addpmu 9"], "done 0 0\n", "addpmu 9\nend\n", "done 0 0\n", 1, ENDED.format("addpmu 9")),
    (["status", "quit"], "refused 34 Busy\n", "status\nend\n", "refused 34 Busy\n", 1, BUSY),
    (["quit"], "refused 34 Busy\n", "quit\n", "refused 34 Busy\n", 1, BUSY),
    # What is refused so by a line is another thing.
    (["a"], "refused 34 Busy\nend\n", "a\nend\n", "refused 34 Busy\n", 1, REFUSED),
    # The end of the connection is what `quit` asks for, and nothing else.
    (["addpmu 9", " quit "], "done 0 0\nend\n", "addpmu 9\nend\n quit \n", "done 0 0\n", 0, ""),
    (["quit", "status"], "", "quit\nstatus\nend\n", "", 1, ENDED.format("status")),
    # Two lines in a word, of which one is `end` itself.
    (["addpmu 9\nend", "stats 1"], "done 0 0\nend\nend\nstats made 0\nend\n", "addpmu 9\nend\nend\nstats 1\nend\n",
     "done 0 0\nstats made 0\n", 0, ""),
]


def converse(bench, path, row, is_reset):
    """`ctl` gets this other side, which closes behind its answers; with `is_reset` before it has read, so that the connection is reset."""
    lines, back, sent, printed, status, errors = row
    with socket.socket(socket.AF_UNIX) as listener:
        listener.bind(path)
        listener.listen(1)
        done = subprocess.Popen([bench.program, "ctl", "--control", path, *lines], stdin=subprocess.DEVNULL, stdout=subprocess.PIPE, stderr=subprocess.PIPE)
        with listener.accept()[0] as peer:
            peer.settimeout(PATIENCE)
            came = bytearray()
            # Each answer is sent once its line has come.
            for part in [back] if is_reset else back.replace("end\n", "end\n\0").split("\0"):
                came += b"" if is_reset else peer.recv(1 << 16)
                if part:
                    peer.sendall(part.encode())
            peer.shutdown(socket.SHUT_WR)
            while not is_reset and len(came) < len(sent):
                came += peer.recv(1 << 16)
        out, told = done.communicate(timeout=PATIENCE)
    same((out.decode(), told.decode(), done.returncode), (printed, errors.format(path), status), f"ctl {lines}:")
    same(came.decode(), "" if is_reset else sent, f"ctl {lines} sends:")


def test_how_lines_of_ctl_were_answered(bench):
    """`ctl` sends each line once the one before it was answered, prints the answers, and says by its status and on standard error how they were answered,
    however the other side ends."""
    for at, row in enumerate(CONVERSATIONS):
        converse(bench, f"{bench.folder}/{at}.control", row, False)
        # (of a line that a reset cuts nothing is printed)
        if not row[1] or row[1].endswith("\n"):
            converse(bench, f"{bench.folder}/reset-{at}.control", row, True)


def test_output_of_ctl_that_can_not_be_written(bench):
    """Where standard output is full `ctl` says so, and its status is 1."""
    pair, path = controlled(bench)
    gateway = pair.run()
    with open("/dev/full", "w") as full:
        done = subprocess.run([bench.program, "ctl", "--control", path, "status"], stdin=subprocess.DEVNULL, stdout=full, stderr=subprocess.PIPE)
    same(done.returncode, 1)
    expect(done.stderr, "nothing is said")
    gateway.quit()


def test_ctl(bench):
    """`pdcgw ctl` prints the answers; its status is 1 where a line is refused, and where no gateway listens."""
    pair, path = controlled(bench)
    gateway = pair.run()
    same(gateway.ctl("addpmu 8", "grant 1 8", "pmustats 8"), (0, "done 0 0\ndone 0 0\npmustats taken 0\n", ""))
    status, out, errors = gateway.ctl("stats 77", "grant 1 9")
    same((status, out), (1, "refused 26 NoSuchSub\ndone 0 0\n"))
    expect(errors.startswith(f"{path}: a command was refused; "), errors)
    same(gateway.ctl("quit"), (0, "", ""))
    same(gateway.ended(3), 0)
    expect(not os.path.exists(path), "the socket goes with the service")
    status, out, errors = gateway.ctl("status")
    same((status, out), (1, ""))
    expect(errors.startswith(f"{path}: there is no such file; ") and errors.endswith("pdcgw: 39 ReadFault\n"), errors)


def test_quit_at_the_control_socket_ends_the_program(bench):
    """`quit` there ends the program within a second, though standard input stays open; answers before it are sent, lines behind it ignored."""
    pair, path = controlled(bench)
    gateway = pair.run()
    pair.start()
    client = Client(bench, path)
    time.sleep(1.2)
    begun = time.monotonic()
    client.send(b"pmustats 7\nquit\naddpmu 8\n")
    client.gets(b"pmustats taken 0\n")
    same(gateway.ended(5), 0)
    took = time.monotonic() - begun
    expect(took < 1.2, f"the program ended {took:.2f} s after `quit`")
    expect(client.is_closed() and pair.second.is_closed(1), "connections end with the program")


def test_a_ninth_client_is_refused(bench):
    """The ninth of nine clients is answered 34 and closed, the others are answered; a place that was left is taken again."""
    pair, path = controlled(bench)
    gateway = pair.run()
    clients = [Client(bench, path) for _ in range(9)]
    clients[8].gets(b"refused 34 Busy\n")
    expect(clients[8].is_closed(), "the ninth client was not closed")
    gateway.logs(r"WARN control socket: a client was refused \(34 Busy\): 8 are connected")
    for client in clients[:8]:
        client.send(b"pmustats 7\n")
        client.gets(b"pmustats taken 0\n")
        expect(not client.got, "more came than the answer")
    status, out, errors = gateway.ctl("status")
    same((status, out), (1, "refused 34 Busy\n"))
    expect(errors.startswith(f"{path}: 8 clients are connected already, ") and errors.endswith("pdcgw: 34 Busy\n"), errors)
    clients[3].close()
    time.sleep(0.2)
    again = Client(bench, path)
    again.send(b"pmustats 9\n")
    again.gets(b"pmustats taken 0\n")
    gateway.quit()


@takes(63)
def test_a_client_that_is_silent_gives_way(bench):
    """While eight clients are connected a ninth is refused, until one of them has been silent for 60 seconds: that one, and none that
    sent something since, is closed for it."""
    pair, path = controlled(bench)
    gateway = pair.run()
    silent = Client(bench, path)
    time.sleep(1)
    others = [Client(bench, path) for _ in range(7)]
    Client(bench, path).gets(b"refused 34 Busy\n")
    time.sleep(58)
    for client in others:
        client.send(b"pmustats 7\n")
        client.gets(b"pmustats taken 0\n")
    time.sleep(2.5)
    ninth = Client(bench, path)
    ninth.send(b"pmustats 9\n")
    ninth.gets(b"pmustats taken 0\n")
    expect(silent.is_closed(), "the silent client was not closed")
    gateway.logs("WARN control socket: a client that was silent for 60 s was disconnected to accept another")
    for client in others:
        client.send(b"pmustats 7\n")
        client.gets(b"pmustats taken 0\n")
    same(gateway.logged("WARN control socket: a client that was silent for 60 s was disconnected to accept another"), 1)
    gateway.quit()


def test_a_client_that_does_not_read_is_closed(bench):
    """A client is closed once more than a million bytes wait for it, and not before; another one is answered meanwhile."""
    pair, path = controlled(bench)
    gateway = pair.run()
    unread, other = Client(bench, path), Client(bench, path)
    # Each answer to `status` has more than 400 bytes.
    size = len("\n".join(gateway.answer("status"))) + 1
    asked, closed_at = 0, None
    while asked < 40_000_000 // size and closed_at is None:
        try:
            unread.send(b"status\n" * 50)
            asked += 50
        except OSError:
            closed_at = asked * size
        if asked % 1000 == 0:
            other.send(b"pmustats 7\n")
            other.gets(b"pmustats taken 0\n")
    expect(closed_at and closed_at > 1_048_576, f"it was closed after {closed_at} bytes of answers")
    other.send(b"pmustats 9\n")
    other.gets(b"pmustats taken 0\n")
    gateway.quit()


def test_a_line_without_an_end_is_refused(bench):
    """A line of more than 4,096 bytes is refused, however long it goes on; another client is answered."""
    pair, path = controlled(bench)
    gateway = pair.run()
    endless, other = Client(bench, path), Client(bench, path)
    for _ in range(100):
        endless.send(b"x" * 1024)
    other.send(b"pmustats 7\n")
    other.gets(b"pmustats taken 0\n")
    endless.send(b"\npmustats 9\n")
    endless.gets(b"refused 36 BadLine\npmustats taken 0\n")
    gateway.quit()


def test_the_socket_is_its_user_s_alone(bench):
    """The socket has mode 0600. A stale one is replaced; a living one and a file that is no socket are left, and the start fails."""
    pair, path = controlled(bench)
    stale = socket.socket(socket.AF_UNIX)
    stale.bind(path)
    stale.close()
    gateway = pair.run()
    mode = os.stat(path).st_mode
    same((stat.S_ISSOCK(mode), oct(stat.S_IMODE(mode))), (True, "0o600"))
    second = bench.gateway(f'control = "{path}"\n' + pmu(5) + subscriber(5), name="second")
    same(second.ended(), 1)
    same(second.log.lines[-2:], [f"{second.file}:1: control: address in use", "pdcgw: 39 ReadFault"])
    same(gateway.ctl("pmustats 7"), (0, "pmustats taken 0\n", ""))
    plain = f"{bench.folder}/plain"
    with open(plain, "w") as f:
        f.write("text")
    third = bench.gateway(f'control = "{plain}"\n' + pmu(5) + subscriber(5), name="third")
    same(third.ended(), 1)
    same(third.log.lines[-2:], [f"{third.file}:1: control: address in use", "pdcgw: 39 ReadFault"])
    with open(plain) as f:
        same(f.read(), "text")
    gateway.quit()


# Another user, who connects as soon as it can to the control socket, at its path or where it is made.
STRANGER = """
import os, socket, sys
os.setgid(65534)
os.setuid(65534)
print("tries", flush=True)
while True:
    for path in (sys.argv[1], sys.argv[2] + "/.0/s"):
        try:
            socket.socket(socket.AF_UNIX).connect(path)
            print("connected at", path, flush=True)
        except OSError:
            pass
"""


@takes(9)
def test_the_socket_is_never_open_to_others(bench):
    """Under umask 000, in a folder that everybody may enter, another user tries without end to connect while the program starts 20 times: it never may."""
    if os.getuid():
        raise PassedBy("only root may start a program as another user")
    folder, path = bench.folder, f"{bench.folder}/setup.control"
    os.chmod(folder, 0o755)
    stranger = subprocess.Popen([sys.executable, "-c", STRANGER, path, folder], stdin=subprocess.DEVNULL, stdout=subprocess.PIPE,
                                stderr=subprocess.STDOUT)
    try:
        printed = Lines(stranger.stdout)
        until(lambda: printed.lines, "the other user's first try")
        same(printed.lines[0], "tries")
        for _ in range(20):
            gateway = bench.gateway(f'control = "{path}"\n' + pmu(7) + subscriber(20), words=("sh", "-c", 'umask 000; exec "$@"', "sh"))
            until(lambda: os.path.exists(path) and gateway.ctl("pmustats 7")[0] == 0, "the control socket is served")
            same(oct(stat.S_IMODE(os.stat(path).st_mode)), "0o600")
            gateway.quit()
        same((printed.lines, stranger.poll()), (["tries"], None), "what the other user printed")
        # The tries are such that a socket which is open to all is found.
        with socket.socket(socket.AF_UNIX) as opened:
            os.unlink(path) if os.path.exists(path) else None
            opened.bind(path)
            os.chmod(path, 0o777)
            opened.listen(64)
            until(lambda: printed.lines[1:], "the other user connects to a socket that is open to all")
    finally:
        stranger.kill()


def test_sixteen_lines_at_a_time(bench):
    """Of a client that floods lines 16 are answered before the line of another one, and lines that ask for nothing count among them."""
    pair, path = controlled(bench)
    gateway = pair.run()
    flood, other = Client(bench, path), Client(bench, path)
    for each, most in ((b"pmustats 8\n", 16), (b"\n" * 15 + b"pmustats 8\n", 1)):
        gateway.does("addpmu 8", "done 0 0")
        for client in (flood, other):
            client.send(b"pmustats 8\n")
            client.gets(b"pmustats taken 0\n")
        gateway.freeze()
        flood.send(each * 100)
        other.send(b"droppmu 8\n")
        gateway.process.send_signal(signal.SIGCONT)
        other.gets(b"done 0 0\n")
        flood.send(b"end\n")
        answers = bytearray()
        while not answers.endswith(b"end\n"):
            answers += flood.socket.recv(1 << 16)
        lines = bytes(answers).splitlines()
        before = lines.count(b"pmustats taken 0")
        same(lines, [b"pmustats taken 0"] * before + [b"refused 23 NoSuchPmu"] * (100 - before) + [b"end"])
        expect(before in (0, most), f"{before} lines were answered before one of another client")
    gateway.quit()


def test_a_flood_of_lines(bench):
    """Of a client that floods lines at most 16 are answered at a time, so that another client's line does not wait for them."""
    pair, path = controlled(bench)
    gateway = pair.run()
    gateway.does("addpmu 8", "done 0 0")
    flood, other = Client(bench, path), Client(bench, path)
    for client in (flood, other):
        client.send(b"pmustats 8\n")
        client.gets(b"pmustats taken 0\n")
    # Both clients' lines wait when the program goes on.
    gateway.freeze()
    flood.send(b"pmustats 8\n" * 8_000)
    other.send(b"droppmu 8\n")
    gateway.process.send_signal(signal.SIGCONT)
    other.gets(b"done 0 0\n")
    answers = flood.got
    while answers.count(b"\n") < 8_000:
        piece = flood.socket.recv(1 << 16)
        expect(piece, "the client that floods was closed")
        answers += piece
    lines = bytes(answers).splitlines()
    before = lines.count(b"pmustats taken 0")
    same(lines, [b"pmustats taken 0"] * before + [b"refused 23 NoSuchPmu"] * (8_000 - before))
    expect(before <= 64, f"{before} lines were answered before one of another client")
    gateway.quit()


@takes(4)
def test_misuse_of_page_and_control_socket_costs_a_subscriber_no_frame(bench):
    """Beside slow and unread clients of page and control socket `status` is answered, and a subscriber gets each frame in time."""
    page = bench.port()
    pair, path = controlled(bench, more=f'status = "127.0.0.1:{page}"\n')
    gateway = pair.run()
    pair.start()
    clients = []
    for _ in range(100):
        made = socket.create_connection(("127.0.0.1", page))
        made.sendall(b"G")
        clients.append(made)
    endless, unread = Client(bench, path), Client(bench, path)
    endless.send(b"x" * 100_000)
    unread.send(b"status\n" * 1000)
    long = socket.create_connection(("127.0.0.1", page))
    looking = Client(bench, path)
    for at in range(60):
        try:
            long.sendall(b"a: aaaaaaaaaaaaaaaaaaaaaaaaaaaaaaaaa" * 500)
        except OSError:
            # (it was answered and closed; the next one)
            long = socket.create_connection(("127.0.0.1", page))
        looking.send(b"status\nend\n")
        answer = bytearray()
        while not answer.endswith(b"end\n"):
            answer += looking.socket.recv(1 << 16)
        expect(answer.startswith(b"source 7 "), bytes(answer))
        begun = time.monotonic()
        pair.first_is_served()
        pair.second_is_served()
        took = time.monotonic() - begun
        expect(took < 0.5, f"frame {at} took {took:.2f} s")
    for made in clients:
        made.close()
    gateway.quit()


def test_status_and_metrics_are_the_same(bench):
    """`status` at the control socket and on standard input, and the metrics, say what was done: of each source, subscriber and stream."""
    page = bench.port()
    pair, path = controlled(bench, more=f'status = "127.0.0.1:{page}"\n')
    gateway = pair.run()
    first, second = pair.start()
    pair.first_is_served(3)
    pair.second_is_served(2)
    pair.nine.measure(pair.slot, 1)
    until(lambda: " late 1 " in gateway.status()["subscriber 20"], "a frame of source 9 that came twice")
    # The page shows what was taken in the last second.
    time.sleep(1.1)
    status = gateway.answer("status")
    same(len(status), 10)
    same([it.rpartition(" last ")[0] for it in (status[0], status[2])],
         [f"source 7 {pair.seven.address} up frames 4 events 4 ignored -", f"source 9 {pair.nine.address} up frames 4 events 4 ignored -"])
    # A CFG-2 of one PMU with a phasor has 74 bytes, a data frame 26. Stream 2001 is off.
    same([it.partition(" delay ")[0] for it in (status[1], status[3])], ['pmu 7/7 "PMU 7" 30/s got 100.0%', 'pmu 9/9 "PMU 9" 30/s got 100.0%'])
    same(status[4:], [f"subscriber 1 {pair.ports[0]} connected {first.name} made 3 dropped 0 lost 0 late 0 twice 0 handed 152 queue 0 0",
                      f"subscriber 20 {pair.ports[1]} connected {second.name} made 2 dropped 0 lost 0 late 1 twice 0 handed 126 queue 0 0",
                      "stream 1 101 on members 1/1 complete 3 waited 0 pushed 0 changed 0",
                      "stream 20 2000 on members 1/1 complete 2 waited 0 pushed 0 changed 0", "missing 9/9 0 late 1",
                      "stream 20 2001 off members 1/1 complete 0 waited 0 pushed 0 changed 0"])
    same([it.partition(" last ")[0] for it in gateway.ctl("status")[1].splitlines()], [it.partition(" last ")[0] for it in status])
    shown = metrics(page)
    for name, value in (('pdcgw_source_up{source="7"}', 1), ('pdcgw_source_frames_total{source="7"}', 4),
                        ('pdcgw_source_events_total{source="9"}', 4), ('pdcgw_subscriber_connected{subscriber="20"}', 1),
                        ('pdcgw_subscriber_made_frames_total{subscriber="1"}', 3), ('pdcgw_subscriber_made_frames_total{subscriber="20"}', 2),
                        ('pdcgw_subscriber_dropped_frames_total{subscriber="1"}', 0), ('pdcgw_subscriber_late_blocks_total{subscriber="20"}', 1),
                        ('pdcgw_subscriber_handed_bytes_total{subscriber="1"}', 152), ('pdcgw_subscriber_handed_bytes_total{subscriber="20"}', 126),
                        ('pdcgw_subscriber_handed_frames_total{subscriber="1"}', 3), ('pdcgw_subscriber_handed_frames_total{subscriber="20"}', 2),
                        ('pdcgw_subscriber_gap_frames_total{subscriber="1"}', 0), ('pdcgw_subscriber_queue_bytes{subscriber="1"}', 0),
                        ('pdcgw_stream_on{subscriber="1",stream="101"}', 1), ('pdcgw_stream_on{subscriber="20",stream="2001"}', 0),
                        ("pdcgw_frame_age_seconds_count", 5)):
        same((name, shown.get(name)), (name, str(value)))
    gateway.quit()


@takes(4)
def test_orders_that_come_together_are_all_done(bench):
    """Many lines in one write: the orders to workers that come together with one wake are done, each of its own subscriber and source."""
    pair, path = controlled(bench, more="ingest = 2\nserve = 2\n")
    gateway = pair.run()
    for _ in range(10):
        pair.start()
        gateway.say("disconnect 1\ndisconnect 20\ndial 7 {}\ndial 9 {}".format(pair.seven.address, pair.nine.address))
        same(gateway.lines(4), ["done 0 0"] * 4)
        begun = time.monotonic()
        expect(pair.first.is_closed(2) and pair.second.is_closed(2), "a connection stands")
        pair.nine.come(2)
        pair.seven.come(2)
        expect(time.monotonic() - begun < 0.9, "an order waited for a wake")
    gateway.quit()
