"""The page and the metrics: what is served, to whom, and that slow and hostile clients are closed."""
import json
import re
import socket
import time

from c37118 import data_of, stamp
from peers import RATE, Pair, expect, filler, http, is_refused, metrics, now_soc, number_block, read_all, same, stream_frame, takes, until


def paged(bench, host="127.0.0.1", **keys):
    """A pair whose gateway serves a page: the pair, and the page's port."""
    page = bench.port()
    return Pair(bench, more=f'status = "{host}:{page}"\n', **keys), page


def test_what_the_page_serves(bench):
    """The page, the state as JSON, the metrics; what is not there, and other methods, are refused. HEAD has no body."""
    pair, page = paged(bench)
    gateway = pair.run()
    pair.start()
    pair.second_is_served(2)
    time.sleep(1.1)
    head, body = http(page, "/")
    expect(head.startswith("HTTP/1.1 200 OK\r\nContent-Type: text/html"), head)
    expect("</html>" in body and not re.search(r"(src|href)=.?https?:", body), "the page loads from elsewhere, or is not whole")
    head, body = http(page, "/state")
    expect(head.startswith("HTTP/1.1 200 OK\r\n") and "json" in head, head)
    found = {it["subscriber"]: it for it in json.loads(body)["subscribers"]}
    same((found[1]["port"], found[1]["made"], found[20]["port"], found[20]["made"]), (pair.ports[0], 0, pair.ports[1], 2))
    same(metrics(page)['pdcgw_subscriber_made_frames_total{subscriber="20"}'], "2")
    expect(http(page, "/other")[0].startswith("HTTP/1.1 404 Not Found\r\n"), "/other")
    expect(http(page, "/", method="POST")[0].startswith("HTTP/1.1 405 Method Not Allowed\r\n"), "POST")
    head, body = http(page, "/", method="HEAD")
    same((head.split("\r\n")[0], body), ("HTTP/1.1 200 OK", ""))
    gateway.logs(f"INFO page and metrics are served at 127.0.0.1:{page}")
    gateway.quit()


def asked(page, *pieces, ends=False, pause=0.003):
    """The whole answer to the bytes of a client, which come in these pieces; with `ends` it then ends its side."""
    with socket.create_connection(("127.0.0.1", page), 10) as client:
        client.setsockopt(socket.IPPROTO_TCP, socket.TCP_NODELAY, 1)
        for piece in pieces:
            client.sendall(piece)
            time.sleep(pause)
        if ends:
            client.shutdown(socket.SHUT_WR)
        return read_all(client)


def answer(status, kind, body, is_head=False, more=""):
    """An answer of the page's host."""
    text = f"HTTP/1.1 {status}\r\n{more}Content-Type: {kind}\r\nContent-Length: {len(body)}\r\nCache-Control: no-store\r\nConnection: close\r\n\r\n"
    return text.encode() + (b"" if is_head else body)


PLAIN = "text/plain; charset=utf-8"
# What is shown, by the beginning of its content; what is refused, whole.
SHOWN = {"page": ("text/html; charset=utf-8", b"<!DOCTYPE html>\n"), "state": ("application/json", b'{"name":"'),
         "metrics": ("text/plain; version=0.0.4; charset=utf-8", b"# HELP pdcgw_info ")}
DENIED = {"within": ("400 Bad Request", "", b"/health takes ?within=SECONDS, 1 to 86400.\n"),
          "400": ("400 Bad Request", "", b"This is not a request of HTTP/1.1.\n"),
          "404": ("404 Not Found", "", b"Not found. There are /, /state, /metrics and /health.\n"),
          "405": ("405 Method Not Allowed", "Allow: GET, HEAD\r\n", b"Only GET and HEAD are allowed.\n"),
          "431": ("431 Request Header Fields Too Large", "", b"The head of a request may have at most 8192 bytes and 64 fields.\n"),
          "503": ("503 Service Unavailable", "Retry-After: 1\r\n", b"16 connections are open, the most possible: try again in a second.\n")}
ASKED = """\
GET / HTTP/1.1=page
GET / HTTP/1.0=page
GET /state HTTP/1.1=state
GET /metrics HTTP/1.1=metrics
HEAD / HTTP/1.1=page alone
HEAD /metrics HTTP/1.1=metrics alone
GET /metrics?a=b&c HTTP/1.1=metrics
GET /?/state HTTP/1.1=page
GET /metrics/ HTTP/1.1=404
GET /health? HTTP/1.1=within
GET /health?within= HTTP/1.1=within
GET /health?within=0 HTTP/1.1=within
GET /health?within=86401 HTTP/1.1=within
GET /health?within=99999999999999999999 HTTP/1.1=within
GET /health?within=-1 HTTP/1.1=within
GET /health?within=1.5 HTTP/1.1=within
GET /health?Within=5 HTTP/1.1=within
HEAD /health?within=5&a HTTP/1.1=within alone
GET /health/ HTTP/1.1=404
GET /Metrics HTTP/1.1=404
GET /metric HTTP/1.1=404
GET // HTTP/1.1=404
GET ? HTTP/1.1=404
HEAD /page.html HTTP/1.1=404 alone
POST / HTTP/1.1=405
get / HTTP/1.1=405
GETS / HTTP/1.1=405
DELETE /nothing HTTP/1.1=405
OPTIONS * HTTP/1.1=405
GET / HTTP/2.0=400
GET /=400
G(T / HTTP/1.1=400
\x16\x03\x01=400"""


def is_answered(came, word, what=""):
    """An answer is the one that this word stands for."""
    word, _, alone = word.partition(" ")
    if word in DENIED:
        status, more, body = DENIED[word]
        same(came, answer(status, PLAIN, body, bool(alone), more), what)
        return
    kind, begin = SHOWN[word]
    head, _, body = came.partition(b"\r\n\r\n")
    size = int((re.search(rb"\r\nContent-Length: (\d+)\r\n", head) or [0, 0])[1])
    same(head + b"\r\n\r\n", answer("200 OK", kind, bytes(size), True), what)
    same((body[:len(begin)], len(body)), (b"", 0) if alone else (begin, size), what)


def test_what_a_head_asks_for(bench):
    """Each request is answered by its method and path, and the head of the answer is whole; bytes that begin no request are refused by 400."""
    pair, page = paged(bench)
    gateway = pair.run()
    for row in ASKED.split("\n"):
        line, _, word = row.rpartition("=")
        is_answered(asked(page, f"{line}\r\nHost: a\r\n\r\n".encode(), pause=0), word, line)
    gateway.quit()


def test_a_head_that_comes_byte_by_byte(bench):
    """A head is awaited however its bytes come. A client that ends its side behind it gets the whole answer; one that ends it before gets none."""
    pair, page = paged(bench)
    gateway = pair.run()
    head = b"GET /state HTTP/1.1\r\nHost: a:80\r\nAccept: */*\r\n\r\n"
    is_answered(asked(page, *(bytes([it]) for it in head)), "state")
    is_answered(asked(page, b"HEAD /state HTTP/1.1\r\n\r\n", ends=True), "state alone")
    is_answered(asked(page, b"GET / HTTP/1.1\r\n\r\n", ends=True, pause=0), "page")
    same(asked(page, b"GET / HT", ends=True), b"")
    gateway.quit()


def test_a_head_at_its_bounds(bench):
    """A head of 8,192 bytes is answered, and 8,192 bytes without its end are refused by 431 at once; so is a head of more than 64 fields."""
    pair, page = paged(bench)
    gateway = pair.run()
    front = b"GET / HTTP/1.1\r\nA: "
    whole = front + b"a" * (8192 - len(front) - 4) + b"\r\n\r\n"
    is_answered(asked(page, whole), "page")
    is_answered(asked(page, whole[:8191], whole[8191:], pause=0.1), "page")
    is_answered(asked(page, front + b"a" * (8192 - len(front))), "431")
    for fields, word in ((64, "page"), (65, "431")):
        is_answered(asked(page, b"GET / HTTP/1.1\r\n" + b"A: b\r\n" * fields + b"\r\n"), word)
    gateway.quit()


def test_the_page_is_bound_on_its_address(bench):
    """The page is served at the address that `status` names, and at no other."""
    pair, page = paged(bench, host="127.0.0.2")
    gateway = pair.run()
    expect(http(page, "/", host="127.0.0.2")[0].startswith("HTTP/1.1 200 OK"), "the page at its address")
    expect(is_refused(page, "127.0.0.1") and is_refused(page, "127.0.0.3"), "the page at other addresses")
    gateway.quit()


@takes(4)
def test_what_is_shown_is_asked_for_once_a_second(bench):
    """However many read the metrics, they change once a second at most."""
    pair, page = paged(bench)
    gateway = pair.run()
    pair.start()
    made, begun = [], time.monotonic()
    while time.monotonic() < begun + 2.5:
        pair.second_is_served()
        time.sleep(0.02)
        made.append(int(metrics(page)['pdcgw_subscriber_made_frames_total{subscriber="20"}']))
    seconds = time.monotonic() - begun
    expect(len(made) > 20 and made == sorted(made), f"{len(made)} answers: {made}")
    expect(2 <= len(set(made)) <= int(seconds) + 2, f"{len(set(made))} values in {seconds:.1f} s")
    gateway.quit()


def test_a_seventeenth_client_is_answered(bench):
    """The seventeenth of 17 clients that have not asked is answered 503 and closed; the others are served once they ask. Once the 16 have been
    idle for a second, one more gets the place of the first."""
    pair, page = paged(bench)
    gateway = pair.run()
    clients = [socket.create_connection(("127.0.0.1", page)) for _ in range(17)]
    # It asks all the same, and is not reset.
    clients[16].sendall(b"GET / HTTP/1.1\r\n\r\n")
    is_answered(read_all(clients[16]), "503")
    gateway.logs("WARN page: a connection was answered 503: 16 are open")
    time.sleep(1.2)
    expect(http(page, "/")[0].startswith("HTTP/1.1 200 OK"), "one more, once the others are idle")
    same(read_all(clients[0]), b"", "the one that was idle longest")
    gateway.logs("WARN page: an idle connection was closed to accept another")
    for client in clients[1:16]:
        client.sendall(b"GET / HTTP/1.1\r\n\r\n")
        expect(read_all(client).startswith(b"HTTP/1.1 200 OK\r\n"), "one of the 16")
        client.close()
    until(lambda: http(page, "/")[0].startswith("HTTP/1.1 200 OK"), "a place that was left")
    gateway.quit()


@takes(4)
def test_a_place_is_kept_by_clients_that_ask(bench):
    """Of 16 clients that have begun to ask none loses its place to another one. One that was answered is idle from then on: a second later its place
    is another's."""
    pair, page = paged(bench)
    gateway = pair.run()
    clients = [socket.create_connection(("127.0.0.1", page)) for _ in range(16)]
    for client in clients:
        client.sendall(b"GET / HTTP/1.1\r\n")
    time.sleep(1.2)
    is_answered(asked(page), "503")
    clients[5].sendall(b"\r\n")
    is_answered(read_all(clients[5]), "page")
    time.sleep(0.5)
    is_answered(asked(page), "503")
    time.sleep(0.8)
    is_answered(asked(page, b"GET / HTTP/1.1\r\n\r\n"), "page")
    for client in clients:
        client.close()
    gateway.quit()


@takes(6)
def test_a_client_that_asks_slowly_is_closed(bench):
    """A client that has not asked after five seconds is closed, though it sends on; so is one that sends nothing, and one that was answered and sends
    on."""
    pair, page = paged(bench)
    gateway = pair.run()
    begun = time.monotonic()
    slow, silent, answered = (socket.create_connection(("127.0.0.1", page)) for _ in range(3))
    answered.sendall(b"GET / HTTP/1.1\r\n\r\n")
    is_answered(read_all(answered), "page")
    ended = {}
    while len(ended) < 2 and time.monotonic() < begun + 20:
        for client in (slow, answered):
            try:
                client.sendall(b"G")
            except OSError:
                ended.setdefault(client, time.monotonic() - begun)
        time.sleep(0.05)
    same(read_all(silent), b"")
    expect(len(ended) == 2 and all(5 <= took < 7 for took in ended.values()), f"they were closed after {list(ended.values())} s")
    gateway.quit()


def test_a_head_of_a_megabyte_is_refused(bench):
    """A request head of more than 8,192 bytes is refused by 431, and a client that sends a megabyte gets the whole answer."""
    pair, page = paged(bench)
    gateway = pair.run()
    for size, word in ((8_000, "page"), (8_300, "431"), (1_000_000, "431")):
        with socket.create_connection(("127.0.0.1", page)) as client:
            client.settimeout(10)
            client.sendall(b"GET / HTTP/1.1\r\na: " + b"a" * size + b"\r\n\r\n")
            is_answered(read_all(client), word)
    gateway.quit()


@takes(5)
def test_the_ages_of_frames_are_counted(bench):
    """The histogram has each frame's age as it was written: beside the bounds, and above the last one of 30 s."""
    pair, page = paged(bench)
    pair.text = pair.text.replace("members = [7]", "members = [7, 9]", 1).replace("grants = [7]", "grants = [7, 9]", 1)
    # Stream 101 waits for PMU 9 for 4 s.
    pair.text = pair.text.replace("wait = 1\n", "wait = 400\n", 1)
    gateway = pair.run()
    pair.start()
    slot = now_soc() * RATE
    for off, number in ((-28, 1), (0, 2)):
        pair.seven.measure(slot, number, seconds_off=off)
    for off, number in ((-28, 1), (0, 2)):
        pair.first.comes(data_of(101, *stamp(slot + off * RATE, RATE), [number_block(number), filler()]))
    # Source 9, which has sent no data, is asked again meanwhile.
    pair.nine.announce()
    pair.nine.measure(slot, 3, seconds_off=-15)
    pair.second.comes(stream_frame(2000, slot - 15 * RATE, 3))
    name = "pdcgw_frame_age_seconds"
    until(lambda: metrics(page)[f"{name}_count"] == "3", "three ages")
    shown = metrics(page)
    came = {it: int(shown[f'{name}_bucket{{le="{it}"}}']) for it in ("0.005000", "2.000000", "10.000000", "30.000000", "+Inf")}
    same(came, {"0.005000": 0, "2.000000": 0, "10.000000": 1, "30.000000": 2, "+Inf": 3})
    total = float(shown[f"{name}_sum"])
    expect(54 <= total <= 63, f"the sum of ages of 32, 19 and 4 seconds, and up to a second each, is {total}")
    gateway.quit()
