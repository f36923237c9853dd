"""Sources of one PMU each, of which sixteen have a fault, and subscribers with a stream of one of them and of source 101, which is well."""
import os
import selectors
import socket
import struct
import sys
import time

sys.path.insert(0, os.path.join(os.path.dirname(os.path.abspath(__file__)), "..", "tools"))
import c37118  # noqa: E402

RATE, FIRST = 10, 101
# By the number of its source: the station's name, and what is wrong.
FAULTS = {
    102: ("LATE 150 MS", {"late": .15}), 103: ("AHEAD 1 S", {"ahead": 1}), 104: ("HALF ITS FRAMES", {"every": 2}), 105: ("PMU ERROR", {"stat": 0x4000}),
    106: ("NO SYNC", {"stat": 0x2000}), 107: ("TRIGGER", {"stat": 0x0800}), 108: ("CLOCK FAILED", {"quality": 15}), 109: ("RATE OF 5", {"rate": 5}),
    110: ("ABSENT", {"stat": 0x8000}), 111: ("NOT GRANTED", {}), 112: ("WRONG IDCODE", {"idcode": 999}), 113: ("WRONG CHK", {"check": True}),
    114: ("SILENT", {"silent": True}), 115: ("NO LISTENER", {"closed": True}), 116: ("NOT ANNOUNCED", {"pmu": 998}), 117: ("NOT REGISTERED", {}),
}


class FaultySource:
    """A source of one PMU that obeys commands 2 and 5, and sends frames on the slots of the clock, with its fault."""

    def __init__(self, number, address):
        station, self.fault = FAULTS.get(number, (f"STATION {number}", {}))
        self.number, self.rate, self.link, self.on, self.sent = number, self.fault.get("rate", RATE), None, False, 0
        self.station = station.encode().ljust(16)
        self.listener = socket.create_server(address)
        if self.fault.get("closed"):
            self.listener.close()

    def hears(self):
        """Answers commands; false once the connection ended."""
        bytes_in = self.link.recv(4096)
        for got in c37118.frames_in(bytearray(bytes_in)):
            if got[15] == 5:
                self.link.sendall(c37118.configuration(self.number, [self.fault.get("pmu", self.number)], self.rate, station=lambda _: self.station))
            self.on = self.on or got[15] == 2
        return bool(bytes_in)

    def sends(self, now):
        slot = int((now - self.fault.get("late", 0) + self.fault.get("ahead", 0)) * self.rate)
        if not self.link or not self.on or self.fault.get("silent") or slot <= self.sent:
            return
        self.sent = slot
        if slot % self.fault.get("every", 1):
            return
        soc, frac = c37118.stamp(slot, self.rate)
        frequency = struct.pack(">hh", int(8 * ((now * 3 + self.number) % 6 - 3)), 0)
        got = c37118.frame(c37118.DATA, self.fault.get("idcode", self.number), soc, self.fault.get("quality", 0) << 24 | frac,
                           c37118.block(b"\x10\0\x20\0", stat=self.fault.get("stat", 0))[:-4] + frequency)
        try:
            self.link.sendall(got[:-1] + bytes([got[-1] ^ self.fault.get("check", False)]))
        except OSError:
            # The gateway ended the connection, and makes another one.
            self.on = False


class Play:
    """So many sources, from 101 on, and as many subscribers: subscriber N at the N-th port has stream 100 + N of the PMUs 101 and 100 + N, which
    waits a second's tenth. Of each eight subscribers one stays away, unless all come."""

    def __init__(self, addresses, ports, all_come=False):
        self.addresses, self.ports = addresses, ports
        self.numbers = range(FIRST, FIRST + len(addresses))
        self.sources = [FaultySource(number, address) for number, address in zip(self.numbers, addresses)]
        self.waiting = [at for at in range(len(ports)) if all_come or at % 8 != 7]
        self.chosen = selectors.DefaultSelector()
        for source in self.sources:
            if not source.fault.get("closed"):
                self.chosen.register(source.listener, selectors.EVENT_READ, source)

    def setup_text(self):
        tables = [f'[[pmu]]\nid = {number}\nconnect = "{host}:{port}"\nahead_ms = 0\n'
                  for number, (host, port) in zip(self.numbers, self.addresses) if number != 117]
        for number, port in zip(self.numbers, self.ports):
            grants = [101, number] if number not in (111, 117) else [101]
            tables.append(f'[[subscriber]]\nid = {number - 100}\nport = {port}\naddress = "127.0.0.1"\nring = 64\ngrants = {grants}\n')
            tables.append(f'[[subscriber.stream]]\nid = {number}\nrate = {RATE}\nbase = 1000000\nwait = 10\nwindow = 8\nmembers = {sorted({101, number})}\n')
        return "".join(tables)

    def step(self):
        """Plays for a hundredth of a second."""
        for key, _ in self.chosen.select(.01):
            source = key.data
            if source is None:
                key.fileobj.recv(65536)
            elif key.fileobj is source.listener:
                source.link, _ = source.listener.accept()
                source.on = False
                self.chosen.register(source.link, selectors.EVENT_READ, source)
            elif not source.hears():
                self.chosen.unregister(key.fileobj)
        for source in self.sources:
            source.sends(time.time())
        for at in self.waiting[:]:
            try:
                guest = socket.create_connection(("127.0.0.1", self.ports[at]))
            except ConnectionRefusedError:
                continue
            guest.sendall(c37118.command(FIRST + at, 2))
            self.chosen.register(guest, selectors.EVENT_READ, None)
            self.waiting.remove(at)
