#!/usr/bin/env python3
"""Measures what a subscriber loses where one of two gateways that run beside each other fails, by haproxy or keepalived with the files of docs/integration.

    python3 bench/failover.py PROGRAM haproxy
    python3 bench/failover.py PROGRAM keepalived

It needs root, `ip` (iproute2), curl, and haproxy or keepalived. The two gateways, their source and the subscriber are hosts of their own (network
namespaces) with the addresses that the files have. The source serves both gateways (`simulate --clients 2`). The subscriber connects again at the end of
its connection, and after half a second without a frame. Of each fault a line is printed: the frames that it lost, and for how long none came.
"""
import os
import signal
import socket
import subprocess
import sys
import tempfile
import threading
import time

TOP = os.path.join(os.path.dirname(os.path.abspath(__file__)), "..")
for folder in ("tools", "tests"):
    sys.path.insert(0, os.path.join(TOP, folder))
import c37118  # noqa: E402
from peers import pmu, stream, subscriber  # noqa: E402

RATE, STREAM = 30, 101
HOSTS = {"a": "10.9.0.1", "b": "10.9.0.2", "source": "10.9.0.3", "subscriber": "10.9.0.4"}
SETUP = "".join([
    'name = "gateway NAME"\ncontrol = "FOLDER/NAME.control"\nstatus = "0.0.0.0:9100"\n', pmu(7, None, connect=f"{HOSTS['source']}:4712", silence=3),
    subscriber(1, 4801, takeover=True, grants=[7]), stream(STREAM, [7], RATE, wait=10, window=8)])


def ip(*words):
    subprocess.run(["ip", *words], check=True)


class Network:
    """A host for each name, joined by a switch."""

    def __enter__(self):
        self.__exit__()
        ip("netns", "add", "pdcgw-switch")
        ip("-n", "pdcgw-switch", "link", "add", "switch", "type", "bridge")
        ip("-n", "pdcgw-switch", "link", "set", "switch", "up")
        for name, address in HOSTS.items():
            ip("netns", "add", f"pdcgw-{name}")
            ip("-n", "pdcgw-switch", "link", "add", f"to-{name}", "type", "veth", "peer", "name", "eth0", "netns", f"pdcgw-{name}")
            ip("-n", "pdcgw-switch", "link", "set", f"to-{name}", "master", "switch", "up")
            ip("-n", f"pdcgw-{name}", "addr", "add", f"{address}/24", "dev", "eth0")
            for link in ("lo", "eth0"):
                ip("-n", f"pdcgw-{name}", "link", "set", link, "up")
        return self

    def __exit__(self, *_):
        for name in ("switch", *HOSTS):
            subprocess.run(["ip", "netns", "del", f"pdcgw-{name}"], stderr=subprocess.DEVNULL)

    @staticmethod
    def start(host, *words, **keys):
        return subprocess.Popen(["ip", "netns", "exec", f"pdcgw-{host}", *words], **{"stdin": subprocess.DEVNULL, "stdout": subprocess.DEVNULL,
                                                                                     "stderr": subprocess.DEVNULL, **keys})

    @staticmethod
    def plug(host, state):
        """The host's cable is `up` or `down`."""
        ip("-n", "pdcgw-switch", "link", "set", f"to-{host}", state)


def subscribe(address):
    """Prints the slot of each data frame that comes."""
    while True:
        try:
            with socket.create_connection((address, 4801), 0.5) as link:
                link.settimeout(0.5)
                link.sendall(c37118.command(STREAM, 2))
                buffer = bytearray()
                while True:
                    came = link.recv(4096)
                    if not came:
                        break
                    buffer += came
                    for got in c37118.frames_in(buffer):
                        print(int.from_bytes(got[6:10], "big") * RATE + round((int.from_bytes(got[10:14], "big") & 0xFFFFFF) * RATE / 1_000_000), flush=True)
        except OSError:
            pass
        time.sleep(0.1)


class Trial:
    def __init__(self, network, program, folder, address):
        self.network, self.program, self.folder, self.gateways, self.came = network, program, folder, {}, []
        self.source = network.start("source", program, "simulate", "--listen", "0.0.0.0:4712", "--clients", "2", "--rate", str(RATE))
        for name in "ab":
            self.begin(name)
        self.subscriber = network.start("subscriber", sys.executable, __file__, "--subscribe", address, stdout=subprocess.PIPE, text=True)
        threading.Thread(target=self.gather, daemon=True).start()

    def gather(self):
        for line in self.subscriber.stdout:
            self.came.append((time.monotonic(), int(line)))

    def begin(self, name):
        path = f"{self.folder}/{name}.toml"
        with open(path, "w", encoding="utf-8") as file:
            file.write(SETUP.replace("NAME", name).replace("FOLDER", self.folder))
        self.gateways[name] = self.network.start(name, self.program, "run", "--setup", path)

    def quit(self, name):
        subprocess.run([self.program, "ctl", "--control", f"{self.folder}/{name}.control", "quit"], stdout=subprocess.DEVNULL, stderr=subprocess.DEVNULL)

    def serving(self):
        """The gateway to which the subscriber is connected."""
        for name in self.gateways:
            done = subprocess.run([self.program, "ctl", "--control", f"{self.folder}/{name}.control", "status"], stdout=subprocess.PIPE, stderr=subprocess.DEVNULL, text=True)
            if "subscriber 1 4801 connected" in done.stdout:
                return name
        sys.exit("the subscriber is connected to no gateway")

    def loses(self, what, fault, pause=8):
        """Prints what is lost by a fault of the gateway that serves. The answer is its name."""
        name = self.serving()
        at = len(self.came)
        fault(name)
        time.sleep(pause)
        before, after = self.came[at - 1], self.came[at:]
        slots = {slot for _, slot in after} - {before[1]}
        lost = after[-1][1] - before[1] - len(slots) if after else None
        times = [before[0], *(time for time, _ in after)]
        longest = max((second - first for first, second in zip(times, times[1:])), default=pause)
        print(f"{what}: {'no frame came any more' if lost is None else f'{lost} frames'}, none for {longest:.1f} s", flush=True)
        return name

    def end(self):
        for it in (self.source, self.subscriber, *self.gateways.values()):
            it.kill()
            it.wait()


def main():
    if sys.argv[1:2] == ["--subscribe"]:
        subscribe(sys.argv[2])
    if len(sys.argv) != 3 or sys.argv[2] not in ("haproxy", "keepalived"):
        sys.exit(__doc__)
    program, kind = os.path.abspath(sys.argv[1]), sys.argv[2]
    with tempfile.TemporaryDirectory() as folder, Network() as network:
        watchers = []
        if kind == "haproxy":
            watchers = [network.start("subscriber", "haproxy", "-f", f"{TOP}/docs/integration/haproxy.cfg")]
            address = HOSTS["subscriber"]
        else:
            with open(f"{TOP}/docs/integration/keepalived.conf", encoding="utf-8") as file:
                text = file.read()
            for name, of in (("a", text), ("b", text.replace("pdcgw_a", "pdcgw_b").replace("priority 100", "priority 90"))):
                with open(f"{folder}/{name}.conf", "w", encoding="utf-8") as file:
                    file.write(of)
                watchers.append(network.start(name, "keepalived", "-n", "-l", "-f", f"{folder}/{name}.conf", "-p", f"{folder}/{name}.pid", "-r", f"{folder}/{name}.vrrp"))
            address = "10.9.0.10"
        trial = Trial(network, program, folder, address)
        try:
            time.sleep(12)
            trial.loses("nothing", lambda _: None)
            trial.begin(trial.loses("killed", lambda it: trial.gateways[it].kill()))
            time.sleep(8)
            trial.begin(trial.loses("ended by `quit`", trial.quit))
            time.sleep(8)
            os.kill(trial.gateways[trial.loses("stopped (SIGSTOP)", lambda it: os.kill(trial.gateways[it].pid, signal.SIGSTOP))].pid, signal.SIGCONT)
            time.sleep(8)
            trial.loses("its cable cut", lambda it: network.plug(it, "down"), 12)
        finally:
            trial.end()
            for it in watchers:
                it.terminate()
                it.wait()


if __name__ == "__main__":
    main()
