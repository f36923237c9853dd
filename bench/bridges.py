#!/usr/bin/env python3
"""Tries `pdcgw bridge` with real brokers and databases, as docs/integration/pdcgw-bridge@.service starts it. Meanwhile they are frozen
(SIGSTOP), cut off (their packets are dropped), and stopped and started, the gateway is frozen and killed, and a PMU is revoked and granted.

    python3 bench/bridges.py PROGRAM mosquitto|kafka|postgresql|influxdb|redis

What arrived is read back: the slots of the data lines of PMU 7 and those of the gaps have to be all slots of the stream from the first line to the
last, and none twice. Each line has to be one of its format. It prints what came and which gaps, and ends with status 1 where this is not so. Of Debian's
packages it needs iptables, and mosquitto and mosquitto-clients, or kcat (kafka_broker.py stands for Kafka), or postgresql, or influxdb and curl, or
redis-server and redis-tools. Run as root it starts PostgreSQL as the user postgres.
"""
import json
import os
import shlex
import signal
import subprocess
import sys
import tempfile
import time
from datetime import datetime, timezone

for place in ("tools", "tests"):
    sys.path.insert(0, os.path.join(os.path.dirname(os.path.abspath(__file__)), "..", place))
from peers import pmu, stream, subscriber  # noqa: E402

RATE, STREAM = 30, 101
FILES = os.path.join(os.path.dirname(os.path.abspath(__file__)), "..", "docs", "integration")
SETUP = "".join([
    'control = "FOLDER/control"\n', pmu(7, None, connect="127.0.0.1:26712", silence=3), pmu(8, None, source=7),
    subscriber(1, 26801, address="127.0.0.1", takeover=True, grants=[7, "7/8"]), stream(STREAM, [7, "7/8"], RATE, wait=10, window=8)])


def run(*words, **keys):
    return subprocess.Popen(words, **{**dict.fromkeys(["stdin", "stdout", "stderr"], subprocess.DEVNULL), **keys})


def done(*words, **keys):
    return subprocess.run(words, stdout=subprocess.PIPE, check=True, text=True, **keys).stdout


def slot(text):
    """The slot of a time as ISO 8601."""
    time_of = datetime.fromisoformat(text.replace("Z", "+00:00")).astimezone(timezone.utc)
    return int(time_of.timestamp()) * RATE + round(time_of.microsecond * RATE / 1_000_000)


class Broker:
    """A broker or a database, a process of this script."""
    port = None

    def stop(self):
        self.server.terminate()
        self.server.wait()

    def processes(self):
        return [self.server.pid]

    def freeze(self):
        for it in self.processes():
            os.kill(it, signal.SIGSTOP)

    def thaw(self):
        for it in self.processes():
            os.kill(it, signal.SIGCONT)

    def rules(self, change):
        for side in ("--dport", "--sport"):
            done("iptables", change, "INPUT", "-i", "lo", "-p", "tcp", side, str(self.port), "-j", "DROP")

    def cut(self):
        self.rules("-I")

    def join(self):
        self.rules("-D")

    def restore(self):
        """Neither frozen nor cut off, whatever step failed."""
        for undo in (self.thaw, self.join):
            try:
                undo()
            except (OSError, subprocess.CalledProcessError):
                pass

    def end(self):
        self.stop()


class Mosquitto(Broker):
    """QoS 2, and sessions that the broker keeps over a restart, of the bridge's client and of the reader: it waits where the broker is away."""
    options, client = ["--format", "json"], f"mosquitto_pub -p 26883 -q 2 -c -i pdcgw-{STREAM} -l -t pmu/{STREAM}"
    port = 26883

    def __init__(self, folder):
        self.folder, self.seen = folder, f"{folder}/seen"
        with open(f"{folder}/mosquitto.conf", "w", encoding="utf-8") as file:
            file.write(f"listener 26883 127.0.0.1\nallow_anonymous true\npersistence true\npersistence_location {folder}/\nmax_queued_messages 0\nuser root\n")
        self.begin()
        time.sleep(1)
        with open(self.seen, "w", encoding="utf-8") as file:
            self.reader = run("mosquitto_sub", "-p", "26883", "-q", "2", "-c", "-i", "reader", "-t", f"pmu/{STREAM}", stdout=file)
        time.sleep(1)

    def begin(self):
        self.server = run("mosquitto", "-c", f"{self.folder}/mosquitto.conf")

    def lines(self):
        time.sleep(3)
        self.reader.terminate()
        with open(self.seen, encoding="utf-8") as file:
            return [json.loads(line) for line in file]

    def end(self):
        self.reader.kill()
        self.server.kill()


class Kafka(Broker):
    """kafka_broker.py, which closes its port and opens it again where a broker is restarted."""
    options = ["--format", "json", "--key"]

    def __init__(self, folder):
        script = os.path.join(os.path.dirname(os.path.abspath(__file__)), "kafka_broker.py")
        self.server = run(sys.executable, script, stdin=subprocess.PIPE, stdout=subprocess.PIPE, stderr=None, text=True)
        self.address = self.server.stdout.readline().strip()
        self.port = int(self.address.rsplit(":", 1)[1])
        self.client = f"kcat -P -b {self.address} -t pmu -K \\t -E -X enable.idempotence=true -X message.timeout.ms=0"

    def asks(self, word):
        print(word, file=self.server.stdin, flush=True)
        if self.server.stdout.readline() != f"{word}\n":
            sys.exit(f"kafka_broker.py does not take `{word}`")

    def stop(self):
        self.asks("down")

    def begin(self):
        self.asks("up")

    def lines(self):
        time.sleep(3)
        found, offsets = [], {}
        for text in done("kcat", "-C", "-e", "-b", self.address, "-t", "pmu", "-f", "%p\t%o\t%k\t%s\n", stderr=subprocess.DEVNULL).splitlines():
            partition, offset, key, text = text.split("\t", 3)
            line = json.loads(text)
            if key != f"{line['stream']}/{line.get('idcode', line['stream'])}":
                sys.exit(f"the key {key} of {line}")
            if int(offset) != offsets.get(partition, 0):
                sys.exit(f"partition {partition} has {offset} where {offsets.get(partition, 0)} comes next")
            offsets[partition] = int(offset) + 1
            found.append(line)
        return found

    def end(self):
        self.server.kill()


class Postgresql(Broker):
    port = 26432
    options = ["--format", "csv"]
    client = f"{FILES}/in-batches.sh 60 {FILES}/to-postgresql.sh"
    bin = "/usr/lib/postgresql/15/bin"

    def __init__(self, folder):
        self.folder = f"{folder}/data"
        os.environ.update(PGHOST="127.0.0.1", PGPORT="26432", PGUSER="postgres", PGDATABASE="postgres")
        os.chmod(folder, 0o755)
        os.mkdir(self.folder)
        done("chown", "postgres", self.folder)
        self.asks(f"{self.bin}/initdb -A trust -D {self.folder}")
        self.begin()
        done("psql", "-q", "-f", f"{FILES}/pmu.sql")

    def asks(self, words):
        done("su", "postgres", "-s", "/bin/sh", "-c", words)

    def begin(self):
        self.asks(f"{self.bin}/pg_ctl -w -D {self.folder} -l {self.folder}/log -o '-p 26432 -k /tmp' start")

    def stop(self):
        self.asks(f"{self.bin}/pg_ctl -w -m fast -D {self.folder} stop")

    def processes(self):
        with open(f"{self.folder}/postmaster.pid", encoding="utf-8") as file:
            first = int(file.readline())
        return [first, *(int(it) for it in done("pgrep", "-P", str(first)).split())]

    def lines(self):
        time.sleep(5)
        text = done("psql", "-At", "-c", "select row_to_json(it) from pmu_line it order by time")
        return [json.loads(line) for line in text.splitlines()]


class Influxdb(Broker):
    port = 26086
    options = ["--format", "influx"]
    client = f"{FILES}/in-batches.sh 60 {FILES}/to-influxdb.sh"

    def __init__(self, folder):
        self.folder = folder
        os.environ["URL"] = "http://127.0.0.1:26086/write?db=pmu"
        with open(f"{folder}/influx.conf", "w", encoding="utf-8") as file:
            file.write(f'reporting-disabled = true\nbind-address = "127.0.0.1:26088"\n[meta]\ndir = "{folder}/meta"\n[data]\ndir = "{folder}/data"\n'
                       f'wal-dir = "{folder}/wal"\n[http]\nbind-address = "127.0.0.1:26086"\n')
        self.begin()
        time.sleep(3)
        done("curl", "-sSf", "-XPOST", "http://127.0.0.1:26086/query", "--data-urlencode", "q=create database pmu")

    def begin(self):
        self.server = run("influxd", "-config", f"{self.folder}/influx.conf")

    def rows(self, measurement):
        query = f"q=select * from {measurement}"
        found = json.loads(done("curl", "-sSfG", "http://127.0.0.1:26086/query", "--data-urlencode", "db=pmu", "--data-urlencode", query))
        for it in found["results"][0].get("series", []):
            for row in it["values"]:
                yield dict(zip(it["columns"], row))

    def lines(self):
        time.sleep(5)
        lines = [{"type": "data", **row, "idcode": int(row["idcode"])} for row in self.rows("pmu")]
        lines += [{"type": "gap", **row} for row in self.rows("pmu_gap")]
        return sorted(lines, key=lambda it: it["time"])


class Redis(Broker):
    port = 26379
    options = ["--format", "json"]
    client = f"{FILES}/in-batches.sh 60 {FILES}/to-redis.sh"

    def __init__(self, folder):
        self.folder = folder
        os.environ["REDIS_URL"] = "redis://127.0.0.1:26379"
        self.begin()
        time.sleep(1)

    def begin(self):
        self.server = run("redis-server", "--port", "26379", "--bind", "127.0.0.1", "--dir", self.folder, "--appendonly", "yes", "--appendfsync", "always")

    def lines(self):
        time.sleep(5)
        found = json.loads(done("redis-cli", "-u", os.environ["REDIS_URL"], "--json", "XRANGE", "pmu", "-", "+"))
        return [json.loads(fields[1]) for _, fields in found]


def unit_words():
    """The words of the unit's ExecStart, for this stream."""
    with open(f"{FILES}/pdcgw-bridge@.service", encoding="utf-8") as file:
        line = next(it for it in file if it.startswith("ExecStart="))
    return shlex.split(line.removeprefix("ExecStart=").replace("%i", str(STREAM)))


def bridge(program, folder, broker):
    """The bridge as the unit starts it, and starts it again two seconds after its end."""
    os.mkdir(f"{folder}/bin")
    os.symlink(program, f"{folder}/bin/pdcgw")
    keys = {"PATH": f"{folder}/bin:{os.environ['PATH']}", "ADDRESS": "127.0.0.1:26801", "OPTIONS": " ".join(broker.options), "CLIENT": broker.client}
    again = f"while :; do {shlex.join(unit_words())}; echo the unit starts again >&2; sleep 2; done"
    return run("bash", "-c", again, stderr=None, start_new_session=True, env={**os.environ, **keys})


def judge(lines):
    """Whether the data lines of PMU 7 and the gaps are all slots, and no data line is there twice."""
    wrong, seen, gaps = 0, {7: set(), 8: set()}, {}
    for line in lines:
        if line["type"] == "data":
            at, of_pmu = slot(line["time"]), seen[line["idcode"]]
            if at in of_pmu:
                print(f"twice: PMU {line['idcode']} at {line['time']}")
                wrong += 1
            of_pmu.add(at)
        elif line["type"] == "gap":
            at = slot(line["time"])
            gaps[at] = gaps.get(at, 0) + int(line["slots"])
            print(f"gap before {line['time']}: {line['slots']} slots, {line['why']}")
    slots = sorted(seen[7])
    for before, after in zip(slots, slots[1:]):
        if after - before - 1 != gaps.get(after, 0):
            print(f"between the slots {before} and {after} are {after - before - 1}, and in gaps {gaps.get(after, 0)}")
            wrong += 1
    print(f"{len(lines)} lines; {len(slots)} data lines of PMU 7, {len(seen[8])} of PMU 8, {sum(gaps.values())} slots in gaps, {wrong} wrong")
    return not wrong and len(slots) > 20 * RATE


def main():
    kinds = {"mosquitto": Mosquitto, "kafka": Kafka, "postgresql": Postgresql, "influxdb": Influxdb, "redis": Redis}
    if len(sys.argv) != 3 or sys.argv[2] not in kinds:
        sys.exit(__doc__)
    program, held = os.path.abspath(sys.argv[1]), []
    with tempfile.TemporaryDirectory() as folder:
        broker = kinds[sys.argv[2]](folder)
        try:
            with open(f"{folder}/setup.toml", "w", encoding="utf-8") as file:
                file.write(SETUP.replace("FOLDER", folder))
            gateway = lambda: run(program, "run", "--setup", f"{folder}/setup.toml")
            ctl = lambda line: done(program, "ctl", "--control", f"{folder}/control", line)
            held = [run(program, "simulate", "--listen", "127.0.0.1:26712", "--pmus", "2", "--rate", str(RATE)), gateway()]
            time.sleep(2)
            held.append(bridge(program, folder, broker))
            # Cut off before it stops: after that kcat waits for up to 10 seconds until it connects again.
            for what, do in [("starts", lambda: None), ("the broker is frozen (SIGSTOP)", broker.freeze), ("the broker goes on", broker.thaw),
                             ("the broker is cut off", broker.cut), ("the broker is back", broker.join), ("the broker stops", broker.stop),
                             ("the broker begins", broker.begin), ("PMU 8 is revoked", lambda: ctl("revoke 1 7/8")),
                             ("PMU 8 is granted", lambda: ctl("grant 1 7/8")), ("the gateway is frozen (SIGSTOP)", lambda: held[1].send_signal(signal.SIGSTOP)),
                             ("the gateway goes on", lambda: held[1].send_signal(signal.SIGCONT)), ("the gateway is killed", held[1].kill)]:
                print(what, flush=True)
                do()
                time.sleep(6)
            held.append(gateway())
            print("the gateway begins", flush=True)
            time.sleep(10)
            is_well = judge(broker.lines())
        finally:
            broker.restore()
            for it in held:
                try:
                    os.killpg(it.pid, signal.SIGKILL) if it is held[2] else it.kill()
                except (ProcessLookupError, IndexError):
                    pass
            broker.end()
    sys.exit(not is_well)


if __name__ == "__main__":
    main()
