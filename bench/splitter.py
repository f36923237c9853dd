#!/usr/bin/env python3
"""Tries a gateway as a splitter: in front of a source that serves one client it serves four, to each as the source would.

    python3 bench/splitter.py PROGRAM

A simulated source of 30 frames a second disconnects a second client. Four subscribers of a gateway have a stream with the source's IDCODE, DATA_RATE and no
`wait`; each is read by `watch --raw` for 20 seconds, while a fifth client tries the source itself. Compared are the data frames that came: each has to be
there four times, with the same timestamps, blocks and STAT. Then the gateway is killed and begun again, and the frames between are counted. Ends with
status 1 where something is not so.
"""
import os
import subprocess
import sys
import tempfile
import time

TOP = os.path.join(os.path.dirname(os.path.abspath(__file__)), "..")
RATE, SOURCE, CLIENTS, SECONDS = 30, 7, 4, 20
SUBSCRIBER = """\
[[subscriber]]
id = N
port = PORT
ring = 64
grants = [7]
[[subscriber.stream]]
id = 7
rate = 30
base = 1000000
wait = 0
window = 1
members = [7]
"""
PORTS = [26811 + at for at in range(CLIENTS)]
SETUP = '[[pmu]]\nid = 7\nconnect = "127.0.0.1:26810"\n'


def run(*words):
    return subprocess.Popen(words, stdin=subprocess.DEVNULL, stdout=subprocess.PIPE, stderr=subprocess.STDOUT, text=True)


def frames(path):
    """The data frames in a file of raw bytes, by SOC and FRACSEC without time quality: STAT and all behind it."""
    with open(path, "rb") as file:
        held, found = file.read(), {}
    while len(held) >= 4:
        size = int.from_bytes(held[2:4], "big")
        frame, held = held[:size], held[size:]
        if len(frame) == size and frame[1] >> 4 == 0:
            found[frame[6:10] + frame[11:14]] = frame[14:-2]
    return found


def main():
    if len(sys.argv) != 2:
        sys.exit(__doc__)
    program = os.path.abspath(sys.argv[1])
    held, well = [], True
    with tempfile.TemporaryDirectory() as folder:
        setup = f"{folder}/setup.toml"
        with open(setup, "w", encoding="utf-8") as file:
            file.write(SETUP + "".join(SUBSCRIBER.replace("N\n", f"{at + 1}\n", 1).replace("PORT", str(port)) for at, port in enumerate(PORTS)))
        try:
            held = [run(program, "simulate", "--listen", "127.0.0.1:26810", "--rate", str(RATE)), run(program, "run", "--setup", setup)]
            time.sleep(2)
            watch = lambda port, *words: run(program, "watch", f"127.0.0.1:{port}", "--stream", str(SOURCE), "--plain", "--seconds", str(SECONDS), *words)
            clients = [watch(port, "--raw", f"{folder}/{port}.raw") for port in PORTS]
            fifth = run(program, "watch", "127.0.0.1:26810", "--stream", str(SOURCE), "--plain", "--seconds", "3")
            print("a second client of the source itself:", fifth.communicate()[0].strip().splitlines()[-1:])
            said = [it.communicate()[0].strip().splitlines() for it in clients]
            came = [frames(f"{folder}/{port}.raw") for port in PORTS]
            both = set.intersection(*(set(it) for it in came))
            alike = sum(all(it[at] == came[0][at] for it in came) for at in both)
            print(f"frames of each client: {[len(it) for it in came]}; at all of them {len(both)}, and the same {alike}")
            for lines in said:
                print("   ", lines[-1])
            well = alike == len(both) >= (SECONDS - 2) * RATE
            one = run(program, "bridge", f"127.0.0.1:{PORTS[0]}", "--stream", str(SOURCE))
            time.sleep(3)
            held[1].kill()
            held.append(run(program, "run", "--setup", setup))
            time.sleep(6)
            one.kill()
            lines = one.communicate()[0].splitlines()
            gaps = [it for it in lines if '"gap"' in it]
            print(f"the gateway was killed and begun again: {len(lines) - len(gaps)} data lines, and", *gaps)
            well = well and len(lines) > 3 * RATE
        finally:
            for it in held:
                it.kill()
    sys.exit(not well)


if __name__ == "__main__":
    main()
