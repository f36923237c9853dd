#!/usr/bin/env python3
"""Times a scrape of /metrics with 256 PMUs of 16 simulated sources, 64 subscribers and 512 streams, one a second.

    python3 bench/scrape.py PROGRAM

PROGRAM is `pdcgw` as `rt run` left it in crates/pdcgw/out. It prints the bytes of a scrape, the milliseconds of one core that it takes (those of ten
seconds with scrapes less those of ten without), and the median of the milliseconds until it is read. Status 1: it takes 50 ms or more.
"""
import os
import subprocess
import sys
import tempfile
import time
import urllib.request

PAGE, FIRST_SOURCE_PORT = 24_851, 24_860
TICK = os.sysconf("SC_CLK_TCK")


def setup_text():
    tables = [f'status = "127.0.0.1:{PAGE}"\n']
    for at in range(16):
        first = 1000 + 100 * at
        tables.append(f'[[pmu]]\nid = {first}\nsource = {first}\nconnect = "127.0.0.1:{FIRST_SOURCE_PORT + at}"\nahead_ms = 0\n')
        tables += [f"[[pmu]]\nid = {first + more}\nsource = {first}\n" for more in range(1, 16)]
    for subscriber in range(1, 65):
        key = 1000 + 100 * (subscriber % 16)
        tables.append(f'[[subscriber]]\nid = {subscriber}\nring = 64\ngrants = ["{key}/{key}"]\n')
        tables += [f'[[subscriber.stream]]\nid = {100 + stream}\nrate = 30\nbase = 1000000\nwait = 10\nwindow = 8\nmembers = ["{key}/{key}"]\n'
                   for stream in range(8)]
    return "".join(tables)


def processor_seconds(process):
    with open(f"/proc/{process.pid}/stat") as file:
        fields = file.read().rsplit(")", 1)[1].split()
    return (int(fields[11]) + int(fields[12])) / TICK


def seconds_within(process, each_second):
    """The processor seconds of ten seconds, in each of which something is done."""
    begun = processor_seconds(process)
    for _ in range(10):
        start = time.monotonic()
        each_second()
        time.sleep(max(0, 1 - (time.monotonic() - start)))
    return processor_seconds(process) - begun


def main():
    if len(sys.argv) != 2:
        sys.exit(__doc__)
    program, sizes, waits = os.path.abspath(sys.argv[1]), [], []
    quiet = {"stdin": subprocess.DEVNULL, "stdout": subprocess.DEVNULL, "stderr": subprocess.DEVNULL}
    made = [subprocess.Popen([program, "simulate", "--listen", f"127.0.0.1:{FIRST_SOURCE_PORT + at}", "--source", str(1000 + 100 * at), "--pmus", "16"],
                             **quiet) for at in range(16)]

    def scrape():
        start = time.monotonic()
        sizes.append(len(urllib.request.urlopen(f"http://127.0.0.1:{PAGE}/metrics").read()))
        waits.append(time.monotonic() - start)

    with tempfile.NamedTemporaryFile("w", suffix=".toml") as file:
        file.write(setup_text())
        file.flush()
        gateway = subprocess.Popen([program, "run", "--setup", file.name], **quiet)
        made.append(gateway)
        time.sleep(6)
        without = seconds_within(gateway, lambda: None)
        cost = (seconds_within(gateway, scrape) - without) * 100
    for process in made:
        process.kill()
        process.wait()
    print(f"{sizes[-1]} bytes, {cost:.1f} ms of one core, read after {sorted(waits)[5] * 1000:.1f} ms")
    sys.exit(1 if cost >= 50 else 0)


if __name__ == "__main__":
    main()
