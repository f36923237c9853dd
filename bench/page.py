#!/usr/bin/env python3
"""Makes pictures of the status page with 64 sources, 64 subscribers and sixteen faults, as somebody on duty would see it.

    python3 bench/page.py PROGRAM FOLDER [SECONDS]

PROGRAM is `pdcgw`, FOLDER gets page.png, page-light.png and page-narrow.png after so many SECONDS (70). It needs Chromium. Each fault is that of a
source that shares a stream with source 101, which is well. The names of the faults stand in the stations' names.
"""
import os
import subprocess
import sys
import tempfile
import time

sys.path.insert(0, os.path.join(os.path.dirname(os.path.abspath(__file__)), "..", "tests"))
from faults import Play  # noqa: E402

PAGE, FIRST_SOURCE_PORT, FIRST_PORT, SOURCES = 25_100, 25_200, 25_300, 64


def picture(folder, name, width, height, *options):
    return subprocess.Popen(["chromium", "--headless", "--no-sandbox", "--hide-scrollbars", *options, f"--screenshot={folder}/{name}", f"--window-size={width},{height}",
                             "--virtual-time-budget=4000", f"http://127.0.0.1:{PAGE}/"], stdout=subprocess.DEVNULL, stderr=subprocess.DEVNULL)


def main():
    if len(sys.argv) < 3:
        sys.exit(__doc__)
    program, folder, seconds = os.path.abspath(sys.argv[1]), os.path.abspath(sys.argv[2]), int((sys.argv[3:] or [70])[0])
    with tempfile.NamedTemporaryFile("w", suffix=".toml") as file:
        play = Play([("127.0.0.1", FIRST_SOURCE_PORT + at) for at in range(SOURCES)], range(FIRST_PORT, FIRST_PORT + SOURCES))
        file.write(f'name = "North control"\nstatus = "127.0.0.1:{PAGE}"\n' + play.setup_text())
        file.flush()
        gateway = subprocess.Popen([program, "run", "--setup", file.name], stdin=subprocess.PIPE, stdout=subprocess.DEVNULL, stderr=subprocess.DEVNULL)
        begun, shots = time.time(), []
        while time.time() - begun < seconds + 30:
            play.step()
            if time.time() - begun > seconds and not shots:
                shots = [picture(folder, "page.png", 1500, 1100, "--force-dark-mode", "--blink-settings=preferredColorScheme=0"),
                         picture(folder, "page-light.png", 1500, 1100, "--blink-settings=preferredColorScheme=1"), picture(folder, "page-narrow.png", 500, 1400)]
            if shots and all(it.poll() is not None for it in shots):
                break
        gateway.communicate(b"quit\n", 10)


if __name__ == "__main__":
    main()
