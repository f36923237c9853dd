"""Frames of IEEE C37.118.2-2011 over TCP, written by their fields and cut out of bytes: 16-bit fixed point, TIME_BASE 1,000,000. The
tests of the running service (tests/) and the scripts in bench/ use it; it has nothing of the gateway."""
import binascii
import struct
import time

BASE = 1_000_000
DATA, HEADER, CONFIG_1, CONFIG_2, COMMAND = range(5)
STOP, START, SEND_HEADER, SEND_CONFIG_1, SEND_CONFIG_2 = range(1, 6)


def frame(kind, idcode, soc, frac, body):
    head = struct.pack(">BBHHII", 0xAA, kind << 4 | 2, 16 + len(body), idcode, soc, frac)
    return head + body + struct.pack(">H", binascii.crc_hqx(head + body, 0xFFFF))


def configuration(source, pmus, rate, phasors=1, soc=None, count=0, frac=0, station=b"PMU %-12d"):
    """CFG-2: `count` is the CFGCNT of each PMU, `station` its STN by its number: a format, or a function."""
    body = struct.pack(">IH", BASE, len(pmus))
    for pmu in pmus:
        names = b"".join(b"PH%-14d" % at for at in range(phasors))
        name = station(pmu) if callable(station) else station % pmu
        body += name + struct.pack(">HHHHH", pmu, 0, phasors, 0, 0) + names + bytes(4 * phasors) + struct.pack(">HH", 0, count)
    return frame(CONFIG_2, source, int(time.time()) if soc is None else soc, frac, body + struct.pack(">h", rate))


def block(phasor, phasors=1, stat=0):
    """A PMU's block of a data frame: STAT, equal phasors, FREQ and DFREQ."""
    return struct.pack(">H", stat) + phasor * phasors + bytes(4)


def data_of(source, soc, frac, blocks):
    return frame(DATA, source, soc, frac, b"".join(blocks))


def data(source, pmus, soc, frac, phasors=1):
    return data_of(source, soc, frac, [block(b"\x10\0\x20\0", phasors)] * pmus)


def command(idcode, word, soc=None):
    return frame(COMMAND, idcode, int(time.time()) if soc is None else soc, 0, struct.pack(">H", word))


def stamp(slot, rate):
    """SOC and FRACSEC of a slot: the nearest fraction of TIME_BASE."""
    return slot // rate, (slot % rate * BASE * 2 + rate) // (2 * rate)


def frames_in(buffer):
    """The whole frames at the front of a buffer, and what is left."""
    found, at = [], 0
    while len(buffer) - at >= 4:
        size = buffer[at + 2] << 8 | buffer[at + 3]
        if len(buffer) - at < size:
            break
        found.append(bytes(buffer[at:at + size]))
        at += size
    del buffer[:at]
    return found
