#!/usr/bin/env python3
"""Writes the worked rows into data/: for each NAME a script, NAME.script, and the answers that it has to print, NAME.answers.

The answers are made here from the fields of the frames that C37.118.2 and the gateway's rules ask for, never by the program; those of the
long runs by the plain gateway beside this file.
Checks of frames that were computed elsewhere are asserted.
"""
import itertools
import pathlib

from plain_gateway import Gateway, check

DATA = pathlib.Path(__file__).resolve().parent / "data"


# Frames, in upper case hexadecimal.

assert check(b"123456789") == 0x29B1


def plain(digits):
    return digits.replace(" ", "").upper()


def whole(digits):
    """A frame with its CHK."""
    digits = plain(digits)
    return digits + f"{check(bytes.fromhex(digits)):04X}"


def frame(kind, idcode, soc, fraction, body):
    """A frame of version 2 without its CHK; `kind` is the second byte, `fraction` the quality with the numerator."""
    body = plain(body)
    return f"AA{kind:02X}{16 + len(body) // 2:04X}{idcode:04X}{soc:08X}{fraction:08X}{body}"


def configuration_block(station, pmu, phasors=(), digitals=0, count=0, form=0):
    """A PMU's block of a configuration: names are padded with spaces."""
    def name(text):
        return text.ljust(16).encode().hex()
    names = "".join(name(text) for text in phasors) + name("") * (16 * digitals)
    units = "00000001" * len(phasors) + "0000FFFF" * digitals
    return plain(name(station) + f"{pmu:04X}{form:04X}{len(phasors):04X}0000{digitals:04X}" + names + units + f"0000{count:04X}")


def configuration(kind, idcode, soc, fraction, blocks, number=None, base=1_000_000, rate=30):
    number = len(blocks) if number is None else number
    return frame(kind, idcode, soc, fraction, f"{base:08X}{number:04X}" + "".join(blocks) + f"{rate:04X}")


def counted(block, count):
    """The block with this CFGCNT."""
    return block[:-4] + f"{count:04X}"


BLOCK_7 = configuration_block("PMU 7", 7, ["VA"])
BLOCK_8 = configuration_block("PMU 8", 8, digitals=1)
BLOCK_11 = configuration_block("PMU 7", 11, ["VA"])
DATA_7 = plain("0000 10002000 0000 0000")
DATA_8 = plain("0000 0000 0000 0001")
DATA_11 = plain("0000 30004000 0000 0000")
FILLER_7 = plain("8000 80008000 8000 8000")
FILLER_8 = plain("8000 8000 8000 0000")

CONFIG_7 = configuration(0x32, 7, 100, 0, [BLOCK_7])
CONFIG_8 = configuration(0x32, 8, 100, 0, [BLOCK_8])
SLOTS = [33_333, 66_667, 100_000, 133_333]  # the numerators of the slots 3001 to 3004


def measured(pmu, numerator, block, soc=100, quality=0):
    return frame(0x02, pmu, soc, quality << 24 | numerator, block)


MEASURED_7 = measured(7, SLOTS[0], DATA_7)
MEASURED_8 = measured(8, SLOTS[0], DATA_8)
assert whole(CONFIG_7)[-4:] == "77E8" and whole(MEASURED_7)[-4:] == "7FA7"
assert whole(CONFIG_8)[-4:] == "FDF3" and whole(MEASURED_8)[-4:] == "8D65"


def command(stream, word):
    return whole(frame(0x42, stream, 100, 0, f"{word:04X}"))


assert [command(101, word)[-4:] for word in range(1, 7)] == ["8B7D", "BB1E", "AB3F", "DBD8", "CBF9", "FB9A"]


def reply(kind, stream, blocks):
    """A CFG frame to a subscriber, before any tick."""
    return whole(configuration(kind, stream, 0, 0x0F000000, blocks))


def sent(stream, numerator, blocks, soc=100, quality=0):
    """A data frame to a subscriber."""
    return whole(frame(0x02, stream, soc, quality << 24 | numerator, "".join(blocks)))


CONFIG_101 = reply(0x32, 101, [counted(BLOCK_7, 1)])
DATA_101 = sent(101, SLOTS[0], [DATA_7])
DATA_101_OF_8 = sent(101, SLOTS[0], [DATA_8])
FILLED_102 = sent(102, SLOTS[0], [DATA_7, FILLER_8])
assert CONFIG_101[-4:] == "75AF" and DATA_101[-4:] == "7276" and DATA_101_OF_8[-4:] == "1D19" and FILLED_102[-4:] == "36BA"


def asked(source, word):
    """A command frame to a source."""
    return whole(frame(0x42, source, 0, 0x0F000000, f"{word:04X}"))


assert asked(7, 5)[-4:] == "323A" and asked(7, 2)[-4:] == "42DD"


# Lines with their answers. A row is a list of pairs: a line, and the lines that it prints.

DONE = "done 0 0"
MADE = "done 1 1"


def of_pmu(source, digits, *answers):
    return (f"pmu {source} {digits}+", *answers)


def of_sub(subscriber, digits, *answers):
    return (f"sub {subscriber} {digits}", *answers)


def done(*lines):
    return [(line, DONE) for line in lines]


def drain(subscriber, size, begun, gap, digits):
    return (f"drain {subscriber} {size}", f"drained {len(digits) // 2} {begun} {gap} {digits or '-'}")


def queue(subscriber, frames, rest="", pending=0):
    """`frames`: a gap and a frame each."""
    lines = [f"frame {gap} {digits}" for gap, digits in frames]
    return (f"queue {subscriber}", f"rest {rest or '-'}", *lines, f"pending {pending}")


def stats(subscriber, reasons="", **counters):
    names = ["made", "dropped", "lost", "late", "twice", "cleared", "handed", "replies"]
    assert set(counters) <= set(names)
    return (f"stats {subscriber}", "stats " + " ".join(f"{name} {counters.get(name, 0)}" for name in names) + reasons)


def stream_101(addsub="addsub 1 4"):
    return done("addpmu 7", addsub, "grant 1 7", "define 1 101 30 1000000 0 4 none 7", "connect 1")


def two_subscribers():
    return stream_101() + done("addpmu 8", "addsub 2 4", "grant 2 8", "define 2 101 30 1000000 0 4 none 8", "connect 2")


def stream_102(wait, window):
    return done("addpmu 7", "addpmu 8", "addsub 1 4", "grant 1 7", "grant 1 8",
                f"define 1 102 30 1000000 {wait} {window} none 7 8", "connect 1") + [
        of_pmu(7, CONFIG_7, DONE), of_pmu(8, CONFIG_8, DONE), of_sub(1, command(102, 2), DONE)]


STARTED = [of_pmu(7, CONFIG_7, DONE), of_sub(1, command(101, 2), DONE)]


def at_7(slot, *answers):
    return of_pmu(7, measured(7, SLOTS[slot], DATA_7), *answers)


def out_101(slot):
    return sent(101, SLOTS[slot], [DATA_7])


ROWS = {}


def row(name, *parts):
    assert name not in ROWS
    ROWS[name] = [pair for part in parts for pair in (part if isinstance(part, list) else [part])]


# The path, and two subscribers.

def path(subscriber, source, config, measurement):
    return [of_pmu(source, config, DONE), of_sub(subscriber, command(101, 5), DONE), of_sub(subscriber, command(101, 2), DONE),
            of_pmu(source, measurement, MADE)]


row("first-path", stream_101(), path(1, 7, CONFIG_7, MEASURED_7), drain(1, 200, 2, 0, CONFIG_101 + DATA_101))
row("two-subscribers", two_subscribers(), path(1, 7, CONFIG_7, MEASURED_7), path(2, 8, CONFIG_8, MEASURED_8),
    drain(1, 200, 2, 0, CONFIG_101 + DATA_101),
    drain(2, 400, 2, 0, reply(0x32, 101, [counted(BLOCK_8, 1)]) + DATA_101_OF_8))

STORED = done("addpmu 7", "addsub 1 4", "grant 1 7", "define 1 101 30 1000000 0 4 none 7") + [
    ("linkup 7", "send " + asked(7, 5)), of_pmu(7, CONFIG_7, DONE, "send " + asked(7, 2)), ("connect 1", DONE),
    of_sub(1, command(101, 5), DONE), of_sub(1, command(101, 2), DONE), of_pmu(7, MEASURED_7, MADE),
    drain(1, 200, 2, 0, CONFIG_101 + DATA_101), stats(1, made=1, handed=100, replies=1), ("audit 1 0", "audit 6 8 0")]
row("stored-run", STORED)


def stamp(slot):
    """SOC and numerator of a slot at 30 frames a second."""
    return slot // 30, (2 * (slot % 30) * 1_000_000 + 30) // 60


def neighbour():
    """Subscriber 2, which is never drained, PMU 8 with 500 frames and a break, and refused edits."""
    yield from done("addsub 2 1", "addpmu 8", "grant 2 8", "define 2 101 30 1000000 0 4 none 8", "connect 2")
    yield of_pmu(8, CONFIG_8, DONE)
    yield of_sub(2, command(101, 2), DONE)
    for slot in range(3000, 3500):
        soc, numerator = stamp(slot)
        yield of_pmu(8, measured(8, numerator, DATA_8, soc=soc), MADE)
    yield ("pmu 8 00", "closed 2 BadFirst")
    yield ("hangup 2", DONE)
    for number in range(64):
        yield (f"addpmu {(7, 8)[number % 2]}", "refused 24 PmuExists")


def between(lines, others):
    """The others, in even parts before, between and behind the lines but the first four."""
    others = list(others)
    parts = len(lines) - 3
    for place, pair in enumerate(lines):
        if place >= 4:
            at = place - 4
            yield from others[len(others) * at // parts:len(others) * (at + 1) // parts]
        yield pair
    yield from others[len(others) * (parts - 1) // parts:]


row("neighbours-change-nothing", list(between(STORED, neighbour())))

# Slots and alignment.

row("time-end", stream_101(), STARTED, of_pmu(7, measured(7, 983_334, DATA_7, soc=4_294_967_295), DONE), stats(1, " 20:1"))
row("filler-after-wait", stream_102(2, 4), of_pmu(7, MEASURED_7, DONE), ("tick 100", DONE), ("tick 100", MADE),
    queue(1, [(0, FILLED_102)]), of_pmu(8, MEASURED_8, DONE), stats(1, made=1, late=1))
row("wait-and-window-1", stream_102(0, 4), of_pmu(7, MEASURED_7, MADE))
row("wait-and-window-2", stream_102(9, 1), of_pmu(7, MEASURED_7, DONE), of_pmu(7, measured(7, 16_666, DATA_7), MADE),
    queue(1, [(0, sent(102, 0, [DATA_7, FILLER_8]))]))
row("counts-and-flush-1",
    [("addpmu 7", DONE), of_pmu(7, CONFIG_7, DONE)],
    done("addsub 1 4", "define 1 101 30 1000000 0 4 none 7", "grant 1 7", "connect 1"), of_sub(1, command(101, 4), DONE),
    drain(1, 200, 1, 0, reply(0x22, 101, [counted(BLOCK_7, 1)])))
row("counts-and-flush-2", stream_102(2, 4), of_sub(1, command(102, 5), DONE),
    drain(1, 1000, 1, 0, reply(0x32, 102, [counted(BLOCK_7, 2), counted(BLOCK_8, 2)])),
    of_pmu(7, MEASURED_7, DONE), ("revoke 1 8", MADE), of_sub(1, command(102, 5), DONE),
    drain(1, 1000, 2, 0, reply(0x32, 102, [counted(BLOCK_7, 3)]) + FILLED_102))
row("order-of-blocks", done("addpmu 8", "addpmu 7", "addsub 1 4", "define 1 101 30 1000000 0 4 none 8 7", "grant 1 8", "grant 1 7", "connect 1"),
    of_pmu(8, CONFIG_8, DONE), of_pmu(7, CONFIG_7, DONE), of_sub(1, command(101, 4), DONE), of_sub(1, command(101, 5), DONE),
    drain(1, 1000, 2, 0, reply(0x22, 101, [counted(BLOCK_7, 2), counted(BLOCK_8, 2)])
          + reply(0x32, 101, [counted(BLOCK_8, 2), counted(BLOCK_7, 2)])))
EMPTY_101 = reply(0x32, 101, [])
assert EMPTY_101[-4:] == "DFE6"
row("count-wrap-and-empty-config", done("addpmu 7", "addsub 1 4", "define 1 101 30 1000000 0 4 none 7", "connect 1"),
    of_pmu(7, CONFIG_7, DONE), of_sub(1, command(101, 2), DONE), of_sub(1, command(101, 5), DONE), of_pmu(7, MEASURED_7, DONE),
    drain(1, 100, 1, 0, EMPTY_101))
HELLO = whole(frame(0x12, 101, 0, 0x0F000000, b"Hello".hex()))
assert HELLO[-4:] == "1745"
row("header-and-quality-1", done("addpmu 7", "addsub 1 4", "define 1 101 30 1000000 0 4 48656C6C6F 7", "connect 1"),
    of_sub(1, command(101, 3), DONE), drain(1, 100, 1, 0, HELLO))
row("header-and-quality-2", stream_102(9, 4), of_pmu(7, measured(7, SLOTS[0], DATA_7, quality=0x24), DONE),
    of_pmu(8, measured(8, SLOTS[0], DATA_8, quality=0x43), MADE),
    queue(1, [(0, sent(102, SLOTS[0], [DATA_7, DATA_8], quality=0x64))]))

# The queue.

row("ring-of-one", stream_101("addsub 1 1"), STARTED, at_7(0, MADE), at_7(1, MADE), at_7(2, MADE), queue(1, [(2, out_101(2))]),
    drain(1, 1, 1, 2, "AA"), at_7(3, MADE), drain(1, 200, 1, 0, out_101(2)[2:] + out_101(3)))
row("replies-before-data", stream_101(), STARTED, [of_sub(1, command(101, 5), DONE)] * 8,
    of_sub(1, command(101, 5), "refused 12 ReplyFull"), at_7(0, MADE), drain(1, 1000, 9, 0, CONFIG_101 * 8 + DATA_101),
    stats(1, " 12:1", made=1, handed=618, replies=8))
row("hang-up-clears", stream_101(), STARTED, at_7(0, MADE), at_7(1, MADE), drain(1, 1, 1, 0, "AA"), ("hangup 1", DONE),
    stats(1, made=2, cleared=2, handed=1), ("connect 1", DONE), drain(1, 99, 0, 0, ""), at_7(2, DONE),
    of_sub(1, command(101, 2), DONE), at_7(3, MADE))
row("bytes-drop-oldest", stream_101("addsub 1 4 60"), STARTED, at_7(0, MADE), at_7(1, MADE), at_7(2, MADE),
    queue(1, [(1, out_101(1)), (0, out_101(2))]))
row("bytes-without-hand", stream_101("addsub 1 4 52"), STARTED, at_7(0, MADE), at_7(1, MADE),
    queue(1, [(0, DATA_101), (0, out_101(1))]), drain(1, 1, 1, 0, "AA"), at_7(2, MADE),
    queue(1, [(0, out_101(1)), (0, out_101(2))], rest=DATA_101[2:]))
row("bytes-and-longer-frame", stream_101("addsub 1 4 60"), STARTED, at_7(0, MADE), at_7(1, MADE),
    done("addpmu 11", "grant 1 11", "define 1 103 30 1000000 9 4 none 7 11"),
    of_pmu(11, configuration(0x32, 11, 100, 0, [BLOCK_11]), DONE), of_sub(1, command(101, 1), DONE),
    of_sub(1, command(103, 2), DONE), at_7(2, DONE), of_pmu(11, measured(11, SLOTS[2], DATA_11), MADE),
    queue(1, [(2, sent(103, SLOTS[2], [DATA_7, DATA_11]))]))
row("bytes-too-few", stream_101("addsub 1 4 20"), STARTED, at_7(0, MADE), queue(1, [], pending=1), stats(1, made=1, dropped=1))
row("bytes-out-of-range", ("addsub 1 4 15", "refused 36 BadLine"))

# Commands, registry, limits.

row("wrong-check-then-break", stream_101(),
    of_sub(1, command(101, 5)[:-8] + "0004" + command(101, 5)[-4:] + command(101, 5) + "AB",
           "ignored 5 BadCheck", DONE, "closed 2 BadFirst", DONE),
    of_sub(1, "00", "refused 33 NotConnected"))
row("command-refusals", stream_101(), [of_sub(1, command(101, word), DONE) for word in (1, 1, 2, 2)],
    of_sub(1, command(101, 6), "refused 11 Unsupported"), of_sub(1, command(101, 7), "refused 10 UnknownCommand"),
    of_sub(1, command(999, 6), "refused 9 NoSuchStream"), ("connect 1", "refused 34 Busy"), ("hangup 1", DONE),
    ("drain 1 5", "refused 33 NotConnected"), ("drain 9 5", "refused 26 NoSuchSub"))
row("limits-and-refusals-1", ("addsub 1 4", DONE), done(*(f"addpmu {pmu}" for pmu in range(1, 34))),
    done(*(f"grant 1 {pmu}" for pmu in range(1, 33))), ("grant 1 33", "refused 29 GrantsFull"), ("grant 1 7", DONE),
    done(*(f"define 1 {stream} 30 1000000 0 4 none 7" for stream in range(101, 109))),
    ("define 1 109 30 1000000 0 4 none 7", "refused 31 StreamsFull"), ("addpmu 7", "refused 24 PmuExists"),
    ("addsub 1 4", "refused 27 SubExists"), ("droppmu 99", "refused 23 NoSuchPmu"), ("revoke 1 33", "refused 35 NotGranted"),
    done("addsub 2 4", "define 2 101 30 1000000 0 4 none 7"),
    [(f"define 2 102 {words}", "refused 32 BadDefinition") for words in (
        "0 1000000 0 4 none 7", "121 1000000 0 4 none 7", "30 29 0 4 none 7", "30 1000000 0 0 none 7", "30 1000000 0 65 none 7",
        "30 1000000 60001 4 none 7", "30 1000000 0 4 none 7 7")])
row("limits-and-refusals-2", done(*(f"addpmu {pmu}" for pmu in range(1, 257))), ("addpmu 257", "refused 25 PmusFull"),
    done(*(f"addsub {subscriber} 1" for subscriber in range(1, 65))), ("addsub 65 1", "refused 28 SubsFull"))

row("registry-and-grants",
    ("# What a subscriber may have: its stream lists the PMU once it is granted and announced, and no longer once it is revoked; each change counts.",),
    [("addpmu 7", DONE), of_pmu(7, CONFIG_7, DONE)], done("addsub 1 4", "define 1 101 30 1000000 0 4 48656C6C6F 7", "connect 1"),
    of_sub(1, command(101, 5), DONE), drain(1, 400, 1, 0, EMPTY_101),
    ("grant 1 7", DONE), of_sub(1, command(101, 5), DONE), drain(1, 400, 1, 0, CONFIG_101),
    of_sub(1, command(101, 2), DONE), of_pmu(7, MEASURED_7, MADE), drain(1, 400, 1, 0, DATA_101),
    ("revoke 1 7", DONE), of_sub(1, command(101, 5), DONE), drain(1, 400, 1, 0, EMPTY_101), of_pmu(7, MEASURED_7, DONE),
    ("grant 1 7", DONE), of_sub(1, command(101, 5), DONE), drain(1, 400, 1, 0, reply(0x32, 101, [counted(BLOCK_7, 3)])),
    ("# A PMU that was dropped and added again has announced nothing.",),
    done("droppmu 7", "addpmu 7"), of_pmu(7, MEASURED_7, "ignored 18 NoConfig"), ("pmustats 7", "pmustats taken 0"))


def phasors(number):
    return configuration(0x32, 7, 100, 0, [configuration_block("PMU 7", 7, ["V"] * number)])


def of_form(form):
    return configuration(0x32, 7, 100, 0, [configuration_block("PMU 7", 7, ["VA"], form=form)])


assert len(whole(phasors(98))) == 2 * 2014
row("limits-and-refusals-3", ("addpmu 7", DONE), of_pmu(7, phasors(98), DONE),
    of_pmu(7, phasors(99), "ignored 15 ConfigTooLarge"), of_pmu(7, of_form(1), DONE),
    of_pmu(7, of_form(2), "ignored 13 FloatFormat"))
row("limits-and-refusals-4", stream_101(), STARTED, ("tick 100", DONE),
    [of_pmu(7, measured(7, SLOTS[0], DATA_7, soc=soc), answer) for soc, answer in (
        (130, MADE), (70, DONE), (131, "refused 21 FarClock"), (69, "refused 21 FarClock"))])

# What is counted of a PMU: its blocks, those that are refused too, and no announcement.

row("counters-of-a-pmu", ("pmustats 7", "refused 23 NoSuchPmu"), ("addpmu 7", DONE), ("pmustats 7", "pmustats taken 0"),
    of_pmu(7, CONFIG_7, DONE), ("pmustats 7", "pmustats taken 0"), at_7(0, DONE), ("pmustats 7", "pmustats taken 1"),
    of_pmu(7, CONFIG_7, DONE), ("pmustats 7", "pmustats taken 1"), ("tick 200", DONE), at_7(1, "refused 21 FarClock"),
    ("pmustats 7", "pmustats taken 1 21:1"), of_pmu(7, measured(7, SLOTS[0], DATA_7, soc=200), DONE),
    ("pmustats 7", "pmustats taken 2 21:1"), ("linkstats 7", "linkstats taken 5"))

# Links and shared frames.

row("link-refusals-and-triggers-1", ("addpmu 7", DONE), ("linkup 7", "send " + asked(7, 5)), of_pmu(7, MEASURED_7, "ignored 18 NoConfig"),
    of_pmu(7, configuration(0x32, 7, 100, 0, [configuration_block("PMU 7", 8, ["VA"])]),
           "refused 23 NoSuchPmu", "send " + asked(7, 2)))
LONG = frame(0x02, 7, 100, SLOTS[0], DATA_7 + "0000")
row("link-refusals-and-triggers-2", ("addpmu 7", DONE), ("linkup 7", "send " + asked(7, 5)),
    of_pmu(7, configuration(0x32, 7, 100, 0, [BLOCK_7], number=2), "ignored 8 BadLength"),
    of_pmu(7, configuration(0x32, 7, 100, 0, [BLOCK_7], number=0), "ignored 14 BadCounts"),
    of_pmu(7, configuration(0x32, 7, 100, 0, [BLOCK_7], base=0), "ignored 38 BadTimeBase"),
    of_pmu(7, configuration(0x22, 7, 100, 0, [BLOCK_7]), "ignored 7 WrongType"),
    of_pmu(7, CONFIG_7, DONE, "send " + asked(7, 2)),
    of_pmu(7, LONG, "ignored 8 BadLength", "send " + asked(7, 5)), of_pmu(7, LONG, "ignored 8 BadLength"),
    of_pmu(7, CONFIG_7, DONE),
    of_pmu(7, measured(7, SLOTS[0], "0400" + DATA_7[4:]), DONE),
    of_pmu(7, MEASURED_7, DONE, "send " + asked(7, 5)), ("linkstats 7", "linkstats taken 4 7:1 8:3 14:1 38:1"))
row("link-breaks-and-resets", ("addpmu 7", DONE), ("linkup 7", "send " + asked(7, 5)),
    ("pmu 7 " + CONFIG_7 + "0000AB", "ignored 5 BadCheck", "closed 2 BadFirst"), of_pmu(7, MEASURED_7, "closed 2 BadFirst"),
    ("linkup 7", "send " + asked(7, 5)), of_pmu(7, CONFIG_7, DONE, "send " + asked(7, 2)), ("linkstats 7", "linkstats taken 1 5:1"))

CONFIG_9 = configuration(0x32, 9, 100, 0, [BLOCK_7, BLOCK_8, BLOCK_11])
MEASURED_9 = measured(9, SLOTS[0], DATA_7 + DATA_8 + DATA_11)
assert len(whole(CONFIG_9)) == 2 * 414 and len(whole(MEASURED_9)) == 2 * 44 and whole(MEASURED_9)[-4:] == "74B9"
SHARED = done("addpmu 9/7", "addpmu 9/8", "addpmu 9/11", "addsub 1 4", "addsub 2 4", "grant 1 9/7", "grant 2 9/8",
              "define 1 101 30 1000000 0 4 none 9/7", "define 2 101 30 1000000 0 4 none 9/8", "connect 1", "connect 2") + [
    of_pmu(9, CONFIG_9, DONE), of_sub(1, command(101, 2), DONE), of_sub(2, command(101, 2), DONE)]
row("shared-frame-1", SHARED, of_pmu(9, MEASURED_9, "done 2 2"), queue(1, [(0, DATA_101)]), queue(2, [(0, DATA_101_OF_8)]))
OTHER_8, OTHER_11 = "FFFFAA0200180007FFFF"[:16], "C0DEAA42001200650000"
row("shared-frame-2", SHARED, of_pmu(9, measured(9, SLOTS[0], DATA_7 + OTHER_8 + OTHER_11), "done 2 2"),
    queue(1, [(0, DATA_101)]), queue(2, [(0, sent(101, SLOTS[0], [OTHER_8]))]))
row("shared-frame-3", SHARED, ("grant 1 9/11", DONE), ("define 1 103 30 1000000 0 4 none 9/7 9/11", DONE),
    of_sub(1, command(101, 1), DONE), of_sub(1, command(103, 2), DONE), of_pmu(9, MEASURED_9, "done 2 2"),
    queue(1, [(0, sent(103, SLOTS[0], [DATA_7, DATA_11]))]),
    of_pmu(9, configuration(0x32, 9, 100, 0, [BLOCK_7, BLOCK_8, BLOCK_7]), "ignored 16 DuplicatePmu"))
# One frame brings the blocks of all members, which stand in another order in the stream; bit 7 of its quality is not sent. A stream that is
# stopped and started sends its slots again: each with the quality that its own frame has.
AGAIN = [of_sub(1, command(103, 1), DONE), of_sub(1, command(103, 2), DONE)]


def turned_round(quality, slot):
    """The frame of source 9 with this quality, and the queued frame that it makes."""
    return (of_pmu(9, measured(9, SLOTS[slot], DATA_7 + DATA_8 + DATA_11, quality=quality), MADE),
            (0, sent(103, SLOTS[slot], [DATA_11, DATA_7], quality=quality & 0x7F)))


FIRST, SECOND, THIRD, FOURTH = (turned_round(*it) for it in ((0xA4, 0), (0, 1), (0x24, 1), (0, 0)))
row("members-of-one-frame", done("addpmu 9/7", "addpmu 9/8", "addpmu 9/11", "addsub 1 4", "grant 1 9/7", "grant 1 9/11",
                                 "define 1 103 30 1000000 0 4 none 9/11 9/7", "connect 1"),
    of_pmu(9, CONFIG_9, DONE), of_sub(1, command(103, 2), DONE), FIRST[0], SECOND[0], AGAIN, THIRD[0], AGAIN, FOURTH[0],
    queue(1, [it[1] for it in (FIRST, SECOND, THIRD, FOURTH)]))
# What is wrong with a data frame: the source first, then the length, then the numerator, which is below the resolution.
TOO_LONG, TOO_SHORT = DATA_7 + "0000", DATA_7[:-4]
row("data-refusals", stream_101(), STARTED, of_pmu(7, measured(7, 999_999, DATA_7), MADE),
    of_pmu(7, measured(7, 1_000_000, DATA_7), "ignored 19 BadFraction"),
    of_pmu(7, measured(7, 1_000_000, TOO_LONG), "ignored 8 BadLength"), of_pmu(7, measured(7, 999_999, TOO_SHORT), "ignored 8 BadLength"),
    of_pmu(7, measured(8, 1_000_000, TOO_LONG), "ignored 17 WrongId"), queue(1, [(0, sent(101, 0, [DATA_7], soc=101))]),
    ("linkstats 7", "linkstats taken 2 8:2 17:1 19:1"), ("pmustats 7", "pmustats taken 1"))
# A window of one: all blocks of a frame arrive before a slot leaves, so the frame opens a second slot.
row("frame-opens-one-slot-more", done("addpmu 7", "addpmu 9/7", "addpmu 9/11", "addsub 1 4", "grant 1 7", "grant 1 9/7", "grant 1 9/11",
                                      "define 1 102 30 1000000 9 1 none 7 9/7 9/11", "connect 1"),
    of_pmu(7, CONFIG_7, DONE), of_pmu(9, CONFIG_9, DONE), of_sub(1, command(102, 2), DONE),
    of_pmu(7, measured(7, 16_666, DATA_7), DONE), of_pmu(9, MEASURED_9, MADE), of_pmu(7, MEASURED_7, MADE),
    queue(1, [(0, sent(102, 0, [DATA_7, FILLER_7, FILLER_7])), (0, sent(102, SLOTS[0], [DATA_7, DATA_7, DATA_11]))]))
assert len(sent(103, SLOTS[0], [DATA_7, DATA_11])) == 2 * 36

# One data frame for 512 streams: eight of each of 64 subscribers.

EIGHT = range(101, 109)
row("fan-out-of-512", ("addpmu 7", DONE), of_pmu(7, CONFIG_7, DONE),
    [pair for subscriber in range(1, 65) for pair in (
        *done(f"addsub {subscriber} 8", f"grant {subscriber} 7",
              *(f"define {subscriber} {stream} 30 1000000 0 4 none 7" for stream in EIGHT), f"connect {subscriber}"),
        *(of_sub(subscriber, command(stream, 2), DONE) for stream in EIGHT))],
    of_pmu(7, MEASURED_7, "done 512 512"),
    [drain(subscriber, 400, 8, 0, "".join(sent(stream, SLOTS[0], [DATA_7]) for stream in EIGHT)) for subscriber in range(1, 65)])

# Hostile bytes: prefixes of frames, frames with one byte changed, and sizes and bytes that promise too much.

def turned(digits, place):
    """The frame with all bits of one byte turned round."""
    return digits[:2 * place] + f"{int(digits[2 * place:2 * place + 2], 16) ^ 0xFF:02X}" + digits[2 * place + 2:]


def spoilt(digits):
    """Bytes that spoil a frame, each with what is noted of them: nothing as long as a frame is not whole."""
    noted = {0: "closed 2 BadFirst", 1: "closed 3 BadSecond", 2: None, 3: None}
    prefixes = [(digits[:2 * size], None) for size in range(1, len(digits) // 2)]
    changed = [(turned(digits, place), noted.get(place, "ignored 5 BadCheck")) for place in range(len(digits) // 2)]
    return prefixes + changed


def largest(digits):
    """The same of a frame that tells the largest size."""
    digits = digits[:4] + "FFFF" + digits[8:]
    return [(digits, None), (digits + "00" * (65_535 - len(digits) // 2), "ignored 5 BadCheck"), ("AA" * 65_535, "closed 3 BadSecond")]


assert len(whole(CONFIG_7)) == 2 * 74 and len(whole(MEASURED_7)) == 2 * 26
row("hostile-bytes", two_subscribers(), path(2, 8, CONFIG_8, MEASURED_8),
    [pair for octets, noted in spoilt(whole(CONFIG_7)) + spoilt(whole(MEASURED_7)) + largest(whole(CONFIG_7)) for pair in (
        ("linkup 7", "send " + asked(7, 5)), (f"pmu 7 {octets}", *([noted] if noted else [])))],
    ("hangup 1", DONE),
    [pair for octets, noted in spoilt(command(101, 5)) + largest(command(101, 5)) for pair in (
        ("connect 1", DONE),
        (f"sub 1 {octets}", *([noted] if noted else []), *([DONE] if noted and noted.startswith("closed") else [])),
        *([] if noted and noted.startswith("closed") else [("hangup 1", DONE)]))],
    ("linkstats 8", "linkstats taken 2"), ("sessionstats 2", "sessionstats taken 2"), ("pmustats 8", "pmustats taken 1"),
    stats(2, made=1, replies=1),
    ("queue 2", "rest -", "reply " + reply(0x32, 101, [counted(BLOCK_8, 1)]), "frame 0 " + DATA_101_OF_8, "pending 0"),
    drain(2, 400, 2, 0, reply(0x32, 101, [counted(BLOCK_8, 1)]) + DATA_101_OF_8),
    ("linkup 7", "send " + asked(7, 5)), ("connect 1", DONE), of_pmu(7, CONFIG_7, DONE, "send " + asked(7, 2)),
    of_sub(1, command(101, 5), DONE), of_sub(1, command(101, 2), DONE), of_pmu(7, MEASURED_7, MADE),
    drain(1, 200, 2, 0, CONFIG_101 + DATA_101))

# Lines of every form that is none, and bytes that are skipped, left out or break a stream.

BAD = "refused 36 BadLine"
row("forms-of-lines",
    [(line,) for line in ("", "# a comment, whatever it says: -x", "   ")],
    [(line, BAD) for line in (
        "quit", "help", "drain", "drain 1", "drain 1 65536", "drain 01 5", "drain 1 +5", "drain -1 5", "drain 65536 5",
        "\tdrain 1 5", "sub 1", "sub 1 0", "sub 1 4g", "sub 1 0g", "sub 1 +", "sub 1 0+", "sub 1 00++", "sub 1 0+0", "sub 0 00",
        "pmu 65535 00", "pmu 7/7 00", "linkup 7/7", "linkstats 7/7", "tick 4294967296", "addsub 1", "addsub 1 0", "addsub 1 1025", "addsub 1 4 16777217", "grant 1", "grant 1 0",
        "grant 01 7", "grant 1 65535",
        "grant 1 7/0", "audit 1 64", "define 1 101 30 1000000 0 4 none", "define 1 101 30 1000000 0 4 +1 7", "-x", "queue -1")],
    [("linkup 7", "refused 23 NoSuchPmu"), ("pmu 7 00", "refused 23 NoSuchPmu"), ("linkstats 7", "refused 23 NoSuchPmu"),
     ("drain 2 5", "refused 26 NoSuchSub"), ("sub 2 00", "refused 26 NoSuchSub"), ("sub 2 0a", "refused 26 NoSuchSub"),
     ("queue 2", "refused 26 NoSuchSub"), ("sessionstats 2", "refused 26 NoSuchSub")],
    stream_101(),
    [("queue 1", "rest -", "pending 0"), ("  drain   1  5  ", "drained 0 0 0 -"), ("drain 1 5\r", "drained 0 0 0 -"),
     ("pmu 7 " + MEASURED_7.lower() + "+", "ignored 18 NoConfig"), of_pmu(7, "AA22" + CONFIG_7[4:], "ignored 7 WrongType"),
     of_pmu(7, CONFIG_7, DONE),
     of_sub(1, command(101, 4)[:-4] + command(101, 5)[-4:] + command(101, 5).lower(), "ignored 5 BadCheck", DONE),
     of_sub(1, command(101, 2), DONE), of_pmu(7, MEASURED_7, MADE),
     ("pmu 7 AA02",), ("pmu 7 " + whole(measured(7, SLOTS[1], DATA_7))[4:-4],),
     ("pmu 7 " + whole(measured(7, SLOTS[1], DATA_7))[-4:], MADE),
     ("linkstats 7", "linkstats taken 3 7:1 18:1"), ("sessionstats 1", "sessionstats taken 2 5:1"),
     ("pmustats 7", "pmustats taken 2"), ("pmu 7 AA02000F", "closed 4 ShortSize"), ("pmu 7 AA", "closed 4 ShortSize"),
     ("linkup 7", "send " + asked(7, 5)), drain(1, 16, 1, 0, CONFIG_101[:32]),
     ("queue 1", "rest " + CONFIG_101[32:], "frame 0 " + DATA_101, "frame 0 " + out_101(1), "pending 0"),
     ("audit 1 0", "audit 6 8 0"), ("audit 1 5", "audit 1 1 0"), ("audit 1 6", "audit none"),
     ("sub 1 AB", "closed 2 BadFirst", DONE), ("audit 1 0", "audit 7 7 0"), ("sessionstats 1", "refused 33 NotConnected"),
     ("queue 1", "rest -", "pending 0"), ("dropsub 1", DONE), ("audit 1 0", "refused 26 NoSuchSub")])

row("lines-of-bytes",
    [("# \udcff",), ("addpmu 7 \udcff", BAD), ("addpmu\0 7", BAD), ("addpmu 7\r\r", BAD), ("addpmu 7\r", DONE)])
row("last-line", [("addpmu 7", DONE), ("addpmu 8\r", BAD)])

# A long run: 10,000 inputs of every kind, 32 PMUs of which sixteen share a source, three subscribers with streams of 1, 7 and 32 members
# and wait 0, 2 and 5. What a subscriber is handed is what it is handed in the run without the inputs that name another one.

INPUTS = 10_000
SHARED, OWN = range(1, 17), range(17, 33)
KEYS = [f"1/{pmu}" for pmu in SHARED] + [str(pmu) for pmu in OWN]


def described(key):
    """The line by which a PMU's source announces."""
    source, _, pmu = key.rpartition("/")
    pmus = SHARED if source else [int(pmu)]
    source = int(source or pmu)
    return f"pmu {source} {configuration(0x32, source, 100, 0, [configuration_block(f'PMU {it}', it) for it in pmus])}+"


def reported(source, slot, status=0):
    """A data frame of a source in this slot."""
    soc, numerator = stamp(slot)
    pmus = SHARED if source == 1 else [source]
    return f"pmu {source} " + measured(source, numerator, "".join(f"{status:04X}{slot:04X}{pmu:04X}" for pmu in pmus), soc=soc) + "+"


def defined(subscriber, place):
    members, wait, header = [(KEYS[-subscriber:][:1], 0, "none"), (KEYS[12:19], 2, "48656C6C6F"), (KEYS, 5, "none")][place]
    return f"define {subscriber} {101 + place} 30 1000000 {wait} 4 {header} {' '.join(members)}"


def first_lines():
    yield from (f"addpmu {key}" for key in KEYS)
    yield from (f"linkup {source}" for source in (1, *OWN))
    yield from (described(key) for key in KEYS[15:])
    for subscriber in (1, 2, 3):
        yield f"addsub {subscriber} 8 1000"
        yield from (f"grant {subscriber} {key}" for key in KEYS)
        yield from (defined(subscriber, place) for place in range(3))
        yield f"connect {subscriber}"
        yield from (of_sub(subscriber, command(stream, 2))[0] for stream in (101, 102, 103))


def rare_lines(turn):
    """What disturbs, and is mended some lines later."""
    subscriber, key = turn % 3 + 1, KEYS[turn * 5 % 32]
    source = key.partition("/")[0]
    return [
        f"hangup {subscriber}", f"connect {subscriber}",
        f"revoke {subscriber} {key}", f"grant {subscriber} {key}",
        f"droppmu {key}", f"addpmu {key}", described(key), *(f"grant {it} {key}" for it in (1, 2, 3)),
        f"pmu {source} 00", f"linkup {source}", described(key),
        f"remove {subscriber} 102", defined(subscriber, 1), defined(subscriber, 1),
        f"sub {subscriber} AA4200120065000000640000000000050000", f"sub {subscriber} AB", f"connect {subscriber}",
        *(of_sub(subscriber, command(stream, 2))[0] for stream in (101, 102, 103)),
        f"linkstats {source}", f"sessionstats {subscriber}", f"pmustats {key}", f"queue {subscriber}", f"audit {subscriber} {turn % 64}",
        reported(OWN[turn % 16], 3000), f"pmu {OWN[turn % 16]} AA02", f"linkup {OWN[turn % 16]}", described(KEYS[16 + turn % 16]),
        f"pmu {OWN[turn % 16]} {frame(0x02, OWN[turn % 16], 100, 0, '00')}+",
        f"tick {200 + turn}",
        *([f"dropsub {subscriber}", f"addsub {subscriber} 4", f"connect {subscriber}", *(f"grant {subscriber} {it}" for it in KEYS),
           *(defined(subscriber, place) for place in range(3)), of_sub(subscriber, command(103, 2))[0]] if turn == 3 else []),
    ]


def disturbances():
    for turn in range(100):
        yield from rare_lines(turn)


def inputs():
    """So many inputs by a fixed formula: first those by which all begins, then rounds of twenty."""
    yield from first_lines()
    rare = disturbances()
    for turn in range(INPUTS):
        slot, subscriber = 3001 + turn, turn % 3 + 1
        for _ in range((turn % 2 == 0) + (turn % 10 == 0)):
            yield reported(1, slot)
        for place in range(8):
            source = OWN[(turn * 8 + place) % 16]
            yield reported(source, slot - place % 2, status=0x0400 if turn % 50 == place else 0)
        yield f"tick {slot // 30}"
        for it in (1, 2, 3):
            yield f"drain {it} {turn * 7 % 150}"
        yield of_sub(subscriber, command(101 + turn // 3 % 3, 2))[0]
        yield of_sub(subscriber, command(101 + turn // 3 % 4, 3 + turn // 9 % 3))[0]
        yield f"stats {subscriber}"
        if turn % 20 == 0:
            yield of_sub(subscriber, command(101 + turn // 20 % 2, 1))[0]
        for _ in range(4):
            yield next(rare)


NAMED = {"sub", "connect", "hangup", "drain", "addsub", "dropsub", "grant", "revoke", "define", "remove", "stats", "audit", "queue",
         "sessionstats"}


def named(line):
    """The subscriber that an input names."""
    word, name, *_ = line.split()
    return name if word in NAMED else None


def answered(lines):
    gateway = Gateway()
    return [(line, *gateway.answers(line)) for line in lines]


AMPLE = answered(itertools.islice(inputs(), INPUTS))
row("ample-run", AMPLE)
for subscriber in "123":
    alone = answered(line for line, *_ in AMPLE if named(line) in (None, subscriber))
    row(f"ample-run-of-{subscriber}", alone)
    assert [it for it in AMPLE if named(it[0]) == subscriber] == [it for it in alone if named(it[0]) == subscriber]
assert not any("NoMemory" in answer or answer.startswith("done") and len(set(answer.split()[1:])) > 1 for _, *answers in AMPLE for answer in answers)

for name, pairs in ROWS.items():
    script = "".join(line + "\n" for line, *_ in pairs)
    if name == "last-line":
        script = script.removesuffix("\n")
    (DATA / f"{name}.script").write_bytes(script.encode(errors="surrogateescape"))
    (DATA / f"{name}.answers").write_bytes("".join(answer + "\n" for _, *answers in pairs for answer in answers).encode())
print(len(ROWS), "rows")
