"""A gateway that answers script lines by the rules, as plainly as they are written: what `make_rows.py` takes the answers of long runs from.

It stands on nothing of the program. Memory never runs out, so each frame that is made is kept. A line or a frame of a form that no row's
formula writes is an assertion that fails, not an answer.
"""

NAMES = {2: "BadFirst", 3: "BadSecond", 4: "ShortSize", 5: "BadCheck", 8: "BadLength", 9: "NoSuchStream", 10: "UnknownCommand",
         11: "Unsupported", 12: "ReplyFull", 18: "NoConfig", 20: "TimeEnd", 21: "FarClock", 22: "StaleConfig", 23: "NoSuchPmu",
         24: "PmuExists", 26: "NoSuchSub", 27: "SubExists", 29: "GrantsFull", 30: "StreamExists", 31: "StreamsFull",
         32: "BadDefinition", 33: "NotConnected", 34: "Busy", 35: "NotGranted"}
ADD_SUB, GRANT, REVOKE, DEFINE, REMOVE, CONNECT, HANGUP, COMMAND = range(1, 9)
COUNTERS = ("made", "dropped", "lost", "late", "twice", "cleared", "handed", "replies")
REPLIES, GRANTS, STREAMS, AUDIT = 8, 32, 8, 64
UNRELIABLE = 0x0F000000


def check(octets):
    """CHK: CRC-CCITT over these bytes."""
    total = 0xFFFF
    for octet in octets:
        total ^= octet << 8
        for _ in range(8):
            total = (total << 1 ^ 0x1021) & 0xFFFF if total & 0x8000 else total << 1 & 0xFFFF
    return total


def number(octets, at, width=2):
    return int.from_bytes(octets[at:at + width], "big")


def frame(kind, idcode, soc, fraction, body):
    octets = b"".join(value.to_bytes(width, "big") for value, width in (
        (0xAA00 + kind, 2), (16 + len(body), 2), (idcode, 2), (soc, 4), (fraction, 4))) + body
    return octets + check(octets).to_bytes(2, "big")


def refused(reason):
    return f"refused {reason} {NAMES[reason]}"


def counted(word, taken, reasons):
    return f"{word} taken {taken}" + listed(reasons)


def listed(reasons):
    return "".join(f" {reason}:{count}" for reason, count in sorted(reasons.items()))


def count(reasons, reason):
    reasons[reason] = reasons.get(reason, 0) + 1


def text(octets):
    return octets.hex().upper() or "-"


class Deframer:
    """The whole frames of a stream of bytes: each is ("frame", bytes), ("ignored", reason) or ("closed", reason)."""

    def __init__(self):
        self.octets, self.broken = b"", None

    def feed(self, octets):
        self.octets += octets
        while True:
            if self.broken is None:
                self.broken = self.fault()
            if self.broken:
                yield "closed", self.broken
                return
            size = number(self.octets, 2)
            if len(self.octets) < 4 or len(self.octets) < size:
                return
            taken, self.octets = self.octets[:size], self.octets[size:]
            if check(taken[:-2]) != number(taken, size - 2):
                yield "ignored", 5
            else:
                assert taken[1] & 0x0F in (1, 2)
                yield "frame", taken

    def fault(self):
        octets = self.octets
        if octets and octets[0] != 0xAA:
            return 2
        if len(octets) > 1 and (octets[1] & 0x80 or octets[1] >> 4 in (6, 7)):
            return 3
        return 4 if len(octets) > 3 and number(octets, 2) < 16 else None


class Part:
    """A PMU's part of a configuration."""

    def __init__(self, base, block):
        self.base, self.block, self.pmu = base, block, number(block, 16)
        self.phasors, self.analogs, self.digitals = (number(block, at) for at in (20, 22, 24))
        self.size = 6 + 4 * self.phasors + 2 * self.analogs + 2 * self.digitals

    def same(self, other):
        return (self.base, self.block) == (other.base, other.block)

    def filler(self):
        return b"\x80\x00" * (3 + 2 * self.phasors + self.analogs) + bytes(2 * self.digitals)

    def counted(self, changes):
        return self.block[:-2] + changes.to_bytes(2, "big")


def parts_of(octets):
    base, blocks, at = number(octets, 14, 4) & 0xFFFFFF, number(octets, 18), 20
    parts = []
    for _ in range(blocks):
        phasors, analogs, digitals = (number(octets, at + place) for place in (20, 22, 24))
        end = at + 30 + 20 * (phasors + analogs) + 260 * digitals
        parts.append(Part(base, octets[at:end]))
        at = end
    assert at + 4 == len(octets)
    return parts


class Link:
    """The link of a source: what it read, and which commands it owes."""

    def __init__(self):
        self.is_up, self.taken, self.reasons = False, 0, {}
        self.reset()

    def reset(self):
        self.deframer, self.parts, self.had_change = Deframer(), None, False
        self.owes, self.is_asked = {5}, True

    def ask(self):
        if not self.is_asked:
            self.owes.add(5)
            self.is_asked = True

    def commands(self, source):
        owed, self.owes = (sorted(self.owes, reverse=True), set()) if self.is_up else ([], self.owes)
        return ["send " + text(frame(0x42, source, 0, UNRELIABLE, word.to_bytes(2, "big"))) for word in owed]


class Stream:
    def __init__(self, rate, base, wait, window, header, members):
        self.rate, self.base, self.wait, self.window, self.header, self.members = rate, base, wait, window, header, members
        self.changes, self.is_on, self.last = 0, False, None
        self.open = {}  # by slot: how many ticks have come since it opened, and by key a quality and a block

    def stop(self):
        self.is_on, self.open = False, {}


class Subscriber:
    def __init__(self, ring, limit):
        self.ring, self.limit, self.granted, self.streams = ring, limit, [], {}
        self.counters, self.reasons, self.audit, self.turn = dict.fromkeys(COUNTERS, 0), {}, [], 0
        self.session, self.rest, self.replies, self.frames, self.pending = None, (b"", False), [], [], 0

    def note(self, what, result):
        self.turn += 1
        self.audit = [(self.turn, what, result), *self.audit][:AUDIT]

    def push(self, made):
        self.counters["made"] += 1
        if len(made) > self.limit:
            self.pending += 1
            self.counters["dropped"] += 1
            return
        self.frames.append((self.pending, made))
        self.pending = 0
        while len(self.frames) > self.ring or sum(len(octets) for _, octets in self.frames) > self.limit:
            (gap, _), (next_gap, following), *others = self.frames
            self.frames = [(gap + 1 + next_gap, following), *others]
            self.counters["dropped"] += 1

    def drain(self, size):
        """The rest in hand, then replies, then data frames."""
        handed, begun, gaps = b"", 0, 0
        while len(handed) < size:
            if not self.rest[0]:
                if self.replies:
                    self.rest = self.replies.pop(0), False
                elif self.frames:
                    gap, octets = self.frames.pop(0)
                    self.rest, gaps = (octets, True), gaps + gap
                else:
                    break
                begun += 1
            octets, is_data = self.rest
            room = size - len(handed)
            handed, self.rest = handed + octets[:room], (octets[room:], is_data)
        self.counters["handed"] += len(handed)
        return f"drained {len(handed)} {begun} {gaps} {text(handed)}"

    def hang_up(self):
        for stream in self.streams.values():
            stream.stop()
        self.counters["cleared"] += len(self.frames) + (1 if self.rest[0] and self.rest[1] else 0)
        self.session, self.rest, self.replies, self.frames, self.pending = None, (b"", False), [], [], 0


class Gateway:
    """`answers` takes a script line and gives the lines that it prints."""

    def __init__(self):
        self.parts, self.counts = {}, {}  # by key: what the PMU announced last; how many of its blocks were taken, and reasons
        self.links, self.subs, self.soc = {}, {}, None

    def answers(self, line):
        word, *words = line.split()
        return getattr(self, "do_" + word)(*words)

    # What leaves.

    def make(self, idcode, sub, slot):
        """The slot leaves."""
        stream = sub.streams[idcode]
        _, arrived = stream.open.pop(slot)
        stream.last = slot
        blocks = [arrived[key][1] if key in arrived else self.parts[key].filler() for key in self.effective(sub, stream)]
        qualities = [quality for quality, _ in arrived.values()]
        quality = max(it & 0x0F for it in qualities)
        for it in qualities:
            quality |= it & 0x70
        soc, place = divmod(slot, stream.rate)
        numerator = (2 * place * stream.base + stream.rate) // (2 * stream.rate)
        sub.push(frame(0x02, idcode, soc, quality << 24 | numerator, b"".join(blocks)))

    def effective(self, sub, stream):
        return [key for key in stream.members if key in sub.granted and self.parts.get(key)]

    def leave(self, sub, flushed=()):
        """All slots leave that are to, and all of the flushed streams. How many frames that makes."""
        made = 0
        for idcode, stream in sub.streams.items():
            while stream.open:
                slot = min(stream.open)
                age, arrived = stream.open[slot]
                is_complete = all(key in arrived for key in self.effective(sub, stream))
                if not (is_complete or age >= stream.wait or len(stream.open) > stream.window or idcode in flushed):
                    break
                self.make(idcode, sub, slot)
                made += 1
        return made

    def change(self, parts, granted):
        """From now on the PMUs have announced these parts, and these subscribers are granted these keys."""
        made = 0
        for name, sub in self.subs.items():
            before, after = shown(self.parts, sub.granted), shown(parts, granted.get(name, sub.granted))
            differ = {key for key in before.keys() | after.keys() if before.get(key) != after.get(key)}
            made += self.leave(sub, [it for it, stream in sub.streams.items() if differ & set(stream.members)])
            for stream in sub.streams.values() if differ else ():
                stream.changes = (stream.changes + 1) % 65536
        self.parts = parts
        for name, keys in granted.items():
            self.subs[name].granted = keys
        return made

    # Lines of an operator.

    def do_addpmu(self, pmu):
        key = key_of(pmu)
        if key in self.parts:
            return [refused(24)]
        self.parts[key], self.counts[key] = None, [0, {}]
        self.links.setdefault(key[0], Link())
        return done(0)

    def do_droppmu(self, pmu):
        key = key_of(pmu)
        if key not in self.parts:
            return [refused(23)]
        holders = [name for name, sub in self.subs.items() if key in sub.granted]
        made = self.change(self.parts, {name: without(self.subs[name].granted, key) for name in holders})
        for name in holders:
            self.subs[name].note(REVOKE, 0)
        del self.parts[key], self.counts[key]
        if not any(source == key[0] for source, _ in self.parts):
            del self.links[key[0]]
        return done(made)

    def do_pmustats(self, pmu):
        key = key_of(pmu)
        return [counted("pmustats", *self.counts[key])] if key in self.counts else [refused(23)]

    def do_addsub(self, name, ring, limit=16_777_216):
        if name in self.subs:
            return self.noted(name, ADD_SUB, [refused(27)])
        self.subs[name] = Subscriber(int(ring), int(limit))
        return self.noted(name, ADD_SUB, done(0))

    def do_dropsub(self, name):
        return done(0) if self.subs.pop(name, None) else [refused(26)]

    def noted(self, name, what, answers):
        """Notes an event at the subscriber that it names."""
        result = answers[0].split()
        self.subs[name].note(what, int(result[1]) if result[0] == "refused" else 0)
        return answers

    def do_grant(self, name, pmu):
        return self.noted(name, GRANT, self.grant(name, key_of(pmu))) if name in self.subs else [refused(26)]

    def grant(self, name, key):
        granted = self.subs[name].granted
        if key not in self.parts:
            return [refused(23)]
        if key in granted:
            return done(0)
        return [refused(29)] if len(granted) == GRANTS else done(self.change(self.parts, {name: sorted([*granted, key])}))

    def do_revoke(self, name, pmu):
        if name not in self.subs:
            return [refused(26)]
        key, granted = key_of(pmu), self.subs[name].granted
        if key not in granted:
            return self.noted(name, REVOKE, [refused(35)])
        return self.noted(name, REVOKE, done(self.change(self.parts, {name: without(granted, key)})))

    def do_define(self, name, idcode, rate, base, wait, window, header, *members):
        if name not in self.subs:
            return [refused(26)]
        streams, keys = self.subs[name].streams, [key_of(it) for it in members]
        rate, base, wait, window = (int(it) for it in (rate, base, wait, window))
        if not (1 <= rate <= 120 and rate <= base < 1 << 24 and 1 <= window <= 64 and wait <= 60_000) or len(set(keys)) < len(keys):
            return self.noted(name, DEFINE, [refused(32)])
        if int(idcode) in streams or len(streams) == STREAMS:
            return self.noted(name, DEFINE, [refused(30 if int(idcode) in streams else 31)])
        streams[int(idcode)] = Stream(rate, base, wait, window, b"" if header == "none" else bytes.fromhex(header), keys)
        return self.noted(name, DEFINE, done(0))

    def do_remove(self, name, idcode):
        if name not in self.subs:
            return [refused(26)]
        return self.noted(name, REMOVE, done(0) if self.subs[name].streams.pop(int(idcode), None) else [refused(9)])

    def do_stats(self, name):
        if name not in self.subs:
            return [refused(26)]
        sub = self.subs[name]
        return ["stats " + " ".join(f"{it} {sub.counters[it]}" for it in COUNTERS) + listed(sub.reasons)]

    def do_audit(self, name, back):
        if name not in self.subs:
            return [refused(26)]
        entries = self.subs[name].audit[int(back):]
        return ["audit " + " ".join(str(it) for it in entries[0])] if entries else ["audit none"]

    # Lines of a connection.

    def do_connect(self, name):
        if name not in self.subs:
            return [refused(26)]
        sub = self.subs[name]
        if sub.session:
            return self.noted(name, CONNECT, [refused(34)])
        sub.session = Deframer(), [0], {}
        return self.noted(name, CONNECT, done(0))

    def absent(self, name):
        if name not in self.subs:
            return [refused(26)]
        return None if self.subs[name].session else [refused(33)]

    def do_hangup(self, name):
        if name not in self.subs:
            return [refused(26)]
        if self.absent(name):
            return self.noted(name, HANGUP, self.absent(name))
        self.subs[name].hang_up()
        return self.noted(name, HANGUP, done(0))

    def do_drain(self, name, size):
        return self.absent(name) or [self.subs[name].drain(int(size))]

    def do_queue(self, name):
        if name not in self.subs:
            return [refused(26)]
        sub = self.subs[name]
        return ["rest " + text(sub.rest[0]), *("reply " + text(it) for it in sub.replies),
                *(f"frame {gap} {text(it)}" for gap, it in sub.frames), f"pending {sub.pending}"]

    def do_sessionstats(self, name):
        return self.absent(name) or [counted("sessionstats", self.subs[name].session[1][0], self.subs[name].session[2])]

    def do_sub(self, name, digits):
        if self.absent(name):
            return self.absent(name)
        deframer, taken, reasons = self.subs[name].session
        answers = []
        for word, what in deframer.feed(octets_of(digits)):
            if word == "closed":
                answers += [f"closed {what} {NAMES[what]}", *self.do_hangup(name)]
            elif word == "ignored":
                count(reasons, what)
                answers.append(f"ignored {what} {NAMES[what]}")
            else:
                assert what[1] >> 4 == 4 and len(what) == 18
                taken[0] += 1
                answers += self.noted(name, COMMAND, [self.command(self.subs[name], number(what, 4), number(what, 14))])
        return answers

    def command(self, sub, idcode, word):
        stream = sub.streams.get(idcode)
        reason = (9 if stream is None else 10 if word not in (1, 2, 3, 4, 5, 6, 8) else 11 if word in (6, 8)
                  else 12 if word in (3, 4, 5) and len(sub.replies) == REPLIES else None)
        if reason:
            count(sub.reasons, reason)
            return refused(reason)
        if word == 1:
            stream.stop()
        elif word == 2 and not stream.is_on:
            stream.is_on, stream.last = True, None
        elif word > 2:
            sub.replies.append(self.reply(sub, idcode, stream, word))
            sub.counters["replies"] += 1
        return "done 0 0"

    def reply(self, sub, idcode, stream, word):
        soc = self.soc or 0
        if word == 3:
            return frame(0x12, idcode, soc, UNRELIABLE, stream.header)
        keys = self.effective(sub, stream) if word == 5 else [key for key in sub.granted if self.parts.get(key)]
        body = (stream.base.to_bytes(4, "big") + len(keys).to_bytes(2, "big")
                + b"".join(self.parts[key].counted(stream.changes) for key in keys) + stream.rate.to_bytes(2, "big"))
        return frame(0x32 if word == 5 else 0x22, idcode, soc, UNRELIABLE, body)

    # Lines of a link, and ticks.

    def do_linkup(self, source):
        if int(source) not in self.links:
            return [refused(23)]
        link = self.links[int(source)]
        link.reset()
        link.is_up = True
        return link.commands(int(source))

    def do_linkstats(self, source):
        link = self.links.get(int(source))
        return [counted("linkstats", link.taken, link.reasons)] if link else [refused(23)]

    def do_pmu(self, source, digits):
        source = int(source)
        if source not in self.links:
            return [refused(23)]
        link, answers = self.links[source], []
        for word, what in link.deframer.feed(octets_of(digits)):
            if word == "closed":
                answers.append(f"closed {what} {NAMES[what]}")
                continue
            if word == "ignored":
                link.is_asked = False
                reason = what
            else:
                assert number(what, 4) == source
                reason = self.configured(link, source, what, answers) if what[1] >> 4 == 3 else self.measured(link, source, what, answers)
            if reason:
                count(link.reasons, reason)
                answers.append(f"ignored {reason} {NAMES[reason]}")
            elif word == "frame":
                link.taken += 1
        return answers + link.commands(source)

    def configured(self, link, source, octets, answers):
        link.is_asked = False
        if link.parts is None:
            link.owes.add(2)
        link.parts = parts_of(octets)
        news = {(source, part.pmu): part for part in link.parts if (source, part.pmu) in self.parts}
        answers += done(self.change({**self.parts, **news}, {})) if news else [refused(23)]

    def measured(self, link, source, octets, answers):
        assert octets[1] >> 4 == 0
        if link.parts is None:
            return 18
        if len(octets) != 16 + sum(part.size for part in link.parts):
            link.ask()
            return 8
        soc, quality, numerator = number(octets, 6, 4), octets[10], number(octets, 11, 3)
        blocks, at = [], 14
        for part in link.parts:
            assert numerator < part.base
            blocks.append((part, octets[at:at + part.size]))
            at += part.size
        has_change = any(block[0] & 0x04 for _, block in blocks)
        if link.had_change and not has_change:
            link.ask()
        link.had_change = has_change
        answers += self.measure(source, soc, quality, numerator, blocks)
        return None

    def measure(self, source, soc, quality, numerator, blocks):
        taken, reasons = [], []
        for part, block in blocks:
            key = source, part.pmu
            if key not in self.parts:
                continue
            announced = self.parts[key]
            is_far = self.soc is not None and abs(soc - self.soc) > 30
            reason = 18 if announced is None else 22 if not part.same(announced) else 21 if is_far else None
            if reason:
                reasons.append(reason)
                count(self.counts[key][1], reason)
            else:
                taken.append((key, part, block))
                self.counts[key][0] += 1
        if not taken:
            return [refused(reasons[0] if reasons else 23)]
        made = 0
        for sub in self.subs.values():
            self.arrive(sub, soc, quality, numerator, [it for it in taken if it[0] in sub.granted])
            made += self.leave(sub)
        return done(made)

    def arrive(self, sub, soc, quality, numerator, taken):
        for stream in sub.streams.values():
            for key, part, block in taken if stream.is_on else ():
                if key not in stream.members:
                    continue
                slot = soc * stream.rate + (2 * numerator * stream.rate + part.base) // (2 * part.base)
                assert slot // stream.rate < 1 << 32
                if stream.last is not None and slot <= stream.last:
                    sub.counters["late"] += 1
                elif key in stream.open.get(slot, (0, {}))[1]:
                    sub.counters["twice"] += 1
                else:
                    stream.open.setdefault(slot, [0, {}])[1][key] = quality, block

    def do_tick(self, soc):
        self.soc, made = int(soc), 0
        for sub in self.subs.values():
            for stream in sub.streams.values():
                for waiting in stream.open.values():
                    waiting[0] += 1
            made += self.leave(sub)
        return done(made)


def done(made):
    return [f"done {made} {made}"]


def shown(parts, granted):
    """What a subscriber sees of its keys: blocks without CFGCNT."""
    return {key: parts[key].block[:-2] for key in granted if parts.get(key)}


def without(keys, key):
    return [it for it in keys if it != key]


def key_of(pmu):
    source, _, number_of_pmu = pmu.rpartition("/")
    return int(source or number_of_pmu), int(number_of_pmu)


def octets_of(digits):
    octets = bytes.fromhex(digits.rstrip("+"))
    return octets + check(octets).to_bytes(2, "big") if digits.endswith("+") else octets
