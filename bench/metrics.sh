#!/bin/sh
# Has promtool (Debian's package prometheus) check what the gateway serves at /metrics, and compares each sample with what `status`
# and `stats` at the control socket say at the same moment: once while frames flow, between two of their answers, and once
# while the source stands still, where each has to be the same. The program is the first argument, or what PDCGW names, or what
# `rt run` leaves in crates/pdcgw/out. Two sources are called, of which one is played by `pdcgw simulate` and nobody is the other;
# three subscribers have ports, of which two are connected. Prints what differs, and how much was looked at; status 1 where
# something differs or promtool complains. Its ports are 24731, 24732, 24741 to 24743 and 24751.
set -eu
bench=$(cd "$(dirname "$0")" && pwd)
program=${1:-${PDCGW:-"$bench/../crates/pdcgw/out/pdcgw"}}
scratch=$(mktemp -d)
started=
cleanup() {
    for process in $started; do kill -CONT "$process" 2> "$scratch/killed" || :; kill "$process" 2> "$scratch/killed" || :; done
    rm -rf "$scratch"
}
trap cleanup EXIT
for tool in promtool curl python3; do
    command -v "$tool" > "$scratch/where" || { echo "$tool is not installed"; exit 1; }
done

cat > "$scratch/setup.toml" <<SETUP
control = "$scratch/control"
status = "127.0.0.1:24751"
[[pmu]]
id = 7
source = 7
connect = "127.0.0.1:24731"
silence = 0
[[pmu]]
id = 8
source = 7
[[pmu]]
id = 9
connect = "127.0.0.1:24732"
[[subscriber]]
id = 1
port = 24741
ring = 256
stall = 0
grants = [7, "7/8"]
[[subscriber.stream]]
id = 101
rate = 30
base = 1000000
wait = 20
window = 16
members = [7, "7/8", 9]
[[subscriber]]
id = 2
port = 24742
ring = 8
stall = 0
grants = ["7/8"]
[[subscriber.stream]]
id = 102
rate = 15
base = 1000000
wait = 20
window = 16
members = ["7/8"]
[[subscriber.stream]]
id = 103
rate = 30
base = 1000000
wait = 20
window = 16
members = ["7/8"]
[[subscriber]]
id = 3
port = 24743
ring = 1
SETUP
# One data frame of ten has a wrong CHK, so that something is ignored for a reason.
"$program" simulate --listen 127.0.0.1:24731 --source 7 --pmus 2 --fault wrong-check=10 > "$scratch/simulate" 2>&1 &
simulated=$!
started="$started $simulated"
"$program" run --setup "$scratch/setup.toml" < /dev/null > "$scratch/run" 2> "$scratch/log" &
started="$started $!"
for _ in 1 2 3 4 5 6 7 8 9 10; do [ -S "$scratch/control" ] && break; sleep 0.5; done
sleep 3
for stream in 1:101 2:102; do
    "$program" watch "127.0.0.1:2474${stream%%:*}" --stream "${stream##*:}" --plain > "$scratch/watch.${stream%%:*}" 2>&1 &
    started="$started $!"
done
sleep 8

# NAME: what the gateway says at this moment.
asked() {
    "$program" ctl --control "$scratch/control" status 'stats 1' 'stats 2' 'stats 3' > "$scratch/$1"
}
looked() {
    curl -sS --max-time 5 http://127.0.0.1:24751/metrics > "$scratch/$1"
    promtool check metrics < "$scratch/$1" > "$scratch/$1.told" 2>&1 || echo "promtool ended with status $?" >> "$scratch/$1.told"
    sed 's/^/promtool: /' "$scratch/$1.told"
}

# What /metrics shows was looked at within the last second, so it lies between two answers with two seconds between them.
asked flow.before
sleep 1.5
looked flow.metrics
asked flow.after
kill -STOP "$simulated"
# What is on its way arrives, and the page looks once more.
sleep 3
asked still.before
sleep 1.5
looked still.metrics
asked still.after
[ -s "$scratch/flow.before" ] || tail -n 20 "$scratch/log"

python3 - "$scratch" <<'COMPARE'
import re
import sys

scratch = sys.argv[1]
wrong = 0


def tell(what):
    global wrong
    wrong += 1
    print(f"WRONG: {what}")


def text_of(name):
    with open(f"{scratch}/{name}", encoding="utf-8") as f:
        return f.read()


def samples_of(name):
    """The samples, by name and labels."""
    found = {}
    for line in text_of(name).splitlines():
        if line and not line.startswith("#"):
            key, _, value = line.rpartition(" ")
            if key in found:
                tell(f"{name}: {key} stands twice")
            found[key] = float(value)
    return found


def expected_by(name):
    """The samples that the lines of status and stats ask for, and of each subscriber what it was handed."""
    want, stats = {}, []
    for line in text_of(name).splitlines():
        words = line.split()
        if words[0] == "source":
            of_source(want, words)
        elif words[0] == "pmu":
            of_pmu(want, line)
        elif words[0] == "subscriber":
            of_subscriber(want, words)
        elif words[0] == "stream":
            labels = f'{{subscriber="{words[1]}",stream="{words[2]}"}}'
            effective, members = words[5].split("/")
            for place, cause in (7, "complete"), (9, "wait"), (11, "window"), (13, "change"):
                want[f'pdcgw_stream_frames_total{labels[:-1]},cause="{cause}"}}'] = float(words[place])
            want[f"pdcgw_stream_on{labels}"] = float(words[3] == "on")
            want[f"pdcgw_stream_effective_members{labels}"] = float(effective)
            want[f"pdcgw_stream_members{labels}"] = float(members)
        elif words[0] == "stats":
            stats.append(dict(zip(words[1::2], words[2::2])))
        else:
            tell(f"{name}: {line}")
    # A frame that was made is handed out, waits, or is gone for a reason that has a counter of its own.
    for sub, counted in enumerate(stats, 1):
        labels = f'{{subscriber="{sub}"}}'
        kept = [float(counted[key]) for key in ("made", "dropped", "lost", "cleared")]
        want[f"pdcgw_subscriber_handed_frames_total{labels}"] = kept[0] - kept[1] - kept[2] - kept[3]
        want[f"pdcgw_subscriber_gap_frames_total{labels}"] = kept[1] + kept[2]
    return want


def of_source(want, words):
    labels = f'{{source="{words[1]}"}}'
    state = words[3]
    want[f"pdcgw_source_up{labels}"] = float(state == "up")
    want[f"pdcgw_source_connected{labels}"] = float(state in ("up", "connected"))
    pauses = state == "pause" and words[4] != "-"
    want[f"pdcgw_source_pause_seconds{labels}"] = float(words[4]) if pauses else 0.0
    rest = words[words.index("frames"):]
    want[f"pdcgw_source_frames_total{labels}"] = float(rest[1])
    want[f"pdcgw_source_events_total{labels}"] = float(rest[3])
    for word in rest[rest.index("ignored") + 1:rest.index("last")]:
        if word != "-":
            reason, count = word.split("=")
            want[f'pdcgw_source_ignored_total{{source="{words[1]}",reason="{reason}"}}'] = float(count)
    if rest[-1] != "-":
        want[f"pdcgw_source_since_event_seconds{labels}"] = float(rest[-1])


def of_pmu(want, line):
    """What the line of a PMU says: that it is announced, its sync and its frequency; and of its source the completeness."""
    source, pmu = re.match(r"pmu (\d+)/(\d+) ", line).groups()
    want[f'pdcgw_pmu_announced{{source="{source}",pmu="{pmu}"}}'] = float(not line.endswith(" not announced"))
    found = re.search(r' (".*") \S+ got (\S+)% .* (sync|nosync) \S+ stat \S+ (\S+) Hz$', line)
    if found:
        station, got, sync, frequency = found.groups()
        labels = f'{{source="{source}",pmu="{pmu}",station={station}}}'
        want[f"pdcgw_pmu_in_sync{labels}"] = float(sync == "sync")
        want[f"pdcgw_pmu_frequency_hertz{labels}"] = float(frequency)
        want[f'pdcgw_source_completeness_ratio{{source="{source}"}}'] = float(got) / 100


def of_subscriber(want, words):
    labels = f'{{subscriber="{words[1]}"}}'
    waits = words[3] == "waiting"
    want[f"pdcgw_subscriber_connected{labels}"] = float(not waits)
    want[f"pdcgw_subscriber_waiting_seconds{labels}"] = float(words[4]) if waits else 0.0
    told = dict(zip(words[5:17:2], words[6:17:2]))
    for key, name in [("made", "made_frames_total"), ("dropped", "dropped_frames_total"), ("lost", "lost_frames_total"),
                      ("late", "late_blocks_total"), ("twice", "twice_blocks_total"), ("handed", "handed_bytes_total")]:
        want[f"pdcgw_subscriber_{name}{labels}"] = float(told[key])
    queue = words.index("queue")
    want[f"pdcgw_subscriber_queue_frames{labels}"] = float(words[queue + 1])
    want[f"pdcgw_subscriber_queue_bytes{labels}"] = float(words[queue + 2])


def ages_of(name, samples):
    """The histogram: its buckets rise, its count is that of the last one, and each frame that was handed out has an age."""
    buckets = [value for key, value in samples.items() if key.startswith("pdcgw_frame_age_seconds_bucket")]
    count = samples.pop("pdcgw_frame_age_seconds_count", None)
    total = samples.pop("pdcgw_frame_age_seconds_sum", None)
    for key in [key for key in samples if key.startswith("pdcgw_frame_age_seconds_bucket")]:
        del samples[key]
    if len(buckets) != 13 or buckets != sorted(buckets) or buckets[-1] != count or total is None:
        tell(f"{name}: the buckets of pdcgw_frame_age_seconds are {buckets}, its count {count}, its sum {total}")
    handed = sum(value for key, value in samples.items() if key.startswith("pdcgw_subscriber_handed_frames_total"))
    if count != handed:
        tell(f"{name}: {count} frames have an age, and {handed} were handed out")
    return len(buckets) + 2


# These tell seconds, which pass between two looks.
TIMES = re.compile("pdcgw_source_(pause|since_event)_seconds|pdcgw_subscriber_waiting_seconds|pdcgw_source_up")
# These go up and down while frames flow.
LEVELS = re.compile("pdcgw_subscriber_queue_|pdcgw_source_completeness_ratio|pdcgw_pmu_frequency_hertz")
# These stand in /state, and not in status.
BESIDE = re.compile("pdcgw_info|pdcgw_source_(data_frames|expected_|received_|repeated_|disordered_|spans_|unlocked_|time_quality|leap_|delay_)"
                    "|pdcgw_pmu_(stat_blocks_total|rocof_)")


def compare(phase):
    samples = samples_of(f"{phase}.metrics")
    looked = ages_of(f"{phase}.metrics", samples)
    before, after = expected_by(f"{phase}.before"), expected_by(f"{phase}.after")
    for key in sorted(set(before) | set(after) | set(samples)):
        looked += 1
        value = samples.get(key)
        if BESIDE.match(key):
            continue
        if value is None:
            # What was not ignored for a reason before has no sample yet.
            if key in before or phase == "still":
                tell(f"{phase}: {key} has no sample; status says {before.get(key)} and then {after.get(key)}")
            continue
        if key not in before or key not in after:
            # A reason that did not come up is left out of status.
            if value != 0 or "_ignored_total" not in key:
                tell(f"{phase}: {key} is {value}, and status has nothing of it")
            continue
        least, most = sorted((before[key], after[key]))
        if TIMES.match(key):
            least, most = (0, max(most, 31))
        elif LEVELS.match(key) and phase == "flow":
            least, most = (0, max(most, 64 * 1024))
        if not least <= value <= most:
            tell(f"{phase}: {key} is {value}; status says {before[key]} and then {after[key]}")
    return looked, len(samples_of(f"{phase}.metrics"))


flow = compare("flow")
still = compare("still")
complaints = sum(len(text_of(f"{phase}.metrics.told").splitlines()) for phase in ("flow", "still"))
moved = samples_of("still.metrics").get('pdcgw_source_events_total{source="7"}', 0)
if moved < 100:
    tell(f"source 7 gave only {moved} events")
print(f"{flow[1]} and {still[1]} samples, {flow[0] + still[0]} figures looked at, {wrong} differ; promtool: {complaints} complaints")
sys.exit(1 if wrong or complaints else 0)
COMPARE
