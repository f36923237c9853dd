#!/bin/sh
# Has tshark (Debian's package, with text2pcap) read what `pdcgw simulate` sends, and what the gateway sends of it, and prints
# for each how many frames it read, how many have a bad CHK, and how many packets are malformed. The bytes are those that
# `pdcgw watch --raw` kept, cut into packets of 1,400 bytes. It takes the program that `rt run` leaves in crates/pdcgw/out, or
# the one that PDCGW names. FRAMES of each are watched, 600 where not given. Its ports are 24712, 24713 and 24800. Status 1 where
# tshark reads fewer frames than were watched, or one of them is bad or malformed, or `watch` finds something wrong.
set -eu
bench=$(cd "$(dirname "$0")" && pwd)
program=${PDCGW:-"$bench/../crates/pdcgw/out/pdcgw"}
frames=${FRAMES:-600}
scratch=$(mktemp -d)
failed=0
started=
cleanup() {
    for process in $started; do kill "$process" 2> "$scratch/killed" || :; done
    rm -rf "$scratch"
}
trap cleanup EXIT
command -v tshark > "$scratch/where" || { echo "tshark is not installed"; exit 1; }

# NAME PORT: what tshark says of the bytes in NAME.raw, where the sender's port was PORT.
told_by_tshark() {
    split -b 1400 --filter='od -Ax -tx1 -v' "$scratch/$1.raw" > "$scratch/$1.hex"
    text2pcap -q -T "$2,50000" -4 127.0.0.1,127.0.0.1 "$scratch/$1.hex" "$scratch/$1.pcap" > "$scratch/text2pcap" 2>&1
    read_as="tcp.port==$2,synphasor"
    tshark -r "$scratch/$1.pcap" -d "$read_as" -T fields -e synphasor.checksum.status 2> "$scratch/tshark" \
        | tr ',' '\n' | grep -v '^$' > "$scratch/$1.checks"
    malformed=$(tshark -r "$scratch/$1.pcap" -d "$read_as" -Y _ws.malformed 2> "$scratch/tshark" | wc -l)
    read=$(wc -l < "$scratch/$1.checks")
    bad=$(grep -vc '^1$' "$scratch/$1.checks" || :)
    echo "$1: $read frames, $bad bad, $malformed malformed"
    if [ "$read" -lt "$frames" ] || [ "$bad" != 0 ] || [ "$malformed" != 0 ]; then
        echo "WRONG: $1: $frames frames or more have to be read, none of them bad or malformed"
        failed=1
    fi
}

# NAME PORT STREAM: watches, and has tshark read it.
watched() {
    if ! "$program" watch "127.0.0.1:$2" --stream "$3" --plain --frames "$frames" --raw "$scratch/$1.raw" > "$scratch/$1.lines"; then
        echo "WRONG: $1: watch ended with a status that is not 0"
        failed=1
    fi
    [ -s "$scratch/$1.raw" ] || { echo "WRONG: $1: no byte came"; exit 1; }
    tail -n 1 "$scratch/$1.lines"
    told_by_tshark "$1" "$2"
}

for source in 7 17; do
    port=$((24712 + source / 17))
    "$program" simulate --listen "127.0.0.1:$port" --source "$source" --pmus 2 --phasors 6 --analogs 2 --digitals 1 \
        > "$scratch/simulate.$source" &
    started="$started $!"
done
sleep 1
watched simulate 24712 7

cat > "$scratch/setup.toml" <<'SETUP'
[[pmu]]
id = 7
source = 7
connect = "127.0.0.1:24712"
[[pmu]]
id = 8
source = 7
[[pmu]]
id = 17
source = 17
connect = "127.0.0.1:24713"
[[subscriber]]
id = 1
port = 24800
ring = 256
grants = [7, "7/8", 17]
[[subscriber.stream]]
id = 101
rate = 30
base = 1000000
wait = 20
window = 16
header = "two sources"
members = [7, "7/8", 17]
SETUP
"$program" run --setup "$scratch/setup.toml" < /dev/null > "$scratch/run" &
started="$started $!"
sleep 2
watched gateway 24800 101
[ "$failed" = 0 ]
