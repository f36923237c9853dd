#!/bin/sh
# Has `pdcgw watch` look at `pdcgw simulate` over loopback, once for each fault that a source can be told to have, and at what is
# typed wrong, and says whether watch tells of it what it has to. It takes the program that `rt run` leaves in crates/pdcgw/out,
# or the one that PDCGW names. Its ports are 24701 to 24720. Status 1 where something is not as it has to be.
set -eu
bench=$(cd "$(dirname "$0")" && pwd)
program=${PDCGW:-"$bench/../crates/pdcgw/out/pdcgw"}
scratch=$(mktemp -d)
started=
cleanup() {
    for process in $started; do kill "$process" 2> "$scratch/killed" || :; done
    rm -rf "$scratch"
}
trap cleanup EXIT
failed=0

# NAME STATUS PATTERN: what NAME said has to have a line like this, and NAME to have ended so.
tells() {
    status=$(cat "$scratch/$1.status")
    if [ "$status" = "$2" ] && grep -Eq "$3" "$scratch/$1.said"; then
        echo "ok: $1: $(tail -n 1 "$scratch/$1.said" | cut -c 1-110)"
    else
        echo "WRONG: $1: status $status, and no line like $3:"
        tail -n 5 "$scratch/$1.said"
        failed=$((failed + 1))
    fi
}

# NAME COMMAND..: does it, and keeps what it said and how it ended.
keep() {
    name=$1
    shift
    status=0
    timeout 60 "$@" > "$scratch/$name.said" 2>&1 || status=$?
    echo "$status" > "$scratch/$name.status"
}

port=24700
seconds=12
# NAME OPTION..: watches a source with these options for so many seconds, beside the others.
watched() {
    name=$1
    shift
    port=$((port + 1))
    "$program" simulate --listen "127.0.0.1:$port" "$@" > "$scratch/$name.source" 2>&1 &
    started="$started $!"
    (sleep 1 && keep "$name" "$program" watch "127.0.0.1:$port" --stream 7 --plain --seconds "$seconds") &
    watchers="$watchers $!"
}

watchers=
watched right
watched drop --fault drop=10
watched wrong-check --fault wrong-check=10
# Of ten seconds with frames and five without, each of these has some without behind some with.
seconds=20
watched silence --fault silence=5
seconds=12
watched late --fault late=300
watched clock --fault clock=-3000
watched no-config --fault no-config
watched sixteen --pmus 16 --phasors 6
watched nothing --fault drop=100
watched unlock --fault unlock=0
watched quality --fault quality=0F
watched stat --fault stat=8000
watched backlog --fault backlog=3
watched unasked --fault unasked --fault no-config
watched reconfigure --fault reconfigure=4 --fault unasked
for watcher in $watchers; do wait "$watcher"; done
tells right 0 '^3[0-9][0-9] frames, 0 missing, 0 fillers, 0 troubles'
tells drop 0 '^[0-9]+ frames, [1-9][0-9]* missing, 0 fillers, 0 troubles'
tells wrong-check 1 '([1-9][0-9]*) troubles \(\1 CHK, 0 order, 0 misfit\)'
tells silence 0 '^[0-9]+ frames, .* 0 fillers, 0 troubles'
tells silence 0 ' 0 frames, [0-9]+ so far'
tells late 0 ', 3[0-9][0-9] ms behind'
tells clock 0 ', 3[0-9][0-9][0-9] ms behind'
tells no-config 1 'no configuration came'
tells no-config 1 'no data frame came'
tells nothing 1 'no data frame came'
tells nothing 1 '^0 frames, 0 missing, 0 fillers, 1 troubles'
tells sixteen 0 '^[1-9][0-9]* frames, .* 0 fillers, 0 troubles'
tells unlock 0 ', time unlocked, code [56];'
tells quality 0 ', time unreliable;'
tells stat 0 '^3[0-9][0-9] frames, 0 missing, 0 fillers, 0 troubles'
tells backlog 0 ' 0 frames, [0-9]+ so far'
tells backlog 0 '^[1-9][0-9]* frames, 0 missing, 0 fillers, 0 troubles'
tells unasked 0 '^3[0-9][0-9] frames, 0 missing, 0 fillers, 0 troubles'
tells reconfigure 0 '^3[0-9][0-9] frames, 0 missing, 0 fillers, 0 troubles'

# Values as lines, behind a heading; the bytes as they came.
keep csv "$program" watch 127.0.0.1:24701 --stream 7 --csv --frames 60 --raw "$scratch/csv.raw"
tells csv 0 '^time,quality,SIMULATED 7 STAT,SIMULATED 7 BUS0 VA magnitude,'
tells csv 0 '^pdcgw: 60 frames, '
lines=$(grep -c '^20..-..-..T..:..:...*Z,' "$scratch/csv.said" || :)
[ "$lines" = 60 ] || { echo "WRONG: csv has $lines lines"; failed=$((failed + 1)); }
[ "$(wc -c < "$scratch/csv.raw")" -ge $((60 * 38)) ] || { echo "WRONG: --raw has too few bytes"; failed=$((failed + 1)); }

keep nobody "$program" watch 127.0.0.1:24720 --stream 7 --seconds 1
tells nobody 1 '127\.0\.0\.1:24720 can.t be reached: '
keep taken "$program" simulate --listen 127.0.0.1:24701
tells taken 1 '127\.0\.0\.1:24701 can.t be bound: '
keep other-stream "$program" watch 127.0.0.1:24701 --stream 8 --plain --seconds 7
tells other-stream 1 'no configuration came'
for words in "simulate --rate 121" "simulate --fault late" "watch here --stream 7" "watch 127.0.0.1:1 --stream 0" \
    "watch 127.0.0.1:1" "demo --seconds 0" "dance"; do
    keep words "$program" $words
    tells words 2 .
done
echo "$failed wrong"
[ "$failed" = 0 ]
