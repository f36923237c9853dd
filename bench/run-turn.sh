#!/bin/sh
# Times a call of a turnstile beside a plain mutex of the standard library round the same counter. It proves and builds a
# program over copies of pg_turn and of pg_laws' counter in a scratch folder (about three minutes), runs it, and prints for each measurement
# the median of nine and their range, in nanoseconds a call, all threads taken together. Then it counts by strace the system calls of
# 1,000 calls and of 100,000, by one thread. It fails where the totals are wrong, where a call that nobody contends costs more
# than twice the mutex, and where it makes a system call.
set -eu
bench=$(cd "$(dirname "$0")" && pwd)
scratch=$(mktemp -d)
trap 'rm -rf "$scratch"' EXIT
mkdir "$scratch/crates"
cp "$bench/../HANDLES" "$scratch/"
printf 'pg_turn: atomic_table\nturn_cost: pg_turn\n' > "$scratch/crates.txt"
cp -R "$bench/../crates/pg_turn" "$scratch/crates/"
# The gate reads every file *.rt and *.antt of the repository as a crate's, so the program lies under other names.
program="$scratch/crates/turn_cost"
mkdir -p "$program/src" "$program/specs" "$program/proofs/turn_often" "$program/proofs/measure"
cp "$bench/turn_cost/main.rt.txt" "$program/src/main.rt"
sed 's/Rattle\.pg_laws\./Rattle.turn_cost./' "$bench/../crates/pg_laws/src/counter.rt" > "$program/src/counter.rt"
sed 's/Rattle\.pg_laws\./Rattle.turn_cost./' "$bench/../crates/pg_laws/specs/Totals.antt" > "$program/specs/Totals.antt"
echo 'pub mod Totals' > "$program/specs/Lib.antt"
cp "$bench/turn_cost/turn_often.antt.txt" "$program/proofs/turn_often/Invariants.antt"
cp "$bench/turn_cost/measure.antt.txt" "$program/proofs/measure/Invariants.antt"
cd "$scratch/crates/turn_cost"
rt run > "$scratch/log" 2>&1 || { tail -n 20 "$scratch/log"; exit 1; }
grep -q '^totals 12600000 12600000$' "$scratch/log" || { echo "the totals are wrong"; exit 1; }

# The measurements in rising order, in picoseconds: WHO THREADS
sorted() {
    grep "^$1 $2 " "$scratch/log" | cut -d ' ' -f 3 | sort -n
}

for threads in 1 2 4; do
    for who in mutex turnstile; do
        sorted "$who" "$threads" | awk -v who="$who" -v threads="$threads" \
            '{ v[NR] = $1 / 1000 }
             END { printf "%-9s threads %d: %6.1f ns (%.1f to %.1f)\n", who, threads, v[int((NR + 1) / 2)], v[1], v[NR] }'
    done
done

# The system calls of a run of so many calls, by one thread.
system_calls() {
    strace -f -o "$scratch/trace" out/turn_cost "$1"
    wc -l < "$scratch/trace"
}

more=$(($(system_calls 100000) - $(system_calls 1000)))
echo "system calls of 99,000 calls that nobody contends: $more"
mutex=$(sorted mutex 1 | sed -n 5p)
turnstile=$(sorted turnstile 1 | sed -n 5p)
echo "a call that nobody contends costs $((100 * turnstile / mutex)) hundredths of the mutex, at most 200"
[ "$more" -eq 0 ] && [ "$turnstile" -le $((2 * mutex)) ]
