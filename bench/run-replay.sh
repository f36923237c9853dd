#!/bin/sh
# Counts the instructions that the gateway's core takes for each input frame of a replay, beside a bound for each load. Reading the script's
# text and printing the answers do not count (bench/instructions.py). The last line says how many loads are above their bound, and then the
# status is 1. It takes the program PROGRAM, or else builds one by `bench/unproved.py --replay`. With a folder KEEP the profiles are kept
# there, for callgrind_annotate. Nothing is drained but in the last load, which has no bound: there each subscriber is drained every second.
#
# Each bound is the figure of such a build when text was first left out of the count, and 3 % for noise. In the whole program LLVM inlines
# less, so it takes up to 5 % more: compare like with like.
set -eu
bench=$(cd "$(dirname "$0")" && pwd)
scratch=$(mktemp -d)
trap 'rm -rf "$scratch"' EXIT
program=${PROGRAM:-$scratch/program}
keep=${KEEP:-}
[ -n "${PROGRAM:-}" ] || python3 "$bench/unproved.py" "$program" --replay
above=0

# The instructions for each input frame of a load: FILE SOURCES OPTION.., where the profile goes into FILE.
frame() {
    file=$1
    shift
    KEEP=${keep:+$keep/$file.callgrind} python3 "$bench/instructions.py" "$program" "$@"
}

# NAME FIGURE BOUND
show() {
    mark=
    if [ "$2" -gt "$3" ]; then
        above=$((above + 1))
        mark="  above"
    fi
    printf '%-44s %8d  at most %6d%s\n' "$1" "$2" "$3" "$mark"
}

# NAME BOUND SOURCES OPTION..
load() {
    name=$1
    bound=$2
    shift 2
    figure=$(frame "$(echo "$name" | tr -c 'A-Za-z0-9\n' '-')" "$@")
    show "$name" "$figure" "$bound"
}

# NAME BOUND COUNT FILE OPTION FEW MANY OPTION..: what each of COUNT more costs, with FEW and with MANY by OPTION.
difference() {
    name=$1 bound=$2 count=$3 file=$4 option=$5 few=$6 many=$7
    shift 7
    upper=$(frame "$file-$many" 1 "$@" "$option" "$many")
    lower=$(frame "$file-$few" 1 "$@" "$option" "$few")
    show "$name" $(((upper - lower) / count)) "$bound"
}

echo "instructions of the core for each input frame"
load "P1 S1" 1630 1
load "P1 S1, 50 frames a line" 1447 1 --frames 50
load "P16 S16, streams of 16" 7034 16 --subscribers 16 --members 16
load "P64 S64" 1534 64 --subscribers 64
load "one source of 16 blocks, S16, streams of 16" 47293 1 --blocks 16 --subscribers 16 --members 16
load "4 sources of 16 blocks, S64" 15895 4 --blocks 16 --subscribers 64
load "P1 S64" 30953 1 --subscribers 64
difference "a subscriber that the frame does not concern" 0 16 idle --idle 16 32
# (of 16 subscribers: the places in memory alone make a frame take some 7 more or less)
difference "a stream that is off" 12 48 off --off 3 6 --subscribers 16
drained=$(frame drained 1 --drained)
printf '%-44s %8d\n' "P1 S1, drained every second" "$drained"
echo "$above above their bound"
[ "$above" -eq 0 ]
