#!/bin/sh
# A newcomer's run: clones the repository into a temporary folder, does each command of the README there, in order, and prints a
# table of their times. The gate is left out but with --gate. PROGRAM names a program to take for `pdcgw` instead of the one that
# `sh try.sh` builds. The README's PMU at 10.0.0.1 is played by `pdcgw simulate` on 127.0.0.1, and /run/pdcgw is a temporary folder.
# A command that never ends by itself is ended after 5 seconds. Ports: 4712, 4800 and 9100. Status 1 where a command failed.
set -eu
top=$(cd "$(dirname "$0")/.." && pwd)
gate=
for word in "$@"; do
    case $word in
    --gate) gate=yes ;;
    *) echo "usage: sh tools/newcomer.sh [--gate]" >&2; exit 2 ;;
    esac
done
scratch=$(mktemp -d)
started=
cleanup() {
    for process in $started; do kill "$process" 2> "$scratch/killed" || :; done
    rm -rf "$scratch"
}
trap cleanup EXIT
failed=0
git -c advice.detachedHead=false clone -q "$top" "$scratch/clone"
clone=$scratch/clone
readme=$clone/README.md
program=${PROGRAM:-$clone/pdcgw}

# The setup of the README, with the keys of its section Operate.
{
    printf 'control = "%s/control"\nstatus = "127.0.0.1:9100"\n' "$scratch"
    sed -n '/^```toml$/,/^```$/p' "$readme" | grep -v '^```' | sed 's/10\.0\.0\.1/127.0.0.1/'
} > "$scratch/setup.toml"

# TIME STATUS COMMAND WHAT: a row of the table.
row() {
    printf '| `%s` | %s | %s | %s |\n' "$3" "$1" "$2" "$4" >> "$scratch/table"
    printf '%s s, status %s: %s\n' "$1" "$2" "$3" >&2
}

# COMMAND WANTED..: does it, and adds its row. One of the statuses has to be its own.
timed() {
    said=$1 does=$2 wanted=$3
    begun=$(date +%s)
    status=0
    sh -c "$does" > "$scratch/said" 2>&1 || status=$?
    what=$(tail -n 1 "$scratch/said" | cut -c 1-100 | tr '|' '/')
    case " $wanted " in
    *" $status "*) ;;
    *) failed=$((failed + 1)) what="FAILED: $what"; tail -n 20 "$scratch/said" >&2 ;;
    esac
    row "$(($(date +%s) - begun))" "$status" "$said" "$what"
}

# COMMAND: its own words, with the places of this run.
placed() {
    printf '%s' "$1" | sed "s,^pdcgw,$program,; s,10\.0\.0\.1,127.0.0.1,; s,/run/pdcgw,$scratch,; s, setup\.toml, $scratch/setup.toml,"
}

# COMMAND: one of the program's.
program_command() {
    case $1 in
    "pdcgw run "*)
        $(placed "$1") < /dev/null > "$scratch/run" 2>&1 &
        started="$started $!"
        sleep 3
        row 3 - "$1" "$(grep -c . "$scratch/run") lines of log; it goes on" ;;
    "pdcgw watch "*) timed "$1" "timeout -s INT 5 $(placed "$1")" "0 124" ;;
    *) timed "$1" "$(placed "$1")" 0 ;;
    esac
}

# The blocks of code that name no language.
awk '/^```/ { inside = !inside; if (inside) plain = ($0 == "```"); next } inside && plain && NF' "$readme" > "$scratch/commands"
while read -r command <&3; do
    case $command in
    "sh try.sh")
        if [ -z "${PROGRAM:-}" ]; then timed "$command" "cd '$clone' && $command < /dev/null" 0; fi
        "$program" simulate --source 7 > "$scratch/simulate" 2>&1 &
        started="$started $!"
        sleep 1 ;;
    "sh tools/gate.sh")
        if [ -n "$gate" ]; then timed "$command" "cd '$clone' && $command" 0; else row - - "$command" "left out: --gate does it"; fi ;;
    "pdcgw "*) program_command "$command" ;;
    *) row - - "$command" "FAILED: no command that this script knows"; failed=$((failed + 1)) ;;
    esac
done 3< "$scratch/commands"

echo "| Command | Seconds | Status | Its last line |"
echo "|---|---|---|---|"
cat "$scratch/table"
echo "$failed failed"
[ "$failed" = 0 ]
