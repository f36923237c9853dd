#!/bin/sh
# Times pg_wire's `check` against `check_bytewise`, as LLVM builds them. It proves and builds a static library over a
# copy of pg_wire in a scratch folder (about two minutes where pg_wire was not checked before), links it with check.c
# and runs it. It fails where `check` is less than 4 times as fast at 16 KiB.
set -eu
bench=$(cd "$(dirname "$0")" && pwd)
scratch=$(mktemp -d)
trap 'rm -rf "$scratch"' EXIT
mkdir "$scratch/crates"
cp "$bench/../HANDLES" "$scratch/"
printf 'pg_wire: thiserror\ncheck_c staticlib: pg_wire\n' > "$scratch/crates.txt"
cp -R "$bench/../crates/pg_wire" "$scratch/crates/"
# The gate reads every file *.rt of the repository as a crate's, so the exports lie under another name.
mkdir -p "$scratch/crates/check_c/src" "$scratch/crates/check_c/specs" "$scratch/crates/check_c/proofs"
cp "$bench/check_c.rt.txt" "$scratch/crates/check_c/src/lib.rt"
cd "$scratch/crates/check_c"
rt lib > "$scratch/log" 2>&1 || { tail -n 20 "$scratch/log"; exit 1; }
cc -O2 -o "$scratch/check" "$bench/check.c" out/libcheck_c.a
"$scratch/check"
