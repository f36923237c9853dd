#!/bin/sh
# Tries the wrong bodies in crates/NAME/planted: the prover has to refuse each. The gate tries only the edits in must-fail/. An edit with a
# line 'refused: test ..' is skipped: no clause refuses it, but that test.
#
#   sh tools/planted.sh [CRATE..]     all crates that have such a folder, or these
#
# It works on a copy of the repository, in which these edits lie in must-fail/. A kit whose `rt ci` takes names proves nothing again that the
# gate has proved on this machine, and tries several edits side by side. An older kit has `rt must-fail`, which proves the crates below
# first, where `rt check` or `rt lib` has not built them here.
#
# It prints each edit that was not refused, each that was refused only by a missing name (weak evidence), and last the total. The status is 1
# where an edit was not refused or not tried. KEEP=FILE keeps the prover's output.
set -eu
cd "$(dirname "$0")/.."
top=$PWD
room=$(mktemp -d)
trap 'rm -rf "$room"' EXIT
output=${KEEP:-$room/output}
: > "$output"
output=$(cd "$(dirname "$output")" && pwd)/$(basename "$output")

names=${*:-$(ls -d crates/*/planted | sed 's|crates/||; s|/planted||')}
for name in $names; do
    [ -d "crates/$name/planted" ] || { echo "planted.sh: there is no folder crates/$name/planted" >&2; exit 2; }
done

mkdir "$room/copy"
# (git lists a file that was removed and not yet committed too)
git ls-files -z --cached --others --exclude-standard |
    xargs -0 sh -c 'for it; do [ ! -e "$it" ] || cp --parents "$it" "$0"; done' "$room/copy"
cd "$room/copy"
planted=0
skipped=0
for name in $names; do
    rm -rf "crates/$name/must-fail"
    mv "crates/$name/planted" "crates/$name/must-fail"
    grep -l '^refused: test ' "crates/$name/must-fail/"*.edit > "$room/skipped" || true
    skipped=$((skipped + $(wc -l < "$room/skipped")))
    xargs rm -f < "$room/skipped"
    planted=$((planted + $(find "crates/$name/must-fail" -name '*.edit' | wc -l)))
done

RT_JOBS=$(python3 "$top/tools/jobs.py" 4)
export RT_JOBS
# shellcheck disable=SC2086 # the names are words
rt ci $names > "$output" 2>&1 || true
if ! grep -q '^[0-9]* passed, [0-9]* failed' "$output"; then
    # (rt takes a library that was built here where its sources are the same)
    for rlib in "$top"/crates/*/out/rlib; do
        [ ! -f "$rlib/stamp" ] || (crate=$(basename "${rlib%/out/rlib}") && mkdir -p "crates/$crate/out" && cp -R "$rlib" "crates/$crate/out/")
    done
    # shellcheck disable=SC2086
    rt must-fail $names > "$output" 2>&1 || true
fi

tried=$room/tried
for name in $names; do
    grep -h "^rt: must-fail $name/[^ ]*\.edit: " "$output" || true
done | sort -u > "$tried"
grep -v ': refused, as it must be' "$tried" || true
grep 'says little of the contract' "$tried" || true
total=$(wc -l < "$tried")
refused=$(grep -c ': refused, as it must be' "$tried" || true)
weak=$(grep -c 'says little of the contract' "$tried" || true)
if [ "$total" -lt "$planted" ]; then
    echo "the end of the prover's output, as not all were tried:"
    tail -n 20 "$output"
fi
echo "$planted planted: $refused refused ($weak by a missing name alone), $((total - refused)) not refused, $((planted - total)) not tried"
[ "$skipped" -eq 0 ] || echo "$skipped skipped, as a test refuses them and not the prover" >&2
[ "$refused" -eq "$planted" ]
