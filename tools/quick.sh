#!/bin/sh
# Runs the worked rows and the tests of frames without a proof, in about two minutes. --all: all tests. CRATE..: the tests of these crates.
# --service: the tests of the running service with ./pdcgw, which `sh try.sh` builds.
# The last line is 'N passed, M failed', and the status is 1 where one failed. It needs the toolchain's `rt` on the PATH, and Python 3.8.
for command in rt python3; do
    command -v "$command" > /dev/null || { echo "quick.sh: there is no $command on the PATH" >&2; exit 2; }
done
exec python3 "$(dirname "$0")/quick.py" "$@"
