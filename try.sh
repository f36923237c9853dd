#!/bin/sh
# Builds the whole program without a proof, in some four minutes, leaves it as ./pdcgw and runs its demo. A later run starts at once.
# Words are passed on: sh try.sh run --setup setup.toml. It needs the toolchain's `rt` on the PATH, and Python 3.8 or later.
for command in rt python3; do
    command -v "$command" > /dev/null || { echo "try.sh: there is no $command on the PATH" >&2; exit 1; }
done
exec python3 "$(dirname "$0")/tools/lab.py" "$@"
