#!/bin/sh
# The gate: `rt ci`, and then tests/run.py with the program that it proved (tools/gate.py). `rt ci` runs as many checks side by side as there
# are processors, but no more than one for each 4 GB of free memory. RT_JOBS, where it is set, is taken as it is. (Without it `rt ci` reckons with
# 7 to 10 GB for a large crate, which takes 2 to 4, and with 23 GB lets two checks run.)
set -eu
cd "$(dirname "$0")/.."
RT_JOBS=$(python3 tools/jobs.py 4)
export RT_JOBS
exec python3 tools/gate.py
