#!/bin/sh
# Hands the lines of standard input in batches to a command, each batch as a file, again until the command takes it:
#
#   in-batches.sh LINES COMMAND..
#
# The file's name is the command's last word. While the command fails no more lines are read, so that what writes them keeps them (`pdcgw bridge --keep`). It
# needs GNU split. The last batch is handed over when the input ends.
set -eu
lines=$1
shift
COMMAND=$*
export COMMAND
# shellcheck disable=SC2016 # split's shell expands it
exec split --lines="$lines" --filter='file=$(mktemp) && cat > "$file" && until $COMMAND "$file"; do sleep 2; done; rm "$file"' -
