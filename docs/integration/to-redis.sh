#!/bin/sh
# Adds a file of lines of `pdcgw bridge --format json` to a stream of Redis, all of them or none: to-redis.sh FILE. REDIS_URL says where, KEY is the
# stream's name, which is pmu where it is not given. A batch whose answer was lost is added twice.
set -eu
LC_ALL=C awk -v key="${KEY:-pmu}" '
BEGIN { printf "*1\r\n$5\r\nMULTI\r\n" }
{ printf "*5\r\n$4\r\nXADD\r\n$%d\r\n%s\r\n$1\r\n*\r\n$4\r\nline\r\n$%d\r\n%s\r\n", length(key), key, length($0), $0 }
END { printf "*1\r\n$4\r\nEXEC\r\n" }' "$1" | timeout 20 redis-cli -u "${REDIS_URL:-redis://127.0.0.1:6379}" --pipe > /dev/null
