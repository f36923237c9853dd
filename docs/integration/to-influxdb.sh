#!/bin/sh
# Posts a file of lines of `pdcgw bridge --format influx` to InfluxDB: to-influxdb.sh FILE. URL is http://HOST:8086/write?db=DATABASE, or for version 2
# the address of /api/v2/write with a header in TOKEN. Points that are there already are written again as the same.
exec curl -sS --fail --max-time 20 --header "Authorization: Token ${TOKEN:-}" --data-binary "@$1" "$URL"
