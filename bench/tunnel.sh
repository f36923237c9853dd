#!/bin/sh
# Tries the files of docs/integration for stunnel: a source and a subscriber through TLS, a wrong certificate, and the end of a tunnel.
#
#   sh bench/tunnel.sh PROGRAM
#
# It needs stunnel and openssl, and the ports 4801, 14712, 14801, 24712 and 24801 of 127.0.0.1. It ends with status 1 where something is not so.
set -eu
program=$(realpath "$1")
files=$(realpath "$(dirname "$0")/../docs/integration")
room=$(mktemp -d)
trap 'pkill -P $$ || true; wait 2> /dev/null || true; rm -rf "$room"' EXIT
cd "$room"

for name in gateway control-centre pmu7 stranger; do
    openssl req -x509 -newkey rsa:2048 -nodes -days 2 -subj "/CN=$name" -keyout "$name.key" -out "$name.crt" 2> /dev/null
    cat "$name.key" "$name.crt" > "$name.pem"
done
# The files as they are, but for the places of the hosts and of the certificates.
here() { sed -e "s|/etc/pdcgw/tls|$room|; s|gateway.example|127.0.0.1|; s|pmu7.example|127.0.0.1|; s|0.0.0.0|127.0.0.1|" "$1"; }
here "$files/stunnel-gateway.conf" > gateway.conf
here "$files/stunnel-subscriber.conf" > subscriber.conf
sed 's|control-centre.pem|stranger.pem|; s|24801|24802|' subscriber.conf > stranger.conf
cat > substation.conf << END
foreground = yes
pid =
[pmu]
accept = 127.0.0.1:24712
connect = 127.0.0.1:34712
cert = $room/pmu7.pem
CAfile = $room/gateway.crt
verifyPeer = yes
END
sed 's|:4712|:14712|; s|4800|4801|; s|wait = 4|wait = 10|' "$files/../setups/chain-first.toml" > setup.toml
"$program" simulate --listen 127.0.0.1:34712 > source.log &
for name in substation gateway subscriber stranger; do
    stunnel "$name.conf" 2> "$name.log" &
    eval "$name=\$!"
done
"$program" run --setup setup.toml < /dev/null > /dev/null 2> gateway-service.log &
sleep 4

says() { echo "$1"; }
"$program" watch 127.0.0.1:24801 --stream 101 --csv --seconds 5 > through.csv 2> watch.log || { cat watch.log; exit 1; }
frames=$(grep -c . through.csv)
says "5 s through two tunnels: $frames lines"
[ "$frames" -gt 100 ]
if "$program" watch 127.0.0.1:24802 --stream 101 --csv --seconds 5 > stranger.csv 2> stranger-watch.log; then
    says "another certificate was let in"; exit 1
fi
says "another certificate: $(tail -n 1 stranger-watch.log)"
"$program" watch 127.0.0.1:24801 --stream 101 --csv > cut.csv 2> cut.log &
watcher=$!
sleep 2
kill -9 "$subscriber"
began=$(date +%s%N)
wait "$watcher" || true
says "the subscriber's tunnel killed: its client ended after $((($(date +%s%N) - began) / 1000000)) ms: $(tail -n 1 cut.log)"
