#!/bin/sh
# Tries docs/integration/wireguard.conf: a source and a subscriber through WireGuard, a key that the gateway does not know, a peer that is not
# the subscriber, and a tunnel that is down for five seconds.
#
#   sh bench/wireguard.sh PROGRAM
#
# It needs root, `ip` (iproute2), wireguard-tools, and WireGuard in the kernel or wireguard-go. Gateway, substation, control centre and a stranger are
# hosts of their own (network namespaces). It ends with status 1 where something is not so.
set -eu
program=$(realpath "$1")
files=$(realpath "$(dirname "$0")/../docs/integration")
room=$(mktemp -d)
hosts="gateway control-centre substation stranger"
remove_hosts() {
    for host in switch $hosts; do
        # shellcheck disable=SC2046
        kill -9 $(ip netns pids "pdcgw-$host" 2> /dev/null) 2> /dev/null || true
        ip netns del "pdcgw-$host" 2> /dev/null || true
    done
}
trap 'remove_hosts; rm -rf "$room"' EXIT
remove_hosts
cd "$room"
umask 077
on() { host=$1; shift; ip netns exec "pdcgw-$host" "$@"; }

ip netns add pdcgw-switch
ip -n pdcgw-switch link add switch type bridge
ip -n pdcgw-switch link set switch up
for pair in gateway=10.8.0.1 control-centre=10.8.0.2 substation=10.8.0.7 stranger=10.8.0.9; do
    host=${pair%=*}
    ip netns add "pdcgw-$host"
    ip -n pdcgw-switch link add "$host" type veth peer name eth0 netns "pdcgw-$host"
    ip -n pdcgw-switch link set "$host" master switch up
    ip -n "pdcgw-$host" addr add "${pair#*=}/24" dev eth0
    ip -n "pdcgw-$host" link set lo up
    ip -n "pdcgw-$host" link set eth0 up
    wg genkey > "$host.key"
    wg pubkey < "$host.key" > "$host.pub"
done
# The file as it is, but for the keys and the place of the source.
sed -e "s|PRIVATE_KEY_OF_THE_GATEWAY|$(cat gateway.key)|; s|PUBLIC_KEY_OF_THE_CONTROL_CENTRE|$(cat control-centre.pub)|" \
    -e "s|PUBLIC_KEY_OF_THE_SUBSTATION|$(cat substation.pub)|; s|pmu7.example|10.8.0.7|" "$files/wireguard.conf" > wg-gateway.conf
# Another end, at this address of the tunnel.
end_of() {
    printf '[Interface]\nAddress = %s/24\nListenPort = 51820\nPrivateKey = %s\n' "$2" "$(cat "$1.key")"
    printf '[Peer]\nPublicKey = %s\nEndpoint = 10.8.0.1:51820\nAllowedIPs = 10.77.0.1/32\nPersistentKeepalive = 25\n' "$(cat gateway.pub)"
}
end_of control-centre 10.77.0.2 > wg-centre.conf
end_of substation 10.77.0.7 > wg-substation.conf
end_of stranger 10.77.0.2 > wg-stranger.conf
for pair in gateway=gateway control-centre=centre substation=substation stranger=stranger; do
    on "${pair%=*}" wg-quick up "./wg-${pair#*=}.conf" 2> up.log || { cat up.log; exit 1; }
done
sed 's|connect = "127.0.0.1|connect = "10.77.0.7|; s|4800|4801|; s|address = "127.0.0.1|address = "10.77.0.1|; s|\["127.0.0.1"\]|["10.77.0.2"]|
    s|ring = 64|ring = 512|; s|wait = 4|wait = 10|' "$files/../setups/chain-first.toml" > setup.toml
on substation "$program" simulate --listen 10.77.0.7:4712 > source.log &
on gateway "$program" run --setup setup.toml < /dev/null > /dev/null 2> gateway-service.log &
sleep 4

says() { echo "$1"; }
watches() { on "$1" timeout 20 "$program" watch 10.77.0.1:4801 --stream 101 --csv --seconds "$2"; }
watches control-centre 5 > through.csv 2> watch.log || { cat watch.log; exit 1; }
frames=$(grep -c . through.csv)
says "5 s through two tunnels: $frames lines"
[ "$frames" -gt 100 ]
for host in stranger substation; do
    if watches "$host" 5 > other.csv 2> other.log; then
        says "$host was let in"
        exit 1
    fi
    says "$host: $(tail -n 1 other.log)"
done
watches control-centre 15 > cut.csv 2> cut.log &
watcher=$!
sleep 4
on control-centre wg-quick down ./wg-centre.conf 2> down.log
sleep 5
on control-centre wg-quick up ./wg-centre.conf 2> up.log
wait "$watcher" || true
says "a tunnel that was down for 5 of 15 s: $(grep -c . cut.csv) lines, the last words: $(tail -n 1 cut.log)"
[ "$(grep -c . cut.csv)" -gt 350 ]
