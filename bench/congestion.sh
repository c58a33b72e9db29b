#!/bin/sh
# congestion.sh [ARCHIVE]: one station sends 1,200 messages of 50 bytes to another over the relay of examples/udp, with the congestion
# window off and on, where one datagram in a hundred and one in ten is lost. A row of a table for each: seconds, datagrams over the relay,
# retransmissions. AMPFERWEG_PORT is the first of three UDP ports (default 46300).
set -eu
root=$(cd "$(dirname "$0")/.." && pwd)
archive=${1:-$root/target/staticlib/libampferweg.a}
work=$root/target/congestion
port=${AMPFERWEG_PORT:-46300}
# shellcheck source=examples/udp/programs.sh
. "$root/examples/udp/programs.sh"
build "$archive" station relay
awk 'BEGIN { for (i = 0; i < 1200; i++) printf "%050d\n", i }' >"$work/lines.txt"

run() { # LOST-PERCENT CONGESTION
    start relay relay --port "$port" --left "127.0.0.1:$((port + 1))" --right "127.0.0.1:$((port + 2))" --drop "$1" --repeat 0 --shuffle 0 \
        --seed 1
    relay=$started
    start hears station --name hears --port $((port + 2)) --peer "127.0.0.1:$port" --expect 1200 --seconds 120 --save "$work/heard.txt"
    hears=$started
    began=$(date +%s%N)
    start sends station --name sends --port $((port + 1)) --peer "127.0.0.1:$port" --send "$work/lines.txt" --expect 0 --seconds 120 \
        --congestion "$2"
    await "$started"
    await "$hears"
    took=$((($(date +%s%N) - began) / 1000000))
    end "$relay" || :
    cmp "$work/heard.txt" "$work/lines.txt"
    datagrams=$(sed -n 's/.* \([0-9][0-9]*\) datagrams.*/\1/p' "$work/relay.out" | head -n 1)
    again=$(sed -n 's/.* \([0-9][0-9]*\) of them retransmissions.*/\1/p' "$work/sends.out")
    echo "| $1 % lost | $([ "$2" = 1 ] && echo on || echo off) | $((took / 1000)).$(printf %03d $((took % 1000))) | $datagrams | $again |"
}

echo "| Line | Congestion window | Seconds | Datagrams | Retransmissions |"
echo "|---|---|--:|--:|--:|"
for lost in 1 10; do for on in 0 1; do run $lost $on; done; done
