#!/bin/sh
# run.sh [ARCHIVE]: two stations on this machine send recipes to each other over a bad network, and print what arrives.
# Builds all it needs, ends by itself in seconds, and says in its last line whether every recipe arrived in order.
# AMPFERWEG_PORT is the first of three UDP ports (default 46100); AMPFERWEG_SEED gives other losses; AMPFERWEG_PROGRAMS is a folder with
# station and relay where they are built already.
set -u
root=$(cd "$(dirname "$0")/../.." && pwd)
archive=${1:-$root/target/staticlib/libampferweg.a}
work=$root/target/demo
port=${AMPFERWEG_PORT:-46100}
seed=${AMPFERWEG_SEED:-1}
case $port in
    '' | 0* | *[!0-9]* | ??????*) port=0 ;;
esac
if [ "$port" -lt 1 ] || [ "$port" -gt 65533 ]; then
    echo "run.sh: AMPFERWEG_PORT is the first of three ports, 1 to 65533, not '$AMPFERWEG_PORT'" >&2
    exit 2
fi
other=$((port < 65400 ? port + 100 : 46100)) # advised where one of the ports is taken
# shellcheck source=examples/udp/programs.sh
. "$root/examples/udp/programs.sh"
rm -f "$work"/*.txt
[ "$programs" != "$work" ] || build "$archive" station relay

# both stations open with the settings of one file
"$programs/station" --name line --conv 7 --keep "$work/line.kls" || exit 1

middle=$port left=$((port + 1)) right=$((port + 2))

# Starts a program, or says why it does not run.
runs() { # NAME PROGRAM OPTIONS..
    start "$@" && return 0
    cat "$work/$1.out" >&2
    echo "demo: FAILED: $1 does not run. AMPFERWEG_PORT=$other $0 tries other ports." >&2
    exit 1
}

station() { # NAME OWN-PORT RECIPES HEARS
    runs "$1" station --name "$1" --port "$2" --peer "127.0.0.1:$middle" --settings "$work/line.kls" --hold 300 --send "$udp/recipes/$3.txt" \
        --expect "$(wc -l <"$udp/recipes/$4.txt")" --save "$work/$1-heard.txt"
}

echo "left and right, over a network that loses 10 in 100 datagrams, repeats 5 and holds back 10"
runs relay relay --port "$middle" --left "127.0.0.1:$left" --right "127.0.0.1:$right" --seed "$seed"
relay=$started
station left "$left" left right
one=$started
station right "$right" right left
two=$started
await "$one"; left_status=$?
await "$two"; right_status=$?
end "$relay"

cat "$work/left.out" "$work/right.out" "$work/relay.out"
same() { cmp "$work/left-heard.txt" "$udp/recipes/right.txt" && cmp "$work/right-heard.txt" "$udp/recipes/left.txt"; }
number() { sed -n "s/.* \([0-9]*\) $1.*/\1/p" "$work/relay.out" "$work/left.out" "$work/right.out" | awk '{ sum += $1 } END { print sum + 0 }'; }
if [ "$left_status" -eq 0 ] && [ "$right_status" -eq 0 ] && same; then
    echo "demo: $(number 'messages sent') recipes sent, all delivered once and in order;" \
        "$(number lost) datagrams lost, $(number 'of them retransmissions') retransmissions"
else
    echo "demo: FAILED: some recipes did not arrive"
    exit 1
fi
