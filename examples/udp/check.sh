#!/bin/sh
# check.sh [ARCHIVE]: tries the stations of this folder: their options, how they end, what they say, and restarts. Ends by itself, within
# a minute where all is well. The last line is 'examples: N passed, M failed'. AMPFERWEG_PORT is the first of ten UDP ports (default 46300).
set -u
root=$(cd "$(dirname "$0")/../.." && pwd)
archive=${1:-$root/target/staticlib/libampferweg.a}
work=$root/target/examples/udp
port=${AMPFERWEG_PORT:-46300}
rm -rf "$work"
# shellcheck source=examples/udp/programs.sh
. "$root/examples/udp/programs.sh"
build "$archive" station relay hub hello_check
archive=$(cd "$(dirname "$archive")" && pwd)/$(basename "$archive")
cd "$work" || exit 2
passed=0
failed=0

# Runs a check, and ends what it has left running.
try() { # NAME FUNCTION
    if "$2" >log 2>&1; then
        passed=$((passed + 1))
        echo "$1"
    else
        failed=$((failed + 1))
        echo "$1: FAILED"
        tail -n 3 log ./*.out
    fi
    stop
    rm -f ./*.out
}

# A station on port FIRST + N whose peer is on FIRST + M.
begin() { # NAME N M OPTIONS..
    of=$1 own=$((port + $2)) peer=$((port + $3))
    shift 3
    start "$of" station --name "$of" --port "$own" --peer "127.0.0.1:$peer" "$@"
}

refused() { # WORDS PROGRAM OPTIONS..: the program ends with 2 and says these words
    words=$1
    shift
    said=$("$@" 2>&1)
    status=$?
    echo "$* ends with $status: $said"
    [ $status -eq 2 ] && echo "$said" | grep -q -e "$words"
}

# ---- the checks

no_final_newline() {
    printf 'one\ntwo\nthree' >three.txt
    begin hearer 0 1 --expect 3 --save heard.txt || return 1
    hearer=$started
    begin sender 1 0 --expect 0 --send three.txt --seconds 10 || return 1
    await "$started" && await "$hearer" || return 1
    printf 'one\ntwo\nthree\n' | cmp - heard.txt && grep -q '3 messages sent and acknowledged' sender.out
}

runs_on() {
    began=$(date +%s)
    begin alone 0 1 --seconds 3 || return 1
    await "$started" && [ $(($(date +%s) - began)) -ge 3 ] && grep -q '0 messages sent and acknowledged, 0 heard' alone.out
}

# Both end with all acknowledged, though every other datagram is lost.
half_is_lost() {
    pids=''
    for seed in 1 2 3; do
        n=$((3 * seed - 3))
        start "relay$seed" relay --port $((port + n)) --left 127.0.0.1:$((port + n + 1)) --right 127.0.0.1:$((port + n + 2)) \
            --drop 50 --seed "$seed" || return 1
        begin "left$seed" $((n + 1)) "$n" --mode 2 --expect 24 --send "$udp/recipes/left.txt" --save "left$seed.txt" --seconds 25 || return 1
        pids="$pids $started"
        begin "right$seed" $((n + 2)) "$n" --mode 2 --expect 24 --send "$udp/recipes/right.txt" --save "right$seed.txt" --seconds 25 || return 1
        pids="$pids $started"
    done
    for process in $pids; do await "$process" || return 1; done
    for seed in 1 2 3; do cmp "left$seed.txt" "$udp/recipes/right.txt" && cmp "right$seed.txt" "$udp/recipes/left.txt" || return 1; done
}

reasons() {
    echo hello >hello.txt
    begin seven 0 1 --conv 7 --expect 1 --seconds 2 || return 1
    seven=$started
    begin eight 1 0 --conv 8 --expect 0 --send hello.txt --seconds 2 || return 1
    await "$started" && return 1
    await "$seven" && return 1
    [ "$(grep -c 'a datagram of 29 bytes: refused 2: the datagram is of another conversation' seven.out)" -eq 1 ] &&
        grep -q '[2-9] datagrams refused 2: ' seven.out && grep -q 'ends before all of its messages were acknowledged' eight.out
}

addresses() {
    for wrong in 127.0.0.1:4000x 127.0.0.1: 127.0.0.1:+4000 127.0.0.1:0 127.0.0.1:65536 127.0.0.1 127.0.0:4000; do
        refused 'an address like' ./station --port "$port" --peer "$wrong" --seconds 1 || return 1
    done
}

settings() {
    ./station --conv 7 --keep line.kls || return 1
    for other in 'conv 7' 'mtu 100' 'mode 1' 'interval 10' 'threshold 2' 'keep other.kls'; do
        # shellcheck disable=SC2086
        refused 'does not go with --settings' ./station --port "$port" --peer 127.0.0.1:4000 --settings line.kls --$other || return 1
    done
    [ ! -f other.kls ]
}

# An mtu of 1,400, kept in a settings file of version 2: messages to 12,000 bytes, through a relay that loses one datagram in ten.
full_frames() {
    awk 'BEGIN { for (i = 1; i <= 40; i++) { s = i " "; while (length(s) < 300 * i) s = s "abcdefghijklmnopqrstuvwxyz"; print s } }' >long.txt
    ./station --mtu 1400 --keep full.kls && [ "$(wc -c <full.kls)" -eq 17 ] && middle || return 1
    begin hearer 1 0 --settings full.kls --seconds 20 --save heard.txt --expect 40 || return 1
    hearer=$started
    begin sender 2 0 --settings full.kls --seconds 20 --send long.txt --expect 0 || return 1
    await "$started" && await "$hearer" && cmp long.txt heard.txt
}

# run.sh refuses ports that cannot be, and advises ports that can.
ports() {
    for wrong in 0 65534 99999 070 x 4294967297; do
        refused 'is the first of three ports' env AMPFERWEG_PORT=$wrong "$udp/run.sh" "$archive" || return 1
    done
    start taken relay --port 65502 --left 127.0.0.1:1 --right 127.0.0.1:2 || return 1
    AMPFERWEG_PORT=65500 "$udp/run.sh" "$archive" >advice.out 2>&1 && return 1
    grep -q 'AMPFERWEG_PORT=46100 .* tries other ports' advice.out
}

interrupted() {
    for signal in INT TERM; do
        begin stopped 0 1 --expect 1 || return 1
        kill -$signal "$started"
        await "$started"
        [ $? -eq 1 ] && grep -q '0 of 1 heard; ' stopped.out && grep -q 'stopped by a signal' stopped.out || return 1
    done
    begin stopped 0 1 || return 1
    kill -INT "$started"
    await "$started"
}

# ---- restarts: 600 messages through a relay that loses one datagram in ten; one station is killed once 100 have arrived

awk 'BEGIN {
    for (i = 1; i <= 600; i++) printf "message %d of six hundred, with words enough behind it to take two segments of a short mtu, %d\n", i, i * i
}' >many.txt

middle() {
    start relay relay --port "$port" --left 127.0.0.1:$((port + 1)) --right 127.0.0.1:$((port + 2)) --seed 5
}

hears() { # SAVED-FILE OPTIONS..
    saved=$1
    shift
    begin hearer 1 0 --mtu 100 --interval 40 --hello 50 --seconds 20 --save "$saved" "$@"
}

sends() { begin sender 2 0 --mtu 100 --interval 40 --hello 50 --seconds 20 --send many.txt --expect 0; }

# Waits until a file has 100 lines, ten seconds at most.
a_hundred() { # FILE
    for _ in $(seq 200); do
        [ "$(wc -l <"$1")" -ge 100 ] && return 0
        sleep 0.05
    done
    return 1
}

# Kills a station at once, as a power cut would.
power_cut() { # PROCESS
    kill -9 "$1"
    await "$1"
    [ $? -eq 137 ]
}

# The two files hold the messages from the first to one in the middle, and on from there, or from a little before, to the last.
whole() { # BEFORE AFTER
    before=$(wc -l <"$1")
    after=$(wc -l <"$2")
    echo "$before messages before the restart, $after after it"
    [ "$before" -ge 100 ] && [ "$before" -lt 600 ] && [ $((before + after)) -ge 600 ] && [ "$after" -le 600 ] &&
        head -n "$before" many.txt | cmp - "$1" && tail -n "$after" many.txt | cmp - "$2"
}

hearer_restarts() {
    middle && hears before.txt || return 1
    hearer=$started
    sends || return 1
    sender=$started
    a_hundred before.txt && power_cut "$hearer" && hears after.txt || return 1
    hearer=$started
    await "$sender" || return 1
    kill -INT "$hearer"
    await "$hearer" && whole before.txt after.txt && [ "$(wc -l <after.txt)" -lt 600 ] &&
        grep -q '600 messages sent and acknowledged, [1-9][0-9]* sent again' sender.out && [ "$(grep -c 'the peer is new' sender.out)" -eq 2 ]
}

# The sender that restarts does not know what was acknowledged, and sends all.
sender_restarts() {
    middle && hears both.txt || return 1
    hearer=$started
    sends || return 1
    a_hundred both.txt && power_cut "$started" && sends && await "$started" || return 1
    kill -INT "$hearer"
    await "$hearer" || return 1
    tail -n 600 both.txt >after.txt
    head -n $(($(wc -l <both.txt) - 600)) both.txt >before.txt
    whole before.txt after.txt && grep -q '600 messages sent and acknowledged, 0 of 0 heard' sender.out
}

# Both are killed, one after the other.
both_restart() {
    middle && hears before.txt && hearer=$started && sends && sender=$started && a_hundred before.txt || return 1
    power_cut "$sender" && power_cut "$hearer" && hears after.txt && hearer=$started && sends && await "$started" || return 1
    kill -INT "$hearer"
    await "$hearer" && whole before.txt after.txt
}

# What docs/C.md warns of: without a hello the messages of a station that restarted are acknowledged, and not heard.
no_hello() {
    seq 5 >five.txt
    begin hearer 0 1 --save heard.txt --seconds 20 || return 1
    hearer=$started
    for _ in 1 2; do begin sender 1 0 --send five.txt --expect 0 --seconds 10 && await "$started" || return 1; done
    kill -INT "$hearer"
    await "$hearer" && cmp five.txt heard.txt && grep -q '5 messages sent and acknowledged' sender.out
}

# With hellos, and without them while something is pending; an idle station has nothing to miss.
silence() {
    seq 5 >five.txt
    begin idle 2 3 --silence 500 --seconds 2 && idle=$started && begin waits 3 4 --silence 500 --seconds 2 --send five.txt || return 1
    waits=$started
    begin hearer 0 1 --hello 50 --silence 500 --seconds 8 || return 1
    hearer=$started
    begin sender 1 0 --hello 50 --seconds 8 || return 1
    sleep 1
    power_cut "$started"
    grep 'heard nothing' hearer.out && return 1
    sleep 1
    grep -q 'heard nothing for 500 ms' hearer.out || return 1
    begin sender 1 0 --hello 50 --seconds 8 || return 1
    sleep 0.5
    kill -INT "$hearer"
    await "$hearer"
    grep -q 'hears the peer again' hearer.out || return 1
    await "$idle"
    await "$waits"
    grep -q 'heard nothing for 500 ms' waits.out && ! grep 'heard nothing' idle.out
}

# Three stations speak to the hub's one port, each on a link of its own; a fourth one's conversation is no link's.
hub() {
    start hub hub --port "$port" --links 4 --conv 10 --print 1 || return 1
    middle=$started
    pids=''
    for n in 1 2 3; do
        sed "s/^/line $n: /" "$udp/recipes/left.txt" >"said$n.txt"
        begin "line$n" "$n" 0 --conv $((9 + n)) --expect 24 --send "said$n.txt" --save "back$n.txt" --seconds 15 || return 1
        pids="$pids $started"
    done
    begin stranger 4 0 --conv 99 --expect 1 --send said1.txt --seconds 1 || return 1
    await "$started" && return 1
    for process in $pids; do await "$process" || return 1; done
    end "$middle" || return 1
    for n in 1 2 3; do cmp "said$n.txt" "back$n.txt" && grep -q "^link $((9 + n)): 24 messages; " hub.out || return 1; done
    grep -q '^link 13: 0 messages; 0 datagrams in, 0 out' hub.out && grep -q '^hub: [1-9][0-9]* datagrams of no link' hub.out &&
        grep -q '^link 12: settings: conv 12, mtu 256, mode 1' hub.out
}

try 'a file without a final newline is sent whole' no_final_newline
try 'without --expect a station runs on' runs_on
try 'the last acknowledgements arrive where half is lost' half_is_lost
try 'a refused datagram is said with its reason' reasons
try 'a wrong address is refused' addresses
try 'an option beside a settings file is refused' settings
try 'an mtu of 1,400, kept in a settings file of version 2' full_frames
try 'an array of links on one socket' hub
try "run.sh's ports" ports
try 'a signal ends a station with its summary' interrupted
try 'hellos, also late ones' ./hello_check
try 'a station that hears is killed and restarts: nothing is lost' hearer_restarts
try 'a station that sends is killed and restarts: nothing is lost' sender_restarts
try 'both are killed and restart: nothing is lost' both_restart
try 'without a hello a restart is not noticed' no_hello
try 'a peer that falls silent is noticed' silence
echo "examples: $passed passed, $failed failed"
[ "$failed" -eq 0 ]
