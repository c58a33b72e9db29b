#!/bin/sh
# run.sh [ARCHIVE]: our station against kcp-go, both sending, messages of 1 byte to 20 fragments, over a network that loses one datagram in
# ten; then each row of docs/JOINING.md, those that join and those that do not. Two minutes. Installs Debian's golang-go and
# golang-github-xtaci-kcp-dev where they are missing, and says so. The last line is 'interop: N passed, M failed'. Not part of the gate.
# AMPFERWEG_PORT is the first of three UDP ports (default 46200).
set -u
root=$(cd "$(dirname "$0")/../.." && pwd)
archive=${1:-$root/target/staticlib/libampferweg.a}
work=$root/target/interop
port=${AMPFERWEG_PORT:-46200}
gopath=/usr/share/gocode
# shellcheck source=examples/udp/programs.sh
. "$root/examples/udp/programs.sh"

# ---- what it needs
if ! command -v go >/dev/null || [ ! -d $gopath/src/github.com/xtaci/kcp-go ]; then
    echo "interop: installs golang-go and golang-github-xtaci-kcp-dev (apt-get)"
    packages() { apt-get install -y --no-install-recommends golang-go golang-github-xtaci-kcp-dev; }
    { packages || { apt-get update && packages; }; } >"$work/apt.log" 2>&1 ||
        { echo "run.sh: they cannot be installed (root? network?): see $work/apt.log" >&2; exit 2; }
fi
build "$archive" station relay
GO111MODULE=off GOPATH=$gopath GOCACHE=$work/go-cache go build -o "$work/peer" "$root"/tests/interop/*.go || exit 2

# ---- messages: each length around a fragment's end, and text that differs from line to line
messages() { # SALT ROUNDS SIZE..
    awk -v salt="$1" -v rounds="$2" -v sizes="$3" 'BEGIN {
        n = split(sizes, size, " ")
        state = salt
        for (i = 1; i <= rounds * n; i++) {
            line = ""
            while (length(line) < size[(i - 1) % n + 1]) {
                state = (state * 1103515245 + 12345) % 2147483648
                line = line sprintf("%c", 97 + int(state / 65536) % 26)
            }
            print line
        }
    }'
}
all='1 2 23 24 25 231 232 233 255 256 463 464 465 695 696 697 1000 2320 2321 4639 4640 1 100 3000 7'
short='1 2 23 24 25 100 200 231 232 7'
for name in ours theirs; do
    salt=${#name}
    messages "$salt" 4 "$all" >"$work/$name-all.txt"
    messages "$salt" 1 "$all" >"$work/$name-once.txt"
    messages "$salt" 5 "$short" >"$work/$name-short.txt"
    printf 'one\n\ntwo\n' >"$work/$name-empty.txt"
done
messages 1 1 '10 30 10' >"$work/ours-long.txt"
messages 2 1 '10 30000 10' >"$work/theirs-long.txt" # 130 fragments at an mtu of 256

# ---- one exchange: both ends with options of their own; the lines of FILE, so many seconds at most
passed=0
failed=0
exchange() { # FILE DROP SECONDS OURS THEIRS
    file=$1 drop=$2 bound=$3 ours_options=$4 theirs_options=$5
    count=$(wc -l <"$work/ours-$file.txt")
    rm -f "$work"/*-heard.txt
    start relay relay --port "$port" --left "127.0.0.1:$((port + 1))" --right "127.0.0.1:$((port + 2))" --drop "$drop" --seed 1 || return 1
    relay=$started
    set -- --peer "127.0.0.1:$port" --expect "$count" --seconds "$bound" --hold 300
    # shellcheck disable=SC2086
    start ours station --name ours --port $((port + 1)) --send "$work/ours-$file.txt" --save "$work/ours-heard.txt" "$@" $ours_options ||
        return 1
    one=$started
    # shellcheck disable=SC2086
    start theirs peer --port $((port + 2)) --send "$work/theirs-$file.txt" --save "$work/theirs-heard.txt" "$@" $theirs_options || return 1
    await "$one"; ours=$?
    await "$started"; theirs=$?
    end "$relay"
    return 0
}

said() { # NAME GOOD WORDS: counts, and prints a line
    if [ "$2" -eq 0 ]; then
        passed=$((passed + 1))
        echo "$1: $3"
    else
        failed=$((failed + 1))
        echo "$1: FAILED"
        cat "$work/ours.out" "$work/theirs.out" "$work/relay.out" | grep -v ' hears '
    fi
    stop
}

equal() { # FILE
    [ "$ours$theirs" = 00 ] && cmp "$work/ours-heard.txt" "$work/theirs-$1.txt" && cmp "$work/theirs-heard.txt" "$work/ours-$1.txt" &&
        grep -q ' 0 refused; ' "$work/ours.out" && ! grep 'refused map\[.*:' "$work/theirs.out"
}

# Both ends hear all that the other one sent, and refuse nothing.
joins() { # NAME FILE OURS THEIRS
    exchange "$2" 10 30 "$3" "$4" && equal "$2"
    said "$1" $? "$count messages each way, all equal; $(tail -n 1 "$work/relay.out")"
}

# They do not join: an end does not come to all that it expects, and one of them says these words.
parts() { # NAME FILE SECONDS OURS THEIRS WHO WORDS
    exchange "$2" 0 "$3" "$4" "$5" && [ "$ours$theirs" != 00 ] && grep -q -e "$7" "$work/$6.out"
    said "$1" $? "$(grep -e "$7" "$work/$6.out" | head -n 1)"
}

joins "mode 1, fast retransmission" all '' ''
joins "mode 0, fast retransmission" all '--mode 0' '--mode 0'
joins "mode 1, no fast one" all '--threshold 0' '--threshold 0'
joins "mode 2, fast retransmission" all '--mode 2' '--mode 2'
joins "mode 1, mtu 1,400" all '--mtu 1400' '--mtu 1400'
joins "mode 1, both congestion windows on" all '--congestion 1' '--congestion 1'

echo "each row of docs/JOINING.md, with other settings at the two ends:"
joins "conversation 4294967295 at both" once '--conv 4294967295' '--conv 4294967295'
parts "conversation 7, and 8 there" once 3 '--conv 7' '--conv 8' ours 'refused 2: '
parts "conversation 8 there, as kcp-go sees it" once 3 '--conv 7' '--conv 8' theirs 'refused map\[-1:'
joins "mtu 256, and 100 there" once '' '--mtu 100'
parts "mtu 256, and 1,400 there" once 4 '' '--mtu 1400' ours 'refused 5: '
joins "mtu 256, and 1,400 there, messages up to 232 bytes" short '' '--mtu 1400'
joins "mode 0, and nodelay 1 there" once '--mode 0' '--mode 1'
joins "mode 1, and nodelay 0 there" once '--mode 1' '--mode 0'
joins "mode 2, and nodelay 0 there" once '--mode 2' '--mode 0'
joins "interval 10, and 100 there" once '' '--interval 100'
joins "interval 100, and 10 there" once '--interval 100' ''
joins "threshold 0, and resend 2 there" once '--threshold 0' '--threshold 2'
joins "threshold 2, and resend 0 there" once '--threshold 2' '--threshold 0'
joins "congestion 0, and nc 0 there" once '--congestion 0' '--congestion 1'
joins "congestion 1, and nc 1 there" once '--congestion 1' '--congestion 0'
joins "windows of 4 and 32 there" once '' '--sndwnd 4 --rcvwnd 32'
joins "windows of 1,024 and 1,024 there" once '' '--sndwnd 1024 --rcvwnd 1024 --slots 1024'
joins "a receive window of 8 there, messages of one segment" short '' '--rcvwnd 8'
parts "a receive window of 16 there, a message of 20 segments" once 5 '' '--rcvwnd 16' ours 'before all of its messages were acknowledged'
parts "a message of 130 segments from there" long 4 '' '--slots 1024' ours 'refused 6: '
joins "messages, to a session that has bytes" once '--raw 1' '--session'
joins "a stream, to a session with stream mode off" once '--raw 1 --stream 1' '--session'
joins "a stream, to a session with stream mode on" once '--raw 1 --stream 1' '--session --stream'
parts "an empty message, to a session" empty 3 '' '--session' theirs ', 3 bytes heard'
parts "an empty message, from the core type" empty 3 '' '' theirs 'send: a message of 0 bytes'
parts "a session with FEC" once 3 '--raw 1' '--session --fec 10' ours 'refused 2: '
parts "its frame of sequence 1, our conversation" once 3 '--raw 1' '--session --fec 10' ours 'refused 4: '
parts "a session with a cipher" once 3 '--raw 1' '--session --cipher' ours 'refused 2: '
echo "interop: $passed passed, $failed failed"
[ $failed -eq 0 ]
