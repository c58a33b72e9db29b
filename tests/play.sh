#!/bin/sh
# play.sh PROGRAM GIVEN WANTED [FOLDER]: runs a proved program on each file *GIVEN of FOLDER (tests/vectors where none is named), and
# compares what it prints with the file *WANTED beside it; the first file once more through a pipe that brings it in two pieces. A line
# of FOLDER/sizes, 'COUNT NAME', plays COUNT bytes, all of them a letter, and compares with NAMEWANTED: the longest input and one byte more.
# Where there is python3, an input of more than 8,192 bytes comes once more as one packet, where a socket holds it.
# The program is target/bin/PROGRAM, which make builds, or else what rt left in its crate's out/.
root=$(cd "$(dirname "$0")/.." && pwd)
program=$1 given=$2 wanted=$3 folder=${4:-$root/tests/vectors}
run=$root/target/bin/$program
[ -x "$run" ] || run=$root/crates/$program/out/$program
[ -x "$run" ] || { echo "play.sh: there is no $program: run 'make target/bin/$program' first" >&2; exit 2; }
printed=$(mktemp) || exit 2
trap 'rm -f "$printed"' EXIT
passed=0
failed=0
first=

# Counts a play: its status, its file, and how it was given.
told() {
    if [ "$1" -eq 0 ] && cmp -s "$printed" "${2%"$given"}$wanted"; then
        passed=$((passed + 1))
    else
        failed=$((failed + 1))
        echo "$program: $2: what it prints differs$3"
    fi
}

# Whether that many bytes are more than a read of 8,192 takes, and one packet brings them.
fits() {
    [ "$1" -gt 8192 ] && [ "$1" -le 131072 ] && command -v python3 >/dev/null
}

# Plays standard input as one packet.
packet() {
    python3 -c '
import socket, subprocess, sys
given, taken = socket.socketpair(socket.AF_UNIX, socket.SOCK_SEQPACKET)
given.send(sys.stdin.buffer.read())
given.close()
sys.exit(subprocess.call(sys.argv[1:], stdin=taken))' "$run" >"$printed"
}

for file in "$folder"/*"$given"; do
    [ -e "$file" ] || continue
    first=${first:-$file}
    "$run" <"$file" >"$printed"
    told $? "$file" ""
    if fits "$(wc -c <"$file")"; then
        packet <"$file"
        told $? "$file" ", in one packet"
    fi
done
if [ -e "$folder/sizes" ]; then
    while read -r count name; do
        head -c "$count" /dev/zero | tr '\0' a | "$run" >"$printed"
        told $? "$folder/$name$given" ", of $count bytes"
        if fits "$count"; then
            head -c "$count" /dev/zero | tr '\0' a | packet
            told $? "$folder/$name$given" ", of $count bytes in one packet"
        fi
    done <"$folder/sizes"
fi
if [ -n "$first" ]; then
    { head -c 7 "$first"; sleep 0.3; tail -c +8 "$first"; } | "$run" >"$printed"
    told $? "$first" ", in two pieces"
fi
echo "$program: $passed passed, $failed failed"
[ "$failed" -eq 0 ] && [ "$passed" -gt 0 ]
