# shellcheck shell=sh
# programs.sh: for scripts that run the stations; they say `root`, the folder with include and examples, and `work`, a folder for what is
# built and said, and source this.
# shellcheck disable=SC2154
udp=$root/examples/udp
programs=${AMPFERWEG_PROGRAMS:-$work} # a folder with programs that are built already
mkdir -p "$work"

# Builds programs of this folder, each of a file of its name, into $work.
build() { # ARCHIVE NAME..
    library=$1
    shift
    [ -f "$library" ] || { echo "${0##*/}: $library is missing: run 'make' first" >&2; exit 2; }
    for name in "$@"; do
        "${CC:-cc}" -std=c99 -O2 -Wall -Wextra -Wpedantic -Wshadow -Wconversion -Werror -I "$root/include" \
            "$udp/$name.c" "$udp/options.c" "$udp/udp.c" "$library" -o "$work/$name" || exit 2
    done
}

# Programs that were started and not waited for: they end with the script.
running=''
stop() {
    for p in $running; do kill -9 "$p"; done 2>/dev/null
    for p in $running; do wait "$p"; done 2>/dev/null
    running=''
}
trap stop EXIT
trap 'exit 130' INT TERM

# Starts a program under a name, and waits until it listens: what it says goes to $work/NAME.out, its process is $started.
start() { # NAME PROGRAM OPTIONS..
    out=$work/$1.out
    program=$programs/$2
    shift 2
    : >"$out" # what an earlier one said is not its own
    "$program" "$@" >"$out" 2>&1 &
    started=$!
    running="$running $started"
    for _ in 1 2 3 4 5 6 7 8 9 10 11 12 13 14 15 16 17 18 19 20 21 22 23 24 25 26 27 28 29 30 31 32 33 34 35 36 37 38 39 40; do
        grep -q 'listens on port' "$out" && return 0
        sleep 0.05
    done
    return 1
}

# Waits for a program's end, and gives its status.
await() { # PROCESS
    wait "$1"
    status=$?
    left=''
    for p in $running; do [ "$p" = "$1" ] || left="$left $p"; done
    running=$left
    return $status
}

# Ends a program by a signal, so that it says its summary, and waits for it.
end() { # PROCESS
    kill "$1" 2>/dev/null
    await "$1"
}
