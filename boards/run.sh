#!/bin/sh
# run.sh: makes the archives of every target from the proved modules, holds x86-64's to the kit's own, tries the others (check.sh), and
# writes the figures of docs/BOARDS.md. A few minutes; no part of the gate. The last line is 'boards: N passed, M failed'.
set -u
cd "$(dirname "$0")/.." || exit 2
log=$(mktemp)
trap 'rm -f "$log" "$log.o"' EXIT
passed=0 failed=0

# The script that retargets, held to the kit: for x86-64 it gives the kit's objects, to the byte.
boards/archive.py x86_64-linux >"$log" || exit 2
for archive in target/staticlib/libampferweg*.a; do
    ar p "$archive" >"$log.o"
    if ar p "target/boards/x86_64-linux/${archive##*/}" | cmp - "$log.o"; then passed=$((passed + 1)); else failed=$((failed + 1)); fi
done
echo "x86_64-linux: $passed objects as the kit's own, to the byte"

# Tries a target's archives, and adds up; a check that does not end with its counts is one failure.
check() { # TARGET [mps2]
    boards/check.sh "$@" >"$log" 2>&1 || grep -B 1 -A 5 'FAILED\|check.sh:' "$log"
    counts=$(sed -n '$s/^host: \([0-9]*\) passed, \([0-9]*\) failed$/\1 \2/p' "$log")
    counts=${counts:-0 1}
    passed=$((passed + ${counts% *})) failed=$((failed + ${counts#* }))
    echo "$*: ${counts% *} passed, ${counts#* } failed"
}

# shellcheck disable=SC2013
for target in $(sed -n 's/^\([a-z0-9_-]*\) *|.*/\1/p' boards/targets.txt); do
    [ "$target" != x86_64-linux ] || continue
    boards/archive.py "$target" || exit 2
    check "$target"
    [ "$target" != thumbv7em ] || check "$target" mps2
done
boards/table.py || exit 2
echo "boards: $passed passed, $failed failed"
[ "$failed" -eq 0 ]
