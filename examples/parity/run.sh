#!/bin/sh
# run.sh [FOLDER]: two stations over a network that loses one datagram in ten, with parity and without, in virtual time. The archives
# are in FOLDER (target/staticlib where none is named).
set -eu
root=$(cd "$(dirname "$0")/../.." && pwd)
lib=${1:-$root/target/staticlib}
for archive in "$lib/libampferweg.a" "$lib/libampferweg_parity.a"; do
    [ -f "$archive" ] || { echo "run.sh: $archive is missing" >&2; exit 2; }
done
mkdir -p "$root/target"
# shellcheck disable=SC2086
"${CC:-cc}" ${CFLAGS:-} -std=c99 -O2 -Wall -Wextra -Wpedantic -Werror -I "$root/include" "$root/examples/parity/lossy.c" \
    "$lib/libampferweg.a" "$lib/libampferweg_parity.a" -o "$root/target/lossy"
# shellcheck disable=SC2086
${EMULATOR:-} "$root/target/lossy"
