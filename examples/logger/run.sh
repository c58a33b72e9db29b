#!/bin/sh
# run.sh [FOLDER]: builds the example against the archive in FOLDER (target/staticlib where none is named), runs it, and holds
# what it writes to the file `expected` beside it.
set -eu
root=$(cd "$(dirname "$0")/../.." && pwd)
folder=${1:-$root/target/staticlib}
mkdir -p "$root/target/examples"
# shellcheck disable=SC2086
"${CC:-cc}" ${CFLAGS:-} -std=c99 -O2 -Wall -Wextra -Wpedantic -Werror -I "$root/include" "$root/examples/logger/logger.c" \
    "$folder/libampferweg.a" -o "$root/target/examples/logger"
# shellcheck disable=SC2086
${EMULATOR:-} "$root/target/examples/logger" >"$root/target/examples/logger.out"
cat "$root/target/examples/logger.out"
cmp "$root/target/examples/logger.out" "$root/examples/logger/expected"
