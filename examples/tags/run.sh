#!/bin/sh
# run.sh [FOLDER]: builds the example against the archives in FOLDER (target/staticlib where none is named), runs it, and holds
# what it writes to the file `expected` beside it.
set -eu
root=$(cd "$(dirname "$0")/../.." && pwd)
folder=${1:-$root/target/staticlib}
mkdir -p "$root/target/examples"
# shellcheck disable=SC2086
"${CC:-cc}" ${CFLAGS:-} -std=c99 -O2 -Wall -Wextra -Wpedantic -Werror -I "$root/include" "$root/examples/tags/exchange.c" \
    "$folder/libampferweg_tags.a" "$folder/libampferweg.a" -o "$root/target/examples/tags"
# shellcheck disable=SC2086
${EMULATOR:-} "$root/target/examples/tags" >"$root/target/examples/tags.out"
cat "$root/target/examples/tags.out"
cmp "$root/target/examples/tags.out" "$root/examples/tags/expected"
