#!/bin/sh
# run.sh [ARCHIVE]: checks the C interface against the archive (target/staticlib/libampferweg.a where none is named).
# Compiles the headers as C and C++, builds every check program at -O2 and with the sanitizers, runs them, plays the scripts
# of tests/vectors and tests/extras, and installs into a folder of its own. The archives of tags and parity are beside ARCHIVE;
# where one is missing, rt makes it. The last line is 'host: N passed, M failed'.
# For another machine (boards/check.sh): CC and CXX are its compilers, CFLAGS more words for them, EMULATOR runs its programs, and WORK is
# the folder for what is built. There -O0 stands in for the sanitizers, and installing is not tried.
set -u
root=$(cd "$(dirname "$0")/../.." && pwd)
archive=${1:-$root/target/staticlib/libampferweg.a}
[ -f "$archive" ] || { echo "run.sh: $archive is missing: run 'make' first" >&2; exit 2; }
archive=$(cd "$(dirname "$archive")" && pwd)/$(basename "$archive")
tags=$(dirname "$archive")/libampferweg_tags.a
parity=$(dirname "$archive")/libampferweg_parity.a
[ -f "$tags" ] || "$root/tools/archive.sh" ampferweg_tags >/dev/null || { echo "run.sh: $tags is missing" >&2; exit 2; }
[ -f "$parity" ] || "$root/tools/archive.sh" ampferweg_parity >/dev/null || { echo "run.sh: $parity is missing" >&2; exit 2; }
work=${WORK:-$root/target/host}
emulator=${EMULATOR:-}
export CFLAGS="${CFLAGS:-}"
mkdir -p "$work"
cd "$root/tests/host" || exit 2

cc=${CC:-cc}
cxx=${CXX:-c++}
flags="$CFLAGS -Wall -Wextra -Wpedantic -Wshadow -Wconversion -Werror -I $root/include"
# shellcheck source=tests/try.sh
. "$root/tests/try.sh"

# The header with a station of its own, in each language, and the example at its top.
compiles() { # COMPILER.. FILE
    # shellcheck disable=SC2086
    "$@" $flags -c -o "$work/compiled.o" && echo compiles
}

header_checks() {
    printf '%s\n' '#include <ampferweg.h>' 'AMPFERWEG_STATION_STORAGE(one, 256);' 'size_t it(void);' \
        'size_t it(void) { return ampferweg_station_pending(&one); }' >"$work/header.c"
    cp "$work/header.c" "$work/header.cc"
    echo 'int run(void *socket);' >"$work/example.c"
    sed -n '/^ \*     #include <ampferweg.h>/,/^ \*     }$/s/^ \* \{0,5\}//p' "$root/include/ampferweg.h" >>"$work/example.c"
    for standard in c99 c11; do try "header as $standard" compiles "$cc" -std=$standard "$work/header.c"; done
    try "the header's example" compiles "$cc" -std=c99 "$work/example.c"
    tags_header_checks
    if command -v "$cxx" >/dev/null; then
        for standard in c++98 c++17; do try "header as $standard" compiles "$cxx" -std=$standard "$work/header.cc"; done
    else
        echo "header as C++                  not checked: there is no $cxx here"
    fi
}

# The tags' header, and the example at its top.
tags_header_checks() {
    printf '%s\n' '#include <ampferweg_tags.h>' 'const char *it(void);' 'const char *it(void) { return ampferweg_tag_text(-17); }' >"$work/tags.c"
    cp "$work/tags.c" "$work/tags.cc"
    printf '%s\n' '#include <stdio.h>' '#include <string.h>' '#include <ampferweg_tags.h>' \
        'ampferweg_result tell(ampferweg_station *, const char *, const uint8_t *, size_t);' \
        'void take_all(ampferweg_station *);' 'void show(const char *);' >"$work/tags_example.c"
    sed -n '/^ \*     #include <ampferweg_tags.h>/,/^ \* C99 or C++/s/^ \*     //p' "$root/include/ampferweg_tags.h" >>"$work/tags_example.c"
    try "tags' header as c99" compiles "$cc" -std=c99 "$work/tags.c"
    try "its example" compiles "$cc" -std=c99 "$work/tags_example.c"
    command -v "$cxx" >/dev/null && try "tags' header as c++98" compiles "$cxx" -std=c++98 "$work/tags.cc"
}

build() { # SUFFIX NAME FLAGS..
    suffix=$1
    name=$2
    shift 2
    # shellcheck disable=SC2086
    "$cc" -std=c99 "$@" $flags "$name.c" lent.c segments.c "$archive" -o "$work/$name-$suffix"
}

program_checks() { # SUFFIX FLAGS..
    suffix=$1
    shift
    for name in layout calls refusals strangers session stream settings station replay; do
        build "$suffix" $name "$@" || { broken "$name, $suffix"; continue; }
        # shellcheck disable=SC2086
        [ "$name" = replay ] || try "$name, $suffix" $emulator "$work/$name-$suffix"
    done
    # shellcheck disable=SC2086
    "$cc" -std=c99 "$@" $flags play.c play_parity.c "$tags" "$parity" "$archive" -o "$work/play-$suffix" || broken "play, $suffix"
}

# Headers whose block is not the archive's, and no assertion to say so: opening a station tells.
other_headers() {
    mkdir -p "$work/other"
    echo 'int main(void) { return ampferweg_station_open(&one, 7, 256, 1, 10, 2) != -13; }' | cat "$work/header.c" - >"$work/other.c"
    for field in 'ampferweg_held waiting' 'ampferweg_held ready' 'ampferweg_held queued' 'uint8_t transmissions'; do
        sed "s/^\(    ${field}\)\[\([0-9]*\)\]/\1[\2 + 4]/; s/^\(#define AMPFERWEG_LAYOUT(name, holds)\) .*/\1 struct ampferweg_link/" \
            "$root/include/ampferweg.h" >"$work/other/ampferweg.h"
        # shellcheck disable=SC2086
        "$cc" -std=c99 $CFLAGS -I "$work/other" "$work/other.c" "$archive" -o "$work/other/opens" || return 1
        # shellcheck disable=SC2086
        $emulator "$work/other/opens" || { echo "$field: not told"; return 1; }
    done
    echo "four headers of another block are told by opening"
}

# The manual page: every function and macro of the header that a caller uses stands in it, and roff has nothing to say.
manual() {
    python3 "$root/dist/man.py" "$root/include/ampferweg.h" "$work/ampferweg.3" || return 1
    if command -v groff >/dev/null; then
        groff -ww -man -Tutf8 "$work/ampferweg.3" 2>&1 >/dev/null | grep . && return 1
    fi
    sed -n 's/^[a-z][a-z0-9_ ]*[ *]\(ampferweg_[a-z_]*\)(.*/\1/p' "$root/include/ampferweg.h" | grep -v inner_ >"$work/functions"
    while read -r function; do
        grep -q "[ *]$function(" "$work/ampferweg.3" || { echo "$function is not in the page"; return 1; }
    done <"$work/functions"
    count=$(wc -l <"$work/functions")
    [ "$count" -ge 30 ] && echo "$count functions, each in the manual page"
}

# The pictures of docs are those of the data that is there.
pictures() {
    mkdir -p "$work/pictures"
    python3 "$root/docs/pictures/draw.py" "$work/pictures" >/dev/null || return 1
    for picture in times loss memory; do
        cmp "$work/pictures/$picture.svg" "$root/docs/pictures/$picture.svg" || { echo "run 'make pictures'"; return 1; }
    done
    echo "three pictures, as their data has them"
}

# Plays every script of a folder, and holds what is answered to the answers beside it.
plays() { # PROGRAM SUFFIX FOLDER
    lines=0
    count=0
    for script in "$root/tests/$3"/*.script; do
        # shellcheck disable=SC2086
        $emulator "$work/$1-$2" <"$script" >"$work/answers" || return 1
        cmp "$work/answers" "${script%.script}.answers" || return 1
        count=$((count + 1))
        lines=$((lines + $(wc -l <"$script")))
    done
    [ $count -gt 0 ] || { echo "there is no script in tests/$3"; return 1; }
    echo "$1: $count scripts of $lines calls, answered as they must be"
}

# Installs, and builds a program with what is installed.
installs() {
    rm -rf "$work/prefix"
    make -s -C "$root" install PREFIX="$work/prefix" ARCHIVE="$archive" TAGS="$tags" PARITY="$parity" || return 1
    echo 'int main(void) { return it() != 0; }' | cat "$work/header.c" - >"$work/installed.c"
    # shellcheck disable=SC2046
    "$cc" "$work/installed.c" -o "$work/installed" \
        $(PKG_CONFIG_PATH=$work/prefix/lib/pkgconfig pkg-config --cflags --libs ampferweg) || return 1
    "$work/installed" && echo "installs, and pkg-config finds it" || return 1
    command -v python3 >/dev/null || return 0
    [ -s "$work/prefix/share/man/man3/ampferweg.3" ] && echo "installs with its manual page, and pkg-config finds it"
}

header_checks
program_checks O2 -O2
if [ -z "$emulator" ]; then
    second=sanitized
    program_checks sanitized -O1 -g -fsanitize=address,undefined -fno-sanitize-recover=all
else
    second=O0
    program_checks O0 -O0
fi
for suffix in O2 $second; do
    try "vectors, $suffix" plays replay "$suffix" vectors
    try "extras, $suffix" plays play "$suffix" extras
done
try "headers of another block" other_headers
if command -v python3 >/dev/null; then
    try "manual page" manual
    try "pictures" pictures
else
    echo "manual page and pictures       not checked: there is no python3 here"
fi
cp "$work/play-O2" "$work/play"
try "examples/tags" "$root/examples/tags/run.sh" "$(dirname "$archive")"
try "examples/parity" "$root/examples/parity/run.sh" "$(dirname "$archive")"
try "examples/logger" "$root/examples/logger/run.sh" "$(dirname "$archive")"
if [ -n "$emulator" ]; then
    :
elif command -v pkg-config >/dev/null; then
    try "make install" installs
else
    echo "make install                   not checked: there is no pkg-config here"
fi

counted host
