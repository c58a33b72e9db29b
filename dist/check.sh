#!/bin/sh
# check.sh RELEASE..: tries releases (.tar.gz) as a shop without the kit would. Each is unpacked into a folder of its own and held to its
# sums; then, with no rt on the PATH, the stations of examples/udp are built against it by pkg-config and by CMake, and two of them
# exchange recipes. For a board a cross compiler builds them and QEMU runs them, where both are here; a bare board's release runs
# examples/bare. The last line is 'dist: N passed, M failed'.
set -u
[ $# -ge 1 ] || { echo "usage: check.sh RELEASE.." >&2; exit 2; }
root=$(cd "$(dirname "$0")/.." && pwd)
work=$(mktemp -d)
trap 'rm -rf "$work"' EXIT
target=''
# shellcheck source=tests/try.sh
. "$root/tests/try.sh"

# A PATH on which everything is but rt.
mkdir "$work/path"
echo "$PATH" | tr : '\n' | while read -r folder; do
    for program in "$folder"/*; do
        [ "${program##*/}" = rt ] || [ -e "$work/path/${program##*/}" ] || ln -s "$program" "$work/path/" 2>/dev/null
    done
done
# shellcheck disable=SC2123
PATH=$work/path
if command -v rt; then echo "check.sh: rt is still on the PATH" >&2; exit 2; fi

column() { sed -n "s/^$target *| *//p" "$root/boards/targets.txt" | cut -d'|' -f"$1" | tr -d ' '; }

unpack() { # RELEASE
    rm -rf "$work/shop"
    mkdir "$work/shop"
    tar -C "$work/shop" --strip-components=1 -xzf "$1" && (cd "$work/shop" && sha256sum -c --quiet SHA256SUMS && head -n 1 VERDICT)
}

by_pkg_config() (
    mkdir -p "$work/shop/pc"
    flags=$(PKG_CONFIG_PATH=$work/shop/lib/pkgconfig pkg-config --cflags ampferweg)
    libs=$(PKG_CONFIG_PATH=$work/shop/lib/pkgconfig pkg-config --libs ampferweg)
    cd "$work/shop/examples/udp" || return 1
    # shellcheck disable=SC2086
    $cc -std=c99 -O2 -Wall -Werror $flags station.c options.c udp.c $libs -o "$work/shop/pc/station" &&
        $cc -std=c99 -O2 -Wall -Werror relay.c options.c udp.c -o "$work/shop/pc/relay" && exchange pc
)

by_cmake() {
    cmake -S "$work/shop/examples/udp" -B "$work/shop/cmake" -DCMAKE_PREFIX_PATH="$work/shop" \
        -DCMAKE_C_COMPILER="$cc" -DCMAKE_SYSTEM_NAME=Linux &&
        cmake --build "$work/shop/cmake" && exchange cmake
}

# Two stations over a bad network, by programs built before; a board's run under the emulator.
exchange() { # FOLDER
    if [ "$emulator" != env ]; then
        for program in station relay; do
            at=$work/shop/$1/$program
            mv "$at" "$at.board"
            printf '#!/bin/sh\nexec %s -L /usr/%s %s "$@"\n' "$emulator" "${prefix%-}" "$at.board" >"$at"
            chmod +x "$at"
        done
    fi
    AMPFERWEG_PROGRAMS=$work/shop/$1 "$work/shop/examples/udp/run.sh"
}

programs() {
    cmp "$root/crates/lister/stdout" - <<LIST || return 1
$("$work/shop/bin/lister" <"$root/crates/lister/stdin")
LIST
    for script in "$root"/tests/vectors/*.script; do
        "$work/shop/bin/replay" <"$script" | cmp - "${script%.script}.answers" || return 1
    done
    echo "lister and replay answer as they must"
}

missing() { # PROGRAM..
    for program in "$@"; do
        command -v "$program" >/dev/null || { echo "$target: not tried, there is no $program here"; return 0; }
    done
    return 1
}

for release in "$@"; do
    target=$(basename "$release" .tar.gz | sed 's/^ampferweg-[^-]*-//')
    prefix=$(column 3) emulator=$(column 4)
    cc=${prefix}gcc
    try "$target, sums" unpack "$release"
    case $target in *-linux) ;; *)
        missing arm-none-eabi-gcc qemu-system-arm ||
            try "$target, examples/bare" "$work/shop/examples/bare/run.sh" "$work/shop/lib/libampferweg.a"
        continue ;;
    esac
    missing "$cc" "$emulator" || { try "$target, by pkg-config" by_pkg_config; try "$target, by CMake" by_cmake; }
    [ ! -d "$work/shop/bin" ] || try "$target, programs" programs
done
counted dist
