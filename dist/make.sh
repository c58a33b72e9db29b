#!/bin/sh
# make.sh VERSION TARGET..: target/dist/ampferweg-VERSION-TARGET.tar.gz for each target, from archives that are there already (`make dist`
# makes them), and SHA256SUMS of all. A release has headers, archives, files for pkg-config and CMake, examples, pages, sums of its files,
# and the gate's verdict (verdict.sh); that of x86-64 also has the programs lister and replay. The same files give the same release, to
# the byte.
set -eu
[ $# -ge 2 ] || { echo "usage: make.sh VERSION TARGET.." >&2; exit 2; }
version=$1
shift
cd "$(dirname "$0")/.."
verdict=$(dist/verdict.sh)
sources=$(dist/sources.sh)
mkdir -p target/dist

pack() { # TARGET
    name=ampferweg-$version-$1
    to=target/dist/$name
    rm -rf "$to"
    make -s install TARGET="$1" PREFIX="$PWD/$to"
    # shellcheck disable=SC2016
    sed -i 's|^prefix=.*|prefix=${pcfiledir}/../..|' "$to"/lib/pkgconfig/*.pc
    if [ "$1" = x86_64-linux ]; then install -D -t "$to/bin" target/bin/lister target/bin/replay; fi
    install -d "$to/docs"
    install -m 644 docs/C.md docs/BOARDS.md docs/JOINING.md docs/TAGS.md docs/PARITY.md "$to/docs"
    cp -R examples "$to"
    install -m 644 LICENSE "$to"
    sed "s|@VERSION@|$version|; s|@TARGET@|$1|" dist/README.md.in >"$to/README.md"
    logic=$(strings -a "$to/lib/libampferweg.a" | sed -n 's/^rattle logic=//p')
    printf 'gate: %s\nsources: %s\nlogic: %s\n' "$verdict" "$sources" "$logic" >"$to/VERDICT"
    # shellcheck disable=SC2094
    (cd "$to" && find . -type f ! -name SHA256SUMS | LC_ALL=C sort | xargs sha256sum >SHA256SUMS)
    tar -C target/dist --sort=name --owner=0 --group=0 --numeric-owner --mtime="@${SOURCE_DATE_EPOCH:-0}" -cf - "$name" |
        gzip -9n >"$to.tar.gz"
    rm -rf "$to"
    echo "$to.tar.gz"
}

for target in "$@"; do pack "$target"; done
(cd target/dist && sha256sum ampferweg-"$version"-*.tar.gz >SHA256SUMS)
