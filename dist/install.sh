#!/bin/sh
# install.sh FOLDER PREFIX VERSION ARCHIVE TAGS PARITY: headers, archives, files for pkg-config and CMake into FOLDER, for use at PREFIX;
# the manual page too, where there is a python3 to make it.
set -eu
[ $# -eq 6 ] || { echo "usage: install.sh FOLDER PREFIX VERSION ARCHIVE TAGS PARITY" >&2; exit 2; }
to=$1 prefix=$2 version=$3
cd "$(dirname "$0")/.."
install -d "$to/include" "$to/lib/pkgconfig" "$to/lib/cmake/ampferweg"
one() { # NAME ARCHIVE REQUIRES
    install -m 644 "include/$1.h" "$to/include"
    install -m 644 "$2" "$to/lib/lib$1.a"
    sed -e "s|@PREFIX@|$prefix|; s|@NAME@|$1|; s|@VERSION@|$version|; s|@REQUIRES@|$3|; s| *\$||" dist/ampferweg.pc.in \
        >"$to/lib/pkgconfig/$1.pc"
}
one ampferweg "$4" ''
one ampferweg_tags "$5" ampferweg
one ampferweg_parity "$6" ''
if command -v python3 >/dev/null; then python3 dist/man.py include/ampferweg.h "$to/share/man/man3/ampferweg.3" >/dev/null
else echo "install.sh: no manual page: there is no python3 here"; fi
install -m 644 dist/ampferwegConfig.cmake "$to/lib/cmake/ampferweg"
sed "s|@VERSION@|$version|" dist/ampferwegConfigVersion.cmake.in >"$to/lib/cmake/ampferweg/ampferwegConfigVersion.cmake"
