#!/bin/sh
# archive.sh NAME: proves the crate NAME_c, what C calls of NAME, and writes its archive, target/staticlib/libNAME.a. NAME is ampferweg,
# ampferweg_tags or ampferweg_parity; RT names another rt than that of the PATH.
set -eu
[ $# -eq 1 ] || { echo "usage: archive.sh NAME" >&2; exit 2; }
cd "$(dirname "$0")/.."
(cd "crates/$1_c" && "${RT:-rt}" lib --cpu=x86-64)
mkdir -p target/staticlib
cp "crates/$1_c/out/lib$1_c.a" "target/staticlib/lib$1.a"
echo "target/staticlib/lib$1.a"
