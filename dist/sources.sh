#!/bin/sh
# sources.sh: one sum of everything that the gate proves: the crates, without what rt made in their out/, and their list.
cd "$(dirname "$0")/.." || exit 2
find crates crates.txt -regex 'crates/[^/]*/out' -prune -o -type f -print | LC_ALL=C sort | xargs sha256sum | sha256sum | cut -d' ' -f1
