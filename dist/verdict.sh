#!/bin/sh
# verdict.sh: prints the gate's verdict for a release, or refuses. It is the first line of target/verdict, which .ci/run leaves, and must
# be of the crates as they are now; where the gate ran elsewhere, VERDICT gives its last line, and the release says that it was given.
set -eu
cd "$(dirname "$0")/.."
if [ -n "${VERDICT:-}" ]; then
    verdict="$VERDICT (as said by the maker of this release)"
elif [ ! -f target/verdict ]; then
    echo "verdict.sh: the gate has left no verdict: run .ci/run, or say its last line where it ran: VERDICT='N passed, 0 failed'" >&2
    exit 2
elif [ "$(sed -n 's/^sources //p' target/verdict)" != "$(dist/sources.sh)" ]; then
    echo "verdict.sh: target/verdict is of other crates than these: run .ci/run" >&2
    exit 2
else
    verdict=$(head -n 1 target/verdict)
fi
case $verdict in
    [1-9]*' passed, 0 failed'*) echo "$verdict" ;;
    *) echo "verdict.sh: a release needs the verdict 'N passed, 0 failed', not '$verdict'" >&2; exit 2 ;;
esac
