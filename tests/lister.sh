#!/bin/sh
# lister.sh [FOLDER]: lists each *.datagram of FOLDER (tests/vectors where none is named), and compares with the *.listing beside it.
exec "$(dirname "$0")/play.sh" lister .datagram .listing "$@"
