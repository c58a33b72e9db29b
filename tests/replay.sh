#!/bin/sh
# replay.sh [FOLDER]: plays each *.script of FOLDER (tests/vectors where none is named), and compares with the *.answers beside it.
exec "$(dirname "$0")/play.sh" replay .script .answers "$@"
