#!/usr/bin/env bash
# Measures the work that others do too beside them, and writes docs/SPEED.md with its picture, docs/speed.svg: the
# instructions of a unit of work (valgrind's callgrind), the least processor time of five runs in turns, and how the time
# grows with the size.
#
# Usage: bench/compare.sh [PROGRAM]      ./once where none is given
#
# It needs python3, valgrind, mawk, nfcapd and nfdump (Debian's package nfdump), softflowd, and gnuplot for the picture.
set -eu
cd "$(dirname "$0")/.."
work=$(mktemp -d)
trap 'rm -rf "$work"' EXIT

python3 bench/compare.py "${1:-./once}" "$work"
