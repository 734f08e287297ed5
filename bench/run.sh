#!/usr/bin/env bash
# Times a run over a capture beside softflowd and nfpcapd, in turns, the least processor time of five each: one meter with
# a timeout cache by source, destination, protocol and ports, and a collector, with an empty schedule. Then the address
# space that a capture of twice as many frames needs; and what a packet costs that pushes a record out of a bounded cache,
# and a line of the schedule that expires one, where more and more flows are held.
#
# Usage: bench/run.sh [PROGRAM [FRAMES [FLOWS]]]      ./once, 1,000,000 frames of 10,000 flows where none are given
#
# It needs python3; softflowd and nfpcapd are Debian's packages softflowd and nfdump.
set -eu
cd "$(dirname "$0")/.."
work=$(mktemp -d)
trap 'rm -rf "$work"' EXIT

python3 bench/run.py "$(realpath "${1:-./once}")" "${2:-1000000}" "${3:-10000}" "$work"
