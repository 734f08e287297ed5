#!/usr/bin/env bash
# How the time of a replay grows with the steps of its run, in two networks: all packets are counted in one record,
# which then leaves the cache and arrives; and packets of many sources are counted in a record each, which then go
# along a chain of ten collectors that aggregate them. Prints the time of the fastest of five runs for a run and for
# one of twice the size, and fails where the second takes more than 2.5 times as long.
set -eu
cd "$(dirname "$0")/.."
work=$(mktemp -d)
trap 'rm -rf "$work"' EXIT

python3 bench/replay.py "${1:-./once}" examples/one-meter-one-collector "$work"
