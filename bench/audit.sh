#!/usr/bin/env bash
# What an audit costs. Five things are measured, and it fails where one of them is over its bound:
#
# - the processor time per line of the certificate that is found, from 1,002 to 1,000,000 or so: the greatest at most 1.3
#   times the least, and at most twice what `check` takes for a line of the same certificate. A meter of 125 filters,
#   each for another port, whose packets are counted by one process that selects all; as many paths as there have to be;
# - paths of 1 x 64, 32 x 256 and 62 x 256 filters, each for another network, in ascending and descending order and shuffled: a
#   certificate that `check` accepts; the processor time of the slowest order at most 1.5 times that of the quickest;
# - 256 collecting processes, one after the other, and 64 layouts: an audit of one path takes at most 0.1 s;
# - 19 and 63 processes that each send on twice, so that each packet is counted 2 to the 19 or 2 to the 63 times by runs
#   of more than 1,000,000 steps: `unknown 601`, in at most 0.1 s each;
# - a refutation of 524,288 steps or so, by 18 such processes: written and confirmed in at most 3 s.
set -eu
cd "$(dirname "$0")/.."
work=$(mktemp -d)
trap 'rm -rf "$work"' EXIT

python3 bench/audit.py "${1:-./once}" "$work"
