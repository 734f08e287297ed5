#!/usr/bin/env bash
# What checking a certificate costs. Five things are measured, and it fails where one of them is over its bound:
#
# - the longest certificate, 499,999 balanced splits over the sources, for one meter and one collector, beside
#   `mawk '{n += NF} END {print n}'` on the same file, in turns, the least of five each: at most twice mawk's time;
# - memory: the least address space in which a certificate of one leaf is accepted, below 32 MB, is enough for the longest
#   one too;
# - the processor time per line, from 1,000 to 1,000,000 lines of splits and leaves: the greatest at most 1.3 times the
#   least. The least of many runs each, in turns, from which the least of as many runs with a certificate of one leaf is
#   taken away, so the start of the process and the reading of the documents don't count;
# - the processor time per leaf in a network of 256 collecting processes, one behind the other, and 64 layouts: at most 20
#   us where the path's records reach the last four of them, and at most 200 us where they reach all. And 63 processes
#   that each send on twice, so that there are 2 to the 63 ways, take at most 0.1 s, whether each packet goes all ways (408)
#   or one of them;
# - the instructions per line, by callgrind, of certificates for paths of 1 x 64, 32 x 256 and 62 x 256 filters, in ascending and
#   descending order and shuffled: at most 2,000, and the greatest at most 1.5 times the least, without those for the documents.
set -eu
cd "$(dirname "$0")/.."
work=$(mktemp -d)
trap 'rm -rf "$work"' EXIT

python3 bench/check.py "${1:-./once}" "$work"
python3 bench/check_lists.py "${1:-./once}" "$work"
