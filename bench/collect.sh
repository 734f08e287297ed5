#!/usr/bin/env bash
# How the time of a collection grows with its stream: messages of 60 records of 10,000 keys, 48.8 million octets at most,
# read in 16 MiB of address space. Prints the least time of five runs for 1,200,000 and for 2,400,000 records, and fails
# where the second is more than 2.5 times the first, or where the totals aren't those that the stream was made of.
#
# Then one stream of 300,000 records in messages of 1,400 octets is read by us and by two others, in turns, the least of
# five each: `ipfixDump --stats` (Debian's package libfixbuf-tools), which counts messages and records, and `nfcapd`
# (nfdump), which keeps the flows in a file. nfcapd reads no stored stream, so it gets the messages over the loopback, as
# fast as it takes them: none is sent while its queue has more than 60,000 octets. Its time is that from the first message
# until the queue is empty, ours and ipfixDump's that of the whole process; beside it the processor time. A run counts
# only where all 300,000 records are said to be there.
set -eu
cd "$(dirname "$0")/.."
work=$(mktemp -d)
trap 'rm -rf "$work"' EXIT

python3 bench/collect.py "${1:-./once}" tests/rows/stream-of-two-messages/network.json "$work"
