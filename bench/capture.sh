#!/bin/sh
# Times the reading of a capture, alone and with adding to a store, beside softflowd and nfpcapd, in one run.
#
# Usage: bench/capture.sh [FRAMES [FLOWS]]      1,000,000 frames of 10,000 flows where none are given
#
# It needs rt (the Rattle kit) and python3; softflowd and nfpcapd are Debian's packages softflowd and nfdump
# (apt-get install softflowd nfdump). The program is proved and built in a folder of its own, which is removed.
set -eu

here=$(cd "$(dirname "$0")" && pwd)
top=$(dirname "$here")
frames=${1:-1000000}
flows=${2:-10000}
work=$(mktemp -d)
trap 'rm -rf "$work"' EXIT

mkdir -p "$work/crates"
for name in fx_base fx_elements fx_boxes fx_layout fx_store fx_pcap; do
    cp -a "$top/crates/$name" "$work/crates/$name"
    grep "^$name:" "$top/crates.txt" >> "$work/crates.txt"
done
mkdir -p "$work/crates/capture_bench/src"
cp "$here/capture/main.rt.txt" "$work/crates/capture_bench/src/main.rt"
echo "capture_bench: fx_store fx_pcap fx_layout fx_boxes fx_elements fx_base anyhow" >> "$work/crates.txt"

python3 "$here/make_capture.py" "$work/capture.pcap" "$frames" "$flows"
(cd "$work/crates/capture_bench" && rt run --jobs 1 -- "$work/capture.pcap" > "$work/build.txt" 2>&1) || {
    tail -n 20 "$work/build.txt"
    exit 1
}
bench=$work/crates/capture_bench/out/capture_bench

# Prints the time of a whole run, the least of five, by the packet.
time_of() {
    name=$1
    shift
    least=
    for _ in 1 2 3 4 5; do
        start=$(date +%s%N)
        "$@" > "$work/said.txt" 2>&1
        end=$(date +%s%N)
        took=$((end - start))
        if [ -z "$least" ] || [ "$took" -lt "$least" ]; then least=$took; fi
    done
    printf '%-24s %8d ms %6d ns a packet   %s\n' "$name" $((least / 1000000)) $((least / frames)) "$(head -n 1 "$work/said.txt" | cut -c 1-40)"
}

echo "$frames frames of $flows flows, $(stat -c %s "$work/capture.pcap") octets"
time_of "reading" "$bench" "$work/capture.pcap"
time_of "reading and adding" "$bench" "$work/capture.pcap" add
if command -v softflowd > /dev/null; then
    time_of "softflowd" softflowd -m $((flows * 2)) -r "$work/capture.pcap"
else
    echo "softflowd is missing: apt-get install softflowd"
fi
if command -v nfpcapd > /dev/null; then
    mkdir "$work/flows"
    time_of "nfpcapd" nfpcapd -r "$work/capture.pcap" -w "$work/flows"
else
    echo "nfpcapd is missing: apt-get install nfdump"
fi
