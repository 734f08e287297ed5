#!/usr/bin/env bash
# try.sh [turn|parallel|slurm]: tries these scripts on small inputs, with workers one after another, two by GNU parallel
# (which it is where that is there and nothing is said), or two by a Slurm that it starts for it. A worker is killed in the
# middle of a part, and of Slurm a whole node too, which takes a minute to be missed. Prints a line for each thing that is
# as it should be, and fails at the first that isn't. Traffic is left out where jq isn't there.
set -eu
# shellcheck source-path=SCRIPTDIR source=common.sh
. "$(dirname "$0")/common.sh"
engine=${1:-$(if command -v parallel > /dev/null; then echo parallel; else echo turn; fi)}
case $engine in turn | parallel | slurm) ;; *) usage ;; esac
find_once

work=$(mktemp -d)
trap '[ ! -d "$work/slurm" ] || bash "$here/slurm_here.sh" stop "$work/slurm"; rm -rf "$work"' EXIT
program=$ONCE
cd "$work"

so() {
  echo "$engine: $*"
}

differs() {
  echo "$engine: isn't so: $*" >&2
  exit 1
}

# A program that the first time it is called for part 0002 of a folder writes the beginning of an answer, and kills the worker
# (which waits for the shell that has called it), or with DYING=node also what runs the worker and the node below it.
cat > dying << END
#!/usr/bin/env bash
parent() { ps -o ppid= -p "\$1" | tr -d ' '; }
case "\$*" in
  *parts/0002.*)
    if mkdir "\$PWD/died" 2> /dev/null; then
      echo keys
      worker=\$(parent "\$PPID")
      [ "\$DYING" = worker ] || kill -9 \$(cat "$work/slurm/\$SLURMD_NODENAME.pid") \$(parent "\$worker")
      kill -9 "\$worker" "\$PPID"
      exit 1
    fi ;;
esac
exec "$program" "\$@"
END
chmod +x dying

# Has the engine answer a folder, while a worker or a node dies.
spread() {
  export ONCE=$work/dying DYING=$2
  case $engine in
    turn) { bash "$here/worker.sh" "$1" || bash "$here/worker.sh" "$1"; } 2> "$1/said" ;;
    parallel) bash "$here/by_parallel.sh" "$1" 2 2> "$1/said" ;;
    slurm) bash "$here/by_slurm.sh" "$1" 2 ;;
  esac
  export ONCE=$program
  [ -d "$1/died" ] || differs "a $2 of $1 is killed"
  so "a $2 of $1 was killed, and each part has an answer"
}

# What the join of a folder ends with is this status.
ends_with() {
  local status=0
  bash "$here/join.sh" "$1" > "$1/joined" 2> /dev/null || status=$?
  [ "$status" -eq "$2" ] || differs "the join of $1 ends with $2: $status"
}

try_streams() {
  python3 "$here/make_streams.py" streams --streams 6 --records 150 --sources 10
  spread streams worker
  ends_with streams 0
  cmp streams/joined streams/expected.txt || differs "totals are those that the streams were made of"
  cat streams/parts/* | "$program" collect streams/network.json /dev/stdin | cmp - streams/joined || differs "totals are those of one process"
  so "totals are those that the streams were made of, and those of one process over all"
}

try_classes() {
  python3 "$here/make_classes.py" classes --classes 20 --routers 4 --filters 2
  bash "$here/cut.sh" classes 6
  bash "$here/worker.sh" classes
  mv classes/answers classes/alone
  spread classes "$([ "$engine" = slurm ] && echo node || echo worker)"
  diff -r classes/alone classes/answers || differs "answers are those of a loop"
  ends_with classes 0
  [ "$(tail -n 1 classes/joined)" = "classes 20 yes" ] || differs "20 classes are certified"
  so "certificates are those of a loop, and all are checked"
}

try_faults() {
  mv classes/answers/0003 classes/away
  ends_with classes 7
  mv classes/away classes/answers/0003
  cp -r classes/answers/0003 classes/answers/0005
  ends_with classes 7
  rm -r classes/answers/0005
  echo >> classes/network.json
  ends_with classes 7
  so "an answer that lacks, one too many and one of another network aren't joined"
  rm -r classes
  python3 "$here/make_classes.py" classes --classes 8 --routers 4 --filters 2 --twice 5
  bash "$here/cut.sh" classes 4
  bash "$here/worker.sh" classes
  ends_with classes 1
  [ "$(sed -n 2p classes/joined)" = "part 0002 classes 4 refuted" ] || differs "part 0002 is refuted"
  so "where packets of a class are counted twice, its part is refuted, and so are all"
}

try_provider() {
  local part=$here/../../tools/once-part status=0
  [ -x "$part" ] || part=$(command -v once-part) || { echo "not run: a provider in parts: there is no once-part"; return; }
  python3 "$here/make_provider.py" provider --routers 100
  "$part" cut provider/network.json provider/traffic.json --to provider/parts > provider/said
  "$part" audit provider/parts --once "$program" >> provider/said
  "$part" verify provider/parts provider/network.json provider/traffic.json --once "$program" >> provider/said ||
    differs "the parts of a provider are certified, and cover all its paths"
  "$part" bundle provider/parts > provider/parts.txt
  "$program" join provider/network.json provider/traffic.json provider/parts.txt >> provider/said ||
    differs "the parts of a provider certify the whole"
  python3 "$here/make_provider.py" wrong --routers 100 --mistake
  "$part" cut wrong/network.json wrong/traffic.json --to wrong/parts > wrong/said
  "$part" audit wrong/parts --once "$program" >> wrong/said || status=$?
  { [ "$status" -eq 1 ] && grep -q 'crossing 4 (edge-01-22 ge' wrong/said; } || differs "a router's mistake is found and named"
  so "the parts of a provider are certified and cover all its paths, and a router's mistake is named"
}

if [ "$engine" = slurm ]; then
  eval "$(bash "$here/slurm_here.sh" start "$work/slurm" 2)"
fi
try_streams
try_provider
if command -v jq > /dev/null; then
  try_classes
  try_faults
else
  echo "not run: traffic cut and joined: there is no jq (Debian's package jq)"
fi
