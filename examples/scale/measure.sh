#!/usr/bin/env bash
# measure.sh NAME FOLDER turn|parallel|slurm ROUNDS [PARTS]: has all parts of FOLDER answered by 1, 2 and 4 workers (by one for
# `turn`), each called for PARTS parts (1), in ROUNDS rounds. Prints a line for each run: NAME, the engine, the workers, the
# parts of a call, the seconds elapsed, those of CPU time that the parts took together, and the machine's load before it.
set -eu
# shellcheck source-path=SCRIPTDIR source=common.sh
. "$(dirname "$0")/common.sh"

{ [ $# -ge 4 ] && [ $# -le 5 ] && [ -d "$2/parts" ]; } || usage
name=$1 folder=$2 engine=$3 rounds=$4 parts=${5:-1} counts=(1 2 4)
[ "$engine" != turn ] || counts=(1)

answer_all() {
  case $engine in
    turn) bash "$here/worker.sh" "$folder" ;;
    parallel) bash "$here/by_parallel.sh" "$folder" "$1" "$parts" ;;
    slurm) bash "$here/by_slurm.sh" "$folder" "$1" "$parts" ;;
    *) usage ;;
  esac
}

# The sum of the processor times that bash has noted, in minutes and seconds.
processor() {
  cat "$folder"/times/* | tr -s ' ms' '  \n' | awk 'NF { sum += 60 * $1 + $2 } END { printf "%.2f", sum }'
}

for _ in $(seq "$rounds"); do
  for workers in "${counts[@]}"; do
    rm -rf "$folder/answers" "$folder/times"
    load=$(cut -d ' ' -f 1 /proc/loadavg)
    began=$EPOCHREALTIME
    answer_all "$workers" >&2
    ended=$EPOCHREALTIME
    echo "$name $engine $workers $parts $(awk "BEGIN { printf \"%.2f\", $ended - $began }") $(processor) $load"
  done
done
