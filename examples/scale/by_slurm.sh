#!/usr/bin/env bash
# by_slurm.sh FOLDER WORKERS [PARTS]: has an array job of Slurm answer the parts that lack an answer, at most WORKERS
# tasks at a time, each of PARTS parts (1). What is missing then, as its worker died, is submitted again, three times in all.
# Ends with 0 if each part has an answer; if not, call it again.
set -eu
# shellcheck source-path=SCRIPTDIR source=common.sh
. "$(dirname "$0")/common.sh"

# Submits what lacks, and waits until no task is left. A task whose node has died is started anew by Slurm.
submit() {
  local list job
  list=$(mktemp "$1/tasks.XXXXXX")
  lacking "$1" | xargs -n "$3" > "$list"
  job=$(sbatch --parsable --requeue --ntasks=1 --array="1-$(wc -l < "$list")%$2" --job-name=scale --output="$1/slurm.out" \
    --open-mode=append "$here/slurm_task.sh" "$here" "$1" "$list")
  while [ -n "$(squeue -h -j "$job" 2> /dev/null)" ]; do sleep 0.2; done
  rm "$list"
}

{ [ $# -ge 2 ] && [ $# -le 3 ] && [ -d "$1/parts" ]; } || usage
find_once
folder=$(realpath -- "$1")
for _ in 1 2 3; do
  [ -z "$(lacking "$folder")" ] || submit "$folder" "$2" "${3:-1}"
done
finished "$folder"
