#!/usr/bin/env bash
# slurm_task.sh SCALE FOLDER LIST: what by_slurm.sh hands to Slurm, a task of an array: it answers the parts that line number
# SLURM_ARRAY_TASK_ID of LIST has. SCALE is the folder of the scripts, since Slurm runs a copy of this one.
set -eu
read -r -a parts < <(sed -n "${SLURM_ARRAY_TASK_ID}p" "$3")
exec bash "$1/worker.sh" "$2" "${parts[@]}"
