#!/usr/bin/env bash
# by_parallel.sh FOLDER WORKERS [PARTS]: has GNU parallel answer the parts that lack an answer, by WORKERS workers at a time, each
# called for PARTS parts (1). A worker that dies is tried again, up to three times in all. Ends with 0 if each part has an
# answer; if not, call it again.
set -eu
# shellcheck source-path=SCRIPTDIR source=common.sh
. "$(dirname "$0")/common.sh"

{ [ $# -ge 2 ] && [ $# -le 3 ] && [ -d "$1/parts" ]; } || usage
find_once
lacking "$1" | parallel --quote --jobs "$2" --max-args "${3:-1}" --retries 3 --joblog "$1/joblog" \
  bash "$here/worker.sh" "$1" || true
finished "$1"
