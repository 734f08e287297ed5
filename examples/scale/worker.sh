#!/usr/bin/env bash
# worker.sh FOLDER [NUMBER..]: answers these parts of FOLDER/parts, or all, one after another, except those that have an
# answer. Of a traffic document (NUMBER.json) it has a certificate made and checked, or a refutation made and confirmed;
# of a stream (NUMBER.ipfix) totals. Ends with 0 if each part has an answer, whatever it is; else with the status of the
# program that gave none: 4 out of memory, 5 an I/O error, 128 and the signal's number if it was killed.
set -eu
# shellcheck source-path=SCRIPTDIR source=common.sh
. "$(dirname "$0")/common.sh"

# Runs the program with a file of the answer as its output, and notes its status. One that is no answer ends the part.
ask() {
  local file=$1 status=0
  shift
  "$ONCE" "$@" > "$made/$file" || status=$?
  echo "$1 $status" >> "$made/statuses"
  [ "$status" -le 3 ] || exit "$status"
  asked=$status
}

# Makes the answer of a part under a name of its own, and gives it the name of the part once it is whole. A folder that has
# files is never replaced, so of two workers at one part the first one's answer stays.
answer() {
  local number=$1 part
  part=$(echo parts/"$number".*)
  [ -f "$part" ] || { echo "there is no part $number" >&2; exit 6; }
  made=$(mktemp -d "unfinished/$number.XXXXXX")
  trap 'rm -rf "$made"' EXIT
  b2sum network.json "$part" > "$made/of"
  case $part in
    *.json)
      ask answer audit network.json "$part"
      case $asked in
        0) ask judged check network.json "$part" "$made/answer" ;;
        1) ask judged confirm network.json "$part" "$made/answer" ;;
      esac ;;
    *.ipfix) ask answer collect network.json "$part" ;;
    *) echo "$part: neither .json nor .ipfix" >&2; exit 6 ;;
  esac
  sync "$made"/*
  mv -T "$made" "answers/$number" 2> /dev/null || [ -d "answers/$number" ]
  times > "times/$number"
}

{ [ $# -ge 1 ] && [ -d "$1/parts" ]; } || usage
find_once
cd "$1"
shift
if [ $# -eq 0 ]; then
  mapfile -t all < <(numbers .)
  set -- "${all[@]}"
fi
mkdir -p answers unfinished times
ended=0
for number; do
  [ ! -d "answers/$number" ] || continue
  # Errors end the part, not the worker.
  set +e
  (set -e; answer "$number")
  status=$?
  set -e
  [ "$status" -eq 0 ] || ended=$status
done
exit "$ended"
