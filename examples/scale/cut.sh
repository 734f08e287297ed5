#!/usr/bin/env bash
# cut.sh FOLDER CLASSES: cuts FOLDER/traffic.json into FOLDER/parts/0001.json and so on, of CLASSES classes each, in order.
set -eu
# shellcheck source-path=SCRIPTDIR source=common.sh
. "$(dirname "$0")/common.sh"

{ [ $# -eq 2 ] && [ -f "$1/traffic.json" ]; } || usage
# Answers are of the parts as they were.
[ ! -e "$1/answers" ] || { echo "$1/answers is there: remove it first" >&2; exit 6; }
rm -rf "$1/parts"
mkdir "$1/parts"
# Members other than the classes stay in each part, so that what is refused of the whole is refused of each.
jq -c --argjson size "$2" '. as $all | range(0; .classes | length; $size) as $at | $all + {classes: $all.classes[$at:$at + $size]}' \
  "$1/traffic.json" | split -l 1 -a 4 --numeric-suffixes=1 --additional-suffix=.json - "$1/parts/"
