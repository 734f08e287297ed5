#!/usr/bin/env bash
# join.sh FOLDER: joins the answers of all parts. Of traffic it prints a line for each part and one for all classes; of
# streams the sum of the totals. Ends as the program does: 0 if all parts are certified, or the totals are printed; 1 if a part
# is refuted; else 2 or 3 as the first part that is neither. It ends with 7, and prints no answer, if a part has no
# answer, an answer no part, or an answer is of another network or another part than are there now.
set -eu
# shellcheck source-path=SCRIPTDIR source=common.sh
. "$(dirname "$0")/common.sh"

wrong() {
  echo "not joined: $*" >&2
  exit 7
}

# Each part has an answer, there are no others, and each is of this network and this part.
compare() {
  local sums number at=1
  diff <(printf '%s\n' "${numbers[@]}") <(find answers -mindepth 1 -maxdepth 1 -printf '%f\n' | sort) >&2 ||
    wrong "parts (<) and answers (>) differ"
  mapfile -t sums < <(b2sum network.json parts/*)
  for number in "${numbers[@]}"; do
    [ "$(< "answers/$number/of")" = "${sums[0]}"$'\n'"${sums[at]}" ] ||
      wrong "the answer of part $number is of another network or another part"
    at=$((at + 1))
  done
}

# What the program said of a part of the traffic, and how it ends: as the status that the whole has for it.
say_of_part() {
  case $(< "answers/$1/statuses") in
    $'audit 0\ncheck 0') said=yes status=0 ;;
    $'audit 1\nconfirm 0') said=refuted status=1 ;;
    *) said="not shown: $(head -n 1 "answers/$1/judged" 2> /dev/null || head -n 1 "answers/$1/answer")"
      status=$(sed -n '$s/.* //p' "answers/$1/statuses") ;;
  esac
}

join_audits() {
  local number sizes said status refuted=0 other=0 all at=0
  cmp -s <(jq -c '.classes[]' traffic.json) <(jq -c '.classes[]' parts/*) ||
    wrong "the classes of the parts aren't those of traffic.json"
  all=$(jq '.classes | length' traffic.json)
  mapfile -t sizes < <(jq '.classes | length' parts/*)
  for number in "${numbers[@]}"; do
    say_of_part "$number"
    echo "part $number classes ${sizes[at]} $said"
    at=$((at + 1))
    case $said in
      yes) ;;
      refuted) refuted=1 ;;
      *) [ "$other" -ne 0 ] || other=$status ;;
    esac
  done
  if [ "$refuted" -eq 1 ]; then echo "classes $all refuted"; exit 1; fi
  if [ "$other" -ne 0 ]; then echo "classes $all not shown"; exit "$other"; fi
  echo "classes $all yes"
}

join_totals() {
  local number
  for number in "${numbers[@]}"; do
    [ "$(< "answers/$number/statuses")" = 'collect 0' ] || {
      echo "part $number not collected: $(< "answers/$number/answer")"
      exit "$(sed 's/.* //' "answers/$number/statuses")"
    }
  done
  cat answers/*/answer | "$ONCE" sum network.json /dev/stdin
}

{ [ $# -eq 1 ] && [ -d "$1/parts" ]; } || usage
find_once
cd "$1"
mkdir -p answers
mapfile -t numbers < <(numbers .)
compare
case $(find parts -mindepth 1 -printf '%f\n' | sed 's/.*\.//' | sort -u) in
  json) join_audits ;;
  ipfix) join_totals ;;
  *) wrong "parts are neither all .json nor all .ipfix" ;;
esac
