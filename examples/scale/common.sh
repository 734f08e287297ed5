# shellcheck shell=bash
# Read by the scripts of this folder (bash): where they stand, which program they run, and what the parts of a folder are.

# Names are sorted alike everywhere.
export LC_ALL=C

here=$(cd "$(dirname "${BASH_SOURCE[0]}")" && pwd)

# Sets ONCE to the program: what it names, else the one that `make once` has built, else the one on the PATH.
find_once() {
  if [ -z "${ONCE:-}" ]; then
    ONCE=$here/../../once
    [ -x "$ONCE" ] || ONCE=$(command -v once) || { echo "there is no program once: run make once, or set ONCE" >&2; exit 6; }
  fi
  ONCE=$(realpath -- "$ONCE")
  export ONCE
}

# Prints the comment at the top of the script that calls it, and ends as for wrong arguments.
usage() {
  sed -n '2,/^[^#]/s/^# \{0,1\}//p' "$0" >&2
  exit 6
}

# The numbers of the parts of a folder, in order.
numbers() {
  find "$1/parts" -mindepth 1 -printf '%f\n' | sed 's/\..*//' | sort
}

# The numbers of the parts that have no answer yet.
lacking() {
  local number
  for number in $(numbers "$1"); do
    [ -d "$1/answers/$number" ] || echo "$number"
  done
}

# Ends with 7 where parts have no answer.
finished() {
  [ -z "$(lacking "$1")" ] || { echo "without an answer: $(lacking "$1" | paste -s -d ' ')" >&2; exit 7; }
}
