#!/bin/sh
# try_installed.sh [ONCE [EXAMPLES]]: whether an installed program answers the examples as their files say.
#
# ONCE is `once` where none is named, EXAMPLES the folder that was installed with it. Replays the runs, checks the
# certificates, confirms the refutations, meters the captures, and has what an audit of each answers judged. Prints a
# line for each answer that differs, and last how many passed; the exit status is 1 where one differs.

once=${1:-once}
examples=${2:-$(dirname "$(command -v "$once")")/../share/doc/once/examples}
made=$(mktemp -d)
trap 'rm -rf "$made"' EXIT
passed=0 failed=0

# judge NAME WANTED WORDS..: the program's answer to the words must be the file WANTED.
judge() {
    name=$1 wanted=$2
    shift 2
    if "$once" "$@" | cmp -s - "$wanted"; then
        passed=$((passed + 1))
    else
        failed=$((failed + 1))
        echo "$name: differs"
    fi
}

printf 'yes\n' > "$made/yes"
for folder in "$examples"/*/; do
    folder=${folder%/} documents="$folder/network.json $folder/traffic.json"
    [ -e "$folder/network.json" ] || continue
    for file in "$folder"/run*.txt "$folder"/certificate*.txt "$folder"/refutation*.txt "$folder"/capture.pcap; do
        [ -e "$file" ] || continue
        case ${file##*/} in
            run*) judge "$file" "$folder/totals${file##*/run}" replay $documents "$file" ;;
            certificate*) judge "$file" "$folder/answer${file##*/certificate}" check $documents "$file" ;;
            refutation*) judge "$file" "$folder/refuted${file##*/refutation}" confirm $documents "$file" ;;
            capture*) judge "$file" "$folder/metered.txt" run $documents "$file" "$folder/schedule.txt" ;;
        esac
    done
    "$once" audit $documents > "$made/answer"
    case $? in
        0) judge "$folder: audit's certificate" "$made/yes" check $documents "$made/answer" ;;
        1) "$once" confirm $documents "$made/answer" | head -n 1 > "$made/first"
           printf 'refuted\n' | cmp -s - "$made/first" && passed=$((passed + 1)) || { failed=$((failed + 1)); echo "$folder: audit's refutation isn't confirmed"; } ;;
        *) failed=$((failed + 1)); echo "$folder: audit answers neither" ;;
    esac
done
echo "$passed passed, $failed failed"
[ "$failed" = 0 ] && [ "$passed" != 0 ]
