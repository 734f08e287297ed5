#!/bin/sh
# Times the reading of large and hostile documents of devices and of networks: the parse by serde_json alone, and the
# parse and the rest (the walk, and of a network its tables and ranks too). Fails where the rest takes more than three
# times as long as the parse.
#
# It needs rt (the Rattle kit) and python3. The program is proved and built in a folder of its own, which is removed.
set -eu

here=$(cd "$(dirname "$0")" && pwd)
top=$(dirname "$here")
work=$(mktemp -d)
trap 'rm -rf "$work"' EXIT

mkdir -p "$work/crates" "$work/documents"
for name in fx_base fx_elements fx_boxes fx_layout fx_tables fx_run_text fx_machine fx_walk fx_config fx_selectors fx_topology \
    fx_ranks fx_plan; do
    cp -a "$top/crates/$name" "$work/crates/$name"
    grep "^$name:" "$top/crates.txt" >> "$work/crates.txt"
done
mkdir -p "$work/crates/documents_bench/src"
cp "$here/documents/main.rt.txt" "$work/crates/documents_bench/src/main.rt"
echo "documents_bench: fx_plan fx_topology fx_config fx_base serde_json anyhow" >> "$work/crates.txt"

python3 "$here/make_documents.py" "$work/documents"
(cd "$work/crates/documents_bench" && rt run --jobs 1 -- "$work/documents/long-text.json" > "$work/build.txt" 2>&1) || {
    tail -n 20 "$work/build.txt"
    exit 1
}

python3 - "$work/crates/documents_bench/out/documents_bench" "$work/documents" <<'PYTHON'
import os, resource, subprocess, sys

program, folder = sys.argv[1:]


def seconds(words):
    """The least processor time of five runs, and what they printed."""
    best = None
    for _ in range(5):
        before = resource.getrusage(resource.RUSAGE_CHILDREN)
        said = subprocess.run(words, stdout=subprocess.PIPE, check=True).stdout.decode().strip()
        after = resource.getrusage(resource.RUSAGE_CHILDREN)
        taken = after.ru_utime + after.ru_stime - before.ru_utime - before.ru_stime
        best = taken if best is None else min(best, taken)
    return best, said


failed = False
for name in sorted(os.listdir(folder)):
    path = os.path.join(folder, name)
    parse, _ = seconds([program, path])
    both, said = seconds([program, path, "network" if name.startswith("network") else "device"])
    walk = max(both - parse, 0)
    print("%-28s %9d octets   parse %.3f s   walk %.3f s (%.2f times)   %s" % (name, os.path.getsize(path), parse, walk, walk / parse, said))
    failed = failed or walk > 3 * parse
sys.exit(1 if failed else 0)
PYTHON
