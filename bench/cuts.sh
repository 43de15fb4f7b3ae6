#!/usr/bin/env bash
# Holds the two scans beside each other on real files that are cut at many places, and fails where they differ.
#
#     bench/cuts.sh FOLDER
#
# `read_bench compare` cuts each document of a file at each of its first 300 bytes and at about 200 further places. It scans
# what stands before each cut by `BlockScan` and by `PlainScan`, and it prints at how many cuts their faults or their
# positions differ. The program is made as `rt run` makes it.
set -eu

top=$(cd "$(dirname "$0")/.." && pwd)
folder=$(cd "${1:?the folder with the files}" && pwd)
log=$(mktemp)
trap 'rm -f "$log"' EXIT
if ! (cd "$top/crates/read_bench" && rt run -- --help > "$log" 2>&1); then
    echo "read_bench can't be made: $(tail -n 1 "$log")" >&2
    exit 1
fi
differ=0
for file in "$folder"/*.json "$folder"/*.jsonl; do
    if [ ! -e "$file" ]; then continue; fi
    if ! read -r count < <("$top/crates/read_bench/out/read_bench" compare "$file" 0); then
        echo "read_bench compare $file fails" >&2
        exit 1
    fi
    echo "$(basename "$file"): the scans differ at $count cuts"
    if [ "$count" != 0 ]; then differ=1; fi
done
exit "$differ"
