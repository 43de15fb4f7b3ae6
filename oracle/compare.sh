#!/usr/bin/env bash
# Holds `records` beside records.py, on random lines and scripts, and fails where they differ.
#
#     oracle/compare.sh [SEEDS] [LINES]
#
# For each of SEEDS seeds (300 if not given) it makes LINES lines (500) and a script, runs both, and compares the output, the text
# on standard error and the status. What differs is kept, and its folder is named. It needs Python 3.9 or later. The program is
# made by `rt run`, which proves it first. Settings are taken from the environment:
#
#     FIRST=1          the first seed
#     RECORDS=FILE     the program; if not set, `rt run` makes it
set -eu

top=$(cd "$(dirname "$0")/.." && pwd)
seeds=${1:-300}
lines=${2:-500}
first=${FIRST:-1}
differ=0
work=$(mktemp -d)
trap 'if [ "$differ" = 0 ]; then rm -rf "$work"; fi' EXIT
program=${RECORDS:-$top/crates/records_cli/out/records_cli}
if [ -z "${RECORDS:-}" ] && ! (cd "$top/crates/records_cli" && rt run -- --help > "$work/log" 2>&1); then
    echo "records can't be made: $(tail -n 1 "$work/log")" >&2
    exit 1
fi

for ((seed = first; seed < first + seeds; seed++)); do
    folder=$work/$seed
    mkdir "$folder"
    "$top/oracle/lines.py" "$seed" "$lines" "$folder"
    read -r -a arguments < "$folder/arguments"
    for by in records.py records; do
        command=("$program")
        if [ "$by" = records.py ]; then command=("$top/oracle/records.py"); fi
        status=0
        "${command[@]}" "${arguments[@]}" "$folder/script.json" < "$folder/lines.jsonl" > "$folder/$by.out" 2> "$folder/$by.err" || status=$?
        echo "$status" > "$folder/$by.status"
    done
    if cmp "$folder"/records{.py,}.out && cmp "$folder"/records{.py,}.err && cmp "$folder"/records{.py,}.status; then
        rm -r "$folder"
    else
        echo "seed $seed: they differ, see $folder" >&2
        differ=1
    fi
done
if [ "$differ" = 0 ]; then echo "$seeds seeds of $lines lines: no difference"; fi
exit "$differ"
