#!/usr/bin/env bash
# Writes one line: an array whose items are all alike, each a chain of 1023 arrays. So it nests 1024 levels deep, which
# is the most that `records` takes.
#
#     bench/nested.sh [BYTES] > nested.jsonl
#
# The line has at most BYTES bytes (64,000,000 if not given) beside its line feed.
set -eu
bytes=${1:-64000000}
levels=1023

opening=$(printf '%*s' "$levels" '' | tr ' ' '[')
closing=$(printf '%*s' "$levels" '' | tr ' ' ']')
item=$opening$closing
# The first item comes with the two brackets of the line, each other one with a comma.
others=$(((bytes - ${#item} - 2) / (${#item} + 1)))

printf '[%s' "$item"
for ((i = 0; i < others; i++)); do printf ',%s' "$item"; done
printf ']\n'
