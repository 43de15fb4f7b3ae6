#!/usr/bin/env bash
# Counts the instructions that `records` takes for each line of a stream, by script and form, and prints a table in Markdown.
#
#     RECORDS=FILE bench/instructions.sh STREAM SCRIPT...
#
# STREAM is a file, and each SCRIPT is a text, as '[["get",["name"]]]'. The count is that of `valgrind --tool=callgrind`, without
# what the program takes for an empty stream.
set -eu

records=${RECORDS:?names the program}
stream=$1
shift
lines=$(wc -l < "$stream")
work=$(mktemp -d)
trap 'rm -rf "$work"' EXIT

count() { # count FORM FILE
    valgrind --tool=callgrind --callgrind-out-file=/dev/null "$records" --form "$1" "$work/script" < "$2" 2>&1 > /dev/null |
        sed -n 's/.*Collected : //p'
}

echo '| script | `owned` | `borrowed` | `lazy` |'
echo '|---|---|---|---|'
for script in "$@"; do
    printf '%s' "$script" > "$work/script"
    row="| \`$script\` |"
    for form in owned borrowed lazy; do
        row+=" $((($(count $form "$stream") - $(count $form /dev/null)) / lines)) |"
    done
    echo "$row"
done
