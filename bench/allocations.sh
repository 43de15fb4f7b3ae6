#!/usr/bin/env bash
# Counts the requests for memory of `records` over equal lines that come in one piece: 1 and 100 short ones, and 1 and 5 of a
# hundred times the length. Fails where the lazy form makes more of them for many lines than for one. Counts those of the lazy
# form over 1 and 3 lines that come in several pieces, of two lengths, and fails where a line costs more the longer it is.
# Counts those for an array of four strings with three and with four reloads, and fails where the owned form doesn't make at
# least four more with four, as it does if each reload reads its text:
#
#     bench/allocations.sh
#
# Needs valgrind. Settings are taken from the environment:
#
#     RECORDS=FILE      the program; if not set, `rt run` makes it
set -eu

top=$(cd "$(dirname "$0")/.." && pwd)
work=$(mktemp -d)
trap 'rm -rf "$work"' EXIT

if [ -z "${RECORDS:-}" ]; then
    (cd "$top/crates/records_cli" && rt run -- ../../examples/depends.json < "$top/examples/packages.jsonl" > "$work/log" 2>&1)
    RECORDS=$top/crates/records_cli/out/records_cli
fi

line='{"id":917128462,"name":"liuyjopbck","size":31.694,"tags":["a","b\u0063"],"more":{"ok":true,"note":null}}'
long=$(yes "$line" | head -n 100 | paste -sd, | sed 's/.*/{"more":{"note":[&]}}/')
echo "$line" > "$work/1"
yes "$line" | head -n 100 > "$work/100"
echo "$long" > "$work/1-long"
yes "$long" | head -n 5 > "$work/5-long"
for times in 700 1400; do
    yes "$line" | head -n $times | paste -sd, | sed 's/.*/{"more":{"note":[&]}}/' > "$work/1-of-$times"
    cat "$work/1-of-$times" "$work/1-of-$times" "$work/1-of-$times" > "$work/3-of-$times"
done
echo '[["get",["more","note"]],["contains",["more"],"note"],["type",["more"]],["len",["more"]],["keys",[]]]' > "$work/reads"
echo '["a","b","c","d"]' > "$work/strings"
echo '[["reload"],["reload"],["reload"]]' > "$work/three"
echo '[["reload"],["reload"],["reload"],["reload"]]' > "$work/four"

count() { # count FORM SCRIPT LINES
    valgrind "$RECORDS" --form "$1" "$work/$2" < "$work/$3" 2>&1 > "$work/records" |
        sed -n 's/.*total heap usage: \([0-9,]*\) allocs.*/\1/p' | tr -d ,
}

failed=0
for form in owned borrowed lazy; do
    one=$(count $form reads 1)
    hundred=$(count $form reads 100)
    one_long=$(count $form reads 1-long)
    five_long=$(count $form reads 5-long)
    echo "$form: $one requests for 1 line, $hundred for 100; $one_long for 1 long line, $five_long for 5"
    if [ $form = lazy ] && [ "$one $one_long" != "$hundred $five_long" ]; then failed=1; fi
done
each=()
for times in 700 1400; do
    one=$(count lazy reads "1-of-$times")
    three=$(count lazy reads "3-of-$times")
    echo "lazy: $one requests for 1 line of $(wc -c < "$work/1-of-$times") bytes, $three for 3"
    each+=("$((three - one))")
done
if [ "${each[0]}" != "${each[1]}" ]; then failed=1; fi
three=$(count owned three strings)
four=$(count owned four strings)
echo "owned: $three requests for 3 reloads, $four for 4"
if [ "$((four - three))" -lt 4 ]; then failed=1; fi
exit $failed
