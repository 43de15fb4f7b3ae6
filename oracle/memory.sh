#!/usr/bin/env bash
# Refuses one request for memory after another to `records` and to tests, and fails where they do anything but say so.
#
#     oracle/memory.sh [program] [tests]
#
# `program`: in each form `records` runs two scripts over three lines with its Nth request refused, for each N up to the number of
# requests that it makes; then with the Nth request and all behind it refused. Each of these runs has to end with status 1, with
# `records: memory` on standard error, and to leave the records of the first lines, whole: never fewer than a run before, and of all
# lines but the last one in the end. A run that does without the request has to end with status 0 and to leave all records.
#
# `tests`: those of the tests below that look at what stands after a refusal run with each of their requests refused. They may fail
# for the want of memory, but not by an assertion. At least one of the refusals has to be one that the test looks for: it says
# `no memory` then.
#
# Without a word it does both. It needs gcc, glibc and Python 3. The program and the tests are made by `rt run` and `rt test`, which
# prove them first. Settings are taken from the environment:
#
#     RECORDS=FILE     the program; if not set, `rt run` makes it
set -eu

top=$(cd "$(dirname "$0")/.." && pwd)
work=$(mktemp -d)
trap 'rm -rf "$work"' EXIT
gcc -O1 -shared -fPIC -o "$work/refuse.so" "$top/oracle/refuse.c"

declare -A is_made

make_it() { # make_it CRATE COMMAND..: once in a run
    local crate=$1
    shift
    if [ -z "${is_made[$crate]:-}" ] && ! (cd "$top/crates/$crate" && "$@" > "$work/log" 2>&1 < /dev/null); then
        echo "$crate can't be made: $(tail -n 1 "$work/log")" >&2
        exit 1
    fi
    is_made[$crate]=yes
}

fail() { # fail WHAT
    echo "$of${number:+, request $number}${rest:+ and all behind it}: $1" >&2
    exit 1
}

run() { # run: the program with the request refused
    status=0
    env REFUSE_MADE="$work/made" ${number:+REFUSE=$number} ${rest:+REFUSE_REST=1} LD_PRELOAD="$work/refuse.so" \
        "$program" --form "$form" "$work/$script.json" < "$work/lines.jsonl" > "$work/out" 2> "$work/err" || status=$?
}

refuse_to_program() {
    program=${RECORDS:-$top/crates/records_cli/out/records_cli}
    if [ -z "${RECORDS:-}" ]; then make_it records_cli rt run -- --help; fi
    # The third line has forty keys of one hash.
    python3 - > "$work/lines.jsonl" << 'END'
print('{"key": "value", "snot": 42}')
print('{"a":1,"a":2}')
members = (f'"{"".join("BB" if i >> bit & 1 else "Aa" for bit in range(5, -1, -1))}":{i}' for i in range(40))
print("{" + ",".join(members) + "}")
END
    echo '[["get",["key"]],["insert",[],"new",42],["get",["new"]]]' > "$work/edit.json"
    echo '[["reload"],["push",[],0],["insert",[],"z",[1]],["remove",[],"z"],["undo"]]' > "$work/undo.json"
    echo 'records: memory' > "$work/said"
    for form in owned borrowed lazy; do
        for script in edit undo; do
            of="$form, $script" number='' rest=''
            run
            [ "$status" = 0 ] || fail "status $status, where nothing is refused"
            mv "$work/out" "$work/whole"
            made=$(cat "$work/made")
            for rest in '' yes; do
                records=0 passed=0
                for ((number = 1; number <= made; number++)); do
                    run
                    if [ "$status" = 0 ]; then
                        cmp -s "$work/out" "$work/whole" || fail 'it ended with 0, and other records'
                        passed=$((passed + 1))
                        continue
                    fi
                    [ "$status" = 1 ] || fail "status $status"
                    cmp -s "$work/err" "$work/said" || fail "it said: $(head -c 200 "$work/err")"
                    left=$(wc -l < "$work/out")
                    head -n "$left" "$work/whole" | cmp -s - "$work/out" || fail 'what it wrote is no run of whole records'
                    [ "$left" -ge "$records" ] || fail "$left records, and $records with a request before it refused"
                    records=$left
                done
                [ "$records" = 2 ] || fail "$records records, where the last request that counts was refused"
                echo "$of: each of $made requests refused${rest:+ with all behind it}; it did without $passed of them"
            done
        done
    done
}

refuse_to_tests() {
    rest=''
    while read -r crate test; do
        of="$crate, $test" number='' found=0
        tests=$top/crates/$crate/out/${crate}_tests
        make_it "$crate" rt test
        REFUSE_MADE="$work/made" LD_PRELOAD="$work/refuse.so" "$tests" "$test" > "$work/out" 2>&1 || fail "$(cat "$work/out")"
        made=$(cat "$work/made")
        for ((number = 1; number <= made; number++)); do
            if ! REFUSE=$number LD_PRELOAD="$work/refuse.so" "$tests" "$test" > "$work/out" 2>&1; then
                grep -q 'the test failed: its result gives status 1' "$work/out" || fail "$(cat "$work/out")"
                if grep -q 'no memory' "$work/out"; then found=$((found + 1)); fi
            fi
        done
        number=''
        [ "$found" -gt 0 ] || fail 'none of its requests is one that it looks for'
        echo "$of: each of $made requests refused, $found of them where it looks for it"
    done << 'END'
tape_tests tests::objects::refused_pairs
tape_tests tests::tapes::second_text_of_a_kind
document_tests tests::keys::made_for_new_keys
document_tests tests::keys::made_for_new_members
document_tests tests::lazy::first_writes
document_tests tests::lazy::first_writes_to_copies
document_tests tests::lazy::value_of_a_tape
record_tests tests::memory::edits_without_memory
record_tests tests::memory::reloads_without_memory
END
}

for what in ${*:-program tests}; do
    case $what in
        program) refuse_to_program ;;
        tests) refuse_to_tests ;;
        *) echo "usage: oracle/memory.sh [program] [tests]" >&2; exit 2 ;;
    esac
done
