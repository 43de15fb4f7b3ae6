#!/usr/bin/env bash
# Times reading and printing alone: `read_bench` and its peers over the same files, and prints tables in Markdown.
#
#     bench/read.sh FOLDER
#
# The files are those of FOLDER: NAME.json as one document, and NAME.jsonl as one a line. The contestants take turns, a file
# after the other, and the least time of each counts. `read_bench` and the kit's `json` and `serde_json` are built for each
# level of the processor, simdjson once. Settings are taken from the environment:
#
#     ROUNDS=15         how many turns each contestant has at each file
#     MILLISECONDS=200  for how long it makes passes in a turn
#     LEVELS="x86-64-v2 x86-64-v3"    the levels
#     FILES="twitter citm_catalog canada logs tweets"    the files, by their names without endings
#     CORE=N            keeps all runs on this core
#     BEFORE=FOLDER     a checkout of an earlier commit, whose `read_bench` stands beside this one with `tape` and `print`
#     WORK=FOLDER       where the programs stay; if not set, they are removed at the end
set -eu

top=$(cd "$(dirname "$0")/.." && pwd)
folder=${1:?the folder with the files}
rounds=${ROUNDS:-15}
milliseconds=${MILLISECONDS:-200}
read -r -a levels <<< "${LEVELS:-x86-64-v2 x86-64-v3}"
read -r -a names <<< "${FILES:-twitter citm_catalog canada logs tweets}"
if [ -n "${WORK:-}" ]; then
    work=$WORK
    mkdir -p "$work"
else
    work=$(mktemp -d)
    trap 'rm -rf "$work"' EXIT
fi
before=${BEFORE:+$(cd "$BEFORE" && pwd)}
on_core=()
if [ -n "${CORE:-}" ]; then on_core=(taskset -c "$CORE"); fi

build_read_bench() { # build_read_bench CHECKOUT PROGRAM LEVEL
    cd "$1/crates/read_bench" && rt run --cpu="$3" -- --help && cp out/read_bench "$work/$2-$3"
}

# A repository of its own, in which the peers are the only crate.
build_json() { # build_json LEVEL
    mkdir -p "$work/port/crates/read_json/src"
    cp "$top/bench/read_json.rattle" "$work/port/crates/read_json/src/main.rt"
    cd "$work/port"
    echo 'read_json: json serde_json simdutf8 anyhow' > crates.txt
    cd crates/read_json
    echo '[]' > "$work/empty.json"
    rt run --cpu="$1" -- tape "$work/empty.json" 0 && cp out/read_json "$work/json-$1"
}

build_simdjson() {
    g++ -std=c++17 -O3 -march=native "$top/bench/read_simdjson.cpp" -lsimdjson -o "$work/simdjson"
}

build() { # build FILE COMMAND..
    local file=$1
    shift
    if [ ! -x "$work/$file" ] && ! ("$@" > "$work/$file.log" 2>&1); then
        echo "$file can't be made: $(tail -n 1 "$work/$file.log")" >&2
        exit 1
    fi
}

# The rows of the tables, each as PROGRAM KIND. Of simdjson there is one with its kernel for AVX2, named haswell, and one
# with the kernel that it chooses.
rows=("read_bench tape" "read_bench plain" "json tape" "simdjson-haswell tape" "simdjson tape" "read_bench owned" "read_bench borrowed" "serde_json value" "read_bench scan" "read_bench print" "simdjson-haswell print" "simdjson print")
if [ -n "$before" ]; then rows+=("before tape" "before print"); fi

# Prints a contestant as PROGRAM KIND: a program that is built for each level has the level in its name.
at_level() { # at_level LEVEL PROGRAM KIND
    case $2 in
        simdjson*) echo "$2 $3" ;;
        *) echo "$2-$1 $3" ;;
    esac
}

# Sets `command` to the words that run a contestant.
choose() { # choose PROGRAM KIND FILE
    case $1 in
        serde_json-*) command=("$work/${1#serde_}") ;;
        simdjson-*) command=(env SIMDJSON_FORCE_IMPLEMENTATION="${1#simdjson-}" "$work/simdjson") ;;
        *) command=("$work/$1") ;;
    esac
    command=("${on_core[@]}" "${command[@]}" "$2" "$3" "$milliseconds")
}

declare -A file_of len_of least refused

# Keeps the least time in nanoseconds.
measure() { # measure PROGRAM KIND NAME
    local key="$1 $2 $3" time count
    choose "$1" "$2" "${file_of[$3]}"
    if ! read -r _ time count < <("${command[@]}"); then
        echo "$1 $2 $3 fails" >&2
        exit 1
    fi
    if [ -z "${least[$key]:-}" ] || [ "$time" -lt "${least[$key]}" ]; then least[$key]=$time; fi
    refused[$key]=$count
}

heading() { # heading TITLE
    printf '\n| %s |' "$1"
    printf ' %s |' "${names[@]}"
    printf ' mean |\n|---|'
    printf -- '---|%.0s' "${names[@]}" mean
    printf '\n'
}

# A row of cells, each the quotient of two numbers, and of their geometric mean.
row() { # row TITLE FORMAT [NUMERATOR DENOMINATOR]..
    local title=$1 format=$2
    shift 2
    printf '%s\n' "$*" | awk -v title="$title" -v format="$format" '{
        line = "| `" title "` |"
        for (i = 1; i < NF; i += 2) {
            line = line " " sprintf(format, $i / $(i + 1)) " |"
            logs += log($i / $(i + 1))
        }
        print line " " sprintf(format, exp(logs / (NF / 2))) " |"
    }'
}

# A byte in a nanosecond is 1000 MB/s.
rates() { # rates LEVEL PROGRAM KIND
    local contestant name cells=()
    contestant=$(at_level "$@")
    for name in "${names[@]}"; do cells+=("$((len_of[$name] * 1000))" "${least[$contestant $name]}"); done
    row "$2 $3" %.0f "${cells[@]}"
}

# A tape by another scan, and a document, are compared with simdjson's tape.
ratios() { # ratios LEVEL PROGRAM KIND
    local contestant name peer=$3 cells=()
    if [ "$peer" != print ]; then peer=tape; fi
    contestant=$(at_level "$@")
    for name in "${names[@]}"; do cells+=("${least[$contestant $name]}" "${least[simdjson-haswell $peer $name]}"); done
    row "$2 $3" %.2f "${cells[@]}"
}

for name in "${names[@]}"; do
    file_of[$name]=$folder/$name.json
    if [ ! -e "${file_of[$name]}" ]; then file_of[$name]=$folder/$name.jsonl; fi
    len_of[$name]=$(stat -c %s "${file_of[$name]}")
done
build simdjson build_simdjson
for level in "${levels[@]}"; do
    build "read_bench-$level" build_read_bench "$top" read_bench "$level"
    build "json-$level" build_json "$level"
    if [ -n "$before" ]; then build "before-$level" build_read_bench "$before" before "$level"; fi
done

mapfile -t contestants < <(for level in "${levels[@]}"; do
    for words in "${rows[@]}"; do
        read -r program kind <<< "$words"
        at_level "$level" "$program" "$kind"
    done
done | sort -u)

for ((round = 0; round < rounds; round++)); do
    for name in "${names[@]}"; do
        for contestant in "${contestants[@]}"; do
            read -r program kind <<< "$contestant"
            measure "$program" "$kind" "$name"
        done
    done
done

for key in "${!refused[@]}"; do
    if [ "${refused[$key]}" != 0 ]; then echo "refused documents: $key ${refused[$key]}" >&2; fi
done
for level in "${levels[@]}"; do
    heading "$level: MB/s of the file"
    for words in "${rows[@]}"; do
        read -r program kind <<< "$words"
        rates "$level" "$program" "$kind"
    done
    heading "$level: time by that of \`simdjson-haswell\`"
    for words in "${rows[@]}"; do
        read -r program kind <<< "$words"
        if [ "$kind" != scan ]; then ratios "$level" "$program" "$kind"; fi
    done
done
