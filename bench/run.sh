#!/usr/bin/env bash
# Times `records` in each form and its peers over the same streams, and prints what it found as tables in Markdown.
#
#     bench/run.sh [FOLDER]
#
# One stream is examples/packages.jsonl, again and again. Each file of FOLDER gives one more, again and again: NAME.jsonl
# as it is, and NAME.json as one line, without its line feeds. Over each stream the programs do the script [], and then one
# `get`, of the path that `path_of` has for it. They run in turns, from a file to a file, and the least time of each counts.
# The first round isn't timed: it tells peak memory, and what each program writes.
#
# A peer that can't be built here is left out. Settings are taken from the environment:
#
#     BYTES=20000000    about how long each stream is
#     ROUNDS=5          how often each program is timed on each stream and script
#     LEVEL=x86-64-v2   the processor that `records` and serde_json are made for
#     PEERS="simdjson serde_json jq"    the peers
#     CORE=N            keeps all runs on this core
#     RECORDS=FILE      the program; if not set, `rt run` makes it
#     BEFORE=FILE       an earlier build of the program, which stands beside it
#     WORK=FOLDER       where programs, streams and outputs stay; if not set, they are removed at the end
set -eu
shopt -s nullglob
# jq sorts the members of records that differ.
if ! command -v jq > /dev/null; then
    echo "jq is needed to compare what the programs write" >&2
    exit 1
fi
# Simdjson's kernel for AVX2, also where it would choose one for AVX-512.
export SIMDJSON_FORCE_IMPLEMENTATION=${SIMDJSON_FORCE_IMPLEMENTATION:-haswell}
TIMEFORMAT='%R %U %S'

top=$(cd "$(dirname "$0")/.." && pwd)
folder=${1:-}
bytes=${BYTES:-20000000}
rounds=${ROUNDS:-5}
level=${LEVEL:-x86-64-v2}
peers=${PEERS-simdjson serde_json jq}
if [ -n "${WORK:-}" ]; then
    work=$WORK
    mkdir -p "$work"
else
    work=$(mktemp -d)
    trap 'rm -rf "$work"' EXIT
fi
on_core=()
if [ -n "${CORE:-}" ]; then on_core=(taskset -c "$CORE"); fi

# The keys that lead to what the `get` finds. A stream that isn't listed gets the key "id".
declare -A path_of=(
    [packages]='package'
    [twitter]='search_metadata query'
    [citm_catalog]='topicNames'
    [canada]='type'
    [logs]='user screen_name'
    [tweets]='user screen_name'
)

programs=()
declare -A file_of

add() { # add PROGRAM FILE
    programs+=("$1")
    file_of[$1]=$2
}

build_records() {
    cd "$top/crates/records_cli" && rt run --cpu="$level" -- ../../examples/depends.json < "$top/examples/packages.jsonl"
}

# Simdjson chooses its kernel when it runs.
build_simdjson() {
    g++ -O3 -march=native "$top/bench/simdjson.cpp" -lsimdjson -o "$work/simdjson"
}

# A repository of its own, in which the peer is the only crate.
build_serde_json() {
    rm -rf "$work/port"
    mkdir -p "$work/port/crates/serde_json_records/src"
    cp "$top/bench/serde_json.rattle" "$work/port/crates/serde_json_records/src/main.rt"
    cd "$work/port"
    echo 'serde_json_records: anyhow serde serde_json' > crates.txt
    cd crates/serde_json_records
    rt run --cpu="$level" < "$top/examples/packages.jsonl"
    cp out/serde_json_records "$work/serde_json"
}

build_jq() {
    ln -s "$(command -v jq)" "$work/jq"
}

# Builds a peer, if it isn't there yet.
build() { # build PROGRAM
    if [ -x "$work/$1" ] || ("build_$1" > "$work/$1.log" 2>&1); then
        add "$1" "$work/$1"
    else
        echo "left out: $1 (its build says: $(tail -n 1 "$work/$1.log"))" >&2
    fi
}

# Writes the script of a path of keys.
write_script() { # write_script [KEY]...
    local keys script='[]'
    if [ $# != 0 ]; then
        keys=$(printf ',"%s"' "$@")
        script="[[\"get\",[${keys#,}]]]"
    fi
    echo "$script" > "$work/script.json"
}

# Sets `command` to the words that run a program.
choose() { # choose PROGRAM [KEY]...
    local program=$1
    shift
    case $program in
        before) command=("${file_of[$program]}" "$work/script.json") ;;
        owned | borrowed | lazy) command=("${file_of[$program]}" --form "$program" "$work/script.json") ;;
        jq) command=("${file_of[$program]}" -c -f "$top/bench/records.jq" --args "$@") ;;
        *) command=("${file_of[$program]}" "$@") ;;
    esac
    command=("${on_core[@]}" "${command[@]}")
}

streams=()

# Makes a stream of what standard input has, again and again.
make_stream() { # make_stream NAME < PART
    local part=$work/$1.part stream=$work/$1.stream len
    streams+=("$1")
    cat > "$part"
    len=$(stat -c %s "$part")
    yes "$part" | head -n $(((bytes + len - 1) / len)) | xargs -d '\n' cat > "$stream"
}

declare -A refused peak reads processor

# The round that isn't timed.
try() { # try STREAM PROGRAM [KEY]...
    local cell="$1 $2" out=$work/$2.out
    choose "${@:2}"
    refused[$cell]=
    /usr/bin/time -f %M -o "$work/peak" "${command[@]}" < "$work/$1.stream" > "$out" 2> "$work/$2.err" || refused[$cell]=yes
    if grep -q '^{"error"' "$out"; then refused[$cell]=yes; fi
    peak[$cell]=$(tail -n 1 "$work/peak" | awk '{ printf "%.1f", $1 * 1024 / 1e6 }')
}

# Says how the records of a program differ from those of `records` in the owned form.
compare() { # compare STREAM PROGRAM
    local lines
    lines=$(wc -l < "$work/$1.part")
    if cmp -s "$work/owned.out" "$work/$2.out"; then
        reads[$1 $2]=bytes
    elif cmp -s <(sorted "$work/owned.out" "$lines") <(sorted "$work/$2.out" "$lines"); then
        reads[$1 $2]=values
    else
        reads[$1 $2]=differ
    fi
}

sorted() { # sorted RECORDS LINES
    head -n "$2" "$1" | jq -c -S .
}

# Keeps the least time of user and system, in seconds.
measure() { # measure STREAM PROGRAM [KEY]...
    local times user system
    choose "${@:2}"
    times=$( { time "${command[@]}" < "$work/$1.stream" > "$work/$2.out" 2> "$work/$2.err"; } 2>&1) || true
    read -r _ user system <<< "$times"
    processor[$1 $2]=$(awk -v old="${processor[$1 $2]:-}" -v new="$(awk -v u="$user" -v s="$system" 'BEGIN { print u + s }')" \
        'BEGIN { print old == "" || new < old ? new : old }')
}

# Prints a table of what CELL STREAM PROGRAM prints. With a third word the last column is `mean_of` each program.
table() { # table TITLE CELL [OTHER]
    local program stream columns=("${streams[@]}" ${3:+mean})
    printf '\n| %s |' "$1"
    printf ' %s |' "${columns[@]}"
    printf '\n|---|'
    printf -- '---|%.0s' "${columns[@]}"
    for program in "${programs[@]}"; do
        printf '\n| `%s` |' "$program"
        for stream in "${streams[@]}"; do
            if [ -n "${refused[$stream $program]}" ]; then
                printf ' |'
            else
                printf ' %s |' "$("$2" "$stream" "$program")"
            fi
        done
        if [ -n "${3:-}" ]; then printf ' %s |' "$(mean_of "$program" "$3")"; fi
    done
    printf '\n'
}

# The rate in MB/s of a stream.
rate_of() { # rate_of STREAM PROGRAM
    awk -v len="$(stat -c %s "$work/$1.stream")" -v seconds="${processor[$1 $2]}" 'BEGIN { printf "%.0f", len / 1e6 / seconds }'
}
# How many times as fast as another program this one is.
times_as_fast() { # times_as_fast STREAM PROGRAM OTHER
    awk -v time="${processor[$1 $2]}" -v other="${processor[$1 $3]:-}" 'BEGIN { if (other != "") printf "%.2f", other / time }'
}
# The geometric mean over the streams of FOLDER of how many times as fast as another program this one is.
mean_of() { # mean_of PROGRAM OTHER
    local stream
    for stream in "${streams[@]:1}"; do times_as_fast "$stream" "$1" "$2"; echo; done |
        awk '$1 > 0 { sum += log($1); count++ } END { if (count) printf "%.2f", exp(sum / count) }'
}
by_simdjson() { times_as_fast "$1" "$2" simdjson; }
by_serde_json() { times_as_fast "$1" "$2" serde_json; }
peak_of() { echo "${peak[$1 $2]}"; }
same_as_owned() { echo "${reads[$1 $2]}"; }

if [ -n "${BEFORE:-}" ]; then add before "$BEFORE"; fi
if [ -z "${RECORDS:-}" ]; then
    if ! (build_records > "$work/records.log" 2>&1); then
        echo "records can't be made: $(tail -n 1 "$work/records.log")" >&2
        exit 1
    fi
    RECORDS=$top/crates/records_cli/out/records_cli
fi
for form in owned borrowed lazy; do add $form "$RECORDS"; done
for peer in $peers; do build "$peer"; done

make_stream packages < "$top/examples/packages.jsonl"
for file in ${folder:+"$folder"/*.json}; do make_stream "$(basename "$file" .json)" < <(tr -d '\r\n' < "$file"; echo); done
for file in ${folder:+"$folder"/*.jsonl}; do make_stream "$(basename "$file" .jsonl)" < "$file"; done

# Times all programs over all streams, and prints the tables.
run_script() { # run_script empty|get
    local stream program round
    processor=()
    for stream in "${streams[@]}"; do
        local path=()
        if [ "$1" = get ]; then read -ra path <<< "${path_of[$stream]:-id}"; fi
        write_script "${path[@]}"
        for program in "${programs[@]}"; do try "$stream" "$program" "${path[@]}"; done
        for program in "${programs[@]}"; do compare "$stream" "$program"; done
        for ((round = 0; round < rounds; round++)); do
            for program in "${programs[@]}"; do measure "$stream" "$program" "${path[@]}"; done
        done
    done
    printf '\nScript `%s`, %s:\n' "$1" "$level"
    table 'MB/s of input, by user and system time' rate_of
    table 'times as fast as `simdjson`' by_simdjson simdjson
    table 'times as fast as `serde_json`' by_serde_json serde_json
    table 'peak memory, in MB' peak_of
    table 'what is the same as in the owned form' same_as_owned
}

run_script empty
run_script get
