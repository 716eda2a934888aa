# Sourced by the other scripts of this folder, inside it: builds the bench program, and counts the instructions of its calls by
# callgrind.
cargo build --release --offline --quiet
bench=../target/cargo/release/bench
out=../target/bench
mkdir -p "$out"

# One call of a version under callgrind; only what runs inside brawnesk_bench_calls is counted.
count() {
    valgrind --tool=callgrind --collect-atstart=no --toggle-collect=brawnesk_bench_calls \
        --callgrind-out-file="$out/$1-$2.callgrind" "$bench" "$1" "$2" 1 >"$out/$1-$2.log" 2>&1 ||
        { cat "$out/$1-$2.log" >&2 && return 1; }
}

# One line for each part of a function: instructions and name. A function has a part for each file
# that is inlined into it. $2 is no for its own instructions, yes for those of its callees too.
parts() {
    callgrind_annotate --auto=no --show-percs=no --threshold=100 --inclusive="$2" "$out/$1.callgrind" |
        sed -nE 's/^ *([0-9,]+) +[^ :]*:(.*)$/\1\t\2/p' | sed -E 's/ \[[^]]*\]$//' |
        awk -F '\t' -v OFS='\t' '{ gsub(",", "", $1); print }'
}

# Instructions of the called function ($3) with its callees, without the loop around the call. The
# largest part is the whole function.
instructions() {
    local name
    case "$1" in
    ours) name="brawnesk_$3" ;;
    plain) name="bench::plain::calls::$3" ;;
    esac
    parts "$1-$2" yes | awk -F '\t' -v name="$name" '$2 == name && $1 > most { most = $1 } END { print most }'
}

# Counts a call of a version, once, to counts[VERSION-CALL]. What is not found is no count of 0, but a failure.
declare -A counts
counted() {
    local call=$1-$2 function
    if [ -n "${counts[$call]:-}" ]; then return; fi
    function=$("$bench" function "$2")
    count "$1" "$2"
    counts[$call]=$(instructions "$1" "$2" "$function")
    if [ -z "${counts[$call]}" ]; then echo "the function $function was not found in $call" >&2 && return 1; fi
}
