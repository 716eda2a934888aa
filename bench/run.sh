#!/usr/bin/env bash
# Measures calls, ours and the plain Rust version, in one run: instructions by callgrind, time and stack of each, and how
# many times the plain version's instructions ours are. A ! marks where ours misses a limit. The tables:
# - calls: on the largest image of edition 1, and by how many percent a call that is lent an image exceeds the check of
#   the same version;
# - rows: row calls, with the instructions for each row;
# - edition-2: calls on the largest images of edition 2, which the plain version doesn't know, and the move up to it;
# - maps: what making and judging a map take for each label beside a may_read by the same session;
# - mapped-reads: in percent of the plain read, or of judging the map for few rows;
# - writing: images written from their own records, and taken apart into them, in percent of the check of the image;
# - worst: calls on images whose check costs much.
# Last the instructions of each function in a check and a read, or in the calls that are named:
# bench/run.sh [CALL...]
# With TABLES='writing maps' it prints these tables alone. Without target/staticlib/libabi.a only the plain version is
# measured.
set -eu
cd "$(dirname "$0")"
. ./counted.sh

# Functions with instructions of their own, the most first. Inlined functions count for their caller.
# Own instructions are the sum over the parts; with callees, the largest part is the whole function.
functions() {
    { parts "$1" no | sed 's/^/own\t/'; parts "$1" yes | sed 's/^/all\t/'; } |
        awk -F '\t' '$1 == "own" { own[$3] += $2 } $1 == "all" && all[$3] < $2 { all[$3] = $2 }
            END { for (name in own) if (own[name] > 0) printf "%12d %14d  %s\n", own[name], all[name], name }' |
        sort -rn | head -n 25
}

# By how many percent of $2 the number $1 exceeds it.
over() {
    awk -v call="$1" -v check="$2" 'BEGIN { printf "%.2f", (call - check) * 100 / check }'
}

# Marks a figure of ours that is over its limit, if there is one. A figure that begins with <= is far below.
marked() {
    awk -v version="$1" -v figure="$2" -v limit="$3" \
        'BEGIN { print figure (version == "ours" && limit != "-" && figure + 0 > limit + 0 ? "!" : "") }'
}

# The four columns of a version: instructions, percent over its check of the same image, time, stack.
# Behind an @ a call tells on which image it is asked.
columns() {
    local version=$1 call=$2 function=$3 lent=$4 limit=$5 counted percent=- check
    count "$version" "$call"
    counted=$(instructions "$version" "$call" "$function")
    row_counts[$version]=$counted
    check=$version-check${call#"${call%%@*}"}
    if [ "$version-$call" = "$check" ]; then checks[$check]=$counted; fi
    if [ "$lent" = image ]; then
        percent=$(marked "$version" "$(over "$counted" "${checks[$check]}")" "$limit")
    fi
    printf ' %12s %8s %8s %8s' "$counted" "$percent" \
        "$("$bench" "$version" "$call" time)" "$("$bench" "$version" "$call" stack)"
}

# The four columns of a version of a row call: instructions, of these for each row, time, stack, which may have a limit.
row_columns() {
    local version=$1 call=$2 function=$3 rows=$4 most=${5:--} counted
    count "$version" "$call"
    counted=$(instructions "$version" "$call" "$function")
    row_counts[$version]=$counted
    printf ' %12s %8s %10s %8s' "$counted" \
        "$(awk -v counted="$counted" -v rows="$rows" 'BEGIN { print (rows ? sprintf("%.1f", counted / rows) : "-") }')" \
        "$("$bench" "$version" "$call" time)" "$(marked "$version" "$("$bench" "$version" "$call" stack)" "$most")"
}

# The four columns of a version of a call on maps: instructions, of these for each label beyond the call that it
# is held beside, if any, time, stack.
label_columns() {
    local version=$1 call=$2 function=$3 labels=$4 limit=$5 beside=$6 counted each=-
    count "$version" "$call"
    counted=$(instructions "$version" "$call" "$function")
    row_counts[$version]=$counted
    held[$version-$call]=$counted
    if [ "$beside" != - ]; then
        each=$(awk -v counted="$counted" -v other="${held[$version-$beside]}" -v labels="$labels" \
            'BEGIN { printf "%.2f", (counted - other) / labels }')
    fi
    printf ' %12s %8s %10s %8s' "$counted" "$(marked "$version" "$each" "$limit")" \
        "$("$bench" "$version" "$call" time)" "$("$bench" "$version" "$call" stack)"
}

# The columns of each version by the function $1; those of the versions that are not among $2 are empty.
each_version() {
    local columns=$1 known=$2 version
    shift 2
    row_counts=()
    for version in $versions; do
        case " $known " in
        *" $version "*) "$columns" "$version" "$@" ;;
        *) printf ' %12s %8s %10s %8s' - - - - ;;
        esac
    done
}

# How many percent of the call $2 the call $1 of ours takes, marked where that is over the limit. $2 may be none.
percent_of() {
    local percent
    percent=$(awk -v counted="${held[$1]}" -v other="${held[$2]:-0}" \
        'BEGIN { print other ? sprintf("%.2f", counted * 100 / other) : "-" }')
    marked ours "$percent" "$3"
}

# How many times the plain version's instructions ours are, marked where that is over the limit.
times_plain() {
    awk -v ours="${row_counts[ours]:-0}" -v plain="${row_counts[plain]:-0}" -v limit="$1" 'BEGIN {
        print ours && plain ? sprintf("%.2f", ours / plain) (limit != "-" && ours * 100 > plain * limit ? "!" : "") : "-" }'
}

# The heads of a table of calls, whose first column is so wide and has that head.
heads() {
    printf "%-$1s %8s" "$2" 'limit, %'
    for version in $versions; do
        printf ' %12s %8s %8s %8s' "$version" 'over, %' ns stack
    done
    printf ' %8s\n' 'x plain'
}

# The heads of a table of calls on maps or of writing: of the calls, of what each is divided by, of its limit, and of
# the versions.
part_heads() {
    printf "%-32s %8s %8s" "$1" "$2" "$3"
    for version in $versions; do
        printf ' %12s %8s %10s %8s' "$version" "a ${2%s}" ns stack
    done
    printf ' %8s' 'x plain'
}

table_calls() {
    heads 18 call
    "$bench" calls | while read -r call function lent limit; do
        printf '%-18s %8s' "$call" "$limit"
        for version in $versions; do
            columns "$version" "$call" "$function" "$lent" "$limit"
        done
        printf ' %8s\n' "$(times_plain -)"
    done
}

table_rows() {
    printf '%-18s %8s %8s' 'row call' rows 'limit, %'
    for version in $versions; do
        printf ' %12s %8s %10s %8s' "$version" 'a row' ns stack
    done
    printf ' %8s\n' 'x plain'
    "$bench" row-calls | while read -r call function rows limit; do
        printf '%-18s %8s %8s' "$call" "$rows" "$limit"
        for version in $versions; do
            row_columns "$version" "$call" "$function" "$rows"
        done
        printf ' %8s\n' "$(times_plain "$limit")"
    done
}

# Empty without the library.
table_edition_2() {
    if [ -z "$("$bench" edition-2)" ]; then return; fi
    heads 32 'edition 2: call@image'
    "$bench" edition-2 | while read -r call function limit known; do
        printf '%-32s %8s' "$call" "$limit"
        row_counts=()
        for version in $versions; do
            case " $known " in
            *" $version "*) columns "$version" "$call" "$function" image "$limit" ;;
            *) printf ' %12s %8s %8s %8s' - - - - ;;
            esac
        done
        printf ' %8s\n' "$(times_plain -)"
    done
}

table_maps() {
    part_heads 'maps: call@image+session' labels limit
    echo
    "$bench" maps | while read -r call function labels limit beside known; do
        if [ -z "$known" ]; then continue; fi
        printf '%-32s %8s %8s' "$call" "$labels" "$limit"
        each_version label_columns "$known" "$call" "$function" "$labels" "$limit" "$beside"
        printf ' %8s\n' "$(times_plain -)"
    done
}

# Calls that are told in percent of the one that they are held beside: the list of `bench`, the head of the calls, what
# each is divided by, and the limit of the stack.
table_held() {
    local list=$1 head=$2 part=$3 most=$4
    part_heads "$head" "$part" 'limit, %'
    echo '    of, %'
    "$bench" "$list" | while read -r call function parts limit beside known; do
        if [ -z "$known" ]; then continue; fi
        printf '%-32s %8s %8s' "$call" "$parts" "$limit"
        each_version row_columns "$known" "$call" "$function" "$parts" "$most"
        held[$call]=${row_counts[ours]:-0}
        printf ' %8s %8s\n' "$(times_plain -)" "$(percent_of "$call" "$beside" "$limit")"
    done
}

declare -A checks row_counts held
versions=$("$bench" versions)
for table in ${TABLES:-calls rows edition-2 maps mapped-reads writing worst}; do
    case $table in
    calls) table_calls ;;
    rows) table_rows ;;
    edition-2) table_edition_2 ;;
    maps) table_maps ;;
    mapped-reads) table_held mapped-reads 'mapped reads: call@image' rows - ;;
    writing) table_held writing 'writing: call@image' blocks 4096 ;;
    worst) table_held worst 'worst: call@image' blocks - ;;
    *) echo "no table of that name: $table" >&2 && exit 1 ;;
    esac
    echo
done

if [ $# = 0 ]; then set -- check read-10; fi
for call in "$@"; do
    for version in $versions; do
        # The plain version has no part in calls on edition 2, and some tables may be left out.
        if [ ! -e "$out/$version-$call.callgrind" ]; then continue; fi
        printf '%s %s\n%12s %14s  function\n' "$version" "$call" own 'with callees'
        functions "$version-$call"
        echo
    done
done
