#!/usr/bin/env bash
# Counts the instructions of calls of the library by callgrind, and the stack of some, and fails where one is over its limit. A
# slower form of a loop that is still right, such as one that the compiler no longer makes vector code of, shows here. Without
# valgrind nothing is counted, which is no failure; without target/staticlib/libabi.a nothing can be, which is one.
set -eu
cd "$(dirname "$0")"
unset BRAWNESK_LIB_DIR

# A call as the bench program names it, with @ and its image if that isn't the largest of edition 1; what is counted: the whole
# call, its share for each row, what it takes for each label beyond a verdict of the same session, how many times another call it is, how
# many times the plain Rust version's it is, or the bytes of its stack; and the limit.
limits='
check                whole    190000
check@parent-higher  check    1.2
check@parent-lower   check    1.2
check@wide           check    1.2
check@release        check    1.2
check@begin-alike    check    2
check@worst          check    2
read-10              row      60
read-64              row      90
read-10-counted      row      130
read-64-counted      row      130
update-10            row      60
update-64            row      60
parse-longest        whole    243741
print-longest        whole    203111
set-label-longest    whole    222815
rows-20              check    1.05
write                check    2
write@parent-higher  check@parent-higher  2
write@parent-lower   check@parent-lower   2
map@full+top         label    40
judge-map@full+top   label    40
map@wide+top         label    40
judge-map@wide+top   label    40
map@release+top      label    40
mapped-10            read-10  1
mapped-64            read-64  1
mapped-10@wide       read-10@wide     1
mapped-10@release    read-10@release  1
read-10              plain    1
read-64              plain    1
read-10-counted      plain    1
read-64-counted      plain    1
unknown-10           plain    1
update-10            plain    1
check                stack    4096
write                stack    4096
read-10              stack    16384
mapped-10            stack    16384
update-10            stack    16384
parse-longest        stack    16384
set-label-longest    stack    16384
parse-longest@wide   stack    25000
set-label-longest@wide stack  25000
'

if ! command -v valgrind >/dev/null; then
    echo 'limits: there is no valgrind here, so nothing was counted'
    exit 0
fi
if [ ! -e ../target/staticlib/libabi.a ]; then
    echo 'limits: there is no target/staticlib/libabi.a to count in: make library builds it' >&2
    exit 1
fi
. ./counted.sh

# What the call is divided by.
unit() {
    case "$2" in
    whole | stack) echo 1 ;;
    row) "$bench" rows "$1" ;;
    label) "$bench" maps | awk -v call="$1" '$1 == call { print $3 }' ;;
    plain) echo "${counts[plain-$1]}" ;;
    *) echo "${counts[ours-$2]}" ;;
    esac
}

# The call that a call on maps is held beside.
beside() {
    "$bench" maps | awk -v call="$1" '$1 == call { print $5 }'
}

# What is measured of a call: its instructions, those beyond the call that it is held beside, or the bytes of its stack.
measured() {
    case "$2" in
    stack) "$bench" ours "$1" stack ;;
    label)
        local other
        other=$(beside "$1")
        echo $((${counts[ours-$1]} - ${counts[ours-$other]}))
        ;;
    *) echo "${counts[ours-$1]}" ;;
    esac
}

lines=0
over=()
printf '%-20s %12s %12s %10s  %s\n' call measured figure limit of
while read -r call what limit; do
    if [ -z "$call" ]; then continue; fi
    if [ "$what" != stack ]; then counted ours "$call"; fi
    case "$what" in
    whole | row | stack) ;;
    label) counted ours "$(beside "$call")" ;;
    plain) counted plain "$call" ;;
    *) counted ours "$what" ;;
    esac
    value=$(measured "$call" "$what")
    divisor=$(unit "$call" "$what")
    figure=$(awk -v count="$value" -v divisor="$divisor" -v what="$what" \
        'BEGIN { printf what == "whole" || what == "stack" ? "%d" : what == "row" || what == "label" ? "%.1f" : "%.4f", count / divisor }')
    verdict=$(awk -v count="$value" -v divisor="$divisor" -v limit="$limit" \
        'BEGIN { print (count > limit * divisor + 0.000001 ? "PASSED OVER" : "ok") }')
    printf '%-20s %12s %12s %10s  %-9s %s\n' "$call" "$value" "$figure" "$limit" "$what" "$verdict"
    lines=$((lines + 1))
    if [ "$verdict" != ok ]; then over+=("$call: $figure, limit $limit"); fi
done <<<"$limits"

if [ ${#over[@]} != 0 ]; then
    printf 'limits: %d of %d passed over' ${#over[@]} "$lines"
    printf '; %s' "${over[@]}"
    echo
    exit 1
fi
if [ "$lines" = 0 ]; then echo 'limits: the table has no line' >&2 && exit 1; fi
echo "limits: all $lines kept"
