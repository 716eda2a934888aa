#!/usr/bin/env bash
# What `make` proves and builds, with a short line for each crate. All that rt prints goes to target/make.log. What rt has proved and what has
# not changed since is not proved again.
#   scripts/prove.sh            proves every crate, and builds the report program
#   scripts/prove.sh library    builds the C library of the crate abi_c, for which those that it uses are proved
#   scripts/prove.sh report     builds the report program, for which those that it uses are proved
set -eu -o pipefail
cd "$(dirname "$0")/.."
log=$PWD/target/make.log
total=$(sed 's/#.*//' crates.txt | grep -c :)

# Of what rt prints, each crate as its check ends. What `rt all` prints of a crate comes at once, under its name, and then the crates are numbered.
crates() {
    local line name='' state='' number=0 first=''
    tell() {
        [ -z "$name" ] || echo "$first$name $state"
        name=''
    }
    while IFS= read -r line; do
        case $line in
        '== summary') tell ;;
        '== '*)
            tell
            name=${line#== }
            state=unchanged
            first="$((number += 1)) of $total  "
            ;;
        'crate '*': modules '*)
            line=${line#crate }
            name=${line%%:*}
            state='NOT PROVED'
            ;;
        'logic=proved functions='*)
            line=${line#logic=proved functions=}
            state="proved, functions: ${line%% *}"
            tell
            ;;
        'logic=not-proved'*) tell ;;
        'rt: '* | '') ;;
        *) [ "$state" != unchanged ] || state='NOT PROVED' ;;
        esac
    done
    tell
}

fail() {
    echo "$1 failed. The end of $log, without what is proved:"
    grep -v -e ': proved$' -e '^checked ' -e '^library ' -e '^statements ' -e '^axioms ' -e '^logic' "$log" | tail -n 30 | cut -c 1-300
    exit 1
}

# The program is run once, on the sample, and put where it is found.
report() {
    local run="rt run, in crates/report," printed=$PWD/target/report.out
    (cd crates/report && rt run <stdin 2>&1 >"$printed") | tee -a "$log" | crates || fail "$run"
    diff "$printed" crates/report/stdout || fail "$run does not write the file stdout there, and so"
    install -D -m 755 crates/report/out/report target/bin/report
}

mkdir -p target
case "${1:-}" in
library)
    echo "Building the C library. Log: $log."
    (cd crates/abi_c && rt lib 2>&1) | tee -a "$log" | crates || fail "rt lib, in crates/abi_c,"
    install -D -m 644 crates/abi_c/out/libabi_c.a target/staticlib/libabi.a
    ;;
report)
    echo "Building the report program. Log: $log."
    report
    ;;
'')
    echo "Proving $total crates. The first time takes long; later only what has changed is proved. The whole log goes to $log."
    rt all check 2>&1 | tee "$log" | crates || fail "rt all check"
    report
    ;;
*)
    echo "usage: scripts/prove.sh [library|report]" >&2
    exit 2
    ;;
esac
