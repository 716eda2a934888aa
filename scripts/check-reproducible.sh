#!/usr/bin/env bash
# Two builds of the C library give the same bytes.
#   scripts/check-reproducible.sh          builds it again from crates that rt has proved on this machine
#   scripts/check-reproducible.sh whole    proves every crate again first, from nothing, and compares the report program too
# The second build is done in a copy at another path. Needs target/staticlib/libabi.a, and of the second form also target/bin/report.
set -eu -o pipefail
cd "$(dirname "$0")/.."
case "${1:-}" in '' | whole) ;; *) echo "usage: scripts/check-reproducible.sh [whole]" >&2; exit 2 ;; esac
first=$PWD
copy=$(mktemp -d)
trap 'rm -rf "$copy"' EXIT
# the sources alone: what rt made of them stays here
tar -cf - --no-wildcards-match-slash --exclude='crates/*/out' --exclude='crates/*/must-fail' crates.txt crates | tar -xf - -C "$copy"

log=$copy/second.log
run() {
    cd "$copy/$1"
    shift
    "$@" >>"$log" 2>&1 || { tail -n 20 "$log"; echo "reproducible: $* failed"; exit 1; }
}
same() {
    cmp "$first/target/$1" "$copy/$2" || { echo "reproducible: a second build gives another target/$1"; exit 1; }
}
[ "${1:-}" != whole ] || run . rt ci --anew
run crates/abi_c rt lib
same staticlib/libabi.a crates/abi_c/out/libabi_c.a
[ "${1:-}" != whole ] || same bin/report crates/report/out/report
echo "reproducible: passed, sha256 of the C library $(sha256sum <"$copy/crates/abi_c/out/libabi_c.a" | cut -d ' ' -f 1)"
