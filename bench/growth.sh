#!/usr/bin/env bash
# How costs grow: the instructions of a check, of a may_read and of a read by callgrind, with an eighth, a quarter, a half and all
# of the rows that 1 MiB holds, and of the labels, users and groups that an image may have, one at a time. Groups are measured in
# edition 1, and in edition 2 in one chain, which the plain version doesn't know. The read is of that many rows of 10 bytes, and
# of 1,000 where something else than the rows grows. Prints a table and draws docs/growth.svg. Without
# target/staticlib/libabi.a only the plain version is measured.
set -eu
cd "$(dirname "$0")"
. ./counted.sh

: >"$out/growth.txt"
printf '%-8s %8s %-7s %12s %12s %12s\n' thing count version check may_read read
while read -r thing number check verdict read versions; do
    for version in $versions; do
        for call in "$check" "$verdict" "$read"; do counted "$version" "$call"; done
        set -- "${counts[$version-$check]}" "${counts[$version-$verdict]}" "${counts[$version-$read]}"
        printf '%-8s %8s %-7s %12s %12s %12s\n' "$thing" "$number" "$version" "$@"
        echo "$thing $number $version $*" >>"$out/growth.txt"
    done
done < <("$bench" growth)
awk -f growth-svg.awk "$out/growth.txt" >../docs/growth.svg
echo 'docs/growth.svg is drawn from this table'
