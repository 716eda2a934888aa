#!/usr/bin/env bash
# The documents: docs/crates.svg is drawn from crates.txt as it is; lines that are no rows of tables have under 160 characters; links lead to files;
# the must-fail edits and the functions that are named exist; wrong programs stand on their own page, with every C function; text files have no
# blank at the end of a line, no tab and a last line break, as .editorconfig says. Needs no library.
set -eu -o pipefail
cd "$(dirname "$0")/.."
fail() {
    echo "documents: $1"
    exit 1
}
awk -f scripts/crates-svg.awk crates.txt | cmp - docs/crates.svg || fail "docs/crates.svg is not that of crates.txt: make docs/crates.svg"

# The files of the repository; where git cannot tell, all that are there but target/ and what rt makes, crates/*/out.
files=$(git ls-files 2>/dev/null || find . \( -name target -o -name out -o -name .git \) -prune -o -type f -print | sed 's|^\./||')
pages=$(grep '\.md$' <<<"$files")
# A page is named with each line at fault.
if LC_ALL=C.UTF-8 grep -nE '^[^|].{159}' $pages | cut -c 1-120 | grep .; then fail "these lines have 160 characters or more"; fi
# On the pages of readings and decisions rows of tables too: what does not fit is a list.
read=$(grep -E '^docs/(READING|DECISIONS)' <<<"$pages")
if LC_ALL=C.UTF-8 grep -nE '^.{160}' $read | cut -c 1-120 | grep .; then fail "these rows have 160 characters or more"; fi

# Targets of links, [name](target) and [name]: target, without those outside, anchors and code between backquotes.
targets() {
    sed 's/`[^`]*`//g' "$1" | grep -oE '\]\([^) ]+\)|^\[[^]]+\]: [^ ]+' | sed -E 's/^\]\(//; s/\)$//; s/^\[[^]]+\]: //; s/#.*//' |
        grep -v -e '^https\?:' -e '^$' || true
}
links=0
for page in $pages; do
    folder=$(dirname "$page")
    for target in $(targets "$page"); do
        links=$((links + 1))
        [ -e "$folder/$target" ] || fail "$page links to $target, which is not there"
    done
done
[ "$links" -gt 300 ] || fail "only $links links were found"

edits=$(ls crates/*/must-fail/*.edit more-edits/*/*.edit | sed 's|.*/||' | sort -u)
named=$(cat $pages | grep -oE '\b[a-z0-9_]+\.edit\b' | sort -u)
lost=$(comm -13 <(echo "$edits") <(echo "$named"))
[ -z "$lost" ] || fail "no such edits: $lost"
! grep -n '\.edit`' docs/CALLS.md || fail "docs/CALLS.md names edits: they belong to docs/WRONG-PROGRAMS.md"
functions=$(grep -oE '^(static inline [a-z0-9_ ]*[ *]|uint64_t )brawnesk_[a-z0-9_]+\(' include/brawnesk.h | grep -oE 'brawnesk_[a-z0-9_]+' | sort -u)
for name in $(grep -oE '^uint64_t brawnesk_[a-z0-9_]+' include/brawnesk.h | cut -d ' ' -f 2); do
    grep -qE "^###.*\`$name\`" docs/WRONG-PROGRAMS.md || fail "docs/WRONG-PROGRAMS.md has no section on $name"
    grep -qE "^##.*\`$name\`" docs/CALLS.md || fail "docs/CALLS.md has no section on $name"
done
# Functions between backquotes; names of files have a dot after them.
unknown=$(comm -13 <(echo "$functions") <(cat README.md CONTRIBUTING.md docs/*.md | grep -oE '`brawnesk_[a-z0-9_]+[`(]' | tr -d '`(' | sort -u))
[ -z "$unknown" ] || fail "the header has no $unknown"

# Bytes that are no text are left out: samples, and the input of the report program.
text=$(grep -v -e '\.img$' -e '\.bin$' -e '^crates/report/stdin$' <<<"$files")
! grep -nE '[[:blank:]]$' $text || fail "these lines end with a blank"
! grep -lP '\t' $(echo "$text" | grep -vx Makefile) || fail "these files have tabs"
if [ "$(tail -q -c 1 $text | tr -d '\n' | wc -c)" != 0 ]; then
    for file in $text; do [ -z "$(tail -c 1 "$file")" ] || fail "$file does not end with a line break"; done
fi
echo "documents: passed, $links links"
