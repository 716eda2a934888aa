#!/usr/bin/env bash
# The bindings: the archive exports just what the C header and the Rust crate declare, which say the same of what is lent and of each
# refusal; the header gives no warning as C99, C11 and C++17; the crate's tests pass, its pages have no warning, and a program without std links
# it; both report loops, both examples of maps, both of writing and the other C examples print what is stored, and brawnesk-check tells each fault
# with its place; valgrind finds no error in any of these programs; examples/calls.c calls every function and has every line of the examples in
# docs/CALLS.md; the loop in docs/MAPS.md is the one that is emitted; and the example in docs/IMAGE.md is the one that is run. Needs
# target/staticlib/libabi.a.
set -eu -o pipefail
cd "$(dirname "$0")/.."
unset BRAWNESK_LIB_DIR
valgrind="valgrind --quiet --error-exitcode=9 --leak-check=full"
# where it is not installed, the programs are run without it, and the last line says so
how="under valgrind too"
command -v valgrind >/dev/null || { valgrind=""; how="WITHOUT valgrind, which is not installed"; }
exported=$(nm target/staticlib/libabi.a | sed -n 's/.* T \(brawnesk_.*\)/\1/p' | sort)

# Compares the names on standard input with those that the archive exports.
same_names() {
    diff <(echo "$exported") <(sort) || { echo "$1 does not name just what the archive exports"; exit 1; }
}
test -n "$exported"
gcc -std=c99 -E -P -Iinclude include/brawnesk.h | sed -n 's/^uint64_t \(brawnesk_[a-z0-9_]*\)(.*/\1/p' | same_names include/brawnesk.h
sed -n 's/.*pub fn \(brawnesk_[a-z0-9_]*\)(.*/\1/p' bindings/rust/src/raw.rs | same_names bindings/rust/src/raw.rs

# The text of files in one line, without the marks of comments.
text() {
    sed -E 's#^ *(///|//!|/\*|\*/|\*)?##; s#\*/ *$##' "$@" | tr -s ' \n' ' '
}
# What the header says of lending, of the places of groups, of small letters, and of tags that no label carries, docs/CALLS.md and the crate
# say in the same words.
for words in 'What a call writes overlaps .* before it has written it\.' 'All 256 places of [^.]*\.' 'Small letters in a label[^.]*\.' \
    'A tag that no label carries, [^.]*\.'; do
    said=$(text include/brawnesk.h | grep -o "$words")
    text docs/CALLS.md | grep -qF "$said" || { echo "docs/CALLS.md does not say: $said"; exit 1; }
    text bindings/rust/src/*.rs | grep -qF "$said" || { echo "bindings/rust does not say: $said"; exit 1; }
done

cd bindings/rust
cargo test --release --offline --quiet
# Rust's test harness itself keeps 48 bytes of its main thread that valgrind counts as possibly lost: here only a sure leak is an error
if [ -n "$valgrind" ]; then
    CARGO_TARGET_X86_64_UNKNOWN_LINUX_GNU_RUNNER="$valgrind --errors-for-leak-kinds=definite --show-leak-kinds=definite" \
        cargo test --release --offline --quiet --tests
fi
cargo build --release --offline --quiet --examples
RUSTDOCFLAGS="-D warnings" cargo doc --no-deps --offline --quiet
# a program without std, which links only if the crate needs none
cd ../no_std
cargo build --release --offline --quiet
cd ../..

# The header and the crate have the same words for each number from 0 to 255.
warnings="-Wall -Wextra -Wpedantic -Wconversion -Werror"
gcc -std=c99 $warnings -Iinclude bindings/messages.c -o target/messages
diff <(target/messages) <(target/cargo/release/examples/messages)
# The header, the constants' names in it and a program that calls the library give no warning in three languages. Where there is no C++
# compiler, the last line says so.
for language in c99 c11; do
    gcc -std=$language $warnings -fsyntax-only -Iinclude bindings/messages.c examples/check.c
done
if command -v g++ >/dev/null; then
    g++ -x c++ -std=c++17 $warnings -fsyntax-only -Iinclude bindings/messages.c
    g++ -x c++ -std=c++17 $warnings -Iinclude examples/check.c -x none target/staticlib/libabi.a -o target/check-in-cpp
    target/check-in-cpp sample/cooperative.img | diff - sample/cooperative.out
else
    how="$how, WITHOUT a C++ compiler, which is not installed"
fi

gcc -std=c99 $warnings -Iinclude examples/check.c target/staticlib/libabi.a -o target/brawnesk-check
for example in report_loop calls maps write; do
    gcc -std=c99 $warnings -Iinclude examples/$example.c target/staticlib/libabi.a -o target/$example
done
# What a program prints under valgrind, and its exit status: 1 is its own, of a refusal, and 9 is valgrind's.
run() {
    local status=0
    $valgrind "$@" || status=$?
    echo "exit $status"
}
for loop in target/report_loop target/cargo/release/examples/report_loop; do
    $loop sample/cooperative.img sample/table.bin MARA | diff - sample/report_loop.out
    run $loop sample/cooperative.img sample/table.bin MARA | diff - <(cat sample/report_loop.out; echo "exit 0")
    # of the release profile: the rows that go to HUGO's partner
    run $loop sample/partners.img sample/partners.bin HUGO | diff - <(cat sample/partners.out; echo "exit 0")
    # refusals: no such user; 1,000 bytes are no whole blocks; 95 bytes are no whole rows
    test "$(run $loop sample/cooperative.img sample/table.bin NOBODY)" = $'refused 4\nexit 1'
    test "$(run $loop <(head -c 1000 sample/cooperative.img) sample/table.bin MARA)" = $'refused 1\nexit 1'
    test "$(run $loop sample/cooperative.img <(head -c 95 sample/table.bin) MARA)" = $'refused 12\nexit 1'
done

run target/cargo/release/brawnesk-no-std |
    diff - <(echo "MARA at CREW:KILN,GLAZE:NORTH with row label CREW:KILN:DOCK"; cat sample/report_loop.out; echo "exit 0")

# Maps baked into loops. Beside the sample: the same in edition 2, and the largest images, where a user without READ and FULL is asked for and
# one with either.
for words in 2 full '2 full'; do
    (cd tests && cargo run --release --offline --quiet --bin sample_image $words) >"target/maps-${words/ /-}.img"
done
# An image as a table of rows of 16 bytes. From byte 4 or 12 on every second label record of edition 1 begins a row, from byte 4 on every one
# of edition 2. Nearly all other rows have unknown tags.
as_table() {
    tail -c +$(($2 + 1)) "$1" | head -c 65008
}
# The loops are built in that folder, and nothing is left there.
folder=$PWD/target/maps-folder
rm -rf "$folder"
mkdir "$folder"
check_maps() {
    local -x TMPDIR=$folder
    local maps=$1 image user byte
    # KILN is given up, which tag 10 has
    for image in sample/cooperative.img target/maps-2.img; do
        run $maps $image sample/table.bin MARA CREW::DOCK CREW:GLAZE:NORTH | diff - <(cat sample/maps.out; echo "exit 0")
    done
    # GLAZE is given up, which no label has: the old map is still right
    diff <(run $maps sample/cooperative.img sample/table.bin MARA CREW:KILN:DOCK CREW:KILN:NORTH | tail -n 2) \
        <(printf 'failed: the old map is not refused 20\nexit 1\n')
    # of the release profile: STOCK is given up; OLGA has READ
    $maps sample/partners.img sample/partners.bin HUGO TRADE:PRICES:HARBOUR TRADE:PRICES:HARBOUR >/dev/null
    $maps sample/partners.img sample/partners.bin OLGA >/dev/null
    for user in BDCQSV _PP8; do
        for byte in 4 12; do $maps target/maps-full.img <(as_table target/maps-full.img $byte) $user >/dev/null; done
    done
    for user in NZ Y; do $maps target/maps-2-full.img <(as_table target/maps-2-full.img 4) $user >/dev/null; done
    # refusals: no such user; 1,000 bytes are no whole blocks; 95 bytes are no whole rows
    test "$(run $maps sample/cooperative.img sample/table.bin NOBODY)" = $'open: refused 4\nexit 1'
    test "$(run $maps <(head -c 1000 sample/cooperative.img) sample/table.bin MARA)" = $'open: refused 1\nexit 1'
    test "$(run $maps sample/cooperative.img <(head -c 95 sample/table.bin) MARA | tail -n 2)" = $'read: refused 12\nexit 1'
}
check_maps target/maps
check_maps target/cargo/release/examples/maps
rmdir "$folder"

# Records changed and written again. Beside the sample: the same in edition 2, and the release profile.
check_write() {
    local write=$1 image
    # GLAZE alone in the default label: the row label has KILN. Without KILN there too the image is written.
    for image in sample/cooperative.img target/maps-2.img; do
        run $write $image MARA CREW:GLAZE:NORTH CREW::DOCK | diff - <(cat sample/write.out; echo "exit 0")
    done
    # KILN alone, at VAULT: no verdict changes
    test "$(run $write sample/cooperative.img MARA VAULT:KILN:NORTH | tail -n 4)" = $'MARA 10 rw\nMARA 20 --\nMARA 30 r-\nexit 0'
    # of the release profile: STOCK is given up; and HUGO's groups to read are among his default groups
    test "$(run $write sample/partners.img HUGO TRADE:PRICES:HARBOUR | grep now)" = "HUGO 60 r-, now --"
    test "$(run $write sample/partners.img HUGO TRADE:PRICES | grep -c '^write: refused 34 at record 1, HUGO: \|^exit 1$')" = 2
    # refusals: no such user; a name that is no compartment; 1,000 bytes are no whole blocks
    test "$(run $write sample/cooperative.img NOBODY CREW | tail -n 2)" = $'open: refused 4\nexit 1'
    test "$(run $write sample/cooperative.img MARA CREW:OVEN | tail -n 2)" = $'parse: refused 6\nexit 1'
    test "$(run $write <(head -c 1000 sample/cooperative.img) MARA CREW)" = $'component_records: refused 1\nexit 1'
}
check_write target/write
check_write target/cargo/release/examples/write

target/calls sample/cooperative.img | diff - sample/calls.out
run target/calls sample/cooperative.img | diff - <(cat sample/calls.out; echo "exit 0")
run target/brawnesk-check sample/cooperative.img | diff - <(cat sample/cooperative.out; echo "exit 0")
# A refused image on standard input. Both programs tell the refusal as the report does, with its words after it (calls) or on standard error
# (brawnesk-check), where its name and the place in the file stand too.
refused_image() {
    local line=$1 number=${1#refused } name=BRAWNESK_$2 where=$3 words
    words=$(target/messages | sed -n "s/^${number%% *} //p")
    cat >target/refused.img
    diff <(run target/brawnesk-check target/refused.img 2>target/refused.txt) <(printf '%s\nexit 1\n' "$line")
    diff target/refused.txt <(printf '%s: %s\n%s' "$name" "$words" "${where:+$where$'\n'}")
    diff <(run target/calls target/refused.img) <(printf 'check: %s: %s\nexit 1\n' "$line" "$words")
}
# An image, if no other is named the sample, with another byte at an offset. In a block's check 0 and 255 count the same.
with_byte() {
    local image=${3:-sample/cooperative.img}
    head -c "$1" "$image"
    printf "$2"
    tail -c +$(($1 + 2)) "$image"
}
# The same, with the check of its block right again.
with_check() {
    local end=$(($1 / 512 * 512 + 510))
    with_byte "$@" >target/changed.img
    head -c $end target/changed.img
    printf "$(head -c $end target/changed.img | tail -c 510 | od -An -v -tu1 -w1 |
        awk '{ a = (a + $1) % 255; b = (b + a) % 255 } END { printf "\\%o\\%o", a, b }')"
    tail -c +$((end + 3)) target/changed.img
}
head -c 1000 sample/cooperative.img | refused_image 'refused 1' IMAGE_LENGTH '1000 bytes were read'
head -c 1024 sample/cooperative.img | refused_image 'refused 31' IMAGE_LAYOUT ''
with_byte 600 X | refused_image 'refused 2 at block 1' BLOCK_CHECK 'block 1, components, bytes 512 to 1023 of the file'
with_byte 1024 X | refused_image 'refused 2 at block 2' BLOCK_CHECK 'block 2, of no known kind, bytes 1024 to 1535 of the file'
with_byte 12 '\377' | refused_image 'refused 31' IMAGE_LAYOUT ''
with_byte 551 '\377' | refused_image 'refused 32 at block 1 record 0' COMPONENT_RECORD \
    'block 1, components, record 0, bytes 516 to 555 of the file: level OPEN'
with_byte 1057 '\377' | refused_image 'refused 33 at block 2 record 1' LABEL_RECORD \
    'block 2, labels, record 1, bytes 1052 to 1075 of the file: label of tag 20'
with_byte 1576 '\377' | refused_image 'refused 34 at block 3 record 0' USER_RECORD \
    'block 3, users, record 0, bytes 1540 to 1667 of the file: user MARA'
with_byte 750 '\0' | refused_image 'refused 35 at group 0' PARENT_RING \
    'block 1, components, record 5, bytes 716 to 755 of the file: group WORKS'
# no name, a small letter in one, no such class; and a user's name of 31 bytes
last='block 1, components, record 8, bytes 836 to 875 of the file'
with_check 837 '\0' | refused_image 'refused 32 at block 1 record 8' COMPONENT_RECORD "$last: group without a right name"
with_check 842 h | refused_image 'refused 32 at block 1 record 8' COMPONENT_RECORD "$last: group without a right name"
with_check 836 '\4' | refused_image 'refused 32 at block 1 record 8' COMPONENT_RECORD "$last: component of no known class SOUTH"
with_check 1540 '\37' | refused_image 'refused 34 at block 3 record 0' USER_RECORD \
    'block 3, users, record 0, bytes 1540 to 1667 of the file: user without a right name'
# edition 2
with_byte 1081 '\377' target/maps-2.img | refused_image 'refused 33 at block 2 record 1' LABEL_RECORD \
    'block 2, labels, record 1, bytes 1076 to 1123 of the file: label of tag 20'
with_byte 1576 '\377' target/maps-2.img | refused_image 'refused 34 at block 3 record 0' USER_RECORD \
    'block 3, users, record 0, bytes 1540 to 1739 of the file: user MARA'

grep -o 'brawnesk_[a-z0-9_]*(' examples/calls.c | tr -d '(' |
    grep -vx 'brawnesk_\(refused\|number\|place\|block\|record\|message\)' | sort -u | same_names examples/calls.c
# The lines of a page's C examples: indented blocks that are no declaration and no command.
quoted() {
    awk '
        !/^    / { block = 0; next }
        !block { block = 1; skip = /^    (gcc |cargo |uint64_t brawnesk_)/ }
        !skip { sub(/^ */, ""); print }'
}
# Compares the lines of a page's examples on standard input with those of the files that they are quoted from.
same_lines() {
    local page=$1 lines
    shift
    lines=$(quoted)
    test -n "$lines"
    if grep -vxF -f <(cat "$@" | sed 's/^ *//; /^$/d') <<<"$lines"; then
        echo "$page has these lines in its examples, and $* has not"
        exit 1
    fi
}
sed '/^## The report program/,$d' docs/CALLS.md | same_lines docs/CALLS.md examples/calls.c
same_lines docs/MAPS.md sample/maps.out examples/maps.c <docs/MAPS.md
same_lines docs/IMAGE.md sample/write.out examples/write.c <docs/IMAGE.md
echo "bindings: passed, $how"
