#!/usr/bin/env bash
# What `make install` and `make release` put where: these files and no others; the examples build with the flags that pkg-config tells and
# print what is stored; the crate links the installed library; brawnesk-check tells accepted, refused and bad usage by its exit status; the
# installed report program reports; a release is archive, header and right sums. Needs target/staticlib/libabi.a and target/bin/report.
set -eEu -o pipefail
trap 'echo "scripts/check-install.sh: line $LINENO failed"' ERR
cd "$(dirname "$0")/.."
folder=$PWD/target/installed
rm -rf "$folder"
make --silent install DESTDIR= PREFIX="$folder"
diff - <(cd "$folder" && find . -type f | sort) <<'END'
./bin/brawnesk-check
./bin/brawnesk-report
./include/brawnesk.h
./lib/libbrawnesk.a
./lib/pkgconfig/brawnesk.pc
END
cmp target/staticlib/libabi.a "$folder/lib/libbrawnesk.a"
version=$(printf '#include <brawnesk.h>\nBRAWNESK_VERSION_MAJOR.BRAWNESK_VERSION_MINOR\n' | gcc -E -P -I"$folder/include" - | tail -n 1 | tr -d ' ')

# Where there is no pkg-config, its answers are read off the file.
ask() {
    if command -v pkg-config >/dev/null; then
        PKG_CONFIG_PATH=$folder/lib/pkgconfig pkg-config "$1" brawnesk
    else
        local field
        case $1 in --cflags) field=Cflags ;; --libs) field=Libs ;; --modversion) field=Version ;; esac
        sed -n "s/^$field: //p" "$folder/lib/pkgconfig/brawnesk.pc" | sed "s|\${[a-z]*dir}|$folder/&|; s|\${includedir}|include|; s|\${libdir}|lib|"
    fi
}
test "$(ask --modversion)" = "$version"
read -ra cflags <<<"$(ask --cflags)"
read -ra libs <<<"$(ask --libs)"
for example in check report_loop calls maps write; do
    gcc -std=c99 -O2 -Wall -Wextra -Wpedantic -Wconversion -Werror "${cflags[@]}" "examples/$example.c" "${libs[@]}" -o "$folder/$example"
done
"$folder/check" sample/cooperative.img | diff - sample/cooperative.out
"$folder/report_loop" sample/cooperative.img sample/table.bin MARA | diff - sample/report_loop.out
"$folder/calls" sample/cooperative.img | diff - sample/calls.out
"$folder/maps" sample/cooperative.img sample/table.bin MARA CREW::DOCK CREW:GLAZE:NORTH | diff - sample/maps.out
"$folder/write" sample/cooperative.img MARA CREW:GLAZE:NORTH CREW::DOCK | diff - sample/write.out
# the prefix is the last place, also where the files are first put elsewhere
make --silent install DESTDIR="$folder/stage" PREFIX=/opt/brawnesk
grep -qx 'prefix=/opt/brawnesk' "$folder/stage/opt/brawnesk/lib/pkgconfig/brawnesk.pc"

(cd bindings/rust && CARGO_TARGET_DIR=$folder/cargo BRAWNESK_LIB_DIR=$folder/lib cargo build --release --offline --quiet --example report_loop)
"$folder/cargo/release/examples/report_loop" sample/cooperative.img sample/table.bin MARA | diff - sample/report_loop.out

"$folder/bin/brawnesk-report" <sample/cooperative.img | diff - crates/report/stdout
# Runs brawnesk-check: exit status, standard output, standard error.
check() {
    local status=0
    "$folder/bin/brawnesk-check" "$@" >"$folder/out" 2>"$folder/err" || status=$?
    echo "$status $(wc -l <"$folder/out") $(wc -l <"$folder/err")"
}
test "$(check sample/cooperative.img)" = "0 10 0"
diff "$folder/out" sample/cooperative.out
test "$(check <sample/partners.img)" = "0 9 0"
head -c 1000 sample/cooperative.img >"$folder/cut.img"
test "$(check "$folder/cut.img")" = "1 1 2"
test "$(cat "$folder/out")" = "refused 1"
grep -q '^BRAWNESK_IMAGE_LENGTH: .*65,536 bytes$' "$folder/err"
grep -qx '1000 bytes were read' "$folder/err"
test "$(check <"$folder/cut.img")" = "1 1 2"
test "$(check --quiet "$folder/cut.img")" = "1 0 0"
test "$(check "$folder/cut.img" --quiet)" = "1 0 0"
test "$(check --quiet <sample/cooperative.img)" = "0 0 0"
test "$(head -c 70000 /dev/zero | check)" = "1 1 2"
grep -qx 'at least 65537 bytes were read' "$folder/err"
# bad usage, and what cannot be read or written
test "$(check sample/cooperative.img sample/partners.img)" = "2 0 3"
test "$(check --unknown)" = "2 0 3"
test "$(check "$folder/none.img")" = "2 0 1"
test "$(check "$folder")" = "2 0 1"
test "$(check --help)" = "0 3 0"
test "$(check --version)" = "0 1 0"
test "$(cat "$folder/out")" = "brawnesk-check $version"
test "$("$folder/bin/brawnesk-check" sample/cooperative.img 2>/dev/null >/dev/full || echo $?)" = 2

make --silent release >/dev/null
release=target/release/brawnesk-$version
test "$(ls "$release" | tr '\n' ' ')" = "SHA256SUMS brawnesk.h libbrawnesk.a "
(cd "$release" && sha256sum --check --strict --quiet SHA256SUMS)
test "$(wc -l <"$release/SHA256SUMS")" = 2
cmp target/staticlib/libabi.a "$release/libbrawnesk.a"
cmp include/brawnesk.h "$release/brawnesk.h"
echo "install: passed, version $version"
