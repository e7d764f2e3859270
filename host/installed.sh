#!/bin/sh
# The library as it is installed: a C program is built with what pkg-config says and writes what it should, the man page is read without a complaint,
# and after uninstalling no file is left.
#   installed.sh FOLDER EXPECTED    the folder to install in, and a file with what shortest.c writes. CC, RUN and STATIC come by the environment.
folder=$1
expected=$2
host=$(cd "$(dirname "$0")" && pwd)

fail() {
    echo "FAILED: $1" >&2
    exit 1
}

rm -rf "$folder"
mkdir -p "$folder/stage"
PREFIX=$(cd "$folder" && pwd)/prefix
DESTDIR=''
export PREFIX DESTDIR
(cd "$host/.." && tools/install.sh install) >/dev/null || fail "make install"

PKG_CONFIG_PATH=$PREFIX/lib/pkgconfig
export PKG_CONFIG_PATH
# shellcheck disable=SC2046,SC2086 # the flags are words
$CC "$host/shortest.c" $(pkg-config --cflags --libs cedarskein) $STATIC -o "$folder/shortest" || fail "shortest.c is not built by pkg-config's flags"
# shellcheck disable=SC2086
$RUN "$folder/shortest" | cmp - "$expected" || fail "shortest.c writes something else with the installed library"
version=$(sed -n 's/^#define CEDARSKEIN_VERSION "\(.*\)"/\1/p' "$host/../include/cedarskein.h")
[ "$(pkg-config --modversion cedarskein)" = "$version" ] || fail "pkg-config has another version than the header"
sheets=$(pkg-config --variable=sheetdir cedarskein)
cmp "$sheets/ux15_25.sheet" "$host/../sheets/ux15_25.sheet" || fail "the installed sheet"

if command -v man >/dev/null; then
    said=$(MANWIDTH=100 man --warnings -l "$PREFIX/share/man/man3/cedarskein.3" 2>&1 >"$folder/page.txt")
    [ -z "$said" ] || fail "the man page: $said"
    for function in $(cd "$host/.." && python3 tools/manpage.py functions); do
        grep -q "$function(" "$folder/page.txt" || fail "the man page has no $function"
    done
    # each number with its meaning: of the first and the last reason, those behind them in the header
    sed -n 's/^ *\(CEDARSKEIN_[A-Z_]*\) = \([0-9]*\).*/\1 (\2)/p' "$host/../include/cedarskein.h" >"$folder/entries.txt"
    while read -r entry; do
        grep -qF "$entry" "$folder/page.txt" || fail "the man page has no $entry"
    done <"$folder/entries.txt"
    grep -A1 -F "CEDARSKEIN_TOO_SHORT (1)" "$folder/page.txt" | grep -q "under 4 bytes" || fail "the man page tells too short otherwise than the header"
    grep -A1 -F "CEDARSKEIN_ITEM (10)" "$folder/page.txt" | grep -q "out of its range" || fail "the man page tells the item otherwise than the header"
    grep -A1 -F "CEDARSKEIN_TOO_LOW (1)" "$folder/page.txt" | grep -q "below the item's low bound" || fail "the man page tells too low otherwise than the header"
    grep -A1 -F "CEDARSKEIN_WRITES (3)" "$folder/page.txt" | grep -q "registers, by 10" || fail "the man page tells writes otherwise than the header"
    grep -q "^ \{25,\}20 to 26  *the presets" "$folder/page.txt" || fail "the man page has the places of the presets in another column than the header"
    grep -A1 -F "CEDARSKEIN_NO_FRAME (9)" "$folder/page.txt" | grep -q "has no frame in 100 bytes" || fail "the man page tells 9 otherwise than the header"
fi

(cd "$host/.." && tools/install.sh uninstall) >/dev/null || fail "make uninstall"
left=$(find "$PREFIX" -type f -o -type l)
[ -z "$left" ] || fail "uninstalling leaves $left"
echo "installed: the README's program by pkg-config's flags, the sheets and the man page of the header; uninstalled: nothing is left"
