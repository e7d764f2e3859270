#!/bin/sh
# Installs the library for C programs, or removes what was installed. From the repository's root:
#   install.sh install|uninstall    under PREFIX, in front of which DESTDIR is put; both come by the environment
archive=target/staticlib/libcedarskein.a
root=$DESTDIR$PREFIX
made=$(mktemp -d) || exit 1
trap 'rm -rf "$made"' EXIT

# Each file that is installed: where it comes from, and where it goes under the prefix.
files() {
    echo "$archive lib/libcedarskein.a"
    echo "$made/cedarskein.pc lib/pkgconfig/cedarskein.pc"
    for header in include/*.h; do
        echo "$header $header"
    done
    for sheet in sheets/*; do
        echo "$sheet share/cedarskein/${sheet#sheets/}"
    done
    echo "$made/cedarskein.3 share/man/man3/cedarskein.3"
    for function in $(python3 tools/manpage.py functions); do
        echo "$made/see.3 share/man/man3/$function.3"
    done
}

folders() {
    files | sed 's/.* //; s|/[^/]*$||' | sort -u
}

version() {
    sed -n 's/^#define CEDARSKEIN_VERSION "\(.*\)"/\1/p' include/cedarskein.h
}

pkg_config_file() {
    cat <<END
prefix=$PREFIX
libdir=\${prefix}/lib
includedir=\${prefix}/include
sheetdir=\${prefix}/share/cedarskein

Name: cedarskein
Description: The registers of a Modbus gas flowmeter, for its C firmware (x86-64 Linux)
Version: $(version)
Cflags: -I"\${includedir}"
Libs: -L"\${libdir}" -lcedarskein
END
}

fail() {
    echo "$1" >&2
    exit 1
}

# All folders first: where one may not be written, no file is.
make_folders() {
    folders | while read -r folder; do
        { mkdir -p "$root/$folder" && [ -w "$root/$folder" ]; } 2>/dev/null || fail "$root/$folder may not be written. Nothing was installed"
    done
}

install_all() {
    [ -f "$archive" ] || fail "$archive is not there"
    { pkg_config_file >"$made/cedarskein.pc" && python3 tools/manpage.py >"$made/cedarskein.3"; } || exit 1
    echo ".so man3/cedarskein.3" >"$made/see.3"
    make_folders || exit 1
    files | while read -r from to; do
        install -m 644 "$from" "$root/$to" || exit 1
    done || exit 1
    echo "installed under $root"
}

# Files of this library alone; a folder goes only where it is the library's own, and empty.
uninstall_all() {
    files | while read -r _ to; do
        rm -f "$root/$to" || exit 1
    done || exit 1
    rmdir "$root/share/cedarskein" 2>/dev/null
    echo "removed from $root"
}

case $PREFIX in
/*) ;;
*) fail "PREFIX=$PREFIX is no folder's whole name: it begins with /" ;;
esac
case $1 in
install) install_all ;;
uninstall) uninstall_all ;;
*) fail "usage: install.sh install|uninstall" ;;
esac
