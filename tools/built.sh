#!/bin/sh
# Proves and builds what C programs are linked with or run beside, and puts it where they look for it.
#   tools/built.sh archive         target/staticlib/libcedarskein.a, of the crate cedarskein_c
#   tools/built.sh program NAME    target/bin/NAME
# Exit status: that of rt, whose own words say what it lacks; 1 where it built nothing.
cd "$(dirname "$0")/.." || exit 1

case $1 in
archive)
    (cd crates/cedarskein_c && rt lib) || exit
    mkdir -p target/staticlib && cp crates/cedarskein_c/out/libcedarskein_c.a target/staticlib/libcedarskein.a
    ;;
program)
    # rt builds a program where it runs it. What the program says of no input, and its exit status, are not wanted here.
    rm -f "crates/$2/out/$2"
    said=$(cd "crates/$2" && rt run </dev/null 2>&1)
    [ -x "crates/$2/out/$2" ] || { echo "$said"; exit 1; }
    mkdir -p target/bin && cp "crates/$2/out/$2" "target/bin/$2"
    ;;
*)
    echo "built.sh archive, or built.sh program NAME" >&2
    exit 2
    ;;
esac
