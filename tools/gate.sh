#!/bin/sh
# The gate: rt ci over every crate, which also passes where an edit of must-fail/ could not be tried. Here such a one fails it. Its last line is rt's own.
cd "$(dirname "$0")/.." || exit 1
said=$(mktemp) || exit 1
trap 'rm -f "$said" "$said.status"' EXIT
{ rt ci 2>&1; echo $? >"$said.status"; } | tee "$said"
status=$(cat "$said.status")
if grep -q '^rt: ok.*[^0-9]\(0*[1-9][0-9]*\) bad' "$said"; then
    echo "FAILED: an edit of must-fail/ no longer fits its file"
    exit 1
fi
exit "$status"
