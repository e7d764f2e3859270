#!/bin/sh
# Runs the simulated meter with the sheet, the link, the files and the seconds that `make meter` was given, from the repository's root:
#   meter.sh METER..    the words that start the meter. SHEET, LINK, BANK, RING and EVERY come by the environment, since a name may have blanks.
sheet=$(demo/find_sheet.sh) || exit 1
[ -z "$LINK" ] || set -- "$@" -l "$LINK"
[ -z "$BANK" ] || set -- "$@" -b "$BANK"
[ -z "$RING" ] || set -- "$@" -r "$RING"
[ -z "$EVERY" ] || set -- "$@" -e "$EVERY"
exec "$@" -- "$sheet"
