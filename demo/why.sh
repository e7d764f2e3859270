#!/bin/sh
# Tells why a meter is silent or answers with an error, for the sheet, the bank, the ring and the frame that `make why` was given, from the repository's root:
#   why.sh WHY..    the words that start the program. SHEET, BANK, RING and FRAME come by the environment, since a name may have blanks.
sheet=$(demo/find_sheet.sh) || exit 2
[ -z "$BANK" ] || set -- "$@" -b "$BANK"
[ -z "$RING" ] || set -- "$@" -r "$RING"
[ -z "$FRAME" ] || set -- "$@" -f "$FRAME"
exec "$@" -- "$sheet"
