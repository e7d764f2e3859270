#!/bin/sh
# Asks a meter over a serial line, with the line, the order, the station, the rate and the sheet that `make ask` was given, from the repository's root:
#   ask.sh ASK..    the words that start the program. LINK, ORDER, STATION, RATE and SHEET come by the environment, since a name may have blanks.
sheet=$(demo/find_sheet.sh) || exit 2
[ -z "$LINK" ] || set -- "$@" -l "$LINK"
[ -z "$ORDER" ] || set -- "$@" -o "$ORDER"
[ -z "$STATION" ] || set -- "$@" -s "$STATION"
[ -z "$RATE" ] || set -- "$@" -r "$RATE"
exec "$@" -- "$sheet"
