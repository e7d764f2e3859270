#!/bin/sh
# A box that only asks has room for its own half: asks_only.c is linked with --gc-sections and without, and of the functions that take a sheet none may
# be left in the first. What each has of the archive's code and constants is read off the linker's map.
#   asks_only.sh FOLDER ARCHIVE    the folder to build in, and the archive. CC, FLAGS, NM, RUN and STATIC come by the environment.
folder=$1
archive=$2
host=$(dirname "$0")
expected='sent: 01 03 02 04 00 06 85 B1
total volume: 12345.67 m3
trip volume: 123.45 m3'

fail() {
    echo "FAILED: $1" >&2
    exit 1
}

# The program by its name, with these options, and what it writes.
link() {
    program=$folder/$1
    shift
    # shellcheck disable=SC2086 # the flags are words
    $CC $FLAGS "$host/asks_only.c" "$archive" $STATIC "$@" -Wl,-Map="$program.map" -o "$program" || fail "asks_only.c is not linked"
    # shellcheck disable=SC2086
    [ "$($RUN "$program")" = "$expected" ] || fail "asks_only.c writes something else"
}

# The bytes of code and constants that a program has of the archive: the sections of its objects that the map places.
bytes_of() {
    echo "$(($(awk -v object="$(basename "$archive")(" '/^Linker script and memory map/ { placed = 1 } /^ \.[a-z]/ { section = $1 }
        placed && section ~ /^\.(text|rodata)/ && index($0, object) { printf "%s + ", $(NF - 1) } END { print 0 }' "$folder/$1.map")))"
}

# The functions that take a sheet, of those that a program has.
of_the_meter() {
    sed -n 's/^uint32_t \(cedarskein_[a-z_]*\)(const uint8_t \*sheet.*/\1/p' "$host/../include/cedarskein.h" | sort >"$folder/of_the_meter.txt"
    "$NM" --format=posix "$folder/$1" | sed 's/ .*//' | sort | comm -12 - "$folder/of_the_meter.txt"
}

link asks_whole
link asks_only -Wl,--gc-sections
[ -n "$(of_the_meter asks_whole)" ] || fail "asks_only.c has nothing of the meter's half even without --gc-sections: the archive is in parts"
left=$(of_the_meter asks_only)
[ -z "$left" ] || fail "with --gc-sections the program that only asks still has $(echo "$left" | tr '\n' ' ')"
only=$(bytes_of asks_only)
whole=$(bytes_of asks_whole)
[ "$only" -gt 0 ] || fail "the linker's map does not tell what the program has of the archive"
[ "$only" -le 2048 ] || fail "a box that only asks has $only bytes of the archive, more than the header's 2 KiB"
[ "$((whole - only))" -le 12288 ] || fail "a meter has $((whole - only)) bytes of the archive, more than the header's 12 KiB"
[ "$only" -lt "$whole" ] || fail "the program that only asks has $only bytes of the archive with --gc-sections, and $whole without"
echo "a box that only asks: $only bytes of the archive's code and constants with --gc-sections, $whole without, and nothing of the meter's half"
