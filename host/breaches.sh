#!/bin/sh
# Every door of breaches.c makes one of the tests fail; and with no breach, through the same wrappers, none does. As many doors are tried at once as there
# are processors.
#   breaches.sh FOLDER RUN..                the folder with the tests that are linked with breaches.c, and what runs them
#   breaches.sh --door NAME FOLDER RUN..    one door alone
door=
[ "$1" != --door ] || { door=$2; shift 2; }
folder=$1
shift
host=$(dirname "$0")
said=$folder/broken_door_$door.txt
written=$folder/broken_door_$door.out

# Runs a test, and says its name where it fails. A test that fails says where, also with its output in a file.
try() {
    name=$1
    shift
    "$@" >"$said" 2>&1 && return
    if grep -q '^FAILED: .' "$said"; then printf ' %s' "$name"; else printf ' %s(wordless)' "$name"; fi
}

# The tests in the order in which they are tried: a door of the box that asks is mostly seen by the box's own.
tests() {
    case $door in query_* | reply_*) echo asking exchanges ;; esac
    echo refusals buffers check_values edges power_cut stations carried_over presets records ring_power_cut sides set_p reasons cases
    case $door in query_* | reply_*) ;; *) echo asking exchanges ;; esac
}

# The tests that fail, by name; of a door the first of them, or with VERBOSE all.
failing() {
    for test in $(tests); do
        case $test in
        set_p) seen=$(try "$test" "$@" "$folder/broken_rows" "$written" "case set P" <"$host/set_p.rows") ;;
        reasons) seen=$(try "$test" "$@" "$folder/broken_rows" "$written" "the reasons" <"$host/reasons.rows") ;;
        cases) seen=$(try "$test" "$@" "$folder/broken_rows" "$written" "cases" <"$host/../crates/cases/stdin") ;;
        *) seen=$(try "$test" "$@" "$folder/broken_$test") ;;
        esac
        printf '%s' "$seen"
        if [ -n "$seen" ] && [ -n "$door" ] && [ -z "$VERBOSE" ]; then return 0; fi
    done
}

unset BREACH
if [ -n "$door" ]; then
    caught=$(BREACH=$door; export BREACH; failing "$@")
    rm -f "$said" "$written"
    [ -n "$caught" ] || { echo "FAILED: no test sees the breach $door"; exit 1; }
    case $caught in *wordless*) echo "FAILED: at the breach $door a test fails and does not say where:$caught"; exit 1 ;; esac
    [ -z "$VERBOSE" ] || echo "$door:$caught"
    exit 0
fi

caught=$(failing "$@")
[ -z "$caught" ] || { echo "FAILED: no breach, and yet:$caught"; exit 1; }
doors=$(sed -n 's/.*breach_is("\([a-z0-9_]*\)").*/\1/p' "$host/breaches.c")
[ -n "$doors" ] || { echo "FAILED: breaches.c has no breach"; exit 1; }
printf '%s\n' "$doors" | xargs -P "$(nproc)" -I DOOR "$0" --door DOOR "$folder" "$@" || exit 1
echo "$(printf '%s\n' "$doors" | wc -l) doors that break their promise in one way each: every one is caught"
