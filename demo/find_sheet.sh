#!/bin/sh
# Prints the file of the sheet that SHEET names, from the repository's root: a file by its own name, or one of sheets/ by its short name or the
# beginning of it. Where there is none, or more than one, it says so, and the exit status is 1.

short_names() {
    for file in sheets/*.sheet; do
        basename "$file" .sheet
    done
}

# The short names that begin with SHEET.
names_begun() {
    short_names | while read -r name; do
        case $name in
        "$SHEET"*) echo "$name" ;;
        esac
    done
}

in_one_line() {
    tr '\n' ' ' | sed 's/ $//'
}

for file in "$SHEET" "sheets/$SHEET.sheet"; do
    if [ -e "$file" ] && [ ! -d "$file" ]; then
        printf '%s\n' "$file"
        exit 0
    fi
done
names=$(names_begun)
case $(names_begun | wc -l) in
0) echo "there is no sheet $SHEET. SHEET= takes the name of a file, or one of: $(short_names | in_one_line)" >&2 ;;
1) printf '%s\n' "sheets/$names.sheet" && exit 0 ;;
*) echo "more than one sheet begins with $SHEET. SHEET= takes one of: $(names_begun | in_one_line)" >&2 ;;
esac
exit 1
