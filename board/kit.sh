#!/bin/sh
# The kit's compiler, and the module that the proved build hands to it.
#   kit.sh tools                     prints the folder of the kit's clang and llvm-ar
#   kit.sh keep FOLDER COMMAND ..    runs a command of rt over a kit whose clang keeps a copy of what it is handed, FOLDER/module.bc, and then is the kit's
#                                    own clang. That kit is FOLDER/kit, of links to the installed one, in which nothing is changed
# Exit status: of tools 1 where the kit is laid out otherwise, and a line says how; of keep that of the command, which runs over the installed kit as it is
# where no module can be kept: then there is none.
machine=$(uname -m)
home=${RATTLE_HOME:-$(dirname "$(dirname "$(readlink -f "$(command -v rt)")")")}
tools=$home/on/$machine/toolchain/bin

# Links to everything in one folder but one name, in another folder.
link_all_but() {
    mkdir -p "$2"
    for entry in "$1"/*; do
        [ "${entry##*/}" = "$3" ] || ln -s "$entry" "$2/"
    done
}

make_kit() {
    rm -rf "$1" && link_all_but "$home" "$1" on && link_all_but "$home/on/$machine" "$1/on/$machine" toolchain \
        && link_all_but "$home/on/$machine/toolchain" "$1/on/$machine/toolchain" bin && link_all_but "$tools" "$1/on/$machine/toolchain/bin" clang
}

# The clang that keeps a copy. What it keeps it first writes beside, so that half a module is never taken for one.
keeping_clang() {
    cat <<END
#!/bin/sh
for word; do
    case \$word in *.bc) cp "\$word" "$1.new" && mv "$1.new" "$1" ;; esac
done
exec "$tools/clang" "\$@"
END
}

is_known() {
    [ -x "$tools/clang" ] && [ -x "$tools/llvm-ar" ]
}

case $1 in
tools)
    is_known || { echo "the kit at $home has no clang and llvm-ar in on/$machine/toolchain/bin: archives for boards are made with kits that have" >&2; exit 1; }
    echo "$tools"
    ;;
keep)
    mkdir -p "$2" && folder=$(cd "$2" && pwd -P) || exit 1
    shift 2
    rm -f "$folder/module.bc"
    is_known && make_kit "$folder/kit" && keeping_clang "$folder/module.bc" >"$folder/kit/on/$machine/toolchain/bin/clang" \
        && chmod +x "$folder/kit/on/$machine/toolchain/bin/clang" && export RATTLE_HOME="$folder/kit"
    exec "$@"
    ;;
*)
    echo "kit.sh tools, or kit.sh keep FOLDER COMMAND .." >&2
    exit 2
    ;;
esac
