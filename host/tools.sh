#!/bin/sh
# Looks for the tools that a test needs, and installs one that is missing where this may: as root on Debian, with a line that says so.
#   tools.sh FOLDER NEED..    each NEED is c, c++, nm, pkg-config, emulator, mbpoll, pymodbus or libmodbus; the folder is where a trial program is built
# CC, CXX, NM, RUN, STATIC and PYTHON come by the environment, as toolchain.mk has them; NATIVE_CC is this machine's own compiler, which libmodbus is for.
# Exit status: 0 all are there and work; 1 one does not, and a line says which and what to type; 2 the folder may not be written.
folder=$1
shift

is_there() {
    command -v "$1" >/dev/null 2>&1
}

trial() {
    printf '#include <stdio.h>\nint main(void) { return puts("") < 0; }\n'
}

# A C program is compiled, linked and run; only then the compiler is there.
why_no_c() {
    is_there "$CC" || { echo "no C compiler: $CC is not there"; return; }
    # shellcheck disable=SC2086 # STATIC and RUN are words, or nothing
    trial | "$CC" -x c - $STATIC -o "$folder/trial" 2>"$folder/trial.txt" \
        || { echo "the C compiler $CC makes no program: $(head -n 1 "$folder/trial.txt")"; return; }
    # shellcheck disable=SC2086
    $RUN "$folder/trial" >"$folder/trial.txt" 2>&1 || echo "a program of the C compiler $CC does not run here"
}

# C++ is compiled alone: the C compiler links it, because Debian's cross g++ cannot link statically.
why_no_cxx() {
    is_there "$CXX" || { echo "no C++ compiler: $CXX is not there"; return; }
    trial | "$CXX" -x c++ -c - -o "$folder/trial.o" 2>"$folder/trial.txt" \
        || echo "the C++ compiler $CXX makes no program: $(head -n 1 "$folder/trial.txt")"
}

# libmodbus is this machine's own, and so is a program with it.
why_no_libmodbus() {
    printf '#include <modbus/modbus.h>\nint main(void) { modbus_free(NULL); return 0; }\n' | "$NATIVE_CC" -x c - -lmodbus -o "$folder/trial" >/dev/null 2>&1 \
        || echo "$NATIVE_CC finds no libmodbus"
}

why_not() {
    case $1 in
    c) why_no_c ;;
    c++) why_no_cxx ;;
    nm) is_there "$NM" || echo "$NM is not there" ;;
    pkg-config) is_there pkg-config || echo "pkg-config is not there" ;;
    emulator) is_there qemu-x86_64 || echo "the emulator qemu-x86_64 is not there" ;;
    mbpoll) is_there mbpoll || echo "the master mbpoll is not there" ;;
    pymodbus) "$PYTHON" -c 'import serial; from pymodbus.client import ModbusSerialClient' >/dev/null 2>&1 || echo "$PYTHON has no pymodbus" ;;
    libmodbus) why_no_libmodbus ;;
    *) echo "tools.sh knows no tool $1" ;;
    esac
}

packages_of() {
    case $1,$(uname -m) in
    c,x86_64) echo gcc libc6-dev ;;
    c++,x86_64) echo g++ ;;
    nm,x86_64) echo binutils ;;
    c,*) echo gcc-x86-64-linux-gnu libc6-dev-amd64-cross ;;
    c++,*) echo g++-x86-64-linux-gnu ;;
    nm,*) echo binutils-x86-64-linux-gnu ;;
    pkg-config,*) echo pkg-config ;;
    emulator,*) echo qemu-user ;;
    mbpoll,*) echo mbpoll ;;
    pymodbus,*) echo python3-pymodbus python3-serial python3-serial-asyncio ;;
    libmodbus,*) echo gcc libc6-dev libmodbus-dev ;;
    esac
}

# Sets what is missing, a line each, and the packages that have it.
look() {
    reasons=''
    packages=''
    for need; do
        reason=$(why_not "$need")
        [ -n "$reason" ] || continue
        reasons="$reasons$reason
"
        packages="$packages $(packages_of "$need")"
    done
}

may_install() {
    [ "$(id -u)" = 0 ] && [ -e /etc/debian_version ] && is_there apt-get
}

# A network that is not there is soon given up.
install_packages() {
    quick="-q -o Acquire::Retries=0 -o Acquire::http::Timeout=20"
    echo "installing with apt-get:$packages" >&2
    # shellcheck disable=SC2086 # options and packages are words
    { timeout 120 apt-get $quick update && DEBIAN_FRONTEND=noninteractive timeout 600 apt-get install --yes --no-install-recommends $quick $packages; } \
        >"$folder/install.txt" 2>&1 || echo "apt-get failed; $folder/install.txt has what it said" >&2
}

if ! { mkdir -p "$folder" && touch "$folder/trial.txt"; } 2>/dev/null; then
    echo "the folder ${folder#../} may not be written" >&2
    exit 2
fi
case "$RUN $*" in
" "*) ;; # nothing runs the programs but the host itself
*emulator*) ;;
*) set -- emulator "$@" ;;
esac
look "$@"
[ -n "$reasons" ] || exit 0
if may_install; then
    install_packages
    look "$@"
    [ -n "$reasons" ] || exit 0
fi
printf '%sto have it, type: apt-get install --yes --no-install-recommends%s\n' "$reasons" "$packages" >&2
exit 1
