# shellcheck shell=bash
# How this machine runs x86-64 programs, and what it lacks to build them. To be sourced, from the repository's folder.
# The planner is x86-64, and so is the kit: elsewhere Debian's cross compiler builds its hosts, and Debian's emulator runs them.
#
#   ${cross}gcc, ${cross}g++    compilers that build for x86-64
#   "${emulator[@]}"            stands before a static x86-64 program to run it; empty on x86-64
#   find_loader                 leaves in "${loader[@]}" what stands before a program that `rt run` has linked
#   need PACKAGE THING..        installs the Debian package where one of these files or commands is missing
#   need_compilers              the two compilers, with a C library to link
#   need_rust                   rustc, with a linker for it
#   need_kit                    the Rattle kit; nothing installs it

kit() { dirname "$(rt doc)"; }

cross=
emulator=()
if [ "$(uname -m)" != x86_64 ]; then
    cross=x86_64-linux-gnu-
    # shellcheck disable=SC2034  # for the script that sources this
    emulator=(qemu-x86_64)
fi

# A linked program wants the kit's own loader and C library.
find_loader() {
    local lib
    lib=$(kit)/toolchain/lib
    # shellcheck disable=SC2034  # for the script that sources this
    loader=("${emulator[@]}" "$lib/ld-linux-x86-64.so.2" --library-path "$lib")
}

need_kit() {
    command -v rt > /dev/null && return
    echo "$0: needs the Rattle kit (the command rt), which proves and builds the planner; planning by ./plan does not" >&2
    exit 2
}

need() {
    local package=$1 thing
    shift
    for thing in "$@"; do
        [ -e "$thing" ] || command -v "$thing" > /dev/null || { install_package "$package"; return; }
    done
}

install_package() {
    local log
    if [ "$(id -u)" != 0 ]; then
        echo "$0: needs Debian's package $1: sudo apt-get install $1" >&2
        exit 2
    fi
    echo "$0: installing Debian's package $1" >&2
    log=$(mktemp)
    if ! { apt-get install -y --no-install-recommends "$1" ||
        { apt-get update && apt-get install -y --no-install-recommends "$1"; }; } > "$log" 2>&1; then
        tail -n 20 "$log" >&2
        echo "$0: Debian's package $1 is needed and could not be installed" >&2
        rm -f "$log"
        exit 2
    fi
    rm -f "$log"
}

need_compilers() {
    if [ -z "$cross" ]; then
        need g++ gcc g++
        need libc6-dev /usr/include/stdlib.h
    else
        need g++-x86-64-linux-gnu "${cross}gcc" "${cross}g++"
        need libc6-dev-amd64-cross /usr/x86_64-linux-gnu/lib/libc.a
    fi
}

need_rust() {
    need gcc cc
    need rustc rustc
}
