# Sourced by the scripts that run or build x86-64 code. On an x86-64 machine such code runs as it is and the machine's own C compiler makes it; on
# another the toolchain's emulator runs it, and the toolchain's compiler and C library make it, where the toolchain has them: the one that the README
# names has no emulator. Sets
#
#   emulate     the words before the name of an x86-64 program that start it here
#   compiler    the C compiler
#   before      what the linker needs before the rest, where it has to be told everything
#   after       and after it
#
# The script that sources it has a function `missing`, which is told in words what is not there.

emulate=()
compiler=(cc)
before=()
after=()

# look_for WHAT PATH
look_for() {
    [ -e "$2" ] && return
    missing "$1, expected at $2"
    return 1
}

use_toolchain() {
    local doc folder tools libs
    if ! doc="$(rt doc 2>/dev/null)"; then
        missing "the command rt"
        return
    fi
    folder="$(dirname "$(dirname "$doc")")/on/$(uname -m)/toolchain"
    tools="$folder/bin"
    libs="$folder/lib"
    look_for "clang of the Rattle toolchain" "$tools/clang"
    look_for "ld.lld of the Rattle toolchain" "$tools/ld.lld"
    look_for "the emulator of the Rattle toolchain" "$tools/qemu-x86_64"
    look_for "the C library of the Rattle toolchain" "$libs/libc.so.6"
    emulate=("$tools/qemu-x86_64" "$libs/ld-linux-x86-64.so.2" --library-path "$libs")
    compiler=("$tools/clang" --target=x86_64-linux-gnu "--ld-path=$tools/ld.lld")
    compiler+=(-fPIE -pie -nostdlib -nostdinc)
    # The toolchain has no C headers. Those of this machine agree with it in all that is used here.
    while read -r folder; do
        compiler+=(-isystem "$folder")
    done < <(LC_ALL=C cc -E -v -x c /dev/null 2>&1 | sed -n '/^#include </,/^End/s/^ //p')
    before=("$libs/Scrt1.o" "$libs/crti.o" "$libs/crtbeginS.o")
    after=("$libs/libc.so.6" "$libs/libc_nonshared.a" "$libs/libgcc.a")
    after+=("$libs/crtendS.o" "$libs/crtn.o")
}

[ "$(uname -m)" = x86_64 ] || use_toolchain
