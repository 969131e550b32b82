#!/bin/sh
# Builds the library for C: cppunits.h, libcppunits.a, libcppunits.so and cppunits.pc.
#
#     scripts/library.sh [--checked] [DIRECTORY [PREFIX]]
#
# The files go to DIRECTORY, without one to crates/cppunits_c/out/library.  cppunits.pc says that they are in include/ and lib/
# of PREFIX, without one that they are where they are.  `rt lib` proves the crates below and the exports, and compiles
# them.  With --checked, the crates below are taken as `rt ci` has proved and left them in crates/*/out, and only the exports
# are proved again.  That fails with status 3 if these don't fit together, since some are of other checks.
set -e
cd "$(dirname "$0")/.."
top=$PWD
kit=$(dirname "$(rt doc)")
checked=
if [ "${1:-}" = --checked ]; then
    checked=1
    shift
fi
into=${1:-crates/cppunits_c/out/library}
mkdir -p "$into"
into=$(cd "$into" && pwd)
made=$(mktemp -d)
trap 'rm -rf "$made"' EXIT

# Proves and compiles the exports, over the libraries that `rt ci` left.
build_checked() {
    set -- --extern "std=$kit/rlibs/std.rlib" -L "dependency=$kit/rlibs"
    for name in $(sed -n 's/^cppunits_c staticlib: //p' "$top/crates.txt"); do
        set -- "$@" --extern "$name=$top/crates/$name/out/rlib/$name.rlib"
    done
    for rlib in "$top"/crates/*/out/rlib; do
        set -- "$@" -L "dependency=$rlib"
    done
    "$kit/bin/rattle" build --crate-name cppunits_c src/lib.rt "$@" --antt-project "$kit/rattle/logic/antt-project.json" \
        --logic-built "$kit/logic_built" --links cppunits_c= --crate-type staticlib --toolchain "$kit/toolchain" --backend llvm \
        -o out/libcppunits_c.a
}

cd crates/cppunits_c
mkdir -p out
if [ ! "$checked" ]; then
    rt lib
elif ! build_checked; then
    echo "library.sh: the crates in crates/*/out don't fit together: run it without --checked" >&2
    exit 3
fi
proved=$PWD/out/libcppunits_c.a
cd "$top/library"

# one object, which exports nothing but the calls of the header
cc -O2 -fPIC -Wall -Wextra -c cppunits.c -o "$made/calls.o"
ld -r -o "$made/cppunits.o" "$made/calls.o" --whole-archive "$proved" "$kit/c/liblibc_c.a"
objcopy --keep-global-symbol=cppunits_print "$made/cppunits.o"
rm -f "$into/libcppunits.a"
ar rcs "$into/libcppunits.a" "$made/cppunits.o"
cc -shared -Wl,-z,defs -Wl,--gc-sections -o "$into/libcppunits.so" "$made/cppunits.o"
cp cppunits.h "$into"
if [ $# -gt 1 ]; then
    sed "s|@INCLUDE@|$2/include|; s|@LIB@|$2/lib|" cppunits.pc.in > "$into/cppunits.pc"
else
    sed "s|@INCLUDE@|$into|; s|@LIB@|$into|" cppunits.pc.in > "$into/cppunits.pc"
fi
