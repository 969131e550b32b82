#!/bin/sh
# Test what untrusted input may do: out of memory, cut texts and lists, limits, streams and files that fail, small stacks,
# names chosen to collide, and cost that must grow as the work does.  The full check, tests/all.sh, has these parts of it: the
# program out of memory, cut texts and lists, limits that take no seconds, all depths at once in a small stack, and streams and
# files that fail.
#
#     tests/hostile.sh [--full] [PROGRAM]     PROGRAM is by default crates/cppunits/out/cppunits
#
# Use --full to measure the growth of cost at the sizes of bench/shapes.py; without it they are mostly a quarter.
#
# Each part prints what it did, and its whole output if it failed.  The tests of a crate run out of memory if `rt test` or
# `rt ci` built them; otherwise a line says so.  It takes some minutes, more with these parts, up to 2 GB of memory and 300 MB
# of a directory for temporary files, and leaves no files.  It needs Python 3 and gcc.
#
# status:
#   0  no part failed
#   1  a part failed, and is named at the end
#   2  the program isn't there
sizes=--quick
if [ "${1:-}" = --full ]; then
    sizes=
    shift
fi
case ${1:-/} in
    -h | --help)
        sed -n '2,/^case/s/^# \{0,1\}//p' "$0"
        exit 0
        ;;
    /*) ;;
    *) set -- "$PWD/$1" ;;
esac
cd "$(dirname "$0")/.." || exit 2
program=${1:-$PWD/crates/cppunits/out/cppunits}
if [ ! -x "$program" ]; then
    echo "hostile.sh: $program isn't there: build it by \`rt run\` in crates/cppunits, or name another" >&2
    exit 2
fi
kept=$(mktemp -d) || exit 2
trap 'rm -rf "$kept"' EXIT
trap 'exit 1' HUP INT TERM
TMPDIR=$kept PYTHONDONTWRITEBYTECODE=1
export TMPDIR PYTHONDONTWRITEBYTECODE
: > "$kept/short"
passed=0
failed=0

# Runs a part and adds the counts of its last line; a part that fails and counts no failure counts as one failure.
part() {
    named=$1
    shift
    began=$(date +%s)
    "$@" > "$kept/log" 2>&1
    status=$?
    counts=$(tail -n 1 "$kept/log" | sed -n 's/^\([0-9][0-9]*\) passed, \([0-9][0-9]*\) failed$/\1 \2/p')
    set -- ${counts:-0 0}
    [ "$status" -ne 0 ] && [ "$2" -eq 0 ] && set -- "$1" 1
    passed=$((passed + $1))
    failed=$((failed + $2))
    printf '%s: %d passed, %d failed, %d seconds\n' "$named" "$1" "$2" $(($(date +%s) - began))
    grep '^missed: ' "$kept/log"
    [ "$2" -eq 0 ] && return
    cat "$kept/log"
    printf '%s\n' "$named" >> "$kept/short"
}

part "refused memory" python3 tests/refused_memory.py "$program"
for folder in crates/*/; do
    crate=$(basename "$folder")
    grep -qr '#\[test\]' "${folder}src" || continue
    if [ -x "crates/$crate/out/${crate}_tests" ]; then
        part "refused memory in the tests of $crate" python3 tests/refused_in_tests.py "$crate"
    else
        echo "missed: refused memory in the tests of $crate: crates/$crate/out/${crate}_tests is missing (\`rt test\` in crates/$crate)"
    fi
done
part "texts and lists cut to every length" python3 tests/truncated.py "$program"
part "limits" python3 tests/hostile_limits.py "$program"
part "streams and files that fail" python3 tests/hostile_devices.py "$program"
part "small stacks" python3 tests/hostile_stack.py "$program"
part "names chosen to collide" python3 tests/hostile_floods.py "$program"
part "growth of cost" python3 bench/growth.py ${sizes:+"$sizes"} "$program"
sed 's/^/failed: /' "$kept/short"
printf '%d passed, %d failed\n' "$passed" "$failed"
[ "$failed" -eq 0 ]
