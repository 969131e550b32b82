#!/bin/sh
# The full check.  First `rt ci`, and whether the crates' tests call each public function.  Then tests of the program
# that it builds: rows of conditions, macro replacement, files, budgets and tokens; texts that are read back and
# compiled; files compared with plain passes of phases 1 and 2; the library for C; the tests of the scripts; the examples
# of the README and of docs/; what docs/ says of the crates; cut texts and lists; the limits that take no seconds
# (names, contents of a directory, includes, conditions, arguments, `#line`, options, units, files, contents of a list,
# definitions); which lists are refused, and the output for the others; all depths at once in a small stack; streams and
# files that fail; and runs with refused memory.  The last line is `N passed, N failed` for all of it.  Before it stand
# the missed tests, each with the missing program and its Debian package.  Longer tests are in tests/hostile.sh.
#
#     tests/all.sh [PROGRAM]     with a PROGRAM, no `rt ci`: only the other tests, of this program
case ${1:-/} in
    /*) ;;
    *) set -- "$PWD/$1" ;;
esac
cd "$(dirname "$0")/.." || exit 1
passed=0
failed=0
begun=0
kept=$(mktemp -d) || exit 1
pids=
trap 'kill $pids 2> /dev/null; rm -rf "$kept"' EXIT
trap 'exit 1' HUP INT TERM
: > "$kept/missed"

# Adds the counts of the last line of a command's output; a command that fails and counts no failure counts as one.
add() {
    counts=$(tail -n 1 "$1" | sed -n 's/^\([0-9][0-9]*\) passed, \([0-9][0-9]*\) failed$/\1 \2/p')
    status=$2
    set -- ${counts:-0 0} "$1"
    if [ "$2" -eq 0 ] && { [ -z "$counts" ] || [ "$status" -ne 0 ]; }; then
        set -- "$1" 1 "$3"
    fi
    passed=$((passed + $1))
    failed=$((failed + $2))
    grep '^missed: ' "$3" >> "$kept/missed"
}

# Runs a command, prints its output, and prints how long it took.
count() {
    printf '== %s\n' "$*"
    began=$(date +%s)
    { "$@" 2>&1; echo $? > "$kept/status"; } | tee "$kept/log"
    printf 'took %s seconds\n' $(($(date +%s) - began))
    add "$kept/log" "$(cat "$kept/status")"
}

# Builds the library over the crates that `rt ci` left.  If these are of several checks, as after a run that found some proofs
# kept, its tests are missed.
build_library() {
    sh scripts/library.sh --checked
    case $? in
        0) passed=$((passed + 1)) ;;
        3) echo "missed: the tests of the library: rt ci left crates of several checks" >> "$kept/missed" ;;
        *) failed=$((failed + 1)) ;;
    esac
}

# Starts a command that runs at the same time as the others that were started.
begin() {
    begun=$((begun + 1))
    {
        began=$(date +%s)
        printf '== %s\n' "$*" > "$kept/$begun"
        "$@" > "$kept/$begun.log" 2>&1
        echo $? > "$kept/$begun.status"
        printf 'took %s seconds\n' $(($(date +%s) - began)) > "$kept/$begun.took"
    } &
    pids="$pids $!"
}

# Waits for all commands that were started, and prints the output of each.
finish() {
    wait
    for number in $(seq "$begun"); do
        cat "$kept/$number" "$kept/$number.log" "$kept/$number.took"
        add "$kept/$number.log" "$(cat "$kept/$number.status")"
    done
    begun=0
    pids=
}

# Returns whether a program is there; otherwise records what is missed without it.
has() {
    command -v "$1" > /dev/null && return
    package=$(sed -n "s/^$1 //p" tests/packages.txt)
    printf 'missed: %s: %s is missing (Debian package %s)\n' "$2" "$1" "$package" >> "$kept/missed"
    return 1
}

if [ $# -gt 0 ]; then
    CPPUNITS=$1
else
    # One check for each processor, at most 4.  rt would run fewer, since it expects 9 GB for each; they take 1 to 4 GB.
    if [ -z "${RT_JOBS:-}" ]; then
        RT_JOBS=$(nproc)
        [ "$RT_JOBS" -le 4 ] || RT_JOBS=4
        export RT_JOBS
    fi
    count rt ci
    # `rt ci` proves a static library, and builds none
    if [ "$failed" -eq 0 ] && has cc "the build of the library"; then
        build_library
    fi
    CPPUNITS=$PWD/crates/cppunits/out/cppunits
fi
export CPPUNITS
if has python3 "the tests of the scripts and documents"; then
    begin python3 tests/called_tests.py
    begin python3 tests/row_tests.py
    begin python3 tests/gnu_tests.py
    begin python3 tests/token_tests.py
    begin python3 tests/text_tests.py
    begin python3 tests/phase_tests.py
    begin python3 tests/list_tests.py
    begin python3 tests/build_tests.py
    begin python3 tests/front_tests.py
    begin python3 tests/deps_tests.py
    begin python3 tests/scripts_tests.py
    begin python3 tests/faults_tests.py
    begin python3 tests/slurm_tests.py
    begin python3 tests/projects_tests.py
    begin python3 tests/docs_examples.py
    begin python3 tests/docs_specification.py
    begin python3 tests/house_tests.py
    begin python3 tests/serving_tests.py
    begin python3 tests/marks_tests.py
    begin python3 tests/truncated.py
    begin python3 tests/hostile_limits.py -k test_a_name -k test_units -k test_files -k test_a_content -k test_definitions -k Text. -k Options.
    begin python3 tests/hostile_stack.py -k Stack.
    begin python3 tests/hostile_devices.py
    if has cc "the runs with refused memory"; then
        begin python3 tests/refused_memory.py "$CPPUNITS"
    fi
    finish
    # those that run compilers for long or many threads come after the tests with time limits
    begin python3 tests/headers_tests.py
    begin python3 tests/database_tests.py
    begin python3 tests/library_tests.py
    begin python3 tests/builds_tests.py
    finish
fi
cat "$kept/missed"
printf '%d passed, %d failed\n' "$passed" "$failed"
[ "$failed" -eq 0 ] && [ "$passed" -gt 0 ]
