#!/usr/bin/env bash
# Runs tests of refused allocations again and again, refusing the first allocation, then the second,
# and so on, until a run meets no refusal. Each run has to pass: what was refused changed nothing,
# and succeeds when it is asked again. refuse_each_growth.py does so over the program, in memory and
# on files.
#
#   tools/trials/each_allocation.sh [CRATE TEST..]
#
# CRATE and TESTs are those of another crate than the store's calls, where they are named. It needs
# a C compiler; the tests are built by `rt test` first.
set -eu
top=$(cd "$(dirname "$0")/../.." && pwd)
work=$(mktemp -d)
trap 'rm -rf "$work"' EXIT
cc -shared -fPIC -O1 -o "$work/refuse.so" "$top/tools/trials/refuse.c" -ldl

crate=${1:-xq_store_tests}
[ $# -gt 1 ] && shift || set -- tests::each_allocation_in_memory
cd "$top/crates/$crate"
program=out/${crate}_tests
[ -x "$program" ] || rt test
for test in "$@"; do
    number=1
    while :; do
        rm -f "$work/refused"
        if ! REFUSE=$number REFUSED="$work/refused" LD_PRELOAD="$work/refuse.so" \
            "$program" "$test" > "$work/output" 2>&1; then
            echo "$test, allocation $number: the test failed"
            cat "$work/output"
            exit 1
        fi
        [ -e "$work/refused" ] || break
        number=$((number + 1))
    done
    echo "$test: each of $((number - 1)) allocations was refused in turn; every run passed"
done
