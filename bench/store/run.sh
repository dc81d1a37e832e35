#!/usr/bin/env bash
# Times put, load, replace, drop and put of one row of the store, on disks in memory and on a real
# file, beside C SQLite (python3's sqlite3), which replaces by one DELETE, in the same run, and
# measures the memory that it holds.
#
#   bench/store/run.sh [FOLDER]
#
# FOLDER keeps the built program from run to run (default: a new one).
#
# QUIET is a command under which the times are taken, as one that keeps the machine from others
# meanwhile.
set -eu
here=$(cd "$(dirname "$0")" && pwd)
work=${1:-$(mktemp -d)}
program=$("$here/build.sh" "$work")
mkdir -p "$work/files"

# What is allocated and not freed is counted if there is a C compiler.
cc -shared -fPIC -O1 -o "$work/held.so" "$here/held.c" -ldl || rm -f "$work/held.so"
${QUIET:-} python3 "$here/compare.py" times "$program" "$work/files"
python3 "$here/compare.py" memory "$program" "$work/files" $(ls "$work/held.so" 2>/dev/null)

# The engine's own store in memory deletes in time that grows with the square of the rows, so it
# stops early.
for rows in 1000 2000 4000 8000; do
    echo "memory $rows rows, microseconds:" $("$program" memory "$rows")
done
