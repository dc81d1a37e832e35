#!/usr/bin/env bash
# Builds the program that times a store, and prints its path.
#
#   bench/store/build.sh FOLDER [CLONE]     over the crates of CLONE, where one is named
#
# The program cannot stand among the crates, since what it prints is another each time. So it is
# built in a workspace of its own, over copies of the crates with what is built of them.
set -eu
here=$(cd "$(dirname "$0")" && pwd)
top=$(cd "${2:-$here/../..}" && pwd)
work=$1
mkdir -p "$work/crates/bench/src"
for name in xq_atoms xq_trees xq_sources xq_memory_disk xq_store; do
    mkdir -p "$work/crates/$name"
    for part in src specs proofs out; do
        rm -rf "${work:?}/crates/$name/$part"
        if [ -d "$top/crates/$name/$part" ]; then
            cp -a "$top/crates/$name/$part" "$work/crates/$name/"
        fi
    done
    grep "^$name:" "$top/crates.txt"
done > "$work/crates.txt"
echo "bench: xq_atoms xq_trees xq_store sqlite" >> "$work/crates.txt"
cp "$here/main.rattle" "$work/crates/bench/src/main.rt"
cd "$work/crates/bench"
${RT:-rt} run -- memory 10 > "$work/build.log" 2>&1 || { tail -20 "$work/build.log" >&2; exit 1; }
find "$PWD/out" -maxdepth 1 -type f -perm -u+x | head -1
