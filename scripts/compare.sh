#!/usr/bin/env bash
# Compares the cleaning program with its twins: makes noise files, good and damaged, runs all three on each, and fails
# on the first file for which they do not print the same bytes. The program is built first, which proves it, where it is
# not built yet or has changed. The files stay in target/twin/files/SEED.
#   bash scripts/compare.sh [SEED [COUNT]]        (1 and 3000 if not given)
# CLEAN may name a program to compare instead of crates/clean/out/clean, by its path from the repository's folder.
set -euo pipefail
cd "$(dirname "$0")/.."
seed=${1:-1}
count=${2:-3000}
clean=${CLEAN:-crates/clean/out/clean}

mkdir -p target/twin
for name in clean cases fast; do
    rustc --edition 2021 -O -o "target/twin/$name" "twin/$name.rs"
done
[ -n "${CLEAN:-}" ] || (cd crates/clean && rt run < /dev/null > /dev/null)
[ -x "$clean" ] || { echo "compare: there is no program $clean" >&2; exit 1; }

files=target/twin/files/$seed
rm -rf "$files"
mkdir -p "$files"
target/twin/cases "$seed" "$count" "$files"

# printed PROGRAM FILE NAME: what the program prints for the file, into $files/printed.NAME; it must end well
printed() {
    if ! "$1" < "$2" > "$files/printed.$3"; then
        echo "compare: $1 did not end well on $2" >&2
        exit 1
    fi
}

compared=0
for file in "$files"/*.noise; do
    printed "$clean" "$file" program
    printed target/twin/clean "$file" clean
    printed target/twin/fast "$file" fast
    for twin in clean fast; do
        if ! cmp "$files/printed.program" "$files/printed.$twin" >&2; then
            echo "compare: DIFFERENT: $file: $clean and target/twin/$twin do not print the same" >&2
            exit 1
        fi
    done
    compared=$((compared + 1))
done
if [ "$compared" -ne "$count" ]; then
    echo "compare: $compared files compared, but $count were asked for" >&2
    exit 1
fi
echo "compared $compared files of seed $seed: the program and both twins print the same"
