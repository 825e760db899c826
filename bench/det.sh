#!/bin/sh
# Finds the least determinisms of 10,000 to 1,000,000 undeclared procedures that call one another in a chain and in a
# ring, and gives the seconds and the most memory of each run. 10,000 are to take at most 1 s. The program is
# crates/bench_analysis, which `rt run` proves and builds first.
set -e
cd "$(dirname "$0")/../crates/bench_analysis"
rt run -- determinisms 3 ring > /dev/null
program=$(find out -type f -name bench_analysis -perm -u+x | head -1)
for count in 10000 100000 1000000; do
    for shape in chain ring; do
        printf '%s in a %s: ' "$count" "$shape"
        /usr/bin/time -f '%U s, %M KiB' "$program" determinisms "$count" $(test "$shape" = chain || echo ring) 2>&1 | tr '\n' ' '
        echo
    done
done
