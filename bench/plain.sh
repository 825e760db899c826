#!/bin/sh
# Runs a counting loop, a deep recursion, naive reverse and a query with many answers by the plain executor, and gives the
# seconds and the most memory of each. The program is crates/bench_running, which `rt run` proves and builds first.
set -e
cd "$(dirname "$0")/../crates/bench_running"
rt run -- digits 2 > /dev/null
program=$(find out -type f -name bench_running -perm -u+x | head -1)
for run in 'count 1000000' 'deep 1000000' 'reverse 2000' 'digits 3' 'digits 6'; do
    printf '%s: ' "$run"
    /usr/bin/time -f '%U s, %M KiB' "$program" $run 2>&1 | tr '\n' ' '
    echo
done
