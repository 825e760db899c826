#!/bin/sh
# Makes the one normal goal of 50,000 to 400,000 facts over two integers each, and gives the seconds and the most memory
# of each run, beside those of a run that makes the facts alone. The program is crates/bench_analysis, which `rt run` proves
# and builds first.
set -e
cd "$(dirname "$0")/../crates/bench_analysis"
rt run -- goals 3 2 > /dev/null
program=$(find out -type f -name bench_analysis -perm -u+x | head -1)
for facts in 50000 100000 200000 400000; do
    printf '%s facts alone: ' "$facts"
    /usr/bin/time -f '%U s, %M KiB' "$program" goals "$facts" 2 alone 2>&1 | tr '\n' ' '
    printf '; their goal too: '
    /usr/bin/time -f '%U s, %M KiB' "$program" goals "$facts" 2 2>&1 | tr '\n' ' '
    echo
done
