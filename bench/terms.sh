#!/bin/sh
# Reads modules of 2 and of 4 MiB of ordinary clauses, three times each, and gives the seconds and the most memory
# that each run took. The program is crates/bench_reading, which `rt run` proves and builds first.
set -e
cd "$(dirname "$0")/../crates/bench_reading"
rt run -- 1 terms < /dev/null > /dev/null
program=$(find out -type f -name bench_reading -perm -u+x | head -1)
for kib in 1 2048 2048 2048 4096 4096 4096; do
    /usr/bin/time -f "$kib KiB: %e s, %M KiB of memory" "$program" $kib terms < /dev/null
done
