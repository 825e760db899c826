#!/bin/sh
# Counts the instructions that linking takes, which a busy machine doesn't change: a program that reads and links ten
# modules of 1,000 types, predicates and facts each, less the same program that only reads them. The program is
# crates/bench_linking, which `rt run` proves and builds first; valgrind counts.
set -e
cd "$(dirname "$0")/../crates/bench_linking"
rt run -- 10 > /dev/null
program=$(find out -type f -name bench_linking -perm -u+x | head -1)
count() {
    valgrind --tool=callgrind --callgrind-out-file=/dev/null "$program" "$@" 2>&1 | sed -n 's/.*Collected : //p'
}
both=$(count 1000)
reading=$(count 1000 read)
echo "read and linked: $both instructions; read alone: $reading; linking: $((both - reading))"
