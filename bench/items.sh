#!/bin/sh
# Reads the items of texts of 1, 2 and 4 MiB, and gives the seconds and the most memory of each run. The program is
# crates/bench_reading, which `rt run` proves and builds first.
set -e
cd "$(dirname "$0")/../crates/bench_reading"
rt run -- items < stdin > /dev/null
program=$(find out -type f -name bench_reading -perm -u+x | head -1)
text=$(mktemp)
trap 'rm -f "$text"' EXIT
for mib in 1 2 4; do
    bytes=$((mib * 1048576))
    measure() {
        printf '%s, %s MiB: ' "$1" "$mib"
        /usr/bin/time -f '%e s, %M KiB of memory' "$program" items < "$text" 2>&1 | tr '\n' ' '
        echo
    }
    yes 'depth(N, D) :- ( if N = 0 then D = 0 else depth(N - 1, D0), D = D0 + 1 ).' | head -c "$bytes" | sed '$d' > "$text"
    measure clauses
    yes '1.' | head -c "$bytes" > "$text"
    measure 'faulty items'
    { printf 'p('; yes 'a,' | head -c $((bytes - 2)); } > "$text"
    measure 'one item without an end'
    { printf 'p :- some [!A'; yes ', !A' | head -c $((bytes / 2)) | tr -d '\n'; printf '] q(!A).'; } > "$text"
    measure 'one long quantifier'
done
