#!/usr/bin/env bash
# Merges the insts of 10,000, 100,000 and 200,000 facts over an enumeration of 1,000 constants, includes cycles of 5,000
# to 100,000 insts of lists in `ground` and in one another, merges two of them, and defines insts of up to 200,000
# constructors, by crates/bench_analysis, which `rt run` proves and builds first. Each time is the best of several runs, in
# microseconds. It ends with status 1 where twice the facts or nodes take more than 2.5 times as long, where an inclusion
# of 10,000 nodes takes more than 0.1 s, or where the same merge asked again takes more than a tenth of the first.
set -eu
cd "$(dirname "$0")/../crates/bench_analysis"
rt run >/dev/null 2>&1
program=$(find out -type f -name bench_analysis -perm -u+x | head -1)
exec python3 - "$program" "${RUNS:-5}" <<'PY'
import re, subprocess, sys

program, runs = sys.argv[1], int(sys.argv[2])
ok = True

def best(facts, nodes, symbols):
    least = None
    for _ in range(runs):
        done = subprocess.run([program, "insts", str(facts), str(nodes), str(symbols)], capture_output=True, text=True, check=True)
        if "false" in done.stdout:
            sys.exit("wrong answer: " + done.stdout)
        times = [int(t) for t in re.findall(r"(\d+) us", done.stderr)]
        least = times if least is None else [min(a, b) for a, b in zip(least, times)]
    return least

def near_linear(what, before, after, factor):
    global ok
    if after > 2.5 / 2 * factor * before and after > 20000:
        print("  %s: %.1f times as long for %d times as many" % (what, after / before, factor))
        ok = False

last = None
for facts, factor in ((10000, None), (100000, 10), (200000, 2)):
    merge, again = best(facts, 0, 0)
    print("merge of %d facts: %d us, again %d us" % (facts, merge, again))
    if last is not None:
        near_linear("merge of facts", last, merge, factor)
    last = merge

last = None
for nodes, factor in ((5000, None), (10000, 2), (20000, 2), (100000, 5)):
    *inclusions, merge, again = best(0, nodes, 0)
    print("cycles of %d: inclusions %s us, merge %d us, again %d us" % (nodes, ", ".join(map(str, inclusions)), merge, again))
    if nodes == 10000:
        ok = ok and max(inclusions) <= 100000
    ok = ok and again * 10 <= merge
    if last is not None:
        near_linear("inclusion", max(last[0]), max(inclusions), factor)
        near_linear("merge", last[1], merge, factor)
    last = (inclusions, merge)

last = None
for symbols, factor in ((50000, None), (100000, 2), (200000, 2)):
    (took,) = best(0, 0, symbols)
    print("definition of %d constructors: %d us" % (symbols, took))
    if last is not None:
        near_linear("definition", last, took, factor)
    last = took
sys.exit(0 if ok else 1)
PY
