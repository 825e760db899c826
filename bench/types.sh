#!/usr/bin/env bash
# Measures what each part takes of the way from a module of facts to its types: reading, linking with the library, the
# table of types, the types of clauses. Each row is the whole up to there; memory is the greatest resident set. It ends with
# status 1 where the types of 280,000 facts take more than 0.4 s on top of linking, or more than 120 MB in all.
set -u
root=$(cd "$(dirname "$0")/.." && pwd) || exit 2
cd "$root/crates/bench_types" || exit 2
rt run >/tmp/bench_types.log 2>&1 || { cat /tmp/bench_types.log; exit 1; }
exec python3 - "$(find "$PWD/out" -type f -name bench_types -perm -u+x | head -1)" <<'PY'
import os, subprocess, sys

program = sys.argv[1]

def run(words):
    best, memory, said = 1e9, 0, ""
    for _ in range(3):
        child = subprocess.Popen([program] + words, stdout=subprocess.PIPE)
        said = child.stdout.read().decode().strip()
        _, _, usage = os.wait4(child.pid, 0)
        best = min(best, usage.ru_utime + usage.ru_stime)
        memory = max(memory, usage.ru_maxrss)
    return best, memory, said

print("| facts | up to | time | most memory | said |")
print("|---|---|---|---|---|")
row = {}
for facts in ("70000", "140000", "280000"):
    for stage in ("read", "link", "table", "types"):
        row[stage] = time, memory, said = run([facts, stage])
        print("| %s | %s | %.2f s | %d KiB | %s |" % (facts, stage, time, memory, said))
taken, room = row["types"][0] - row["link"][0], row["types"][1] * 1024
good = taken <= 0.4 and room <= 120e6
print("types on top of linking: %.2f s; %.0f MB in all%s" % (taken, room / 1e6, "" if good else "   WANTED: 0.4 s, 120 MB"))
sys.exit(0 if good else 1)
PY
