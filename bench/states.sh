#!/usr/bin/env bash
# Measures how fast state variables are written out: clauses of ordinary form, one clause of 4,096 state variables,
# disjunctions inside one another, and conditionals one behind the other's else. Each text is read alone and read and
# numbered; memory is the greatest resident set.
set -u
root=$(cd "$(dirname "$0")/.." && pwd) || exit 2
cd "$root/crates/bench_reading" || exit 2
rt run -- clauses <stdin >/tmp/bench_states.log 2>&1 || { cat /tmp/bench_states.log; exit 1; }
exec python3 - "$PWD/out/bench_reading" <<'PY'
import os, subprocess, sys, tempfile

program = sys.argv[1]
folder = tempfile.mkdtemp()

def run(words, path):
    best, memory, said = 1e9, 0, ""
    for _ in range(3):
        child = subprocess.Popen([program] + words, stdin=open(path), stdout=subprocess.PIPE)
        said = child.stdout.read().decode().strip()
        _, _, usage = os.wait4(child.pid, 0)
        best = min(best, usage.ru_utime + usage.ru_stime)
        memory = max(memory, usage.ru_maxrss)
    return best, memory, said

def clauses(count):
    return "count(%d, !N, !IO) :- ( if step(!.N) then !:N = !.N + 1, log(!.N, !IO) else true ), io.nl(!IO).\n" % 7 * count

def variables(count):
    head = ", ".join("f(!X%d)" % k for k in range(count))
    return "p([%s]) :- %s.\n" % (head, ", ".join("q(!X%d)" % k for k in range(count)))

def nested(depth):
    return "p(!X) :- " + "( r ; " * depth + "q(!X)" + " )" * depth + ".\n"

def choices(count):
    return "p(!X) :- ( " + "q(!X) -> r ; " * count + "s(!X) ).\n"

print("| text | bytes | read | read and numbered | memory of both |")
print("|---|---|---|---|---|")
for title, text in [
    ("60,000 clauses", clauses(60000)),
    ("120,000 clauses", clauses(120000)),
    ("a clause of 1,024 state variables", variables(1024)),
    ("a clause of 4,096 state variables", variables(4096)),
    ("disjunctions nested 100 deep", nested(100)),
    ("50,000 conditionals", choices(50000)),
    ("100,000 conditionals", choices(100000)),
]:
    path = os.path.join(folder, "text")
    with open(path, "w") as f:
        f.write(text)
    alone, small, said = run(["read"], path)
    both, great, numbered = run(["clauses"], path)
    said = "" if said == numbered else " (read %s, numbered %s)" % (said, numbered)
    print("| %s | %d | %.2f s, %d KiB | %.2f s | %d KiB |%s" % (title, len(text), alone, small, both, great, said))
PY
