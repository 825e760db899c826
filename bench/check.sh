#!/usr/bin/env bash
# Measures `merc check` and `merc query` over whole modules: a start with no work, facts, declarations over modules that
# import one another, and sources that would take a forgetful linker time that grows with the square of their length.
# Memory is the whole process's greatest resident set. It ends with status 1 where twice the source takes more than 2.5
# times as long, where 4 MiB of facts take more than 4 s or 600 MB, or where a start takes more than 20 ms.
set -u
root=$(cd "$(dirname "$0")/.." && pwd) || exit 2
program=$root/crates/merc/out/merc
[ -x "$program" ] || { echo "build the program first: scripts/build" >&2; exit 2; }
exec python3 - "$program" <<'PY'
import os, random, subprocess, sys, tempfile, time

program = sys.argv[1]
folder = tempfile.mkdtemp()
ok = True

def run(words, runs=3):
    best, memory, status = 1e9, 0, None
    for _ in range(runs):
        out = open(os.path.join(folder, "out"), "w")
        start = time.time()
        child = subprocess.Popen([program] + words, stdout=out, stderr=open(os.path.join(folder, "err"), "w"), cwd=folder)
        _, code, usage = os.wait4(child.pid, 0)
        best = min(best, time.time() - start)
        memory = max(memory, usage.ru_maxrss * 1024)
        status = os.waitstatus_to_exitcode(code)
    return best, memory, status

def write(name, text):
    with open(os.path.join(folder, name), "w") as f:
        f.write(text)
    return name

def lines(name):
    return sum(1 for _ in open(os.path.join(folder, name)))

def heading(name, imports=()):
    return ":- module %s.\n:- interface.\n%s" % (name, "".join(":- import_module %s.\n" % i for i in imports))

def facts(count):
    random.seed(count)
    names = ["n%d" % k for k in range(10, 1010)]
    rows = "".join("p(%s, %s).\n" % (random.choice(names), random.choice(names)) for _ in range(count))
    return heading("big") + ":- type t ---> " + " ; ".join(names) + ".\n:- pred p(t::out, t::out) is nondet.\n:- implementation.\n" + rows

def declarations(modules, each, determinism="nondet"):
    files = []
    for m in range(modules):
        text = heading("m%d" % m, ["m%d" % k for k in range(modules) if k != m])
        for k in range(each):
            text += ":- type t%d_%d ---> c%d_%d ; d%d_%d.\n:- pred p%d_%d(t%d_%d::out) is %s.\n" % ((m, k) * 5 + (determinism,))
        text += ":- implementation.\n" + "".join("p%d_%d(c%d_%d).\n" % ((m, k) * 2) for k in range(each))
        files.append(write("m%d.m" % m, text))
    return files

def growing(title, make, sizes, wanted, limit=2.5):
    global ok
    times = []
    for n in sizes:
        words = make(n)
        size = sum(os.path.getsize(os.path.join(folder, w)) for w in words if w.endswith(".m"))
        t, m, status = run(words)
        times.append(t)
        print("%s, %s: %d bytes, %.3f s, %.1f MB, status %d" % (title, n, size, t, m / 1e6, status))
        ok = ok and status == wanted
    ratio = max(b / a for a, b in zip(times, times[1:]))
    print("  greatest doubling: %.2f" % ratio)
    ok = ok and (ratio <= limit or times[-1] < 0.1)

t, _, status = run([], 11)
print("start with no work: %.1f ms, status %d" % (t * 1000, status))
ok = ok and t <= 0.020 and status == 2

text = facts(280000)
size = len(text)
write("big.m", text)
t, m, status = run(["check", "big.m"])
print("check of %d bytes of facts: %.3f s, %.1f MB, status %d" % (size, t, m / 1e6, status))
ok = ok and size <= 4194304 and t <= 4 and m <= 600e6 and status == 0

growing("facts, query", lambda n: ["query", "p(X, Y)", write("facts.m", facts(n))], (50000, 100000, 200000), 0)
ok = ok and lines("out") == 200000
growing("declarations over 10 modules, check", lambda n: ["check"] + declarations(10, n), (1000, 2000, 4000), 0)
growing("semidet declarations over 10 modules, check", lambda n: ["check"] + declarations(10, n, "semidet"), (1000, 2000, 4000), 0)
growing("64 modules of one name", lambda n: ["check"] + [write("one%d.m" % k, heading("one") + ":- type t%d ---> aa.\n" % k * n) for k in range(64)], (200, 400, 800), 1)
growing("imports of nothing", lambda n: ["check", write("imports.m", heading("a") + ":- import_module " + ", ".join("m%d" % k for k in range(n)) + ".\n")], (50000, 100000, 200000), 1)
growing("clauses without declarations", lambda n: ["check", write("loose.m", heading("a") + ":- implementation.\n" + "".join("q%d(aa).\n" % k for k in range(n)))], (50000, 100000, 200000), 1)
growing("one union of many constructors", lambda n: ["check", write("union.m", heading("a") + ":- type t ---> " + " ; ".join("c%d" % k for k in range(n)) + ".\n")], (50000, 100000, 200000), 0)
sys.exit(0 if ok else 1)
PY
