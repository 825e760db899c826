#!/usr/bin/env bash
# Measures `merc check` over modules of rules that would take a forgetful analysis time that doubles, or that grows with the
# square of their length: goals written backwards, goals one in another around one that waits for all of their variables,
# undeclared determinisms, switches. Memory is the whole process's greatest resident set. It ends with status 1 where a
# module takes more than its limit (printed beside it), or has another status than is wanted.
set -u
root=$(cd "$(dirname "$0")/.." && pwd) || exit 2
program=${MERC:-$root/crates/merc/out/merc}
[ -x "$program" ] || { echo "build the program first: scripts/build" >&2; exit 2; }
exec python3 - "$program" <<'PY'
import os, subprocess, sys, tempfile, time

program = sys.argv[1]
folder = tempfile.mkdtemp()
ok = True

def heading(*imports):
    return ":- module m.\n:- interface.\n" + "".join(":- import_module %s.\n" % i for i in imports)

def backwards(n):
    """Each goal needs the variable that the next one gives."""
    goals = ",\n".join("    step(X%d, X%d)" % (k, k + 1) for k in reversed(range(n)))
    return (heading() + ":- pred p(int::in, int::out) is det.\n:- implementation.\n"
            ":- pred step(int::in, int::out) is det.\nstep(X, X).\np(X0, X%d) :-\n%s.\n" % (n, goals))

def sums_backwards(n):
    """The same with a builtin."""
    goals = ",\n".join("    X%d = X%d + 1" % (k + 1, k) for k in reversed(range(n)))
    return heading("int") + ":- pred p(int::in, int::out) is det.\n:- implementation.\np(X0, X%d) :-\n%s.\n" % (n, goals)

def nested(n, around):
    """Goals one in another, the innermost of which waits for the variables of all."""
    goal = "need(%s)" % ", ".join("X%d" % k for k in range(1, n + 1))
    for k in reversed(range(1, n + 1)):
        goal = around % (goal, k)
    return (heading() + ":- pred p(int::out) is semidet.\n:- implementation.\n"
            ":- pred gen(int::out) is det.\ngen(1).\n:- pred need(%s) is semidet.\nneed(%s).\np(Y) :- gen(Y), %s.\n"
            % (", ".join(["int::in"] * n), ", ".join(["1"] * n), goal))

def beside(n, making):
    """Negations, one in another, each of which makes something beside the next one; the innermost waits for an outer variable."""
    goal = "need(V)"
    for k in reversed(range(1, n + 1)):
        goal = "\\+ ( %s, %s )" % (goal, making % k)
    return (heading("int") + ":- pred p(int::in, int::out) is semidet.\n:- implementation.\n:- type t ---> red ; f(int).\n"
            ":- pred need(int::in) is semidet.\nneed(V) :- V > 0.\np(X, V) :- %s, V = X.\n" % goal)

def bare(n):
    """Negations without other goals in them, around one that waits for variables that goals behind them give."""
    names = ["X%d" % k for k in range(n)]
    goals = ", ".join("gen(%s)" % x for x in names)
    return (heading() + ":- pred p(int::out) is semidet.\n:- implementation.\n"
            ":- pred gen(int::out) is det.\ngen(1).\n:- pred need(%s) is semidet.\nneed(%s).\np(Y) :- gen(Y), %s need(%s), %s.\n"
            % (", ".join(["int::in"] * n), ", ".join(["1"] * n), "\\+ " * n, ", ".join(names), goals))

def undeclared(n, last):
    """Predicates without a determinism, of which each calls the next one."""
    text = heading("int") + ":- pred top(int::in) is semidet.\n:- implementation.\ntop(X) :- p0(X).\n"
    for k in range(n):
        body = "p%d(X)" % (k + 1) if k + 1 < n else last
        text += ":- pred p%d(int::in).\np%d(X) :- %s.\n" % (k, k, body)
    return text

def mutual(n):
    text = heading("int") + ":- pred top(int::in) is semidet.\n:- implementation.\ntop(X) :- p0(X).\n"
    for k in range(n):
        text += ":- pred p%d(int::in).\np%d(X) :- X > %d, ( p%d(X) ; p%d(X) ).\n" % (k, k, k, (k * 7 + 1) % n, (k * 13 + 5) % n)
    return text

def constants(kinds):
    return ":- type t ---> " + " ; ".join("c%d" % k for k in range(kinds)) + ".\n"

def grouped(kinds, n):
    """Facts that a switch groups by their first argument."""
    return (heading() + constants(kinds) + ":- pred f(t::in, int::out) is multi.\n:- implementation.\n"
            + "".join("f(c%d, %d).\n" % (k % kinds, k) for k in range(n)))

def unopened(n):
    """A disjunction of so many disjuncts, of which the last one opens no variable."""
    return (heading() + constants(1000) + ":- pred p(t::in, int::out) is nondet.\n:- implementation.\n"
            ":- pred q(t::in, int::out) is nondet.\nq(c1, 1).\n"
            + "".join("p(c%d, %d).\n" % (k % 1000, k) for k in range(n - 1)) + "p(X, Y) :- q(X, Y).\n")

def switched(n):
    """Switches one in another."""
    names = ["X%d" % k for k in range(n)]
    goal = "R = 0"
    for k in reversed(range(n)):
        goal = "( X%d = t, R = %d ; X%d = f, %s )" % (k, k, k, goal)
    return (heading() + ":- type b ---> t ; f.\n:- pred p(%s, int::out) is det.\n:- implementation.\np(%s, R) :- %s.\n"
            % (", ".join(["b::in"] * n), ", ".join(names), goal))

def candidates(n):
    """A disjunction that may be switched on each of so many variables."""
    names = ["X%d" % k for k in range(n)]
    same = ", ".join("X%d = X%d" % (k + 1, k) for k in range(n - 1))
    branches = " ; ".join(", ".join("%s = %s" % (x, c) for x in names) for c in "tf")
    return (heading() + ":- type b ---> t ; f.\n:- pred p(b::in) is semidet.\n:- implementation.\np(X0) :- %s, ( %s ).\n"
            % (same, branches))

def rows(n):
    return heading() + ":- pred f(int::out, int::out) is multi.\n:- implementation.\n" + "".join("f(%d, %d).\n" % (k, k + 1) for k in range(n))

def long_list(n):
    """A list of n numbers in one clause."""
    return (heading("list") + ":- pred p(list(int)::out) is det.\n:- implementation.\np([" + ", ".join(str(k) for k in range(n)) + "]).\n")

def predicates(n):
    """Small predicates with rules, each over the one before."""
    text = heading("int") + ":- pred p0(int::in, int::out) is det.\n:- implementation.\np0(X, X).\n"
    for k in range(1, n):
        text += (":- pred p%d(int::in, int::out) is det.\np%d(X, Y) :-\n    ( X > %d -> p%d(X - 1, Z) ; Z = X ),\n    Y = Z + %d.\n"
                 % (k, k, k, k - 1, k))
    return text

def facts(n, last, declared=":- pred p(t::out, t::out) is nondet.\n"):
    """Facts over two of 1,000 constants, and a last clause whose rule ends the check behind a phase."""
    return (heading() + constants(1000) + declared + ":- pred q(t::in, t::out) is det.\n:- implementation.\n"
            + "".join("p(c%d, c%d).\n" % (k % 1000, k * 7919 % 1000) for k in range(n)) + last)

def measure(title, text, limit, wanted=0):
    global ok
    name = os.path.join(folder, "m.m")
    with open(name, "w") as f:
        f.write(text)
    start = time.time()
    child = subprocess.Popen([program, "check", name], stdout=open(os.path.join(folder, "out"), "w"), stderr=subprocess.STDOUT)
    _, code, usage = os.wait4(child.pid, 0)
    clock, status = time.time() - start, os.waitstatus_to_exitcode(code)
    good = usage.ru_utime <= limit and status == wanted
    ok = ok and good
    print("%-62s %8d bytes %7.2f s of processor, %7.2f s by the clock, %6.1f MB, status %d%s"
          % (title, len(text), usage.ru_utime, clock, usage.ru_maxrss / 1e3, status, "" if good else "   WANTED: %g s, status %d" % (limit, wanted)))
    sys.stdout.flush()
    return usage.ru_utime, usage.ru_maxrss * 1024

def on_top(title, n, below, above, seconds, most):
    """What comes on top of each of n facts."""
    global ok
    time_taken, room = above[0] - below[0], (above[1] - below[1]) / n
    good = time_taken <= seconds and room <= most
    ok = ok and good
    print("%-62s %7.2f s of processor, %d bytes a fact%s"
          % (title, time_taken, room, "" if good else "   WANTED: %g s, %g bytes" % (seconds, most)))
    sys.stdout.flush()

for n in (1000, 2000, 4000):
    measure("%d goals written backwards" % n, backwards(n), 1)
measure("4000 sums written backwards", sums_backwards(4000), 1)
# A term may be nested 256 deep, and each of these goals adds three or four levels.
for kind, around, most in (("negations", "\\+ ( %s, gen(X%d) )", 80), ("quantified goals", "some [] ( %s, gen(X%d) )", 80), ("conditions", "( %s, gen(X%d) -> true ; true )", 60)):
    for n in (most // 4, most // 2, most):
        measure("%d %s, one in another, around one that waits" % (n, kind), nested(n, around), 1)
for kind, making in (("constant", "M%d = red"), ("construction", "M%d = f(X)")):
    measure("60 negations, one in another, a %s beside each" % kind, beside(60, making), 1)
measure("200 negations around one that waits for 200 variables", bare(200), 1)
measure("10000 undeclared predicates in a chain", undeclared(10000, "X > 0"), 1)
measure("10000 undeclared predicates in a ring", undeclared(10000, "X > 0, p0(X)"), 1)
measure("1000 undeclared predicates that call one another", mutual(1000), 1)
measure("100000 facts over 1000 constants, switched", grouped(1000, 100000), 3)
measure("200000 disjuncts, the last not opened", unopened(200000), 6)
measure("60 switches one in another", switched(60), 1)
measure("4096 candidate variables", candidates(4096), 2)
measure("200000 facts", rows(200000), 4)
# Differences of two checks, each the best of three runs. What the order of a fact takes is told by one more mode: types give
# clauses up, so what comes on top of them is the whole program too, in the form in which it is put in order.
broken = "q(X, Y) :- X = X.\n"
typed = min(measure("200000 facts, up to a rule of types", facts(200000, "q(X, Y) :- X = Y, X = 3.\n"), 4, 1) for _ in range(3))
moded = min(measure("200000 facts, up to a rule of modes", facts(200000, broken), 4, 1) for _ in range(3))
on_top("their modes, on top of their types", 200000, typed, moded, 1, float("inf"))
two = ":- pred p(t, t).\n:- mode p(in, in) is semidet.\n:- mode p(in, out) is nondet.\n"
three = two + ":- mode p(out, out) is nondet.\n"
in_two = min(measure("200000 facts in two modes", facts(200000, broken, two), 4, 1) for _ in range(3))
in_three = min(measure("200000 facts in three modes", facts(200000, broken, three), 4, 1) for _ in range(3))
on_top("their order in one more mode", 200000, in_two, in_three, 1, 300)
for n in (4000, 16000, 64000):
    measure("a list of %d numbers in one clause" % n, long_list(n), 2)
measure("10000 predicates with rules", predicates(10000), 2)
sys.exit(0 if ok else 1)
PY
