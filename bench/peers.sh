#!/usr/bin/env bash
# Measures `merc` beside SWI-Prolog, GNU Prolog and clingo, as far as they are installed (Debian's packages swi-prolog-nox,
# gprolog and gringo), on the programs of bench/peers and examples/queens.m.
#
#     bench/peers.sh [--tiny] [PROGRAM]
#
# PROGRAM is the built merc where it isn't given. In each of five rounds every system runs once, and a ratio is the median
# of the five rounds' ratios of merc's processor time to the other's, each of a whole process: merc and SWI-Prolog read
# and compile the source in it, GNU Prolog's programs are compiled before (but facts, which it consults), and clingo
# grounds and solves. The script ends with status 1 where a number of answers isn't the expected one, where merc takes
# more than 20 times SWI-Prolog's time, where a check of 4 MiB of facts takes longer than SWI-Prolog's load of them, or
# where a start takes more than 10 ms by the clock. With --tiny all sizes are small, there is one round, and no time is
# judged: that tries the programs.
set -u
root=$(cd "$(dirname "$0")/.." && pwd) || exit 2
size=full
[ "${1:-}" = --tiny ] && { size=tiny; shift; }
program=$(readlink -f "${1:-$root/crates/merc/out/merc}")
[ -x "$program" ] || { echo "build the program first: scripts/build" >&2; exit 2; }
exec python3 - "$root" "$program" "$size" <<'PY'
import dataclasses, os, random, re, resource, shutil, statistics, subprocess, sys, tempfile, threading, time

root, program, size = sys.argv[1:]
TINY = size == "tiny"
ROUNDS = 1 if TINY else 5
SECONDS = 600
GREATEST = ["--budget", "100000000", "--depth", "10000000"]
# GNU Prolog's stacks, in KiB, and its table of atoms: with its own sizes it has no room for lists and facts of this length.
STACKS = {"GLOBALSZ": "1048576", "LOCALSZ": "262144", "TRAILSZ": "524288", "MAX_ATOM": "100000"}

# All programs run in a folder that holds them, the modules of facts that are made, and what GNU Prolog compiles.
folder = tempfile.mkdtemp(prefix="merc-peers-")
for name in os.listdir(os.path.join(root, "bench", "peers")):
    shutil.copy(os.path.join(root, "bench", "peers", name), folder)
shutil.copy(os.path.join(root, "examples", "queens.m"), folder)


def write(name, text):
    with open(os.path.join(folder, name), "w") as file:
        file.write(text)


@dataclasses.dataclass
class Row:
    """One thing that is measured: the words of merc, the goal and the file of Prolog, the words of clingo."""
    title: str
    answers: int
    merc: list
    goal: str
    prolog: str
    clingo: list = None
    consults: bool = False
    # How clingo's answers are counted: models, or the atoms of its one model.
    models: bool = True


def family(levels):
    """A family: a tree of people, where each has two children, down to the last level."""
    people = range(1, 2 ** levels)
    pairs = [(k, child) for k in people for child in (2 * k, 2 * k + 1) if child < 2 ** levels]
    facts = "".join("parent(p%d, p%d).\n" % pair for pair in pairs)
    rules = "ancestor(X, Y) :- parent(X, Y).\nancestor(X, Z) :- parent(X, Y), ancestor(Y, Z).\n"
    write("family.m", (
        ":- module family.\n:- interface.\n:- type person ---> " + " ; ".join("p%d" % k for k in people) + ".\n"
        + "".join(
            ":- pred %s(person, person).\n:- mode %s(out, out) is nondet.\n:- mode %s(in, out) is nondet.\n" % ((name,) * 3)
            for name in ("parent", "ancestor"))
        + ":- implementation.\n" + facts + rules))
    write("family.pl", facts + rules + "main :- ancestor(X, Y), write(X-Y), nl, fail.\nmain.\n")
    write("family.lp", facts + rules + "#show ancestor/2.\n")
    return sum(depth * 2 ** depth for depth in range(levels))


def facts(count, constants):
    """Distinct facts over two constants; how many of them begin with the first constant."""
    random.seed(count)
    names = ["n%d" % k for k in range(10, 10 + constants)]
    pairs = [divmod(k, constants) for k in random.sample(range(constants ** 2), count)]
    rows = "".join("p(%s, %s).\n" % (names[a], names[b]) for a, b in pairs)
    write("facts.m", (
        ":- module facts.\n:- interface.\n:- type name ---> " + " ; ".join(names) + ".\n"
        + ":- pred p(name::out, name::out) is nondet.\n:- implementation.\n" + rows))
    write("facts.pl", rows)
    write("facts.lp", rows + "#show.\n")
    write("asked.lp", "#show Y : p(n10, Y).\n")
    return sum(1 for a, _ in pairs if a == 0)


def rows():
    number, rounds, length, tak, places, zebras, lines = (
        (1000, 2, 20, (8, 4, 2), (5, 6), 2, 100) if TINY else (10000000, 10, 1000, (24, 16, 8), (8, 10), 100, 100000))
    if TINY:
        with open(os.path.join(folder, "lines.m")) as file:
            text = file.read()
        write("lines.m", text.replace("100000", str(lines)))
    asked = facts(*((200, 30) if TINY else (280000, 1000)))
    query = ["query", *GREATEST]
    yield Row("count to {:,}".format(number), 1, [*query, "count(1, %d)" % number, "count.m"], "main(%d)" % number, "count.pl")
    yield Row("naive reverse of {:,} numbers, {} times".format(length, rounds), 1,
              [*query, "reverses(%d, %d, First)" % (rounds, length), "nrev.m"], "main(%d, %d)" % (rounds, length), "nrev.pl")
    yield Row("tak(%d, %d, %d)" % tak, 1, [*query, "X = tak(%d, %d, %d)" % tak, "tak.m"], "main(%d, %d, %d)" % tak, "tak.pl")
    for n in places:
        yield Row("queens %d, all" % n, {5: 10, 6: 4, 8: 92, 10: 724}[n], [*query, "queens(%d, Queens)" % n, "queens.m"],
                  "main(%d)" % n, "queens.pl", ["0", "-c", "n=%d" % n, "queens.lp"])
    yield Row("zebra", 1, [*query, "zebra(Zebra, Water)", "zebra.m"], "main(1)", "zebra.pl", ["0", "zebra.lp"])
    yield Row("zebra, %d times" % zebras, zebras, [*query, "zebras(%d, Round, Zebra, Water)" % zebras, "zebra.m"], "main(%d)" % zebras, "zebra.pl")
    level = "easy" if TINY else "hard"
    yield Row("sudoku", 1, [*query, "sudoku(%s, Rows)" % level, "sudoku.m"], "main(%s)" % level, "sudoku.pl", ["0", "sudoku.lp"])
    ancestors = family(4 if TINY else 11)
    yield Row("family, {:,} answers".format(ancestors), ancestors, [*query, "ancestor(X, Y)", "family.m"], "main", "family.pl",
              ["0", "family.lp"], models=False)
    yield Row("check of {:,} bytes of facts".format(os.path.getsize(os.path.join(folder, "facts.m"))), 0,
              ["check", "facts.m"], "true", "facts.pl", ["0", "facts.lp"], consults=True, models=False)
    yield Row("query of these facts", asked, [*query, "p(n10, Y)", "facts.m"],
              "(p(n10, Y), write(Y), nl, fail ; true)", "facts.pl", ["0", "facts.lp", "asked.lp"], consults=True, models=False)
    yield Row("{:,} lines written".format(lines), lines, ["run", *GREATEST, "lines.m"], "main(%d)" % lines, "lines.pl")
    yield Row("start", 1, ["query", "nothing", "start.m"], "main", "start.pl", ["0", "start.lp"])


def gnu_prolog(row):
    """The words of a program that GNU Prolog made of a row."""
    # A predicate that is consulted is called by `call`: at link time there is none of its name.
    goal = "consult('%s'), Goal = %s, call(Goal)" % (row.prolog, row.goal) if row.consults else row.goal
    write("goal.pl", ":- initialization((%s, halt)).\n" % goal)
    binary = os.path.join(folder, "compiled")
    sources = ["goal.pl"] if row.consults else [row.prolog, "goal.pl"]
    subprocess.run(["gplc", "-o", binary, *sources], cwd=folder, check=True, stdin=subprocess.DEVNULL)
    return [binary]


def words_of(row):
    """Each system that is installed and has the row, with its words."""
    words = {"merc": [program, *row.merc]}
    if shutil.which("swipl"):
        words["SWI-Prolog"] = ["swipl", "-q", "-g", row.goal, "-t", "halt", row.prolog]
    if shutil.which("gplc"):
        words["GNU Prolog"] = gnu_prolog(row)
    if shutil.which("clingo") and row.clingo:
        words["clingo"] = ["clingo", "-V0", *row.clingo]
    return words


@dataclasses.dataclass
class Ran:
    processor: float
    clock: float
    memory: int
    status: int
    out: str


def run(words):
    out, err = (open(os.path.join(folder, name), "w+") for name in ("out", "err"))
    start = time.monotonic()
    child = subprocess.Popen(words, stdin=subprocess.DEVNULL, stdout=out, stderr=err, cwd=folder, env={**os.environ, **STACKS})
    end = threading.Timer(SECONDS, child.kill)
    end.start()
    _, code, usage = os.wait4(child.pid, 0)
    clock = time.monotonic() - start
    end.cancel()
    out.seek(0)
    return Ran(usage.ru_utime + usage.ru_stime, clock, usage.ru_maxrss * 1024, os.waitstatus_to_exitcode(code), out.read())


def answers_of(system, row, out):
    """How many answers a system wrote: lines; clingo's models, or the atoms of its model, before its last line."""
    lines = out.splitlines()
    if system == "clingo":
        lines = [line for line in lines if line != "SATISFIABLE"]
        return len(lines) if row.models else sum(len(line.split()) for line in lines)
    # What GNU Prolog says when it consults a file isn't an answer.
    return sum(1 for line in lines if line and not re.match(r"(compiling .*|.* lines read .*|.* bytes written.*)", line))


def fault_of(system, row, ran):
    """What is wrong with a run, or nothing."""
    if ran.status == -9:
        return "killed: not done in %d s, or out of memory" % SECONDS
    if system != "clingo" and ran.status != 0:
        return "status %d" % ran.status
    found = answers_of(system, row, ran.out)
    return "" if found == row.answers else "%d answers in place of %d" % (found, row.answers)


def memory_of(runs):
    """The greatest memory of some runs. The system counts a program's from this script's own on."""
    own = resource.getrusage(resource.RUSAGE_SELF).ru_maxrss * 1024
    most = max(ran.memory for ran in runs)
    return "%d MB" % (most / 1e6) if most > own else "under %d MB" % (own / 1e6 + 1)


def judged(row, runs):
    """What of a row misses an aim."""
    def ratio(system):
        return statistics.median(a.processor / max(b.processor, 1e-9) for a, b in zip(runs["merc"], runs[system]))
    if TINY:
        return ""
    if row.title == "start" and statistics.median(ran.clock for ran in runs["merc"]) > 0.010:
        return "a start takes more than 10 ms"
    if "SWI-Prolog" not in runs:
        return ""
    if row.title.startswith("check") and ratio("SWI-Prolog") >= 1:
        return "a check takes longer than SWI-Prolog's load"
    return "more than 20 times SWI-Prolog's time" if ratio("SWI-Prolog") > 20 else ""


ok = True
PEERS = ["SWI-Prolog", "GNU Prolog", "clingo"]
print("| what | answers | merc | memory | " + " | ".join("%s | merc is" % peer for peer in PEERS) + " |")
print("|---|---|---|---|" + "---|---|" * len(PEERS))
for row in rows():
    words = words_of(row)
    runs = {system: [] for system in words}
    for _ in range(ROUNDS):
        for system in words:
            runs[system].append(run(words[system]))
    faults = {system: fault_of(system, row, runs[system][-1]) for system in runs}
    def middle(system):
        return statistics.median(ran.processor for ran in runs[system])
    cells = [row.title, "{:,}".format(row.answers), "%.3f s" % middle("merc"),
             memory_of(runs["merc"])]
    for peer in PEERS:
        if peer in runs:
            ratio = statistics.median(a.processor / max(b.processor, 1e-9) for a, b in zip(runs["merc"], runs[peer]))
            cells += ["%.3f s" % middle(peer), "%.2f times" % ratio]
        else:
            cells += ["-", "-"]
    print("| " + " | ".join(cells) + " |", flush=True)
    for system, fault in faults.items():
        if fault:
            print("%s, %s: %s" % (row.title, system, fault), flush=True)
            ok = False
    missed = judged(row, runs)
    if missed:
        print("%s: %s" % (row.title, missed), flush=True)
        ok = False
start = statistics.median(ran.clock for ran in runs["merc"])
print("a start by the clock: %.1f ms" % (start * 1000))
shutil.rmtree(folder)
sys.exit(0 if ok else 1)
PY
