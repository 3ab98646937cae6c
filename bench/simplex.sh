#!/usr/bin/env bash
# The time of checks by the simplex method, beside z3's on the same sums and bounds as reals, with its newer arithmetic (6) and its older one (2), where it is there.
# Each system is read twice, with its checks and without them; the difference is the time of the checks.
# Use: bench/simplex.sh [SIMPLEX_SYSTEMS [SECONDS]], at the top of the repository.
set -eu
program=${1:-crates/simplex_systems/out/simplex_systems}
limit=${2:-60}
exec python3 - "$program" "$limit" << 'END_OF_PROGRAM'
import os, random, shutil, subprocess, sys, tempfile
program, limit = sys.argv[1], int(sys.argv[2])
z3 = shutil.which("z3")

# a system: how many leaves, the rows as lists of (coefficient, leaf), and for each check the bounds (variable, side, number)
def dense(seed, feasible):
    draw = random.Random(seed)
    rows = [[(draw.choice([-3, -2, -1, 1, 2, 3]), v) for v in range(30)] for _ in range(20)]
    checks = []
    for _ in range(5):
        point = [draw.randint(-9, 9) for _ in range(30)]
        bounds = []
        for v in range(30):
            bounds += [(v, "lower", -10), (v, "upper", 10)]
        for k, row in enumerate(rows):
            value = sum(c * point[v] for c, v in row)
            if feasible:
                bounds += [(30 + k, "lower", value - 1), (30 + k, "upper", value + 1)]
            else:
                bounds.append((30 + k, "lower", draw.randint(80, 160)))
        checks.append(bounds)
    return 30, rows, checks

# each variable is at least one more than the one before it; the last is so much more than the first, or not
def chain(count, most):
    rows = [[(1, i + 1), (-1, i)] for i in range(count - 1)]
    bounds = [(0, "lower", 0)] + [(count + i, "lower", 1) for i in range(count - 1)] + [(count - 1, "upper", most)]
    return count, rows, [bounds]

# from each source at most its supply, to each goal at least its demand, no amount negative
def transport(sources, goals, missing, seed):
    draw = random.Random(seed)
    place = lambda i, j: i * goals + j
    rows = [[(1, place(i, j)) for j in range(goals)] for i in range(sources)]
    rows += [[(1, place(i, j)) for i in range(sources)] for j in range(goals)]
    leaves = sources * goals
    supply = [draw.randint(20, 60) for _ in range(sources)]
    demand = [sum(supply) // goals] * goals
    demand[0] += sum(supply) - sum(demand) + missing
    bounds = [(v, "lower", 0) for v in range(leaves)]
    bounds += [(leaves + i, "upper", supply[i]) for i in range(sources)]
    bounds += [(leaves + sources + j, "lower", demand[j]) for j in range(goals)]
    return leaves, rows, [bounds]

def commands(systems, checked):
    lines = []
    for leaves, rows, checks in systems:
        lines.append(f"system {leaves}")
        lines += ["row " + " ".join(f"{c} {v}" for c, v in row) for row in rows]
        for bounds in checks:
            lines += [f"{side} {v} {k}" for v, side, k in bounds]
            lines += ["check 1000000000"] * checked + ["undo 0"]
    return "\n".join(lines) + "\n"

def script(systems, checked):
    number = lambda k: f"(- {-k}.0)" if k < 0 else f"{k}.0"
    lines = ["(set-logic QF_LRA)"]
    for leaves, rows, checks in systems:
        lines.append("(push 1)")
        lines += [f"(declare-const x{v} Real)" for v in range(leaves)]
        for k, row in enumerate(rows):
            words = [f"x{v}" if c == 1 else f"(* {number(c)} x{v})" for c, v in row]
            lines.append(f"(define-fun x{leaves + k} () Real (+ {' '.join(words)}))")
        for bounds in checks:
            lines.append("(push 1)")
            lines += [f"(assert ({'>=' if side == 'lower' else '<='} x{v} {number(k)}))" for v, side, k in bounds]
            lines += ["(check-sat)"] * checked + ["(pop 1)"]
        lines.append("(pop 1)")
    return "\n".join(lines) + "\n"

# processor seconds, and what was written; None where the time ran out
def run(words, text):
    with tempfile.TemporaryFile("w+") as given, tempfile.TemporaryFile("w+") as written:
        given.write(text)
        given.flush()
        given.seek(0)
        child = subprocess.Popen(["timeout", str(limit)] + words, stdin=given, stdout=written, stderr=subprocess.DEVNULL)
        _, status, usage = os.wait4(child.pid, 0)
        child.returncode = 0
        written.seek(0)
        return (None if os.waitstatus_to_exitcode(status) == 124 else usage.ru_utime + usage.ru_stime), written.read().split("\n")[:-1]

def spent(words, of, systems):
    bare, _ = min((run(words, of(systems, False)) for _ in range(3)), key=lambda pair: pair[0])
    full, lines = run(words, of(systems, True))
    return (None if full is None else full - bare), lines

for name, systems in (
    ("dense, with solutions", [dense(seed, True) for seed in range(3)]),
    ("dense, without", [dense(seed, False) for seed in range(3)]),
    ("chain of 1,000, with solutions", [chain(1000, 999)]),
    ("chain of 1,000, without", [chain(1000, 998)]),
    ("transport 30 by 30, with solutions", [transport(30, 30, 0, seed) for seed in range(3)]),
    ("transport 30 by 30, without", [transport(30, 30, 1, seed) for seed in range(3)]),
):
    count = sum(len(checks) for _, _, checks in systems)
    time_here, lines = spent([program], commands, systems)
    words = [line.split() for line in lines]
    pivots = sum(int(w[1].rstrip(":")) for w in words)
    answers = [w[0] for w in words]
    said = ", ".join(f"{answers.count(a)} {a}" for a in ("fits", "conflict", "range") if a in answers)
    if time_here is None:
        print(f"{name}: not done in {limit} s; {said}", end="")
    else:
        print(f"{name}: {said}; {1000 * time_here / count:.2f} ms a check, {pivots} pivots, {pivots / max(time_here, 0.001):.0f} a second", end="")
    # z3 with its newer arithmetic, and with its older one
    for solver in (6, 2) if z3 else ():
        time_there, lines = spent([z3, "-in", f"smt.arith.solver={solver}"], script, systems)
        if time_there is None:
            print(f"; z3 ({solver}) not done in {limit} s, {len(lines)} of {count} answers", end="")
        else:
            print(f"; z3 ({solver}) {1000 * time_there / count:.2f} ms a check", end="")
            if time_here is not None and time_there > 0:
                print(f", ratio {time_here / time_there:.2f}", end="")
        differ = sum((a, b) in (("fits", "unsat"), ("conflict", "sat")) for a, b in zip(answers, lines))
        if differ:
            print(f"; {differ} answers differ", end="")
    print(flush=True)
END_OF_PROGRAM
