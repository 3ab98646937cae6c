#!/usr/bin/env python3
"""The families of scripts by which the search is measured, eight scripts of each, beside z3 and cvc5.

Use: bench/families.py write FOLDER SEED                            writes the scripts, drawn anew by the seed
     bench/families.py run FOLDER SECONDS NAME=PROGRAM [NAME=..]    runs each program on each script (z3 and cvc5 by these names, another one as smt_cli with its words),
                                                                    and keeps what was measured in FOLDER/NAME.json; what is kept isn't run again
     bench/families.py clock FOLDER SECONDS NAME=PROGRAM [NAME=..]  the same by the clock, as for a program with several workers, over the families in which forgetting decides: random clauses, parities,
                                                                    quasigroups, pigeons. They need processors of their own
     bench/families.py table FOLDER NAME [NAME ..]                  of each family how many scripts are answered whole in time, and the geometric mean of the seconds, a script that
                                                                    isn't counting as the limit; then each answer that differs from the first name's
"""
import json
import math
import os
import random
import resource
import subprocess
import sys
import time

sys.path.insert(0, os.path.dirname(os.path.abspath(__file__)))
import generated
from workers import booleans, clauses, diamonds, differences, drawn, hashes, integers, number, parity, pigeons, quasigroup, shop, write

HERE = os.path.dirname(os.path.abspath(__file__))


def bounds(count, checks, r):
    """Constants with nothing but bounds, checked again and again with one bound more."""
    lines = integers(f"x{k}" for k in range(count))
    low = [r.randint(-1000, 1000) for _ in range(count)]
    high = [least + r.randint(0, 2000) for least in low]
    lines += [f"(assert (<= {number(low[k])} x{k} {number(high[k])}))" for k in range(count)]
    for _ in range(checks):
        k = r.randrange(count)
        lines += ["(push 1)", f"(assert (<= x{k} {number(r.randint(low[k] - 200, high[k]))}))", "(check-sat)", "(pop 1)"]
    return lines


def mixture(count, checks, r):
    """Boxed constants and applications of functions to them, tied by sums and orders; each check ties two more."""
    lines = ["(declare-fun f (Int) Int)", "(declare-fun g (Int Int) Int)"] + integers(f"x{k}" for k in range(count))
    lines += [f"(assert (<= 0 x{k} {2 * count}))" for k in range(count)]
    pick = lambda: f"x{r.randrange(count)}"
    for _ in range(count):
        lines.append(
            r.choice(
                [
                    f"(assert (= (f {pick()}) (+ {pick()} {r.randint(0, count)})))",
                    f"(assert (<= (f {pick()}) (+ (f {pick()}) {r.randint(0, count)})))",
                    f"(assert (or (< (f {pick()}) {pick()}) (< {pick()} (g {pick()} {pick()}))))",
                    f"(assert (=> (= {pick()} {pick()}) (distinct (f {pick()}) (g {pick()} {pick()}))))",
                    f"(assert (<= (g {pick()} {pick()}) (+ {pick()} {pick()})))",
                ]
            )
        )
    for _ in range(checks):
        a, b, c = pick(), pick(), pick()
        tied = r.choice([f"(= {a} (+ {b} {r.randint(0, 9)}))", f"(< (f {a}) (f {b}))", f"(= (f {a}) (g {b} {c}))", f"(and (= {a} {b}) (distinct (f {a}) (f {b})))"])
        lines += ["(push 1)", f"(assert {tied})", f"(assert (<= {c} (f {a})))", "(check-sat)", "(pop 1)"]
    return lines


def distinct(count, sort, given, r):
    """All different: elements of a declared sort, or integers in a box with room; two of them are tied in each check."""
    names = [f"x{k}" for k in range(count)]
    lines = ["(declare-sort S 0)"] + [f"(declare-const {x} S)" for x in names] if sort == "S" else integers(names)
    lines.append(f"(assert (distinct {' '.join(names)}))")
    if given:
        lines += [f"(assert (<= 0 {x} {given * count}))" for x in names]
    lines.append("(check-sat)")
    a, b = r.sample(names, 2)
    return lines + ["(push 1)", f"(assert (= {a} {b}))", "(check-sat)", "(pop 1)"]


def slacks(count, rows, most, r):
    """A system of sums, each with a slack of its own, that has a solution in the box, and a check in which the slacks are at most a small number."""
    lines = integers([f"x{k}" for k in range(count)] + [f"s{i}" for i in range(rows)])
    hidden = [r.randint(0, most) for _ in range(count)]
    lines += [f"(assert (<= 0 x{k} {most}))" for k in range(count)]
    for i in range(rows):
        parts = [(r.randint(-9, 9) or 1, k) for k in r.sample(range(count), min(count, 4))]
        total = sum(c * hidden[k] for c, k in parts) + r.randint(0, 5)
        lines.append(f"(assert (= (+ s{i} {' '.join(f'(* {number(c)} x{k})' for c, k in parts)}) {number(total)}))")
        lines.append(f"(assert (<= 0 s{i}))")
    lines.append("(check-sat)")
    return lines + [f"(assert (<= s{i} 1))" for i in range(rows)] + ["(check-sat)"]


def magic(size, given, r):
    """A magic square with some cells given: of three times three as they are in one, of four in one too."""
    square = [[2, 7, 6], [9, 5, 1], [4, 3, 8]] if size == 3 else [[16, 3, 2, 13], [5, 10, 11, 8], [9, 6, 7, 12], [4, 15, 14, 1]]
    total = sum(square[0])
    cell = lambda i, j: f"c{i}_{j}"
    places = [(i, j) for i in range(size) for j in range(size)]
    lines = integers(cell(*p) for p in places)
    lines += [f"(assert (<= 1 {cell(*p)} {size * size}))" for p in places]
    lines.append(f"(assert (distinct {' '.join(cell(*p) for p in places)}))")
    rows = [[(i, j) for j in range(size)] for i in range(size)] + [[(j, i) for j in range(size)] for i in range(size)]
    rows += [[(i, i) for i in range(size)], [(i, size - 1 - i) for i in range(size)]]
    lines += [f"(assert (= (+ {' '.join(cell(*p) for p in row)}) {total}))" for row in rows]
    lines += [f"(assert (= {cell(*p)} {square[p[0]][p[1]]}))" for p in r.sample(places, given)]
    return lines + ["(check-sat)"]


def rounds(count, sort, stays, r):
    """A session: in each round a constant of its own, an assertion over it, and a check; on a level that is popped, or as an assumption beside constants that stay."""
    lines = ["(declare-const p Bool)", "(declare-const x Int)", "(assert (<= 0 x 9))"]
    for k in range(count):
        about = f"(or b{k} (not p))" if sort == "Bool" else f"(< x (+ b{k} {r.randint(0, 9)}))"
        ends = "b%d" % k if sort == "Bool" else f"(<= b{k} 3)"
        if stays:
            lines += [f"(declare-const b{k} {sort})", f"(check-sat-assuming ({ends if sort == 'Bool' else 'p'}))"]
        else:
            lines += ["(push 1)", f"(declare-const b{k} {sort})", f"(assert {about})", f"(assert {ends})", "(check-sat)", "(pop 1)"]
    return lines


def small(count, checks, r):
    """Small checks over a base of bounds and of differences of neighbours."""
    lines = integers(f"x{k}" for k in range(count))
    lines += [f"(assert (<= 0 x{k} {10 * count}))" for k in range(count)]
    lines += [f"(assert (<= x{k} (+ x{k + 1} {r.randint(0, 20)})))" for k in range(0, count - 1, 3)]
    for _ in range(checks):
        a, b, c = r.sample(range(count), 3)
        lines += ["(push 1)", f"(assert (or (< (+ x{a} {r.randint(0, 50)}) x{b}) (< (+ x{b} {r.randint(0, 50)}) x{c})))"]
        lines += [f"(assert (<= x{c} (+ x{a} {r.randint(0, 9)})))", "(check-sat)", "(pop 1)"]
    return lines


def ticket(threads, steps, right, r):
    """A ticket lock: so many threads, one of which goes on in each step; two are never inside at once. Which of them asks first is drawn."""
    lines = integers([f"{x}_{t}" for x in ("next", "serving") for t in range(steps + 1)] + [f"{x}_{p}_{t}" for x in ("place", "ticket") for p in range(threads) for t in range(steps + 1)])
    lines.append("(assert (and (= next_0 0) (= serving_0 0)))")
    lines += [f"(assert (and (= place_{p}_0 0) (= ticket_{p}_0 {number(-1)})))" for p in range(threads)]
    lines.append(f"(assert (= place_{r.randrange(threads)}_1 1))")
    for t in range(steps):
        moves = []
        for p in range(threads):
            rest = " ".join(f"(= place_{q}_{t + 1} place_{q}_{t}) (= ticket_{q}_{t + 1} ticket_{q}_{t})" for q in range(threads) if q != p)
            take = f"(and (= place_{p}_{t} 0) (= place_{p}_{t + 1} 1) (= ticket_{p}_{t + 1} next_{t}) (= next_{t + 1} (+ next_{t} 1)) (= serving_{t + 1} serving_{t}))"
            meets = f"(= ticket_{p}_{t} serving_{t})" if right else f"(<= ticket_{p}_{t} (+ serving_{t} 1))"
            enter = f"(and (= place_{p}_{t} 1) {meets} (= place_{p}_{t + 1} 2) (= ticket_{p}_{t + 1} ticket_{p}_{t}) (= next_{t + 1} next_{t}) (= serving_{t + 1} serving_{t}))"
            leave = f"(and (= place_{p}_{t} 2) (= place_{p}_{t + 1} 0) (= ticket_{p}_{t + 1} ticket_{p}_{t}) (= next_{t + 1} next_{t}) (= serving_{t + 1} (+ serving_{t} 1)))"
            moves.append(f"(and {rest} (or {take} {enter} {leave}))")
        lines.append(f"(assert (or {' '.join(moves)}))")
    bad = [f"(and (= place_{p}_{steps} 2) (= place_{q}_{steps} 2))" for p in range(threads) for q in range(p)]
    return lines + [f"(assert (or {' '.join(bad)}))", "(check-sat)"]


def made(size, r):
    """The script of `gen`."""
    return generated.script(r.randrange(1000), size).splitlines()[2:]


# of each family the sizes of its eight scripts
FAMILIES = {
    bounds: ((10, 2000), (30, 1000), (100, 500), (300, 200), (1000, 100), (2000, 50), (4000, 20), (10000, 5)),
    differences: ((20, 6), (20, 8), (30, 6), (30, 7), (40, 6), (40, 7), (60, 5), (60, 6)),
    shop: ((5, 5, 1.0), (6, 6, 1.1), (8, 6, 1.1), (8, 8, 1.1), (8, 8, 1.3), (10, 8, 1.2), (12, 8, 1.2), (12, 10, 1.3)),
    mixture: ((10, 50), (20, 50), (30, 50), (50, 50), (70, 50), (100, 50), (150, 50), (200, 50)),
    made: ((20,), (50,), (100,), (200,), (400,), (700,), (1000,), (2000,)),
    distinct: ((100, "S", 0), (1000, "S", 0), (5000, "S", 0), (100, "Int", 0), (200, "Int", 0), (1000, "Int", 0), (5000, "Int", 0), (300, "Int", 2)),
    diamonds: ((50,), (100,), (200,), (400,), (700,), (1000,), (1500,), (2000,)),
    pigeons: ((4,), (5,), (6,), (7,), (8,), (9,), (10,), (11,)),
    drawn: ((100, 4.26), (150, 4.26), (175, 4.26), (200, 4.26), (212, 4.26), (224, 4.26), (236, 4.26), (250, 4.26)),
    parity: ((16,), (20,), (24,), (28,), (30,), (32,), (34,), (36,)),
    quasigroup: ((6, 25), (8, 40), (10, 60), (12, 90), (14, 120), (14, 130), (16, 160), (18, 200)),
    hashes: ((4, 1, True), (5, 1, True), (6, 1, True), (7, 1, True), (16, 2, False), (24, 2, False), (32, 2, False), (38, 2, False)),
    slacks: ((4, 2, 20), (6, 3, 20), (8, 4, 30), (10, 5, 30), (15, 8, 50), (20, 10, 50), (30, 15, 50), (40, 20, 100)),
    magic: ((3, 0), (3, 1), (3, 2), (4, 8), (4, 6), (4, 5), (4, 4), (4, 3)),
    ticket: ((2, 6, 1), (2, 10, 1), (3, 8, 1), (3, 10, 1), (3, 8, 0), (3, 12, 0), (4, 8, 1), (4, 10, 0)),
    small: ((50, 1000), (100, 1000), (200, 500), (500, 200), (1000, 100), (1000, 500), (1000, 5000), (4000, 50)),
    rounds: ((2000, "Bool", False), (5000, "Bool", False), (20000, "Bool", False), (5000, "Int", False), (20000, "Int", False), (2000, "Bool", True), (5000, "Bool", True), (5000, "Int", True)),
}

# those in which forgetting learnt clauses decides
FORGETTING = ("drawn", "parity", "quasigroup", "pigeons")


def scripts():
    return [(make.__name__, f"{make.__name__}-{at}") for make, sizes in FAMILIES.items() for at in range(len(sizes))]


def write_all(folder, seed):
    os.makedirs(folder, exist_ok=True)
    for make, sizes in FAMILIES.items():
        for at, size in enumerate(sizes):
            write(folder, f"{make.__name__}-{at}", make(*size, random.Random(f"{seed} {make.__name__} {at}")))


def command(name, program):
    if name.startswith("cvc5"):
        return [program, "--incremental"]
    return [program, "-in"] if name.startswith("z3") else program.split()


def measured(words, script, seconds, by_clock):
    """The answers, the seconds of processor time, or of the clock, and the MB at most, and whether all came."""

    def limited():
        resource.setrlimit(resource.RLIMIT_CPU, (64 * seconds if by_clock else seconds, 64 * seconds + 1))
        resource.setrlimit(resource.RLIMIT_AS, (4 << 30, 4 << 30))

    with open(script) as text:
        wanted = text.read().count("(check-sat")
    words = ["timeout", str(seconds), *words] if by_clock else words
    began = time.monotonic()
    with open(script) as given, subprocess.Popen(words, stdin=given, stdout=subprocess.PIPE, stderr=subprocess.DEVNULL, preexec_fn=limited) as ran:
        said = ran.stdout.read().decode(errors="replace")
        _, _, used = os.wait4(ran.pid, 0)
        ran.returncode = 0
    answers = [line for line in said.split("\n") if line in ("sat", "unsat", "unknown")]
    spent = time.monotonic() - began if by_clock else used.ru_utime + used.ru_stime
    return {"answers": answers, "seconds": round(spent, 3), "mb": used.ru_maxrss // 1024, "whole": len(answers) == wanted and "unknown" not in answers and spent < seconds}


def run(folder, seconds, programs, by_clock=False):
    for given in programs:
        name, program = given.split("=", 1)
        file = f"{folder}/{name}.json"
        kept = json.load(open(file)) if os.path.exists(file) else {}
        for family, script in scripts():
            if script not in kept and (not by_clock or family in FORGETTING):
                kept[script] = measured(command(name, program), f"{folder}/{script}.smt2", seconds, by_clock)
                with open(file, "w") as out:
                    json.dump(kept, out)
        print(name, sum(it["whole"] for it in kept.values()), "of", len(kept))


def table(folder, names):
    kept = {name: json.load(open(f"{folder}/{name}.json")) for name in names}
    print("| family | " + " | ".join(f"{name}, answered | seconds" for name in names) + " |")
    print("|---" * (1 + 2 * len(names)) + "|")
    for family in [*[make.__name__ for make in FAMILIES], ""]:
        row = []
        for name in names:
            mine = [kept[name][script] for of, script in scripts() if (of == family or not family) and script in kept[name]]
            mean = math.exp(sum(math.log(max(it["seconds"], 0.01) if it["whole"] else 10) for it in mine) / len(mine)) if mine else 0
            row.append(f"{sum(it['whole'] for it in mine)} of {len(mine)} | {mean:.3f}")
        print(f"| {family or 'all'} | " + " | ".join(row) + " |")
    for name in names[1:]:
        for _, script in scripts():
            one, other = kept[names[0]].get(script), kept[name].get(script)
            for at, (a, b) in enumerate(zip(one["answers"], other["answers"]) if one and other else ()):
                if a != b and "unknown" not in (a, b):
                    print(f"{script}: answer {at} is {a} by {names[0]}, {b} by {name}")


if __name__ == "__main__":
    if sys.argv[1] == "write":
        write_all(sys.argv[2], sys.argv[3])
    elif sys.argv[1] in ("run", "clock"):
        run(sys.argv[2], int(sys.argv[3]), sys.argv[4:], sys.argv[1] == "clock")
    else:
        table(sys.argv[2], sys.argv[3:])
