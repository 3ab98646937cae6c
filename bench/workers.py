#!/usr/bin/env python3
"""Writes forty scripts that one worker decides in some tenths of a second to some seconds, of ten families, and one of 10,000 trivial checks, into a folder. Use: bench/workers.py FOLDER"""
import os
import random
import sys


def number(n):
    return str(n) if n >= 0 else f"(- {-n})"


def integers(names):
    return [f"(declare-const {name} Int)" for name in names]


def booleans(names):
    return [f"(declare-const {name} Bool)" for name in names]


def clauses(count, rows):
    """Clauses in DIMACS' way."""
    lines = booleans(f"x{k}" for k in range(1, count + 1))
    for row in rows:
        words = [f"x{l}" if l > 0 else f"(not x{-l})" for l in row]
        lines.append(f"(assert {words[0]})" if len(words) == 1 else f"(assert (or {' '.join(words)}))")
    return lines + ["(check-sat)"]


def pigeons(holes, r):
    """One pigeon more than holes."""
    place = lambda i, j: i * holes + j + 1
    rows = [[place(i, j) for j in range(holes)] for i in range(holes + 1)]
    rows += [[-place(i, j), -place(k, j)] for j in range(holes) for i in range(holes + 1) for k in range(i)]
    return clauses((holes + 1) * holes, rows)


def drawn(count, ratio, r):
    """Clauses of three literals."""
    rows = []
    for _ in range(int(count * ratio)):
        rows.append([a if r.random() < 0.5 else -a for a in r.sample(range(1, count + 1), 3)])
    return clauses(count, rows)


def parity(count, r):
    """The sum modulo 2 of the same constants in two orders, said to differ."""
    rows, last, ends = [], count, []
    for turn in range(2):
        order = list(range(1, count + 1))
        if turn:
            r.shuffle(order)
        total = order[0]
        for x in order[1:]:
            last += 1
            rows += [[-total, -x, -last], [total, x, -last], [-total, x, last], [total, -x, last]]
            total = last
        ends.append(total)
    return clauses(last, rows + [[ends[0]], [-ends[1]]])


def shop(jobs, machines, room, r):
    """A job shop: each job goes by all machines in an order of its own, until a horizon above the least that one job or machine needs."""
    lines = integers(f"s{j}_{m}" for j in range(jobs) for m in range(machines))
    length = {(j, m): r.randint(1, 9) for j in range(jobs) for m in range(machines)}
    least = max(
        max(sum(length[j, m] for m in range(machines)) for j in range(jobs)),
        max(sum(length[j, m] for j in range(jobs)) for m in range(machines)),
    )
    for j in range(jobs):
        order = list(range(machines))
        r.shuffle(order)
        lines.append(f"(assert (<= 0 s{j}_{order[0]}))")
        for a, b in zip(order, order[1:]):
            lines.append(f"(assert (<= (+ s{j}_{a} {length[j, a]}) s{j}_{b}))")
        lines.append(f"(assert (<= (+ s{j}_{order[-1]} {length[j, order[-1]]}) {int(least * room)}))")
    for m in range(machines):
        for j in range(jobs):
            for k in range(j):
                lines.append(
                    f"(assert (or (<= (+ s{j}_{m} {length[j, m]}) s{k}_{m}) (<= (+ s{k}_{m} {length[k, m]}) s{j}_{m})))"
                )
    return lines + ["(check-sat)"]


def differences(count, ratio, r):
    """Of two drawn differences one holds."""
    lines = integers(f"x{k}" for k in range(count))
    for _ in range(int(count * ratio)):
        parts = []
        for _ in range(2):
            a, b = r.sample(range(count), 2)
            parts.append(f"(<= (- x{a} x{b}) {number(r.randint(-100, 100))})")
        lines.append(f"(assert (or {' '.join(parts)}))")
    return lines + ["(check-sat)"]


def diamonds(count, r):
    """A chain of equalities by one of two ways each, whose ends aren't equal."""
    lines = ["(declare-sort S 0)"] + [f"(declare-const {x}{k} S)" for k in range(count + 1) for x in "abc"]
    for k in range(count):
        ways = [f"(and (= a{k} {x}{k}) (= {x}{k} a{k + 1}))" for x in r.sample("bc", 2)]
        lines.append(f"(assert (or {' '.join(ways)}))")
    return lines + [f"(assert (not (= a0 a{count})))", "(check-sat)"]


def quasigroup(size, holes, r):
    """A table of a function with each element once in each row and column, where so many places of a drawn table are open, one of which isn't to be filled as it was."""
    lines = ["(declare-sort S 0)", "(declare-fun f (S S) S)"] + [f"(declare-const e{k} S)" for k in range(size)]
    elements = [f"e{k}" for k in range(size)]
    lines.append(f"(assert (distinct {' '.join(elements)}))")
    rows, columns, names = (r.sample(range(size), size) for _ in range(3))
    open_places = set(r.sample([(i, j) for i in range(size) for j in range(size)], holes))
    for i in range(size):
        for j in range(size):
            if (i, j) in open_places:
                lines.append("(assert (or " + " ".join(f"(= (f e{i} e{j}) {e})" for e in elements) + "))")
            else:
                lines.append(f"(assert (= (f e{i} e{j}) e{names[(rows[i] + columns[j]) % size]}))")
    for i in range(size):
        lines.append("(assert (distinct " + " ".join(f"(f e{i} e{j})" for j in range(size)) + "))")
        lines.append("(assert (distinct " + " ".join(f"(f e{j} e{i})" for j in range(size)) + "))")
    i, j = r.choice(sorted(open_places))
    lines.append(f"(assert (distinct (f e{i} e{j}) e{names[(rows[i] + columns[j]) % size]}))")
    return lines + ["(check-sat)"]


def idempotent(size, right, r):
    """A quasigroup in which (ba)b = a or, where that is told so, ((ba)b)b = a."""
    elements = [f"e{k}" for k in range(size)]
    lines = ["(declare-sort S 0)", "(declare-fun f (S S) S)"] + [f"(declare-const {e} S)" for e in elements]
    lines.append(f"(assert (distinct {' '.join(elements)}))")
    for a in elements:
        lines.append(f"(assert (= (f {a} {a}) {a}))")
        for b in elements:
            lines.append("(assert (or " + " ".join(f"(= (f {a} {b}) {e})" for e in elements) + "))")
            inner = f"(f (f {b} {a}) {b})"
            lines.append(f"(assert (= {inner if right else f'(f {inner} {b})'} {a}))")
    for a in elements:
        lines.append("(assert (distinct " + " ".join(f"(f {a} {b})" for b in elements) + "))")
        lines.append("(assert (distinct " + " ".join(f"(f {b} {a})" for b in elements) + "))")
    return lines + ["(check-sat)"]


def hashes(count, functions, same, r):
    """Keys in a small range that differ, functions that keep them apart in that range, and one key more that isn't the image of any by two of the functions: in the same order for each key, which can't be, or in a drawn one."""
    lines = [f"(declare-fun h{k} (Int) Int)" for k in range(functions)]
    keys = [f"x{k}" for k in range(count)]
    lines += integers(keys + ["y"])
    lines += [f"(assert (<= 0 {x} {count - 1}))" for x in keys + ["y"]]
    lines.append(f"(assert (distinct {' '.join(keys)}))")
    for k in range(functions):
        images = [f"(h{k} {x})" for x in keys]
        lines += [f"(assert (<= 0 {image} {count - 1}))" for image in images]
        lines.append(f"(assert (distinct {' '.join(images)}))")
    for x in keys:
        image = x
        for k in range(min(functions, 2)) if same else r.sample(range(functions), 2):
            image = f"(h{k} {image})"
        lines.append(f"(assert (distinct y {image}))")
    return lines + ["(check-sat)"]


def verifier(checks, size, r):
    """Conditions of a loop over arrays, which are functions: indices tied by differences, sums of elements, writes; each is checked for itself over what stands."""
    lines = [f"(declare-fun a{k} (Int) Int)" for k in range(size + 1)]
    lines += integers([f"i{k}" for k in range(size + 1)] + [f"s{k}" for k in range(size + 1)] + ["n", "k", "j", "low"])
    lines.append("(assert (and (= i0 0) (= s0 0) (<= 0 k) (< k n) (<= 0 j) (< j n) (<= 0 low)))")
    for t in range(size):
        lines.append(f"(assert (=> (< i{t} n) (= i{t + 1} (+ i{t} 1))))")
        lines.append(f"(assert (=> (not (< i{t} n)) (= i{t + 1} i{t})))")
        lines.append(f"(assert (= (a{t + 1} i{t}) (ite (< (a{t} i{t}) low) low (a{t} i{t}))))")
        for at in ("k", "j"):
            lines.append(f"(assert (=> (distinct {at} i{t}) (= (a{t + 1} {at}) (a{t} {at}))))")
        lines.append(f"(assert (= s{t + 1} (+ s{t} (a{t + 1} i{t}))))")
    for _ in range(checks):
        t = r.randint(size // 2, size)
        least = r.randint(0, 3)
        claim = r.choice(
            [
                f"(=> (< k i{t}) (>= (a{t} k) low))",
                f"(=> (<= {t} n) (>= s{t} (* {t} low)))",
                f"(=> (and (< k j) (< j i{t})) (>= (+ (a{t} k) (a{t} j)) (* 2 low)))",
                f"(=> (and (< k {t}) (<= {t} n)) (>= (a{t} k) (+ low {least})))",
                f"(=> (and (= k (+ j {least})) (< k i{t})) (>= (a{t} j) low))",
            ]
        )
        lines += ["(push 1)", f"(assert (not {claim}))", "(check-sat)", "(pop 1)"]
    return lines


def trivial(checks, r):
    """Small checks of two Booleans over nothing."""
    lines = booleans("pq")
    for _ in range(checks):
        lines += ["(push 1)", r.choice(["(assert (or p q))", "(assert (and p (not q)))", "(assert (and p (not p)))"]), "(check-sat)", "(pop 1)"]
    return lines


# each size with the seed of its draws
FAMILIES = {
    pigeons: ((9, 1), (10, 1)),
    drawn: ((212, 4.26, 1), (212, 4.26, 2), (224, 4.26, 1), (236, 4.26, 1), (236, 4.26, 2)),
    parity: ((31, 1), (31, 2), (33, 2), (36, 2)),
    shop: ((12, 8, 1.1, 2), (12, 10, 1.2, 1), (14, 8, 1.2, 2), (14, 8, 1.2, 4)),
    differences: ((45, 6.5, 1), (45, 6.5, 2), (50, 6.5, 1), (60, 5.5, 1), (60, 6, 1)),
    diamonds: ((400, 1), (600, 1), (1000, 1), (1500, 1)),
    quasigroup: ((14, 130, 1), (14, 130, 2), (16, 170, 1), (16, 170, 2), (18, 210, 1)),
    idempotent: ((10, True, 1), (12, True, 1), (13, True, 1)),
    hashes: ((7, 1, True, 1), (32, 2, False, 1), (34, 2, False, 1), (38, 2, False, 1)),
    verifier: ((10, 20, 1), (10, 24, 1), (20, 14, 1), (20, 16, 1)),
}


def main(folder):
    os.makedirs(folder, exist_ok=True)
    for make, sizes in FAMILIES.items():
        for at, (*size, seed) in enumerate(sizes):
            write(folder, f"{make.__name__}-{at}", make(*size, random.Random(seed)))
    write(folder, "trivial", trivial(10000, random.Random(1)))


def write(folder, name, lines):
    with open(f"{folder}/{name}.smt2", "w") as out:
        out.write("(set-option :print-success false)\n(set-logic QF_UFLIA)\n" + "\n".join(lines) + "\n")


if __name__ == "__main__":
    main(sys.argv[1])
