#!/usr/bin/env python3
"""Writes scripts in which integers are tied by differences, of eight families, into a folder. Use: bench/differences.py FOLDER SEED"""
import os
import random
import sys

folder, seed = sys.argv[1], int(sys.argv[2])
os.makedirs(folder, exist_ok=True)


def number(n):
    return str(n) if n >= 0 else f"(- {-n})"


def integers(names):
    return [f"(declare-const {name} Int)" for name in names]


def write(name, lines):
    with open(f"{folder}/{name}.smt2", "w") as out:
        out.write("(set-option :print-success false)\n(set-logic QF_UFLIA)\n" + "\n".join(lines) + "\n")


def bounds(count, checks, r):
    """Constants with nothing but bounds, checked again and again with one bound more."""
    lines = integers(f"x{k}" for k in range(count))
    low = [r.randint(-1000, 1000) for _ in range(count)]
    high = [least + r.randint(0, 2000) for least in low]
    for k in range(count):
        lines.append(f"(assert (<= {number(low[k])} x{k} {number(high[k])}))")
    for _ in range(checks):
        k = r.randrange(count)
        at = r.randint(low[k] - 200, high[k])
        lines += ["(push 1)", f"(assert (<= x{k} {number(at)}))", "(check-sat)", "(pop 1)"]
    return lines


def chain(count, checks, r):
    """Constants in a row, each some way above the one before, all between bounds; the room at the end is drawn."""
    lines = integers(f"x{k}" for k in range(count + 1))
    steps = [r.randint(1, 9) for _ in range(count)]
    for k, step in enumerate(steps):
        lines.append(f"(assert (<= (+ x{k} {step}) x{k + 1}))")
    lines.append("(assert (<= 0 x0))")
    for _ in range(checks):
        k = r.randrange(count // 2, count + 1)
        lines += ["(push 1)", f"(assert (<= x{k} {sum(steps[:k]) + r.randint(-2, 2)}))", "(check-sat)", "(pop 1)"]
    return lines


def shop(jobs, machines, room, r):
    """A job shop: each job goes by all machines in an order of its own, until a horizon above the least that one job or machine needs."""
    names = [f"s{j}_{m}" for j in range(jobs) for m in range(machines)]
    lines = integers(names)
    length = {(j, m): r.randint(1, 9) for j in range(jobs) for m in range(machines)}
    least = max(
        max(sum(length[j, m] for m in range(machines)) for j in range(jobs)),
        max(sum(length[j, m] for j in range(jobs)) for m in range(machines)),
    )
    horizon = int(least * room)
    for j in range(jobs):
        order = list(range(machines))
        r.shuffle(order)
        lines.append(f"(assert (<= 0 s{j}_{order[0]}))")
        for a, b in zip(order, order[1:]):
            lines.append(f"(assert (<= (+ s{j}_{a} {length[j, a]}) s{j}_{b}))")
        lines.append(f"(assert (<= (+ s{j}_{order[-1]} {length[j, order[-1]]}) {horizon}))")
    for m in range(machines):
        for j in range(jobs):
            for k in range(j):
                lines.append(
                    f"(assert (or (<= (+ s{j}_{m} {length[j, m]}) s{k}_{m}) (<= (+ s{k}_{m} {length[k, m]}) s{j}_{m})))"
                )
    return lines + ["(check-sat)"]


def temporal(count, ratio, r):
    """A disjunctive temporal problem: of two drawn differences one holds."""
    lines = integers(f"x{k}" for k in range(count))
    for _ in range(int(count * ratio)):
        parts = []
        for _ in range(2):
            a, b = r.sample(range(count), 2)
            parts.append(f"(<= (- x{a} x{b}) {number(r.randint(-100, 100))})")
        lines.append(f"(assert (or {parts[0]} {parts[1]}))")
    return lines + ["(check-sat)"]


def verifier(checks, size, r):
    """Conditions of a loop over arrays, which are functions: indices tied by differences, sums of elements, writes; each is checked for itself over what stands."""
    lines = [f"(declare-fun a{k} (Int) Int)" for k in range(size + 1)]
    lines += integers([f"i{k}" for k in range(size + 1)] + [f"s{k}" for k in range(size + 1)] + ["n", "k", "j", "low"])
    lines.append("(assert (and (= i0 0) (= s0 0) (<= 0 k) (< k n) (<= 0 j) (< j n) (<= 0 low)))")
    for t in range(size):
        lines.append(f"(assert (=> (< i{t} n) (= i{t + 1} (+ i{t} 1))))")
        lines.append(f"(assert (=> (not (< i{t} n)) (= i{t + 1} i{t})))")
        lines.append(f"(assert (= (a{t + 1} i{t}) (ite (< (a{t} i{t}) low) low (a{t} i{t}))))")
        for at in ("k", "j"):
            lines.append(f"(assert (=> (distinct {at} i{t}) (= (a{t + 1} {at}) (a{t} {at}))))")
        lines.append(f"(assert (= s{t + 1} (+ s{t} (a{t + 1} i{t}))))")
    for _ in range(checks):
        t = r.randint(size // 2, size)
        least = r.randint(0, 3)
        claim = r.choice(
            [
                f"(=> (< k i{t}) (>= (a{t} k) low))",
                f"(=> (<= {t} n) (= i{t} {t}))",
                f"(=> (<= {t} n) (>= s{t} (* {t} low)))",
                f"(<= i{t} (+ i{t - 1} 1))",
                f"(=> (and (< k j) (< j i{t})) (>= (+ (a{t} k) (a{t} j)) (* 2 low)))",
                f"(=> (and (< k {t}) (<= {t} n)) (>= (a{t} k) (+ low {least})))",
                f"(=> (and (= k (+ j {least})) (< k i{t})) (>= (a{t} j) low))",
                f"(<= 0 i{t} n)",
            ]
        )
        lines += ["(push 1)", f"(assert (not {claim}))", "(check-sat)", "(pop 1)"]
    return lines


def stores(checks, size, free, r):
    """Writes to an array, which is a function after each, at indices tied by differences; it is read again at each of them and at free ones."""
    lines = [f"(declare-fun a{t} (Int) Int)" for t in range(size + 1)]
    reads = [f"i{t}" for t in range(size)] + [f"k{t}" for t in range(free)]
    lines += integers(reads + [f"v{t}" for t in range(size)] + ["n"])
    lines.append("(assert (and (<= 0 i0) (< i0 n) (= v0 0)))")
    for t in range(size - 1):
        exact = f"(= i{t + 1} (+ i{t} {r.randint(1, 3)}))"
        lines.append(f"(assert {exact})" if r.random() < 0.6 else f"(assert (< i{t} i{t + 1} (+ i{t} 4)))")
        grown = f"(= v{t + 1} (+ v{t} (a{t + 1} i{r.randint(0, t)}) 1))"
        lines.append(f"(assert {grown})" if r.random() < 0.3 else f"(assert (<= v{t} v{t + 1}))")
    for t in range(free):
        lines.append(f"(assert (<= i{r.randrange(size)} k{t} (+ i{r.randrange(size)} {size})))")
    for t in range(size):
        for read in reads:
            lines.append(f"(assert (= (a{t + 1} {read}) (ite (= {read} i{t}) v{t} (a{t} {read}))))")
    for _ in range(checks):
        s, t = sorted(r.sample(range(size), 2))
        k = r.randrange(free)
        claim = r.choice(
            [
                f"(= (a{size} i{s}) v{s})",
                f"(<= (a{size} i{s}) (a{size} i{t}))",
                f"(=> (and (<= i{s} k{k}) (<= k{k} i{t}) (= k{k} i{(s + t) // 2})) (<= v{s} (a{size} k{k}) v{t}))",
                f"(=> (= k{k} (+ i{s} {r.randint(1, 3)})) (or (= (a{size} k{k}) (a{s} k{k})) (<= v{s} (a{size} k{k}))))",
                f"(=> (< k{k} i0) (= (a{size} k{k}) (a0 k{k})))",
                f"(<= (+ i{s} {t - s}) i{t})",
            ]
        )
        lines += ["(push 1)", f"(assert (not {claim}))", "(check-sat)", "(pop 1)"]
    return lines


def ticket(threads, steps, right, r):
    """A ticket lock: so many threads, one of which goes on in each step; two are never inside at once."""
    names = [f"next_{t}" for t in range(steps + 1)] + [f"serving_{t}" for t in range(steps + 1)]
    names += [f"place_{p}_{t}" for p in range(threads) for t in range(steps + 1)]
    names += [f"ticket_{p}_{t}" for p in range(threads) for t in range(steps + 1)]
    lines = integers(names)
    lines.append("(assert (and (= next_0 0) (= serving_0 0)))")
    for p in range(threads):
        lines.append(f"(assert (and (= place_{p}_0 0) (= ticket_{p}_0 {number(-1)})))")
    for t in range(steps):
        moves = []
        for p in range(threads):
            rest = [
                f"(= place_{q}_{t + 1} place_{q}_{t}) (= ticket_{q}_{t + 1} ticket_{q}_{t})" for q in range(threads) if q != p
            ]
            take = f"(and (= place_{p}_{t} 0) (= place_{p}_{t + 1} 1) (= ticket_{p}_{t + 1} next_{t}) (= next_{t + 1} (+ next_{t} 1)) (= serving_{t + 1} serving_{t}))"
            meets = f"(= ticket_{p}_{t} serving_{t})" if right else f"(<= ticket_{p}_{t} (+ serving_{t} 1))"
            enter = f"(and (= place_{p}_{t} 1) {meets} (= place_{p}_{t + 1} 2) (= ticket_{p}_{t + 1} ticket_{p}_{t}) (= next_{t + 1} next_{t}) (= serving_{t + 1} serving_{t}))"
            leave = f"(and (= place_{p}_{t} 2) (= place_{p}_{t + 1} 0) (= ticket_{p}_{t + 1} ticket_{p}_{t}) (= next_{t + 1} next_{t}) (= serving_{t + 1} (+ serving_{t} 1)))"
            moves.append(f"(and {' '.join(rest)} (or {take} {enter} {leave}))")
        lines.append(f"(assert (or {' '.join(moves)}))")
    bad = [f"(and (= place_{p}_{steps} 2) (= place_{q}_{steps} 2))" for p in range(threads) for q in range(p)]
    return lines + [f"(assert (or {' '.join(bad)}))", "(check-sat)"]


def small(count, checks, r):
    """Small checks over a base of bounds and of differences of neighbours."""
    lines = integers(f"x{k}" for k in range(count))
    for k in range(count):
        lines.append(f"(assert (<= 0 x{k} {10 * count}))")
    for k in range(count - 1):
        if k % 3 == 0:
            lines.append(f"(assert (<= x{k} (+ x{k + 1} {r.randint(0, 20)})))")
    for _ in range(checks):
        a, b, c = r.sample(range(count), 3)
        lines += [
            "(push 1)",
            f"(assert (or (< (+ x{a} {r.randint(0, 50)}) x{b}) (< (+ x{b} {r.randint(0, 50)}) x{c})))",
            f"(assert (<= x{c} (+ x{a} {r.randint(0, 9)})))",
            "(check-sat)",
            "(pop 1)",
        ]
    return lines


def draw(name):
    return random.Random(f"{seed} {name}")


def put(family, size, make):
    name = f"{family}-{size}"
    write(name, make(draw(name)))


for count, checks in ((10, 2000), (30, 1000), (100, 500), (300, 200), (1000, 100), (2000, 50), (4000, 20), (10000, 5)):
    put("bounds", f"{count:05}", lambda r: bounds(count, checks, r))
for count, checks in ((10, 1000), (30, 500), (100, 200), (200, 100), (400, 50), (1000, 50), (2000, 20), (4000, 5)):
    put("chain", f"{count:05}", lambda r: chain(count, checks, r))
for jobs, machines, room in ((5, 5, 1.0), (6, 6, 1.1), (8, 6, 1.1), (8, 8, 1.1), (8, 8, 1.3), (10, 8, 1.2), (12, 8, 1.2), (12, 10, 1.3)):
    put("shop", f"{jobs:02}x{machines:02}-{int(room * 100)}", lambda r: shop(jobs, machines, room, r))
for count, ratio in ((20, 6), (20, 8), (30, 6), (30, 7), (40, 6), (40, 7), (60, 5), (60, 6)):
    put("temporal", f"{count:02}-{ratio}", lambda r: temporal(count, ratio, r))
for checks, size in ((50, 4), (50, 6), (50, 8), (50, 10), (50, 12), (50, 14), (20, 20), (10, 30)):
    put("verifier", f"{size:02}", lambda r: verifier(checks, size, r))
for size, free, part in ((6, 2, 1), (8, 3, 1), (10, 3, 1), (10, 3, 2), (12, 3, 1), (12, 3, 2), (14, 4, 1), (14, 4, 2)):
    put("stores", f"{size:02}-{part}", lambda r: stores(50, size, free, r))
for threads, steps, right in ((2, 6, 1), (2, 10, 1), (3, 8, 1), (3, 10, 1), (3, 8, 0), (3, 12, 0), (4, 8, 1), (4, 10, 0)):
    put("ticket", f"{threads}-{steps:02}-{'right' if right else 'wrong'}", lambda r: ticket(threads, steps, right, r))
for count, checks in ((50, 1000), (100, 1000), (200, 500), (500, 200), (1000, 100), (1000, 500), (2000, 100), (4000, 50)):
    put("small", f"{count:04}-{checks}", lambda r: small(count, checks, r))
