#!/usr/bin/env python3
"""Scripts with `div`, `mod`, `abs` and `(_ divisible n)` by numerals, with answers from elsewhere.

divisions.py values         a script of values over both signs and the ends of the range, and the replies that it must give (values.smt2, values.out)
divisions.py drawn P S N    N drawn scripts of seed S to the program P: each answer against z3's, each model's values against the definition
divisions.py stored S N     the lines that the stored run of smt_cli has of divisions, and the replies (stored.smt2, stored.out): rows by hand, values, and N drawn
                            scripts of seed S with z3's answers
divisions.py speed P        the measured families, beside z3 and cvc5: seconds each, or a dash past ten
"""
import random
import re
import subprocess
import sys
import time

MAX = 2**127 - 1


def quotient(a, n):
    """The q of a = n * q + r with 0 <= r < |n|."""
    q = abs(a) // abs(n)
    r = abs(a) - q * abs(n)
    if a < 0:
        q, r = (-q, 0) if r == 0 else (-q - 1, abs(n) - r)
    assert 0 <= r < abs(n)
    return (q, r) if n > 0 else (-q, r)


def number(n):
    return str(n) if n >= 0 else f"(- {-n})"


def values():
    asked, told = terms([0, 1, 2, 3, 5, 6, 7, 12, 100, 2**31, 2**64 + 1, MAX - 1, MAX], [1, 2, 3, 7, 2**32, MAX - 1, MAX])
    with open("values.smt2", "w", encoding="utf-8") as it:
        print("(set-option :print-success false)\n(set-option :produce-models true)\n(check-sat)", file=it)
        for term in asked:
            print(f"(get-value ({term}))", file=it)
    with open("values.out", "w", encoding="utf-8") as it:
        print("sat", file=it)
        for line in told:
            print(f"({line})", file=it)
    print(len(asked), "values")


def terms(numbers, divisors):
    """Terms over these and their negations, and what `get-value` says of each."""
    numbers = numbers + [-n for n in numbers if n]
    divisors = divisors + [-n for n in divisors]
    asked, told = [], []
    for a in numbers:
        for n in divisors:
            q, r = quotient(a, n)
            term = f"(div {number(a)} {number(n)})", f"(mod {number(a)} {number(n)})"
            asked += term
            told += [f"({term[0]} {number(q)})", f"({term[1]} {number(r)})"]
            if n > 0:
                asked.append(f"((_ divisible {n}) {number(a)})")
                told.append(f"(((_ divisible {n}) {number(a)}) {'true' if r == 0 else 'false'})")
        asked.append(f"(abs {number(a)})")
        told.append(f"((abs {number(a)}) {number(abs(a))})")
    return asked, told


def drawn_term(random, depth):
    """An Int term over x, y and z, and the function of the three that it is."""
    kind = random.randrange(9 if depth else 2)
    if kind == 0:
        at = random.randrange(3)
        return "xyz"[at], lambda v: v[at]
    if kind == 1:
        n = random.randint(-9, 9)
        return number(n), lambda v: n
    s, f = drawn_term(random, depth - 1)
    if kind in (2, 3):
        t, g = drawn_term(random, depth - 1)
        return (f"(+ {s} {t})", lambda v: f(v) + g(v)) if kind == 2 else (f"(- {s} {t})", lambda v: f(v) - g(v))
    if kind == 4:
        n = random.randint(-4, 4)
        return f"(* {number(n)} {s})", lambda v: n * f(v)
    if kind == 5:
        return f"(abs {s})", lambda v: abs(f(v))
    n = random.choice([n for n in range(-9, 10) if n])
    if kind == 6:
        return f"(mod {s} {number(n)})", lambda v: quotient(f(v), n)[1]
    if kind == 7:
        return f"(div {s} {number(n)})", lambda v: quotient(f(v), n)[0]
    m = random.choice([n for n in range(-5, 6) if n])
    return f"(div {s} {number(n)} {number(m)})", lambda v: quotient(quotient(f(v), n)[0], m)[0]


HEAD = re.compile(r"\(\(_ divisible (\d+)\) ")


def by_remainder(script):
    """The script with each divisibility as a remainder of 0, for a solver that doesn't read the head."""
    while found := HEAD.search(script):
        at, depth = found.end(), 1
        while depth:
            depth += {"(": 1, ")": -1}.get(script[at], 0)
            at += 1
        script = f"{script[:found.start()]}(= 0 (mod {script[found.end():at - 1]} {found[1]})){script[at:]}"
    return script


def drawn_atom(random):
    op = random.choice(["=", "<=", "<", "distinct", "divisible", "not divisible"])
    if op.endswith("divisible"):
        n = random.randint(1, 9)
        s, f = drawn_term(random, 3)
        if op == "divisible":
            return f"((_ divisible {n}) {s})", lambda v: quotient(f(v), n)[1] == 0
        return f"(not ((_ divisible {n}) {s}))", lambda v: quotient(f(v), n)[1] != 0
    s, f = drawn_term(random, 3)
    t, g = drawn_term(random, 2)
    holds = {"=": lambda a, b: a == b, "<=": lambda a, b: a <= b, "<": lambda a, b: a < b, "distinct": lambda a, b: a != b}[op]
    return f"({op} {s} {t})", lambda v: holds(f(v), g(v))


def drawn_script(picks):
    """The bound of the three constants, what is asserted of them, and the declarations and assertions."""
    bound = picks.choice([5, 20, 100])
    asserted = []
    for _ in range(picks.randint(1, 5)):
        atoms = [drawn_atom(picks) for _ in range(picks.randint(1, 2))]
        asserted.append(("(or " + " ".join(a for a, _ in atoms) + ")" if len(atoms) > 1 else atoms[0][0], [h for _, h in atoms]))
    script = "".join(f"(declare-const {n} Int)(assert (<= (- {bound}) {n} {bound}))\n" for n in "xyz")
    return bound, asserted, script + "".join(f"(assert {a})\n" for a, _ in asserted) + "(check-sat)\n"


# Scripts by hand, with what they must give.
ROWS = [
    (
        "(declare-const x Int)(assert (= x (- 7)))(check-sat)(get-value ((div x 2) (mod x 2) (div x (- 2)) (mod x (- 2)) (abs x) ((_ divisible 7) x) (div 100 7 2)))",
        ["sat", "(((div x 2) (- 4)) ((mod x 2) 1) ((div x (- 2)) 4) ((mod x (- 2)) 1) ((abs x) 7) (((_ divisible 7) x) true) ((div 100 7 2) 7))"],
    ),
    ("(declare-const x Int)(assert (and (<= 0 x 10) (= (mod x 3) 2) ((_ divisible 5) x)))(check-sat)(get-value (x))", ["sat", "((x 5))"]),
    (
        "(declare-const x Int)(assert (= x (div x 0)))(assert (= x (mod x 2 3)))(assert ((_ divisible 0) x))(assert (= 1 (div x x)))(assert (= 1 (* x (div 4 2))))",
        ['(error "E16 not linear")', '(error "E14 number of arguments: mod")', '(error "E8 wrong arguments: assert")', '(error "E16 not linear")', '(error "E16 not linear")'],
    ),
    (
        "(declare-const x Int)(assert ((_ divisible) x))(assert ((_ divisible 3 3) x))(assert ((_ divisible x) x))(assert ((_ divides 3) x))(assert ((_ divisible 170141183460469231731687303715884105728) y))"
        "(assert ((_ divisible 170141183460469231731687303715884105728 1) y))(assert ((_ divisible 0) y))(assert (_ divisible 3))(assert ((_ divisible 3) y))(assert ((_ divisible 3)))(assert ((_ divisible 3) x x))"
        "(assert ((_ divisible 3) true))(assert ((_ divisible 3) ((_ divisible 2) x)))(assert ((_ divisible 3) (* x x)))(assert (() x))(assert ((as divisible Bool) x))",
        ['(error "E8 wrong arguments: assert")'] * 4
        + ['(error "E5 numeral past 128 bits")']
        + ['(error "E8 wrong arguments: assert")'] * 2
        + ['(error "E13 unknown symbol: _")', '(error "E13 unknown symbol: y")']
        + ['(error "E14 number of arguments: divisible")'] * 2
        + ['(error "E15 sorts differ: divisible")'] * 2
        + ['(error "E16 not linear")']
        + ['(error "E8 wrong arguments: assert")'] * 2,
    ),
    (
        "(declare-const divisible Int)(define-fun even ((y Int)) Bool ((_ |divisible| 2) y))(assert (let ((n 3)) (! ((_ divisible 2) 4) :named two)))(assert (xor (even divisible) (even (+ divisible 1))))(check-sat)"
        "(assert (= (even divisible) (even (+ divisible 1))))(check-sat)(get-value (two))",
        ["sat", "unsat", '(error "E20 no model")'],
    ),
    ("(declare-const x Int)(assert (and ((_ divisible 6) x) ((_ divisible 10) x) (not ((_ divisible 30) x)) (<= (- 1000) x 1000)))(check-sat)", ["unsat"]),
    ("(declare-const x Int)(assert (and ((_ divisible 4) x) ((_ divisible 6) x) (not ((_ divisible 24) x)) (< 0 x 30)))(check-sat)(get-value (x))", ["sat", "((x 12))"]),
]


def stored(seed, count):
    begin = "(reset)\n(set-option :print-success false)\n(set-option :reproducible-resource-limit 0)\n(set-option :produce-models true)\n"
    lines, told = ["; Divisions: rows by hand, and what is refused."], []
    for script, replies in ROWS:
        lines.append(begin + script)
        told += ["success", *replies]
    asked, values = terms([0, 1, 5, 7, 100, 2**64 + 1, MAX], [1, 2, 3, 7, 2**32, MAX])
    lines += ["; Values over both signs and at the ends of the range.", begin + "(check-sat)"] + [f"(get-value ({term}))" for term in asked]
    told += ["success", "sat"] + [f"({value})" for value in values]
    lines += [f"; {count} drawn scripts with divisions; the answers are another solver's."]
    picks = random.Random(seed)
    for _ in range(count):
        script = drawn_script(picks)[2]
        lines += [begin + script.rstrip("\n")]
        answer = subprocess.run(["z3", "-in", "-T:60"], input="(set-logic QF_LIA)\n" + by_remainder(script), capture_output=True, text=True, timeout=120).stdout.split("\n")[0]
        told += ["success", answer]
    lines += ["(reset)"]
    told += ["success"]
    with open("stored.smt2", "w", encoding="utf-8") as it:
        print("\n".join(lines), file=it)
    with open("stored.out", "w", encoding="utf-8") as it:
        print("\n".join(told), file=it)
    print(len(asked), "values,", told.count("sat"), "sat,", told.count("unsat"), "unsat")


def drawn(program, seed, count):
    picks = random.Random(seed)
    wrong = told = sats = 0
    for at in range(count):
        bound, asserted, script = drawn_script(picks)
        script = "(set-option :print-success false)\n(set-option :produce-models true)\n(set-logic QF_UFLIA)\n" + script
        ours = subprocess.run([*program.split()], input=script + "(get-value (x y z))\n", capture_output=True, text=True, timeout=120).stdout.split("\n")
        other = subprocess.run(["z3", "-in", "-T:60"], input=by_remainder(script.replace("QF_UFLIA", "QF_LIA")), capture_output=True, text=True, timeout=120).stdout.split("\n")
        ok = ours[0] == other[0]
        if ok and ours[0] == "sat":
            sats += 1
            words = ours[1].replace("(- ", "-").replace("(", " ").replace(")", " ").split()
            v = [int(words[1]), int(words[3]), int(words[5])]
            ok = all(abs(n) <= bound for n in v) and all(any(h(v) for h in hs) for _, hs in asserted)
        told += ok
        if not ok:
            wrong += 1
            print(f"script {at}: {ours[:2]} and not {other[:1]}")
            with open(f"wrong{seed}-{at}.smt2", "w", encoding="utf-8") as it:
                it.write(script)
    print(f"{told} of {count} as they must be ({sats} sat), {wrong} not")
    return wrong


def counter(steps, modulo, holds):
    """A counter from 0, one more each step, modulo a number; where it stands after the steps, or elsewhere."""
    lines = ["(declare-const c0 Int)(assert (= c0 0))"]
    for i in range(steps):
        lines.append(f"(declare-const c{i+1} Int)(assert (= c{i+1} (mod (+ c{i} 1) {modulo})))")
    end = steps % modulo
    lines.append(f"(assert (= c{steps} {end}))" if holds else f"(assert (distinct c{steps} {end}))")
    return "\n".join(lines)


def free_counter(steps, modulo):
    """The same, each step one or two more as a Bool says: it comes to modulo - 1."""
    lines = ["(declare-const c0 Int)(assert (= c0 0))"]
    for i in range(steps):
        lines.append(f"(declare-const b{i} Bool)(declare-const c{i+1} Int)(assert (= c{i+1} (mod (+ c{i} (ite b{i} 1 2)) {modulo})))")
    lines.append(f"(assert (= c{steps} {modulo - 1}))")
    return "\n".join(lines)


def hashed(words, target):
    """A hash of so many bytes modulo 2^16 that comes to a number."""
    lines = ["(declare-const h0 Int)(assert (= h0 17))"]
    for i in range(words):
        lines.append(f"(declare-const w{i} Int)(assert (<= 0 w{i} 255))(declare-const h{i+1} Int)(assert (= h{i+1} (mod (+ (* 31 h{i}) w{i}) 65536)))")
    lines.append(f"(assert (= h{words} {target}))")
    return "\n".join(lines)


def calendar(days, weekday):
    """A day of a year of months of 30 days that is such a day of the week."""
    return f"""(declare-const d Int)(assert (<= 0 d {days}))(declare-const year Int)(declare-const month Int)(declare-const day Int)
(assert (= year (div d 365)))(assert (= month (div (mod d 365) 30)))(assert (= day (mod (mod d 365) 30)))
(assert (= (mod d 7) {weekday}))(assert (= day 12))(assert (= month 6))(assert (>= year 3))"""


FAMILIES = (
    [(f"counter {m}, 50 steps, forced", counter(50, m, False)) for m in (2, 3, 5, 7)]
    + [(f"counter {m}, 50 steps, held", counter(50, m, True)) for m in (2, 3, 5, 7)]
    + [(f"free counter {m}, {n} steps", free_counter(n, m)) for m in (3, 7) for n in (12, 50)]
    + [(f"hash of {n}", hashed(n, t)) for n, t in ((2, 16432), (3, 4242), (4, 60000), (8, 12345), (16, 54321))]
    + [(f"calendar {w}", calendar(10000, w)) for w in (0, 3)]
    + [("7 x = 5 mod 31", "(declare-const x Int)(assert (<= 0 x 1000))(assert (= (mod (* 7 x) 31) 5))"), ("6 x = 5 mod 9", "(declare-const x Int)(assert (<= 0 x 100000))(assert (= (mod (* 6 x) 9) 5))")]
)


def timed(words, script):
    start = time.time()
    try:
        got = subprocess.run(words, input=script, capture_output=True, text=True, timeout=10).stdout.split("\n")[0]
    except subprocess.TimeoutExpired:
        return "-", 10.0
    return got, time.time() - start


def speed(program):
    print(f"{'script':34} {'ours':>14} {'z3':>14} {'cvc5':>14}")
    for name, body in FAMILIES:
        script = "(set-option :print-success false)\n(set-logic QF_LIA)\n" + body + "\n(check-sat)\n"
        told = [timed(words, script) for words in (program.split(), ["z3", "-in"], ["cvc5", "--lang", "smt2", "-"])]
        print(f"{name:34} " + " ".join(f"{a:>7} {s:6.2f}" for a, s in told), flush=True)


if __name__ == "__main__":
    if sys.argv[1] == "values":
        values()
    elif sys.argv[1] == "stored":
        stored(int(sys.argv[2]), int(sys.argv[3]))
    elif sys.argv[1] == "drawn":
        sys.exit(drawn(sys.argv[2], int(sys.argv[3]), int(sys.argv[4])) > 0)
    else:
        speed(sys.argv[2])
