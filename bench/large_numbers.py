#!/usr/bin/env python3
"""Scripts with numbers near 2^64 and 2^126, whose sums and products may leave the range.

large_numbers.py drawn P S N    N drawn scripts of seed S to the program P: each `sat` and `unsat` against z3's, and each `unknown` must say that it is incomplete
large_numbers.py script S K     the script K of seed S
"""
import random
import subprocess
import sys

NUMBERS = [0, 1, 2, 3, 5, 2**63, 2**64 - 1, 2**64, 2**64 + 1, 2**125, 2**126 - 1, 2**126, 2**126 + 1, 2**127 - 2, 2**127 - 1]
FACTORS = [2, 3, 5, 2**32, 2**63, 2**64, 2**126, 2**127 - 1]
SECONDS = 60


def numeral(n):
    return str(n) if n >= 0 else f"(- {-n})"


def number(picks):
    return picks.choice(NUMBERS) * picks.choice([1, 1, -1])


def term(picks, names, depth):
    """An Int."""
    kind = picks.randrange(10) if depth else picks.randrange(4)
    if kind < 3:
        return picks.choice(names)
    if kind == 3:
        return numeral(number(picks))
    if kind < 6:
        return f"({picks.choice('+-')} {term(picks, names, depth - 1)} {term(picks, names, depth - 1)})"
    if kind < 8:
        of = picks.choice([*names, f"(f {picks.choice(names)})", term(picks, names, depth - 1)])
        return f"(* {numeral(picks.choice(FACTORS) * picks.choice([1, -1]))} {of})"
    if kind == 8:
        return f"(f {term(picks, names, depth - 1)})"
    return f"(ite {literal(picks, names, 0)} {term(picks, names, depth - 1)} {term(picks, names, depth - 1)})"


def element(picks, names):
    """A term of the declared sort."""
    if picks.randrange(2):
        return f"(h {term(picks, names, 2)})"
    return f"(g {term(picks, names, 1)} {term(picks, names, 2)})"


def literal(picks, names, depth):
    kind = picks.randrange(8)
    if kind < 5 or not depth:
        return f"({picks.choice(['=', '<=', '<', '>', 'distinct'])} {term(picks, names, depth)} {term(picks, names, depth)})"
    if kind == 5:
        return f"(p {term(picks, names, depth)})"
    if kind == 6:
        return f"(not (p {term(picks, names, depth)}))"
    return f"({picks.choice(['=', 'distinct'])} {element(picks, names)} {element(picks, names)})"


def assertion(picks, names):
    literals = [literal(picks, names, 2) for _ in range(picks.choice([1, 1, 2]))]
    return f"(assert {literals[0]})" if len(literals) == 1 else f"(assert (or {' '.join(literals)}))"


def drawn_script(picks):
    """The commands of a script but for its checks, which stand as `?`."""
    names = ["x", "y", "z"][: picks.randint(1, 3)]
    lines = ["(declare-sort U 0)", "(declare-fun f (Int) Int)", "(declare-fun g (Int Int) U)", "(declare-fun h (Int) U)", "(declare-fun p (Int) Bool)"]
    lines += [f"(declare-const {name} Int)" for name in names]
    levels = 0
    for _ in range(picks.randint(1, 4)):
        lines += [assertion(picks, names) for _ in range(picks.randint(1, 3))]
        if picks.randrange(3) == 0:
            lines.append("(push 1)")
            levels += 1
        elif levels and picks.randrange(2):
            lines.append("(pop 1)")
            levels -= 1
        lines.append("?")
    return lines


def written(lines, check):
    return "\n".join(check if line == "?" else line for line in lines) + "\n"


def replies(words, script):
    try:
        return subprocess.run(words, input=script, capture_output=True, text=True, timeout=SECONDS).stdout.split("\n")
    except subprocess.TimeoutExpired as late:
        return (late.stdout or b"").decode().split("\n")


def answers(program, lines):
    """The answers of the checks, each with the cause that is told of an `unknown`."""
    script = "(set-option :print-success false)\n(set-logic QF_UFLIA)\n" + written(lines, "(check-sat)\n(get-info :reason-unknown)")
    told = replies(program.split(), script)
    found = []
    for at, line in enumerate(told[:-1]):
        if line in ("sat", "unsat"):
            found.append(line)
        elif line == "unknown":
            found.append(told[at + 1])
    return found


def drawn(program, seed, count):
    picks = random.Random(seed)
    counts = {}
    wrong = 0
    for at in range(count):
        lines = drawn_script(picks)
        ours = answers(program, lines)
        other = [line for line in replies(["z3", "-in", "-T:60"], "(set-logic QF_UFLIA)\n" + written(lines, "(check-sat)")) if line in ("sat", "unsat", "unknown")]
        if len(ours) < lines.count("?"):
            ours.append("late")
        for k, mine in enumerate(ours):
            theirs = other[k] if k < len(other) else "late"
            counts[mine] = counts.get(mine, 0) + 1
            fits = mine == theirs or "incomplete" in mine or mine == "late" or (mine in ("sat", "unsat") and theirs in ("unknown", "late"))
            if not fits:
                wrong += 1
            if not fits or mine == "late":
                print(f"script {at}, check {k}: {mine}, z3 {theirs}", flush=True)
    print(counts, wrong, "wrong")
    return wrong


if __name__ == "__main__":
    if sys.argv[1] == "drawn":
        sys.exit(drawn(sys.argv[2], int(sys.argv[3]), int(sys.argv[4])) > 0)
    picked = random.Random(int(sys.argv[2]))
    for _ in range(int(sys.argv[3])):
        drawn_script(picked)
    print("(set-option :print-success false)\n(set-logic QF_UFLIA)\n" + written(drawn_script(picked), "(check-sat)\n(get-info :reason-unknown)"), end="")
