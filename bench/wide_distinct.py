#!/usr/bin/env python3
"""Drawn scripts with a `distinct` of more than 200 elements or Ints that is an assertion, and equalities and bounds beside it, each answer compared with z3's, where it has one.
Use: bench/wide_distinct.py PROGRAM SEED COUNT [WORD ..], the words for the program, at the top of the repository, after a build; `bench/wide_distinct.py script SEED K` writes the script K."""
import random
import subprocess
import sys


def term(draw, count, depth=2):
    if depth and draw.random() < 0.6:
        return f"(f {term(draw, count, depth - 1)})"
    return f"c{draw.randrange(count)}"


def comparison(draw, count):
    """A bound of an Int, or of the difference of two."""
    left = term(draw, count, 1)
    right = draw.choice([str(draw.randrange(300)), term(draw, count, 1), f"(+ {term(draw, count, 1)} {draw.randrange(1, 4)})"])
    return f"({draw.choice(['<=', '<', '>=', '='])} {left} {right})"


def literal(draw, count, sort):
    if sort == "Int" and draw.random() < 0.5:
        return comparison(draw, count)
    equality = f"(= {term(draw, count)} {term(draw, count)})"
    return equality if draw.random() < 0.9 else f"(not {equality})"


def box(draw, wide):
    """Bounds of the arguments: of some of them, or of all, with room for each and some more."""
    low = draw.randrange(50)
    if draw.random() < 0.4:
        few = draw.sample(wide, draw.randrange(1, 60))
        return [f"(assert (and (<= {low} c{number}) (<= c{number} {low + 2 * len(few)})))" for number in few]
    if draw.random() < 0.5:
        return [f"(assert (<= {low} c{number} {low + 2 * len(wide)}))" for number in wide]
    return []


def script(seed, place):
    """Constants, of which most or all are distinct, and rounds of assertions on levels, each with a check."""
    draw = random.Random(f"{seed} {place}")
    count = draw.randrange(205, 260)
    sort = draw.choice(["U", "Int"])
    lines = [f"(set-option :print-success false)(set-logic QF_UFLIA)(declare-sort U 0)(declare-fun f ({sort}) {sort})"]
    lines += [f"(declare-const c{number} {sort})" for number in range(count)]
    wide = draw.sample(range(count), count - draw.randrange(0, 4))
    kinds = ["c{}", "c{}", "c{}", "(f c{})"] if sort == "U" else ["c{}", "c{}", "c{}", "c{}", "(f c{})", "(+ c{} 1)"]
    form = "(distinct " + " ".join(draw.choice(kinds).format(number) for number in wide) + ")"
    if draw.random() < 0.15:
        form = f"(or {form} {literal(draw, count, sort)})"
    lines += box(draw, wide) if sort == "Int" else []
    lines += [f"(assert {form})", "(check-sat)"]
    for _ in range(draw.randrange(2, 7)):
        lines.append("(push 1)")
        for _ in range(draw.randrange(1, 4)):
            lines.append("(assert (or " + " ".join(literal(draw, count, sort) for _ in range(draw.choice([1, 1, 2, 3]))) + "))")
        lines.append("(check-sat)")
        if draw.random() < 0.5:
            lines.append("(pop 1)")
    return "\n".join(lines) + "\n"


def answers(words, text):
    """What was answered within a minute."""
    try:
        printed = subprocess.run(words, input=text, capture_output=True, text=True, timeout=60, check=False).stdout
    except subprocess.TimeoutExpired as late:
        printed = (late.stdout or b"").decode()
    return printed.split()


def main(words):
    if words[0] == "script":
        print(script(words[1], int(words[2])), end="")
        return
    program, seed, count = words[0], words[1], int(words[2])
    kinds, differ = {}, 0
    for place in range(count):
        text = script(seed, place)
        ours, theirs = answers([program, *words[3:]], text), answers(["z3", "-in", "-smt2", "-t:3000"], text)
        for answer in ours:
            kinds[answer] = kinds.get(answer, 0) + 1
        if len(ours) < len(theirs):
            kinds["late"] = kinds.get("late", 0) + 1
        if any(answer != other for answer, other in zip(ours, theirs) if other != "unknown"):
            differ += 1
            print(f"script {place}: {ours} and z3 {theirs}")
    print(f"{count} scripts, {differ} differ;", ", ".join(f"{number} {answer}" for answer, number in sorted(kinds.items())))
    sys.exit(differ > 0)


main(sys.argv[1:])
