#!/usr/bin/env python3
"""Scripts that a solver may stumble over.
Use: bench/hostile.py lists them, each with what the standard wants as its answer; bench/hostile.py NAME writes one to standard output.
The answers are those of the standard by the way in which each script is built, not those of a solver."""
import random
import sys

QUIET = "(set-option :print-success false)\n"
MEGABYTE = 1_000_000


def chain(count):
    """x is so many less than the last definition, which is 0."""
    yield QUIET + "(declare-const x Int)(define-fun d0 () Int x)\n"
    for place in range(1, count):
        yield f"(define-fun d{place} () Int (+ 1 d{place - 1}))\n"
    yield f"(assert (= 0 d{count - 1}))(check-sat)\n"


def blanks(gaps, total):
    """So many commands, before each of which stand comments and blanks."""
    line = "; " + "c" * 97 + "\n" + " \t\r\n" * 25
    gap = line * (total // gaps // len(line))
    yield QUIET + "(declare-const p Bool)\n"
    for _ in range(gaps - 1):
        yield gap + "(assert p)\n"
    yield gap + "(check-sat)\n"


def conjunction(count):
    """All of a thousand constants, a thousand times over, and at the end the negation of one."""
    yield QUIET + "".join(f"(declare-const p{place} Bool)\n" for place in range(1000)) + "(assert (and"
    for place in range(count - 1):
        yield f" p{place % 1000}"
    yield " (not p7)))\n(check-sat)\n"


def distinct(count, sort):
    """Both a declared sort and the integers have as many elements."""
    yield QUIET + ("(declare-sort S 0)\n" if sort == "S" else "")
    for place in range(count):
        yield f"(declare-const c{place} {sort})\n"
    yield "(assert (distinct " + " ".join(f"c{place}" for place in range(count)) + "))\n(check-sat)\n"


def symbol(length):
    name = "n" * length
    yield QUIET + f"(declare-const {name} Bool)\n(assert {name})\n(check-sat)\n"


def session(count, fresh):
    """Each check has a level of its own; each fourth contradicts what stands below it."""
    yield QUIET + "(declare-const p Bool)(declare-const q Bool)(assert (or p q))\n"
    for place in range(count):
        term = "(not (or p q))" if place % 4 == 3 else "(not p)"
        if fresh:
            yield f"(push 1)(declare-const f{place} Bool)(assert (and f{place} {term}))(check-sat)(pop 1)\n"
        else:
            yield f"(push 1)(assert {term})(check-sat)(pop 1)\n"


def kept(count, sort):
    """A constant more before each check, which stays; the check assumes something of it."""
    yield QUIET
    for place in range(count):
        term = f"f{place}" if sort == "Bool" else f"(< 0 f{place})"
        yield f"(declare-const f{place} {sort})(check-sat-assuming ({term}))\n"


def negations(count):
    yield QUIET + "(declare-const p Bool)(assert p)(assert " + "(not " * count + "p" + ")" * count + ")(check-sat)\n"


def levels(count):
    """A chain of implications, one a level, whose two ends disagree; without the levels nothing does."""
    yield QUIET + "(declare-const p0 Bool)(assert p0)\n"
    for place in range(1, count):
        yield f"(push 1)(declare-const p{place} Bool)(assert (=> p{place - 1} p{place}))\n"
    yield f"(push 1)(assert (not p{count - 1}))(check-sat)(pop {count})(check-sat)\n"


def noise(length):
    """Random bytes of a seed, of which the first begins no token."""
    yield b"\x00" + random.Random(7).randbytes(length - 1)


def garbled(count):
    """Well-formed lists whose heads are commands, with arguments by chance, of which none makes a command: no name is known but those of the logic."""
    draw = random.Random(11)
    words = ["a", "b", "|c d|", "S", "17", "0", "2.5", "#b01", '"text"', ":named", "let", "_", "!", "and", "+", "f"]
    for _ in range(count):
        depth, parts = 1, ["(" + draw.choice(["assert", "declare-fun", "define-fun", "get-value", "pop x"])]
        for _ in range(draw.randrange(12)):
            if draw.random() < 0.3:
                parts.append("(")
                depth += 1
            elif depth > 1 and draw.random() < 0.3:
                parts.append(")")
                depth -= 1
            else:
                parts.append(draw.choice(words))
        yield " ".join(parts) + ")" * depth + "\n"


def unended(length):
    yield QUIET + '(echo "'
    for _ in range(length // MEGABYTE):
        yield "s" * MEGABYTE


SCRIPTS = {
    "chain": ("a chain of 40,000 definitions, each used in second place", "sat", lambda: chain(40_000)),
    "blanks": ("100 MB of comments and blanks, in 1,000 parts between commands", "sat", lambda: blanks(1000, 100 * MEGABYTE)),
    "blank": ("100 MB of comments and blanks between two commands", "sat", lambda: blanks(1, 100 * MEGABYTE)),
    "and": ("an `and` of 1,000,000 arguments", "unsat", lambda: conjunction(1_000_000)),
    "distinct-sort": ("a `distinct` of 5,000 elements of a declared sort", "sat", lambda: distinct(5000, "S")),
    "distinct-int": ("a `distinct` of 5,000 integers", "sat", lambda: distinct(5000, "Int")),
    "symbol": ("a symbol of 20 MB", "sat", lambda: symbol(20 * MEGABYTE)),
    "session-1": ("100,000 checks, each on a level of its own", "75,000 sat, 25,000 unsat", lambda: session(100_000, False)),
    "session-10": ("1,000,000 checks, each on a level of its own", "750,000 sat, 250,000 unsat", lambda: session(1_000_000, False)),
    "fresh-1": ("10,000 checks, each with a constant of its own", "7,500 sat, 2,500 unsat", lambda: session(10_000, True)),
    "fresh-4": ("40,000 checks, each with a constant of its own", "30,000 sat, 10,000 unsat", lambda: session(40_000, True)),
    "fresh-10": ("100,000 checks, each with a constant of its own", "75,000 sat, 25,000 unsat", lambda: session(100_000, True)),
    "fresh-100": ("1,000,000 checks, each with a constant of its own", "750,000 sat, 250,000 unsat", lambda: session(1_000_000, True)),
    "kept-5": ("5,000 checks, each after a constant more that stays", "5,000 sat", lambda: kept(5_000, "Bool")),
    "kept-20": ("20,000 checks, each after a constant more that stays", "20,000 sat", lambda: kept(20_000, "Bool")),
    "kept-int-5": ("5,000 checks, each after an integer more that stays", "5,000 sat", lambda: kept(5_000, "Int")),
    "kept-int-20": ("20,000 checks, each after an integer more that stays", "20,000 sat", lambda: kept(20_000, "Int")),
    "not": ("9,999 nested `not`", "unsat", lambda: negations(9_999)),
    "not-more": ("10,000 nested `not`", "sat, or a limit told", lambda: negations(10_000)),
    "levels": ("65,535 levels", "unsat, sat", lambda: levels(65_535)),
    "noise": ("10 MB of random bytes", "an error", lambda: noise(10 * MEGABYTE)),
    "garbled": ("200,000 lists with heads of commands and arguments by chance", "200,000 errors", lambda: garbled(200_000)),
    "open": ("10,000,000 opening parentheses", "an error", lambda: iter(["(" * 10_000_000])),
    "close": ("10,000,000 closing parentheses", "an error", lambda: iter([")" * 10_000_000])),
    "pairs": ("1,000,000 pairs of parentheses", "an error for each", lambda: iter(["()" * 1_000_000])),
    "unended": ("a string of 100 MB that never ends", "an error", lambda: unended(100 * MEGABYTE)),
}

if len(sys.argv) == 1:
    for name, (title, answer, _) in SCRIPTS.items():
        print(name, title, answer, sep="\t")
else:
    for part in SCRIPTS[sys.argv[1]][2]():
        sys.stdout.buffer.write(part if isinstance(part, bytes) else part.encode())
