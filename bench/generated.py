#!/usr/bin/env python3
"""The script of `smt_cli gen --seed K --size N`, made by another program: python3 bench/generated.py K N

The generator is PCG32 (XSH RR 64/32) as the Rust crate rand_pcg seeds it from a number: by 16 bytes, which the
default `seed_from_u64` of rand_core 0.10 takes from a PCG32 of its own.
"""
import sys

WORD = 2**32 - 1
LONG = 2**64 - 1


def rotated(state):
    """The output function: xorshift high, then a rotation by the top five bits."""
    word = ((state >> 18 ^ state) >> 27) & WORD
    by = state >> 59
    return (word >> by | word << (-by & 31)) & WORD


def seed_bytes(number, count):
    """The bytes of a seed: words of a PCG32 whose state advances before each word."""
    state = number
    made = b""
    while len(made) < count:
        state = (state * 6364136223846793005 + 11634580027462260723) & LONG
        made += rotated(state).to_bytes(4, "little")
    return made[:count]


class Pcg32:
    def __init__(self, number):
        seed = seed_bytes(number, 16)
        self.increment = int.from_bytes(seed[8:], "little") | 1
        self.state = (int.from_bytes(seed[:8], "little") + self.increment) & LONG
        self.step()

    def step(self):
        self.state = (self.state * 6364136223846793005 + self.increment) & LONG

    def below(self, bound):
        word = rotated(self.state)
        self.step()
        return word % bound


def script(seed, size):
    draws = Pcg32(seed)
    c = draws.below(1000)
    lines = ["(set-option :print-success false)", "(set-logic QF_UFLIA)", "(declare-fun f (Int) Int)"]
    for _ in range(4):
        v = [draws.below(1000) for _ in range(size)]
        k = [draws.below(size) for _ in range(size)]
        lines.append("(push 1)")
        lines += [f"(declare-const x{j} Int)" for j in range(size)]
        for j in range(size):
            lines.append(f"(assert (<= {v[j]} x{j}))")
            lines.append(f"(assert (<= x{j} (+ {v[j]} 1)))")
            lines.append(f"(assert (= (f x{j}) (+ x{j} {c})))")
            lines.append(f"(assert (or (<= (+ x{j} x{k[j]}) {v[j] + v[k[j]]}) (< x{k[j]} x{j})))")
        lines += ["(check-sat)", "(push 1)", f"(assert (= x0 {v[0]}))"]
        lines.append(f"(assert (not (= (f {v[0]}) (+ {v[0]} {c}))))")
        lines += ["(check-sat)", "(pop 1)", "(check-sat)", "(pop 1)"]
    lines.append(f'(echo "size {size} sat 8 unsat 4")')
    return "".join(line + "\n" for line in lines)


if __name__ == "__main__":
    sys.stdout.write(script(int(sys.argv[1]), int(sys.argv[2])))
