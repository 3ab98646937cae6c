#!/usr/bin/env python3
"""Drawn scripts with cores, and the replies that they must get: python3 bench/cores.py SEED COUNT [--answers]

Each script has boxed constants, named and unnamed assertions on levels, and checks plain and under assumptions. The
replies come from trying all values of the constants. A core is what stays when the candidates, in their order, are left out one
after another wherever what is then left has no model; so it is the only one that a search by that rule may list. After each core
the script asks, with the core's assertions alone, that they have no model, and of each listed one that the others have one.
"""
import itertools
import random
import sys


class Script:
    def __init__(self, number, seed):
        self.draw = random.Random(f"{seed}/{number}")
        self.lines = [
            "(reset)",
            "(set-option :print-success false)",
            "(set-option :reproducible-resource-limit 0)",
            "(set-option :produce-models true)",
            "(set-option :produce-unsat-cores true)",
            "(set-option :produce-unsat-assumptions true)",
        ]
        self.replies = ["success"]
        self.count = 0
        self.boxes = {}
        for i in range(self.draw.randint(2, 4)):
            self.boxes[f"p{i}"] = [False, True]
        for i in range(self.draw.randint(1, 3)):
            low = self.draw.randint(-4, 2)
            self.boxes[f"x{i}"] = list(range(low, low + self.draw.randint(2, 5)))
        # Of each level: pairs of the name, if it has one as a whole, and the term.
        self.levels = [[]]
        for name, values in self.boxes.items():
            self.say(f"(declare-const {name} {'Bool' if name[0] == 'p' else 'Int'})")
        for name, values in self.boxes.items():
            if name[0] == "x":
                self.assert_(("<=", values[0], name, values[-1]), None)
        self.places = [dict(zip(self.boxes, vs)) for vs in itertools.product(*self.boxes.values())]

    def say(self, line, reply=None):
        self.lines.append(line)
        if reply is not None:
            self.replies.append(reply)

    # ---- terms: nested tuples

    def number(self, depth):
        names = [n for n in self.boxes if n[0] == "x"]
        kind = self.draw.random()
        if depth == 0 or kind < 0.35:
            return self.draw.choice(names) if self.draw.random() < 0.8 else self.draw.randint(-4, 4)
        if kind < 0.6:
            return ("+", *(self.number(depth - 1) for _ in range(self.draw.randint(2, 3))))
        if kind < 0.75:
            return ("-", self.number(depth - 1), self.number(depth - 1))
        if kind < 0.85:
            return ("*", self.draw.randint(-3, 3), self.number(depth - 1))
        if kind < 0.9:
            return ("-", self.number(depth - 1))
        return ("ite", self.truth(depth - 1), self.number(depth - 1), self.number(depth - 1))

    def truth(self, depth):
        kind = self.draw.random()
        if depth == 0 or kind < 0.15:
            return self.draw.choice([n for n in self.boxes if n[0] == "p"])
        if kind < 0.5:
            return (self.draw.choice(["<=", "<", ">=", ">", "=", "distinct"]), self.number(1), self.number(1))
        if kind < 0.65:
            return ("not", self.truth(depth - 1))
        head = self.draw.choice(["and", "or", "or", "=>", "xor", "="])
        return (head, self.truth(depth - 1), self.truth(depth - 1))

    def value(self, t, at):
        if isinstance(t, int):
            return t
        if isinstance(t, str):
            return at[t]
        head, *args = t
        if head == "ite":
            return self.value(args[1] if self.value(args[0], at) else args[2], at)
        vs = [self.value(it, at) for it in args]
        pairs = list(zip(vs, vs[1:]))
        if head == "+":
            return sum(vs)
        if head == "-":
            return -vs[0] if len(vs) == 1 else vs[0] - vs[1]
        if head == "*":
            return vs[0] * vs[1]
        if head == "not":
            return not vs[0]
        if head == "and":
            return all(vs)
        if head == "or":
            return any(vs)
        if head == "=>":
            return not vs[0] or vs[1]
        if head == "xor":
            return vs[0] != vs[1]
        if head == "distinct":
            return vs[0] != vs[1]
        test = {"<=": lambda p: p[0] <= p[1], "<": lambda p: p[0] < p[1], ">=": lambda p: p[0] >= p[1], ">": lambda p: p[0] > p[1], "=": lambda p: p[0] == p[1]}[head]
        return all(map(test, pairs))

    # ---- what has a model

    def asserted(self):
        return [it for level in self.levels for it in level]

    def models(self, terms):
        return [at for at in self.places if all(self.value(t, at) for t in terms)]

    def core(self, items, candidates):
        """Which of the candidates' places stay: the terms at the others and at these have no model."""
        left = list(range(len(items)))
        for place in candidates:
            without = [it for it in left if it != place]
            if not self.models([items[it] for it in without]):
                left = without
        return [it for it in candidates if it in left]

    # ---- commands

    def assert_(self, t, name):
        self.levels[-1].append((name, t))
        self.say(f"(assert {text(t)})" if name is None else f"(assert (! {text(t)} :named {name}))")

    def drawn(self, stays):
        """A term that has a model in the boxes, and one with all that stays, if it stays too."""
        fixed = [t for name, t in self.asserted() if name is None] if stays else []
        while True:
            t = self.truth(2)
            if 0 < len(self.models([t])) < len(self.places) and (not stays or self.models(fixed + [t])):
                return t

    def add(self):
        kind = self.draw.random()
        t = self.drawn(0.8 <= kind)
        name = f"n{self.count}"
        self.count += 1
        if kind < 0.7:
            self.assert_(t, name)
        elif kind < 0.8:
            self.levels[-1].append((name, t))
            self.say(f"(assert (! {text(t)} :named {name} :named {name}-again))")
        elif kind < 0.9:
            self.levels[-1].append((None, t))
            self.say(f"(assert (and true (! {text(t)} :named {name})))")
        else:
            self.assert_(t, None)

    def refuted(self, assumed):
        """What may be asked once nothing is left, under these assumptions."""
        items = self.asserted()
        terms = [t for _, t in items] + assumed
        if self.draw.random() < 0.85:
            named = [i for i, (name, _) in enumerate(items) if name is not None]
            kept = self.core(terms, named)
            self.say("(get-unsat-core)", f"({' '.join(items[i][0] for i in kept)})")
            fixed = [t for i, t in enumerate(terms) if i not in named]
            self.asks.append((fixed, [terms[i] for i in kept]))
        if self.draw.random() < 0.7:
            places = list(range(len(items), len(terms)))
            kept = self.core(terms, places)
            self.say("(get-unsat-assumptions)", f"({' '.join(text(terms[i]) for i in kept)})")
            self.asks.append(([t for _, t in items], [terms[i] for i in kept]))

    def check(self, assumed):
        found = self.models([t for _, t in self.asserted()] + (assumed or []))
        line = "(check-sat)" if assumed is None else f"(check-sat-assuming ({' '.join(map(text, assumed))}))"
        self.say(line, "sat" if found else "unsat")
        if not found:
            self.refuted(assumed or [])
        elif self.draw.random() < 0.2:
            self.say(self.draw.choice(["(get-unsat-core)", "(get-unsat-assumptions)"]), '(error "E23 not in unsat mode")')

    def step(self):
        kind = self.draw.random()
        if kind < 0.5:
            self.add()
        elif kind < 0.58 and len(self.levels) < 4:
            self.levels.append([])
            self.say("(push 1)")
        elif kind < 0.64 and len(self.levels) > 1:
            self.levels.pop()
            self.say("(pop 1)")
        elif kind < 0.78:
            self.check(None)
        else:
            self.check([self.drawn(False) if self.draw.random() < 0.5 else self.truth(0) for _ in range(self.draw.randint(0, 5))])

    def again(self):
        """What was listed has no model with what always stays; without one of them the rest has one."""
        asks, self.asks = self.asks, []
        self.say("(pop %d)" % (len(self.levels) - 1))
        for fixed, kept in asks[:3]:
            for out in [None, *range(len(kept))]:
                terms = fixed + [t for i, t in enumerate(kept) if i != out]
                found = self.models(terms)
                assert bool(found) == (out is not None)
                self.say(f"(check-sat-assuming ({' '.join(map(text, terms))}))", "sat" if found else "unsat")

    def whole(self):
        self.asks = []
        while sum(line.startswith("(check-sat") for line in self.lines) < 6 or not self.asks:
            self.step()
            if len(self.asserted()) > 14:
                break
        first = self.lines[:6] + [line for line in self.lines if line.startswith("(declare")]
        self.say("(reset)", "success")
        self.lines += first[1:]
        self.levels = [[]]
        self.again()


def text(t):
    if isinstance(t, tuple):
        return f"({' '.join(text(it) for it in t)})"
    if isinstance(t, int):
        return str(t) if t >= 0 else f"(- {-t})"
    return t


def main(seed, count, answers):
    for number in range(count):
        it = Script(number, seed)
        it.whole()
        print("\n".join(it.replies if answers else it.lines))


if __name__ == "__main__":
    main(int(sys.argv[1]), int(sys.argv[2]), "--answers" in sys.argv[3:])
