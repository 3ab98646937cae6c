#!/usr/bin/env python3
"""Drawn scripts that ask for least values, and the replies that they must get: python3 bench/minimize.py SEED COUNT [--answers]

Each script has boxed constants, and functions whose values at each element of their domain are boxed. It asserts sums, disjunctions
and comparisons on levels, some with names, and asks for the least values of terms: of the constants, of sums, of choices and of
applications. The replies come from trying all values of the constants and of the functions. After a least value the script asks for the
goal's own value, and checks that no less is one; where there is no model it asks for the core, which is what stays when the named
assertions, in their order, are left out one after another wherever what is then left has no model.
"""
import itertools
import random
import sys

HEAD = [
    "(reset)",
    "(set-option :print-success false)",
    "(set-option :reproducible-resource-limit 0)",
    "(set-option :produce-models true)",
    "(set-option :produce-unsat-cores true)",
    "(set-option :produce-unsat-assumptions true)",
]


class Script:
    def __init__(self, number, seed):
        self.draw = random.Random(f"{seed}/{number}")
        self.lines = list(HEAD)
        self.replies = ["success"]
        self.count = 0
        self.asked = 0
        # The values that each may have; a function has them at each element of its domain.
        self.boxes = {}
        for i in range(self.draw.randint(1, 2)):
            self.boxes[f"p{i}"] = [False, True]
        for i in range(self.draw.randint(1, 3)):
            self.boxes[f"x{i}"] = self.box(-9, 6, 5)
        self.domain = None
        if self.draw.random() < 0.5:
            low = self.draw.randint(-2, 1)
            self.domain = [low, low + 1]
            values = self.box(-4, 4, 2)
            for place in self.domain:
                self.boxes[("f", place)] = values
        self.levels = [[]]
        self.begin()
        self.places = [dict(zip(self.boxes, vs)) for vs in itertools.product(*self.boxes.values())]

    def box(self, least, greatest, wide):
        low = self.draw.randint(least, greatest)
        return list(range(low, low + 1 + self.draw.randint(1, wide)))

    def begin(self):
        for name in self.boxes:
            if isinstance(name, str):
                self.say(f"(declare-const {name} {'Bool' if name[0] == 'p' else 'Int'})")
        if self.domain is not None:
            self.say("(declare-fun f (Int) Int)")
        for name, values in self.boxes.items():
            if isinstance(name, tuple) or name[0] == "x":
                self.assert_(("<=", values[0], name, values[-1]), None)

    def say(self, line, reply=None):
        self.lines.append(line)
        if reply is not None:
            self.replies.append(reply)

    # ---- terms: nested tuples; (("f", place)) is the application at a number, and ("at", t) one at any term

    def number(self, depth):
        kind = self.draw.random()
        if depth == 0 or kind < 0.3:
            return self.draw.choice([n for n in self.boxes if n[0] == "x"]) if self.draw.random() < 0.8 else self.draw.randint(-6, 6)
        if kind < 0.55:
            return ("+", *(self.number(depth - 1) for _ in range(self.draw.randint(2, 3))))
        if kind < 0.65:
            return ("-", self.number(depth - 1), self.number(depth - 1))
        if kind < 0.75:
            return ("*", self.draw.randint(-3, 3), self.number(depth - 1))
        if kind < 0.8:
            return ("-", self.number(depth - 1))
        if kind < 0.9 and self.domain is not None:
            return self.applied(depth - 1)
        return ("ite", self.truth(depth - 1), self.number(depth - 1), self.number(depth - 1))

    def applied(self, depth):
        """An application whose argument is in the domain, whatever its parts are."""
        low, high = self.domain
        kind = self.draw.random()
        if kind < 0.3:
            return ("f", self.draw.choice(self.domain))
        if kind < 0.6:
            return ("at", ("ite", self.truth(depth), low, high))
        t = self.number(depth)
        return ("at", ("ite", ("<=", low, t, high), t, low))

    def truth(self, depth):
        kind = self.draw.random()
        if depth <= 0 or kind < 0.1:
            return self.draw.choice([n for n in self.boxes if n[0] == "p"])
        if kind < 0.55:
            return (self.draw.choice(["<=", "<", ">=", ">", "=", "distinct"]), self.number(1), self.number(1))
        if kind < 0.65:
            return ("not", self.truth(depth - 1))
        head = self.draw.choice(["and", "or", "or", "or", "=>", "xor", "="])
        return (head, self.truth(depth - 1), self.truth(depth - 1))

    def value(self, t, at):
        if isinstance(t, int):
            return t
        if t in at:
            return at[t]
        head, *args = t
        if head == "at":
            return at[("f", self.value(args[0], at))]
        if head == "ite":
            return self.value(args[1] if self.value(args[0], at) else args[2], at)
        vs = [self.value(it, at) for it in args]
        if head == "+":
            return sum(vs)
        if head == "-":
            return -vs[0] if len(vs) == 1 else vs[0] - vs[1]
        if head == "*":
            return vs[0] * vs[1]
        if head == "not":
            return not vs[0]
        if head == "and":
            return all(vs)
        if head == "or":
            return any(vs)
        if head == "=>":
            return not vs[0] or vs[1]
        if head in ("xor", "distinct"):
            return vs[0] != vs[1]
        test = {"<=": int.__le__, "<": int.__lt__, ">=": int.__ge__, ">": int.__gt__, "=": lambda a, b: a == b}[head]
        return all(test(a, b) for a, b in zip(vs, vs[1:]))

    # ---- what has a model

    def terms(self):
        return [t for level in self.levels for _, t in level]

    def models(self, terms):
        return [at for at in self.places if all(self.value(t, at) for t in terms)]

    # ---- commands

    def assert_(self, t, name):
        self.levels[-1].append((name, t))
        self.say(f"(assert {text(t)})" if name is None else f"(assert (! {text(t)} :named {name}))")

    def add(self):
        """An assertion that some of the values that are left meet; now and then one that none does."""
        left = self.models(self.terms())
        refutes = self.draw.random() < 0.15
        for _ in range(30):
            t = self.truth(2)
            kept = sum(self.value(t, at) for at in left)
            if (kept == 0) if refutes else (0 < kept < len(left)):
                break
        if kept == 0 and not refutes:
            return
        name = None
        if self.draw.random() < 0.6:
            name = f"n{self.count}"
            self.count += 1
        self.assert_(t, name)

    def goal(self):
        kind = self.draw.random()
        if kind < 0.1:
            return self.draw.choice([n for n in self.boxes if n[0] == "x"])
        if kind < 0.5:
            parts = [n for n in self.boxes if n[0] != "p"]
            return ("+", *(("*", self.draw.randint(-4, 4), it) for it in parts), self.draw.randint(-3, 3))
        return self.number(2)

    def minimize(self, t):
        self.asked += 1
        left = self.models(self.terms())
        line = f"(minimize {text(t)})"
        if not left:
            self.say(line, "unsat")
            self.refuted()
            return
        least = min(self.value(t, at) for at in left)
        self.say(line, f"(minimum {text(least)})")
        if self.draw.random() < 0.7:
            self.say(f"(get-value ({text(t)}))", f"(({text(t)} {text(least)}))")
        if self.draw.random() < 0.3:
            self.fixed([at for at in left if self.value(t, at) == least])
        if self.draw.random() < 0.3:
            self.say(f"(check-sat-assuming ((< {text(t)} {text(least)})))", "unsat")
            self.say("(get-unsat-assumptions)", f"((< {text(t)} {text(least)}))")
        if self.draw.random() < 0.3:
            self.say(f"(check-sat-assuming ((<= {text(t)} {text(least)})))", "sat")

    def fixed(self, places):
        """The values that are the same in each model with the least value."""
        for name in self.boxes:
            if len({at[name] for at in places}) == 1:
                self.say(f"(get-value ({text(name)}))", f"(({text(name)} {text(places[0][name])}))")

    def refuted(self):
        items = [it for level in self.levels for it in level]
        named = [i for i, (name, _) in enumerate(items) if name is not None]
        left = list(range(len(items)))
        for place in named:
            without = [it for it in left if it != place]
            if not self.models([items[it][1] for it in without]):
                left = without
        self.say("(get-unsat-core)", f"({' '.join(items[it][0] for it in named if it in left)})")
        self.say("(get-unsat-assumptions)", "()")

    def step(self):
        kind = self.draw.random()
        if kind < 0.3:
            self.add()
        elif kind < 0.42 and len(self.levels) < 4:
            self.levels.append([])
            self.say("(push 1)")
        elif kind < 0.53 and len(self.levels) > 1:
            self.levels.pop()
            self.say("(pop 1)")
        elif kind < 0.58:
            self.say("(check-sat)", "sat" if self.models(self.terms()) else "unsat")
        else:
            self.minimize(self.goal())

    def whole(self):
        while self.asked < 6:
            self.step()
            if not self.models(self.terms()):
                self.minimize(self.goal())
                if len(self.levels) == 1:
                    break
                self.levels.pop()
                self.say("(pop 1)")


def text(t):
    if isinstance(t, bool):
        return "true" if t else "false"
    if isinstance(t, tuple):
        head = "f" if t[0] == "at" else t[0]
        return f"({' '.join([head, *(text(it) for it in t[1:])])})"
    if isinstance(t, int):
        return str(t) if t >= 0 else f"(- {-t})"
    return t


def main(seed, count, answers):
    for number in range(count):
        it = Script(number, seed)
        it.whole()
        print("\n".join(it.replies if answers else it.lines))


if __name__ == "__main__":
    main(int(sys.argv[1]), int(sys.argv[2]), "--answers" in sys.argv[3:])
