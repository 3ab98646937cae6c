#!/usr/bin/env python3
"""Drawn scripts with assumptions, and the replies that they must get: python3 bench/assumptions.py SEED COUNT [--answers]

Each script has `check-sat-assuming` over any Bool terms, `push`, `pop`, `reset-assertions`, declarations that stay or go
with their level, names, and `get-assignment` where every model gives the names the same values. The replies come from
a fold over levels that is written here and from trying all values of the constants in use: two truth values, and for
integers the numbers from -9 to 9, beyond which the bounds and differences with numbers up to 3 that are drawn tell no
more cases apart. A symbol that isn't declared where it is used gets its error.
"""
import itertools
import random
import sys

RANGE = range(-9, 10)


class Script:
    def __init__(self, number, seed):
        self.draw = random.Random(f"{seed}/{number}")
        self.lines = ["(reset)", "(set-option :print-success false)", "(set-option :reproducible-resource-limit 0)"]
        self.replies = []
        self.global_ = self.draw.random() < 0.5
        self.assigns = self.draw.random() < 0.7
        if self.global_:
            self.lines.append("(set-option :global-declarations true)")
        if self.assigns:
            self.lines.append("(set-option :produce-assignments true)")
        self.levels = [self.fresh()]
        self.count = 0

    @staticmethod
    def fresh():
        return {"declared": {}, "defined": {}, "named": [], "asserted": []}

    # ---- what stands

    def sorts(self):
        return {n: s for level in self.levels for n, s in level["declared"].items()}

    def bodies(self):
        return {n: t for level in self.levels for n, t in level["defined"].items()}

    def asserted(self):
        return [t for level in self.levels for t in level["asserted"]]

    def named(self):
        return [it for level in self.levels for it in level["named"]]

    def home(self):
        return self.levels[0 if self.global_ else -1]

    # ---- terms: nested tuples

    def atom(self, names):
        truths = [n for n, s in names.items() if s == "Bool"] + list(self.bodies())
        numbers = [n for n, s in names.items() if s == "Int"]
        kind = self.draw.random()
        if numbers and (kind < 0.45 or not truths):
            x, y = self.draw.choice(numbers), self.draw.choice(numbers)
            c = self.draw.randint(-3, 3)
            if kind < 0.2 or x == y:
                return (self.draw.choice(["<=", ">=", "=", "<"]), x, c)
            return (self.draw.choice(["<=", "<", "="]), ("-", x, y), c)
        return self.draw.choice(truths) if truths else "true"

    def term(self, names, depth):
        if depth == 0 or self.draw.random() < 0.25:
            it = self.atom(names)
            return ("not", it) if self.draw.random() < 0.4 else it
        head = self.draw.choice(["and", "or", "or", "xor", "=>", "not", "ite", "="])
        arity = {"not": 1, "ite": 3, "=>": 2, "=": 2}.get(head) or self.draw.randint(2, 3)
        return (head, *(self.term(names, depth - 1) for _ in range(arity)))

    # ---- values

    def value(self, t, at):
        if isinstance(t, int):
            return t
        if isinstance(t, str):
            if t in ("true", "false"):
                return t == "true"
            return at[t] if t in at else self.value(self.known[t], at)
        head, *args = t
        vs = [self.value(it, at) for it in args]
        if head == "not":
            return not vs[0]
        if head == "and":
            return all(vs)
        if head == "or":
            return any(vs)
        if head == "xor":
            return sum(vs) % 2 == 1
        if head == "=>":
            return not vs[0] or vs[1]
        if head == "ite":
            return vs[1] if vs[0] else vs[2]
        if head == "=":
            return vs[0] == vs[1]
        if head == "-":
            return vs[0] - vs[1]
        return {"<=": vs[0] <= vs[1], ">=": vs[0] >= vs[1], "<": vs[0] < vs[1]}[head]

    def used(self, t, found):
        if isinstance(t, str):
            if t in self.known:
                self.used(self.known[t], found)
            elif t not in ("true", "false"):
                found.add(t)
        elif isinstance(t, tuple):
            for it in t[1:]:
                self.used(it, found)

    def models(self, assumed):
        """The values of the constants in use under which all that stands and all that is assumed is true."""
        self.known = {**self.bodies(), **dict(self.named())}
        sorts, found = self.sorts(), set()
        for t in [*self.asserted(), *assumed, *(t for _, t in self.named())]:
            self.used(t, found)
        names = sorted(found)
        for values in itertools.product(*([(False, True) if sorts[n] == "Bool" else RANGE for n in names])):
            at = dict(zip(names, values))
            if all(self.value(t, at) for t in self.asserted()) and all(self.value(t, at) for t in assumed):
                yield at

    # ---- commands

    def say(self, line, reply=None):
        self.lines.append(line)
        if reply is not None:
            self.replies.append(reply)

    def declare(self):
        if len(self.sorts()) >= 7:
            return
        sort = self.draw.choice(["Bool", "Bool", "Bool", "Int"])
        if sort == "Int" and sum(s == "Int" for s in self.sorts().values()) >= 2:
            sort = "Bool"
        name = f"{'p' if sort == 'Bool' else 'x'}{self.count}"
        self.count += 1
        self.home()["declared"][name] = sort
        self.say(f"(declare-const {name} {sort})")

    def define(self):
        body = self.term(self.sorts(), 1)
        name = f"d{self.count}"
        self.count += 1
        self.home()["defined"][name] = body
        self.say(f"(define-fun {name} () Bool {text(body)})")

    def add(self):
        t = self.term(self.sorts(), 2)
        kind = self.draw.random()
        name = f"n{self.count}"
        if kind < 0.3:
            self.say(f"(assert (! {text(t)} :named {name}))")
            self.levels[-1]["named"].append((name, t))
        elif kind < 0.5:
            part, t = t, (self.draw.choice(["not", "or", "and", "=>"]), t)
            if t[0] != "not":
                t = (*t, self.atom(self.sorts()))
            self.say(f"(assert {text((t[0], ('!', part, ':named', name), *t[2:]))})")
            self.levels[-1]["named"].append((name, part))
        else:
            self.say(f"(assert {text(t)})")
        self.count += 1
        self.levels[-1]["asserted"].append(t)

    def check(self, assumed):
        line = "(check-sat)" if assumed is None else f"(check-sat-assuming ({' '.join(map(text, assumed))}))"
        found = list(self.models(assumed or []))
        self.say(line, "sat" if found else "unsat")
        if not found:
            if self.draw.random() < 0.2:
                self.say("(get-assignment)", '(error "E20 no model")')
            return
        told = [tuple(self.value(t, at) for _, t in self.named()) for at in found]
        if len(set(told)) == 1 and self.draw.random() < 0.7:
            pairs = [f"({n} {'true' if v else 'false'})" for (n, _), v in zip(self.named(), told[0])]
            self.say("(get-assignment)", f"({' '.join(pairs)})" if self.assigns else '(error "E21 option is off: :produce-assignments")')

    def step(self):
        kind = self.draw.random()
        if kind < 0.2:
            self.declare()
        elif kind < 0.25:
            self.define()
        elif kind < 0.45:
            self.add()
        elif kind < 0.55 and len(self.levels) < 4:
            self.levels.append(self.fresh())
            self.say("(push 1)")
        elif kind < 0.63 and len(self.levels) > 1:
            gone = self.levels.pop()
            self.say("(pop 1)")
            lost = list(gone["declared"]) + list(gone["defined"]) + [n for n, _ in gone["named"]]
            if lost and self.draw.random() < 0.5:
                self.say(f"(assert {lost[0]})" if lost[0][0] != "x" else f"(assert (= {lost[0]} 0))", f'(error "E13 unknown symbol: {lost[0]}")')
        elif 0.63 <= kind < 0.66:
            first = self.levels[0]
            self.levels = [self.fresh()]
            if self.global_:
                self.levels[0]["declared"], self.levels[0]["defined"] = first["declared"], first["defined"]
            self.say("(reset-assertions)")
        elif 0.66 <= kind < 0.92:
            self.check([self.term(self.sorts(), self.draw.choice([0, 0, 0, 1, 2])) for _ in range(self.draw.randint(0, 4))])
        elif 0.92 <= kind < 0.95:
            self.check(None)
        elif 0.95 <= kind < 0.975:
            self.say("(check-sat-assuming (true unknown))", '(error "E13 unknown symbol: unknown")')
        elif kind >= 0.975:
            self.say("(check-sat-assuming (1))", '(error "E17 not Bool")')


def text(t):
    if isinstance(t, tuple):
        return f"({' '.join(text(it) for it in t)})"
    if isinstance(t, int):
        return str(t) if t >= 0 else f"(- {-t})"
    return t


def main(seed, count, answers):
    for number in range(count):
        it = Script(number, seed)
        it.declare()
        it.declare()
        while sum("check-sat" in line for line in it.lines) < 6:
            it.step()
        print("\n".join(it.replies if answers else it.lines))


if __name__ == "__main__":
    main(int(sys.argv[1]), int(sys.argv[2]), "--answers" in sys.argv[3:])
