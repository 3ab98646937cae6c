"""Drawn proofs that are good by the way in which they are built: scripts without a model, with steps that run to the
empty clause.

A term is a name, a number that isn't below 0, or a tuple of a head and terms. Atoms, literals and clauses are those of
`proof_judge`, but nothing is computed by it here.
"""
import copy
import itertools
from math import gcd


def show(term):
    return "(" + " ".join(map(show, term)) + ")" if isinstance(term, (tuple, list)) else str(term)


def sign(number):
    """An integer as a term."""
    return number if number >= 0 else ("-", -number)


def literal_text(literal):
    (kind, *rest), positive = literal
    if kind == "le":
        atom = ["le", [[sign(c), i] for i, c in rest[0]], sign(rest[1])]
    else:
        atom = [kind, *rest]
    return atom if positive else ["not", atom]


def negated(literal):
    return (literal[0], not literal[1])


def replaced(term, old, new):
    if term == old:
        return new
    return tuple(replaced(t, old, new) for t in term) if isinstance(term, tuple) else term


def subterms(term):
    yield term
    if isinstance(term, tuple):
        for t in term[1:]:
            yield from subterms(t)


def linear(term):
    """Coefficients by leaves, and a constant."""
    if isinstance(term, int):
        return {}, term
    if not (isinstance(term, tuple) and term[0] in ("+", "-", "*")):
        return {term: 1}, 0
    forms = [linear(t) for t in term[1:]]
    if term[0] == "*":
        total, constant = {}, 1
        for form in forms:
            if form[0]:
                total = form[0]
        for form in forms:
            constant *= 1 if form[0] is total and total else form[1]
        if not total:
            return {}, constant
        own = next(f[1] for f in forms if f[0] is total)
        return {t: c * constant for t, c in total.items() if c * constant}, own * constant
    signs = [1] * len(forms) if term[0] == "+" else [1 if len(forms) > 1 else -1] + [-1] * (len(forms) - 1)
    total, constant = {}, 0
    for s, (part, k) in zip(signs, forms):
        constant += s * k
        for t, c in part.items():
            total[t] = total.get(t, 0) + s * c
    return {t: c for t, c in total.items() if c}, constant


def value_of(operator, values):
    """A plain reading of the operators on truth values."""
    if operator in ("true", "false"):
        return operator == "true"
    if operator == "not":
        return not values[0]
    if operator == "ite":
        return values[1] if values[0] else values[2]
    if operator == "and":
        return all(values)
    if operator == "or":
        return any(values)
    if operator == "xor":
        return sum(values) % 2 == 1
    if operator == "=>":
        return not all(values[:-1]) or values[-1]
    if operator == "=":
        return all(a == b for a, b in zip(values, values[1:]))
    return all(a != b for a, b in itertools.combinations(values, 2))


def divisor(term):
    return -term[1] if isinstance(term, tuple) else term


def divisibility(n, term):
    """A head is a text."""
    return (f"(_ divisible {n})", term)


def division_rows(term):
    """The rows of the table of divisions (values of the term, and limits of multiples), and the quotient that they are over."""
    head, a = term[:2]
    if head == "abs":
        return [(None, [([(1, a), (-1, term)], 0)]), (None, [([(-1, a), (-1, term)], 0)]), (None, [([(1, term), (-1, a)], 0), ([(1, term), (1, a)], 0)])], a
    if head == "div":
        a, n, q = (term[:-1] if len(term) > 3 else a), divisor(term[-1]), term
    elif head == "mod":
        n, q = divisor(term[2]), ("div", *term[1:])
    else:
        n = int(head.split()[2][:-1])
        q = ("div", a, n)
    rows = [(None, [([(n, q), (-1, a)], 0)]), (None, [([(1, a), (-n, q)], abs(n) - 1)])]
    if head == "mod":
        rows += [(None, [([(1, term), (n, q), (-1, a)], 0)]), (None, [([(-1, term), (1, a), (-n, q)], 0)])]
    elif head != "div":
        rows += [(True, [([(n, q), (-1, a)], -1)]), (False, [([(1, a), (-n, q)], 0)])]
    return rows, a if head == "div" else q


class Draft:
    def __init__(self, draw):
        self.draw = draw
        self.sorts, self.declared = {}, []
        self.asserted, self.nodes, self.steps, self.clauses = [], [], [], []
        self.numbers = {}

    def copy(self):
        new = copy.copy(self)
        new.sorts, new.numbers = dict(self.sorts), dict(self.numbers)
        for field in ("declared", "asserted", "clauses"):
            setattr(new, field, list(getattr(self, field)))
        new.nodes, new.steps = copy.deepcopy(self.nodes), copy.deepcopy(self.steps)
        return new

    # -- the script

    def declare(self, names, sort, *arguments):
        for name in names.split():
            if name not in self.sorts:
                if "U" in (sort, *arguments) and "(declare-sort U 0)" not in self.declared:
                    self.declared.append("(declare-sort U 0)")
                self.sorts[name] = sort
                is_constant = not arguments
                text = f"(declare-const {name} {sort})" if is_constant else f"(declare-fun {name} ({' '.join(arguments)}) {sort})"
                self.declared.append(text)

    def assume(self, term):
        """An assertion of the script, and its step."""
        self.asserted.append(term)
        self.add(["assert", len(self.asserted) - 1, self.node(term)], [self.t(term)])

    # -- nodes and literals

    def node(self, term):
        if term not in self.numbers:
            arguments = [self.node(t) for t in term[1:]] if isinstance(term, tuple) else []
            self.numbers[term] = len(self.nodes)
            self.nodes.append([term[0] if isinstance(term, tuple) else term, *arguments])
        return self.numbers[term]

    def t(self, term):
        return (("t", self.node(term)), True)

    def s(self, a, b):
        return (("s", self.node(a), self.node(b)), True)

    def le(self, total, most):
        return (("le", tuple(sorted((self.node(t), c) for t, c in total.items())), most), True)

    def raw(self, a, b, strict=0):
        """a <= b, or a < b, as it is folded."""
        total, constant = linear(("-", a, b))
        return total, -constant - strict

    def normal(self, a, b, strict=0):
        total, most = self.raw(a, b, strict)
        g = gcd(*total.values()) if total else 1
        return self.le({t: c // g for t, c in total.items()}, most // g)

    # -- steps

    def add(self, step, clause):
        self.steps.append(step)
        self.clauses.append(frozenset(clause))
        return len(self.steps) - 1

    def form(self, term, *literals):
        return self.add(["form", self.node(term), *map(literal_text, literals)], literals)

    def farkas(self, *weighted):
        return self.add(["farkas", *([m, literal_text(l)] for m, l in weighted)], [l for _, l in weighted])

    def round(self, total, most, g):
        """sum <= most, and what it is divided by g."""
        literal, rounded = self.le(total, most), self.le({t: c // g for t, c in total.items()}, most // g)
        self.add(["round", literal_text(literal), g], [negated(literal), rounded])
        return rounded

    def pick(self, term, which):
        _, c, a, b = term
        clause = [self.t(c), self.s(term, b)] if which else [negated(self.t(c)), self.s(term, a)]
        return self.add(["pick", self.node(term), which], clause)

    def refl(self, a):
        return self.add(["refl", self.node(a)], [self.s(a, a)])

    def sym(self, a, b):
        return self.add(["sym", self.node(a), self.node(b)], [negated(self.s(a, b)), self.s(b, a)])

    def trans(self, a, b, c):
        return self.add(["trans", *map(self.node, (a, b, c))], [negated(self.s(a, b)), negated(self.s(b, c)), self.s(a, c)])

    def cong(self, a, b):
        pairs = zip(a[1:], b[1:]) if isinstance(a, tuple) else []
        return self.add(["cong", self.node(a), self.node(b)], [negated(self.s(p, q)) for p, q in pairs] + [self.s(a, b)])

    def truth(self, a, b):
        return self.add(["truth", self.node(a), self.node(b)], [negated(self.s(a, b)), negated(self.t(a)), self.t(b)])

    def both(self, a, b):
        return self.add(["both", self.node(a), self.node(b)], [negated(self.t(a)), negated(self.t(b)), self.s(a, b)])

    def none(self, a, b):
        return self.add(["none", self.node(a), self.node(b)], [self.t(a), self.t(b), self.s(a, b)])

    def link(self, a, b, which):
        below, above, both = self.le(*self.raw(a, b)), self.le(*self.raw(b, a)), self.s(a, b)
        clause = [[negated(both), below], [negated(both), above], [negated(below), negated(above), both]][which]
        return self.add(["link", self.node(a), self.node(b), which], clause)

    def euclid(self, term, which, has_quotient=True):
        """A row of the table of divisions. The quotient that goes with it is a term, too; gives the literals."""
        rows, quotient = division_rows(term)
        if has_quotient:
            self.node(quotient)
        value, limits = rows[which]
        clause = [] if value is None else [(self.t(term)[0], value)]
        for parts, most in limits:
            total, constant = {}, 0
            for k, t in parts:
                own, c = linear(t)
                constant += k * c
                for leaf, d in own.items():
                    total[leaf] = total.get(leaf, 0) + k * d
            total = {t: c for t, c in total.items() if c}
            g = gcd(*total.values()) if total else 1
            clause.append(self.le({t: c // g for t, c in total.items()}, (most - constant) // g))
        self.add(["euclid", self.node(term), which], clause)
        return clause

    def res(self, p, q, literal):
        assert literal in self.clauses[p] and negated(literal) in self.clauses[q]
        clause = (self.clauses[p] - {literal}) | (self.clauses[q] - {negated(literal)})
        return self.add(["res", p, q, literal_text(literal)], clause)

    # -- terms that say a literal or its negation

    def tell(self, term, wanted=True):
        """The term is asserted, or its negation."""
        if wanted:
            self.assume(term)
        else:
            self.assume(("not", term))
            self.form(("not", term), negated(self.t(("not", term))), negated(self.t(term)))

    def tell_part(self, term, literal, wanted=True):
        """The same of a term with one part, whose literal follows."""
        self.tell(term, wanted)
        part = literal if term[0] != "distinct" else negated(literal)
        if wanted:
            self.form(term, negated(self.t(term)), part)
        else:
            self.form(term, self.t(term), negated(part))

    # -- the end

    def refute(self):
        """Resolves all clauses to the empty one, by trying truth values; then drops what isn't needed."""
        start = range(len(self.clauses))

        def falsified(told):
            """A clause that what is told makes false, after all that follows was told too."""
            reasons = []
            while True:
                unit = None
                for n in start:
                    left = [l for l in self.clauses[n] if negated(l) not in told]
                    if not left:
                        for literal, reason in reversed(reasons):
                            if negated(literal) in self.clauses[n]:
                                n = self.res(reason, n, literal)
                        return n
                    if len(left) == 1 and left[0] not in told and unit is None:
                        unit = (left[0], n)
                if unit is None:
                    break
                told = told | {unit[0]}
                reasons.append(unit)
            literal = next(l for n in start for l in sorted(self.clauses[n], key=str) if l not in told and negated(l) not in told)
            n = falsified(told | {literal})
            if negated(literal) in self.clauses[n]:
                m = falsified(told | {negated(literal)})
                n = self.res(m, n, literal) if literal in self.clauses[m] else m
            for literal, reason in reversed(reasons):
                if negated(literal) in self.clauses[n]:
                    n = self.res(reason, n, literal)
            return n

        last = falsified(frozenset())
        assert not self.clauses[last]
        self.prune(last)
        return self

    def prune(self, last):
        needed = {last}
        for n in range(last, -1, -1):
            if n in needed and self.steps[n][0] == "res":
                needed.update(self.steps[n][1:3])
        new = {old: place for place, old in enumerate(sorted(needed))}
        steps = [self.steps[n] for n in sorted(needed)]
        self.steps = [["res", new[s[1]], new[s[2]], s[3]] if s[0] == "res" else s for s in steps]
        self.clauses = [self.clauses[n] for n in sorted(needed)]


# ---- what a step says, refuted: for each rule


BOOLS = "p q r s u v w z".split()


def of_bools(draw, operator):
    """`form` on an operator on Bools: a clause of it, and the negations of its literals asserted."""
    d = Draft(draw)
    count = {"not": 1, "ite": 3, "true": 0, "false": 0}.get(operator, draw.choice([2, 2, 3, 3, 4, 6]))
    names = BOOLS[: max(1, draw.choice([count, count, count - 1, 2]))]
    arguments = [draw.choice(names) for _ in range(count)] if draw.random() < 0.6 else (names * count)[:count]
    if count and draw.random() < 0.3:
        arguments[draw.randrange(count)] = ("not", draw.choice(names))
    d.declare(" ".join(sorted({t for a in arguments for t in subterms(a) if isinstance(t, str)})), "Bool")
    term = (operator, *arguments) if count else operator
    parts = list(dict.fromkeys(arguments))

    def holds(clause):
        for bits in itertools.product([False, True], repeat=len(parts)):
            told = dict(zip(parts, bits))
            told[term] = value_of(operator, [told[a] for a in arguments])
            if not any(told[a] == b for a, b in clause):
                return False
        return True

    told = {a: draw.random() < 0.5 for a in parts}
    clause = [(a, not b) for a, b in told.items()] + [(term, value_of(operator, [told[a] for a in arguments]))]
    draw.shuffle(clause)
    for literal in list(clause):
        less = [l for l in clause if l != literal]
        if holds(less) and draw.random() < 0.9:
            clause = less
    literals = [(d.t(a)[0], b) for a, b in clause]
    d.form(term, *literals)
    for a, b in clause:
        d.tell(a, not b)
    return d.refute()


def of_others(draw, operator):
    """`form` on `=` or `distinct` of another sort."""
    d = Draft(draw)
    sort = draw.choice(["U", "Int"])
    names = "a b c d e".split()[: draw.choice([2, 3, 4])]
    arguments = [draw.choice(names) for _ in range(draw.choice([2, 3, 3]))] if draw.random() < 0.3 else names
    d.declare(" ".join(sorted(set(arguments))), sort)
    term = (operator, *arguments)
    pairs = list(itertools.combinations(arguments, 2)) if operator == "distinct" else list(zip(arguments, arguments[1:]))
    pairs = list(dict.fromkeys(pairs))
    is_distinct = operator == "distinct"
    if draw.random() < 0.6:
        # one pair alone
        a, b = draw.choice(pairs)
        d.form(term, negated(d.t(term)), (d.s(a, b)[0], not is_distinct))
        d.tell(term)
        d.tell_part(("=", a, b) if is_distinct else ("distinct", a, b), d.s(a, b))
    else:
        d.form(term, d.t(term), *((d.s(a, b)[0], is_distinct) for a, b in pairs))
        d.tell(term, False)
        for a, b in pairs:
            d.tell_part(("distinct", a, b) if is_distinct else ("=", a, b), d.s(a, b))
    return d.refute()


SWAPPED = {"<=": ">=", "<": ">", ">=": "<=", ">": "<"}


def drawn_sum(draw, names):
    """An Int term."""
    kind = draw.randrange(5)
    name = draw.choice(names)
    if kind == 0:
        return draw.randrange(10)
    if kind == 1:
        return ("+", name, draw.randrange(1, 9))
    if kind == 2:
        return ("*", sign(draw.choice([-3, -2, 2, 3])), name)
    return name


def of_comparison(draw, operator):
    """`form` on a comparison: the normal bounds of its neighbours."""
    d = Draft(draw)
    names = ["x", "y", "z"][: draw.choice([2, 3])]
    d.declare(" ".join(names), "Int")
    arguments = [drawn_sum(draw, names) for _ in range(draw.choice([2, 2, 3]))]
    term = (operator, *arguments)
    strict = operator in "<>"

    def bound(a, b):
        return d.normal(a, b, strict) if operator in ("<", "<=") else d.normal(b, a, strict)

    pairs = list(zip(arguments, arguments[1:]))
    if draw.random() < 0.5:
        a, b = draw.choice(pairs)
        d.form(term, negated(d.t(term)), bound(a, b))
        d.tell(term)
        d.tell_part((SWAPPED[operator], b, a), bound(a, b), False)
    else:
        d.form(term, d.t(term), *(negated(bound(a, b)) for a, b in pairs))
        d.tell(term, False)
        for a, b in pairs:
            d.tell_part((SWAPPED[operator], b, a), bound(a, b))
    return d.refute()


def picks(draw):
    d = Draft(draw)
    sort, which = draw.choice(["U", "Int"]), draw.randrange(2)
    d.declare("a b", sort)
    d.declare("p", "Bool")
    c = draw.choice(["p", ("not", "p")])
    term = ("ite", c, "a", "b")
    d.pick(term, which)
    d.tell(c, not which)
    branch = "b" if which else "a"
    says, wanted = draw.choice([("=", False), ("distinct", True)])
    d.tell_part((says, term, branch), d.s(term, branch), wanted)
    return d.refute()


def path(draw):
    """Equalities from a to the last, written in either order, and that the ends differ."""
    d = Draft(draw)
    sort = draw.choice(["U", "Int"])
    names = "a b c d e".split()[: draw.choice([1, 2, 3, 3, 4])]
    d.declare(" ".join(names), sort)
    if len(names) == 1:
        d.refl("a")
    for a, b in zip(names, names[1:]):
        if draw.random() < 0.5:
            d.tell_part(("=", b, a), d.s(b, a))
            d.sym(b, a)
        else:
            d.tell_part(("=", a, b), d.s(a, b))
    for b, c in zip(names[1:], names[2:]):
        d.trans("a", b, c)
    if draw.random() < 0.5:
        d.tell_part(("distinct", "a", names[-1]), d.s("a", names[-1]))
    else:
        d.tell_part(("=", "a", names[-1]), d.s("a", names[-1]), False)
    return d.refute()


def congruence(draw):
    d = Draft(draw)
    sort = draw.choice(["U", "Int"])
    d.declare("a b", sort)
    f = draw.choice(["f", "f", "g", "+"] if sort == "Int" else ["f", "g"])
    if f != "+":
        d.declare(f, sort, *([sort] * (2 if f == "g" else 1)))
    d.tell_part(("=", "a", "b"), d.s("a", "b"))

    def applied(t, other):
        return ("f", t) if f == "f" else (f, t, other)

    left, right = applied("a", "b"), applied("b", "b")
    if f != "f":
        d.refl("b")
    d.cong(left, right)
    if f != "+" and draw.random() < 0.5:
        if f != "f":
            d.refl("a")
        left, right = applied(left, "a"), applied(right, "a")
        d.cong(left, right)
    d.tell_part(("=", left, right), d.s(left, right), False)
    return d.refute()


def predicates(draw):
    """`truth`: of equal elements one has a property and the other hasn't."""
    d = Draft(draw)
    d.declare("a b", "U")
    d.declare("g", "Bool", "U")
    d.tell_part(("=", "a", "b"), d.s("a", "b"))
    d.cong(("g", "a"), ("g", "b"))
    if draw.random() < 0.5:
        d.truth(("g", "a"), ("g", "b"))
        d.tell(("g", "a"))
        d.tell(("g", "b"), False)
    else:
        d.sym(("g", "a"), ("g", "b"))
        d.truth(("g", "b"), ("g", "a"))
        d.tell(("g", "b"))
        d.tell(("g", "a"), False)
    return d.refute()


def truths_as_arguments(draw, value):
    """`both` and `none`: a function of a Bool."""
    d = Draft(draw)
    d.declare("p q", "Bool")
    d.declare("f", draw.choice(["U", "Int"]), "Bool")
    d.tell("p", value)
    other = draw.choice(["q", "true" if value else "false"])
    if other == "q":
        d.tell("q", value)
    else:
        d.form(other, (d.t(other)[0], value))
    (d.both if value else d.none)("p", other)
    d.cong(("f", "p"), ("f", other))
    d.tell_part(("=", ("f", "p"), ("f", other)), d.s(("f", "p"), ("f", other)), False)
    return d.refute()


def linked(draw, which):
    """`link`: an equality of Ints with a bound on the difference, or with both."""
    d = Draft(draw)
    names = ["x", "y"]
    d.declare("x y", "Int")
    a, b = drawn_sum(draw, names), drawn_sum(draw, names)
    d.link(a, b, which)
    if which < 2:
        low, high = (a, b) if which == 0 else (b, a)
        d.tell_part(("=", a, b), d.s(a, b))
        raw, normal = d.le(*d.raw(low, high)), d.normal(low, high)
        if raw != normal:
            total, most = d.raw(low, high)
            d.round(total, most, gcd(*total.values()))
        d.tell_part(("<=", low, high), normal, False)
    else:
        for low, high in ((a, b), (b, a)):
            raw, normal = d.le(*d.raw(low, high)), d.normal(low, high)
            d.tell_part(("<=", low, high), normal)
            if raw != normal:
                g = gcd(*d.raw(low, high)[0].values())
                d.farkas((g, negated(normal)), (1, raw))
        d.tell_part(("=", a, b), d.s(a, b), False)
    return d.refute()


def rounded(draw):
    """An equality that no whole numbers meet: both bounds, divided."""
    d = Draft(draw)
    d.declare("x y", "Int")
    g = draw.choice([2, 3, 5])
    a, b = ("*", g, "x"), ("+", ("*", g, "y"), draw.randrange(1, g))
    if draw.random() < 0.5:
        a, b = b, a
    d.tell_part(("=", a, b), d.s(a, b))
    d.link(a, b, 0)
    d.link(a, b, 1)
    low, high = d.round(*d.raw(a, b), g), d.round(*d.raw(b, a), g)
    d.farkas((1, negated(low)), (1, negated(high)))
    return d.refute()


def bounds(draw, is_fraction=False, size=9):
    """Bounds whose multiples add up to a contradiction."""
    d = Draft(draw)
    names = ["x", "y", "z"][: draw.choice([1, 2, 2, 3])]
    d.declare(" ".join(names), "Int")
    count = draw.choice([1, 1, 2])
    rows = []
    for _ in range(count):
        total = {n: draw.choice([-1, 1]) * draw.randrange(1, size) for n in draw.sample(names, draw.randrange(1, len(names) + 1))}
        rows.append((total, draw.randrange(-size, size), draw.randrange(1, 5)))
    over = draw.choice([2, 3, 7]) if is_fraction else 1

    def told(total, most):
        terms = [n if c == 1 else ("-", n) if c == -1 else ("*", sign(c), n) for n, c in total.items()]
        left = terms[0] if len(terms) == 1 else ("+", *terms) if terms else 0
        term = ("<=", left, sign(most)) if draw.random() < 0.5 else (">=", sign(most), left)
        bound = d.normal(*(term[1:] if term[0] == "<=" else term[:0:-1]))
        d.tell_part(term, bound)
        return bound

    weighted, end, limit = [], {}, 0
    for total, most, m in rows:
        bound = told(total, most)
        g, k = gcd(*total.values()), bound[0][2]
        weighted.append((m, negated(bound)))
        for n, c in total.items():
            end[n] = end.get(n, 0) - m * c // g
        limit -= m * k
    end = {n: c for n, c in end.items() if c}
    last = told(end, limit - draw.randrange(1, 4))
    weighted.append((gcd(*end.values()) if end else 1, negated(last)))
    draw.shuffle(weighted)
    if is_fraction:
        weighted = [(m // over if m % over == 0 and draw.random() < 0.5 else ("/", m, over), l) for m, l in weighted]
    d.farkas(*weighted)
    return d.refute()


def clauses(draw):
    """Small clauses over two or three Bools."""
    d = Draft(draw)
    names = BOOLS[: draw.choice([2, 3])]
    d.declare(" ".join(names), "Bool")
    signs = {n: draw.random() < 0.7 for n in names}

    def literal(n, b):
        return n if b == signs[n] else ("not", n)

    if len(names) == 2:
        p, q = names
        told = [(literal(p, True), literal(q, True)), (literal(p, True), literal(q, False)), (literal(p, False), literal(q, True)), (literal(p, False), literal(q, False))]
    else:
        p, q, r = names
        told = [(literal(p, True), literal(q, True)), (literal(p, False), literal(r, True)), (literal(q, False), literal(r, True)), (literal(r, False),)]
    draw.shuffle(told)
    for c in told:
        if len(c) == 1:
            d.assume(c[0])
            parts = c
        else:
            term = ("or", *c)
            d.assume(term)
            d.form(term, negated(d.t(term)), *(d.t(l) for l in c))
            parts = c
        for l in parts:
            if isinstance(l, tuple):
                d.form(l, negated(d.t(l)), negated(d.t(l[1])))
    return d.refute()


def operators(draw):
    """Two assertions over drawn operators on p and q that contradict each other."""
    while True:
        d = Draft(draw)
        d.declare("p q", "Bool")
        term = (draw.choice(["xor", "=", "=>", "and", "or", "distinct"]), "p", "q")
        told = [term] + [draw.choice(["p", "q", ("not", "p"), ("not", "q"), ("=", "p", "q"), ("xor", "p", "q")]) for _ in range(2)]
        for bits in itertools.product([False, True], repeat=2):
            values = dict(zip(("p", "q"), bits))

            def value(t):
                return values[t] if isinstance(t, str) else value_of(t[0], [value(u) for u in t[1:]])

            if all(map(value, told)):
                break
        else:
            break
    for t in dict.fromkeys(told):
        d.assume(t)
        if isinstance(t, tuple):
            parts = t[1:]
            for bits in itertools.product([False, True], repeat=len(parts)):
                if not value_of(t[0], list(bits)):
                    d.form(t, negated(d.t(t)), *((d.t(a)[0], not b) for a, b in zip(parts, bits)))
    return d.refute()


def mixed(draw):
    """Integers that bounds make equal, under a function."""
    d = Draft(draw)
    d.declare("x y", "Int")
    f, sort = draw.choice([("f", "Int"), ("g", "U"), ("h", "Bool")])
    d.declare(f, sort, "Int")
    other = draw.choice(["y", ("+", "y", draw.randrange(1, 5)), draw.randrange(9)])
    for low, high in (("x", other), (other, "x")):
        d.tell_part(draw.choice([("<=", low, high), (">=", high, low)]), d.normal(low, high))
    d.link("x", other, 2)
    left, right = (f, "x"), (f, other)
    d.cong(left, right)
    if sort == "Bool":
        d.truth(left, right)
        d.tell(left)
        d.tell(right, False)
    else:
        d.tell_part(("=", left, right), d.s(left, right), False)
    return d.refute()


def wide(draw):
    """An operator with many arguments, of which one is told."""
    d = Draft(draw)
    if draw.random() < 0.5:
        names = [f"c{k}" for k in range(draw.choice([5, 7, 8]))]
        d.declare(" ".join(names), "U")
        term = ("distinct", *names)
        a, b = sorted(draw.sample(range(len(names)), 2))
        d.form(term, negated(d.t(term)), negated(d.s(names[a], names[b])))
        d.tell(term)
        d.tell_part(("=", names[a], names[b]), d.s(names[a], names[b]))
        return d.refute()
    names = BOOLS[: draw.choice([5, 6, 7, 8])]
    d.declare(" ".join(names), "Bool")
    operator, one = draw.choice(["and", "or", "=", "distinct", "=>", "xor"]), draw.choice(names[:-1])
    term = (operator, *names)
    if operator in ("and", "or"):
        is_and = operator == "and"
        d.form(term, (d.t(term)[0], not is_and), (d.t(one)[0], is_and))
        d.tell(term, is_and)
        d.tell(one, not is_and)
    elif operator == "=":
        d.form(term, negated(d.t(term)), negated(d.t(one)), d.t(names[-1]))
        d.tell(term)
        d.tell(one)
        d.tell(names[-1], False)
    elif operator == "distinct":
        d.form(term, negated(d.t(term)))
        d.tell(term)
    elif operator == "=>":
        d.form(term, d.t(term), draw.choice([d.t(one), negated(d.t(names[-1]))]))
        literal = sorted(d.clauses[0] - {d.t(term)})[0]
        d.tell(term, False)
        d.tell(one if literal[1] else names[-1], not literal[1])
    else:
        term = ("xor", *names, *names[:-1])
        d.form(term, negated(d.t(term)), d.t(names[-1]))
        d.tell(term)
        d.tell(names[-1], False)
    return d.refute()


MOST = 2**127 - 1


def extremes(draw):
    """Numbers at the end of the range."""
    d = Draft(draw)
    kind = draw.randrange(4)
    if kind < 2:
        # a number below itself
        n = draw.choice([MOST, MOST - 1, 2**64])
        bound = d.normal(n, n, 1)
        d.tell_part(("<", n, n), bound)
        d.farkas((draw.choice([MOST, ("/", MOST, draw.choice([2, MOST - 1, MOST])), ("/", 1, MOST)]), negated(bound)))
    elif kind == 2:
        d.declare("x", "Int")
        low, high = d.normal(MOST, "x"), d.normal("x", MOST, 1)
        d.tell_part((">=", "x", MOST), low)
        d.tell_part(("<", "x", MOST), high)
        d.farkas((1, negated(low)), (1, negated(high)))
    else:
        d.declare("x", "Int")
        c = draw.choice([MOST, 2**126])
        term = ("=", ("*", c, "x"), 1)
        d.tell_part(term, d.s(*term[1:]))
        d.link(*term[1:], 0)
        d.link(*term[1:], 1)
        low, high = d.round({"x": c}, 1, c), d.round({"x": -c}, -1, c)
        d.farkas((1, negated(low)), (1, negated(high)))
    return d.refute()


# ---- divisions


def drawn_divisor(draw):
    n = draw.choice([2, 3, 3, 4, 5, 7])
    return sign(draw.choice([n, n, -n]))


def told_bound(d, low, high, strict=0):
    """low <= high, or low < high, is asserted; gives its bound."""
    term = ("<" if strict else "<=", low, high) if d.draw.random() < 0.5 else (">" if strict else ">=", high, low)
    bound = d.normal(low, high, strict)
    d.tell_part(term, bound)
    return bound


def of_quotient(draw):
    """A term from n * c on, whose quotient by n is below c; by a divisor below 0 the quotient's negation is."""
    d = Draft(draw)
    d.declare("x y", "Int")
    a = draw.choice(["x", "x", ("+", "x", draw.randrange(1, 5)), ("-", "x", "y")])
    n, c = draw.choice([drawn_divisor(draw), MOST]), draw.randrange(-3, 4)
    c = 0 if n == MOST else c
    m, term = abs(divisor(n)), ("div", a, n)
    (row,) = d.euclid(term, 1)
    is_below = divisor(n) < 0
    low = told_bound(d, sign(1 - c), term) if is_below else told_bound(d, term, sign(c - 1))
    high = told_bound(d, sign(m * c), a)
    d.farkas((1, negated(row)), (m, negated(low)), (1, negated(high)))
    return d.refute()


def of_quotients(draw):
    """A quotient by two divisors after one another: below c, of a term from their product times c on."""
    d = Draft(draw)
    d.declare("x", "Int")
    n, k, c = draw.choice([2, 3, 5]), draw.choice([2, 3, 4]), draw.randrange(-2, 4)
    inner, term = ("div", "x", n), ("div", "x", n, k)
    (first,), (second,) = d.euclid(inner, 1), d.euclid(term, 1)
    low, high = told_bound(d, term, sign(c - 1)), told_bound(d, sign(n * k * c), "x")
    d.farkas((1, negated(first)), (n, negated(second)), (n * k, negated(low)), (1, negated(high)))
    return d.refute()


def of_remainder(draw):
    """A remainder isn't below 0, and below the divisor."""
    d = Draft(draw)
    d.declare("x", "Int")
    a, n = draw.choice(["x", "x", ("+", "x", 7)]), drawn_divisor(draw)
    m, term = abs(divisor(n)), ("mod", a, n)
    if draw.random() < 0.5:
        (one,), (other,) = d.euclid(term, 0), d.euclid(term, 3)
        bound = told_bound(d, term, sign(-draw.randrange(1, 3)))
    else:
        (one,), (other,) = d.euclid(term, 1), d.euclid(term, 2)
        bound = told_bound(d, m + draw.randrange(2), term)
    d.farkas((1, negated(one)), (1, negated(other)), (1, negated(bound)))
    return d.refute()


def of_divisibility(draw):
    """A divisible term between two neighbouring multiples, or one that isn't divisible and is a multiple."""
    d = Draft(draw)
    d.declare("x", "Int")
    n, c = draw.choice([2, 3, 4, 7]), draw.randrange(-3, 4)
    a = draw.choice(["x", "x", ("-", "x", 1)])
    term, q = divisibility(n, a), ("div", a, n)
    is_divisible = draw.random() < 0.5
    d.tell(term, is_divisible)
    if is_divisible:
        above, below = told_bound(d, sign(n * c + 1), a), told_bound(d, a, sign(n * c + n - 1))
        (over,) = d.euclid(term, 0)
        under = d.euclid(term, 3)[1]
        # n * q is at most n * c + n - 1 then
        high = d.normal(q, sign(c))
    else:
        above, below = told_bound(d, sign(n * c), a), told_bound(d, a, sign(n * c))
        (under,) = d.euclid(term, 1)
        over = d.euclid(term, 2)[1]
        # n * q is at most n * c - 1 then
        high = d.normal(q, sign(c - 1))
    d.farkas((1, negated(over)), (1, negated(below)), (n, high))
    d.farkas((1, negated(under)), (1, negated(above)), (n, negated(high)))
    return d.refute()


def of_absolute(draw):
    """An absolute value is at least the term and its negation, and one of them."""
    d = Draft(draw)
    d.declare("x", "Int")
    term, kind = ("abs", "x"), draw.randrange(3)
    if kind < 2:
        (row,) = d.euclid(term, kind)
        bound = told_bound(d, term, "x" if kind == 0 else ("-", "x"), 1)
        d.farkas((1, negated(row)), (1, negated(bound)))
        return d.refute()
    c = draw.randrange(5)
    one, other = d.euclid(term, 2)
    high, low, bound = told_bound(d, "x", c), told_bound(d, sign(-c), "x"), told_bound(d, c, term, 1)
    d.farkas((1, negated(one)), (1, negated(high)), (1, negated(bound)))
    d.farkas((1, negated(other)), (1, negated(low)), (1, negated(bound)))
    return d.refute()


def of_divisions(draw):
    """Congruence under a head that divides."""
    d = Draft(draw)
    d.declare("x y", "Int")
    head, *more = draw.choice([("div", 3), ("mod", sign(-2)), ("abs",), ("(_ divisible 5)",)])
    d.tell_part(("=", "x", "y"), d.s("x", "y"))
    for n in more:
        d.refl(n)
    left, right = (head, "x", *more), (head, "y", *more)
    d.cong(left, right)
    if head == "(_ divisible 5)":
        d.truth(left, right)
        d.tell(left)
        d.tell(right, False)
    else:
        d.tell_part(("=", left, right), d.s(left, right), False)
    return d.refute()


BOOLEAN = ["not", "and", "or", "xor", "=>", "=", "distinct", "ite", "true", "false"]
KINDS = (
    [(f"form {o}", lambda draw, o=o: of_bools(draw, o)) for o in BOOLEAN]
    + [(f"form {o} of others", lambda draw, o=o: of_others(draw, o)) for o in ("=", "distinct")]
    + [(f"form {o}", lambda draw, o=o: of_comparison(draw, o)) for o in SWAPPED]
    + [(f"link {n}", lambda draw, n=n: linked(draw, n)) for n in range(3)]
    + [("both", lambda draw: truths_as_arguments(draw, True)), ("none", lambda draw: truths_as_arguments(draw, False))]
    + [("pick", picks), ("path", path), ("congruence", congruence), ("truth", predicates), ("round", rounded)]
    + [("farkas", bounds), ("farkas with fractions", lambda draw: bounds(draw, True))]
    + [("clauses", clauses), ("operators", operators), ("mixed", mixed), ("wide", wide), ("ends of the range", extremes)]
    + [("quotient", of_quotient), ("quotients", of_quotients), ("remainder", of_remainder), ("divisibility", of_divisibility), ("absolute value", of_absolute), ("divisions", of_divisions)]
)
