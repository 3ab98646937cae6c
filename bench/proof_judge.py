"""What is found of a script with a proof: read after the definitions (Proof, Rules, Reading, Linear, Atoms,
Range, Found), over Python's whole numbers, without any of the program's code.

An atom is ("t", i), ("s", i, j) or ("le", ((i, c), ..), k) with ascending i; a literal is a pair of an atom and whether
it is positive; a clause is a frozenset of literals.
"""
from fractions import Fraction
from math import gcd

from proof_script import ARITHMETIC, COMPARISONS, DIVISIONS, OPERATORS, Forest, divisor_read, is_symbol, is_word, operator_sort, read, small, takes

STATUS = {"yes": 0, "node": 1, "no": 1, "range": 8, "no proof": 7}


class Wrong(Exception):
    """Not by its rule."""


class Leaves(Exception):
    """A number leaves the range."""


def check(holds, fault=Wrong):
    if not holds:
        raise fault


def truth(i):
    return (("t", i), True)


def same(i, j):
    return (("s", i, j), True)


def at_most(form, strict=0):
    """form <= 0, or form < 0, as it is folded."""
    total, constant = form
    return (("le", tuple(sorted(total.items())), -constant - strict), True)


def normal(atom):
    """A bound divided by the greatest common divisor of its coefficients."""
    _, total, most = atom
    g = gcd(*(c for _, c in total)) if total else 1
    return ("le", tuple((p, c // g) for p, c in total), most // g)


def quotient_rows(a, n, q):
    return [(None, [([(n, q), (-1, a)], 0)]), (None, [([(1, a), (-n, q)], abs(n) - 1)])]


def negated(literal):
    return (literal[0], not literal[1])


# ---- linear forms: a dictionary of coefficients by places, and a constant


def plus(f, g, times=1):
    total = dict(f[0])
    for i, c in g[0].items():
        total[i] = total.get(i, 0) + times * c
        if total[i] == 0:
            del total[i]
    return total, f[1] + times * g[1]


def times(k, f):
    return ({i: k * c for i, c in f[0].items()} if k else {}), k * f[1]


def product(f, g):
    return times(f[1], g) if not f[0] else times(g[1], f)


def form_fits(f):
    return all(small(c) for c in f[0].values()) and small(f[1])


FOLDS = {"+": plus, "-": lambda f, g: plus(f, g, -1), "*": product}


def fold(operator, forms):
    """The form, and whether all on the way stay in the range."""
    form, fits = forms[0], form_fits(forms[0])
    for other in forms[1:]:
        form = FOLDS[operator](form, other)
        fits = fits and form_fits(form)
    if operator == "-" and len(forms) == 1:
        form = times(-1, form)
    return form, fits


# ---- the terms of a proof


class Terms:
    def __init__(self, fold_):
        # what terms stand for, and terms as they are written: there a head `(_ divisible n)` is the numeral with an argument
        self.forest, self.written = fold_.forest, Forest()
        self.meant = []
        self.functions = fold_.functions
        self.heads, self.arguments, self.trees, self.sorts, self.forms, self.fit = [], [], [], [], [], []
        self.first = {}

    def head(self, sexp):
        if isinstance(sexp, list):
            number_ = divisor_read(sexp)
            return None if number_ is None else ("number", number_)
        if is_word(sexp, "numeral"):
            return ("number", sexp[1]) if small(sexp[1]) else None
        if not is_word(sexp, "symbol"):
            return None
        if sexp[1] in OPERATORS:
            return ("operator", sexp[1])
        declaration = self.functions.get(sexp[1])
        return ("symbol", declaration) if declaration and declaration.body is None else None

    def sort_of(self, head, sorts):
        kind, what = head
        if kind == "number":
            return "Bool" if sorts == ["Int"] else None if sorts else "Int"
        if kind == "symbol":
            return what.result if sorts == what.arguments else None
        stands = not sorts if what in ("true", "false") else takes(what, len(sorts))
        return operator_sort(what, sorts) if stands else None

    def add(self, sexp):
        """Whether it is a term."""
        head = self.head(sexp[0]) if isinstance(sexp, list) and sexp else None
        if head is None or not all(is_word(s, "numeral") for s in sexp[1:]):
            return False
        # a numeral stands alone, and `(_ divisible n)` before one place
        if head[0] == "number" and len(sexp) != (2 if isinstance(sexp[0], list) else 1):
            return False
        arguments = [s[1] for s in sexp[1:]]
        if not all(i < len(self.trees) for i in arguments):
            return False
        sort = self.sort_of(head, [self.sorts[i] for i in arguments])
        if sort is None:
            return False
        number = ("symbol", head[1].id) if head[0] == "symbol" else head
        tree = self.written_tree(number, [self.trees[i] for i in arguments])
        if tree is None:
            return False
        place = self.first.setdefault(tree, len(self.trees))
        self.heads.append(number)
        self.arguments.append(arguments)
        self.trees.append(tree)
        self.meant.append(self.tree_meant(number, [self.meant[i] for i in arguments]))
        self.sorts.append(sort)
        self.fit.append(all(self.fit[i] for i in arguments))
        self.forms.append(self.form_at(place) if sort == "Int" else None)
        return True

    def written_tree(self, head, arguments):
        """None where it isn't linear."""
        divides = head[0] == "operator" and head[1] in DIVISIONS
        if divides and not all(map(self.written.is_divisor, arguments[1:])):
            return None
        tree = self.written.tree(head, arguments)
        return tree if self.written.linear[tree] else None

    def tree_meant(self, head, arguments):
        if head[0] == "number" and arguments:
            return self.forest.operation("divisible", [*arguments, self.forest.tree(head, [])])
        return self.forest.operation(head[1], arguments) if head[0] == "operator" else self.forest.tree(head, arguments)

    def place(self, head, arguments):
        """The first term with this head and the trees of these, None where there is none."""
        return self.first.get(self.written.numbers.get((head, tuple(arguments))))

    def form_at(self, place):
        """The form of the newest term, whose tree stands first at the place."""
        kind, what = self.heads[-1]
        if kind == "number":
            return {}, what
        if kind == "operator" and what in ARITHMETIC:
            form, fits = fold(what, [self.forms[i] for i in self.arguments[-1]])
            self.fit[-1] = self.fit[-1] and fits
            return form
        return {place: 1}, 0

    # -- what a literal may be over

    def is_bool(self, i):
        return i < len(self.sorts) and self.sorts[i] == "Bool"

    def is_int(self, i):
        return i < len(self.sorts) and self.sorts[i] == "Int"

    def is_leaf(self, i):
        kind, what = self.heads[i]
        return kind != "number" and not (kind == "operator" and what in ARITHMETIC)

    def is_literal(self, literal):
        atom = literal[0]
        if atom[0] == "t":
            return self.is_bool(atom[1])
        if atom[0] == "s":
            return max(atom[1:]) < len(self.sorts) and self.sorts[atom[1]] == self.sorts[atom[2]]
        return all(c != 0 and self.is_int(i) and self.is_leaf(i) for i, c in atom[1])

    # -- comparisons

    def difference(self, i, j):
        return plus(self.forms[i], self.forms[j], -1)

    def difference_fits(self, i, j):
        return self.fit[i] and self.fit[j] and fold("-", [self.forms[i], self.forms[j]])[1]

    def neighbours(self, i):
        """The pairs (lesser, greater) of a comparison."""
        pairs = zip(self.arguments[i], self.arguments[i][1:])
        return [(b, a) if self.heads[i][1] in (">", ">=") else (a, b) for a, b in pairs]

    def bounds(self, i):
        """The normal bounds of a comparison's neighbours."""
        strict = self.heads[i][1] in ("<", ">")
        atoms = []
        for a, b in self.neighbours(i):
            atoms.append(normal(at_most(self.difference(a, b), strict)[0]))
        return atoms

    def bounds_fit(self, i):
        strict = self.heads[i][1] in ("<", ">")
        return all(
            self.difference_fits(a, b) and (not strict or small(-self.difference(a, b)[1] - 1)) for a, b in self.neighbours(i)
        )


# ---- reading steps; None where there is none


def number(sexp):
    return sexp[1] if is_word(sexp, "numeral") else None


def integer(sexp):
    if isinstance(sexp, list) and len(sexp) == 2 and is_symbol(sexp[0], "-") and number(sexp[1]):
        return -sexp[1][1]
    return number(sexp)


def atom_read(sexp):
    if not (isinstance(sexp, list) and sexp):
        return None
    if is_symbol(sexp[0], "t") and len(sexp) == 2 and number(sexp[1]) is not None:
        return ("t", sexp[1][1])
    if is_symbol(sexp[0], "s") and len(sexp) == 3 and None not in map(number, sexp[1:]):
        return ("s", sexp[1][1], sexp[2][1])
    if is_symbol(sexp[0], "le") and len(sexp) == 3 and isinstance(sexp[1], list):
        total = {}
        for summand in sexp[1]:
            if not (isinstance(summand, list) and len(summand) == 2):
                return None
            c, i = integer(summand[0]), number(summand[1])
            if c is None or i is None or c == 0 or i in total:
                return None
            total[i] = c
        most = integer(sexp[2])
        return None if most is None else ("le", tuple(sorted(total.items())), most)
    return None


def literal_read(sexp):
    positive = not (isinstance(sexp, list) and len(sexp) == 2 and is_symbol(sexp[0], "not"))
    atom = atom_read(sexp if positive else sexp[1])
    return None if atom is None else (atom, positive)


def weighted_read(sexp):
    if not (isinstance(sexp, list) and len(sexp) == 2):
        return None
    multiplier, literal = sexp[0], literal_read(sexp[1])
    if isinstance(multiplier, list):
        if not (len(multiplier) == 3 and is_symbol(multiplier[0], "/")):
            return None
        parts = [number(m) for m in multiplier[1:]]
    else:
        parts = [number(multiplier), 1]
    return None if literal is None or None in parts else (*parts, literal)


# how many places or literals each rule names
SHAPES = {
    "assert": [number] * 2, "pick": [number] * 2, "euclid": [number] * 2, "refl": [number], "sym": [number] * 2,
    "trans": [number] * 3, "cong": [number] * 2, "truth": [number] * 2, "both": [number] * 2, "none": [number] * 2,
    "link": [number] * 3, "round": [literal_read, number], "res": [number, number, literal_read],
}


def step_read(sexp):
    """The rule's name and what it names."""
    if not (isinstance(sexp, list) and sexp and is_word(sexp[0], "symbol")):
        return None
    name, rest = sexp[0][1], sexp[1:]
    if name == "form":
        shape = [number] + [literal_read] * (len(rest) - 1) if rest else None
    elif name == "farkas":
        shape = [weighted_read] * len(rest)
    else:
        shape = SHAPES.get(name)
    if shape is None or len(shape) != len(rest):
        return None
    parts = [reads(s) for reads, s in zip(shape, rest)]
    return None if None in parts else (name, parts)


def atom_fits(atom):
    return atom[0] != "le" or (small(atom[2]) and all(small(c) for _, c in atom[1]))


def numbers_fit(name, parts):
    if name == "form":
        return all(atom_fits(a) for a, _ in parts[1:])
    if name == "round":
        return atom_fits(parts[0][0]) and small(parts[1])
    if name == "farkas":
        return all(small(a) and small(b) and atom_fits(atom) for a, b, (atom, _) in parts)
    return name != "res" or atom_fits(parts[2][0])


# ---- truth values


def operate(operator, values):
    """The truth value by those of the arguments, None where those that are None leave it open."""
    known = [v for v in values if v is not None]
    is_open = len(known) < len(values)
    if operator in ("true", "false"):
        return operator == "true"
    if operator == "not":
        return None if is_open else not values[0]
    if operator == "=>":
        return operate("or", [None if v is None else not v for v in values[:-1]] + values[-1:])
    if operator == "and":
        return False if False in known else None if is_open else True
    if operator == "or":
        return True if True in known else None if is_open else False
    if operator == "xor":
        return None if is_open else sum(known) % 2 == 1
    if operator == "=":
        return False if len(set(known)) > 1 else None if is_open else True
    if operator == "distinct":
        return False if len(set(known)) < len(known) else None if is_open else True
    assert operator == "ite"
    if values[0] is None:
        return values[1] if values[1] == values[2] else None
    return values[1] if values[0] else values[2]


def can_be(operator, parts, told, wanted):
    """Some truth values of the parts, among them those told, give the one wanted: they are tried one after the other, as far as it is open."""
    told = dict(told)
    free = [p for p in dict.fromkeys(parts) if p not in told]
    place, tried = 0, []
    while True:
        value = operate(operator, [told.get(p) for p in parts])
        if value == wanted:
            return True
        if value is None:
            told[free[place]] = True
            tried.append(free[place])
            place += 1
            continue
        while tried and not told[tried[-1]]:
            del told[tried.pop()]
            place -= 1
        if not tried:
            return False
        told[tried[-1]] = False


# ---- fractions by the listed operations


def product_in_range(x, y):
    u, v = gcd(abs(x.numerator), y.denominator), gcd(abs(y.numerator), x.denominator)
    listed = [(x.numerator // u) * (y.numerator // v), (x.denominator // v) * (y.denominator // u)]
    return all(map(small, listed))


def sum_in_range(x, y):
    g = gcd(x.denominator, y.denominator)
    left, right = x.numerator * (y.denominator // g), y.numerator * (x.denominator // g)
    h = gcd(abs(left + right), g)
    return all(map(small, [left, right, left + right, (x.denominator // g) * (y.denominator // h)]))


def adds_in_range(multiples):
    total = Fraction(0)
    for m, c in multiples:
        c = Fraction(c)
        if not (product_in_range(m, c) and sum_in_range(total, m * c)):
            return False
        total += m * c
    return True


# ---- the rules: each gives a clause, or raises Wrong or Leaves


class Proof:
    def __init__(self, terms, asserted):
        self.terms, self.asserted, self.clauses = terms, asserted, []
        self.count = len(terms.trees)

    def step(self, sexp):
        found = step_read(sexp)
        check(found is not None)
        name, parts = found
        check(numbers_fit(name, parts), Leaves)
        rule = getattr(self, name.replace("assert", "assertion").replace("none", "neither"))
        clause = rule(parts) if name in ("form", "farkas") else rule(*parts)
        check(all(self.terms.is_literal(l) for l in clause))
        self.clauses.append(frozenset(clause))

    def assertion(self, a, i):
        check(a < len(self.asserted) and i < self.count and self.asserted[a] == self.terms.meant[i])
        return [truth(i)]

    def form(self, parts):
        i, literals = parts[0], parts[1:]
        check(i < self.count and self.terms.heads[i][0] == "operator")
        operator, arguments = self.terms.heads[i][1], self.terms.arguments[i]
        if operator in COMPARISONS and all(self.terms.is_literal(l) for l in literals):
            check(self.terms.bounds_fit(i), Leaves)
        if all(self.terms.is_bool(a) for a in arguments):
            atoms = [("t", a) for a in arguments]
        elif operator == "=":
            operator, atoms = "and", [("s", a, b) for a, b in zip(arguments, arguments[1:])]
        elif operator == "distinct":
            pairs = [("s", a, b) for k, a in enumerate(arguments) for b in arguments[k + 1 :]]
            # none of the pairs is the negation of some pair
            return self.always(i, literals, "or", pairs, turned=True)
        else:
            check(operator in COMPARISONS)
            operator, atoms = "and", self.terms.bounds(i)
        return self.always(i, literals, operator, atoms)

    @staticmethod
    def always(i, literals, operator, atoms, turned=False):
        """One of the literals is true, whatever truth values the atoms have, where the term has the one that they give, or the other where it is turned."""
        own, among = ("t", i), set(atoms)
        check(all(a == own or a in among for a, _ in literals))
        told = {}
        for atom, positive in literals:
            if told.setdefault(atom, not positive) == positive:
                return literals
        values = [told.pop(own)] if own in told else [True, False]
        check(not any(can_be(operator, atoms, told, v != turned) for v in values))
        return literals

    def pick(self, i, which):
        check(i < self.count and which < 2 and self.terms.heads[i] == ("operator", "ite") and not self.terms.is_bool(i))
        c, first, second = self.terms.arguments[i]
        return [truth(c), same(i, second)] if which else [negated(truth(c)), same(i, first)]

    def euclid(self, i, n):
        """A row: a truth value of the term or None, and limits, each of multiples and what their sum is at most."""
        check(i < self.count)
        rows = self.rows(i)
        check(rows is not None and n < len(rows))
        value, limits = rows[n]
        bounds = []
        for multiples, most in limits:
            check(all(self.terms.fit[j] for _, j in multiples), Leaves)
            total, fits = ({}, 0), True
            for k, j in reversed(multiples):
                part = times(k, self.terms.forms[j])
                total = plus(part, total)
                fits = fits and form_fits(part) and form_fits(total)
            check(fits and small(most - total[1]), Leaves)
            bounds.append((normal(("le", tuple(sorted(total[0].items())), most - total[1])), True))
        return ([] if value is None else [(("t", i), value)]) + bounds

    def rows(self, i):
        """The rows of the table of divisions for a term, None where it has none."""
        terms, arguments = self.terms, self.terms.arguments[i]
        kind, what = terms.heads[i]
        if kind == "number" and arguments:
            a, divisor = arguments[0], what
            numeral = terms.written.numbers.get((("number", what), ()))
            q = terms.place(("operator", "div"), [terms.trees[a], numeral])
            if q is None:
                return None
            return quotient_rows(a, divisor, q) + [(True, [([(divisor, q), (-1, a)], -1)]), (False, [([(1, a), (-divisor, q)], 0)])]
        if kind != "operator":
            return None
        if what == "abs":
            a = arguments[0]
            return [(None, [([(1, a), (-1, i)], 0)]), (None, [([(-1, a), (-1, i)], 0)]), (None, [([(1, i), (-1, a)], 0), ([(1, i), (1, a)], 0)])]
        if what == "mod":
            a, n = arguments
            divisor, q = terms.forms[n][1], terms.place(("operator", "div"), [terms.trees[a], terms.trees[n]])
            if q is None:
                return None
            above, below = [(1, i), (divisor, q), (-1, a)], [(-1, i), (1, a), (-divisor, q)]
            return quotient_rows(a, divisor, q) + [(None, [(above, 0)]), (None, [(below, 0)])]
        if what == "div":
            *before, n = arguments
            a = before[0] if len(before) == 1 else terms.place(("operator", "div"), [terms.trees[j] for j in before])
            return None if a is None else quotient_rows(a, terms.forms[n][1], i)
        return None

    def refl(self, i):
        return [same(i, i)]

    def sym(self, i, j):
        return [negated(same(i, j)), same(j, i)]

    def trans(self, i, j, k):
        return [negated(same(i, j)), negated(same(j, k)), same(i, k)]

    def cong(self, i, j):
        check(i < self.count and j < self.count and self.terms.heads[i] == self.terms.heads[j])
        left, right = self.terms.arguments[i], self.terms.arguments[j]
        check(len(left) == len(right))
        return [negated(same(a, b)) for a, b in zip(left, right)] + [same(i, j)]

    def truth(self, i, j):
        return [negated(same(i, j)), negated(truth(i)), truth(j)]

    def both(self, i, j):
        return [negated(truth(i)), negated(truth(j)), same(i, j)]

    def neither(self, i, j):
        return [truth(i), truth(j), same(i, j)]

    def link(self, i, j, which):
        check(which < 3 and self.terms.is_int(i) and self.terms.is_int(j))
        pairs = [[(i, j)], [(j, i)], [(i, j), (j, i)]][which]
        check(all(self.terms.difference_fits(a, b) for a, b in pairs), Leaves)
        bounds = [at_most(self.terms.difference(a, b)) for a, b in pairs]
        return [negated(b) for b in bounds] + [same(i, j)] if which == 2 else [negated(same(i, j)), *bounds]

    def round(self, literal, g):
        (kind, *rest), positive = literal
        check(kind == "le" and positive and g > 0 and all(c % g == 0 for _, c in rest[0]))
        return [negated(literal), (("le", tuple((i, c // g) for i, c in rest[0]), rest[1] // g), True)]

    def farkas(self, weighted):
        check(all(a > 0 and b > 0 and l[0][0] == "le" and self.terms.is_literal(l) for a, b, l in weighted))
        rows = []
        for a, b, ((_, total, most), positive) in weighted:
            # what is at most 0 where the literal is false
            form = (dict(total), -most) if not positive else ({i: -c for i, c in total}, most + 1)
            check(form_fits(form), Leaves)
            rows.append((Fraction(a, b), form))
        leaves = sorted({i for _, (total, _) in rows for i in total})
        for i in leaves:
            check(adds_in_range([(m, f[0][i]) for m, f in rows if i in f[0]]), Leaves)
        check(adds_in_range([(m, f[1]) for m, f in rows]), Leaves)
        check(all(sum(m * f[0].get(i, 0) for m, f in rows) == 0 for i in leaves))
        check(sum(m * f[1] for m, f in rows) > 0)
        return [l for _, _, l in weighted]

    def res(self, p, q, literal):
        check(p < len(self.clauses) and q < len(self.clauses))
        left, right = self.clauses[p], self.clauses[q]
        check(literal in left and negated(literal) in right)
        return (left - {literal}) | (right - {negated(literal)})


# ---- the whole


def judge(data):
    """The line and the status."""
    line = found(data)
    return line, STATUS[line if line in STATUS else line.split()[0]]


def found(data):
    script = read(data)
    if script is None:
        return "no proof"
    fold_, sexp = script
    if not (isinstance(sexp, list) and len(sexp) == 2 and all(isinstance(s, list) for s in sexp)):
        return "no proof"
    terms = Terms(fold_)
    for n, s in enumerate(sexp[0]):
        if not terms.add(s):
            return f"node {n}"
    proof = Proof(terms, fold_.assertions())
    for n, s in enumerate(sexp[1]):
        try:
            proof.step(s)
        except Wrong:
            return f"no {n}"
        except Leaves:
            return f"range {n}"
    if not proof.clauses or proof.clauses[-1]:
        return f"no {len(proof.clauses)}"
    return "yes"
