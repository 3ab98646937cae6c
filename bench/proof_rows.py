"""Rows: scripts with proofs as text, good ones written in many ways and spoiled ones, each with what is found of it."""
import random
import re

from proof_drafts import BOOLS, KINDS, MOST, SWAPPED, Draft, linear, literal_text, negated, replaced, show, sign, subterms
from proof_judge import judge


def compact(text, limit):
    """The text with as few blanks as it takes to keep below the limit."""
    for pattern in (r"(?<=\)) (?=\()", r" (?=\()|(?<=\)) "):
        if len(text) < limit:
            break
        text = re.sub(pattern, "", text)
    return text


# ---- ways to write the script: each gives the commands before `(get-proof)`, or None where it can't


def asserts(d):
    return [f"(assert {show(t)})" for t in d.asserted]


def plain(d, draw):
    return [*d.declared, *asserts(d), "(check-sat)"]


def with_levels(d, draw):
    """Levels below, between and above, and one that goes again."""
    parts = asserts(d)
    for _ in range(draw.choice([1, 2])):
        parts.insert(draw.randrange(len(parts) + 1), draw.choice(["(push 1)", "(push)", "(push 2)"]))
    parts.insert(draw.randrange(len(parts) + 1), "(push 1)(assert false)(pop 1)")
    return [*d.declared, *parts, "(check-sat)"]


def with_assumptions(d, draw):
    """The last assertions are assumed at the check."""
    if not d.asserted:
        return [*d.declared, "(check-sat-assuming ())"]
    first = draw.randrange(len(d.asserted))
    return [*d.declared, *asserts(d)[:first], f"(check-sat-assuming ({' '.join(map(show, d.asserted[first:]))}))"]


def part_of(d, draw, leaves=False):
    """An assertion's number, and a part of it."""
    found = [(a, u) for a, t in enumerate(d.asserted) for u in subterms(t) if isinstance(u, tuple) or (leaves and u in d.sorts)]
    return draw.choice(found) if found else None


def with_let(d, draw):
    found = part_of(d, draw, leaves=True)
    if not found:
        return None
    a, u = found
    parts = asserts(d)
    parts[a] = f"(assert (let ((k {show(u)})) {show(replaced(d.asserted[a], u, 'k'))}))"
    return [*d.declared, *parts, "(check-sat)"]


def with_definition(d, draw):
    """An assertion is a definition applied to a constant, or is one."""
    found = part_of(d, draw, leaves=True)
    if not found:
        return None
    a, u = found
    parts = asserts(d)
    if isinstance(u, str) and "(declare-const " + u in "".join(d.declared):
        define = f"(define-fun dd ((k {d.sorts[u]})) Bool {show(replaced(d.asserted[a], u, 'k'))})"
        parts[a] = f"(assert (dd {u}))"
    else:
        define = f"(define-fun dd () Bool {show(d.asserted[a])})"
        parts[a] = "(assert dd)"
    return [*d.declared, define, *parts, "(check-sat)"]


def with_names(d, draw):
    """A part has a name, by which it is called in a later assertion."""
    found = part_of(d, draw)
    if not found:
        return None
    a, u = found
    parts = asserts(d)
    # the first place where the part stands
    parts[a] = parts[a].replace(show(u), f"(! {show(u)} :named nn)", 1)
    if "let" in parts[a]:
        return None
    for later in range(a + 1, len(parts)):
        parts[later] = f"(assert {show(replaced(d.asserted[later], u, 'nn'))})"
    return [*d.declared, *parts, "(check-sat)"]


def with_noise(d, draw):
    """Commands that change nothing of the last check."""
    before = draw.choice(["(set-logic QF_UFLIA)", "(set-logic ALL)", "(set-option :produce-models true)", "(set-info :status unsat)", "(assert false)(reset)", "(push 3)(reset)", "; (get-proof)\n"])
    refused = draw.choice(["(assert nothing)", "(assert (not 1))", "(pop 1)", "(assert", "(get-model)", "(get-proof 1)", "(declare-fun and () Bool)", "(exit 1)", "(echo \"(get-proof)\")"])
    refused = "" if refused == "(assert" else refused
    after = draw.choice(["(get-value (1))", "(get-info :reason-unknown)", "(set-option :verbosity 1)", "(set-logic QF_UF)", "(set-info :a 1)", "(assert)", "(set-option :produce-models true)", "(check-sat)", "(pop 1)", "(get-assertions)", "(echo \"x\")", "(declare-sort V 1)", "(get-unsat-core)", "x", "()"])
    return [before, *d.declared, refused, *asserts(d), "(check-sat)", after]


def with_globals(d, draw):
    """Declarations of a level that went."""
    return ["(set-option :global-declarations true)", "(push 1)", *d.declared, "(assert false)", "(pop 1)", *asserts(d), "(check-sat)"]


def with_minimum(d, draw):
    """The last check is the question for a least value, which asserts that the term is itself."""
    names = [n for n, sort in d.sorts.items() if sort == "Int" and f"(declare-const {n} " in "".join(d.declared)]
    if not names:
        return None
    x = draw.choice(names)
    if draw.random() < 0.5 and d.steps:
        # its assertion is the last
        node = d.node(("=", x, x))
        d.steps.insert(len(d.steps) - 1, ["assert", len(d.asserted), node])
    return [*d.declared, *asserts(d), draw.choice(["", "(check-sat)"]), f"(minimize {x})"]


STYLES = [plain, with_levels, with_assumptions, with_let, with_definition, with_names, with_noise, with_globals, with_minimum]


def text(d, commands, limit, draw=None):
    nodes, steps = d.nodes, d.steps
    proof = f"({show(nodes)} {show(steps)})"
    whole = "".join(commands) + "(get-proof)" + proof
    if draw and draw.random() < 0.15 and len(whole) < limit - 20:
        name = draw.choice([s[0] for s in d.nodes if isinstance(s[0], str) and s[0][0] != "("] or ["p"])
        proof = re.sub(rf"\({re.escape(name)}(?=[ )])", f"(|{name}|", proof, count=1) + draw.choice(["", "(", "\n; end", "(get-proof)", "\x7f", ")"])
        return "".join(commands) + draw.choice(["(get-proof)", "( get-proof;\n)", "(|get-proof|)\n"]) + proof
    return compact(whole, limit)


# ---- other ways to write a good proof


def literals_in(d):
    """Where literals stand: the list and the place in it."""
    found = []
    for n, step in enumerate(d.steps):
        if step[0] == "form":
            found += [(n, step, k) for k in range(2, len(step))]
        elif step[0] == "farkas":
            found += [(n, pair, 1) for pair in step[1:]]
        elif step[0] == "round":
            found.append((n, step, 1))
        elif step[0] == "res":
            found.append((n, step, 3))
    return found


def atom_in(literal):
    return literal[1] if literal[0] == "not" else literal


def turn_sums(d, draw):
    """Summands in another order."""
    for _, holder, k in literals_in(d):
        atom = atom_in(holder[k])
        if atom[0] == "le":
            atom[1].reverse()
    return d


def write_twice(d, draw):
    """A literal stands twice."""
    forms = [s for s in d.steps if s[0] == "form"]
    if forms:
        step = draw.choice(forms)
        step.append(draw.choice(step[2:]))
    return d


def add_idle(d, draw):
    """A term and a step that nothing needs."""
    d.nodes.append(draw.choice([["true"], ["false"], [7], [MOST], ["not", draw.choice(bools(d))] if bools(d) else ["true"]]))
    d.steps.insert(len(d.steps) - 1, ["refl", draw.randrange(len(d.nodes))])
    return d


VARIANTS = [turn_sums, write_twice, add_idle]


# ---- places in a draft


def sort_at(d, n):
    """The sort of a node of a good draft."""
    head = d.nodes[n][0]
    if head == "ite":
        return sort_at(d, d.nodes[n][2])
    if isinstance(head, int) or head in ("+", "-", "*", "div", "mod", "abs"):
        return "Int"
    return d.sorts.get(head, "Bool")


def bools(d):
    return [n for n in range(len(d.nodes)) if sort_at(d, n) == "Bool"]


def ints(d):
    return [n for n in range(len(d.nodes)) if sort_at(d, n) == "Int"]


def steps_of(d, *names):
    return [n for n, s in enumerate(d.steps) if s[0] in names]


def chosen(draw, found):
    if not found:
        raise LookupError
    return draw.choice(found)


# ---- spoiling: each changes a draft and gives the line where it is sure, else None


def case(d, draw, count):
    """One of so many cases: in turn where a table is filled, else drawn."""
    return draw.randrange(count) if d.case is None else d.case % count


def leave_literal_out(d, draw):
    n = chosen(draw, [n for n in steps_of(d, "form") if len(d.steps[n]) > 2])
    del d.steps[n][draw.randrange(2, len(d.steps[n]))]


def leave_bound_out(d, draw):
    n = chosen(draw, steps_of(d, "farkas"))
    del d.steps[n][draw.randrange(1, len(d.steps[n]))]
    return f"no {n}"


def add_literal(d, draw):
    n = chosen(draw, steps_of(d, "form"))
    i = d.steps[n][1]
    literal = chosen(draw, [["t", m] for m in bools(d) if m != i and m not in d.nodes[i][1:]] + [["s", i, i], ["t", len(d.nodes)]])
    d.steps[n].insert(draw.randrange(2, len(d.steps[n]) + 1), draw.choice([literal, ["not", literal]]))
    return f"no {n}"


def turn_sign(d, draw):
    n, holder, k = chosen(draw, literals_in(d))
    holder[k] = holder[k][1] if holder[k][0] == "not" else ["not", holder[k]]


def turn_round(d, draw):
    n = chosen(draw, steps_of(d, "round"))
    d.steps[n][1] = ["not", d.steps[n][1]]
    return f"no {n}"


def other_multiplier(d, draw):
    n = chosen(draw, steps_of(d, "farkas"))
    pair = draw.choice(d.steps[n][1:])
    kind = case(d, draw, 7)
    old = pair[0]
    if kind == 0:
        pair[0] = 0
    elif kind == 1:
        pair[0] = ("-", old) if isinstance(old, int) else ("-", *old[1:])
    elif kind == 2:
        pair[0] = ("/", draw.choice([0, 1]), 0)
    elif kind == 3:
        pair[0] = ("/", 0, 1)
    elif kind == 4:
        pair[0] = ("/", sign(-1), 2)
    else:
        pair[0] = old + 1 if isinstance(old, int) else ("/", old[1], old[2] + 1)
        return None
    return f"no {n}"


def other_bound(d, draw):
    """A coefficient, a leaf or the number of a bound is another."""
    n, holder, k = chosen(draw, [f for f in literals_in(d) if atom_in(f[1][f[2]])[0] == "le"])
    atom = atom_in(holder[k])
    kind = case(d, draw, 6)
    if kind == 0 or not atom[1]:
        atom[2] = draw.choice([0, 1, sign(-1), 100])
    elif kind == 1:
        draw.choice(atom[1])[0] = draw.choice([1, sign(-1), 2])
    elif kind == 2:
        draw.choice(atom[1])[0] = 0
        return f"no {n}"
    elif kind == 3:
        atom[1].append(list(atom[1][0]))
        return f"no {n}"
    elif kind == 4:
        draw.choice(atom[1])[1] = draw.randrange(len(d.nodes) + 1)
    else:
        atom[2] = draw.choice([("-", 0), ("-", ("-", 1)), "x", "1.0", "#x1", ("+", 1)])
        return f"no {n}"


def add_bad_node(d, draw):
    """A node that is no term, at the end or before all."""
    last = len(d.nodes)
    b, x = draw.choice(bools(d) or [0]), (ints(d) or [None])[-1]
    kind = case(d, draw, 11)
    if kind in (0, 1, 9, 10) and x is None:
        raise LookupError
    if kind == 0:
        found = [["not", x], ["and", b, x], ["=", b, x], ["ite", x, b, b], ["ite", b, b, x], ["<", b, x], [">=", x, b], ["-", x, b], ["distinct", x, x, b]]
    elif kind == 1:
        found = [["*", x, x], ["*", x, x, x]]
        if linear_twice(d, x):
            raise LookupError
    elif kind == 2:
        found = [["not", b, b], ["not"], ["true", b], ["=", b], ["and"], ["distinct", b], ["ite", b, b], ["+"], ["<="], [5, b], ["=>", b], ["xor"]]
    elif kind == 3:
        found = [["and", last], ["or", b, last], ["not", last + 1], ["and", 2**64], ["xor", b, 2**32], ["distinct", b, last]]
    elif kind == 4:
        found = [["nothing"], ["nothing", b], ["div", b, b], ["abs", b], ["mod", b, b], ["U"], ["Bool"], ["assert", b]]
    elif kind == 5:
        found = [["let", b], ["!", b], ["_", b], ["1.5"], ['"and"', b], [":and", b], ["#x1"], [("-", 1)], [["and"], b], ["par"]]
    elif kind == 6:
        found = [[MOST + 1], [2**128 - 1], [10**60]]
    elif kind == 9:
        found = [["div", x], ["mod", x], ["mod", x, x, x], ["abs", x, x], ["abs"], [3, x], ["(_ divisible 3)"], ["(_ divisible 3)", x, x], ["(_ divisible 3)", b]]
        found += [[head, x] for head in ("(_ divisible 0)", f"(_ divisible {MOST + 1})", "(_ divisible)", "(_ divisible 3 3)", "(_ divide 3)", "(divisible 3)", "(_ divisible (- 3))", "divisible")]
    elif kind == 10:
        # by 0, by a sum, or by a term that isn't constant
        d.nodes += [[0], [2], ["+", last + 1, last + 1], ["-", last], ["*", last + 1, last + 1], ["-", last + 1], ["-", last + 5]]
        by = last + draw.choice([0, 2, 3, 4, 6])
        last = len(d.nodes)
        found = [["div", x, by], ["mod", x, by], ["div", x, last - 6, by], ["div", x, by, last - 2]]
    elif kind == 7:
        found = ["p", [], 0, [[]], ["and", "p"], ["and", ["not", b]], ["not", sign(-1)], ["not", "0.0"], [["true"]]]
    else:
        found = []
        for name, sort in d.sorts.items():
            is_constant = f"(declare-const {name} " in "".join(d.declared)
            found += [[name, b]] if is_constant else [[name], [name, b, b, b]]
    node, place = chosen(draw, found), draw.choice([last, last, last, 0])
    if place == 0 and kind in (0, 1, 8, 9, 10):
        place = last
    # what stood after it is one place later then: only the first fault counts
    d.nodes.insert(place, node)
    return f"node {place}"


def linear_twice(d, x):
    """A square of the node is linear."""
    head = d.nodes[x][0]
    return isinstance(head, int) or (head in ("+", "-", "*") and all(linear_twice(d, i) for i in d.nodes[x][1:]))


def other_node(d, draw):
    """An argument of a node is another, perhaps itself or a later one."""
    n = chosen(draw, [n for n, node in enumerate(d.nodes) if len(node) > 1])
    k = draw.randrange(1, len(d.nodes[n]))
    d.nodes[n][k] = draw.choice([n, n + 1, draw.randrange(max(1, n)), len(d.nodes)])
    return f"node {n}" if d.nodes[n][k] >= n else None


def other_head(d, draw):
    n = draw.randrange(len(d.nodes))
    d.nodes[n][0] = draw.choice(["not", "and", "or", "=", "distinct", "<", "+", "*", "true", 1, "p", "f", "xor", "=>"])


def later_step(d, draw):
    n = chosen(draw, steps_of(d, "res"))
    d.steps[n][draw.choice([1, 2])] = draw.choice([n, n + 1, len(d.steps), 2**64, 10**30])
    return f"no {n}"


def other_step(d, draw):
    n = chosen(draw, steps_of(d, "res"))
    d.steps[n][draw.choice([1, 2])] = draw.randrange(n)


def turn_steps(d, draw):
    n = chosen(draw, steps_of(d, "res"))
    d.steps[n][1], d.steps[n][2] = d.steps[n][2], d.steps[n][1]


def other_literal(d, draw):
    """Resolution on another literal."""
    n = chosen(draw, steps_of(d, "res"))
    d.steps[n][3] = draw.choice([["t", draw.choice(bools(d))], ["s", 0, 0], ["t", len(d.nodes)], ["le", [], 0]])


def other_assertion(d, draw):
    n = chosen(draw, steps_of(d, "assert"))
    a = draw.choice([len(d.asserted), 2**64, (d.steps[n][1] + 1) % len(d.asserted), (d.steps[n][1] + 1) % len(d.asserted)])
    d.steps[n][1] = a
    return f"no {n}" if a >= len(d.asserted) or d.asserted[a] != d.asserted[d.copy().steps[n][1]] else None


def other_place(d, draw):
    """A step names another term."""
    n = draw.randrange(len(d.steps))
    places = [k for k, part in enumerate(d.steps[n]) if k and isinstance(part, int)]
    d.steps[n][chosen(draw, places)] = draw.choice([draw.randrange(len(d.nodes)), len(d.nodes), 2**32, 2**32 + 1, 2**70])


def no_end(d, draw):
    """The last clause isn't empty."""
    kind = case(d, draw, 3)
    if kind == 0:
        d.steps.pop()
    elif kind == 1:
        d.steps.append(["refl", draw.randrange(len(d.nodes))])
    else:
        d.steps.clear()
    return f"no {len(d.steps)}"


def no_such_index(d, draw):
    n = chosen(draw, steps_of(d, "pick", "link", "round"))
    d.steps[n][-1] = {"pick": [2, 5, 2**64], "link": [3, 2**64, 4], "round": [0]}[d.steps[n][0]][draw.randrange(3) if d.steps[n][0] != "round" else 0]
    return f"no {n}"


def other_index(d, draw):
    n = chosen(draw, steps_of(d, "pick", "link", "round"))
    d.steps[n][-1] = draw.choice([0, 1, 2, 7])


def malformed(d, draw):
    """A step of no form."""
    n = draw.randrange(len(d.steps))
    step = d.steps[n]
    kind = case(d, draw, 12)
    if kind == 0:
        if step[0] in ("form", "farkas"):
            raise LookupError
        step.pop()
    elif kind == 1:
        step.append(0)
    elif kind == 2:
        step[0] = draw.choice(["resolve", "Assert", "and", "not", ["res"], "", "euclid!", "\"res\"", ":res", "let"])
    elif kind == 3:
        d.steps[n] = draw.choice(["res", 0, [], [[]], ["res"]])
    elif kind == 4:
        d.steps[n] = ["euclid", draw.randrange(len(d.nodes)), draw.randrange(3)]
        return None
    elif kind == 5:
        step[1] = draw.choice(["p", sign(-1), "0.0", "#b0", []])
    elif kind == 6:
        found = [f for f in literals_in(d) if f[0] == n]
        _, holder, k = chosen(draw, found)
        holder[k] = draw.choice([["not", ["not", holder[k]]], [], "t", ["t"], ["t", 0, 0], ["s", 0], ["s", 0, 0, 0], ["T", 0], ["not"], ["le", [], 0, 0], ["le", 0, 0], ["not", ["t", 0], 0]])
    elif kind == 7:
        d.steps[n] = ["assert", 0]
    elif kind == 8:
        d.steps[n] = ["form", draw.randrange(len(d.nodes))]
    elif kind == 9:
        d.steps[n] = ["farkas"]
    elif kind == 10:
        d.steps[n] = ["form"]
    else:
        d.steps[n] = [step]
    return f"no {n}"


def ill_sorted(d, draw):
    """A step whose clause is over a term of another sort."""
    n = draw.randrange(len(d.steps) + 1)
    b, others = bools(d), [m for m in range(len(d.nodes)) if m not in bools(d)]
    x, p = chosen(draw, others), chosen(draw, b)
    step = draw.choice([
        ["refl", len(d.nodes)], ["sym", p, x], ["sym", x, p], ["trans", x, x, p], ["trans", x, p, x], ["truth", x, x], ["truth", p, x], ["both", x, p], ["both", x, x],
        ["none", p, x], ["none", x, x], ["link", p, p, 0], ["link", x, p, 2], ["pick", x, 0], ["pick", p, 0], ["cong", x, p], ["assert", 0, x], ["form", x, ["t", p]],
        ["farkas", [1, ["t", p]]], ["farkas", [1, ["le", [[1, p]], 0]], [1, ["not", ["le", [[1, p]], 0]]]], ["round", ["le", [[2, p]], 1], 2],
        ["farkas", [1, ["not", ["le", [[1, p], [1, x]], 0]]]],
    ])
    d.steps.insert(n, step)
    return None if step[0] in ("cong", "pick") else f"no {n}"


def no_leaf(d, draw):
    """A bound over a sum or a numeral."""
    x = chosen(draw, [m for m in ints(d) if isinstance(d.nodes[m][0], int) or d.nodes[m][0] in ("+", "-", "*")])
    n = draw.randrange(len(d.steps) + 1)
    most = draw.choice([0, 1])
    d.steps.insert(n, draw.choice([
        ["farkas", [1, ["le", [[1, x]], most]], [1, ["not", ["le", [[1, x]], most]]]],
        ["round", ["le", [[2, x]], most], 2],
    ]))
    return f"no {n}"


def second_place(d, draw):
    """A node stands twice, and a literal names the second."""
    _, holder, k = chosen(draw, literals_in(d))
    atom = atom_in(holder[k])
    places = [i for _, i in atom[1]] if atom[0] == "le" else atom[1:]
    n = chosen(draw, places)
    d.nodes.append(list(d.nodes[n]))
    if atom[0] == "le":
        for summand in atom[1]:
            summand[1] = len(d.nodes) - 1 if summand[1] == n else summand[1]
    else:
        atom[1:] = [len(d.nodes) - 1 if i == n else i for i in atom[1:]]


def no_head(d, draw):
    """A definition or a name as a head: the script is written with one."""
    d.style = draw.choice([with_definition, with_names])
    d.nodes.append(["dd" if d.style is with_definition else "nn"])
    return f"node {len(d.nodes) - 1}"


# -- divisions


def other_row(d, draw):
    """Another row of the same term."""
    n = chosen(draw, steps_of(d, "euclid"))
    d.steps[n][2] = draw.choice([k for k in range(4) if k != d.steps[n][2]])


def no_such_row(d, draw):
    n = chosen(draw, steps_of(d, "euclid"))
    count = {"div": 2, "abs": 3}.get(d.nodes[d.steps[n][1]][0], 4)
    d.steps[n][2] = draw.choice([count, count + 1, 2**64, 10**30])
    return f"no {n}"


def no_quotient(d, draw):
    """The quotient that goes with a division is no term: another stands in its place."""
    n = chosen(draw, steps_of(d, "euclid"))
    i = d.steps[n][1]
    head, *arguments = d.nodes[i]
    if head in ("div", "abs") and len(arguments) < 3:
        raise LookupError
    q = chosen(draw, [m for m, node in enumerate(d.nodes) if node[0] == "div" and m != i])
    d.nodes[q] = draw.choice([["mod", *d.nodes[q][1:3]], ["abs", d.nodes[q][1]], ["-", *d.nodes[q][1:]]])
    return f"no {min(m for m in steps_of(d, 'euclid') if d.steps[m][1] == i or d.steps[m][1] == q)}" if not used_before(d, n, q, i) else None


def used_before(d, n, q, i):
    """A step before it may be spoiled, too."""
    return any(s[0] != "euclid" or s[1] not in (q, i) for s in d.steps[:n]) or any(s[0] == "euclid" and s[1] == q for s in d.steps)


def no_division(d, draw):
    """A row of a term that is no division."""
    n = chosen(draw, steps_of(d, "euclid"))
    d.steps[n][1] = chosen(draw, [m for m, node in enumerate(d.nodes) if node[0] not in ("div", "mod", "abs") and not str(node[0]).startswith("(_")] + [len(d.nodes)])
    return f"no {n}"


def large_row(d, draw):
    """Folding a row leaves the range."""
    last, n = len(d.nodes), len(d.steps) - 1
    d.nodes += [[MOST], ["-", last], ["div", last + 1, last], ["+", last, last], ["abs", last + 3], ["mod", last + 3, last], ["div", last + 3, last], ["(_ divisible 3)", last + 3]]
    d.nodes += [[3], ["div", last + 3, last + 8], ["abs", last]]
    i, row = draw.choice([(last + 2, 1), (last + 4, 0), (last + 4, 2), (last + 5, 3), (last + 6, 0), (last + 7, 2), (last + 7, 1)])
    d.steps.insert(n, ["euclid", i, row])
    return f"range {n}"


# -- numbers past the end of the range


def large_number(d, draw):
    """A number that a step writes is past the end of the range."""
    large = draw.choice([MOST + 1, MOST + 1, 2**128, 10**45])
    found = literals_in(d)
    bounds_ = [f for f in found if atom_in(f[1][f[2]])[0] == "le"]
    kind = case(d, draw, 5)
    n = draw.randrange(len(d.steps) + 1)
    if kind == 0 and bounds_:
        n, holder, k = draw.choice(bounds_)
        atom_in(holder[k])[2] = sign(draw.choice([large, -large]))
    elif kind == 1 and [f for f in bounds_ if atom_in(f[1][f[2]])[1]]:
        n, holder, k = draw.choice([f for f in bounds_ if atom_in(f[1][f[2]])[1]])
        draw.choice(atom_in(holder[k])[1])[0] = sign(draw.choice([large, -large]))
    elif kind == 2 and steps_of(d, "farkas"):
        n = draw.choice(steps_of(d, "farkas"))
        draw.choice(d.steps[n][1:])[0] = draw.choice([large, ("/", 1, large), ("/", large, 1), ("/", large, large)])
    elif kind == 3 and steps_of(d, "round"):
        n = draw.choice(steps_of(d, "round"))
        d.steps[n][2] = large
    else:
        # before other faults of the step
        d.steps.insert(n, draw.choice([
            ["form", 999, ["le", [[large, 999]], 0]], ["res", 999, 999, ["le", [], large]], ["farkas", [0, ["le", [], large]]], ["round", ["not", ["t", 0]], large],
            ["form", 0, ["t", 0], ["not", ["le", [], sign(-large)]]], ["farkas", [("/", 0, large), ["t", 0]]],
        ]))
    return f"range {n}"


def large_sum(d, draw):
    """A sum, or a product of it with a multiplier, leaves the range on the way."""
    n = len(d.steps) - 1
    half = 2**126
    kind = case(d, draw, 9)
    if kind == 0:
        # the negation of a bound on the greatest number
        step = ["farkas", [1, ["le", [], MOST]]]
    elif kind == 1:
        step = ["farkas", [draw.choice([2, 3, ("/", 3, 2)]), ["not", ["le", [], sign(-draw.choice([half, MOST]))]]]]
        if step[1][0] == ("/", 3, 2):
            step[1][1][1][2] = sign(-MOST)
    elif kind == 2:
        step = ["farkas", [1, ["not", ["le", [], sign(-half)]]], [1, ["not", ["le", [], sign(-half)]]]]
    elif kind == 3:
        # it would come back: the order counts
        step = ["farkas", *([1, ["not", ["le", [], sign(k)]]] for k in (-MOST, -1, MOST))]
    elif kind == 4:
        step = ["farkas", [("/", 1, half), ["not", ["le", [], sign(-1)]]], [("/", 1, half - 1), ["not", ["le", [], sign(-1)]]]]
    else:
        d.nodes += [[MOST], [half], [1]]
        last = len(d.nodes)
        if kind == 5:
            d.nodes += [["+", last - 3, last - 1], ["=", last, last]]
            step = ["link", last, last, draw.randrange(3)]
        elif kind == 6:
            d.nodes += [["<", last - 3, last - 3], ["-", last - 3], ["<", last + 1, last - 3], [">", last - 1, last - 3]]
            step = ["form", last + 2, ["t", last + 2]]
        elif kind == 7:
            d.nodes += [["-", last - 3], ["<=", last, last - 1]]
            step = ["form", last + 1, ["t", last + 1], ["le", [], 0]]
        else:
            d.nodes += [["*", last - 2, last - 2], ["*", last - 1, last - 1], [draw.choice([">=", "<="]), last + 1, last]]
            step = ["form", last + 2, ["not", ["t", last + 2]]]
    d.steps.insert(n, step)
    return None if kind in (6, 7) else f"range {n}"


def inner_sum(d, draw):
    """Folding leaves the range inside a leaf's arguments."""
    d.declare("f", "Int", "Int")
    if d.sorts["f"] != "Int" or "(declare-fun f (Int) Int)" not in d.declared:
        raise LookupError
    last = len(d.nodes)
    d.nodes += [[MOST], ["+", last, last], ["f", last + 1], [draw.choice(list(SWAPPED)), last + 2, last]]
    step = draw.choice([["link", last + 2, last, draw.randrange(3)], ["form", last + 3, ["t", last + 3]]])
    d.steps.append(step)
    return f"range {len(d.steps) - 1}"


# -- scripts that have no proof, or another stack


def no_proof(d, draw):
    commands = plain(d, draw)
    kind = case(d, draw, 14)
    if kind == 0:
        commands.pop()
    elif kind == 1:
        commands.append(draw.choice(["(push 1)", "(pop 0)", "(push 0)", "(assert true)", "(declare-const k Int)", "(declare-sort W 0)", "(define-fun k () Int 1)", "(define-sort W () Int)"]))
    elif kind == 2:
        commands.append(draw.choice(["(reset)", "(reset-assertions)"]))
    elif kind == 3:
        commands.insert(draw.randrange(len(commands) + 1), draw.choice(["(exit)", "(|exit|)"]))
    elif kind == 4:
        commands.insert(draw.randrange(len(commands) + 1), draw.choice([")", "01", "1a", "#xg", "\"", "|", "{", ":", "(assert"]))
    elif kind == 5:
        d.tail = draw.choice(["1", "p", "()", "(())", "(() () ())", "(() p)", "(1 ())", "\"()\"", "", "(", "(()", "(() ()", "(() (01))", "(get-proof)", "(((p)) (1.))"])
    elif kind == 6:
        d.ask = draw.choice(["", "(get-proof 1)", "get-proof", "((get-proof))", "(get-proofs)", "(get-model)"])
    elif kind == 7:
        commands.insert(-1, "(check-sat)(get-proof)")
        commands[-1] = "(assert false)(check-sat)"
    elif kind == 8:
        commands.insert(len(commands) - 1, "(check-sat)(push 1)")
        commands.pop()
    elif kind == 9:
        commands[-1] = draw.choice(["(check-sat 1)", "(check-sat-assuming (1))", "(check-sat-assuming)", "(check)", "check-sat"])
    elif kind == 10:
        commands.insert(0, "(get-proof)")
    elif kind == 11:
        commands = ["(check-sat)", *commands[:-1]]
    elif kind == 12:
        commands.append("(set-option :produce-models true)(set-option :print-success)(push)")
    else:
        commands.insert(0, "(set-logic ALL)(get-proof)")
    d.commands = commands
    return None if kind in (7,) else "no proof"


def other_stack(d, draw):
    """Another script for the same proof."""
    commands = plain(d, draw)
    kind = case(d, draw, 5)
    parts = asserts(d)
    if kind == 0 and len(parts) > 1:
        draw.shuffle(parts)
        commands = [*d.declared, *parts, "(check-sat)"]
    elif kind == 1:
        commands = [*d.declared, "(assert true)", *parts, "(check-sat)"]
    elif kind == 2:
        commands = [*d.declared, *parts[:-1], "(push 1)", *parts[-1:], "(pop 1)", "(check-sat)"]
    elif kind == 3:
        # what was assumed is gone
        commands = [*d.declared, *parts[:-1], f"(check-sat-assuming ({show(d.asserted[-1])}))", "(check-sat)"]
    else:
        commands = [*d.declared[:-1], *parts, "(check-sat)"]
    d.commands = commands


SPOILERS = [
    leave_literal_out, leave_bound_out, add_literal, turn_sign, turn_round, other_multiplier, other_bound, add_bad_node, other_node, other_head, later_step,
    other_step, turn_steps, other_literal, other_assertion, other_place, no_end, no_such_index, other_index, malformed, ill_sorted, no_leaf, second_place,
    no_head, large_number, large_sum, inner_sum, no_proof, other_stack, other_row, no_such_row, no_quotient, no_division, large_row,
]
# how often each is taken, where not once
OFTEN = {add_bad_node: 6, malformed: 4, no_proof: 5, large_number: 2, large_sum: 3, other_bound: 2, other_multiplier: 2, ill_sorted: 2, other_node: 2, other_stack: 2}


# ---- rows


class Row:
    def __init__(self, kind, way, data):
        self.kind, self.way, self.data = kind, way, data
        self.line, self.status = judge(data)


def good_row(draw, limit, kind=None):
    """A good proof, as long as the limit at most; None where it doesn't come out so."""
    name, build = kind or draw.choice(KINDS)
    d = build(draw)
    way = draw.choice(STYLES)
    commands = way(d, draw)
    if commands is None:
        return None
    ways = way.__name__
    if draw.random() < 0.3:
        variant = draw.choice(VARIANTS)
        d, ways = variant(d, draw), f"{ways}, {variant.__name__}"
    row = Row(name, ways, text(d, commands, limit, draw).encode("latin-1"))
    if len(row.data) >= limit:
        return None
    assert row.line == "yes", (name, ways, row.line, row.data)
    return row


def spoiled_row(draw, limit, spoiler=None, number=None):
    """A good proof spoiled in one place."""
    spoiler = spoiler or draw.choice(SPOILERS)
    name, build = draw.choice(KINDS)
    d = build(draw)
    d.case = number
    d.style, d.commands, d.ask, d.tail = plain if draw.random() < 0.7 else draw.choice(STYLES), None, "(get-proof)", None
    try:
        sure = spoiler(d, draw)
    except LookupError:
        return None
    count = len(d.steps)
    commands = d.commands or d.style(d, draw)
    if commands is None:
        return None
    if len(d.steps) > count:
        # a step joined before the last
        sure = None
    proof = f"({show(d.nodes)} {show(d.steps)})" if d.tail is None else d.tail
    row = Row(name, spoiler.__name__, compact("".join(commands) + d.ask + proof, limit).encode("latin-1"))
    if len(row.data) >= limit or row.line == "yes":
        return None
    assert sure is None or row.line == sure, (name, spoiler.__name__, sure, row.line, row.data)
    return row


def table(seed, good=80, spoiled=120, limit=720):
    """Rows, all different: of good proofs of each kind in turn, and of each way to spoil one."""
    rows, seen = [], set()

    def fill(draws, count):
        for place in range(count):
            for attempt in range(400):
                draw = random.Random(f"{seed}/{count}/{place}/{attempt}")
                row = draws[place % len(draws)](draw, place // len(draws))
                if row and row.data not in seen:
                    break
            else:
                raise RuntimeError(f"no row at {place} of {count}")
            seen.add(row.data)
            rows.append(row)

    fill([lambda draw, turn, k=k: good_row(draw, limit, k) for k in KINDS], good)
    ways = [(s, n) for n in range(max(OFTEN.values())) for s in SPOILERS if n < OFTEN.get(s, 1)]
    fill([lambda draw, turn, s=s, n=n: spoiled_row(draw, limit, s, turn * OFTEN.get(s, 1) + n) for s, n in ways], spoiled)
    return rows


def drawn(seed, count, limit=100_000):
    """Rows one after the other, about as many good ones as spoiled ones."""
    for number in range(count):
        for attempt in range(400):
            draw = random.Random(f"{seed}/drawn/{number}/{attempt}")
            row = (good_row if number % 2 else spoiled_row)(draw, limit)
            if row:
                yield row
                break
