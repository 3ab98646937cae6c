"""Bytes as s-expressions, and what the commands of a script leave on the stack: read after the definitions (Reading,
Sorts, StackCommand, State), without any of the program's code.

A token is a pair of its kind and its text (of a numeral: its number); a list is a list. A tree is a number in a
`Forest`, so that equal trees are equal numbers.
"""
import inspect
import re

LIMIT = 2**127
MOST_OPEN = 10_000
MOST_LEVELS = 65_535


def small(number):
    """In the range from -(2^127 - 1) to 2^127 - 1."""
    return abs(number) < LIMIT


# ---- reading


class Fault(Exception):
    """A lexical fault, or the end inside an s-expression."""


GAP = re.compile(rb"(?:[\t\n\r ]|;[^\n\r]*)*")
WORD = re.compile(rb"[A-Za-z0-9~!@$%^&*_\-+=<>.?/:#]+")
TEXT = re.compile(rb'"((?:[\t\n\r\x20\x21\x23-\x7e\x80-\xff]|"")*)"')
QUOTED = re.compile(rb"\|([\t\n\r\x20-\x5b\x5d-\x7b\x7d\x7e\x80-\xff]*)\|")
SYMBOL_BYTE = rb"[A-Za-z0-9~!@$%^&*_\-+=<>.?/]"
KINDS = [
    ("numeral", re.compile(rb"0|[1-9][0-9]*")),
    ("decimal", re.compile(rb"(0|[1-9][0-9]*)\.[0-9]+")),
    ("hex", re.compile(rb"#x[0-9A-Fa-f]+")),
    ("binary", re.compile(rb"#b[01]+")),
    ("keyword", re.compile(rb":" + SYMBOL_BYTE + rb"+")),
    ("symbol", re.compile(rb"(?![0-9])" + SYMBOL_BYTE + rb"+")),
]
RESERVED = {b"!", b"_", b"as", b"let", b"exists", b"forall", b"match", b"par"}


def decimal(digits):
    """The number that digits write, however many."""
    number = 0
    for start in range(0, len(digits), 4000):
        part = digits[start : start + 4000]
        number = number * 10 ** len(part) + int(part)
    return number


def word_token(word):
    for kind, form in KINDS:
        if form.fullmatch(word):
            if kind == "numeral":
                return (kind, decimal(word))
            if kind == "keyword":
                return (kind, word[1:].decode("latin-1"))
            if kind == "symbol" and word in RESERVED:
                kind = "reserved"
            return (kind, word.decode("latin-1"))
    raise Fault


def lex(data, place):
    """The token at a place, `(`, `)` or a pair, and the place after it; None at the end."""
    place = GAP.match(data, place).end()
    if place == len(data):
        return None, place
    byte = data[place : place + 1]
    if byte in (b"(", b")"):
        return byte, place + 1
    if byte == b'"':
        found = TEXT.match(data, place)
        if not found:
            raise Fault
        return ("text", found.group(1).replace(b'""', b'"').decode("latin-1")), found.end()
    if byte == b"|":
        found = QUOTED.match(data, place)
        if not found:
            raise Fault
        return ("symbol", found.group(1).decode("latin-1")), found.end()
    found = WORD.match(data, place)
    if not found:
        raise Fault
    return word_token(found.group()), found.end()


def next_sexp(data, place):
    """The s-expression at a place and the place after it; None at the end."""
    open_lists = []
    while True:
        token, place = lex(data, place)
        if token is None:
            if open_lists:
                raise Fault
            return None, place
        if token == b"(":
            if len(open_lists) == MOST_OPEN:
                raise Fault
            open_lists.append([])
            continue
        if token == b")":
            if not open_lists:
                raise Fault
            token = open_lists.pop()
        if not open_lists:
            return token, place
        open_lists[-1].append(token)


def is_word(sexp, kind):
    return isinstance(sexp, tuple) and sexp[0] == kind


def is_symbol(sexp, name):
    return sexp == ("symbol", name)


# ---- sorts and trees; a sort is "Bool", "Int" or the id of a declared one

OPERATORS = ["true", "false", "not", "and", "or", "xor", "=>", "=", "distinct", "ite", "+", "-", "*", "<=", "<", ">=", ">", "div", "mod", "abs"]
RESERVED_FUNCTIONS = set(OPERATORS)
BARE = {"true", "false"}
ARITHMETIC = {"+", "-", "*"}
COMPARISONS = {"<=", "<", ">=", ">"}
# `div` and `mod` divide by all arguments but the first; of `(_ divisible n)` the numeral is the second
DIVISIONS = {"div", "mod", "divisible"}


def takes(operator, count):
    """As the head of a list."""
    if operator in BARE:
        return False
    if operator in ("not", "abs"):
        return count == 1
    if operator == "mod":
        return count == 2
    if operator == "ite":
        return count == 3
    if operator in ("and", "or", "+", "-", "*"):
        return count >= 1
    return count >= 2


def operator_sort(operator, sorts):
    """The sort of the result, None where the arguments have others."""
    if operator in BARE:
        return "Bool"
    if operator in ("=", "distinct"):
        return "Bool" if len(set(sorts)) <= 1 else None
    if operator == "ite":
        return sorts[1] if len(sorts) == 3 and sorts[0] == "Bool" and sorts[1] == sorts[2] else None
    if operator in ARITHMETIC | {"div", "mod", "abs"}:
        return "Int" if set(sorts) <= {"Int"} else None
    if operator in COMPARISONS:
        return "Bool" if set(sorts) <= {"Int"} else None
    return "Bool" if set(sorts) <= {"Bool"} else None


def divisor_read(sexp):
    """The number of the head `(_ divisible n)`."""
    is_head = isinstance(sexp, list) and len(sexp) == 3 and sexp[:2] == [("reserved", "_"), ("symbol", "divisible")]
    return sexp[2][1] if is_head and is_word(sexp[2], "numeral") and sexp[2][1] >= 1 and small(sexp[2][1]) else None


class Forest:
    """Trees by numbers. A head is (number, n), (operator, o), (symbol, id) or (place, k). The tree of a remainder has its quotient as a third argument, and
    so has the one of a divisibility, whose second is the numeral."""

    def __init__(self):
        self.numbers = {}
        self.nodes = []
        self.constant = []
        self.linear = []

    def tree(self, head, arguments):
        key = (head, tuple(arguments))
        if key not in self.numbers:
            self.numbers[key] = len(self.nodes)
            self.nodes.append(key)
            kinds = [self.constant[a] for a in arguments]
            is_constant_head = head[0] == "number" or (head[0] == "operator" and head[1] in ARITHMETIC)
            self.constant.append(is_constant_head and all(kinds))
            here = head != ("operator", "*") or sum(not k for k in kinds) <= 1
            if head[0] == "operator" and head[1] in DIVISIONS:
                here = self.is_divisor(arguments[1])
            self.linear.append(here and all(self.linear[a] for a in arguments))
        return self.numbers[key]

    def is_divisor(self, tree):
        """A numeral other than 0, or the negation of one."""
        head, arguments = self.nodes[tree]
        if head == ("operator", "-") and len(arguments) == 1:
            head, arguments = self.nodes[arguments[0]]
        return head[0] == "number" and head[1] != 0 and not arguments

    def operation(self, operator, arguments):
        """An operator applied."""
        if operator == "div":
            tree, *divisors = arguments
            for d in divisors:
                tree = self.tree(("operator", "div"), [tree, d])
            return tree
        if operator in ("mod", "divisible"):
            arguments = [*arguments, self.tree(("operator", "div"), arguments)]
        return self.tree(("operator", operator), arguments)

    def parts(self, tree):
        """The different trees in it."""
        seen, waiting = set(), [tree]
        while waiting:
            t = waiting.pop()
            if t not in seen:
                seen.add(t)
                waiting.extend(self.nodes[t][1])
        return seen

    def put(self, arguments, tree, known):
        """The tree with arguments for the parameters."""
        waiting = [tree]
        while waiting:
            t = waiting[-1]
            head, parts = self.nodes[t]
            missing = [p for p in parts if p not in known]
            if t in known:
                waiting.pop()
            elif head[0] == "place":
                known[t] = arguments[head[1]]
            elif missing:
                waiting.extend(missing)
            else:
                known[t] = self.tree(head, [known[p] for p in parts])
        return known[tree]


class Declaration:
    def __init__(self, number, name, arguments, result, body=None, is_sort=False, is_name=False):
        self.id, self.name, self.arguments, self.result = number, name, arguments, result
        # of a definition: the trees that were judged in it, and its own
        self.body, self.is_sort, self.is_name = body, is_sort, is_name


# ---- the commands


class Refused(Exception):
    """Nothing changes."""


def require(holds):
    if not holds:
        raise Refused


def as_symbol(sexp):
    require(is_word(sexp, "symbol"))
    return sexp[1]


def as_list(sexp):
    require(isinstance(sexp, list))
    return sexp


def as_numeral(sexp):
    require(is_word(sexp, "numeral") and small(sexp[1]))
    return sexp[1]


class Level:
    def __init__(self):
        self.declared, self.asserted = [], []


LOGICS = {"QF_UFLIA", "QF_UF", "QF_LIA", "QF_IDL", "QF_UFIDL", "ALL"}
BOOLEAN_OPTIONS = {
    "produce-models", "produce-assertions", "interactive-mode", "produce-assignments", "global-declarations",
    "produce-unsat-cores", "produce-unsat-assumptions",
}


class Fold:
    """What has come of the commands so far, each check answered by unknown."""

    def __init__(self):
        self.forest = Forest()
        self.begin()

    def begin(self):
        self.mode, self.has_logic = "start", False
        self.global_, self.keeps_text = False, False
        self.levels, self.above = [Level()], []
        # ids are unique over the whole run here
        self.functions, self.sorts = {}, {}
        self.given = getattr(self, "given", 0)

    # -- the signature and the assertions of the last check

    def signature(self):
        return [d for level in self.levels for d in level.declared]

    def assertions(self):
        return [t for level in self.levels for t in level.asserted] + self.above

    def file(self):
        """The tables of names, from the levels."""
        self.functions = {d.name: d for d in reversed(self.signature()) if not d.is_sort}
        self.sorts = {d.name: d for d in reversed(self.signature()) if d.is_sort}

    def declare(self, declaration, level):
        level.declared.append(declaration)
        (self.sorts if declaration.is_sort else self.functions)[declaration.name] = declaration

    def new_id(self):
        self.given += 1
        return self.given

    # -- one s-expression

    def command(self, sexp):
        """True where the run goes on, False at an exit. A refused or unknown command changes nothing."""
        if not (isinstance(sexp, list) and sexp and is_word(sexp[0], "symbol")):
            return True
        name, arguments = sexp[0][1], sexp[1:]
        if name == "exit" and not arguments:
            return False
        act = getattr(self, "do_" + name.replace("-", "_"), None) if "_" not in name else None
        if act:
            try:
                inspect.signature(act).bind(*arguments)
            except TypeError:
                return True
            top = len(self.levels[-1].declared)
            try:
                act(*arguments)
            except Refused:
                # names of a term that was refused go with it
                if len(self.levels[-1].declared) > top:
                    del self.levels[-1].declared[top:]
                    self.file()
        return True

    def asserting(self):
        self.has_logic, self.mode, self.above = True, "assert", []

    def do_set_logic(self, name):
        if as_symbol(name) in LOGICS and not self.has_logic:
            self.asserting()

    def do_set_option(self, keyword, value):
        require(is_word(keyword, "keyword") and not is_word(value, "keyword"))
        if keyword[1] in BOOLEAN_OPTIONS:
            require(value in (("symbol", "true"), ("symbol", "false")) and self.mode == "start")
            if keyword[1] == "global-declarations":
                self.global_ = value[1] == "true"
            if keyword[1] in ("produce-assertions", "interactive-mode"):
                self.keeps_text = value[1] == "true"

    def do_get_assertions(self):
        if self.keeps_text and not self.has_logic:
            self.has_logic, self.mode = True, "assert"

    def do_reset(self):
        self.begin()

    def do_reset_assertions(self):
        base = self.levels[0]
        base.asserted = []
        base.declared = [d for d in base.declared if not d.is_name] if self.global_ else []
        self.levels = [base]
        self.file()
        if self.mode != "start":
            self.mode, self.above = "assert", []

    def do_push(self, count=("numeral", 1)):
        count = as_numeral(count)
        require(len(self.levels) - 1 + count <= MOST_LEVELS)
        self.levels.extend(Level() for _ in range(count))
        self.asserting()

    def do_pop(self, count=("numeral", 1)):
        count = as_numeral(count)
        require(count <= len(self.levels) - 1)
        if count:
            del self.levels[-count:]
            self.file()
        self.asserting()

    def new_name(self, name, table, reserved):
        require(name not in reserved and name not in table)
        return name

    def sort(self, written):
        name = as_symbol(written)
        if name in ("Bool", "Int"):
            return name
        require(name in self.sorts)
        return self.sorts[name].result

    def declares(self, declaration):
        self.declare(declaration, self.levels[0] if self.global_ else self.levels[-1])
        self.asserting()

    def do_declare_sort(self, name, arity):
        name = as_symbol(name)
        if as_numeral(arity) == 0:
            self.new_name(name, self.sorts, ("Bool", "Int"))
            number = self.new_id()
            self.declares(Declaration(number, name, [], number, is_sort=True))

    def do_define_sort(self, name, parameters, sort):
        name = as_symbol(name)
        for p in as_list(parameters):
            as_symbol(p)
        if not parameters:
            self.new_name(name, self.sorts, ("Bool", "Int"))
            self.declares(Declaration(self.new_id(), name, [], self.sort(sort), is_sort=True))

    def do_declare_const(self, name, sort):
        self.do_declare_fun(name, [], sort)

    def do_declare_fun(self, name, sorts, sort):
        name = self.new_name(as_symbol(name), self.functions, RESERVED_FUNCTIONS)
        arguments = [self.sort(s) for s in as_list(sorts)]
        self.declares(Declaration(self.new_id(), name, arguments, self.sort(sort)))

    def do_define_fun(self, name, parameters, sort, term):
        name = self.new_name(as_symbol(name), self.functions, RESERVED_FUNCTIONS)
        variables = []
        for k, parameter in enumerate(as_list(parameters)):
            require(len(as_list(parameter)) == 2)
            variable = as_symbol(parameter[0])
            require(variable not in [v for v, _, _ in variables])
            variables.append((variable, self.forest.tree(("place", k), []), self.sort(parameter[1])))
        result = self.sort(sort)
        judge = Judge(self, naming=False, closed=False)
        tree, found = judge.term(variables, term)
        require(found == result)
        trees = set().union(*(self.forest.parts(t) for t in judge.noted), *(self.forest.parts(t) for _, t, _ in variables))
        self.declares(Declaration(self.new_id(), name, [s for _, _, s in variables], result, body=(trees, tree)))

    def do_assert(self, term):
        tree, sort = Judge(self, naming=True, closed=True).term([], term)
        require(sort == "Bool")
        self.levels[-1].asserted.append(tree)
        self.asserting()

    # -- checks

    def checks(self, above):
        self.has_logic, self.mode, self.above = True, "checked", above

    def do_check_sat(self):
        self.checks([])

    def do_check_sat_assuming(self, terms):
        judged = [Judge(self, naming=False, closed=True).term([], t) for t in as_list(terms)]
        require(all(sort == "Bool" for _, sort in judged) and len(self.levels) - 1 < MOST_LEVELS)
        self.checks([tree for tree, _ in judged])

    def do_minimize(self, term):
        tree, sort = Judge(self, naming=False, closed=True).term([], term)
        require(sort == "Int" and len(self.levels) - 1 < MOST_LEVELS)
        self.checks([self.forest.tree(("operator", "="), [tree, tree])])


# ---- terms


class Judge:
    """The tree and the sort of a term, by the rules of where it stands."""

    def __init__(self, fold, naming, closed):
        self.fold, self.forest, self.naming, self.closed = fold, fold.forest, naming, closed
        self.noted = []

    def found(self, tree, sort):
        self.noted.append(tree)
        return tree, sort

    def operator(self, name, arguments, sort):
        tree = self.forest.operation(name, arguments)
        varying = [a for a in arguments if not self.forest.constant[a]]
        require(not self.closed or name != "*" or len(varying) <= 1)
        require(not self.closed or name not in DIVISIONS or all(map(self.forest.is_divisor, arguments[1:])))
        return self.found(tree, sort)

    def function(self, declaration, arguments):
        if declaration.body is None:
            tree = self.forest.tree(("symbol", declaration.id), arguments)
            trees = [tree]
        else:
            known = {}
            trees = [self.forest.put(arguments, t, known) for t in declaration.body[0]]
            tree = self.forest.put(arguments, declaration.body[1], known)
        require(not self.closed or all(self.forest.linear[t] for t in trees))
        self.noted.extend(trees)
        return tree, declaration.result

    def bare(self, variables, name):
        for variable, tree, sort in variables:
            if variable == name:
                return tree, sort
        if name in BARE:
            return self.operator(name, [], "Bool")
        require(name not in OPERATORS and name in self.fold.functions)
        declaration = self.fold.functions[name]
        require(not declaration.arguments)
        return self.function(declaration, [])

    def term(self, variables, sexp):
        if is_word(sexp, "symbol"):
            return self.bare(variables, sexp[1])
        if is_word(sexp, "numeral"):
            require(small(sexp[1]))
            return self.found(self.forest.tree(("number", sexp[1]), []), "Int")
        require(isinstance(sexp, list) and sexp)
        if isinstance(sexp[0], list):
            return self.divisibility(variables, sexp)
        if sexp[0] == ("reserved", "let"):
            return self.let(variables, sexp)
        if sexp[0] == ("reserved", "!"):
            return self.annotated(variables, sexp)
        name = as_symbol(sexp[0])
        require(name not in [v for v, _, _ in variables])
        declaration = None if name in OPERATORS else self.fold.functions.get(name)
        require(name in OPERATORS or declaration)
        judged = [self.term(variables, s) for s in sexp[1:]]
        trees, sorts = [t for t, _ in judged], [s for _, s in judged]
        if declaration is None:
            require(takes(name, len(trees)))
            sort = operator_sort(name, sorts)
            require(sort is not None)
            return self.operator(name, trees, sort)
        require(trees and sorts == declaration.arguments)
        return self.function(declaration, trees)

    def divisibility(self, variables, sexp):
        number = divisor_read(sexp[0])
        require(number is not None)
        judged = [self.term(variables, s) for s in sexp[1:]]
        require(len(judged) == 1 and judged[0][1] == "Int")
        return self.operator("divisible", [judged[0][0], self.forest.tree(("number", number), [])], "Bool")

    def let(self, variables, sexp):
        require(len(sexp) == 3 and isinstance(sexp[1], list) and sexp[1])
        names = []
        for binding in sexp[1]:
            require(isinstance(binding, list) and len(binding) == 2)
            names.append(as_symbol(binding[0]))
        require(len(set(names)) == len(names))
        new = [(b[0][1], *self.term(variables, b[1])) for b in sexp[1]]
        return self.term(new + variables, sexp[2])

    def annotated(self, variables, sexp):
        require(len(sexp) >= 3 and is_word(sexp[2], "keyword"))
        for before, attribute in zip(sexp[2:], sexp[3:]):
            require(is_word(attribute, "keyword") or is_word(before, "keyword"))
        tree, sort = self.term(variables, sexp[1])
        open_term = has_free({v for v, _, _ in variables}, sexp[1])
        for place, attribute in enumerate(sexp):
            if place >= 2 and attribute == ("keyword", "named"):
                require(place + 1 < len(sexp))
                name = as_symbol(sexp[place + 1])
                require(self.naming and not open_term)
                self.fold.new_name(name, self.fold.functions, RESERVED_FUNCTIONS)
                body = (self.forest.parts(tree), tree)
                declaration = Declaration(self.fold.new_id(), name, [], sort, body=body, is_name=True)
                self.fold.declare(declaration, self.fold.levels[-1])
        return tree, sort


def has_free(names, sexp):
    """One of these names occurs free in the term."""
    if not isinstance(sexp, list):
        return is_word(sexp, "symbol") and sexp[1] in names
    if sexp and sexp[0] == ("reserved", "let") and len(sexp) == 3 and isinstance(sexp[1], list):
        bound = {b[0][1] for b in sexp[1]}
        return any(has_free(names, b[1]) for b in sexp[1]) or has_free(names - bound, sexp[2])
    if len(sexp) > 1 and sexp[0] == ("reserved", "!"):
        return has_free(names, sexp[1])
    if sexp and isinstance(sexp[0], list):
        return any(has_free(names, s) for s in sexp[1:])
    return any(has_free(names, s) for s in sexp)


# ---- an input


def read(data):
    """The fold at the first `(get-proof)` and the s-expression after it; None where there is no proof."""
    fold, place = Fold(), 0
    try:
        while True:
            sexp, place = next_sexp(data, place)
            if sexp is None:
                return None
            if sexp == [("symbol", "get-proof")]:
                break
            if not fold.command(sexp):
                return None
        if fold.mode != "checked":
            return None
        sexp, place = next_sexp(data, place)
    except Fault:
        return None
    return None if sexp is None else (fold, sexp)
