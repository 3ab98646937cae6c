#!/usr/bin/env bash
# The time of checks with declared sorts and functions, beside z3 and cvc5 on the same scripts where they are there: chains of applications, random merges, equality diamonds, pigeons
# over a declared sort, drawn formulas, and small checks under push and pop. A wrong answer is said.
# Use: bench/equality.sh [SECONDS], at the top of the repository, after a build.
set -eu
limit=${1:-20}
program=$PWD/crates/smt_cli/out/smt_cli
folder=$(mktemp -d)
trap 'rm -rf "$folder"' EXIT
cd "$folder"
python3 - << 'END'
import random
def write(name, lines):
    with open(name + '.smt2', 'w') as out:
        out.write('(set-option :print-success false)\n(set-logic QF_UF)\n' + '\n'.join(lines) + '\n')
def chain(n):
    # a = f^n(a) and a = f^(n+1)(a), so a = f(a)
    lines = ['(declare-sort S 0)', '(declare-const a S)', '(declare-fun f (S) S)'] + ['(declare-const c%d S)' % k for k in range(n + 2)] + ['(assert (= c0 a))']
    lines += ['(assert (= c%d (f c%d)))' % (k + 1, k) for k in range(n + 1)]
    return lines + ['(assert (= c%d a))' % n, '(assert (= c%d a))' % (n + 1), '(assert (not (= a (f a))))', '(check-sat)']
def nested(n):
    return ['(declare-sort S 0)', '(declare-const a S)', '(declare-fun f (S) S)', '(assert (= a (f a)))', '(assert (not (= a ' + '(f ' * n + 'a' + ')' * n + ')))', '(check-sat)']
def merging(n, seed):
    r = random.Random(seed)
    lines = ['(declare-sort S 0)'] + ['(declare-fun f%d (%s) S)' % (k, ' '.join(['S'] * k)) for k in (1, 2, 3)]
    leaves = ['c%d' % k for k in range(n // 10)]
    lines += ['(declare-const %s S)' % c for c in leaves]
    names = list(leaves)
    for k in range(n):
        arity = r.randint(1, 3)
        lines.append('(define-fun d%d () S (f%d %s))' % (k, arity, ' '.join(r.choice(leaves) for _ in range(arity))))
        names.append('d%d' % k)
    for k in range(n // 2):
        lines.append('(assert (= %s %s))' % (r.choice(names), r.choice(names)))
    lines.append('(check-sat)')
    return lines
def diamonds(n):
    lines = ['(declare-sort S 0)'] + ['(declare-const %s%d S)' % (x, k) for k in range(n + 1) for x in 'abc']
    lines += ['(assert (or (and (= a%d b%d) (= b%d a%d)) (and (= a%d c%d) (= c%d a%d))))' % (k, k, k, k + 1, k, k, k, k + 1) for k in range(n)]
    return lines + ['(assert (not (= a0 a%d)))' % n, '(check-sat)']
def pigeons(n):
    lines = ['(declare-sort S 0)'] + ['(declare-const h%d S)' % k for k in range(n)] + ['(declare-const p%d S)' % k for k in range(n + 1)]
    lines += ['(assert (or ' + ' '.join('(= p%d h%d)' % (k, j) for j in range(n)) + '))' for k in range(n + 1)]
    return lines + ['(assert (distinct ' + ' '.join('p%d' % k for k in range(n + 1)) + '))', '(check-sat)']
def drawn(seed, clauses):
    r = random.Random(seed)
    cs = ['a%d' % k for k in range(12)]
    lines = ['(declare-sort S 0)', '(declare-fun f (S) S)', '(declare-fun g (S S) S)', '(declare-fun q (S) Bool)'] + ['(declare-const %s S)' % c for c in cs]
    def term(d):
        x = r.random()
        if d == 0 or x < .4: return r.choice(cs)
        if x < .7: return '(f %s)' % term(d - 1)
        return '(g %s %s)' % (term(d - 1), term(d - 1))
    def atom():
        return '(q %s)' % term(2) if r.random() < .2 else '(= %s %s)' % (term(2), term(2))
    for _ in range(clauses):
        lines.append('(assert (or ' + ' '.join(('(not %s)' % atom()) if r.random() < .4 else atom() for _ in range(3)) + '))')
    return lines + ['(check-sat)']
def small(n):
    r = random.Random(7)
    lines = ['(declare-sort S 0)', '(declare-fun f (S) S)'] + ['(declare-const a%d S)' % k for k in range(8)]
    for _ in range(n):
        lines.append('(push 1)')
        for _ in range(6):
            s, t = r.randrange(8), r.randrange(8)
            lines.append(r.choice(['(assert (= a%d a%d))' % (s, t), '(assert (= (f a%d) a%d))' % (s, t), '(assert (not (= (f (f a%d)) a%d)))' % (s, t), '(assert (or (= a%d a%d) (not (= (f a%d) a%d))))' % (s, t, t, s)]))
        lines += ['(check-sat)', '(pop 1)']
    return lines
for n in (1000, 10000, 100000): write('chain_%06d' % n, chain(n))
for n in (1000, 5000): write('nested_%05d' % n, nested(n))
for n in (1000, 10000, 100000): write('merging_%06d' % n, merging(n, n))
for n in (20, 200, 2000): write('diamonds_%04d' % n, diamonds(n))
for n in (5, 6, 7, 8): write('pigeons_%d' % n, pigeons(n))
for seed in range(4): write('drawn_%d' % seed, drawn(seed, 60 + 20 * seed))
write('small_checks', small(1000))
END
measure() { # NAME COMMAND..
    local start end
    start=$(date +%s.%N)
    timeout "$limit" "${@:2}" > "$1.out" 2> /dev/null || true
    end=$(date +%s.%N)
    echo "$end $start" | awk '{ printf "%.3f", $1 - $2 }'
}
printf '%-18s %10s %10s %10s  %s\n' script smt_cli z3 cvc5 answers
for script in *.smt2; do
    name=${script%.smt2}
    own=$(measure "$name.own" sh -c "'$program' < $script")
    z3=-
    cvc5=-
    if command -v z3 > /dev/null; then z3=$(measure "$name.z3" z3 "$script"); fi
    if command -v cvc5 > /dev/null; then cvc5=$(measure "$name.cvc5" cvc5 --incremental "$script"); fi
    answer=$(head -c 200 "$name.own.out" | head -1)
    if [ -s "$name.own.out" ] && [ -s "$name.z3.out" ] && ! cmp -s "$name.own.out" "$name.z3.out"; then answer="$answer WRONG"; fi
    printf '%-18s %10s %10s %10s  %s\n' "$name" "$own" "$z3" "$cvc5" "${answer:--}"
done
