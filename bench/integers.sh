#!/usr/bin/env bash
# The processor time of checks with integers, beside z3 and cvc5 on the same scripts where they are there: job shops, difference logic, pigeons over integers, magic squares, subset sums, bounded
# systems, arrays by functions, unrolled loops, verification conditions with functions and indices, and small checks under push and pop, of the same few terms and of new terms each time. A wrong answer is said. At the end
# stands a line for each family: how many scripts were answered, and the geometric means of the ratios to z3's times and to cvc5's.
# Use: bench/integers.sh [SECONDS], at the top of the repository, after a build.
set -eu
limit=${1:-10}
program=$PWD/crates/smt_cli/out/smt_cli
folder=$(mktemp -d)
trap 'rm -rf "$folder"' EXIT
cd "$folder"
python3 - << 'END'
import random
def write(name, lines):
    with open(name + '.smt2', 'w') as out:
        out.write('(set-option :print-success false)\n(set-logic QF_UFLIA)\n' + '\n'.join(lines) + '\n')
def number(n): return str(n) if n >= 0 else '(- %d)' % -n
def ints(names): return ['(declare-const %s Int)' % n for n in names]
def shop(jobs, machines, horizon, seed):
    r = random.Random(seed)
    lines = ints('s%d_%d' % (j, m) for j in range(jobs) for m in range(machines))
    length = {(j, m): r.randint(1, 9) for j in range(jobs) for m in range(machines)}
    for j in range(jobs):
        order = list(range(machines)); r.shuffle(order)
        lines.append('(assert (<= 0 s%d_%d))' % (j, order[0]))
        for a, b in zip(order, order[1:]): lines.append('(assert (<= (+ s%d_%d %d) s%d_%d))' % (j, a, length[j, a], j, b))
        lines.append('(assert (<= (+ s%d_%d %d) %d))' % (j, order[-1], length[j, order[-1]], horizon))
    for m in range(machines):
        for j in range(jobs):
            for k in range(j):
                lines.append('(assert (or (<= (+ s%d_%d %d) s%d_%d) (<= (+ s%d_%d %d) s%d_%d)))' % (j, m, length[j, m], k, m, k, m, length[k, m], j, m))
    return lines + ['(check-sat)']
def differences(n, seed):
    r = random.Random(seed)
    lines = ints('x%d' % k for k in range(n))
    for _ in range(4 * n):
        a, b, c, d = (r.randrange(n) for _ in range(4))
        lines.append('(assert (or (<= (- x%d x%d) %s) (<= (- x%d x%d) %s)))' % (a, b, number(r.randint(-6, 4)), c, d, number(r.randint(-6, 4))))
    return lines + ['(check-sat)']
def pigeons(n):
    names = ['p%d' % k for k in range(n + 1)]
    return ints(names) + ['(assert (<= 1 %s %d))' % (p, n) for p in names] + ['(assert (distinct ' + ' '.join(names) + '))', '(check-sat)']
def magic(total):
    names = ['m%d' % k for k in range(9)]
    rows = [(0, 1, 2), (3, 4, 5), (6, 7, 8), (0, 3, 6), (1, 4, 7), (2, 5, 8), (0, 4, 8), (2, 4, 6)]
    return ints(names) + ['(assert (<= 1 %s 9))' % m for m in names] + ['(assert (distinct ' + ' '.join(names) + '))'] + ['(assert (= (+ m%d m%d m%d) %d))' % (*r, total) for r in rows] + ['(check-sat)']
def subset(n, seed):
    r = random.Random(seed)
    weights = [r.randint(5, 60) for _ in range(n)]
    names = ['b%d' % k for k in range(n)]
    return ints(names) + ['(assert (<= 0 %s 1))' % b for b in names] + ['(assert (= (+ ' + ' '.join('(* %d %s)' % p for p in zip(weights, names)) + ') %d))' % (sum(weights) // 3), '(check-sat)']
def system(n, seed):
    r = random.Random(seed)
    names = ['v%d' % k for k in range(n)]
    lines = ints(names) + ['(assert (<= (- 20) %s 20))' % v for v in names]
    for _ in range(n):
        lines.append('(assert (%s (+ ' % r.choice(['<=', '>=', '=']) + ' '.join('(* %s %s)' % (str(c) if c >= 0 else '(- %d)' % -c, v) for c, v in ((r.randint(-5, 5), v) for v in r.sample(names, 3))) + ') %d))' % r.randint(0, 9))
    return lines + ['(check-sat)']
def arrays(n, seed):
    r = random.Random(seed)
    lines = ['(declare-fun a0 (Int) Int)'] + ints('i%d' % k for k in range(n))
    for k in range(n):
        lines.append('(declare-fun a%d (Int) Int)' % (k + 1))
        lines.append('(assert (= (a%d i%d) %d))' % (k + 1, k, r.randint(0, 9)))
        lines += ['(assert (or (= i%d i%d) (= (a%d i%d) (a%d i%d))))' % (k, j, k + 1, j, k, j) for j in range(n) if j != k]
    lines.append('(assert (< (a%d i0) (a1 i0)))' % n)
    lines += ['(assert (< i%d i%d))' % (k, k + 1) for k in range(n - 1)]
    return lines + ['(check-sat)']
def loop(n):
    lines = ints('x%d' % k for k in range(n + 1)) + ints('y%d' % k for k in range(n + 1)) + ['(assert (and (= x0 0) (= y0 0)))']
    for k in range(n): lines += ['(assert (= x%d (+ x%d 1)))' % (k + 1, k), '(assert (= y%d (ite (< x%d %d) (+ y%d 2) (+ y%d 1))))' % (k + 1, k, n // 2, k, k)]
    return lines + ['(assert (distinct y%d %d))' % (n, 2 * (n // 2) + (n - n // 2)), '(check-sat)']
def greatest(n, strict):  # the greatest of an array is kept by a step of the loop, at any index; n steps
    lines = ['(declare-fun f (Int) Int)'] + ints(['k', 'n'] + ['i%d' % j for j in range(n + 1)] + ['m%d' % j for j in range(n + 1)])
    lines += ['(assert (and (<= 0 i0) (<= 0 k)))', '(assert (=> (< k i0) (<= (f k) m0)))']
    for j in range(n):
        lines += ['(assert (< i%d n))' % j, '(assert (= i%d (+ i%d 1)))' % (j + 1, j), '(assert (= m%d (ite (> (f i%d) m%d) (f i%d) m%d)))' % (j + 1, j, j, j, j)]
    return lines + ['(assert (%s k i%d))' % ('<' if strict else '<=', n), '(assert (> (f k) m%d))' % n, '(check-sat)']
def halving(n, right):  # the bounds of a binary search stay in order and in the array, and come nearer; n steps
    lines = ['(declare-fun a (Int) Int)'] + ints(['size', 'key', 'at'] + [c + str(j) for c in ('lo', 'hi') for j in range(n + 1)] + ['d%d' % j for j in range(n)])
    lines += ['(assert (and (<= 0 lo0) (<= lo0 hi0) (<= hi0 size)))', '(assert (= (a at) key))', '(assert (and (<= lo0 at) (< at hi0)))']
    for j in range(n):
        mid = '(+ lo%d d%d)' % (j, j)
        lines += ['(assert (< lo%d hi%d))' % (j, j), '(assert (and (<= 0 d%d) (<= (* 2 d%d) (- hi%d lo%d)) (< (- hi%d lo%d) (+ (* 2 d%d) 2))))' % ((j, j) + (j,) * 5)]
        lines += ['(assert (=> (< at %s) (< (a at) (a %s))))' % (mid, mid), '(assert (=> (< %s at) (< (a %s) (a at))))' % (mid, mid)]
        lines.append('(assert (ite (< (a %s) key) (and (= lo%d (+ %s %d)) (= hi%d hi%d)) (and (= lo%d lo%d) (= hi%d (+ %s 1)))))' % (mid, j + 1, mid, 1 if right else 2, j + 1, j, j + 1, j, j + 1, mid))
    return lines + ['(assert (not (and (<= 0 lo%d) (<= lo%d at) (< at hi%d) (<= hi%d size))))' % ((n,) * 4), '(check-sat)']
def swaps(n):  # after swaps of neighbours each way the old array is back
    lines = ['(declare-fun a%d (Int) Int)' % j for j in range(2 * n + 1)] + ints(['k', 'i'])
    places = list(range(n)) + list(range(n))[::-1]
    for j, p in enumerate(places):
        x, y = '(+ i %d)' % p, '(+ i %d)' % (p + 1)
        lines += ['(assert (and (= (a%d %s) (a%d %s)) (= (a%d %s) (a%d %s))))' % (j + 1, x, j, y, j + 1, y, j, x)]
        lines += ['(assert (or (= k %s) (= k %s) (= (a%d k) (a%d k))))' % (x, y, j + 1, j)]
        lines += ['(assert (= (a%d (+ i %d)) (a%d (+ i %d))))' % (j + 1, q, j, q) for q in range(n + 1) if q not in (p, p + 1)]
    return lines + ['(assert (distinct (a%d k) (a0 k)))' % (2 * n), '(check-sat)']
def ordered(n, wrong):  # in an array whose neighbours are in order the first isn't above the last
    lines = ['(declare-fun f (Int) Int)'] + ints(['i'])
    lines += ['(assert (<= (f (+ i %d)) (f (+ i %d))))' % (j, j + 1) for j in range(n) if j != wrong]
    return lines + ['(assert (> (f i) (f (+ i %d))))' % n, '(check-sat)']
def small(n):
    r = random.Random(7)
    lines = ['(declare-fun f (Int) Int)'] + ints('abcd')
    for _ in range(n):
        lines.append('(push 1)')
        for _ in range(4):
            s, t = r.choice('abcd'), r.choice('abcd')
            lines.append(r.choice(['(assert (<= %s (+ %s %s)))' % (s, t, number(r.randint(-3, 3))), '(assert (= (f %s) %s))' % (s, t), '(assert (distinct (f (f %s)) %s))' % (s, t), '(assert (or (< %s %s) (= (f %s) 2)))' % (s, t, t)]))
        lines += ['(assert (<= 0 a b c d 6))', '(check-sat)', '(pop 1)']
    return lines
def fresh(n):
    lines = ['(declare-fun f (Int) Int)'] + ints('ab')
    for k in range(n): lines += ['(push 1)', '(assert (and (<= a (+ b %d)) (= (f %d) (+ a %d)) (<= 0 a b %d)))' % (k, k, k, k + 5), '(check-sat)', '(pop 1)']
    return lines
write('shop_3x3', shop(3, 3, 25, 1)); write('shop_4x4', shop(4, 4, 40, 2)); write('shop_6x5', shop(6, 5, 60, 3))
for n in (20, 50, 100): write('differences_%03d' % n, differences(n, n))
for n in (4, 5, 6, 7): write('pigeons_%d' % n, pigeons(n))
write('magic_15', magic(15)); write('magic_16', magic(16))
for n in (8, 12, 16): write('subset_%02d' % n, subset(n, n))
for n in (5, 10, 15): write('system_%02d' % n, system(n, n))
for n in (4, 6, 8): write('arrays_%d' % n, arrays(n, n))
for n in (10, 20, 50): write('loop_%02d' % n, loop(n))
write('verify_greatest_3', greatest(3, True)); write('verify_greatest_8', greatest(8, True)); write('verify_greatest_wrong', greatest(3, False))
write('verify_halving_1', halving(1, True)); write('verify_halving_3', halving(3, True)); write('verify_halving_wrong', halving(2, False))
write('verify_swaps_3', swaps(3)); write('verify_ordered_20', ordered(20, 20)); write('verify_ordered_wrong', ordered(20, 7))
write('small_checks', small(2000)); write('small_fresh', fresh(4000))
END
measure() { # NAME COMMAND..
    local spent
    spent=$({ TIMEFORMAT='%U %S'; time timeout "$limit" "${@:2}" > "$1.out" 2> /dev/null || true; } 2>&1)
    echo "$spent" | awk '{ printf "%.3f", $1 + $2 }'
}
printf '%-22s %10s %10s %10s  %s\n' script smt_cli z3 cvc5 answers
for script in *.smt2; do
    name=${script%.smt2}
    own=$(measure "$name.own" "$program" < "$script")
    z3=-
    cvc5=-
    if command -v z3 > /dev/null; then z3=$(measure "$name.z3" z3 "$script"); fi
    if command -v cvc5 > /dev/null; then cvc5=$(measure "$name.cvc5" cvc5 --incremental "$script"); fi
    answer=$(head -c 200 "$name.own.out" | head -1)
    if [ -s "$name.own.out" ] && [ -s "$name.z3.out" ] && ! cmp -s "$name.own.out" "$name.z3.out"; then answer="$answer WRONG"; fi
    printf '%-22s %10s %10s %10s  %s\n' "$name" "$own" "$z3" "$cvc5" "${answer:--}"
    echo "${name%%_*} $own $z3 $cvc5 ${answer:--}" >> times
done
awk '
function mean(sum, count) { return count ? sprintf("%.2f", exp(sum / count)) : "-" }
function more(time) { return time > 0.001 ? time : 0.001 }
!($1 in all) { order[++families] = $1 }
{ all[$1]++ }
$5 ~ /^(sat|unsat)$/ && $6 == "" { solved[$1]++ }
$3 != "-" { z3[$1] += log(more($2) / more($3)); with_z3[$1]++ }
$4 != "-" { cvc5[$1] += log(more($2) / more($4)); with_cvc5[$1]++ }
END {
    printf "\n%-22s %10s %10s %10s\n", "family", "answered", "to z3", "to cvc5"
    for (k = 1; k <= families; k++) { f = order[k]; printf "%-22s %10s %10s %10s\n", f, solved[f] + 0 "/" all[f], mean(z3[f], with_z3[f]), mean(cvc5[f], with_cvc5[f]) }
}' times
