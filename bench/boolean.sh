#!/usr/bin/env bash
# The time and the peak memory of deciding Boolean scripts by the program, which keeps every learnt clause, beside z3 on the same scripts and minisat on the same clauses, each where it is there.
# Use: bench/boolean.sh [SMT_CLI [SECONDS]], at the top of the repository.
set -eu
program=${1:-crates/smt_cli/out/smt_cli}
limit=${2:-20}
folder=$(mktemp -d)
trap 'rm -rf "$folder"' EXIT
python3 - "$folder" << 'END'
import random, sys
folder = sys.argv[1]

def write(name, count, clauses):
    with open(f"{folder}/{name}.cnf", "w") as out:
        out.write(f"p cnf {count} {len(clauses)}\n")
        for clause in clauses:
            out.write(" ".join(map(str, clause)) + " 0\n")
    with open(f"{folder}/{name}.smt2", "w") as out:
        out.write("(set-option :print-success false)\n(set-logic QF_UF)\n")
        for i in range(1, count + 1):
            out.write(f"(declare-const x{i} Bool)\n")
        for clause in clauses:
            words = [f"x{l}" if l > 0 else f"(not x{-l})" for l in clause]
            out.write(f"(assert {words[0]})\n" if len(words) == 1 else "(assert (or " + " ".join(words) + "))\n")
        out.write("(check-sat)\n")

# holes + 1 pigeons, each in one hole, no two in one
def pigeons(holes):
    place = lambda i, j: i * holes + j + 1
    clauses = [[place(i, j) for j in range(holes)] for i in range(holes + 1)]
    for j in range(holes):
        for i in range(holes + 1):
            for k in range(i + 1, holes + 1):
                clauses.append([-place(i, j), -place(k, j)])
    return (holes + 1) * holes, clauses

def random_clauses(count, ratio, seed):
    draw = random.Random(seed)
    clauses = []
    for _ in range(int(count * ratio)):
        atoms = draw.sample(range(1, count + 1), 3)
        clauses.append([a if draw.random() < 0.5 else -a for a in atoms])
    return count, clauses

# the sum modulo 2 of the same atoms in two orders, said to differ
def parity(count, seed):
    draw = random.Random(seed)
    clauses, last, ends = [], count, []
    for turn in range(2):
        order = list(range(1, count + 1))
        if turn:
            draw.shuffle(order)
        sum = order[0]
        for x in order[1:]:
            last += 1
            clauses += [[-sum, -x, -last], [sum, x, -last], [-sum, x, last], [sum, -x, last]]
            sum = last
        ends.append(sum)
    return last, clauses + [[ends[0]], [-ends[1]]]

# a counter of so many bits that may count or stand still, unrolled: it reaches a number in so many steps
def counter(bits, steps, goal):
    clauses, last = [], 0
    def fresh():
        nonlocal last
        last += 1
        return last
    state = [fresh() for _ in range(bits)]
    clauses += [[-b] for b in state]
    for _ in range(steps):
        carry, following = fresh(), []
        for b in state:
            s, c = fresh(), fresh()
            clauses += [[-b, -carry, -s], [b, carry, -s], [-b, carry, s], [b, -carry, s]]
            clauses += [[-c, b], [-c, carry], [c, -b, -carry]]
            following.append(s)
            carry = c
        state = following
    clauses += [[b if goal >> i & 1 else -b] for i, b in enumerate(state)]
    return last, clauses

for holes in 7, 8, 9:
    write(f"pigeons-{holes}", *pigeons(holes))
for seed in range(10):
    count = 200 + seed // 2 * 12
    write(f"random-{count}-{seed}", *random_clauses(count, 4.26, seed))
for seed in range(3):
    write(f"parity-{24 + 4 * seed}", *parity(24 + 4 * seed, seed))
write("counter-reached", *counter(6, 50, 45))
write("counter-not-reached", *counter(6, 40, 41))
END
# its milliseconds of processor time, and its kilobytes at most; the limit is of processor time
measure() {
    TIMEFORMAT='%3U %3S'
    { time (ulimit -t "$limit"; /usr/bin/time -f %M -o "$folder/kilobytes" "$@" < "$input" > "$folder/out" 2> /dev/null) || true; } 2> "$folder/times"
    spent=$(awk '{printf "%d", 1000 * ($1 + $2)}' "$folder/times")
    most=$(tail -n 1 "$folder/kilobytes")
}
solvers=()
for solver in "$program" z3 minisat; do
    command -v "$solver" > /dev/null && solvers+=("$solver")
done
for script in "$folder"/*.smt2; do
    line=$(basename "$script" .smt2)
    input=$script
    for solver in "${solvers[@]}"; do
        case $solver in
            minisat) measure minisat -verb=0 "${script%.smt2}.cnf" ;;
            z3) measure z3 -in ;;
            *) measure "$solver" ;;
        esac
        answer=$(grep -m1 -ioE 'unsat(isfiable)?|sat(isfiable)?|unsupported' "$folder/out" | tr A-Z a-z | sed 's/isfiable//' || true)
        line+=" $(basename "$solver") ${answer:-none} $spent $most"
    done
    echo "$line"
done | tee "$folder/lines"
python3 - "$folder/lines" "$((limit * 1000))" << 'END'
import math, sys
lines = [line.split() for line in open(sys.argv[1])]
limit = int(sys.argv[2])
times, sizes = {}, {}
for words in lines:
    row = {words[k]: (words[k + 1], max(int(words[k + 2]), 1), int(words[k + 3])) for k in range(1, len(words), 4)}
    said = {answer for answer, _, _ in row.values() if answer in ("sat", "unsat")}
    if len(said) > 1:
        print("answers differ:", " ".join(words))
    for solver, (answer, spent, most) in row.items():
        done = answer in ("sat", "unsat")
        times.setdefault(solver, []).append((done, spent if done else limit))
        sizes.setdefault(solver, []).append(most)
def mean(xs, ys):
    return math.exp(sum(math.log(x / y) for x, y in zip(xs, ys)) / len(xs))
for name in times:
    print(f"{name}: {sum(done for done, _ in times[name])} of {len(lines)} decided, at most {max(sizes[name]) // 1024} MB")
others = [name for name in times if name in ("z3", "minisat")]
for name in times:
    for other in others:
        if name not in others:
            spent = mean([t for _, t in times[name]], [t for _, t in times[other]])
            print(f"{name} / {other}: geometric mean of times {spent:.2f} (a script that isn't decided counts as {limit} ms), of peak memory {mean(sizes[name], sizes[other]):.2f}")
END
