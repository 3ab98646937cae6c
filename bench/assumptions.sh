#!/usr/bin/env bash
# The processor time of 2,000 checks under three assumptions each, over 30, 300 and 3,000 Boolean clauses and over 300 bounds of differences, beside the same checks written with `push`, `assert` and `pop`, and beside z3 and cvc5
# on the same scripts where they are there. Each runs for SECONDS at most. Answers that differ from those of the first run of the row are said.
# Use: bench/assumptions.sh [SECONDS [SEED [PROGRAM]]], at the top of the repository, after a build.
set -eu
limit=${1:-60}
seed=${2:-1}
program=$(realpath "${3:-crates/smt_cli/out/smt_cli}")
folder=$(mktemp -d)
trap 'rm -rf "$folder"' EXIT
cd "$folder"
python3 - "$seed" <<'PY'
import random
import sys

draw = random.Random(int(sys.argv[1]))


def checks(names, literal):
    """2,000 checks under three literals, as assumptions and as a level of their own."""
    assumed, pushed = [], []
    for _ in range(2000):
        three = [literal(draw.choice(names)) for _ in range(3)]
        assumed.append(f"(check-sat-assuming ({' '.join(three)}))")
        pushed += ["(push 1)", *(f"(assert {it})" for it in three), "(check-sat)", "(pop 1)"]
    return assumed, pushed


def write(name, head, asserted, names, literal):
    assumed, pushed = checks(names, literal)
    for kind, body in (("assumed", assumed), ("pushed", pushed)):
        with open(f"{name}.{kind}.smt2", "w") as file:
            file.write("\n".join(["(set-option :print-success false)", *head, *asserted, *body]) + "\n")


def signed(name):
    return name if draw.random() < 0.5 else f"(not {name})"


for count in (30, 300, 3000):
    names = [f"p{i}" for i in range(count // 3)]
    head = ["(set-logic QF_UF)", *(f"(declare-const {it} Bool)" for it in names)]
    clauses = [f"(assert (or {' '.join(signed(it) for it in draw.sample(names, 3))}))" for _ in range(count)]
    write(f"clauses-{count}", head, clauses, names, signed)
numbers = [f"x{i}" for i in range(100)]
names = [f"b{i}" for i in range(100)]
head = ["(set-logic QF_LIA)", *(f"(declare-const {it} Int)" for it in numbers), *(f"(declare-const {it} Bool)" for it in names)]
place = [draw.randint(0, 50) for _ in numbers]
bounds = []
for _ in range(200):
    i, j = draw.sample(range(100), 2)
    far = place[i] - place[j] + draw.randint(0, 5)
    bounds.append(f"(assert (<= (- x{i} x{j}) {far if far >= 0 else f'(- {-far})'}))")
for it in names:
    i, j = draw.sample(range(100), 2)
    bounds.append(f"(assert (= {it} (< x{i} x{j})))")
write("differences-300", head, bounds, names, signed)
PY
measure() { # NAME COMMAND..
    local spent
    spent=$({ TIMEFORMAT='%U %S'; time timeout "$limit" "${@:2}" > "$1.out" 2> /dev/null || true; } 2>&1)
    echo "$spent" | awk '{ printf "%.3f", $1 + $2 }'
}
same() { cmp -s "$1" "$2" && echo same || echo "$(grep -c '^\(sat\|unsat\)$' "$2" || true)_answers"; }
printf '%-18s %10s %10s %8s %10s %10s  %s\n' script assumed pushed ratio z3 cvc5 answers
for script in *.assumed.smt2; do
    name=${script%.assumed.smt2}
    assumed=$(measure assumed "$program" < "$script")
    pushed=$(measure pushed "$program" < "$name.pushed.smt2")
    answers="pushed $(same assumed.out pushed.out)"
    z3=-
    cvc5=-
    if command -v z3 > /dev/null; then z3=$(measure z3 z3 "$script"); answers="$answers, z3 $(same assumed.out z3.out)"; fi
    if command -v cvc5 > /dev/null; then cvc5=$(measure cvc5 cvc5 --incremental "$script"); answers="$answers, cvc5 $(same assumed.out cvc5.out)"; fi
    ratio=$(awk -v a="$assumed" -v p="$pushed" 'BEGIN { printf "%.2f", a / (p > 0.001 ? p : 0.001) }')
    printf '%-18s %10s %10s %8s %10s %10s  %s\n' "$name" "$assumed" "$pushed" "$ratio" "$z3" "$cvc5" "$answers"
done
