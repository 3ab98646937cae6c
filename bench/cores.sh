#!/usr/bin/env bash
# Cores, beside z3 where it is there (with :core.minimize): cores of 10 among 25, 100 and 400 named assertions, Boolean and with integers; cores of
# assumptions over a stack of 300 assertions. Beside each time of `smt_cli` stands the number of checks that it makes: for a core one for
# each candidate and the check before it. The sizes of the cores are said where they differ.
# Use: bench/cores.sh [SECONDS [SEED [PROGRAM]]], at the top of the repository, after a build.
set -eu
limit=${1:-60}
seed=${2:-1}
program=$(realpath "${3:-crates/smt_cli/out/smt_cli}")
folder=$(mktemp -d)
trap 'rm -rf "$folder"' EXIT
cd "$folder"
python3 - "$seed" <<'PY'
import random
import sys

draw = random.Random(int(sys.argv[1]))
HEAD = ["(set-option :print-success false)", "(set-option :produce-unsat-cores true)", "(set-option :produce-unsat-assumptions true)"]


def write(name, checks, lines):
    with open(f"{name}.smt2", "w") as file:
        file.write("\n".join(lines) + "\n")
    with open(f"{name}.z3.smt2", "w") as file:
        file.write("\n".join(["(set-option :smt.core.minimize true)", *lines]) + "\n")
    with open(f"{name}.checks", "w") as file:
        file.write(str(checks))


def named(terms):
    return [f"(assert (! {t} :named n{i}))" for i, t in enumerate(terms)]


def boolean(count):
    """A chain of nine implications with its end denied, among clauses that have a model."""
    chain = ["p0", *(f"(=> p{i} p{i + 1})" for i in range(8)), "(not p8)"]
    others = []
    for _ in range(count - 10):
        three = draw.sample(range(9, 9 + count), 3)
        others.append("(or " + " ".join(f"p{i}" if j == 0 or draw.random() < 0.5 else f"(not p{i})" for j, i in enumerate(three)) + ")")
    terms = chain + others
    draw.shuffle(terms)
    return [f"(declare-const p{i} Bool)" for i in range(9 + count)], terms


def integers(count):
    """A cycle of ten differences below 0, among differences that have a solution."""
    ring = [f"(< x{i} x{(i + 1) % 10})" for i in range(10)]
    place = [draw.randint(0, 1000) for _ in range(count)]
    others = []
    for _ in range(count - 10):
        i, j = draw.sample(range(10, 10 + count), 2)
        far = place[i - 10] - place[j - 10] + draw.randint(0, 20)
        others.append(f"(<= (- x{i} x{j}) {far if far >= 0 else f'(- {-far})'})")
    terms = ring + others
    draw.shuffle(terms)
    return [f"(declare-const x{i} Int)" for i in range(10 + count)], terms


for count in (25, 100, 400):
    for kind, made in (("boolean", boolean), ("integers", integers)):
        declared, terms = made(count)
        write(f"{kind}-{count}", count + 1, [*HEAD, *declared, *named(terms), "(check-sat)", "(get-unsat-core)"])
for kind, made in (("boolean", boolean), ("integers", integers)):
    declared, terms = made(330)
    write(f"assumed-{kind}", 31, [*HEAD, *declared, *(f"(assert {t})" for t in terms[30:]), f"(check-sat-assuming ({' '.join(terms[:30])}))", "(get-unsat-assumptions)"])
PY
measure() { # NAME COMMAND..
    local name=$1
    shift
    { time timeout "$limit" "$@" >"$name.out" 2>"$name.err" || echo "status $?" >>"$name.out"; } 2>"$name.time"
    awk '/user|sys/ { split($2, a, /[ms]/); sum += a[1] * 60 + a[2] } END { printf "%.2f", sum }' "$name.time"
}
size() { # the number of names or terms in the last line of replies
    tail -1 "$1" | tr -d '\n' | python3 -c "
import sys
depth, count, word = 0, 0, False
for c in sys.stdin.read():
    if c == '(':
        if depth == 1: count += 1
        depth += 1; word = False
    elif c == ')':
        depth -= 1; word = False
    elif c == ' ':
        word = False
    elif depth == 1 and not word:
        count += 1; word = True
print(count)"
}
echo "| script | checks | seconds of smt_cli | z3 | |"
echo "|---|---|---|---|---|"
for file in *.checks; do
    name=${file%.checks}
    ours=$(measure "$name.ours" "$program" <"$name.smt2")
    theirs=-
    note=
    if command -v z3 >/dev/null; then
        theirs=$(measure "$name.z3" z3 "$name.z3.smt2")
        note="$(size "$name.ours.out") of it; z3: $(size "$name.z3.out")"
    fi
    echo "| $name | $(cat "$file") | $ours | $theirs | $note |"
done
