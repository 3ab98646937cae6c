#!/usr/bin/env bash
# Least values, beside z3 where it is there (with its command of the same name and a check behind it): of sums over 10 to 160 boxed constants, and over 5 to 20 whose
# neighbours have a bound on their sum; and of the hour at which 4 to 10 jobs are done that share one machine or three. Each runs for SECONDS at most. Where the least values differ
# both are said.
# Use: bench/minimize.sh [SECONDS [SEED [PROGRAM]]], at the top of the repository, after a build.
set -eu
limit=${1:-60}
seed=${2:-1}
program=$(realpath "${3:-crates/smt_cli/out/smt_cli}")
folder=$(mktemp -d)
trap 'rm -rf "$folder"' EXIT
cd "$folder"
python3 - "$seed" <<'PY'
import random
import sys

draw = random.Random(int(sys.argv[1]))
HEAD = ["(set-option :print-success false)", "(set-logic QF_LIA)"]


def write(name, lines, goal):
    for kind, more in (("ours", []), ("z3", ["(check-sat)", "(get-objectives)"])):
        with open(f"{name}.{kind}.smt2", "w") as file:
            file.write("\n".join([*HEAD, *lines, f"(minimize {goal})", *more]) + "\n")


def number(n):
    return str(n) if n >= 0 else f"(- {-n})"


def boxes(count, tied):
    """Constants between two numbers each, and, where they are tied, a bound from below on the sum of each two neighbours."""
    lines = []
    ends = []
    for i in range(count):
        low = draw.randint(-50, 50)
        ends.append((low, low + draw.randint(10, 100)))
        lines += [f"(declare-const x{i} Int)", f"(assert (<= {number(low)} x{i} {number(ends[i][1])}))"]
    for (low, high), (low_next, high_next), i in zip(ends, ends[1:], range(count if tied else 0)):
        lines.append(f"(assert (<= {number(draw.randint(low + low_next, high + high_next))} (+ x{i} x{i + 1})))")
    return lines, f"(+ {' '.join(f'(* {draw.randint(1, 9)} x{i})' for i in range(count))})"


def schedule(count, machines):
    """Jobs, each of which takes some hours on its machine, which does one at a time; some begin once another is done."""
    long = [draw.randint(1, 9) for _ in range(count)]
    on = [i % machines for i in range(count)]
    lines = ["(declare-const end Int)"]
    for i in range(count):
        lines += [f"(declare-const s{i} Int)", f"(assert (and (<= 0 s{i}) (<= (+ s{i} {long[i]}) end)))"]
    for i in range(count):
        for j in range(i):
            if on[i] == on[j]:
                lines.append(f"(assert (or (<= (+ s{i} {long[i]}) s{j}) (<= (+ s{j} {long[j]}) s{i})))")
            elif draw.random() < 0.2:
                lines.append(f"(assert (<= (+ s{j} {long[j]}) s{i}))")
    return lines, "end"


for count in (10, 40, 160):
    write(f"boxes-{count:03}", *boxes(count, False))
for count in (5, 10, 20):
    write(f"tied-{count:02}", *boxes(count, True))
for machines in (1, 3):
    for count in (4, 6, 8, 10):
        write(f"schedule-{machines}-{count:02}", *schedule(count, machines))
PY
measure() { # NAME COMMAND..
    local spent
    spent=$({ TIMEFORMAT='%U %S'; time timeout "$limit" "${@:2}" >"$1.out" 2>/dev/null || { [ $? != 124 ] || echo cut >"$1.out"; }; } 2>&1)
    if [ "$(cat "$1.out")" = cut ]; then printf 'none in %s' "$limit"; else echo "$spent" | awk '{ printf "%.2f", $1 + $2 }'; fi
}
least() { # the last number of the replies, or their last word; cut, where they didn't come in time
    tr -d '()\n' <"$1" | tr -s ' ' | sed 's/- \([0-9]*\) *$/-\1/; s/ *$//; s/.* //'
}
echo "| script | seconds of smt_cli | z3 | least value |"
echo "|---|---|---|---|"
for file in *.ours.smt2; do
    name=${file%.ours.smt2}
    ours=$(measure "$name.ours" "$program" <"$file")
    value=$(least "$name.ours.out")
    theirs=-
    if command -v z3 >/dev/null; then
        theirs=$(measure "$name.z3" z3 "$name.z3.smt2")
        other=$(least "$name.z3.out")
        [ "$value" = "$other" ] || value="$value; of z3: $other"
    fi
    echo "| $name | $ours | $theirs | $value |"
done
