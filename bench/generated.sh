#!/usr/bin/env bash
# The processor time of `smt_cli gen --seed K --size N` at the sizes 20, 200 and 2000, beside z3 and cvc5 on the same scripts where they are there, which `bench/generated.py` makes by the same rule. Each runs for
# SECONDS at most; what isn't done by then is said, as is a wrong answer. At the end stand the ratios to z3's times and to cvc5's.
# Use: bench/generated.sh [SECONDS [SEED]], at the top of the repository, after a build.
set -eu
limit=${1:-60}
seed=${2:-7}
program=$PWD/crates/smt_cli/out/smt_cli
maker=$PWD/bench/generated.py
folder=$(mktemp -d)
trap 'rm -rf "$folder"' EXIT
cd "$folder"
measure() { # NAME COMMAND..
    local spent
    spent=$({ TIMEFORMAT='%U %S'; time timeout "$limit" "${@:2}" > "$1.out" 2> /dev/null || true; } 2>&1)
    echo "$spent" | awk '{ printf "%.3f", $1 + $2 }'
}
# What the replies come to: all as they are to be, wrong, or the number of those that came in time. The text of `echo` stands with its quotes or without.
judged() { # NAME
    tr -d '"' < "$1.out" > "$1.plain"
    if cmp -s "$1.plain" wanted; then echo done
    elif [ "$(head -c "$(wc -c < "$1.plain")" wanted | cmp -s - "$1.plain" && echo front)" = front ]; then echo "$(wc -l < "$1.plain")_of_13"
    else echo WRONG; fi
}
printf '%-6s %10s %10s %10s %10s %10s  %s\n' size smt_cli z3 cvc5 'to z3' 'to cvc5' answers
for size in 20 200 2000; do
    python3 "$maker" "$seed" "$size" > script.smt2
    { for _ in 1 2 3 4; do printf 'sat\nunsat\nsat\n'; done; echo "size $size sat 8 unsat 4"; } > wanted
    own=$(measure own "$program" gen --seed "$seed" --size "$size")
    answers="smt_cli $(judged own)"
    z3=-
    cvc5=-
    if command -v z3 > /dev/null; then z3=$(measure z3 z3 script.smt2); answers="$answers, z3 $(judged z3)"; fi
    if command -v cvc5 > /dev/null; then cvc5=$(measure cvc5 cvc5 --incremental script.smt2); answers="$answers, cvc5 $(judged cvc5)"; fi
    ratios=$(awk -v own="$own" -v z3="$z3" -v cvc5="$cvc5" 'function ratio(t) { return t == "-" ? "-" : sprintf("%.2f", own / (t > 0.001 ? t : 0.001)) } BEGIN { printf "%10s %10s", ratio(z3), ratio(cvc5) }')
    printf '%-6s %10s %10s %10s %s  %s\n' "$size" "$own" "$z3" "$cvc5" "$ratios" "$answers"
done
