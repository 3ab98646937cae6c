#!/usr/bin/env bash
# The time and the peak memory of deciding large Boolean scripts: as many random clauses of three literals as constants, beside z3 where it is there.
# Use: bench/large.sh [SMT_CLI], at the top of the repository.
set -eu
program=${1:-crates/smt_cli/out/smt_cli}
folder=$(mktemp -d)
trap 'rm -rf "$folder"' EXIT
for count in 5000 20000 80000; do
    python3 - "$count" > "$folder/script" << 'END'
import random, sys
count, draw = int(sys.argv[1]), random.Random(5)
literal = lambda: ("(not p%d)" if draw.random() < 0.5 else "p%d") % draw.randrange(count)
print("(set-option :print-success false)(set-logic QF_UF)")
for place in range(count):
    print(f"(declare-const p{place} Bool)")
for place in range(count):
    print("(assert (or", literal(), literal(), literal(), end="))\n")
print("(check-sat)")
END
    for solver in "$program" z3; do
        command -v "$solver" > /dev/null || continue
        words=()
        [ "$solver" = z3 ] && words=(-in)
        /usr/bin/time -f '%U+%S s, %M KB' -o "$folder/time" timeout 120 "$solver" "${words[@]}" < "$folder/script" > "$folder/out" || true
        printf '%6d clauses  %-8s %-8s %s\n' "$count" "$(basename "$solver")" "$(tail -1 "$folder/out")" "$(tail -1 "$folder/time")"
    done
done
