#!/usr/bin/env bash
# The processor time of checks whose integers are tied by differences, beside z3 on the same scripts where it is installed, by the scripts that bench/differences.py makes: bounds alone, chains, job shops, disjunctive temporal problems,
# conditions of loops over arrays, writes to arrays at tied indices, a ticket lock unrolled, and small checks over a base of bounds. A wrong answer is said. At the end stands a line for each family: how many scripts were answered
# whole, and the geometric means of the seconds. Two programs are compared by two runs with the same seed.
# Use: bench/differences.sh [SEED [SECONDS [PROGRAM]]], at the top of the repository, after a build.
set -eu
seed=${1:-1}
limit=${2:-8}
program=$(realpath "${3:-crates/smt_cli/out/smt_cli}")
folder=$(mktemp -d)
trap 'rm -rf "$folder"' EXIT
python3 bench/differences.py "$folder" "$seed"
cd "$folder"
measure() { # NAME COMMAND..
    local spent
    spent=$({ TIMEFORMAT='%U %S'; time prlimit --cpu="$limit" "${@:2}" > "$1.out" 2> /dev/null || true; } 2>&1)
    echo "$spent" | awk '{ printf "%.3f", $1 + $2 }'
}
printf '%-24s %10s %10s  %s\n' script smt_cli z3 answers
for script in *.smt2; do
    name=${script%.smt2}
    checks=$(grep -c '^(check-sat)' "$script")
    own=$(measure "$name.own" "$program" < "$script")
    z3=-
    if command -v z3 > /dev/null; then z3=$(measure "$name.z3" z3 "$script"); fi
    touch "$name.z3.out"
    told=$(grep -c '^\(sat\|unsat\)$' "$name.own.out" || true)
    also=$(grep -c '^\(sat\|unsat\)$' "$name.z3.out" || true)
    least=$((told < also ? told : also))
    wrong=
    if ! cmp -s <(head -n "$least" "$name.own.out") <(head -n "$least" "$name.z3.out"); then wrong=WRONG; fi
    printf '%-24s %10s %10s  %s\n' "$name" "$own" "$z3" "$told of $checks $wrong"
    echo "${name%%-*} $own $z3 $((told == checks)) $((also == checks))" >> times
done
awk '
function more(time) { return time > 0.005 ? time : 0.005 }
!($1 in all) { order[++families] = $1 }
{ all[$1]++; solved[$1] += $4; own[$1] += log(more($2)); z3[$1] += log(more($3)); also[$1] += $5 }
END {
    printf "\n%-24s %10s %10s %10s %10s\n", "family", "answered", "seconds", "by z3", "seconds"
    for (k = 1; k <= families; k++) { f = order[k]; printf "%-24s %10s %10.3f %10s %10.3f\n", f, solved[f] "/" all[f], exp(own[f] / all[f]), also[f] "/" all[f], exp(z3[f] / all[f]) }
}' times
