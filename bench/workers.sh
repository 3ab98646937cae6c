#!/usr/bin/env bash
# The time of the clock that checks take with 1, 2 and 4 workers, on the forty scripts that bench/workers.py makes: pigeons, random clauses, parities, job shops, difference logic, diamonds of equalities, quasigroups, hashes by
# functions and verification conditions; and on 10,000 trivial checks. A script that isn't decided counts as SECONDS. Answers that differ are said. At the end stand the geometric means of the ratios to one worker, for each family and
# for all. Workers need processors of their own: on a machine with other work the figures say little.
# Use: bench/workers.sh [PROGRAM [SECONDS [WORKERS..]]], at the top of the repository, after a build.
set -eu
program=$(realpath "${1:-crates/smt_cli/out/smt_cli}")
limit=${2:-60}
crews=("${@:3}")
[ ${#crews[@]} -gt 0 ] || crews=(1 2 4)
folder=$(mktemp -d)
trap 'rm -rf "$folder"' EXIT
python3 bench/workers.py "$folder"
cd "$folder"
printf '%-16s' script
for crew in "${crews[@]}"; do printf ' %9s' "$crew"; done
printf '  answers\n'
for script in *.smt2; do
    name=${script%.smt2}
    checks=$(grep -c '^(check-sat)' "$script")
    line=$name
    told=
    for crew in "${crews[@]}"; do
        start=$(date +%s%N)
        timeout "$limit" "$program" --workers "$crew" < "$script" > "$name.$crew" 2> /dev/null || true
        spent=$(( ($(date +%s%N) - start) / 1000000 ))
        done=$(grep -c '^\(sat\|unsat\)$' "$name.$crew" || true)
        [ "$done" = "$checks" ] || spent=$((limit * 1000))
        line+=" $spent"
        told+=" $done"
        least=$(wc -l < "$name.$crew")
        if ! cmp -s <(head -n "$least" "$name.$crew") <(head -n "$least" "$name.${crews[0]}"); then told+=" (WRONG where both are told)"; fi
    done
    echo "$line" >> times
    printf '%-16s' "$name"
    for spent in ${line#* }; do printf ' %9s' "$(awk -v t="$spent" 'BEGIN { printf "%.3f", t / 1000 }')"; done
    printf '  %s of %s\n' "${told# }" "$checks"
done
awk -v crews="${crews[*]}" '
BEGIN { count = split(crews, crew, " ") }
function more(time) { return time > 1 ? time : 1 }
{ family = $1; sub(/-.*/, "", family); if (!(family in all)) order[++families] = family }
{ all[family]++; for (k = 1; k <= count; k++) { ratio = log(more($2) / more($(k + 1))); sum[family, k] += ratio; if (family != "trivial") { whole[k] += ratio } } if (family != "trivial") scripts++ }
END {
    printf "\n%-16s", "times as fast as " crew[1]
    for (k = 2; k <= count; k++) printf " %9s", crew[k]
    print ""
    for (f = 1; f <= families; f++) { printf "%-16s", order[f]; for (k = 2; k <= count; k++) printf " %9.2f", exp(sum[order[f], k] / all[order[f]]); print "" }
    printf "%-16s", "all but trivial"
    for (k = 2; k <= count; k++) printf " %9.2f", exp(whole[k] / scripts)
    print ""
}' times
