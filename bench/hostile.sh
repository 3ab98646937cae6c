#!/usr/bin/env bash
# Time, peak memory and answers on the scripts of bench/hostile.py, beside z3 where it is there; each run under a limit of processor time and of address space.
# Before the replies that are alike stands their number, where it isn't one; at most three kinds are shown. A run that ends with a status other than 0 and 1 has it told.
# Use: bench/hostile.sh [SECONDS [PROGRAM [NAME..]]], at the top of the repository, after a build.
set -eu
limit=${1:-60}
program=$(realpath "${2:-crates/smt_cli/out/smt_cli}")
here=$(dirname "$(realpath "$0")")
names=" ${*:3} "
folder=$(mktemp -d)
trap 'rm -rf "$folder"' EXIT

# The kinds of reply in the order of their coming, each with its number; all errors are one kind, of which the first is shown.
kinds() {
    LC_ALL=C awk '
        { text = substr($0, 1, 48) (length($0) > 48 ? ".." : ""); kind = /^\(error/ ? "errors, the first " : text }
        !(kind in count) { order[++kinds] = kind; first[kind] = text }
        { count[kind]++ }
        END {
            for (i = 1; i <= kinds && i <= 3; i++) {
                kind = order[i]
                printf "%s%s%s%s", (i > 1 ? ", " : ""), (count[kind] > 1 ? count[kind] " " : ""), (count[kind] > 1 && kind != first[kind] ? kind : ""), first[kind]
            }
            if (kinds > 3) printf ", %d kinds in all", kinds
        }' "$1" | tr -c '[:print:]' '?' | sed 's/|/\\|/g'
}

# Runs a solver on the script, and prints three cells.
measured() {
    local status=0 answer figures
    (ulimit -v 4000000 -t "$limit"; exec timeout $((limit * 4)) /usr/bin/time -f '%U %S %M' -o "$folder/figures" "$@" < "$folder/script" > "$folder/out" 2> "$folder/said") || status=$?
    answer=$(kinds "$folder/out")
    read -r user system kilobytes < <(tail -n 1 "$folder/figures")
    case $status in
    0 | 1) ;;
    124 | 137 | 152) answer="over $limit s${answer:+ after $answer}" ;;
    *) answer="status $status${answer:+ after $answer}, $(head -c 60 "$folder/said" | head -n 1)" ;;
    esac
    printf ' %s | %s | %s |' "${answer:-nothing}" "$(awk "BEGIN { printf \"%.2f\", $user + $system }")" "$((kilobytes / 1024))"
}

echo '| script | wanted | smt_cli | seconds | MB at most | z3 | seconds | MB |'
echo '|---|---|---|---|---|---|---|---|'
while IFS=$'\t' read -r name title wanted; do
    case $names in '  ' | *" $name "*) ;; *) continue ;; esac
    python3 "$here/hostile.py" "$name" > "$folder/script"
    printf '| %s | %s |' "$title" "$wanted"
    measured "$program"
    if command -v z3 > /dev/null; then measured z3 -in -smt2; else printf ' | | |'; fi
    echo
done < <(python3 "$here/hostile.py")
