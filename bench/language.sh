#!/usr/bin/env bash
# The time and the peak memory of reading, sorting and keeping large scripts, beside z3 where it is there.
# Use: bench/language.sh [SMT_CLI], at the top of the repository.
set -eu
program=${1:-crates/smt_cli/out/smt_cli}
folder=$(mktemp -d)
trap 'rm -rf "$folder"' EXIT
python3 - "$folder" << 'END'
import sys
folder = sys.argv[1]

def script(name, lines):
    with open(f"{folder}/{name}", "w") as out:
        out.write("(set-option :print-success false)\n")
        for line in lines:
            out.write(line + "\n")

def assertions():
    for i in range(20000):
        yield f"(declare-fun f{i} (Int) Int)" if i % 2 else f"(declare-const c{i} Int)"
    for i in range(200000):
        j, k = i * 7 % 20000 // 2 * 2, i * 11 % 20000 // 2 * 2
        f = f"f{k + 1}"
        if i % 3 == 0:
            yield f"(assert (let ((a (+ c{j} {i}))) (< a ({f} a))))"
        elif i % 3 == 1:
            yield f"(assert (! (<= ({f} c{j}) c{k}) :named n{i}))"
        else:
            yield f"(assert (or (= c{j} c{k}) (not (< c{k} (+ 1 c{j})))))"

def nested_lets():
    yield "(declare-const x Int)"
    depth = 9900
    text = "(assert "
    for i in range(depth):
        text += f"(let ((v{i} (+ x {i}))) "
    text += f"(< v0 v{depth - 1})" + ")" * depth + ")"
    yield text

def wide_let():
    count = 40000
    yield "(declare-const x Int)"
    bindings = " ".join(f"(v{i} (+ x {i}))" for i in range(count))
    yield f"(assert (let ({bindings}) (< " + " ".join(f"v{i}" for i in range(count)) + ")))"

def wide_definition():
    count = 20000
    yield "(declare-const x Int)"
    parameters = " ".join(f"(p{i} Int)" for i in range(count))
    yield f"(define-fun d ({parameters}) Bool (< " + " ".join(f"p{i}" for i in range(count)) + "))"
    yield "(assert (d " + " ".join("x" for i in range(count)) + "))"

def nested_annotations():
    yield "(declare-const x Bool)"
    depth = 9900
    yield "(assert (let ((y x)) " + "(! " * depth + "y" + " :note)" * depth + "))"

script("10 MB of assertions", assertions())
script("100,000 constants", (f"(declare-const c{i} Int)" for i in range(100000)))
script("65,535 levels down and up", ["(push 1)"] * 65535 + ["(pop 1)"] * 65535)
script("10,000 definitions in a chain", ["(define-fun d0 () Int 1)"] + [f"(define-fun d{i} () Int (+ d{i - 1} 1))" for i in range(1, 10000)] + ["(assert (= d9999 10000))"])
script("9,900 nested lets", nested_lets())
script("40,000 names in one let", wide_let())
script("20,000 parameters", wide_definition())
script("9,900 nested annotations", nested_annotations())
script("100,000 small checks", ["(declare-const p Bool)"] + ["(push 1)", "(assert p)", "(check-sat)", "(pop 1)"] * 25000)
END
for script in "$folder"/*; do
    size=$(stat -c %s "$script")
    for solver in "$program" z3; do
        command -v "$solver" > /dev/null || continue
        words=()
        [ "$solver" = z3 ] && words=(-in)
        /usr/bin/time -f '%U+%S s, %M KB' -o "$folder.time" timeout 60 "$solver" "${words[@]}" < "$script" > "$folder.out" || true
        errors=$(grep -c error "$folder.out" || true)
        printf '%-32s %9d bytes  %-8s %s, %d lines, %d errors\n' "$(basename "$script")" "$size" "$(basename "$solver")" "$(tail -1 "$folder.time")" "$(wc -l < "$folder.out")" "$errors"
    done
done
rm -f "$folder.time" "$folder.out"
