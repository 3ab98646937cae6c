#!/usr/bin/env bash
# The peak memory, the time and the exit status of the built program on long scripts that are made on the fly, each under a limit of address space, so that memory that is reserved and not touched shows too.
# Use: bench/memory.sh, at the top of the repository, once the program is built (`cd crates/smt_cli && rt run < ../../examples/boolean.smt2`).
set -eu
program=crates/smt_cli/out/smt_cli
[ -x "$program" ] || { echo "build $program first" >&2; exit 1; }
figures=$(mktemp)
trap 'rm -f "$figures"' EXIT

# Runs the program on standard input within so many megabytes, and prints a line.
measured() {
    local status=0
    (ulimit -v $(($1 * 1024)); exec /usr/bin/time -f "%M %e" -o "$figures" "$program" > /dev/null) || status=$?
    read -r kilobytes seconds < <(tail -n 1 "$figures")
    printf '| %s | %s | %s | %s | %s |\n' "$2" "$1" "$((kilobytes / 1024))" "$seconds" "$status"
}

echo '| script | MB allowed | MB at most | seconds | status |'
echo '|---|---|---|---|---|'
# What was read is forgotten: each command drops the comment before it.
comment=$(printf ';%01023d' 0)
yes "$comment"$'\n''(set-option :print-success false)' | head -n 128000 | measured 32 '64,000 options, each behind a comment of 1 KB: 68 MB'
# What stands between two commands is let go as it comes.
{ yes "$comment" | head -n 64000; echo '(exit)'; } | measured 256 'one command behind comments: 66 MB'
# Nothing of a command and of its reply is kept.
yes '(set-option :print-success false)' | head -n 200000 | measured 32 '200,000 options'
# A command costs memory for its own tokens alone, and its entry goes when it is written.
yes '(check-sat)' | head -n 1000000 | measured 32 '1,000,000 checks'
# One command of many tokens costs memory in proportion to them.
{ echo '(x'; yes 'y' | head -n 2000000; echo ')'; } | measured 256 'one list of 2,000,000 tokens'
