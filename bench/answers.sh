#!/usr/bin/env bash
# Over a pipe, the built program answers each command as soon as it is whole: each is sent only once the one before is answered.
# Use: bench/answers.sh, at the top of the repository, once the program is built.
set -eu
coproc solver { crates/smt_cli/out/smt_cli; }

# Sends bytes, and waits at most two seconds for one line of reply.
expect() {
    printf '%s' "$1" >&"${solver[1]}"
    if ! read -r -t 2 reply <&"${solver[0]}" || [ "$reply" != "$2" ]; then
        echo "'$1' was answered by '${reply:-nothing}' and not by '$2'" >&2
        exit 1
    fi
}

expect '(set-logic QF_UF)' success
expect '(declare-const p Bool)' success
expect '(assert p)' success
expect '(check-sat)' sat
expect '(assert (not p))(check' success
expect '-sat)' unsat
expect '(exit)' success
echo 'each command was answered as soon as it was whole'
