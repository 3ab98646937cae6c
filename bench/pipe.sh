#!/usr/bin/env bash
# What a command costs over one long pipe: each is sent only once the one before is answered, and the time of each tenth is told, with the program's peak memory by then.
# Use: bench/pipe.sh [COUNT [SMT_CLI]], at the top of the repository, once the program is built. COUNT is 100,000 if it isn't given.
set -eu
python3 - "${1:-100000}" "${2:-crates/smt_cli/out/smt_cli}" << 'END'
import re
import subprocess
import sys
import time

count, program = int(sys.argv[1]), sys.argv[2]
# A level with an assertion of its own, a check and its question: nothing of a round stays.
ROUND = [
    (b"(push 1)\n", b"success\n"),
    (b"(assert (and p (not q)))\n", b"success\n"),
    (b"(check-sat)\n", b"sat\n"),
    (b"(get-value (p q))\n", b"((p true) (q false))\n"),
    (b"(pop 1)\n", b"success\n"),
]
solver = subprocess.Popen([program], stdin=subprocess.PIPE, stdout=subprocess.PIPE, bufsize=0)
replies = solver.stdout

def ask(command, wanted):
    solver.stdin.write(command)
    reply = b""
    while not reply.endswith(b"\n"):
        part = replies.read(4096)
        if not part:
            break
        reply += part
    if reply != wanted:
        sys.exit(f"{command!r} was answered by {reply!r} and not by {wanted!r}")

def peak():
    with open(f"/proc/{solver.pid}/status") as status:
        return int(re.search(r"VmHWM:\s+(\d+)", status.read()).group(1))

ask(b"(set-option :produce-models true)", b"success\n")
ask(b"(set-logic QF_UF)", b"success\n")
ask(b"(declare-const p Bool)", b"success\n")
ask(b"(declare-const q Bool)", b"success\n")
print("| commands so far | microseconds each | KB at most |")
print("|---|---|---|")
tenth = max(count // 10, len(ROUND))
for part in range(10):
    begun = time.perf_counter()
    for turn in range(tenth):
        ask(*ROUND[turn % len(ROUND)])
    spent = time.perf_counter() - begun
    print(f"| {(part + 1) * tenth:,} | {spent / tenth * 1e6:.1f} | {peak():,} |")
solver.stdin.close()
if solver.wait() != 0:
    sys.exit(f"status {solver.returncode}")
END
