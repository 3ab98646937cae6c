#!/usr/bin/env python3
"""Runs of the program in which one allocation after the other is refused.
Use: bench/allocations.py [--after] [PROGRAM [SCRIPT..]], at the top of the repository, after a build; it needs a C compiler and Linux.
PROGRAM may have words of its own behind its path, as in "smt_cli --workers 1".
With --test PROGRAM NAME the program is one of tests, and the run is that of the test of this full name: it has to pass whichever call is refused.

A library that is loaded before the C library counts the calls of `malloc` and `realloc`, and refuses the one that it is told (with --after, that
one and all behind it). So a program that is built once is run once for each call that the plain run makes. After each run one of these has to hold:

- the status is 5, `out of memory` is on standard error, and what was written is a front of a right text that ends at a reply's end;
- the status is 0, or 1 where an error is among the replies, and the whole of a right text was written, and nothing on standard error.

In a right text `unknown` may stand for `sat` or `unsat`; then the replies behind it are those of that answer, and its reason is `memout`.
Replies also may not be lost: with a later refusal no fewer of them are written before status 5 (by one worker: of more the calls come in another order each time).
The replies of the scripts below are worked out by hand. Those of scripts that are given are told by a run without refusals, which therefore
tells nothing of itself; in them what comes between an answer `unknown` and the next check isn't judged, and a core may be longer.
"""
import mmap
import os
import shlex
import subprocess
import sys
import tempfile

COUNTER = r"""
#define _GNU_SOURCE
#include <fcntl.h>
#include <stdlib.h>
#include <sys/mman.h>
#include <unistd.h>
/* The file has three numbers: the first call that is refused (0 for none), the last one, and how many calls there were. */
static volatile unsigned long *shared;
extern void *__libc_malloc(size_t), *__libc_realloc(void *, size_t);
__attribute__((constructor)) static void start(void) {
    int file = open(getenv("REFUSALS"), O_RDWR);
    shared = mmap(0, 24, PROT_READ | PROT_WRITE, MAP_SHARED, file, 0);
    close(file);
}
static int refused(void) {
    if (!shared) return 0;
    unsigned long call = __atomic_add_fetch(&shared[2], 1, __ATOMIC_RELAXED);
    return shared[0] && shared[0] <= call && call <= shared[1];
}
void *malloc(size_t size) { return refused() ? 0 : __libc_malloc(size); }
void *realloc(void *old, size_t size) { return refused() ? 0 : __libc_realloc(old, size); }
"""

DONE = ["success"]
NO_MODEL, NO_CORE, NO_REASON = '(error "E20 no model")', '(error "E23 not in unsat mode")', '(error "E9 no unknown answer")'
MEMOUT = "(:reason-unknown memout)"


def reply(command, *decided, unknown=None):
    """A command, its right replies, and those where the last check was answered `unknown` (None where they aren't known)."""
    return command, list(decided) or DONE, list(decided) or DONE if unknown is None else [unknown]


def check(answer, command="(check-sat)"):
    return command, [answer, "unknown"], [answer, "unknown"]


SCRIPTS = {
    "a level pushed and popped": [
        check("unsat", "(set-option :print-success false)(declare-const p Bool)(assert p)(push 1)(assert (not p))(check-sat)"),
        check("sat", "(pop 1)(check-sat)"),
    ],
    "two values of a function": [
        check(
            "unsat",
            "(set-option :print-success false)(declare-fun f (Int) Int)(declare-const x Int)(declare-const y Int)"
            "(assert (<= 1 x 2))(assert (distinct (f x) (f 1)))(assert (distinct (f x) (f 2)))(check-sat)",
        ),
    ],
    "Boolean": [
        reply("(set-option :produce-models true)"),
        reply("(set-logic QF_UFLIA)"),
        reply("(declare-const p Bool)"),
        reply("(declare-const q Bool)"),
        reply("(assert (or p q))"),
        reply("(assert (not p))"),
        check("sat"),
        reply("(get-model)", "((define-fun p () Bool false) (define-fun q () Bool true))", unknown=NO_MODEL),
    ],
    "Boolean, with its reason": [
        reply("(set-logic QF_UFLIA)"),
        reply("(declare-const p Bool)"),
        reply("(declare-const q Bool)"),
        reply("(assert (or p q))"),
        reply("(assert (and (=> p q) (=> q p)))"),
        reply("(assert (or (not p) (not q)))"),
        check("unsat"),
        reply("(get-info :reason-unknown)", NO_REASON, unknown=MEMOUT),
        reply('(echo "done")', '"done"'),
    ],
    "functions and integers": [
        reply("(set-option :produce-models true)"),
        reply("(declare-fun f (Int) Int)"),
        reply("(declare-const x Int)"),
        reply("(declare-const y Int)"),
        reply("(assert (and (<= 3 x) (< x 4)))"),
        reply("(assert (= (f x) (+ y 1)))"),
        reply("(assert (= (f 3) (* 2 4)))"),
        check("sat"),
        reply("(get-value (x y (f x)))", "((x 3) (y 7) ((f x) 8))", unknown=NO_MODEL),
        reply("(get-info :reason-unknown)", NO_REASON, unknown=MEMOUT),
    ],
    "a core": [
        reply("(set-option :produce-unsat-cores true)"),
        reply("(declare-const x Int)"),
        reply("(declare-const y Int)"),
        reply("(assert (! (<= x 2) :named low))"),
        reply("(assert (! (<= y 4) :named other))"),
        reply("(assert (! (<= 5 x) :named high))"),
        check("unsat"),
        # A trial that found no memory keeps its candidate.
        reply("(get-unsat-core)", "(low high)", "(low other high)", unknown=NO_CORE),
    ],
    "levels, assumptions and names": [
        reply("(set-option :produce-models true)"),
        reply("(set-option :produce-assignments true)"),
        reply("(set-option :produce-unsat-assumptions true)"),
        reply("(declare-sort S 0)"),
        reply("(declare-const a S)"),
        reply("(declare-const b S)"),
        reply("(declare-fun g (S) Bool)"),
        reply("(define-fun h ((v S)) Bool (let ((w (g v))) (not w)))"),
        reply("(push 1)"),
        reply("(assert (! (g a) :named here))"),
        check("unsat", "(check-sat-assuming ((h a) (g b)))"),
        reply("(get-unsat-assumptions)", "((h a))", "((h a) (g b))", unknown=NO_CORE),
        reply("(pop 1)"),
        reply("(assert (! (h b) :named there))"),
        check("sat"),
        reply("(get-assignment)", "((there true))", unknown=NO_MODEL),
    ],
}


class Longer:
    """The cores that have all of one: where a trial finds no memory, its candidate stays."""

    def __init__(self, core):
        self.words = self.split(core)

    @staticmethod
    def split(line):
        return line.replace("(", " ( ").replace(")", " ) ").split()[1:-1]

    def __contains__(self, line):
        rest = iter(self.split(line))
        return line.startswith("(") and all(it in rest for it in self.words)


def given(program, path):
    """A script that isn't of this file, and the replies to it without refusals, each of which must fit one line."""
    text = open(path, "rb").read().decode("latin-1")
    ran = subprocess.run(program, input=text.encode("latin-1"), capture_output=True)
    script, unsat = [], False
    for place, line in enumerate(ran.stdout.decode("latin-1").split("\n")[:-1]):
        if line in ("sat", "unsat"):
            script.append(check(line))
            unsat = line == "unsat"
        else:
            script.append((f"command {place}", Longer(line) if unsat and line[:1] == "(" and line[:6] != "(error" else [line], None))
    return text, script


def fault(status, out, said, script):
    """What is wrong with a run; nothing where nothing is."""
    replies = out.split("\n")
    if replies.pop():
        return "the text ends inside a reply"
    unknown = False
    for place, line in enumerate(replies):
        if place == len(script):
            return "more replies than commands"
        command, decided, otherwise = script[place]
        allowed = otherwise if unknown else decided
        if allowed is not None and line not in allowed:
            return f"{line} is the reply to {command}"
        if "(check-sat" in command:
            unknown = line == "unknown"
    if status == 5:
        return "" if said == "out of memory\n" else f"status 5, and standard error has {said!r}"
    if status not in (0, 1):
        return f"status {status}"
    if len(replies) != len(script):
        return f"status {status} after {len(replies)} of {len(script)} replies"
    if status != any(it.startswith("(error") for it in replies):
        return f"status {status}"
    return f"standard error has {said!r}" if said else ""


class Runs:
    def __init__(self, words, after, folder):
        self.words, self.after = words, after
        self.library = f"{folder}/counter.so"
        with open(f"{folder}/counter.c", "w") as file:
            file.write(COUNTER)
        subprocess.run(["cc", "-O1", "-shared", "-fPIC", "-fno-builtin", "-o", self.library, f"{folder}/counter.c"], check=True)
        self.path = f"{folder}/numbers"
        with open(self.path, "wb") as file:
            file.write(bytes(24))
        self.file = open(self.path, "r+b")
        self.numbers = memoryview(mmap.mmap(self.file.fileno(), 24)).cast("Q")

    def run(self, text, refused):
        """Status, standard output, standard error, and how many calls there were."""
        self.numbers[0], self.numbers[1], self.numbers[2] = refused, 2**62 if self.after else refused, 0
        with_it = {"LD_PRELOAD": self.library, "REFUSALS": self.path}
        try:
            ran = subprocess.run(self.words, input=text.encode("latin-1"), capture_output=True, env=with_it, timeout=60)
        except subprocess.TimeoutExpired:
            return "none in 60 seconds", "", "", self.numbers[2]
        return ran.returncode, ran.stdout.decode("latin-1"), ran.stderr.decode("latin-1"), self.numbers[2]


def sweep(runs, name, text, script):
    """A row of the table, and a line for each broken rule."""
    status, out, said, calls = runs.run(text, 0)
    faults = [f"without a refusal: {it}" for it in [fault(status, out, said, script)] if it]
    if not calls:
        faults.append("no call was seen: is the program linked without the shared C library?")
    if "unknown" in out.split("\n"):
        faults.append("without a refusal: unknown")
    ended, unknown, most = {}, 0, 0
    for number in range(1, calls + 1):
        status, out, said, _ = runs.run(text, number)
        ended[status] = ended.get(status, 0) + 1
        unknown += status != 5 and "unknown" in out.split("\n")
        wrong = fault(status, out, said, script)
        if not wrong and status == 5:
            fewer = runs.words[1:3] == ["--workers", "1"] and out.count("\n") < most
            wrong = f"{out.count(chr(10))} replies, and {most} with an earlier refusal" if fewer else ""
            most = max(most, out.count("\n"))
        if wrong:
            faults.append(f"call {number}: {wrong}")
    whole = ended.pop(0, 0), ended.pop(1, 0), ended.pop(5, 0)
    print(f"| {name} | {len(text)} | {calls} | {whole[0]} | {whole[1]} | {whole[2]} | {unknown} | {sum(ended.values())} | {len(faults)} |", flush=True)
    return faults


def sweep_test(program, name):
    """A line of what came of a test, and one for each call without which it doesn't pass."""
    with tempfile.TemporaryDirectory() as folder:
        runs = Runs([program, name], False, folder)
        calls = runs.run("", 0)[3]
        ended = [runs.run("", number)[0] for number in range(calls + 1)]
    faults = [f"call {number}: status {status}" if number else f"without a refusal: status {status}" for number, status in enumerate(ended) if status]
    print(f"{name}: {calls} allocations, {len(faults)} runs that don't pass")
    return faults if calls else ["no call was seen: is the program linked without the shared C library?"]


def main():
    words = sys.argv[1:]
    if words[:1] == ["--test"]:
        faults = sweep_test(os.path.realpath(words[1]), words[2])
        print(*faults[:200], sep="\n")
        sys.exit(bool(faults))
    after = "--after" in words
    words = [it for it in words if it != "--after"]
    program = shlex.split(words[0] if words else "crates/smt_cli/out/smt_cli")
    program[0] = os.path.realpath(program[0])
    cases = {}
    for path in words[1:]:
        cases[path] = given(program, path)
    for name, script in SCRIPTS.items() if not cases else ():
        cases[name] = "".join(it[0] + "\n" for it in script), script
    print("| script | bytes | allocations | status 0 | 1 | 5 | of 0 and 1 with `unknown` | another end | rules broken |")
    print("|---|---|---|---|---|---|---|---|---|")
    faults = []
    with tempfile.TemporaryDirectory() as folder:
        runs = Runs(program, after, folder)
        for name, (text, script) in cases.items():
            faults += [f"{name}: {it}" for it in sweep(runs, name, text, script)]
    for it in faults[:200]:
        print(it)
    sys.exit(bool(faults))


main()
