#!/usr/bin/env python3
"""A second judge of proofs, and drawn proofs for it and for the program that checks them.
Use: bench/proofs.py table SEED             prints 200 rows
     bench/proofs.py judge FILE             judges the script with a proof in a file
     bench/proofs.py against PROGRAM SEED COUNT   runs the program on drawn rows, and says where it differs
     bench/proofs.py speed N [chain|wide|distinct|deep]   prints a script with a proof of about N steps
     bench/proofs.py rust SEED [GOOD SPOILED]   prints so many rows as the text of a test
     bench/proofs.py itself COUNT           tries the judge's search for truth values against plain enumeration
The judge reads the rules after the definitions, over Python's whole numbers, and shares no code with the program."""
import collections
import itertools
import random
import subprocess
import sys
import threading

import proof_drafts
import proof_judge
import proof_rows


def table(seed):
    for number, row in enumerate(proof_rows.table(seed)):
        print(f"{number}\t{row.line}\t{row.status}\t{row.kind}\t{row.way}\t{row.data.decode('latin-1')!r}")


def judge(path):
    with open(path, "rb") as file:
        line, status = proof_judge.judge(file.read())
    print(line)
    sys.exit(status)


def against(program, seed, count):
    """Each difference in the line, the status, or that something was said."""
    counts, differences = collections.Counter(), 0
    for row in proof_rows.drawn(seed, count):
        ran = subprocess.run([program], input=row.data, capture_output=True)
        if (ran.stdout, ran.returncode, ran.stderr) != (row.line.encode() + b"\n", row.status, b""):
            differences += 1
            print(f"{row.kind}, {row.way}: {row.line} {row.status}, but {ran.stdout!r} {ran.returncode} {ran.stderr!r}\n{row.data!r}")
        counts[row.line.split()[0]] += 1
    print(f"{sum(counts.values())} rows, {differences} differences: {dict(counts)}")
    sys.exit(1 if differences else 0)


# ---- long proofs


def chain(count):
    """p0, and each implies the next: four steps each."""
    length = max(1, count // 4)
    yield "".join(f"(declare-const p{k} Bool)\n" for k in range(length + 1))
    yield "(assert p0)" + "".join(f"(assert (=> p{k} p{k + 1}))\n" for k in range(length)) + f"(assert (not p{length}))\n(check-sat)(get-proof)(("
    # the constants, then the implications, and the negation
    yield " ".join(f"(p{k})" for k in range(length + 1)) + "\n"
    yield " ".join(f"(=> {k} {k + 1})" for k in range(length)) + f" (not {length}))\n("
    yield "(assert 0 0)\n"
    last, step = 0, 1
    for k in range(length):
        node = length + 1 + k
        yield f"(assert {k + 1} {node}) (form {node} (not (t {node})) (not (t {k})) (t {k + 1})) (res {step} {step + 1} (t {node})) (res {last} {step + 2} (t {k}))\n"
        last, step = step + 3, step + 4
    node = 2 * length + 1
    yield f"(assert {length + 1} {node}) (form {node} (not (t {node})) (not (t {length}))) (res {step} {step + 1} (t {node})) (res {last} {step + 2} (t {length}))))\n"


def wide(count):
    """All of many constants, but not their conjunction: one step on all of its arguments, and a resolution for each."""
    length = max(1, count // 2)
    yield "".join(f"(declare-const p{k} Bool)(assert p{k})\n" for k in range(length))
    conjunction = " ".join(f"p{k}" for k in range(length))
    yield f"(assert (not (and {conjunction})))(check-sat)(get-proof)(("
    yield " ".join(f"(p{k})" for k in range(length)) + "\n(and " + " ".join(map(str, range(length))) + f") (not {length}))\n("
    yield f"(form {length} (t {length})" + "".join(f" (not (t {k}))" for k in range(length)) + ")\n"
    yield "".join(f"(assert {k} {k})" for k in range(length)) + "\n"
    step = length + 1
    yield f"(assert {length} {length + 1}) (form {length + 1} (not (t {length + 1})) (not (t {length}))) (res {step} {step + 1} (t {length + 1}))\n"
    yield f"(res 0 {step + 2} (t {length}))\n"
    step += 3
    for k in reversed(range(length)):
        yield f"(res {k + 1} {step} (t {k}))\n"
        step += 1
    yield "))\n"


def distinct(count):
    """A `distinct` of so many, of which the first and the last are equal."""
    names = [f"c{k}" for k in range(max(2, count))]
    last = len(names) - 1
    yield "(declare-sort U 0)" + "".join(f"(declare-const {n} U)\n" for n in names)
    yield f"(assert (distinct {' '.join(names)}))(assert (= c0 c{last}))(check-sat)(get-proof)(("
    yield " ".join(f"({n})" for n in names) + "\n(distinct " + " ".join(map(str, range(last + 1))) + f") (= 0 {last}))\n("
    yield f"(assert 0 {last + 1}) (assert 1 {last + 2}) (form {last + 1} (not (t {last + 1})) (not (s 0 {last}))) (form {last + 2} (not (t {last + 2})) (s 0 {last}))\n"
    yield f"(res 0 2 (t {last + 1})) (res 1 3 (t {last + 2})) (res 5 4 (s 0 {last}))))\n"


def applied(count, name):
    """A function applied so many times, with `let` where lists would be nested too deeply."""
    text, ends = "", 0
    for part in range(0, count, 5_000):
        times = min(5_000, count - part)
        text += f"(let (({name}{part} {'(f ' * times}{name if part == 0 else f'{name}{part - 5_000}'}{')' * times})) "
        ends += 1
    return text + f"{name}{(count - 1) // 5_000 * 5_000}" + ")" * ends


def deep(count):
    """A function applied so many times to equal elements."""
    count = max(1, count)
    yield "(declare-sort U 0)(declare-const a U)(declare-const b U)(declare-fun f (U) U)\n"
    yield f"(assert (= a b))(assert (not (= {applied(count, 'a')} {applied(count, 'b')})))(check-sat)(get-proof)((\n(a) (b)"
    # f^k(a) and f^k(b) are the nodes 2k and 2k + 1
    yield "".join(f" (f {2 * k}) (f {2 * k + 1})\n" for k in range(count))
    node = 2 * count + 2
    yield f"(= 0 1) (= {2 * count} {2 * count + 1}) (not {node + 1}))\n("
    yield f"(assert 0 {node}) (form {node} (not (t {node})) (s 0 1)) (res 0 1 (t {node}))\n"
    last = 2
    for k in range(1, count + 1):
        yield f"(cong {2 * k} {2 * k + 1}) (res {last} {last + 1} (s {2 * k - 2} {2 * k - 1}))\n"
        last += 2
    yield f"(assert 1 {node + 2}) (form {node + 2} (not (t {node + 2})) (not (t {node + 1}))) (form {node + 1} (t {node + 1}) (not (s {2 * count} {2 * count + 1})))\n"
    yield f"(res {last + 1} {last + 2} (t {node + 2})) (res {last + 3} {last + 4} (t {node + 1})) (res {last} {last + 5} (s {2 * count} {2 * count + 1}))))\n"


LONG = {"chain": chain, "wide": wide, "distinct": distinct, "deep": deep}


def speed(count, kind="chain"):
    for piece in LONG[kind](count):
        sys.stdout.write(piece)


# ---- the judge against plain enumeration


def itself(count):
    """Whether parts can give a term a truth value: tried by all truth values of the parts."""
    draw = random.Random(1)
    for _ in range(count):
        operator = draw.choice(["not", "and", "or", "xor", "=>", "=", "distinct", "ite"])
        width = {"not": 1, "ite": 3}.get(operator, draw.randrange(2, 7))
        parts = [draw.randrange(4) for _ in range(width)]
        told = {p: draw.random() < 0.5 for p in set(parts) if draw.random() < 0.4}
        wanted = draw.random() < 0.5
        free = sorted(set(parts) - set(told))
        plain = False
        for bits in itertools.product([False, True], repeat=len(free)):
            values = {**told, **dict(zip(free, bits))}
            plain = plain or proof_drafts.value_of(operator, [values[p] for p in parts]) == wanted
        assert proof_judge.can_be(operator, parts, told, wanted) == plain, (operator, parts, told, wanted)
    print(f"{count} alike")


# ---- the rows as the text of a test


def literal(data):
    """Bytes as they stand in a constant, each line on a line of its own."""
    text = data.decode("latin-1")
    escapes = {"\\": "\\\\", '"': '\\"', "\t": "\\t", "\r": "\\r"}
    return "".join(escapes.get(c, c if " " <= c <= "~" or c == "\n" else f"\\x{ord(c):02x}") for c in text)


# (a table in place of the text makes the test three times as dear to prove)
TEST = """//! Proofs that are good, and proofs that are spoiled in one place, with what is found of each: drawn by
//! `bench/proofs.py rust {seed}`, which judges them too.
use super::{{calm, outcome}};
use std::alloc::{{AllocError, Global}};
use std::process::Abort;
use std::test::Fail;

/// How many scripts there are.
const COUNT: usize = {count};

/// Scripts, {good} with good proofs first. Behind each stands a line with what is found, the status, and the line that is written.
static ROWS: &[u8] = b"{rows}";

/// What is found of a script, the status, and what is written.
fn told(alloc: Global, script: &[u8]) -> Result<Vec<u8>, AllocError> {{
    let (ended, written) = outcome(alloc, "smt_check", script, 1 << 20, calm(4096))?;
    let text = match ended.found {{
        Some(found) => format!(in alloc; "{{found:?}} {{}} ", ended.status)?,
        None => String::new(alloc),
    }};
    let mut told = text.as_bytes().to_vec(alloc)?;
    told.extend_from_slice(&written)?;
    Ok(told)
}}

/// Compares what is found of each script with the line behind it, and says how many there are.
fn check_rows(rt: &impl Abort, alloc: Global, rows: &[u8]) -> Result<usize, Fail> {{
    let mut script = Vec::new(alloc);
    let mut count: usize = 0;
    for line in rows.split(|byte| *byte == b'\\n') {{
        if line.len() < 3 || &line[..3] != b"== ".as_slice() {{
            script.extend_from_slice(line)?;
            script.push(b'\\n')?;
            continue;
        }}
        // the end of the line before it is none of the script's
        let _ = script.pop();
        let mut wanted = line[3..].to_vec(alloc)?;
        wanted.push(b'\\n')?;
        assert_eq!(rt; told(alloc, &script)?.as_slice(), wanted.as_slice());
        script.clear();
        count = count.saturating_add(1);
    }}
    Ok(count)
}}

#[test]
fn judges_rows(rt: HostRuntime) -> Result<(), Fail> {{
    assert_eq!(rt; check_rows(&rt, rt.alloc(), ROWS)?, COUNT);
    Ok(())
}}"""


def found_text(line):
    """What the line says, as the program's type has it."""
    if line == "no proof":
        return "NoProof"
    name, *number = line.split()
    return name.capitalize() + "".join(f"({n})" for n in number)


def rust(seed, good=80, spoiled=120):
    """So many rows, with no blank that needn't be."""
    rows, texts = proof_rows.table(seed, good, spoiled), []
    for row in rows:
        data = proof_rows.compact(row.data.decode("latin-1"), 0).encode("latin-1")
        assert proof_judge.judge(data) == (row.line, row.status) and b"\n== " not in b"\n" + data
        texts.append(f"{literal(data)}\n== {found_text(row.line)} {row.status} {row.line}")
    print(TEST.format(seed=seed, count=len(rows), good=good, rows="\n".join(texts)))


def main(words):
    forms = {
        ("table", 1): lambda seed: table(int(seed)),
        ("judge", 1): judge,
        ("against", 3): lambda program, seed, count: against(program, int(seed), int(count)),
        ("speed", 1): lambda count: speed(int(count)),
        ("speed", 2): lambda count, kind: speed(int(count), kind),
        ("rust", 1): lambda seed: rust(int(seed)),
        ("rust", 3): lambda *numbers: rust(*map(int, numbers)),
        ("itself", 1): lambda count: itself(int(count)),
    }
    form = forms.get((words[0], len(words) - 1)) if words else None
    if form is None:
        sys.exit(__doc__)
    form(*words[1:])


def in_thread():
    try:
        main(sys.argv[1:])
        ended.append(0)
    except SystemExit as end:
        ended.append(end.code)


if __name__ == "__main__":
    # terms may be nested as deeply as lists may
    sys.setrecursionlimit(200_000)
    threading.stack_size(512 * 1024 * 1024)
    ended = []
    thread = threading.Thread(target=in_thread)
    thread.start()
    thread.join()
    sys.exit(ended[0] if ended else 1)
