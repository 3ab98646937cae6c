#!/usr/bin/env bash
# The time of the search's parts (clause store, learning, order of choices, forgetting) on clauses in DIMACS' form, which never and which may forget, beside minisat on the same clauses where it is there.
# It writes a program over copies of the libraries into a temporary folder, and builds it there with `rt run`, which takes minutes; quicker once the libraries are checked here.
# Use: bench/search.sh [SECONDS], at the top of the repository.
set -eu
limit=${1:-60}
folder=$(mktemp -d)
trap 'rm -rf "$folder"' EXIT
libraries='fraction128 smt_meaning smt_laws literals clause_store conflict_learn search_port search_order cdcl_core'
mkdir -p "$folder/crates/dimacs_search/src"
for library in $libraries; do
    cp -a "crates/$library" "$folder/crates/"
    grep "^$library:" crates.txt >> "$folder/crates.txt"
done
echo "dimacs_search: $libraries" >> "$folder/crates.txt"
cat > "$folder/crates/dimacs_search/src/main.rt" << 'END'
//! Decides clauses in DIMACS' form; where the first line is `c forget` it may forget learnt clauses.
#![tactic(auto)]

ghost use Rattle.std.specs.Prelude.{◌≡◌, ◌<◌, ◌≤◌, All, List, IfOk};
ghost use Rattle.clause_store.specs.Stored.{AllFalse};
ghost use Rattle.clause_store.specs.Found.{HasKept};
ghost use Rattle.conflict_learn.specs.Learning.{IsKeptId};

use cdcl_core::forget::{Forgetting, tidy};
use clause_store::store::{Outcome, Store};
use clause_store::trail::Status;
use conflict_learn::{Learner, Learnt};
use literals::Literal;
use search_order::Order;
use std::alloc::{AllocError, Global};
use std::io;
use std::io::Read;

fn first_waiting(order: &mut Order, store: &Store) -> Option<Literal> {
    for _ in 0..order.waiting() {
        let Some(literal) = order.take() else {
            return None;
        };
        if literal.atom() < store.atoms() {
            if let Status::Open = store.status(literal) {
                return Some(literal);
            }
        }
    }
    None
}

fn decide(store: &mut Store, literal: Literal) {
    if literal.atom() >= store.atoms() || store.depth() == u32::MAX {
        return;
    }
    if let Status::Open = store.status(literal) {
        store.decide(literal);
    }
}

fn release(order: &mut Order, store: &Store, depth: u32) {
    for step in store.steps().iter().rev() {
        if step.depth <= depth {
            return;
        }
        order.release(step.literal);
    }
}

fn undo(order: &mut Order, store: &mut Store, depth: u32) {
    if depth <= store.depth() {
        release(order, store, depth);
        store.undo_to(depth);
    }
}

fn add(store: &mut Store, literals: &[Literal], level: u16) -> Result<u64, AllocError> {
    let atoms = store.atoms();
    if !literals.iter().all(|l| l.atom() < atoms) {
        return Err(AllocError);
    }
    store.add(literals, level)
}

fn raise_atoms(order: &mut Order, literals: &[Literal]) {
    for literal in literals {
        order.raise(literal.atom());
    }
}

fn raise_clause(order: &mut Order, store: &mut Store, id: u64) {
    if store.is_kept(id) {
        let looked = store.look(id);
        raise_atoms(order, store.literals(looked));
    }
}

fn raise_reason(order: &mut Order, store: &mut Store, literal: Literal) {
    if literal.atom() >= store.atoms() {
        return;
    }
    if let Status::False = store.status(literal) {
        let place = store.place(literal.negated());
        if let Some(id) = store.steps()[place].reason {
            raise_clause(order, store, id);
        }
    }
}

fn raise_premises(order: &mut Order, learner: &Learner, store: &mut Store) {
    order.begin_conflict();
    for id in learner.premises() {
        raise_clause(order, store, *id);
        let _noted = order.note_use(*id).is_ok();
    }
    for literal in learner.literals() {
        raise_reason(order, store, *literal);
    }
}

#[derive(Clone, Copy)]
enum Next {
    GoOn,
    Sat,
    Unsat,
}

#[derive(Clone, Copy)]
struct Plan {
    alloc: Global,
    forgetting: Forgetting,
}

fn learn(
    plan: Plan,
    order: &mut Order,
    store: &mut Store,
    learner: &mut Learner,
    id: u64,
) -> Result<Next, AllocError>
    requires { HasKept store.old.clauses id (AllFalse store.old.trail.steps) }
{
    match learner.learn(store, id)? {
        Learnt::Empty { level: _level } => Ok(Next::Unsat),
        Learnt::Clause { level, back_to } => {
            raise_premises(order, learner, store);
            undo(order, store, back_to);
            let new = add(store, learner.literals(), level)?;
            order.note_use(new)?;
            if order.forgets() {
                tidy(plan.alloc, order, store, plan.forgetting, plan.forgetting.allowed);
            }
            if order.restarts() {
                undo(order, store, 0);
            }
            Ok(Next::GoOn)
        }
    }
}

fn turn(plan: Plan, order: &mut Order, store: &mut Store, learner: &mut Learner) -> Result<Next, AllocError> {
    match store.propagate() {
        Outcome::False(id) => learn(plan, order, store, learner, id),
        Outcome::Fixpoint => match first_waiting(order, store) {
            None => Ok(Next::Sat),
            Some(literal) => {
                decide(store, literal);
                Ok(Next::GoOn)
            }
        },
    }
}

fn search(store: &mut Store, alloc: Global, may_forget: bool) -> Result<(Next, u64), AllocError> {
    let plan = Plan {
        alloc,
        forgetting: Forgetting {
            first: store.next_id(),
            allowed: may_forget,
        },
    };
    let mut order = Order::new(alloc, 0, u8::from(may_forget));
    order.grow(store.atoms())?;
    order.refill();
    let mut learner = Learner::new(alloc);
    for _ in 0..u64::MAX {
        match turn(plan, &mut order, store, &mut learner)? {
            Next::GoOn => {}
            other => return Ok((other, store.next_id().saturating_sub(plan.forgetting.first))),
        }
    }
    Ok((Next::GoOn, 0))
}

fn literal_of(word: &str) -> Option<Literal> {
    let n = word.parse::<i32>().ok()?;
    if n == 0 || n > 1_000_000 || n < -1_000_000 {
        return None;
    }
    let positive = n > 0;
    let atom = n.unsigned_abs();
    Some(Literal::new(atom % 1_000_001, positive))
}

fn read_line(store: &mut Store, line: &str, literals: &mut Vec<Literal>) -> Result<(), AllocError> {
    literals.clear();
    for word in line.split_ascii_whitespace() {
        match literal_of(word) {
            None => {}
            Some(literal) => {
                literals.push(literal)?;
            }
        }
    }
    if literals.is_empty() {
        return Ok(());
    }
    add(store, literals, 0)?;
    Ok(())
}

fn read(store: &mut Store, text: &str, alloc: Global) -> Result<(), AllocError> {
    let mut literals = Vec::new(alloc);
    for line in text.lines() {
        if !line.starts_with("p") && !line.starts_with("c") {
            read_line(store, line, &mut literals)?;
        }
    }
    Ok(())
}

fn main(rt: HostRuntime) -> io::Result<()> {
    let mut text = String::new(rt.alloc());
    rt.stdin().read_to_string(&mut text)?;
    let may_forget = text.starts_with("c forget");
    let mut store = Store::new(rt.alloc());
    store.reserve(20_000)?;
    read(&mut store, &text, rt.alloc())?;
    let (next, learnt) = search(&mut store, rt.alloc(), may_forget)?;
    match next {
        Next::Sat => println!(rt; "sat")?,
        Next::Unsat => println!(rt; "unsat")?,
        Next::GoOn => println!(rt; "none")?,
    }
    println!(rt; "learnt {learnt} looks {}", store.looks())?;
    Ok(())
}
END
cd "$folder/crates/dimacs_search"
rt run > build.log 2>&1 < /dev/null || { tail -n 20 build.log >&2; exit 1; }
cd "$folder"
python3 - << 'END'
import random

def write(name, count, clauses):
    with open(f"{name}.cnf", "w") as out:
        out.write(f"p cnf {count} {len(clauses)}\n")
        for clause in clauses:
            out.write(" ".join(map(str, clause)) + " 0\n")

# holes + 1 pigeons, each in one hole, no two in one
def pigeons(holes):
    place = lambda i, j: i * holes + j + 1
    clauses = [[place(i, j) for j in range(holes)] for i in range(holes + 1)]
    for j in range(holes):
        for i in range(holes + 1):
            for k in range(i + 1, holes + 1):
                clauses.append([-place(i, j), -place(k, j)])
    return (holes + 1) * holes, clauses

def random_clauses(count, ratio, seed):
    draw = random.Random(seed)
    clauses = []
    for _ in range(int(count * ratio)):
        atoms = draw.sample(range(1, count + 1), 3)
        clauses.append([a if draw.random() < 0.5 else -a for a in atoms])
    return count, clauses

for holes in 8, 9:
    write(f"pigeons-{holes}", *pigeons(holes))
for count, seed in (200, 1), (212, 2), (224, 5), (236, 6), (236, 7), (248, 8):
    write(f"random-{count}-{seed}", *random_clauses(count, 4.26, seed))
END
# its seconds of processor time, and what it says it learnt
measure() {
    local name=$1
    shift
    /usr/bin/time -f '%U' -o figures timeout "$limit" "$@" < input > said 2> /dev/null || true
    learnt=$(grep -oE '^(learnt|conflicts +:) *[0-9]+' said | grep -oE '[0-9]+' || true)
    line+=" | $name $(tail -n 1 figures) s, ${learnt:-no} conflicts"
}
for file in *.cnf; do
    line=${file%.cnf}
    cat "$file" > input
    measure keeps crates/dimacs_search/out/dimacs_search
    { echo 'c forget'; cat "$file"; } > input
    measure forgets crates/dimacs_search/out/dimacs_search
    if command -v minisat > /dev/null; then
        measure minisat minisat -verb=1 "$file"
    fi
    echo "$line"
done
