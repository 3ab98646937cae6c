#!/usr/bin/env bash
# The time and the peak memory of interning and evaluating a million nodes, and of 100,000 look-ups in a table of as many rows.
# It writes a program over copies of the libraries into a temporary folder, and builds it there with `rt run`.
# Use: bench/evaluation.sh, at the top of the repository; quicker once the libraries are checked there.
set -eu
folder=$(mktemp -d)
trap 'rm -rf "$folder"' EXIT
libraries='fraction128 smt_meaning smt_laws term_store model_eval'
mkdir -p "$folder/crates/evaluated_nodes/src"
for library in $libraries; do
    cp -a "crates/$library" "$folder/crates/"
    grep "^$library:" crates.txt >> "$folder/crates.txt"
done
echo 'evaluated_nodes: smt_meaning term_store model_eval' >> "$folder/crates.txt"
cat > "$folder/crates/evaluated_nodes/src/main.rt" << 'END'
//! Interns nodes, and evaluates all of them: half a million sums and as many numerals, or 100,000 calls of a function with as many rows.
//! Each word, the program's own name among them, picks what is done: `sums` or `rows`, or `sums-interned` or `rows-interned`, where nothing is evaluated.
#![tactic(auto)]

use model_eval::values;
use smt_meaning::Value::Whole;
use smt_meaning::{Head, Interp, Operator, Row, Seq, Table, TermId};
use std::alloc::Global;
use std::env;
use std::io;
use term_store::TermStore;

/// What is kept while nodes are added.
#[derive(Drop)]
struct Nodes {
    store: TermStore,
    terms: Vec<TermId>,
}

fn intern(nodes: &mut Nodes, head: Head, arguments: &[TermId]) -> Option<TermId> {
    let count = nodes.store.len();
    if !arguments.iter().all(|i| *i < count) {
        return None;
    }
    match nodes.store.intern(head, arguments) {
        Ok(id) => {
            if nodes.terms.push(id).is_err() {
                return None;
            }
            Some(id)
        }
        Err(_) => None,
    }
}

/// A sum of the numbers from 1, a node for each number and one for each partial sum.
fn add_sums(nodes: &mut Nodes, count: u32) -> Option<()> {
    let mut sum = intern(nodes, Head::Numeral(0), &[])?;
    for i in 1..count {
        let number = intern(nodes, Head::Numeral(i as i128), &[])?;
        sum = intern(nodes, Head::Theory(Operator::Add), &[sum, number])?;
    }
    Some(())
}

/// A function at each of the numbers.
fn add_calls(nodes: &mut Nodes, count: u32) -> Option<()> {
    for i in 0..count {
        let number = intern(nodes, Head::Numeral(i as i128), &[])?;
        let _ = intern(nodes, Head::Symbol(4), &[number])?;
    }
    Some(())
}

/// The rows of a function at each of the numbers.
fn rows_of(alloc: Global, count: u32) -> Option<Seq<Row>> {
    let mut rows = Seq::new(alloc);
    for i in 0..count {
        let mut arguments = Seq::new(alloc);
        if arguments.push(Whole(i as i128)).is_err() {
            return None;
        }
        let row = Row {
            arguments,
            value: Whole(i as i128 + 1),
        };
        if rows.push(row).is_err() {
            return None;
        }
    }
    Some(rows)
}

fn interp_of(alloc: Global, count: u32) -> Option<Interp> {
    let rows = rows_of(alloc, count)?;
    let mut interp = Seq::new(alloc);
    let table = Table {
        symbol: 4,
        rows,
        default: Whole(0),
    };
    if interp.push(table).is_err() {
        return None;
    }
    Some(interp)
}

/// The last value.
fn last_value(alloc: Global, interp: &Interp, nodes: &Nodes) -> Option<i128> {
    let count = nodes.store.len();
    if !nodes.terms.iter().all(|i| *i < count) {
        return None;
    }
    match values(alloc, interp, &nodes.store, &nodes.terms) {
        Ok(found) => match found.as_slice().last() {
            Some(Whole(n)) => Some(*n),
            _ => None,
        },
        Err(_) => None,
    }
}

fn work(alloc: Global, word: &str) -> Option<i128> {
    let mut nodes = Nodes {
        store: TermStore::new(alloc, u32::MAX),
        terms: Vec::new(alloc),
    };
    let sums = word == "sums" || word == "sums-interned";
    let interp = interp_of(alloc, if sums { 0 } else { 100_000 })?;
    if sums {
        add_sums(&mut nodes, 500_001)?;
    } else {
        add_calls(&mut nodes, 100_000)?;
    }
    if word == "sums-interned" || word == "rows-interned" {
        return Some(nodes.store.len() as i128);
    }
    last_value(alloc, &interp, &nodes)
}

fn main(rt: HostRuntime) -> io::Result<()> {
    for word in env::args(&rt)? {
        match work(rt.alloc(), word.as_str()) {
            Some(n) => println!(rt; "{word}: {n}")?,
            None => println!(rt; "{word}: nothing")?,
        }
    }
    Ok(())
}
END
cd "$folder/crates/evaluated_nodes"
rt run > build.log 2>&1 || { tail -n 20 build.log >&2; exit 1; }
echo '| work | seconds of the processor | MB at most |'
echo '|---|---|---|'
# The program goes by the name of the work.
for work in sums-interned sums rows-interned rows; do
    /usr/bin/time -f '%U %S %M' -o figures bash -c 'exec -a "$0" out/evaluated_nodes' "$work" > /dev/null
    tail -n 1 figures | awk -v work="$work" '{ printf "| %s | %.2f | %d |\n", work, $1 + $2, $3 / 1024 }'
done
