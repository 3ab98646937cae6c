#!/usr/bin/env bash
# The time and the peak memory of reading a script of 10 MB, and of keeping its s-expressions or copies of them.
# It writes a program over copies of the libraries into a temporary folder, and builds it there with `rt run`.
# Use: bench/reading.sh, at the top of the repository; quicker once the libraries are checked there.
set -eu
folder=$(mktemp -d)
trap 'rm -rf "$folder"' EXIT
libraries='fraction128 smt_meaning smt_reader'
mkdir -p "$folder/crates/kept_expressions/src"
for library in $libraries; do
    cp -a "crates/$library" "$folder/crates/"
    grep "^$library:" crates.txt >> "$folder/crates.txt"
done
echo 'kept_expressions: smt_meaning smt_reader' >> "$folder/crates.txt"
cat > "$folder/crates/kept_expressions/src/main.rt" << 'END'
//! Reads the s-expressions of a script that it makes, and keeps some.
//! Each word, the program's own name among them, picks what is done: with `made` nothing is read, with `read` nothing is kept, with `kept` all, and with `copied` a copy of each.
#![tactic(auto)]

use smt_meaning::SExpr;
use smt_reader::{Next, Reader};
use std::alloc::Global;
use std::env;
use std::io;

fn script(alloc: Global) -> Option<Vec<u8>> {
    let line = b"(assert (=> (and (= (f x1) y2) (< (+ x1 10) z)) (not (g x1 (f y2)))))\n".as_slice();
    let mut text = Vec::new(alloc);
    for _ in 0..142_857 {
        if text.extend_from_slice(line).is_err() {
            return None;
        }
    }
    Some(text)
}

fn keep(alloc: Global, word: &str, sexpr: SExpr, kept: &mut Vec<SExpr>) -> Option<()> {
    if word == "kept" {
        return kept.push(sexpr).ok();
    }
    if word == "copied" {
        return match sexpr.copy(alloc) {
            Ok(copy) => kept.push(copy).ok(),
            Err(_) => None,
        };
    }
    Some(())
}

fn read(alloc: Global, word: &str, text: &[u8]) -> Option<usize> {
    let mut reader = Reader::new(alloc);
    if reader.feed(text).is_err() {
        return None;
    }
    reader.finish();
    let mut kept = Vec::new(alloc);
    for count in 0..u32::MAX {
        match reader.next(alloc) {
            Ok(Next::Ready(sexpr)) => keep(alloc, word, sexpr, &mut kept)?,
            Ok(_) => return Some(count as usize + kept.len()),
            Err(_) => return None,
        }
    }
    None
}

fn work(alloc: Global, word: &str) -> Option<usize> {
    let text = script(alloc)?;
    if word == "made" {
        return Some(text.len());
    }
    read(alloc, word, text.as_slice())
}

fn main(rt: HostRuntime) -> io::Result<()> {
    for word in env::args(&rt)? {
        match work(rt.alloc(), word.as_str()) {
            Some(n) => println!(rt; "{word}: {n}")?,
            None => println!(rt; "{word}: nothing")?,
        }
    }
    Ok(())
}
END
cd "$folder/crates/kept_expressions"
rt run > build.log 2>&1 || { tail -n 20 build.log >&2; exit 1; }
echo '| work | seconds of the processor | MB at most |'
echo '|---|---|---|'
# The program goes by the name of the work.
for work in made read kept copied; do
    /usr/bin/time -f '%U %S %M' -o figures bash -c 'exec -a "$0" out/kept_expressions' "$work" > /dev/null
    tail -n 1 figures | awk -v work="$work" '{ printf "| %s | %.2f | %d |\n", work, $1 + $2, $3 / 1024 }'
done
