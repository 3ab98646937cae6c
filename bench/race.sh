#!/usr/bin/env bash
# The time of a share and of a batch over a race's pool, where no other pass has it.
# It writes a program over copies of the libraries into a temporary folder, and builds it there with `rt run`.
# Use: bench/race.sh, at the top of the repository; quicker once the libraries are checked there.
set -eu
folder=$(mktemp -d)
trap 'rm -rf "$folder"' EXIT
libraries='fraction128 smt_meaning smt_laws race_model lemma_pool race_cell'
program="$folder/crates/timed_race"
mkdir -p "$program/src" "$program/specs" "$program/proofs"
for library in $libraries; do
    cp -a "crates/$library" "$folder/crates/"
    grep "^$library:" crates.txt >> "$folder/crates.txt"
done
echo 'timed_race: smt_meaning race_model lemma_pool race_cell atomic_table' >> "$folder/crates.txt"
cat > "$program/src/main.rt" << 'END'
//! Shares clauses and takes batches in one thread, and writes the nanoseconds of each: of 5,000 rounds the quickest.
#![tactic(auto)]

ghost use Rattle.std.specs.Prelude.{◌≡◌, IfOk};
ghost use Rattle.timed_race.specs.Levels.{IsReady, true_at, two_levels};

use lemma_pool::Pool;
use race_cell::{Batch, Pass, Race, Sharing};
use race_model::{Framed, Shelf};
use smt_meaning::{Atom, Clause, Literal, Seq};
use std::alloc::{AllocError, Global};
use std::io;
use std::time::Instant;

/// Shares, empty batches and clauses a round.
const COUNT: u32 = 1_000;

/// The nanoseconds of a round's parts.
#[derive(Clone, Copy, Drop)]
struct Times {
    making: u128,
    sharing: u128,
    one_batch: u128,
    empty_batches: u128,
    done: u64,
}

/// A stack of two empty levels.
#[derive(Drop)]
struct Empty;

impl Framed for Empty {
    ghost use Rattle.timed_race.specs.Levels.{two_levels};

    ghost base = { λ _. two_levels };
}

/// The clause `0 <= 0`, at a level.
fn true_clause(alloc: Global, level: u16) -> Result<Clause, AllocError>
    ensures { IfOk result (λ c. c ≡ true_at level) }
{
    let mut literals = Vec::new(alloc);
    literals.push(Literal {
        atom: Atom::AtMost(Seq::new(alloc), 0),
        positive: true,
    })?;
    Ok(Clause {
        literals: Seq::from_vec(literals),
        level,
    })
}

/// An empty pool over those levels.
fn pool_of_two(alloc: Global) -> Pool<Empty>
    ensures { (⟦<Pool<Empty> as Shelf>⟧.state result).base ≡ two_levels }
{
    let mut pool = Pool::new(alloc, &Empty);
    pool.follow(&Empty, 2);
    pool
}

/// Shares a true clause of level 0. 1 where it stands in the pool now, and 0 where it doesn't.
fn share_one(alloc: Global, race: &Race<Pool<Empty>>, pass: &mut Pass<Pool<Empty>>) -> u64
    requires { IsReady race.now.table.shared.table_id pass.old }
    ensures { IsReady race.now.table.shared.table_id pass.new }
{
    let Ok(clause) = true_clause(alloc, 0) else {
        return 0;
    };
    match race.share(pass, clause) {
        Sharing::Shared(_) => 1,
        _ => 0,
    }
}

/// Takes a batch. The number of its entries.
fn take_some(race: &Race<Pool<Empty>>, pass: &mut Pass<Pool<Empty>>) -> u64
    requires { IsReady race.now.table.shared.table_id pass.old }
    ensures { IsReady race.now.table.shared.table_id pass.new }
{
    match race.take_batch(pass) {
        Batch::Batch(batch) => batch.len() as u64,
        _ => 0,
    }
}

fn make_many(alloc: Global) -> u64 {
    let mut made = 0u64;
    for _ in 0..COUNT {
        if true_clause(alloc, 0).is_ok() {
            made = made.saturating_add(1);
        }
    }
    made
}

fn share_many(alloc: Global, race: &Race<Pool<Empty>>, pass: &mut Pass<Pool<Empty>>) -> u64
    requires { IsReady race.now.table.shared.table_id pass.old }
    ensures { IsReady race.now.table.shared.table_id pass.new }
{
    let mut shared = 0u64;
    for _ in 0..COUNT {
        shared = shared.saturating_add(share_one(alloc, race, pass));
    }
    shared
}

fn take_many(race: &Race<Pool<Empty>>, pass: &mut Pass<Pool<Empty>>) -> u64
    requires { IsReady race.now.table.shared.table_id pass.old }
    ensures { IsReady race.now.table.shared.table_id pass.new }
{
    let mut taken = 0u64;
    for _ in 0..COUNT {
        taken = taken.saturating_add(take_some(race, pass));
    }
    taken
}

fn round(rt: &HostRuntime) -> io::Result<Option<Times>> {
    let alloc = rt.alloc();
    let mut pool = pool_of_two(alloc);
    let roomy = pool.reserve(COUNT as u64).is_ok();
    let Ok((race, mut passes)) = Race::start(alloc, pool, 1) else {
        return Ok(None);
    };
    let Some(mut pass) = passes.pop() else {
        return Ok(None);
    };
    let start = Instant::now(rt)?;
    let made = make_many(alloc);
    let making = start.elapsed(rt)?.as_nanos();
    let start = Instant::now(rt)?;
    let shared = share_many(alloc, &race, &mut pass);
    let sharing = start.elapsed(rt)?.as_nanos();
    let start = Instant::now(rt)?;
    let taken = take_some(&race, &mut pass);
    let one_batch = start.elapsed(rt)?.as_nanos();
    let start = Instant::now(rt)?;
    let more = take_many(&race, &mut pass);
    let empty_batches = start.elapsed(rt)?.as_nanos();
    let done = if roomy && made == shared && shared == taken && more == 0 {
        shared
    } else {
        0
    };
    Ok(Some(Times {
        making,
        sharing,
        one_batch,
        empty_batches,
        done,
    }))
}

fn least(one: Times, other: Times) -> Times {
    Times {
        making: one.making.min(other.making),
        sharing: one.sharing.min(other.sharing),
        one_batch: one.one_batch.min(other.one_batch),
        empty_batches: one.empty_batches.min(other.empty_batches),
        done: one.done.min(other.done),
    }
}

fn main(rt: HostRuntime) -> io::Result<()> {
    let Some(mut times) = round(&rt)? else {
        return Ok(());
    };
    for _ in 1..5_000 {
        if let Some(next) = round(&rt)? {
            times = least(times, next);
        }
    }
    let count = COUNT as u128;
    println!(rt; "| shared and taken a round | {} |", times.done)?;
    println!(rt; "| a clause made and let go | {} |", times.making / count)?;
    println!(rt; "| a clause made and shared | {} |", times.sharing / count)?;
    println!(rt; "| a batch without entries | {} |", times.empty_batches / count)?;
    println!(rt; "| an entry of a batch, copied and let go | {} |", times.one_batch / count)?;
    Ok(())
}
END
echo 'pub mod Levels' > "$program/specs/Lib.antt"
cat > "$program/specs/Levels.antt" << 'END'
-- Two empty levels, a clause that is always true, and what the calls keep of a pass.
use Rattle.std.specs.Prelude.{ℕ, ◌≡◌, true, [], ◌∷◌, pos}
use Rattle.atomic_table.specs.Seated.{TableId}
use Rattle.smt_meaning.specs.declared.clauses.Atom.TheVariants.{AtMost}
use Rattle.smt_meaning.specs.declared.clauses.Clause.{Clause}
use Rattle.smt_meaning.specs.Stack.{empty_frame}
use Rattle.race_model.specs.Base.{Base}
use Rattle.race_model.specs.declared.shelf.Shelf.{Ghosts}
use Rattle.race_cell.specs.declared.race.Pass.{Pass}
use Rattle.race_cell.specs.Passes.{base_of}

abbrev pub two_levels : Base
two_levels = record { trees = []; frames = empty_frame ∷ empty_frame ∷ [] }

-- 0 is at most 0
abbrev pub true_at : ℕ → Clause
true_at l = record { literals = record { atom = AtMost [] (pos 0); positive = true } ∷ []; level = l }

-- a pass of this race, over the two levels
abbrev pub IsReady : {S : Type 0} {G : Ghosts S} → TableId → Pass S G → Type 0
IsReady {S} {G} z p = (p.seat.table_id ≡ z) × ((base_of G.state p).base ≡ two_levels)
END
echo 'pub mod Sound' > "$program/proofs/Lib.antt"
cat > "$program/proofs/Sound.antt" << 'END'
-- The clause that is always true follows from any levels.
use Rattle.std.proofs.Common.{◌≡◌, ℕ, ◌<◌, length, refl, subst, sym}
use Rattle.std.proofs.lemmas.List.Elements.{All-nil}
use Rattle.smt_meaning.specs.Follows.{follows}
use Rattle.smt_meaning.specs.declared.clauses.Clause.{Clause}
use Rattle.race_model.specs.Base.{Base}
use Rattle.race_model.specs.Laws.{IsSound}
use Rattle.timed_race.specs.Levels.{true_at}

pub sound_at : (b : Base) (l : ℕ) → l < length b.frames → IsSound b (true_at l)
sound_at b l lt = record {
  follows = follows b.trees b.frames l (true_at l) (record {
    true_wherever = λ I i h. refl;
    declared = All-nil _;
    within = All-nil _;
  });
  within = lt;
}

pub sound_clause : (b : Base) (l : ℕ) (c : Clause) → c ≡ true_at l → l < length b.frames → IsSound b c
sound_clause b l c e lt = subst (IsSound b) (sym e) (sound_at b l lt)
END
mkdir -p "$program/proofs/pool_of_two" "$program/proofs/share_one"
cat > "$program/proofs/pool_of_two/Answers.antt" << 'END'
use Rattle.std.proofs.Common.{[], ◌∷◌, refl, subst, sym, ap}
use Rattle.race_model.specs.Base.{Base}
use Rattle.race_model.specs.Shelves.{ShelfState}
use Rattle.lemma_pool.specs.Pools.{Grows, levels}
use Rattle.timed_race.specs.Levels.{two_levels}
use Rattle.timed_race.proofs.pool_of_two.Goals as goal

pub follow-requires-clause-grows : goal.follow-requires-clause-grows
follow-requires-clause-grows c =
    subst (λ (b : Base). Grows b two_levels) (sym (ap (λ (s : ShelfState). s.base) c.new-pool.ensures))
    (record { steps = levels 2 ∷ []; frames = refl; more = []; trees = refl })
END
cat > "$program/proofs/share_one/Answers.antt" << 'END'
use Rattle.std.proofs.Common.{subst, sym, arith}
use Rattle.race_model.specs.Base.{Base}
use Rattle.race_model.specs.Laws.{IsSound}
use Rattle.timed_race.specs.Levels.{two_levels}
use Rattle.timed_race.proofs.Sound.{sound_clause}
use Rattle.timed_race.proofs.share_one.Goals as goal

pub share-requires-clause-follows : goal.share-requires-clause-follows
share-requires-clause-follows c =
    subst (λ (b : Base). IsSound b c.in-Ok.clause) (sym c.requires.1) (sound_clause two_levels 0 c.in-Ok.clause c.in-Ok.ensures (omega arith))
END
for function in share_many take_many; do
    mkdir -p "$program/proofs/$function"
    cat > "$program/proofs/$function/Invariants.antt" << END
use Rattle.timed_race.specs.Levels.{IsReady}
use Rattle.timed_race.proofs.$function.Given as goal

abbrev pub invariant-loop : goal.invariant-loop
invariant-loop l = IsReady l.race.table.shared.table_id l.pass
END
done
cd "$program"
rt run > build.log 2>&1 || { tail -n 40 build.log >&2; exit 1; }
echo '| work | nanoseconds |'
echo '|---|---|'
out/timed_race
