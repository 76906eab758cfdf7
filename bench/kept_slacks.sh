#!/usr/bin/env bash
# What an assignment costs in a problem of 100,000 terms, against one of a tenth of its size in which each literal stands
# as often: the ratio is near 1 where the cost is that of the literal's occurrences alone. Times are compared within one
# run only. The program is built anew in a temporary folder and is not proved.
set -eu
top=$(dirname -- "$(dirname -- "$(readlink -f -- "$0")")")
work=$(mktemp -d)
trap 'rm -rf "$work"' EXIT
mkdir -p "$work/crates/bench_kept/src"
cp -r "$top/crates/osgi_version" "$top/crates/pb_core" "$work/crates/"
rm -rf "$work"/crates/*/must-fail
printf 'osgi_version: thiserror\npb_core: osgi_version\nbench_kept: osgi_version pb_core\n' > "$work/crates.txt"
cat > "$work/crates/bench_kept/src/main.rt" <<'PROGRAM'
#![tactic(auto)]

use osgi_version::{List, NoMemory, Text};
use pb_core::{Kept, Lit, Problem, Steps};
use std::alloc::Global;
use std::io;
use std::marker::Brand;
use std::sync::ledger::Blank;
use std::time::Instant;

/// Clauses of two literals, four for each variable.
fn kept_of(alloc: Global, variables: u32) -> Result<Kept, NoMemory> {
    let mut labels = List::new(alloc);
    for _ in 0..variables {
        labels.push(Text::from_str(alloc, "x")?)?;
    }
    let constraints = List::new(alloc);
    let mut kept = Kept::new(alloc, &Problem { labels, constraints })?;
    for variable in 1..variables - 4 {
        for next in 1..5u32 {
            let mut clause = List::new(alloc);
            clause.push(Lit { variable, positive: false })?;
            clause.push(Lit { variable: variable + next, positive: true })?;
            kept.add(&clause)?;
        }
    }
    Ok(kept)
}

/// Assigns and clears a thousand variables, many times over.
fn turn(kept: &mut Kept, steps: &mut Steps<Brand>) {
    for _ in 0..200u32 {
        for variable in 1..1001u32 {
            kept.assign(Lit { variable, positive: true }, steps);
        }
        for variable in 1..1001u32 {
            kept.clear(variable, steps);
        }
    }
}

fn main(rt: HostRuntime) -> io::Result<()> {
    let mut steps = Steps::<Brand>::new(Blank::new(1));
    let Ok(mut small) = kept_of(rt.alloc(), 1254) else {
        return println!(rt; "no memory");
    };
    let Ok(mut large) = kept_of(rt.alloc(), 12504) else {
        return println!(rt; "no memory");
    };
    let start = Instant::now(&rt)?;
    turn(&mut small, &mut steps);
    let first = start.elapsed(&rt)?;
    let start = Instant::now(&rt)?;
    turn(&mut large, &mut steps);
    let second = start.elapsed(&rt)?;
    let percent = second.as_micros() as u64 * 100 / (first.as_micros() as u64 + 1);
    println!(rt; "an assignment among {} constraints costs {percent} % of one among {}", large.len(), small.len())
}
PROGRAM
cd "$work/crates/bench_kept"
rt try 2>&1 | grep '^an assignment'
