#!/usr/bin/env bash
# What it costs to read, check and write a derivation of 50,000 lines, against one of a tenth of them: the ratios are at
# most near 1000 % where each call takes time in line with the text. Times are compared within one run only. The program is built
# anew in a temporary folder and is not proved.
set -eu
top=$(dirname -- "$(dirname -- "$(readlink -f -- "$0")")")
work=$(mktemp -d)
trap 'rm -rf "$work"' EXIT
mkdir -p "$work/crates/bench_evidence/src"
cp -r "$top/crates/osgi_version" "$top/crates/pb_core" "$top/crates/deriv_check" "$work/crates/"
rm -rf "$work"/crates/*/must-fail
printf 'osgi_version: thiserror\npb_core: osgi_version\nderiv_check: osgi_version pb_core thiserror\nbench_evidence: osgi_version pb_core deriv_check\n' > "$work/crates.txt"
cat > "$work/crates/bench_evidence/src/main.rt" <<'PROGRAM'
#![tactic(auto)]

use deriv_check::{CheckFault, Evidence, check, read_evidence, write_evidence};
use osgi_version::NoMemory;
use std::alloc::Global;
use std::io;
use std::time::Instant;

/// A chain of implications, each of which is derived from the one before: line k says that variable 1 implies k + 1.
fn text_of(alloc: Global, lines: u32) -> Result<Vec<u8>, NoMemory> {
    let variables = lines + 1;
    let mut text = format!(in alloc; "problem {variables} {lines}\n")?.into_bytes();
    for variable in 1..variables + 1 {
        text.extend_from_slice(format!(in alloc; "v x/{variable}\n")?.as_bytes())?;
    }
    for variable in 1..lines + 1 {
        let next = variable + 1;
        text.extend_from_slice(format!(in alloc; "c need:{variable}:1 1 1:-{variable} 1:{next}\n")?.as_bytes())?;
    }
    text.extend_from_slice(format!(in alloc; "derivation {lines}\n")?.as_bytes())?;
    text.extend_from_slice(b"l -1 2 ; 1\n")?;
    for line in 2..lines + 1 {
        let next = line + 1;
        let before = lines + line - 1;
        text.extend_from_slice(format!(in alloc; "l -1 {next} ; {before} {line}\n")?.as_bytes())?;
    }
    Ok(text)
}

/// Microseconds to read, to check and to write.
fn times(rt: &HostRuntime, lines: u32) -> io::Result<Option<(u64, u64, u64)>> {
    let Ok(text) = text_of(rt.alloc(), lines) else {
        return Ok(None);
    };
    let start = Instant::now(rt)?;
    let Ok(evidence) = read_evidence(rt.alloc(), &text) else {
        return Ok(None);
    };
    let read = start.elapsed(rt)?.as_micros() as u64;
    let start = Instant::now(rt)?;
    let Ok(_) = check(rt.alloc(), &evidence.problem, &evidence.derivation) else {
        return Ok(None);
    };
    let checked = start.elapsed(rt)?.as_micros() as u64;
    let start = Instant::now(rt)?;
    let Ok(again) = write_evidence(rt.alloc(), &evidence) else {
        return Ok(None);
    };
    let written = start.elapsed(rt)?.as_micros() as u64;
    if again.bytes() != text.as_slice() {
        return Ok(None);
    }
    Ok(Some((read, checked, written)))
}

fn main(rt: HostRuntime) -> io::Result<()> {
    let (Some(small), Some(large)) = (times(&rt, 5_000)?, times(&rt, 50_000)?) else {
        return println!(rt; "no evidence");
    };
    let read = large.0 * 100 / (small.0 + 1);
    let checked = large.1 * 100 / (small.1 + 1);
    let written = large.2 * 100 / (small.2 + 1);
    println!(rt; "ten times the lines: reading {read} %, checking {checked} %, writing {written} %")
}
PROGRAM
cd "$work/crates/bench_evidence"
rt try --steps 100000000000 --seconds 900 2>&1 | grep '^ten times\|^no evidence\|error'
