#!/usr/bin/env bash
# What encoding 8,000 members costs against 800: five versions of each id, singletons, and two requirements of each, that
# five units answer. Per member both cost about the same. Times are compared within one run only. The program is built
# anew in a temporary folder and is not proved.
set -eu
top=$(dirname -- "$(dirname -- "$(readlink -f -- "$0")")")
work=$(mktemp -d)
trap 'rm -rf "$work"' EXIT
mkdir -p "$work/crates/bench_encode/src"
for name in osgi_version ldap_filter unit_model unit_catalog pb_core pb_rows pb_encode; do
    cp -r "$top/crates/$name" "$work/crates/"
    grep "^$name:" "$top/crates.txt" >> "$work/crates.txt"
done
rm -rf "$work"/crates/*/must-fail "$work"/crates/*/out
echo 'bench_encode: osgi_version ldap_filter unit_model unit_catalog pb_core pb_encode' >> "$work/crates.txt"
cat > "$work/crates/bench_encode/src/main.rt" <<'PROGRAM'
#![tactic(auto)]

use ldap_filter::Env;
use osgi_version::{List, NoMemory, Range, Text, Version};
use pb_encode::encode;
use std::alloc::Global;
use std::io;
use std::time::Instant;
use unit_catalog::Catalog;
use unit_model::{Provided, Required, Unit, UnitName, Update};

fn version(alloc: Global, number: u32) -> Result<Version, NoMemory> {
    let text = format!(in alloc; "{number}.0.0")?;
    Version::parse(alloc, text.as_bytes()).map_err(|_| NoMemory)
}

fn any(alloc: Global) -> Result<Range, NoMemory> {
    Range::parse(alloc, b"0.0.0").map_err(|_| NoMemory)
}

/// Numbers of six digits, so that the order of the texts is theirs.
fn numbered(alloc: Global, letter: &str, number: u32) -> Result<Text, NoMemory> {
    let text = format!(in alloc; "{letter}{}", 100_000 + number)?;
    Text::from_str(alloc, text.as_str())
}

fn provided(alloc: Global, namespace: &str, letter: &str, number: u32, release: u32) -> Result<Provided, NoMemory> {
    Ok(Provided {
        namespace: Text::from_str(alloc, namespace)?,
        name: numbered(alloc, letter, number)?,
        version: version(alloc, release)?,
    })
}

fn required(alloc: Global, letter: &str, number: u32) -> Result<Required, NoMemory> {
    Ok(Required {
        namespace: Text::from_str(alloc, "n")?,
        name: numbered(alloc, letter, number)?,
        range: any(alloc)?,
        filter: None,
        min: 1,
        max: u32::MAX,
        greedy: true,
    })
}

/// A singleton that provides itself and two capabilities, and requires two of the next id.
fn unit(alloc: Global, number: u32, release: u32) -> Result<Unit, NoMemory> {
    let mut provides = List::new(alloc);
    provides.push(provided(alloc, "org.eclipse.equinox.p2.iu", "u", number, release)?)?;
    let mut needs = List::new(alloc);
    for letter in ["a", "b"] {
        provides.push(provided(alloc, "n", letter, number, release)?)?;
        needs.push(required(alloc, letter, number + 1)?)?;
    }
    Ok(Unit {
        name: UnitName { id: numbered(alloc, "u", number)?, version: version(alloc, release)? },
        singleton: true,
        filter: None,
        update: Update {
            id: numbered(alloc, "u", number)?,
            range: any(alloc)?,
            severity: 0,
            description: Text::from_str(alloc, "")?,
        },
        touchpoint: None,
        properties: List::new(alloc),
        provided: provides,
        required: needs,
        artifacts: List::new(alloc),
        phases: List::new(alloc),
    })
}

/// Five versions of each id, in the order of their names.
fn made(alloc: Global, ids: u32) -> Result<Catalog, NoMemory> {
    let mut catalog = Catalog::new(alloc)?;
    for number in 0..ids {
        for release in 1..6 {
            catalog.add(unit(alloc, number, release)?).map_err(|_| NoMemory)?;
        }
    }
    Ok(catalog)
}

fn members(alloc: Global, count: u32) -> Result<List<u32>, NoMemory> {
    let mut numbers = List::new(alloc);
    for number in 0..count {
        numbers.push(number)?;
    }
    Ok(numbers)
}

/// The constraints of all units.
fn encoded(alloc: Global, catalog: &Catalog) -> Result<usize, NoMemory> {
    let numbers = members(alloc, catalog.len())?;
    let problem = encode(catalog, &numbers, &List::new(alloc), &Env::new(alloc)).map_err(|_| NoMemory)?;
    Ok(problem.constraints.len())
}

/// Nanoseconds a member to encode all units of so many ids, as often as makes 40,000 members.
fn time(rt: &HostRuntime, ids: u32) -> io::Result<Option<u64>> {
    let Ok(catalog) = made(rt.alloc(), ids) else {
        return Ok(None);
    };
    let times = 8_000 / ids;
    let start = Instant::now(rt)?;
    for _ in 0..times {
        match encoded(rt.alloc(), &catalog) {
            Ok(count) if count == (11 * ids) as usize => (),
            _ => return Ok(None),
        }
    }
    Ok(Some(start.elapsed(rt)?.as_micros() as u64 * 1000 / 40_000))
}

fn main(rt: HostRuntime) -> io::Result<()> {
    let (Some(small), Some(large)) = (time(&rt, 160)?, time(&rt, 1_600)?) else {
        return println!(rt; "no problem");
    };
    let growth = large * 100 / (small + 1);
    println!(rt; "ten times the members: {small} ns and {large} ns a member, {growth} %")
}
PROGRAM
cd "$work/crates/bench_encode"
rt try --seconds 900 2>&1 | grep '^ten times\|^no problem\|error'
