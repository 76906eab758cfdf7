#!/usr/bin/env bash
# What a catalog of 60,000 units costs against one of 10,000: adding them, finding the providers of each requirement, and
# the slice of 8,000 units. Per unit both cost about the same, and so does the same slice in both. Times are compared
# within one run only. The program is built anew in a temporary folder and is not proved.
set -eu
top=$(dirname -- "$(dirname -- "$(readlink -f -- "$0")")")
work=$(mktemp -d)
trap 'rm -rf "$work"' EXIT
mkdir -p "$work/crates/bench_catalog/src"
for name in osgi_version ldap_filter unit_model unit_catalog unit_slicer; do
    cp -r "$top/crates/$name" "$work/crates/"
    grep "^$name:" "$top/crates.txt" >> "$work/crates.txt"
done
rm -rf "$work"/crates/*/must-fail "$work"/crates/*/out
echo 'bench_catalog: osgi_version ldap_filter unit_model unit_catalog unit_slicer' >> "$work/crates.txt"
cat > "$work/crates/bench_catalog/src/main.rt" <<'PROGRAM'
#![tactic(auto)]

use ldap_filter::Env;
use osgi_version::{List, NoMemory, Range, Text, Version};
use std::alloc::Global;
use std::io;
use std::time::Instant;
use unit_catalog::Catalog;
use unit_model::{Provided, Required, Unit, UnitName, Update};
use unit_slicer::slice;

fn version(alloc: Global) -> Result<Version, NoMemory> {
    Version::parse(alloc, b"1.0.0").map_err(|_| NoMemory)
}

fn any(alloc: Global) -> Result<Range, NoMemory> {
    Range::parse(alloc, b"0.0.0").map_err(|_| NoMemory)
}

fn numbered(alloc: Global, letter: &str, number: u32) -> Result<Text, NoMemory> {
    let text = format!(in alloc; "{letter}{number}")?;
    Text::from_str(alloc, text.as_str())
}

fn provided(alloc: Global, namespace: &str, letter: &str, number: u32) -> Result<Provided, NoMemory> {
    Ok(Provided {
        namespace: Text::from_str(alloc, namespace)?,
        name: numbered(alloc, letter, number)?,
        version: version(alloc)?,
    })
}

fn required(alloc: Global, letter: &str, number: u32) -> Result<Required, NoMemory> {
    Ok(Required {
        namespace: Text::from_str(alloc, "n")?,
        name: numbered(alloc, letter, number)?,
        range: any(alloc)?,
        filter: None,
        min: 1,
        max: u32::MAX,
        greedy: true,
    })
}

/// A unit that provides itself and three capabilities, and requires two of the next unit.
fn unit(alloc: Global, number: u32) -> Result<Unit, NoMemory> {
    let mut provides = List::new(alloc);
    provides.push(provided(alloc, "org.eclipse.equinox.p2.iu", "u", number)?)?;
    for letter in ["a", "b", "c"] {
        provides.push(provided(alloc, "n", letter, number)?)?;
    }
    let mut needs = List::new(alloc);
    for letter in ["a", "b"] {
        needs.push(required(alloc, letter, number + 1)?)?;
    }
    Ok(Unit {
        name: UnitName { id: numbered(alloc, "u", number)?, version: version(alloc)? },
        singleton: false,
        filter: None,
        update: Update {
            id: numbered(alloc, "u", number)?,
            range: any(alloc)?,
            severity: 0,
            description: Text::from_str(alloc, "")?,
        },
        touchpoint: None,
        properties: List::new(alloc),
        provided: provides,
        required: needs,
        artifacts: List::new(alloc),
        phases: List::new(alloc),
    })
}

fn made(alloc: Global, count: u32) -> Result<Vec<Unit>, NoMemory> {
    let mut units = Vec::new(alloc);
    for number in 0..count {
        units.push(unit(alloc, number)?)?;
    }
    Ok(units)
}

fn added(alloc: Global, units: Vec<Unit>) -> Result<Catalog, NoMemory> {
    let mut catalog = Catalog::new(alloc)?;
    for unit in units {
        catalog.add(unit).map_err(|_| NoMemory)?;
    }
    Ok(catalog)
}

/// How many providers all requirements have together.
fn provided_in(catalog: &Catalog) -> Result<usize, NoMemory> {
    let mut found = 0;
    for number in 0..catalog.len() {
        let Some(unit) = catalog.unit(number) else {
            return Err(NoMemory);
        };
        for required in unit.required.items() {
            found += catalog.providers(required)?.len();
        }
    }
    Ok(found)
}

/// The size of the slice of the unit that is followed by 7,999 others.
fn sliced(alloc: Global, catalog: &Catalog) -> Result<usize, NoMemory> {
    let mut roots = List::new(alloc);
    roots.push(UnitName { id: numbered(alloc, "u", catalog.len() - 8_000)?, version: version(alloc)? })?;
    let numbers = slice(catalog, &roots, &Env::new(alloc)).map_err(|_| NoMemory)?;
    Ok(numbers.len())
}

/// Nanoseconds for each unit to add it and to find the providers of what it needs, and microseconds for the slice.
fn times(rt: &HostRuntime, count: u32) -> io::Result<Option<(u64, u64, u64)>> {
    let Ok(units) = made(rt.alloc(), count) else {
        return Ok(None);
    };
    let start = Instant::now(rt)?;
    let Ok(catalog) = added(rt.alloc(), units) else {
        return Ok(None);
    };
    let adding = start.elapsed(rt)?.as_micros() as u64 * 1000 / u64::from(count);
    let start = Instant::now(rt)?;
    let Ok(found) = provided_in(&catalog) else {
        return Ok(None);
    };
    let finding = start.elapsed(rt)?.as_micros() as u64 * 1000 / u64::from(count);
    let start = Instant::now(rt)?;
    let Ok(size) = sliced(rt.alloc(), &catalog) else {
        return Ok(None);
    };
    let slicing = start.elapsed(rt)?.as_micros() as u64;
    if found != 2 * (count as usize - 1) || size != 8_000 {
        return Ok(None);
    }
    Ok(Some((adding, finding, slicing)))
}

/// The least of each of three runs, which other work on the machine disturbs least.
fn least(rt: &HostRuntime, count: u32) -> io::Result<Option<(u64, u64, u64)>> {
    let mut least = (u64::MAX, u64::MAX, u64::MAX);
    for _ in 0..3 {
        let Some(run) = times(rt, count)? else {
            return Ok(None);
        };
        least = (least.0.min(run.0), least.1.min(run.1), least.2.min(run.2));
    }
    Ok(Some(least))
}

fn main(rt: HostRuntime) -> io::Result<()> {
    let (Some(small), Some(large)) = (least(&rt, 10_000)?, least(&rt, 60_000)?) else {
        return println!(rt; "no catalog");
    };
    let adding = large.0 * 100 / (small.0 + 1);
    let finding = large.1 * 100 / (small.1 + 1);
    let slicing = large.2 * 100 / (small.2 + 1);
    println!(rt; "six times the units: adding one {adding} %, its providers {finding} %, a slice of 8,000 {slicing} %")
}
PROGRAM
cd "$work/crates/bench_catalog"
rt try --seconds 900 2>&1 | grep '^six times\|^no catalog\|error'
