#!/usr/bin/env bash
# What a set costs in a folder in memory that holds ten thousand paths, against one that holds a thousand: the ratio stays
# small where a look-up costs the logarithm of the number of paths. Times are compared within one run only. The program is
# built anew in a temporary folder and is not proved.
set -eu
top=$(dirname -- "$(dirname -- "$(readlink -f -- "$0")")")
work=$(mktemp -d)
trap 'rm -rf "$work"' EXIT
mkdir -p "$work/crates/bench_folder/src"
cp -r "$top/crates/osgi_version" "$top/crates/folder_core" "$top/crates/folder_memory" "$work/crates/"
rm -rf "$work"/crates/*/must-fail
printf 'osgi_version: thiserror\nfolder_core: osgi_version thiserror\nfolder_memory: osgi_version folder_core thiserror\nbench_folder: osgi_version folder_core folder_memory\n' > "$work/crates.txt"
cat > "$work/crates/bench_folder/src/main.rt" <<'PROGRAM'
#![tactic(auto)]

use folder_core::{Folder, FolderError, Node, Path};
use folder_memory::MemoryFolder;
use osgi_version::Text;
use std::alloc::Global;
use std::io;
use std::time::Instant;

fn path_of(alloc: Global, number: u32) -> Result<Path, FolderError> {
    let name = format!(in alloc; "f{number}").map_err(|_| FolderError::NoMemory)?;
    let text = Text::from_str(alloc, name.as_str())?;
    Ok(Path::read(alloc, &text)?.unwrap())
}

/// Sets directories below the root, with a sync behind each hundred.
fn fill(alloc: Global, folder: &mut MemoryFolder, from: u32, to: u32) -> Result<(), FolderError> {
    for number in from..to {
        folder.set(&path_of(alloc, number)?, Some(&Node::Dir))?;
        if number % 100 == 0 {
            folder.sync()?;
        }
    }
    Ok(())
}

fn main(rt: HostRuntime) -> io::Result<()> {
    let mut folder = MemoryFolder::new(rt.alloc());
    let start = Instant::now(&rt)?;
    let first = fill(rt.alloc(), &mut folder, 0, 1000);
    let few = start.elapsed(&rt)?;
    let middle = fill(rt.alloc(), &mut folder, 1000, 9000);
    let start = Instant::now(&rt)?;
    let last = fill(rt.alloc(), &mut folder, 9000, 10000);
    let many = start.elapsed(&rt)?;
    if first.is_err() || middle.is_err() || last.is_err() {
        return println!(rt; "a call failed");
    }
    let percent = many.as_micros() as u64 * 100 / (few.as_micros() as u64 + 1);
    println!(rt; "the last thousand of {} calls cost {percent} % of the first thousand", folder.calls())
}
PROGRAM
cd "$work/crates/bench_folder"
rt try 2>&1 | grep -E '^(the last|a call failed)'
