#!/usr/bin/env bash
# What a change of many new files costs on a real folder: 10, 100 and 1,000 files of 4 KiB through `begin`, one list of
# touches and `finish`, beside the same files written and synced plainly. It prints the microseconds and the calls of fsync
# of both. A touch writes three files (its entry, the entry's mark and its own), so three calls a file are wanted, and a
# number beside them that doesn't grow with the files. The program is built anew in a temporary folder with the checks of
# `rt try`, runs under strace as the plain one does, and is not proved. COUNTS gives other numbers of files. Without strace
# it says so and ends well.
set -eu
top=$(dirname -- "$(dirname -- "$(readlink -f -- "$0")")")
command -v strace >/dev/null || { echo 'change_syncs: strace is not on the PATH'; exit 0; }
work=$(mktemp -d)
trap 'rm -rf "$work"' EXIT
mkdir -p "$work/crates/bench_change/src"
for name in osgi_version folder_core backup_store install_journal host_adapters; do
    tar -c -C "$top/crates" --exclude=out --exclude=must-fail "$name" | tar -x -C "$work/crates"
    grep "^$name:" "$top/crates.txt" >> "$work/crates.txt"
done
echo 'bench_change: osgi_version folder_core backup_store install_journal host_adapters' >> "$work/crates.txt"

write_program() {
    cat > "$work/crates/bench_change/src/main.rt" <<PROGRAM
#![tactic(auto)]

use folder_core::{Blob, Name, Node, Path, Touch};
use host_adapters::HostFolder;
use install_journal::{Change, FinishFault};
use osgi_version::{List, NoMemory, Text};
use std::alloc::Global;
use std::io;
use std::time::Instant;

const COUNT: u32 = $1;

fn touch(alloc: Global, number: u32) -> Result<Touch, NoMemory> {
    let text = format!(in alloc; "f{number}")?;
    let mut path = Path::root(alloc);
    if let Some(name) = Name::new(&Text::from_str(alloc, text.as_str())?)? {
        let _ = path.push(name)?;
    }
    let bytes = vec![in alloc; 0x61u8; 4096]?;
    let node = match Blob::new(List::from_vec(bytes)) {
        Some(blob) => Some(Node::File { mode: 0o644, blob }),
        None => None,
    };
    Ok(Touch { path, node })
}

fn touches(alloc: Global) -> Result<Vec<Touch>, NoMemory> {
    let mut all = Vec::new(alloc);
    for number in 0..COUNT {
        all.push(touch(alloc, number)?)?;
    }
    Ok(all)
}

fn is_done(rt: &HostRuntime, all: &[Touch]) -> io::Result<bool> {
    let root = format!(in rt.alloc(); ".")?;
    let mut folder = HostFolder::new(*rt, root);
    let Ok(mut change) = Change::begin(rt.alloc(), &mut folder) else {
        return Ok(false);
    };
    if change.touch_all(rt.alloc(), &mut folder, all).is_err() {
        let _ = change.abandon(rt.alloc(), &mut folder);
        return Ok(false);
    }
    match change.finish(rt.alloc(), &mut folder) {
        Ok(_) => Ok(true),
        Err(FinishFault::Closing) => Ok(false),
        Err(FinishFault::Before(change)) => {
            change.leave();
            Ok(false)
        }
        Err(FinishFault::NoMemory(change)) => {
            change.leave();
            Ok(false)
        }
    }
}

fn main(rt: HostRuntime) -> io::Result<()> {
    let Ok(all) = touches(rt.alloc()) else {
        return println!(rt; "no memory");
    };
    let start = Instant::now(&rt)?;
    let done = is_done(&rt, all.as_slice())?;
    let time = start.elapsed(&rt)?.as_micros();
    println!(rt; "{done} {time}")
}
PROGRAM
}

cat > "$work/plain.py" <<'PLAIN'
import os, sys, time
start = time.time()
for number in range(int(sys.argv[1])):
    with open("f%d" % number, "wb") as file:
        file.write(b"a" * 4096)
        os.fsync(file.fileno())
directory = os.open(".", os.O_RDONLY)
os.fsync(directory)
print(int((time.time() - start) * 1000000))
PLAIN

calls() {
    grep -c 'fsync(\|fdatasync(' "$work/calls"
}

for count in ${COUNTS:-10 100 1000}; do
    write_program "$count"
    cd "$work/crates/bench_change"
    line=$(strace -f -qq -o "$work/calls" -e trace=fsync,fdatasync rt try --seconds 300 2>&1 | grep '^true \|^false \|error' | tail -1)
    syncs=$(calls)
    mkdir "$work/plain$count"
    cd "$work/plain$count"
    plain=$(strace -f -qq -o "$work/calls" -e trace=fsync,fdatasync python3 "$work/plain.py" "$count")
    echo "$count files: change $line us, $syncs fsync; plain $plain us, $(calls) fsync"
done
