#!/usr/bin/env bash
# What the solver takes for problems that solver_problems.py makes by a fixed rule, against clasp and sat4j where they are
# on this machine: CPU seconds of a whole run, which reads the problem too, conflicts and peak memory. Words of the first
# argument, a regular expression, choose problems by their names. Times are compared within one run only.
# The program is proved and built anew in a temporary folder, over what checks of this checkout kept of the crates below.
set -eu
bench=$(dirname -- "$(readlink -f -- "$0")")
top=$(dirname -- "$bench")
work=$(mktemp -d)
trap 'rm -rf "$work"' EXIT
mkdir -p "$work/crates/bench_solver/src" "$work"/crates/bench_solver/proofs/{run,solved} "$work/problems"
for name in osgi_version pb_core deriv_check pb_trail clause_learning pb_solver; do
    cp -a "$top/crates/$name" "$work/crates/"
    grep "^$name:" "$top/crates.txt" >> "$work/crates.txt"
done
rm -rf "$work"/crates/*/must-fail
echo 'bench_solver: osgi_version pb_core deriv_check pb_solver' >> "$work/crates.txt"
cat > "$work/crates/bench_solver/src/main.rt" <<'PROGRAM'
#![tactic(auto)]
ghost use Rattle.std.specs.Prelude.{◌≡◌};

use deriv_check::{CheckFault, read_evidence};
use osgi_version::{List, NoMemory};
use pb_core::Steps;
use pb_solver::{Answer, solve};
use std::alloc::Global;
use std::io;
use std::io::Read;
use std::marker::Brand;
use std::sync::ledger::{Blank, Ledger};

fn solved<L: Ledger>(alloc: Global, text: &[u8], blank: Blank) -> Result<Answer, CheckFault>
    requires name { blank.name ≡ L.name }
    requires parts { blank.parts ≡ L.parts }
    requires one { blank.parts ≡ 1 }
{
    let evidence = read_evidence(alloc, text)?;
    let order = List::new(alloc);
    let mut steps = Steps::<L>::new(blank);
    let answer = solve(alloc, &evidence.problem, 50_000, &order, &mut steps)?;
    Ok(answer)
}

fn answer_text(alloc: Global, answer: &Answer) -> Result<String, NoMemory> {
    Ok(match answer {
        Answer::Model(_) => format!(in alloc; "satisfiable")?,
        Answer::Refuted(derivation) => format!(in alloc; "unsatisfiable\nconflicts: {}", derivation.lines.len())?,
        Answer::Spent(derivation) => format!(in alloc; "spent\nconflicts: {}", derivation.lines.len())?,
    })
}

fn run(alloc: Global, text: &[u8]) -> Result<String, CheckFault> {
    let answer = solved::<Brand>(alloc, text, Blank::new(1))?;
    Ok(answer_text(alloc, &answer)?)
}

fn main(rt: HostRuntime) -> io::Result<()> {
    let mut text = Vec::new(rt.alloc());
    let mut input = rt.stdin();
    input.read_to_end(&mut text)?;
    match run(rt.alloc(), &text) {
        Ok(text) => println!(rt; "{text}"),
        Err(fault) => println!(rt; "{fault}"),
    }
}
PROGRAM
cat > "$work/crates/bench_solver/proofs/run/Invariants.antt" <<'PROOF'
use Rattle.bench_solver.proofs.run.Given as goal

abbrev pub ghosts-solved : goal.ghosts-solved
ghosts-solved a = record { name = a.blank.name; parts = a.blank.parts }
PROOF
cat > "$work/crates/bench_solver/proofs/solved/Answers.antt" <<'PROOF'
use Rattle.deriv_check.specs.EvidenceForm.{IsEvidence}
use Rattle.bench_solver.proofs.solved.Goals as goal

pub solve-requires-clause-labels : goal.solve-requires-clause-labels
solve-requires-clause-labels g c = let form : IsEvidence c.in_ok-evidence.evidence = c.in_ok-evidence.ensures.exact.form in form.problem.few_labels

pub solve-requires-clause-constraints : goal.solve-requires-clause-constraints
solve-requires-clause-constraints g c = let form : IsEvidence c.in_ok-evidence.evidence = c.in_ok-evidence.ensures.exact.form in form.problem.few_constraints

pub solve-requires-clause-normal : goal.solve-requires-clause-normal
solve-requires-clause-normal g c = let form : IsEvidence c.in_ok-evidence.evidence = c.in_ok-evidence.ensures.exact.form in λ k d h. (form.problem.constraints k d h).normal
PROOF
python3 "$bench/solver_problems.py" "$work/problems"
(cd "$work/crates/bench_solver" && rt run < /dev/null > "$work/log" 2>&1) || { cat "$work/log"; exit 1; }
python3 "$bench/solver_table.py" "$work/crates/bench_solver/out/bench_solver" "$work/problems" "$@"
