//! Random lists of calls through the C library and through a model written from document 01 alone, side by side;
//! first the document's worked sums with its own numbers.
//!
//! `model` runs everything, and `model counts` prints each situation's count too; `model list 17` runs the list of
//! seed 17 alone, `model meter 17` and `model record 17` likewise; `model abi` prints sizes and offsets.

mod abi;
mod bounds;
mod calendar;
mod calls;
mod compare;
mod demand3;
mod edges;
mod journals;
mod ledger;
mod library;
mod situations;
mod meters;
mod model;
mod plan;
mod plan_records;
mod queries;
mod random;
mod runs;
mod stamps;
mod seen;
mod worked;

use std::process::ExitCode;
use seen::Seen;

/// Seeds of each part are 1 to this.
const LISTS: u64 = 30_000;
const METERS: u64 = 9_000;
const RECORDS: u64 = 10_000;

type Run = fn(u64, &mut Seen) -> Result<(), runs::Failure>;

/// The parts, each a run for one seed.
const PARTS: [(&str, u64, Run); 3] =
    [("list", LISTS, runs::list), ("meter", METERS, runs::meters), ("record", RECORDS, runs::records)];

fn main() -> ExitCode {
    let arguments: Vec<String> = std::env::args().skip(1).collect();
    if arguments == ["abi"] {
        abi::print();
        return ExitCode::SUCCESS;
    }
    let counts = arguments == ["counts"];
    let whole = counts || arguments.is_empty();
    let mut seen = Seen::default();
    if let Err(difference) = worked::sums(&mut seen) {
        println!("model: a worked sum of document 01 fails, {difference}");
        return ExitCode::FAILURE;
    }
    println!("worked sums of document 01: hold");
    for (name, seeds, run) in PARTS {
        let seeds = match arguments.as_slice() {
            _ if whole => 1..=seeds,
            [part, seed] if part == name => {
                let seed = seed.parse().unwrap_or(0);
                seed..=seed
            }
            _ => continue,
        };
        println!("{name}: seeds {} to {}", seeds.start(), seeds.end());
        for seed in seeds {
            if let Err(failure) = run(seed, &mut seen) {
                println!("model: they differ, {name} of seed {seed}, {failure}");
                return ExitCode::FAILURE;
            }
        }
    }
    seen.print();
    if counts {
        seen.print_situations();
    }
    let missing = if whole { seen.missing(&runs::situations()) } else { vec![] };
    if !missing.is_empty() {
        println!("model: never met: {}", missing.join("; "));
        return ExitCode::FAILURE;
    }
    println!("model: all agree");
    ExitCode::SUCCESS
}
