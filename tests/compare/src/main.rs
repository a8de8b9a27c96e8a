//! Compares the library and the programs that use it with the reference: first on the papers' slips, whose results are
//! typed, then on seeded inputs.
//!
//! `compare [--seed N] [--cases N] [--programs FOLDER]`
//!
//! - `--seed`: the seed of all random choices
//! - `--cases`: the number of random cases after the systematic ones
//! - `--programs`: the folder of the programs; without it no program is run
//!
//! On a difference it prints the smallest input that shows the difference, and exits with 1. Otherwise its last lines
//! say how many cases were compared for each operation and each program, and how many cloaking words were inserted.

mod case;
// the declarations of the Rust binding, which are private there; the version is not compared
#[allow(dead_code)]
#[path = "../../../bindings/rust/src/exported.rs"]
mod exported;
mod fixed;
mod library;
mod make;
mod operation;
mod operations;
mod plan;
mod programs;
mod show;
mod shrink;
mod tally;

use std::env;
use std::path::PathBuf;
use std::process::ExitCode;

use reference::testkit::Random;

use case::Input;
use make::Maker;
use operation::By;
use plan::{Failure, Run};

/// The options of the command line.
struct Options {
    seed: u64,
    cases: usize,
    programs: Option<PathBuf>,
}

const USAGE: &str = "use: compare [--seed N] [--cases N] [--programs FOLDER]";

/// Reads the options of the command line, or says what is wrong with them.
fn options(mut arguments: impl Iterator<Item = String>) -> Result<Options, String> {
    let mut options = Options { seed: 1, cases: 100_000, programs: None };
    while let Some(name) = arguments.next() {
        let text = arguments.next().ok_or(format!("{name} wants a value; {USAGE}"))?;
        let number = || text.parse::<u64>().map_err(|_| format!("{name}: {text} is no number; {USAGE}"));
        match name.as_str() {
            "--seed" => options.seed = number()?,
            "--cases" => options.cases = number()? as usize,
            "--programs" => options.programs = Some(PathBuf::from(text)),
            _ => return Err(format!("{name} is not understood; {USAGE}")),
        }
    }
    Ok(options)
}

/// Makes an input on which the library differs from the reference as small as possible, and prints it.
fn print_difference(input: Input) {
    let input = shrink::smallest(input, &Input::differs);
    let (reference, library) = (input.outcome(By::Reference), input.outcome(By::Library));
    println!("the library differs from the reference; the smallest input found:");
    print!("{}", show::input(&input));
    println!("  reference: {}", show::outcome(&input, &reference));
    println!("  library:   {}", show::outcome(&input, &library));
    if let Some(difference) = show::difference(&input, &reference, &library) {
        println!("  {difference}");
    }
}

/// Prints an input on which both agree, but not with the papers.
fn print_unexpected(input: &Input, account: &str) {
    println!("library and reference agree, but {account}:");
    print!("{}", show::input(input));
    println!("  found: {}", show::outcome(input, &input.outcome(By::Reference)));
}

/// Runs the plan. Returns whether there was no difference and no gap.
fn run_plan(options: &Options) -> bool {
    let mut run = Run::new(options.seed);
    if let Err(failure) = run.whole(options.cases) {
        match *failure {
            Failure::Differs(input) => print_difference(input),
            Failure::Unexpected(input, account) => print_unexpected(&input, &account),
        }
        return false;
    }
    let gaps = [run.tally.gaps(), run.insertions.gaps()].concat();
    for gap in &gaps {
        println!("answers not as the papers allow: {gap}");
    }
    println!("{}", run.tally.summary());
    println!("{}", run.insertions.summary());
    gaps.is_empty()
}

/// Runs the fixed cases, then the plan, then the programs. Stops at the first failure.
fn run(options: &Options) -> Result<bool, String> {
    println!("fixed cases that hold of library and reference: {}", fixed::check()?);
    println!("seed {}", options.seed);
    if !run_plan(options) {
        return Ok(false);
    }
    let Some(folder) = &options.programs else { return Ok(true) };
    let mut maker = Maker { random: Random::seeded(options.seed) };
    for line in programs::check(folder, &mut maker)? {
        println!("{line}");
    }
    Ok(true)
}

fn main() -> ExitCode {
    let options = match options(env::args().skip(1)) {
        Ok(options) => options,
        Err(account) => {
            eprintln!("{account}");
            return ExitCode::from(2);
        }
    };
    match run(&options) {
        Ok(true) => ExitCode::SUCCESS,
        Ok(false) => ExitCode::from(1),
        Err(account) => {
            print!("{account}");
            ExitCode::from(1)
        }
    }
}
