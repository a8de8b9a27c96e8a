//! Measures the time of the library and of the same work in plain Rust and plain C.
//!
//! `bench` prints the least time of several rounds for each of the three, and the library's time divided by each
//! other time.
//! `bench again CASE WHO` does the work of a case 10 times in the function `again`, so that a tool can count its
//! instructions. WHO is 0 for the library, 1 for Rust, 2 for C. It prints the case's name and the number of parts that
//! were done. `bench cases` prints the cases' numbers. `bench saving` measures how much shortening saves, and how fast.

mod plain;
mod plain_c;
mod saving;
mod turns;
mod work;

use std::env;
use std::hint::black_box;
use std::process::ExitCode;
use std::time::{Duration, Instant};

use walnut::STORED_BYTES;
use work::{case, Case, Who, ALL, CASES};

/// The number of rounds. The shortest time of all rounds counts.
const ROUNDS: usize = 100;

/// The least duration of a round.
const ROUND: Duration = Duration::from_millis(10);

/// How often `bench again` does the work.
const COUNTED: u32 = 10;

/// Does the work of a case `times` times.
#[inline(never)]
fn again(case: &Case, who: Who, times: u32) {
    let mut out = [0; STORED_BYTES];
    for _ in 0..times {
        black_box(case.work.run(black_box(who), black_box(&mut out)));
    }
}

/// The mean time of one part of the work, over one round, in seconds.
fn round(case: &Case, who: Who) -> f64 {
    let (start, mut times) = (Instant::now(), 0);
    while start.elapsed() < ROUND {
        again(case, who, 1);
        times += 1;
    }
    start.elapsed().as_secs_f64() / f64::from(times) / case.parts as f64
}

/// The shortest times of the library, of Rust and of C. The three take turns.
fn least(case: &Case) -> [f64; 3] {
    let mut least = [f64::INFINITY; 3];
    for _ in 0..ROUNDS {
        for (time, who) in least.iter_mut().zip(ALL) {
            *time = time.min(round(case, who));
        }
    }
    least
}

/// Do all three give the same outcome?
fn agree(case: &Case) -> bool {
    let [library, rust, c] = ALL.map(|who| case.work.outcome(who));
    library == rust && rust == c
}

fn print_times(case: &Case) {
    let [library, rust, c] = least(case);
    let (unit, scale) = if library < 1e-6 { ("ns", 1e9) } else { ("us", 1e6) };
    println!(
        "{:<28} {:>9.2} {:>9.2} {:>9.2} {unit} {:>8.2} {:>8.2}",
        case.name,
        library * scale,
        rust * scale,
        c * scale,
        library / rust,
        library / c
    );
}

fn times() -> bool {
    println!("{:<28} {:>9} {:>9} {:>9}    {:>8} {:>8}", "", "library", "Rust", "C", "to Rust", "to C");
    (0..CASES).map(case).all(|case| {
        let agreed = agree(&case);
        if agreed {
            print_times(&case);
        } else {
            println!("{}: the library, Rust and C do not give the same outcome", case.name);
        }
        agreed
    })
}

/// The number in a word, if it is below the bound.
fn below(bound: usize, word: &str) -> Option<usize> {
    word.parse().ok().filter(|number| *number < bound)
}

/// Does the work of `bench again`. False if an argument is wrong.
fn counted(number: &str, who: &str) -> bool {
    let (Some(number), Some(who)) = (below(CASES, number), below(ALL.len(), who)) else { return false };
    let case = case(number);
    println!("{}\t{}", case.name, COUNTED as usize * case.parts);
    again(&case, ALL[who], COUNTED);
    true
}

fn main() -> ExitCode {
    let arguments: Vec<String> = env::args().skip(1).collect();
    let words: Vec<&str> = arguments.iter().map(String::as_str).collect();
    let well = match words[..] {
        [] => times(),
        ["cases"] => {
            (0..CASES).for_each(|number| println!("{number}"));
            true
        }
        ["again", number, who] => counted(number, who),
        ["saving"] => saving::saving(),
        _ => false,
    };
    if well {
        ExitCode::SUCCESS
    } else {
        ExitCode::from(1)
    }
}
