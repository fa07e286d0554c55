//! `handed SEED COUNT` hands random facades to the proved library and to the
//! reference, and compares the refusal, the outcome and the whole next facade.

use std::process::ExitCode;
use std::time::{SystemTime, UNIX_EPOCH};

use hoyllaqe::{Refusal, Step};
use reference::facades::tally::Tally;
use reference::facades::{self, Case};
use reference::flat::{self, Answer};

const DEFAULT_COUNT: u64 = 200_000;

struct Order {
    seed: u64,
    count: u64,
}

fn order() -> Option<Order> {
    let arguments: Vec<String> = std::env::args().skip(1).collect();
    let number = |at: usize, other: u64| match arguments.get(at) {
        Some(text) => text.parse().ok(),
        None => Some(other),
    };
    if arguments.len() > 2 {
        return None;
    }
    Some(Order { seed: number(0, by_clock())?, count: number(1, DEFAULT_COUNT)? })
}

fn by_clock() -> u64 {
    let since = SystemTime::now().duration_since(UNIX_EPOCH);
    since.map(|time| time.as_secs()).unwrap_or(0)
}

/// What the proved library answers, in the reference's form.
fn proved(case: &Case) -> Answer {
    let mut facade = case.numbers.clone();
    let [kind, fields @ ..] = case.step;
    match hoyllaqe::step(&mut facade, Step { kind, fields }) {
        Ok(outcome) => Answer { refusal: 0, outcome: small(outcome), facade },
        Err(Refusal(refusal)) => Answer { refusal: small(refusal), outcome: 0, facade },
    }
}

/// A number too large for the reference's form is one that it never gives.
fn small(number: u32) -> u8 {
    u8::try_from(number).unwrap_or(u8::MAX)
}

fn differing(ours: &Answer, theirs: &Answer) -> String {
    let places = ours.facade.iter().zip(&theirs.facade).enumerate();
    let lines: Vec<String> = places
        .filter(|(_, (one, other))| one != other)
        .map(|(place, (one, other))| format!("  number {place}: proved {one}, reference {other}"))
        .collect();
    lines.join("\n")
}

fn show(index: u64, case: &Case, ours: &Answer, theirs: &Answer) {
    println!("case {index} ({}), step {:?} differs", case.family, case.step);
    println!("  refusal: proved {}, reference {}", ours.refusal, theirs.refusal);
    println!("  outcome: proved {}, reference {}", ours.outcome, theirs.outcome);
    println!("{}", differing(ours, theirs));
}

fn main() -> ExitCode {
    let Some(Order { seed, count }) = order() else {
        eprintln!("use: handed [SEED] [COUNT]");
        return ExitCode::FAILURE;
    };
    println!("seed {seed}, {count} facades");
    let mut tally = Tally::default();
    for index in 0..count {
        let case = facades::case(seed, index);
        let ours = proved(&case);
        let theirs = flat::answer(&case.numbers, case.step);
        if ours != theirs {
            show(index, &case, &ours, &theirs);
            return ExitCode::FAILURE;
        }
        tally.add_answer(&case, &theirs);
    }
    print!("{tally}");
    println!("no difference");
    ExitCode::SUCCESS
}
