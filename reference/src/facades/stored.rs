//! The form of stored cases and of their answers.

use std::fmt::Write;

use super::Case;
use crate::flat;

/// In 32-bit numbers, big-endian, how many cases there are, and the cases one
/// after the other: how many numbers of the list are not 0, for each of them its
/// index and itself, the length of the list, the four numbers of the step.
pub fn input(cases: &[Case]) -> Vec<u8> {
    let mut bytes = Vec::new();
    push_number(&mut bytes, cases.len() as u32);
    for case in cases {
        push_case(&mut bytes, case);
    }
    bytes
}

/// Gives the number of bytes.
pub fn push_case(bytes: &mut Vec<u8>, case: &Case) -> usize {
    let before = bytes.len();
    let filled: Vec<(usize, u32)> =
        case.numbers.iter().copied().enumerate().filter(|(_, number)| *number != 0).collect();
    push_number(bytes, filled.len() as u32);
    for (index, number) in filled {
        push_number(bytes, index as u32);
        push_number(bytes, number);
    }
    push_number(bytes, case.numbers.len() as u32);
    for number in case.step {
        push_number(bytes, number);
    }
    bytes.len() - before
}

fn push_number(bytes: &mut Vec<u8>, number: u32) {
    bytes.extend_from_slice(&number.to_be_bytes());
}

/// A line per case: its number from 1, refusal, outcome, then the index and
/// the number for each number of the list that changed.
pub fn output(cases: &[Case]) -> String {
    let mut text = String::new();
    for (index, case) in cases.iter().enumerate() {
        let answer = flat::answer(&case.numbers, case.step);
        push_words(&mut text, &[index as u32 + 1, answer.refusal.into(), answer.outcome.into()]);
        let numbers = case.numbers.iter().zip(&answer.facade).enumerate();
        for (place, (_, now)) in numbers.filter(|(_, (before, now))| before != now) {
            text.push(' ');
            push_words(&mut text, &[place as u32, *now]);
        }
        text.push('\n');
    }
    text
}

fn push_words(text: &mut String, numbers: &[u32]) {
    for (index, number) in numbers.iter().enumerate() {
        let space = if index == 0 { "" } else { " " };
        write!(text, "{space}{number}").expect("a string takes all text");
    }
}
