//! What a case shows, so that stored cases show different things.

use super::limits::outside;
use super::tally::{delivered, met};
use super::Case;
use crate::flat::{facade_in_range, places, to_numbers, Answer};
use crate::held_ack::Meeting;

/// What a case shows: the refusal and the kind, and of a deliver that is
/// accepted or has refusal 13 the type of the message and the outcome.
#[derive(Clone, Copy, PartialEq, Eq, PartialOrd, Ord)]
pub struct Sort {
    pub refusal: u8,
    pub kind: u32,
    pub message: Option<usize>,
    pub outcome: u8,
}

/// What it shows besides: the parts of the list that changed, those in which
/// an unused place changed, of refusal 2 the number that is outside its
/// range, and of an ack how it meets a client that holds.
#[derive(Clone, Copy, PartialEq, Eq, PartialOrd, Ord)]
pub struct Detail {
    pub changed: u16,
    pub unused: u16,
    pub outside: Option<(&'static str, usize)>,
    pub meeting: Option<Meeting>,
}

pub fn shown(case: &Case, answer: &Answer) -> (Sort, Detail) {
    let refusal = answer.refusal;
    let sort = Sort {
        refusal,
        kind: if refusal == 2 { 0 } else { case.step[0].min(11) },
        message: if refusal == 0 || refusal == 13 { delivered(case) } else { None },
        outcome: answer.outcome,
    };
    let numbers = case.numbers.iter().zip(&answer.facade).enumerate();
    let changed: Vec<usize> =
        numbers.filter(|(_, (was, is))| was != is).map(|(place, _)| place).collect();
    let detail = Detail {
        changed: parts(&changed),
        unused: parts(&only_unused(&changed, &answer.facade)),
        outside: if refusal == 2 { outside(&case.numbers) } else { None },
        meeting: if refusal == 0 { met(case) } else { None },
    };
    (sort, detail)
}

/// Those of the places that are unused.
fn only_unused(places: &[usize], list: &[u32]) -> Vec<usize> {
    let Ok(facade) = facade_in_range(list) else {
        return Vec::new();
    };
    // An unused place keeps another number when the facade is put over it.
    let others: Vec<u32> = list.iter().map(|number| !number).collect();
    let put = to_numbers(&facade, &others);
    places.iter().copied().filter(|&place| put[place] == others[place]).collect()
}

/// The parts of the list in which the places are, a bit for each.
fn parts(places: &[usize]) -> u16 {
    places.iter().fold(0, |parts, &place| parts | 1 << part(place))
}

fn part(place: usize) -> usize {
    // Time, next κ, waiting count, offsets, notice times.
    let ends = [8, 9, 10, places::notice_time(0, 0), places::alive(0)];
    if let Some(part) = ends.iter().position(|end| place < *end) {
        return part;
    }
    if place >= places::client(0) {
        return if place < places::message(0) { 14 } else { 15 };
    }
    // Alive and times, believed, led, lent ends, records, reservations,
    // writes, acknowledged.
    let own = (place - places::alive(0)) % places::SERVER;
    let ends = [3, 7, 39, 71, 103, 199];
    match ends.iter().position(|end| own < *end) {
        Some(part) => 5 + part,
        None => 11 + usize::from((own - 199) % places::WRITE >= 3),
    }
}
